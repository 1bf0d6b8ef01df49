package main

import (
	"path/filepath"
	"strings"
	"testing"
)

// A sidecar lets in whom --allow names. Another caller's token stays good.
func TestServeAllows(t *testing.T) {
	t.Parallel()
	bundle, state := bundleOption(bundleFile(t, example)), filepath.Join(t.TempDir(), "state")
	good := token(t, "allowed", lasting)
	p := start(t, bundle, "--state", state, "--allow", "spiffe://example.org/other", "--allow", "spiffe://example.com")
	status, header, body := p.check(good)
	if status != 403 || header.Get("X-Spiffe-Id") != "" || !strings.Contains(header.Get("WWW-Authenticate"), "insufficient_scope") || !strings.Contains(body, `"NotAllowed"`) {
		t.Errorf("%d %v %s", status, header, body)
	}
	if n := p.metric(`svidd_checks_total{result="not_allowed"}`); n != "1" {
		t.Errorf("%s are counted", n)
	}
	p.await("a line of the log", func() bool { return len(p.events("refused")) == 1 })
	if line := p.events("refused")[0]; line["reason"] != "NotAllowed" || line["says"] != "the caller's SPIFFE ID is not among those that may call" {
		t.Errorf("%v", line)
	}
	p.end()
	p = start(t, bundle, "--state", state, "--allow", "spiffe://example.org/*")
	p.want(good, 200, "")
	p.want(good, 401, "Replayed")
}

func TestAllowWantsAPattern(t *testing.T) {
	t.Parallel()
	status, _, err := here("", "serve", "--audience", "ledger", "--longest", "60", "--replay", "reuse", bundleOption(bundleFile(t, example)), "--allow", "example.org", "--check-config")
	if status == 0 || !strings.Contains(err, `--allow: svid: "example.org" is no pattern of SPIFFE IDs`) {
		t.Errorf("%d %s", status, err)
	}
}
