package bundles

import (
	"encoding/json"
	"errors"
	"runtime"
	"strings"
	"testing"
	"time"

	"svid.example/go/v3/internal/agenttest"
	"svid.example/go/v3/internal/patience"
	"svid.example/go/v3/workload"
)

// bare is a bundle as the Workload API of SPIRE gives it: no key says its use. used is what the validator is given of it.
const (
	bare = `{"keys":[{"kty":"EC","kid":"a","crv":"P-256","x":"AA","y":"AA"}]}`
	used = `{"keys":[{"crv":"P-256","kid":"a","kty":"EC","use":"jwt-svid","x":"AA","y":"AA"}]}`
)

// says says whether a line of the log holds this text.
func (o *observer) says(text string) func() bool {
	return func() bool {
		for _, line := range o.lines {
			if strings.Contains(line, text) {
				return true
			}
		}
		return false
	}
}

// calledTimes says whether there were so many calls.
func (o *observer) calledTimes(n int) func() bool { return func() bool { return o.calls == n } }

// ofAgent is the spec of the Workload API at this address.
func ofAgent(t *testing.T, text string) Spec {
	t.Helper()
	address, err := workload.ParseAddress(text)
	if err != nil {
		t.Fatal(err)
	}
	return WorkloadAPI(text, address)
}

func TestWorkloadAPI(t *testing.T) {
	agent := agenttest.Start(t)
	agent.Give(t, map[string]string{"spiffe://example.org": bare, "example.com": spire})
	w, o := watch(t, nil, ofAgent(t, agent.Address))
	o.await(t, "the first bundles", o.calledTimes(1))
	if o.last["example.org"] != used || !strings.Contains(o.last["example.com"], `"use":"x509-svid"`) || len(o.last) != 2 {
		t.Errorf("%q", o.last)
	}
	o.wantLines(t, 1, "bundle read domain example.org source example.org of "+agent.Address+" keys 1 passed_over 0")
	o.wantLines(t, 1, "bundle read domain example.com source example.com of "+agent.Address+" keys 1")
	if !w.Answered() {
		t.Error("it has not answered")
	}

	// The same again changes nothing. A bad bundle leaves the last good one in its place; a name that is none has no bundle.
	agent.Give(t, map[string]string{"spiffe://example.org": bare, "example.com": spire})
	agent.Give(t, map[string]string{"spiffe://example.org": "x", "spiffe://Example": bare, "example.com": spire})
	o.await(t, "the bad ones", o.says("source spiffe://Example of"))
	o.wantLines(t, 1, "bundle not read; the last good one stays source example.org of "+agent.Address+" why it is no JSON object")
	o.mu.Lock()
	if o.calls != 1 {
		t.Errorf("told %d times", o.calls)
	}
	o.mu.Unlock()

	// What is given no more goes, and what was wrong with it.
	agent.Give(t, map[string]string{"spiffe://example.org": bare})
	o.await(t, "one bundle", o.calledTimes(2))
	o.want(t, map[string]string{"example.org": used})
	o.wantLines(t, 1, "bundle dropped: the Workload API has it no more domain example.com")
	o.wantLines(t, 1, "bundle source is well again source example.org of")

	// A response without bundles is none.
	agent.Give(t, map[string]string{})
	o.await(t, "the empty response", o.says(errNoBundles.Error()))
	o.want(t, map[string]string{"example.org": used})
}

// While the agent is away the last good bundles stay, and grow old.
func TestTheAgentIsAway(t *testing.T) {
	agent := agenttest.Start(t)
	agent.Give(t, map[string]string{"spiffe://example.org": bare})
	w, o := watch(t, nil, ofAgent(t, agent.Address))
	o.await(t, "the bundle", o.calledTimes(1))
	w.mu.Lock()
	w.held["example.org"].good = time.Now().Add(-time.Hour)
	w.mu.Unlock()
	if age, ok := w.Age("example.org"); !ok || age > time.Minute {
		t.Errorf("%v old, and the agent would tell of a change", age)
	}
	agent.Kill(t)
	o.await(t, "the end of the stream", o.says("bundle not read; the last good one stays source "+agent.Address))
	o.want(t, map[string]string{"example.org": used})
	if first, ok := w.Age("example.org"); !ok || first > time.Minute {
		t.Errorf("%v old: it was good until the agent went", first)
	}
	agent.Again(t)
	agent.Give(t, map[string]string{"spiffe://example.org": spire})
	o.await(t, "the other bundle", o.calledTimes(2))
	o.await(t, "a word of it", o.says("bundle source is well again source "+agent.Address))
}

// A bundle grows old where the agent gives a bad one in its place, and all do while the agent is away.
func TestBundlesOfAnAgentGrowOld(t *testing.T) {
	agent := agenttest.Start(t)
	agent.Give(t, map[string]string{"spiffe://a": bare, "spiffe://b": bare})
	w, o := watch(t, nil, ofAgent(t, agent.Address))
	o.await(t, "the bundles", o.calledTimes(1))
	agent.Give(t, map[string]string{"spiffe://a": bare, "spiffe://b": "x"})
	o.await(t, "the bad one", o.says("source b of"))
	wantOld := func(a, b bool) {
		t.Helper()
		old := func(domain string) bool {
			w.mu.Lock()
			for _, held := range w.held {
				held.good = time.Now().Add(-time.Hour)
			}
			w.mu.Unlock()
			age, ok := w.Age(domain)
			return ok && age >= time.Hour
		}
		// (the log hears of a change before the ages do)
		for end := time.Now().Add(patience.Long); old("a") != a || old("b") != b; runtime.Gosched() {
			if time.Now().After(end) {
				t.Fatalf("a is old: %v, b is old: %v", old("a"), old("b"))
			}
		}
	}
	wantOld(false, true)
	agent.Kill(t)
	o.await(t, "the end of the stream", o.says("bundle not read; the last good one stays source "+agent.Address))
	wantOld(true, true)
}

// The log has a line about an agent that says nothing, and the watcher asks it again.
func TestASilentAgent(t *testing.T) {
	agent := agenttest.Start(t)
	_, o := watch(t, func(options *Options) { options.Limit = 2 * time.Second }, ofAgent(t, agent.Address))
	o.await(t, "a word of its silence", o.says("bundle not read source "+agent.Address+" why it is silent"))
	agent.Give(t, map[string]string{"spiffe://example.org": bare})
	o.await(t, "the bundle", o.calledTimes(1))
	o.want(t, map[string]string{"example.org": used})
	o.await(t, "a word of that", o.says("bundle source is well again source "+agent.Address))
}

// The bundles of a Workload API have together no more bytes than a file may have. The greatest are passed over.
func TestGreatBundlesOfAWorkloadAPI(t *testing.T) {
	// A bundle of so many bytes, which the validator is given as it is.
	sized := func(bytes int) string {
		const begin, end = `{"keys":[{"kid":"a","kty":"EC","use":"jwt-svid","x":"`, `"}]}`
		return begin + strings.Repeat("A", bytes-len(begin+end)) + end
	}
	const most = 1 << 20
	small, other, half := sized(1000), sized(1001), sized(most/2)
	unused := strings.Replace(sized(1017), `"use":"jwt-svid",`, "", 1) // It has 1,000 bytes, and 1,017 once its key says its use.
	agent := agenttest.Start(t)
	give := func(bundles ...string) {
		t.Helper()
		named := map[string]string{}
		for i, text := range bundles {
			named["spiffe://"+string(rune('a'+i))] = text
		}
		agent.Give(t, named)
	}
	give(small, small, small)
	_, o := watch(t, nil, ofAgent(t, agent.Address))
	calls := 1
	for _, step := range []struct {
		given, due []string
		fault      string
	}{
		{nil, []string{small, small, small}, ""},
		// The last good one stays, and all others are taken.
		{[]string{sized(15 << 20), other, small}, []string{small, other, small}, "source a of " + agent.Address + " why it has more than 1048576 bytes"},
		{[]string{other, sized(most + 1), small}, []string{other, other, small}, "source b of " + agent.Address + " why it has more than 1048576 bytes"},
		{[]string{small, small, small + strings.Repeat(" ", most)}, []string{small, small, small}, "source c of " + agent.Address + " why it has more than 1048576 bytes"},
		{[]string{other, small, sized(most - 2001)}, []string{other, small, sized(most - 2001)}, ""},
		{[]string{sized(1002), sized(1000), sized(most - 2001)}, []string{sized(1002), small, sized(most - 2001)}, "source c of " + agent.Address + " why with it"},
		{[]string{unused, small, sized(most - 2017)}, []string{sized(1017), small, sized(most - 2017)}, ""},
		{[]string{small, unused, sized(most - 2016)}, []string{small, sized(1017), sized(most - 2017)}, ""},
		{[]string{sized(1002), small, small}, []string{sized(1002), small, small}, ""},
		{[]string{half + " ", half, small}, []string{sized(1002), half, small}, "source a of " + agent.Address + " why with it"},
	} {
		if step.given != nil {
			give(step.given...)
			calls++
		}
		o.await(t, "the bundles", o.calledTimes(calls))
		if step.fault != "" {
			o.await(t, step.fault, o.says("bundle not read; the last good one stays "+step.fault))
		}
		for i, text := range step.due {
			if got := o.last[string(rune('a'+i))]; got != text {
				t.Errorf("call %d: bundle %d has %d bytes, and %d are due", calls, i, len(got), len(text))
			}
		}
	}

	// What is longer once each key says its use counts as what it becomes: 630 kB, and 1.1 MB.
	give(small, small, small, `{"keys":[`+strings.Repeat(`{"n":"AAAAAAAAAAAA"},`, 30_000)+"{}]}")
	o.await(t, "the one that grows", o.says("bundle not read source d of "+agent.Address+" why it has more than 1048576 bytes"))
}

// A bundle that is named by itself counts before that of the Workload API.
func TestANamedBundleBesideAWorkloadAPI(t *testing.T) {
	agent := agenttest.Start(t)
	agent.Give(t, map[string]string{"spiffe://example.org": bare, "spiffe://example.com": bare})
	name := t.TempDir() + "/bundle.json"
	write(t, name, spire)
	_, o := watch(t, nil, ofAgent(t, agent.Address), Spec{Domain: "example.org", Source: name})
	o.await(t, "both", o.calledTimes(2))
	o.want(t, map[string]string{"example.org": spire, "example.com": used})
	agent.Give(t, map[string]string{"spiffe://example.org": bare})
	o.await(t, "one", o.calledTimes(3))
	o.want(t, map[string]string{"example.org": spire})
}

// A call that the agent refuses for good is made again when that is asked for.
func TestReloadAsksTheAgentAgain(t *testing.T) {
	agent := agenttest.Start(t)
	agent.Refuse(t, "INVALID_ARGUMENT", "no")
	w, o := watch(t, nil, ofAgent(t, agent.Address))
	o.await(t, "the refusal", o.says("it refuses the call itself"))
	if w.Answered() {
		t.Error("it has answered")
	}
	agent.Give(t, map[string]string{"spiffe://example.org": bare})
	w.Reload()
	o.await(t, "the bundle", o.calledTimes(1))
}

// A validator's own reader has the last word on a bundle.
func TestABundleOfTheWorkloadAPIIsChecked(t *testing.T) {
	agent := agenttest.Start(t)
	agent.Give(t, map[string]string{"spiffe://example.org": bare, "spiffe://example.com": bare})
	_, o := watch(t, func(options *Options) {
		options.Check = func(domain string, document json.RawMessage) error {
			if domain == "example.com" || string(document) != used {
				return errors.New("no bundle for it")
			}
			return nil
		}
	}, ofAgent(t, agent.Address))
	o.await(t, "the bundles", o.calledTimes(1))
	o.want(t, map[string]string{"example.org": used})
	o.wantLines(t, 1, "why no bundle for it")
}
