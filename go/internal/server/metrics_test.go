package server

import (
	"fmt"
	"os"
	"regexp"
	"strings"
	"testing"
	"time"
)

// Each line of /metrics is a comment or a name with a number, each name has a type before it, names are as Prometheus
// wants them (counters end in _total, all of a name stands together, units are seconds and bytes), and buckets rise.
func TestMetricsAreWellFormed(t *testing.T) {
	e := ready(t, engine(t, Options{Mode: Once, Journal: &disk{}, Grouped: true, Domains: []string{"example.com"}}))
	e.Metrics.BundleAges = func() map[string]time.Duration {
		return map[string]time.Duration{"example.org": 1500 * time.Millisecond}
	}
	member := &tie{broker: &broker{}, engine: e, ready: make(chan struct{})}
	close(member.ready)
	e.Join(member)
	for i := 0; i < 3; i++ {
		request(e.Handler(), "GET", "/check", "Bearer "+token("a"))
	}
	e.step(doing((*Machine).measure))
	w := request(e.Handler(), "GET", "/metrics")
	types, last, current := make(map[string]bool), uint64(0), ""
	for _, line := range strings.Split(strings.TrimSuffix(w.Body.String(), "\n"), "\n") {
		if name, kind, ok := strings.Cut(strings.TrimPrefix(line, "# TYPE "), " "); ok && strings.HasPrefix(line, "# TYPE ") {
			if types[name] || !prometheusName.MatchString(name) || (kind == "counter") != strings.HasSuffix(name, "_total") {
				t.Errorf("%s is no name of a %s, or has two types", name, kind)
			}
			types[name], current = true, name
			continue
		}
		if strings.HasPrefix(line, "# HELP ") {
			continue
		}
		var value float64
		name := line[:strings.LastIndexByte(line, ' ')]
		if _, err := fmt.Sscan(line[len(name)+1:], &value); err != nil {
			t.Errorf("%q: %v", line, err)
		}
		base, _, _ := strings.Cut(name, "{")
		for _, suffix := range []string{"_bucket", "_sum", "_count"} {
			base = strings.TrimSuffix(base, suffix)
		}
		if base != current {
			t.Errorf("%q has no type right before it", line)
		}
		if strings.HasPrefix(name, "svidd_check_seconds_bucket") {
			if uint64(value) < last {
				t.Errorf("%q is less than the bucket before", line)
			}
			last = uint64(value)
		}
	}
	for _, want := range []string{
		`svidd_checks_total{result="accepted"} 1`, `svidd_checks_total{result="Replayed"} 2`, "svidd_record_uses 1",
		"svidd_check_seconds_count 3", `svidd_bundle_age_seconds{trust_domain="example.org"} 1.5`, fmt.Sprint("svidd_record_moment_timestamp_seconds ", moment), "svidd_untold_uses 1", "svidd_journal_bytes 82",
	} {
		if !strings.Contains(w.Body.String(), want+"\n") {
			t.Errorf("there is no %q in\n%s", want, w.Body)
		}
	}
}

// The process has as many open files as /metrics says, whose own look at them is none.
func TestOpenFiles(t *testing.T) {
	e := engine(t, Options{Mode: Reuse})
	await(t, "the number of open files", func() bool {
		files, err := os.ReadDir("/proc/self/fd")
		return err == nil && strings.Contains(request(e.Handler(), "GET", "/metrics").Body.String(), fmt.Sprintf("\nprocess_open_fds %d\n", len(files)-1))
	})
}

var prometheusName = regexp.MustCompile(`^[a-z]+(_[a-z]+)+$`)

// A store is connected once it was reached, and not before.
func TestAStoreIsConnectedOnceItWasReached(t *testing.T) {
	e := ready(t, engine(t, inStrict(Options{})))
	for _, want := range []string{"0", "1"} {
		if text := request(e.Handler(), "GET", "/metrics").Body.String(); !strings.Contains(text, "\nsvidd_store_connected "+want+"\n") {
			t.Errorf("/metrics does not say %s:\n%s", want, text)
		}
		newShop().use(t, e)
	}
}
