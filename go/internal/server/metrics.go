package server

import (
	"bufio"
	"errors"
	"fmt"
	"io"
	"math"
	"os"
	"runtime"
	"sort"
	"strconv"
	"sync/atomic"
	"syscall"
	"time"

	"svid.example/go/v3/claims"
	"svid.example/go/v3/internal/version"
	"svid.example/go/v3/svid"
)

// Metrics are the numbers of /metrics. All fields may be used by many goroutines
// at once.
type Metrics struct {
	accepted    atomic.Uint64
	refused     [64]atomic.Uint64 // by the number of a refusal, from that of TooLong on
	unavailable atomic.Uint64
	noCaller    atomic.Uint64
	noToken     atomic.Uint64
	notAllowed  atomic.Uint64
	seconds     histogram

	ClaimsWon, ClaimsLost, ClaimsFailed atomic.Uint64
	Told, Untold                        atomic.Uint64
	Withdrawals                         atomic.Uint64
	Snapshots, JournalFailures          atomic.Uint64
	Uses, Moment                        atomic.Uint64
	OtherMode                           atomic.Uint64
	OtherCaller                         atomic.Uint64
	SecondCaller, UnknownCaller         atomic.Uint64
	AcceptedTwice                       atomic.Uint64
	Epochs                              atomic.Uint64

	reloadFailed atomic.Bool  // the last reload of the options and of the bundles did
	reloaded     atomic.Int64 // when the last good one was, in seconds since 1970; 0 is the start

	// BundleAges returns the seconds since each trust domain's bundle was read.
	// It is set before the first request, or stays nil.
	BundleAges func() map[string]time.Duration
}

// bounds of the histogram's buckets, in seconds.
var bounds = [...]float64{0.0001, 0.00025, 0.0005, 0.001, 0.0025, 0.005, 0.01, 0.025, 0.05, 0.1, 0.25, 0.5, 1, 2.5}

// A histogram counts durations by bucket.
type histogram struct {
	counts [len(bounds) + 1]atomic.Uint64
	nanos  atomic.Uint64
}

func (h *histogram) observe(d time.Duration) {
	h.counts[sort.SearchFloat64s(bounds[:], d.Seconds())].Add(1)
	h.nanos.Add(uint64(d))
}

// Reloaded takes note of how a reload of the options and of the bundles ended.
func (m *Metrics) Reloaded(err error) {
	if m.reloadFailed.Store(err != nil); err == nil {
		m.reloaded.Store(time.Now().Unix())
	}
}

// observe counts one decision.
func (m *Metrics) observe(err error, took time.Duration) {
	m.seconds.observe(took)
	switch refusal, ok := refusalOf(err); {
	case err == nil:
		m.accepted.Add(1)
	case err == ErrNotAllowed:
		m.notAllowed.Add(1)
	case ok:
		m.refused[refusal-svid.TooLong].Add(1)
	case errors.Is(err, ErrNoCaller):
		m.noCaller.Add(1)
	default:
		m.unavailable.Add(1)
	}
}

// WriteMetrics writes everything in the text format of Prometheus.
func (e *Engine) WriteMetrics(w io.Writer) error {
	p := &page{w: bufio.NewWriter(w)}
	m := &e.Metrics
	p.head("svidd_checks_total", "counter", "Tokens judged, by result.")
	p.value(`svidd_checks_total{result="accepted"}`, float64(m.accepted.Load()))
	for _, r := range svid.Refusals() {
		p.value(fmt.Sprintf("svidd_checks_total{result=%q}", r.String()), float64(m.refused[r-svid.TooLong].Load()))
	}
	p.value(`svidd_checks_total{result="unavailable"}`, float64(m.unavailable.Load()))
	p.value(`svidd_checks_total{result="no_caller"}`, float64(m.noCaller.Load()))
	p.value(`svidd_checks_total{result="no_token"}`, float64(m.noToken.Load()))
	p.value(`svidd_checks_total{result="not_allowed"}`, float64(m.notAllowed.Load()))
	p.histogram("svidd_check_seconds", "Time from a request to its answer.", &m.seconds)
	p.counters("svidd_claims_total", "outcome", "Claims of modes strict and bound, by outcome.",
		row{"won", &m.ClaimsWon}, row{"lost", &m.ClaimsLost}, row{"failed", &m.ClaimsFailed})
	p.counter("svidd_other_caller_total", "Requests of mode bound that were refused since another caller used their token first: it may be stolen.", m.OtherCaller.Load())
	p.counter("svidd_second_caller_total", "Requests of mode reuse that were accepted though another caller used their token first: it may be stolen.", m.SecondCaller.Load())
	p.counter("svidd_unknown_caller_total", "Requests of mode reuse with a rule for callers that named none, or whose token had no room: no second caller of these is reported.", m.UnknownCaller.Load())
	p.counter("svidd_accepted_twice_total", "Tokens that this sidecar and another one of its group accepted, in mode once.", m.AcceptedTwice.Load())
	p.counters("svidd_told_total", "outcome", "Uses for the group, told or given up (summaries repair that).",
		row{"told", &m.Told}, row{"given_up", &m.Untold})
	p.counter("svidd_withdrawals_total", "Tokens withdrawn at this sidecar.", m.Withdrawals.Load())
	p.counter("svidd_snapshots_total", "Snapshots of the record written to the state folder.", m.Snapshots.Load())
	p.counter("svidd_journal_failures_total", "Writes to the state folder that failed.", m.JournalFailures.Load())
	if g := e.group.Load(); g != nil {
		p.counter("svidd_messages_taken_total", "Messages of the group that the record took.", g.Taken())
		p.counter("svidd_messages_aside_total", "Messages of the group that were put aside.", g.Aside())
		p.counter("svidd_messages_of_other_mode_total", "Messages of sidecars of the group that run in another mode.", m.OtherMode.Load())
		p.gauge("svidd_broker_connected", "1 if the group's broker is there.", truth(g.Connected()))
	}
	if e.Stored {
		state := withMachine(e, func(m *Machine) claims.State { return m.state })
		p.gauge("svidd_store_connected", "1 if the group's store answered within the last second.", truth(e.store.Load() != nil && e.outlook.away.Load() == nil))
		p.counter("svidd_store_epochs_total", "Times that the group's store lost entries, as this sidecar saw it.", m.Epochs.Load())
		p.gauge("svidd_store_deaf_until_timestamp_seconds", "Tokens that expire by this time are not accepted, since the store has lost entries; 0 if it has lost none.", float64(state.Deaf))
		p.head("svidd_store_epoch_info", "gauge", "1, with the store's epoch: one history of it in which nothing was lost.")
		p.value(fmt.Sprintf("svidd_store_epoch_info{epoch=%q}", state.Epoch), 1)
	}
	p.gauge("svidd_record_uses", "Uses and withdrawals in the record, counted every second.", float64(m.Uses.Load()))
	p.gauge("svidd_record_moment_timestamp_seconds", "The record's clock, in seconds since 1970, when its uses were last counted.", float64(m.Moment.Load()))
	if e.Journal != nil {
		p.gauge("svidd_journal_bytes", "Bytes appended to the state folder since the last snapshot.", float64(e.Journal.Size()))
	}
	if e.Grouped {
		p.gauge("svidd_untold_uses", "Uses that wait to be told to the group.", float64(withMachine(e, func(m *Machine) int { return len(m.tale.untold) })))
	}
	p.counter("svidd_log_lines_dropped_total", "Lines of the log that were dropped, since standard error did not take them.", e.Log.Dropped())
	p.gauge("svidd_ready", "1 if /readyz answers 200: the sidecar judges tokens and can keep an acceptance.", truth(e.Ready() == nil))
	reloaded := m.reloaded.Load()
	if reloaded == 0 {
		reloaded = started.Unix()
	}
	p.gauge("svidd_config_last_reload_successful", "1 if the last reload of the options and of the bundles went well, or there was none.", truth(!m.reloadFailed.Load()))
	p.gauge("svidd_config_last_reload_success_timestamp_seconds", "When the last good reload was, or the start, in seconds since 1970.", float64(reloaded))
	if m.BundleAges != nil {
		p.head("svidd_bundle_age_seconds", "gauge", "Time since a trust domain's bundle was last read; +Inf if it never was.")
		ages := m.BundleAges()
		for _, domain := range e.domains() {
			if _, read := ages[domain]; !read {
				ages[domain] = never
			}
		}
		domains := make([]string, 0, len(ages))
		for domain := range ages {
			domains = append(domains, domain)
		}
		sort.Strings(domains)
		for _, domain := range domains {
			age := ages[domain].Seconds()
			if ages[domain] == never {
				age = math.Inf(1)
			}
			p.value(fmt.Sprintf("svidd_bundle_age_seconds{trust_domain=%q}", domain), age)
		}
	}
	p.process()
	return p.w.Flush()
}

// never is the age of a bundle that was not read yet.
const never = time.Duration(math.MaxInt64)

var started = time.Now()

// process writes what Prometheus wants to know of any process, under the names that its own libraries use.
func (p *page) process() {
	v := svid.Version()
	p.head("svidd_build_info", "gauge", "1, with what the program was built of.")
	p.value(fmt.Sprintf(`svidd_build_info{goversion=%q,libsvid="%d.%d.%d",version=%q}`, runtime.Version(), v/10000, v/100%100, v%100, version.Number), 1)
	var used syscall.Rusage
	if syscall.Getrusage(syscall.RUSAGE_SELF, &used) == nil {
		p.head("process_cpu_seconds_total", "counter", "Processor time used, in seconds.")
		p.value("process_cpu_seconds_total", time.Duration(used.Utime.Nano()+used.Stime.Nano()).Seconds())
	}
	if text, err := os.ReadFile("/proc/self/statm"); err == nil {
		var all, resident int64
		if _, err := fmt.Sscan(string(text), &all, &resident); err == nil {
			p.gauge("process_resident_memory_bytes", "Memory in use, in bytes.", float64(resident)*float64(os.Getpagesize()))
		}
	}
	if files, err := os.ReadDir("/proc/self/fd"); err == nil {
		p.gauge("process_open_fds", "Open files and connections.", float64(len(files)-1)) // one is that of reading the folder
	}
	p.gauge("process_start_time_seconds", "When the process began, in seconds since 1970.", float64(started.UnixMilli())/1000)
	p.gauge("go_goroutines", "Goroutines.", float64(runtime.NumGoroutine()))
}

// A page writes the text format.
type page struct{ w *bufio.Writer }

type row struct {
	label string
	count *atomic.Uint64
}

func (p *page) head(name, kind, help string) {
	fmt.Fprintf(p.w, "# HELP %s %s\n# TYPE %s %s\n", name, help, name, kind)
}

func (p *page) value(name string, v float64) {
	if v == math.Trunc(v) && math.Abs(v) < 1<<53 {
		fmt.Fprintf(p.w, "%s %d\n", name, int64(v))
		return
	}
	fmt.Fprintf(p.w, "%s %s\n", name, strconv.FormatFloat(v, 'g', -1, 64))
}

func (p *page) counter(name, help string, v uint64) {
	p.head(name, "counter", help)
	p.value(name, float64(v))
}

func (p *page) gauge(name, help string, v float64) {
	p.head(name, "gauge", help)
	p.value(name, v)
}

func (p *page) counters(name, label, help string, rows ...row) {
	p.head(name, "counter", help)
	for _, r := range rows {
		p.value(fmt.Sprintf("%s{%s=%q}", name, label, r.label), float64(r.count.Load()))
	}
}

func (p *page) histogram(name, help string, h *histogram) {
	p.head(name, "histogram", help)
	var sum uint64
	for i := range h.counts {
		sum += h.counts[i].Load()
		le := "+Inf"
		if i < len(bounds) {
			le = fmt.Sprint(bounds[i])
		}
		p.value(fmt.Sprintf("%s_bucket{le=%q}", name, le), float64(sum))
	}
	p.value(name+"_sum", float64(h.nanos.Load())/1e9)
	p.value(name+"_count", float64(sum))
}

func truth(b bool) float64 {
	if b {
		return 1
	}
	return 0
}
