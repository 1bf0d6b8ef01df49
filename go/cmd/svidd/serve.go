package main

import (
	"context"
	"errors"
	"fmt"
	"os"
	"os/signal"
	"runtime/debug"
	"strings"
	"sync"
	"syscall"
	"time"

	"svid.example/go/v3/guard"
)

const (
	// drainWait is how long requests that are under way at SIGTERM may take.
	drainWait = 10 * time.Second
	// headerWait is how long a client may take to send the headers of a request.
	headerWait = 5 * time.Second
	// requestWait is how long reading a request, or writing its answer once it is there, may take.
	requestWait = time.Minute
	// idleWait is how long a connection may stay idle.
	idleWait = 2 * time.Minute
	// startWait is how long a step of the start may still take once a signal says to end.
	startWait = time.Second
	// logWait is how long the end of the process waits for standard error to take the last lines.
	logWait = time.Second
	// spareHeap is how many bytes of garbage gather, beside as many as are in use, before they are collected. Only a few
	// megabytes are in use, since the record is in the library's memory: without it they are collected twenty times a second.
	spareHeap = 32 << 20
	// startGarbage is how much garbage may gather before the sidecar is ready, in percent of the memory in use and of the spare heap (as GOGC,
	// which counts instead of it).
	startGarbage = 15
	// readyPause is between two looks whether it is.
	readyPause = 100 * time.Millisecond
)

// clock is this machine's where it is nil. Tests set it.
var clock func() uint64

// endWait is how long the record's last snapshot, and what waits for the group, may take once no request is under way. Tests set it.
var endWait = 20 * time.Second

// errClock ends the sidecar: the next one begins with the clock as it is.
var errClock = errors.New(strings.Replace(guard.ErrClock.Error(), "open a new guard", "start svidd again", 1))

// errHangs ends a sidecar that can't write its last snapshot. The next start reads the journals instead.
var errHangs = fmt.Errorf("the state folder did not take a last snapshot within %v: svidd ends without, and loses nothing that it answered 200", endWait)

func serve(args []string, std stdio) int {
	var o options
	f := o.flags()
	if err := parse(f, &o.config, args); err != nil {
		return fail(std, err)
	}
	if f.NArg() > 0 {
		return fail(std, fmt.Errorf("serve takes no argument, and got %.20q%s", f.Arg(0), meant(f, f.Arg(0))))
	}
	if problems := o.problems(); len(problems) > 0 {
		return problems.tell(std)
	}
	if o.check {
		faults, warnings := o.bundleProblems()
		faults = append(o.localProblems(), faults...)
		ofServers, away := o.serverProblems()
		faults, warnings = append(faults, ofServers...), append(warnings, away...)
		for _, sentence := range warnings {
			fmt.Fprintf(std.err, "svidd: warning: %s\n", hideTokens(sentence))
		}
		if len(faults) > 0 {
			return faults.tell(std)
		}
		fmt.Fprintln(std.out, "svidd: the options are good")
		return exitYes
	}
	signals := make(chan os.Signal, 8)
	signal.Notify(signals, syscall.SIGHUP, syscall.SIGTERM, syscall.SIGINT)
	defer signal.Stop(signals)
	signal.Ignore(syscall.SIGPIPE) // A log whose reader is gone ends no service.
	log := guard.NewLines(std.err, logLevels[o.log])
	log.SetAddresses(logAddresses[o.logAddresses])
	defer log.Close(logWait)
	s := &sidecar{options: o, args: args, given: valuesOf(f), log: log, reloads: make(chan struct{}, 1), failed: make(chan error, 1), spare: make([]byte, spareHeap)}
	if err := s.run(signals); err != nil {
		log.Error("end", err)
		return exitFailed
	}
	return exitYes
}

// A sidecar is a running svidd.
type sidecar struct {
	options
	args    []string          // of serve
	given   map[string]string // the options that count, as text; reloadAll alone uses it once the sidecar runs
	log     *guard.Lines
	guard   *guard.Guard
	reloads chan struct{} // asks for the options and the bundles to be read again
	waits   waits         // who waits for that
	failed  chan error    // what ends the sidecar
	spare   []byte        // counts as in use, and costs only addresses, since nobody writes to it
}

// run serves until a signal ends it, or something fails that it can't go on
// without.
func (s *sidecar) run(signals chan os.Signal) error {
	ctx, cancel := context.WithCancel(context.Background())
	defer cancel()
	if goOn, err := s.begin(signals, func() error { return s.open(ctx) }); !goOn {
		return err
	}

	// The address is bound before the record is read: a proxy gets 503 and not a
	// refused connection, and an address that is taken is known at once.
	servers, err := s.listen()
	if err != nil {
		return err
	}
	if goOn, err := s.begin(signals, s.guard.Load); !goOn {
		return err
	}
	var keeping sync.WaitGroup
	keeping.Add(2)
	go func() { defer keeping.Done(); s.guard.Run(ctx) }()
	go func() { defer keeping.Done(); s.collectEarly(ctx) }()
	notify("READY=1")
	fields := []any{"mode", s.replay, "validator_id", s.guard.ValidatorID().String()}
	for _, it := range servers {
		if it.name != "admin" {
			fields = append(fields, it.name, it.listener.Addr().String())
		}
	}
	s.log.Event("serving", fields...)

	failure := s.await(signals)
	s.guard.Drain()
	notify("STOPPING=1")
	if failure == nil {
		s.goOn(signals)
	}
	s.shutdown(servers)
	cancel()
	ended := make(chan struct{})
	go func() { defer close(ended); keeping.Wait(); s.guard.Close() }()
	select {
	case <-ended:
		s.log.Event("end")
	case <-time.After(endWait):
		s.log.Error("snapshot", errHangs)
	}
	return failure
}

// collectEarly lets little garbage gather until the sidecar is ready. Until then it reads the group's bucket, which makes garbage at a great rate:
// to collect it early takes little time, and much less memory.
func (s *sidecar) collectEarly(ctx context.Context) {
	if os.Getenv("GOGC") != "" {
		return
	}
	defer debug.SetGCPercent(debug.SetGCPercent(startGarbage))
	for s.guard.Ready() != nil {
		select {
		case <-ctx.Done():
			return
		case <-time.After(readyPause):
		}
	}
}

// begin takes a step of the start. It goes on unless that fails, or a signal says to end meanwhile and the step does not end
// soon: it may hang, as a disk does. (Nothing is lost then, since no token was accepted yet.) After a step that ends, tokens may
// have been accepted: so the signal comes again then, to who serves.
func (s *sidecar) begin(signals chan os.Signal, step func() error) (goOn bool, err error) {
	done := make(chan error, 1)
	go func() { done <- step() }()
	for {
		select {
		case err := <-done:
			return err == nil, err
		case sig := <-signals:
			if sig == syscall.SIGHUP {
				s.log.Event("signal", "name", sig.String())
				s.reload()
				continue
			}
			select {
			case err := <-done:
				go func() { signals <- sig }()
				return err == nil, err
			case <-time.After(startWait):
				s.log.Event("signal", "name", sig.String())
				return false, nil
			}
		}
	}
}

// open opens the state folder and the bundles.
func (s *sidecar) open(ctx context.Context) error {
	specs, err := s.specs()
	if err != nil {
		return err
	}
	store, err := s.store(s.log.Event)
	if err != nil {
		return err
	}
	if store != nil {
		is := &reaching{store, make(chan struct{})}
		store = is
		go s.sayWhyUnreached(ctx, is.reached)
	}
	o := guard.Options{
		Audiences: s.audiences, Bundles: specs, Allow: s.allow, Mode: guard.Mode(s.replay), Caller: s.caller, State: s.state, Store: store, Log: s.groupLog(), Longest: s.longest.value,
		Ahead: s.ahead.value, RSABits: s.rsaBits, Wait: time.Duration(s.wait), Summaries: time.Duration(s.summaries), Lines: s.log, Now: clock, Failed: s.fail,
	}
	if o.Ahead == 0 {
		o.Ahead = guard.Exactly
	}
	if s.guard, err = guard.New(o); err != nil {
		return err
	}
	go s.reloadAll(ctx)
	return nil
}

// reload lets the options and the bundles be read again. It does not wait for that, since a file may hang.
func (s *sidecar) reload() {
	select {
	case s.reloads <- struct{}{}:
	default: // One is to begin, which sees all that this one would.
	}
}

func (s *sidecar) reloadAll(ctx context.Context) {
	for {
		select {
		case <-ctx.Done():
			return
		case <-s.reloads:
			waiting := s.waits.take()
			done, err := s.reloadNow()
			s.guard.NoteReload(err)
			for _, one := range waiting {
				one <- outcome{done, err}
			}
		}
	}
}

// fail ends the sidecar. The first reason counts.
func (s *sidecar) fail(err error) {
	if err == guard.ErrClock {
		err = errClock
	}
	select {
	case s.failed <- err:
	default:
	}
}

// goOn lets requests come for as long as --drain says, or until another signal says to end, or something fails.
func (s *sidecar) goOn(signals <-chan os.Signal) {
	if s.drain == 0 {
		return
	}
	s.log.Event("draining", "seconds", time.Duration(s.drain).Seconds())
	over := time.NewTimer(time.Duration(s.drain))
	defer over.Stop()
	for {
		select {
		case <-over.C:
			return
		case err := <-s.failed:
			s.log.Error("draining", err)
			return
		case sig := <-signals:
			s.log.Event("signal", "name", sig.String())
			if sig != syscall.SIGHUP {
				return
			}
		}
	}
}

// await returns when a signal says to end, or with what went wrong.
func (s *sidecar) await(signals <-chan os.Signal) error {
	for {
		select {
		case err := <-s.failed:
			return err
		case sig := <-signals:
			s.log.Event("signal", "name", sig.String())
			if sig != syscall.SIGHUP {
				return nil
			}
			s.reload()
		}
	}
}
