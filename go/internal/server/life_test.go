package server

import (
	"context"
	"encoding/json"
	"errors"
	"fmt"
	"runtime"
	"strings"
	"testing"
	"time"
)

func TestNothingIsJudgedBeforeAllIsRead(t *testing.T) {
	bundles := func(e *Engine) {
		if err := e.SetBundles(map[string]json.RawMessage{"example.org": example.JWKSet()}); err != nil {
			t.Fatal(err)
		}
	}
	load := func(e *Engine) {
		if err := e.Load(nil); err != nil {
			t.Fatal(err)
		}
	}
	m := &tie{broker: &broker{}, ready: make(chan struct{})}
	m.members = []*tie{m}
	type step struct {
		why string
		do  func(e *Engine)
	}
	for _, row := range []struct {
		o     Options
		steps []step
	}{
		{Options{Mode: Once, Grouped: true, Journal: &disk{}}, []step{{"trust bundle", bundles}, {"state folder", load},
			{"broker", func(e *Engine) { m.engine = e; e.Join(m) }}, {"bucket", func(*Engine) { close(m.ready) }}}},
		{inStrict(Options{}), []step{{"trust bundle", bundles}, {"state folder", load}, {"store was not reached", func(e *Engine) { newShop().use(t, e) }}}},
	} {
		e := engine(t, row.o)
		for _, step := range row.steps {
			if err := e.Ready(); err == nil || !strings.Contains(err.Error(), step.why) {
				t.Errorf("%s: ready: %v, and it waits for %s", row.o.Mode, err, step.why)
			}
			if err := check(e, token("a")); !errors.Is(err, ErrNotReady) {
				t.Errorf("%s: check: %v", row.o.Mode, err)
			}
			step.do(e)
		}
		if err := e.Ready(); err != nil {
			t.Error(err)
		}
		e.Drain()
		if err := e.Ready(); err == nil || err.Error() != "draining" {
			t.Errorf("%s: ready: %v", row.o.Mode, err)
		}
		if err := check(e, token("a")); err != nil {
			t.Errorf("%s: a request while it drains: %v", row.o.Mode, err)
		}
	}
}

func TestDrainBeforeAnythingIsReadJudgesNothing(t *testing.T) {
	e := engine(t, Options{Mode: Once})
	e.Drain()
	if err := check(e, token("a")); !errors.Is(err, ErrNotReady) {
		t.Error(err)
	}
}

// Run takes a snapshot at its end, and tells what still waits.
func TestRunEndsWithASnapshotAndAllTold(t *testing.T) {
	d := &disk{}
	e := ready(t, engine(t, Options{Mode: Once, Journal: d, Grouped: true}))
	b := &broker{}
	b.join(e)
	for i := 0; i < 100; i++ {
		if err := check(e, token(fmt.Sprint(i))); err != nil {
			t.Fatal(err)
		}
	}
	ctx, cancel := context.WithCancel(context.Background())
	cancel()
	e.Run(ctx)
	if told := len(b.uses(t)); d.Size() != 17+100*65 || told != 100 || len(b.log) != 1 {
		t.Errorf("snapshot of %d bytes, %d told by %d values", d.Size(), told, len(b.log))
	}
}

// Nothing of an engine goes on after its end, nor after requests that were given up.
func TestNothingGoesOnBehindTheEnd(t *testing.T) {
	before := runtime.NumGoroutine()
	all, store := strictWithin(t, 1, time.Second) // (the end waits so long for the store)
	e := all[0]
	ctx, cancel := context.WithCancel(context.Background())
	ended := make(chan struct{})
	go func() { e.Run(ctx); close(ended) }()
	defer store.hold()()
	for i := 0; i < 50; i++ {
		request, give := context.WithCancel(context.Background())
		answer := make(chan error)
		go func() { _, err := e.Check(request, token("a")); answer <- err }()
		give()
		if err := <-answer; err == nil {
			t.Error("a token was accepted that nobody won")
		}
	}
	if n := withMachine(e, keptOf); n != 0 {
		t.Errorf("%d claims are open", n)
	}
	cancel()
	<-ended
	await(t, "the end of all goroutines", func() bool { return runtime.NumGoroutine() <= before })
}
