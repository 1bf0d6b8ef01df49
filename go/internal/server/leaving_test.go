package server

import (
	"context"
	"errors"
	"fmt"
	"sync/atomic"
	"testing"
	"time"

	"svid.example/go/v3/internal/patience"
)

// checkLooking is a check in a goroutine, by a context that says how often it was asked and whether the client has left.
func checkLooking(e *Engine, token string) (looks *atomic.Int64, left *atomic.Bool, answer chan error) {
	looks, left, answer = new(atomic.Int64), new(atomic.Bool), make(chan error, 1)
	ctx := WithLeaving(context.Background(), func() bool { looks.Add(1); return left.Load() })
	go func() {
		_, err := e.Check(ctx, token)
		answer <- err
	}()
	return looks, left, answer
}

func wantAnswer(t *testing.T, answer chan error, want error) {
	t.Helper()
	select {
	case err := <-answer:
		if !errors.Is(err, want) {
			t.Errorf("%v, want %v", err, want)
		}
	case <-time.After(patience.Long):
		t.Fatal("the request goes on")
	}
}

// occupied claims as many tokens as there may be calls: a claim that comes then waits.
func occupied(t *testing.T, store *shop, e *Engine) (answers []chan error) {
	t.Helper()
	for i := 0; i < mostCalls; i++ {
		answers = append(answers, claimed(t, store, e, token(fmt.Sprint("first", i))))
	}
	return answers
}

// While a claim waits for a call, it is looked now and then whether its client has left. It ends soon after that.
func TestAClientThatLeavesIsFound(t *testing.T) {
	all, store := strictWithin(t, 1, time.Minute)
	e := all[0]
	release := store.hold()
	first := occupied(t, store, e)
	looks, left, answer := checkLooking(e, token("a"))
	await(t, "some looks", func() bool { return looks.Load() > 2 })
	left.Store(true)
	wantAnswer(t, answer, context.Canceled)
	release()
	for _, answer := range first {
		wantAnswer(t, answer, nil)
	}
	wantClaims(t, e, mostCalls, 0, 1)
}

// A client that waits gets its answer, however often it was looked.
func TestAClientThatWaitsIsAnswered(t *testing.T) {
	all, store := strictWithin(t, 1, time.Minute)
	e := all[0]
	release := store.hold()
	first := occupied(t, store, e)
	looks, _, answer := checkLooking(e, token("a"))
	await(t, "some looks", func() bool { return looks.Load() > 2 })
	release()
	for _, answer := range append(first, answer) {
		wantAnswer(t, answer, nil)
	}
	wantClaims(t, e, mostCalls+1, 0, 0)
}

// All who wait share a beat, and the next one is another. Where nobody waits, there is none.
func TestAPulse(t *testing.T) {
	var p pulse
	for i := 0; i < 3; i++ {
		from := time.Now()
		one := p.wait()
		if p.wait() != one {
			t.Error("two wait for two beats")
		}
		select {
		case <-one:
		case <-time.After(patience.Long):
			t.Fatal("there is no beat")
		}
		if took := time.Since(from); took < lookPause {
			t.Errorf("beat %d comes after %v", i, took)
		}
		p.mu.Lock()
		if p.next != nil {
			t.Error("nobody waits, and there is a beat")
		}
		p.mu.Unlock()
	}
}
