package server

import (
	"context"
	"errors"
	"testing"
	"time"

	"svid.example/go/v3/claims"
	"svid.example/go/v3/svid"
)

// Where a claim ends and nothing is known of the token, one request of those that wait claims it, and the others wait for that one: no
// request is judged each time. They leave, one after the other, at their own time.
func TestAClaimIsHandedOn(t *testing.T) {
	b := newBench(t)
	const many = 5 * mostAgain
	all := []*Request{b.asks("1")}
	for i := 1; i < many; i++ {
		b.now.Up += 5 * nextCall
		all = append(all, b.asks("1"))
	}
	b.step(Gone{all[3], context.Canceled})
	holds := func(r *Request) {
		t.Helper()
		if n := at(claiming)(b.machine); len(b.machine.again) > 0 || n != 1 || r.stage != claiming {
			t.Fatalf("%d go on, %d claims are open", len(b.machine.again), n)
		}
	}
	for i, gone := range []*Request{all[0], all[1], all[2]} {
		b.step(Gone{gone, context.Canceled})
		next := all[i+1+i/2]
		holds(next)
		b.pass(nextCall)
		if last := b.batches[len(b.batches)-1]; len(last.requests) != 1 || last.requests[0] != next {
			t.Errorf("the last call is not of the request that holds the claim behind %d", i)
		}
	}
	b.now.Up = time.Hour + time.Minute + 50*5*nextCall
	if b.pass(0); !errors.Is(all[50].Err, context.DeadlineExceeded) || all[51].answered {
		t.Error("they are not answered at their own time")
	}
	holds(all[51])
	b.pass(nextCall)
	held := len(b.batches) - 1
	b.answers(held, nil)
	for i := 0; i < many/mostAgain; i++ {
		b.pass(0)
	}
	if err := all[51].Err; err != nil {
		t.Error(err)
	}
	for i, r := range all[52:] {
		if r.Err != svid.Replayed {
			t.Errorf("request %d: %v", 52+i, r.Err)
		}
	}
	for call := range b.batches[:held] {
		b.answers(call, nil)
	}
	if n := b.machine.Backlog(); n != 0 {
		t.Errorf("%d things are under way", n)
	}
}

// An answer by which it is unknown what became of a token is that of one request. The next one asks by itself.
func TestEachRequestHearsOfALoss(t *testing.T) {
	b := newBench(t)
	var all []*Request
	for i := 0; i < 5; i++ {
		all = append(all, b.asks("1"))
	}
	for i := range all {
		b.pass(0)
		batch := b.batches[len(b.batches)-1]
		if len(b.batches) != i+1 || len(b.machine.again) > 0 {
			t.Fatalf("%d calls, and %d requests go on", len(b.batches), len(b.machine.again))
		}
		batch.Found[0] = claims.Found{Owner: batch.Claims[0].Owner, Time: moment, Deaf: moment + 300}
		if b.step(Claimed{batch}); all[i].Err != ErrLost {
			t.Errorf("request %d: %v", i, all[i].Err)
		}
	}
	b.want(0, 0, uint64(len(all)))
}

// Where a token comes for hours while the store is away, what is kept of it is no more than those that wait.
func TestALineStaysShort(t *testing.T) {
	b := newBench(t)
	for i := 0; i < 4000; i++ {
		b.now.Up += time.Minute / 100
		b.pass(0)
		b.asks("1")
		for ; len(b.batches) > 0; b.batches = b.batches[1:] {
			b.answers(0, errors.New("no servers"))
		}
	}
	if n := b.machine.Backlog(); n > 105 {
		t.Errorf("%d things are under way, where 100 requests wait", n)
	}
	if n := at(claiming)(b.machine); n != 1 {
		t.Errorf("%d claims are open", n)
	}
}

// Where the rules change while requests wait for a claim, none of them claims the token by the rules of before.
func TestWhoWaitsIsJudgedByOtherRules(t *testing.T) {
	b := newBench(t)
	var all []*Request
	for i := 0; i < 4; i++ {
		all = append(all, b.asks("1"))
	}
	b.step(&Ruling{Rules: &Rules{Audiences: b.machine.rules.Audiences, Allow: []string{"spiffe://example.org/job"}}})
	b.answers(0, nil)
	b.pass(0)
	for i, r := range all {
		if r.Err != ErrNotAllowed {
			t.Errorf("request %d: %v", i, r.Err)
		}
	}
	if len(b.batches) != 1 {
		t.Errorf("%d calls", len(b.batches))
	}
}
