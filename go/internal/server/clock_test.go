package server

import (
	"errors"
	"sync/atomic"
	"testing"

	"svid.example/go/v3/svid"
)

// A clock that goes back lets no token be used twice: the record stays at the time that it has seen.
func TestAClockThatGoesBack(t *testing.T) {
	var now atomic.Uint64
	now.Store(moment)
	d := &disk{}
	e := ready(t, engine(t, Options{Mode: Once, Journal: d, Now: now.Load}))
	short := example.Token("ES256", map[string]any{"sub": "spiffe://example.org/web", "aud": "ledger", "exp": moment + 10, "jti": "short"})
	if err := check(e, short); err != nil {
		t.Fatal(err)
	}
	now.Store(moment + 20)
	e.step(doing((*Machine).tick)) // The use has expired, and is dropped.
	e.snapshot()
	now.Store(moment)
	if err := check(e, short); err != svid.Expired {
		t.Errorf("while it runs: %v", err)
	}
	again := ready(t, engine(t, Options{Mode: Once, Journal: d, Now: now.Load}))
	if err := again.Load(d.kept); err != nil {
		t.Fatal(err)
	}
	if err := check(again, short); err != svid.Expired {
		t.Errorf("after a restart: %v", err)
	}
	now.Store(moment - 60)
	far := engine(t, Options{Mode: Once, Journal: d, Now: now.Load})
	if err := far.Load(d.kept); !errors.Is(err, svid.ErrTooFar) {
		t.Errorf("after a restart with a clock that is further back than --ahead: %v", err)
	}
}
