package server

import (
	"context"
	"testing"
	"time"

	"svid.example/go/v3/claims"
	"svid.example/go/v3/internal/scarce"
	"svid.example/go/v3/svid"
)

// A withdrawal that the store told of while memory was refused comes again: its token is not accepted after that.
func TestAWithdrawalThatFoundNoMemoryComesAgain(t *testing.T) {
	for n := 0; ; n++ {
		o := inStrict(Options{Wait: time.Minute})
		o.Mode = Reuse
		s := newShop()
		e := s.use(t, ready(t, engine(t, o)))
		gone := token("withdrawn")
		use, err := e.Find(gone)
		if err != nil {
			t.Fatal(err)
		}
		if _, err := s.Withdraw(context.Background(), claims.Withdrawal{Key: use.Key, Expires: use.Expires}); err != nil {
			t.Fatal(err)
		}
		var heard error
		refused := scarce.During(n, false, func() { heard = e.hearFromStore(s, time.Minute) })
		if refused > 0 && heard == nil {
			if err := check(e, gone); err != svid.Withdrawn {
				t.Errorf("allocation %d is refused, and the withdrawal is heard: %v", n, err)
			}
		}
		if err := e.hearFromStore(s, time.Minute); err != nil {
			t.Fatal(err)
		}
		if err := check(e, gone); err != svid.Withdrawn {
			t.Errorf("allocation %d was refused, and the withdrawal came again: %v", n, err)
		}
		if refused == 0 {
			if n == 0 {
				t.Error("no allocation was refused")
			}
			return
		}
	}
}

// The store may tell of tokens that have expired meanwhile. Those that it tells of besides are withdrawn all the same.
func TestAWithdrawalOfAnExpiredTokenHoldsUpNoOther(t *testing.T) {
	o := inStrict(Options{})
	o.Mode = Reuse
	e := newShop().use(t, ready(t, engine(t, o)))
	gone := token("withdrawn")
	use, err := e.Find(gone)
	if err != nil {
		t.Fatal(err)
	}
	h := &Heard{These: []claims.Withdrawal{{Key: svid.TokenKey{1}, Expires: moment}, {Key: use.Key, Expires: use.Expires}}, Whole: true}
	if e.step(h); h.Err != nil {
		t.Errorf("the record takes no withdrawals: %v", h.Err)
	}
	if err := check(e, gone); err != svid.Withdrawn {
		t.Errorf("a withdrawn token: %v", err)
	}
}
