package postgres

import (
	"context"
	"testing"

	"svid.example/go/v3/claims"
	"svid.example/go/v3/claims/claimstest"
	"svid.example/go/v3/internal/logtest"
	"svid.example/go/v3/internal/patience"
)

// faults are the errors of this package that other languages have by a name.
var faults = map[string]error{"missing": errMissing, "standby": errStandby, "run": errRun, "back": errBack, "unlooked": errUnlooked, "gone": errGone,
	"late": errTooLate, "epoch": claims.ErrEpoch, "alone": errAlone, "stale": errStale, "held": errHeld, "answer": errAnswer}

// newRemote is a store whose calls a client of another language makes. Where there is no store, it makes one, as an administrator does.
func newRemote(o Options) (claims.Store, error) {
	r, err := claimstest.NewRemote(o.Terms, o.Name, o.Replicas, o.URLs...)
	if err != nil {
		return nil, err
	}
	r.Faults, r.Missing = faults, func() { makeAll(o) }
	return r, nil
}

// makeAll makes the store, unless another one does at the same time, or a server takes no store.
func makeAll(o Options) {
	for _, url := range o.URLs {
		s, err := New(Options{URLs: []string{url}, Name: o.Name, Terms: o.Terms})
		if err == nil {
			ctx, cancel := context.WithTimeout(context.Background(), patience.Long)
			s.make(ctx)
			cancel()
			s.Close()
		}
	}
}

// A Go member and one of another language are members of one store: each claim has one owner, and each hears of the other's withdrawals and of the
// end of an epoch.
func TestAMemberOfAnotherLanguage(t *testing.T) {
	t.Parallel()
	if !claimstest.OfOthers() {
		return // (the tests of that language run this one)
	}
	s := start(t)
	o := Options{URLs: []string{s.URL}, Name: "svid"}
	theirs := open(t, o)
	ours, err := New(Options{URLs: o.URLs, Name: o.Name, Terms: claimstest.Usual})
	if err != nil {
		t.Fatal(err)
	}
	t.Cleanup(func() { ours.Close() })
	together(t, s, ours, theirs)
}

func together(t *testing.T, s *machine, ours, theirs claims.Store) {
	t.Helper()
	before := claimstest.Open(t, ours)
	if is := claimstest.State(t, theirs); is.Epoch != before.Epoch {
		t.Fatalf("%+v, and %+v", is, before)
	}
	for _, store := range []claims.Store{ours, theirs} {
		claimstest.Watch(t, store)
	}
	var ledger claimstest.Ledger
	end := claimstest.Load(t, &ledger, ours, theirs)
	logtest.Await(t, "claims", func() bool { return ledger.Len() > 200 })
	s.Postgres.Kill()
	s.start(t)
	n := ledger.Len()
	logtest.Await(t, "more claims", func() bool { return ledger.Len() > n+200 })
	end()
	for n, by := range []claims.Store{ours, theirs} {
		w := claims.Withdrawal{Key: claimstest.Key(), Expires: claimstest.Now() + 3000}
		claimstest.Withdraw(t, by, w)
		other := []claims.Store{theirs, ours}[n]
		if all, _ := claimstest.Withdrawals(t, other, ""); len(all) != n+1 || all[n] != w {
			t.Errorf("%v", all)
		}
		if f := claimstest.Put(t, other, claims.Claim{Key: w.Key, Owner: claimstest.Own(1), Expires: w.Expires})[0]; f.Owner != claims.Withdrawn {
			t.Errorf("%+v", f)
		}
	}
	lost := claim(1)
	mine(t, theirs, lost)
	s.do(t, "TRUNCATE svid.claim")
	if f := claimstest.Put(t, ours, by(2, lost))[0]; claimstest.Judge(by(2, lost), f, 60) != claimstest.Unknown {
		t.Errorf("%+v", f)
	}
	another(t, before, ours, theirs)
}
