package postgres

import (
	"errors"
	"fmt"
	"os"
	"path/filepath"
	"testing"

	"svid.example/go/v3/claims"
	"svid.example/go/v3/claims/claimstest"
	"svid.example/go/v3/internal/broker"
	"svid.example/go/v3/internal/logtest"
	"svid.example/go/v3/internal/patience"
)

// faketime is where Debian has the library that gives a program another clock.
const faketime = "/usr/lib/*-linux-gnu/faketime/libfaketimeMT.so.1"

// withClock starts a server whose clock set sets, in seconds from this machine's.
func withClock(t *testing.T) (s *machine, set func(seconds int)) {
	t.Helper()
	library, err := filepath.Glob(faketime)
	if err != nil || len(library) != 1 {
		t.Fatalf("%s is not there: install Debian's libfaketime", faketime)
	}
	dir, err := broker.Folder()
	if err != nil {
		t.Fatal(err)
	}
	t.Cleanup(func() { os.RemoveAll(dir) })
	p, err := broker.NewPostgres(dir)
	if err != nil {
		t.Fatal(err)
	}
	file := dir + "/clock"
	set = func(seconds int) {
		t.Helper()
		next := file + ".next"
		err := os.WriteFile(next, []byte(fmt.Sprintf("%+ds", seconds)), 0o644)
		if err == nil {
			err = os.Rename(next, file)
		}
		if err != nil {
			t.Fatal(err)
		}
	}
	set(0)
	p.Env = []string{"LD_PRELOAD=" + library[0], "FAKETIME_TIMESTAMP_FILE=" + file, "FAKETIME_NO_CACHE=1", "FAKETIME_DONT_FAKE_MONOTONIC=1", "FAKETIME_XRESET=1"}
	t.Cleanup(p.End)
	s = &machine{Postgres: p}
	s.start(t)
	return s, set
}

const day = 86400

// A clock that is a day off, or steps back too far, lets nobody accept what was claimed, and the epoch ends where entries may be gone.
func TestAClockThatIsADayOff(t *testing.T) {
	t.Parallel()
	s, set := withClock(t)
	o := Options{URLs: []string{s.URL}, Name: "svid"}
	a, b := open(t, o), open(t, o)
	before := claimstest.State(t, a)
	c := claim(1)
	mine(t, a, c)
	// Within the step that the terms allow nothing happens.
	set(-int(claimstest.Usual.Back) + 10)
	if f := claimstest.Put(t, b, by(2, c))[0]; f.Owner != c.Owner || f.Deaf != 0 || f.Time+claimstest.Usual.Back > claimstest.Now()+10 {
		t.Fatalf("%+v, and before %+v", f, before)
	}
	// Ahead: nobody is answered before a look. Then entries go, and the time says that the token is over.
	set(day)
	if f := claimstest.Try(a, patience.Long, claim(1))[0]; !errors.Is(f.Err, errUnlooked) {
		t.Errorf("%+v", f)
	}
	logtest.Await(t, "the entry to go", func() bool {
		claimstest.State(t, a)
		return s.Do(`DO $$ BEGIN ASSERT (SELECT count(*) FROM svid.claim) = 0; END $$`) == nil
	})
	if f := claimstest.Put(t, b, by(2, c))[0]; claimstest.Judge(by(2, c), f, 60) == claimstest.Mine {
		t.Errorf("%+v", f)
	}
	if is := claimstest.State(t, b); is.Epoch != before.Epoch || is.Time < before.Time+day-1 {
		t.Errorf("%+v, and before %+v", is, before)
	}
	ahead := claims.Claim{Key: claimstest.Key(), Owner: claimstest.Own(1), Expires: before.Time + day + claimstest.Usual.Lasts - 60}
	mine(t, a, ahead)
	// Back again: what was claimed meanwhile may live long, and what was claimed before is gone.
	set(0)
	for _, n := range []int{1, 2} {
		these := []claims.Claim{by(3, c), by(3, c)}
		these[1].Key = claimstest.Key()
		for i, f := range claimstest.Try(b, patience.Long, these[:n]...) {
			if claimstest.Judge(these[i], f, 60) == claimstest.Mine {
				t.Errorf("%+v", f)
			}
		}
	}
	for n, store := range []claims.Store{b, open(t, o), a} {
		if f := claimstest.Put(t, store, by(4+n, c))[0]; claimstest.Judge(by(4+n, c), f, 60) == claimstest.Mine || f.Deaf < ahead.Expires {
			t.Errorf("%+v", f)
		}
	}
	another(t, before, a, b, open(t, o))
	// A day back, in the epoch that follows.
	before = claimstest.State(t, a)
	set(-day)
	if f := claimstest.Put(t, b, by(9, c))[0]; f.Deaf < before.Deaf || f.Time+day > claimstest.Now() {
		t.Errorf("%+v", f)
	}
	another(t, before, b, a, open(t, o))
}

// Nothing is removed while the clock is back, and a step back that was borne does not make the epoch that follows deaf for less.
func TestASmallStepBack(t *testing.T) {
	t.Parallel()
	s, set := withClock(t)
	o := Options{URLs: []string{s.URL}, Name: "svid"}
	a := open(t, o)
	c := claim(1)
	c.Expires = claimstest.State(t, a).Time + claimstest.Usual.Lasts
	mine(t, a, c)
	set(-int(claimstest.Usual.Back) + 5)
	before := claimstest.State(t, a)
	s.do(t, "TRUNCATE svid.claim")
	if is := claimstest.State(t, a); is.Epoch == before.Epoch || is.Deaf < c.Expires || is.Time+claimstest.Usual.Back > claimstest.Now()+5 {
		t.Errorf("%+v, and before %+v", is, before)
	}
}
