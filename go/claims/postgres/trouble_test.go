package postgres

import (
	"strings"
	"testing"
	"time"

	"svid.example/go/v3/claims"
	"svid.example/go/v3/claims/claimstest"
	"svid.example/go/v3/internal/broker"
	"svid.example/go/v3/internal/logtest"
)

// A server whose disk is full answers no claim, or ends. It goes on once there is room, and has lost nothing.
func TestFullDisk(t *testing.T) {
	t.Parallel()
	dir, fill, free, ok := logtest.Small(t, 96)
	if !ok {
		t.Log("no small disk without root")
		return
	}
	if err := broker.Own(dir); err != nil {
		t.Fatal(err)
	}
	s := startIn(t, dir)
	o := Options{URLs: []string{s.URL}, Name: "svid"}
	a, b := open(t, o), open(t, o)
	before := claimstest.State(t, a)
	claimstest.Watch(t, a)
	var ledger claimstest.Ledger
	defer claimstest.Load(t, &ledger, a, b)()
	logtest.Await(t, "claims", func() bool { return ledger.Len() > 100 })
	fill()
	logtest.Await(t, "the server to take no more", func() bool { // (It may get some room by what it removes.)
		return s.Do("CREATE TABLE IF NOT EXISTS more (text text)") != nil || s.Do("INSERT INTO more SELECT repeat('x', 1000) FROM generate_series(1, 3000)") != nil
	})
	free()
	s.Postgres.Kill()
	s.start(t)
	n := ledger.Len()
	logtest.Await(t, "more claims", func() bool { return ledger.Len() > n+100 })
	if is := claimstest.State(t, b); is.Epoch != before.Epoch || is.Deaf != 0 {
		t.Errorf("%+v, and before %+v", is, before)
	}
}

// Whatever happens to the server, and to what is between it and a member, no token is accepted twice, and nothing ends the epoch of a
// server that keeps what it answers.
func TestTrouble(t *testing.T) {
	t.Parallel()
	s := start(t)
	proxy := logtest.NewProxy(t, s.Postgres.Address)
	o := Options{URLs: []string{s.URL}, Name: "svid"}
	through := Options{URLs: []string{strings.Replace(s.URL, s.Postgres.Address, proxy.Address, 1)}, Name: "svid"}
	members := []claims.Store{open(t, o), open(t, through), open(t, o)}
	before := claimstest.State(t, members[0])
	for _, store := range members {
		claimstest.Watch(t, store)
	}
	var ledger claimstest.Ledger
	end := claimstest.Load(t, &ledger, members...)
	more := func() {
		t.Helper()
		n := ledger.Len()
		logtest.Await(t, "more claims", func() bool { return ledger.Len() > n+100 })
	}
	put := func(away func()) {
		t.Helper()
		more()
		away()
		more()
	}
	put(func() { s.Postgres.Kill(); s.start(t) })
	put(func() {
		s.Postgres.Pause()
		for try := 0; try < 2; try++ { // (each takes a second)
			if f := claimstest.Try(members[2], time.Second, claim(9))[0]; f.Err == nil {
				t.Errorf("%+v", f)
			}
		}
		s.Postgres.Resume()
	})
	for i := 0; i < 5; i++ {
		put(func() {
			proxy.Lose([]byte(`put($1::bytea[]`))
			proxy.Shut(true)
			proxy.Shut(false) // It connects again, and prepares again what is lost then.
			logtest.Await(t, "a lost answer", proxy.HasLost)
		})
		put(func() { proxy.Shut(true); proxy.Shut(false) })
	}
	put(func() { s.Postgres.Stop(); s.start(t) })
	end()
	late := open(t, o)
	for _, store := range append(members, late) {
		if is := claimstest.State(t, store); is.Epoch != before.Epoch || is.Deaf != 0 {
			t.Errorf("%+v, and before %+v", is, before)
		}
	}
}
