package server

import (
	"bytes"
	"context"
	"errors"
	"fmt"
	"strings"
	"sync/atomic"
	"testing"
	"time"

	"svid.example/go/v3/claims"
)

// fullDisk is a disk that says, before it is asked for more, that it has no room.
type fullDisk struct {
	disk
	full error
}

func (f *fullDisk) Room(context.Context) error { return f.full }

// A disk without room is said before a token is burnt by it. In the other modes it is no reason.
func TestReadyzTellsOfADiskWithoutRoom(t *testing.T) {
	for mode, want := range map[Mode]bool{Once: false, Strict: true, Reuse: true} {
		d := &fullDisk{full: errors.New("no space left on device")}
		o := Options{Mode: mode, Journal: d}
		if mode == Strict {
			o = inStrict(o)
		}
		e := ready(t, engine(t, o))
		if mode == Strict {
			newShop().use(t, e)
		}
		if got := e.Ready() == nil; got != want {
			t.Errorf("%s: ready is %v", mode, e.Ready())
		}
		d.full = nil
		e.lookAhead()
		if err := e.Ready(); err != nil {
			t.Errorf("%s, with room: %v", mode, err)
		}
	}
}

// A store that is away makes mode strict unready, and no other mode, once it is away for longer than a request waits for it.
func TestReadyzTellsOfAStoreThatIsAway(t *testing.T) {
	const wait = 50 * time.Millisecond
	for _, mode := range []Mode{Once, Strict, Reuse} {
		o := inStrict(Options{Wait: wait})
		o.Mode = mode
		s := newShop()
		var away atomic.Bool
		s.Fault = func() error {
			if away.Load() {
				return errors.New("connection refused")
			}
			return nil
		}
		e := s.use(t, ready(t, engine(t, o)))
		await(t, "the store to be there", func() bool { e.lookAhead(); return e.Ready() == nil }) // (a look may take as long as a request at the most)
		away.Store(true)
		e.lookAhead()
		if mode == Strict {
			await(t, "that time to be over", e.isAway)
		}
		if err := e.Ready(); errors.Is(err, errAway) != (mode == Strict) {
			t.Errorf("%s: ready is %v", mode, err)
		}
		away.Store(false)
		await(t, fmt.Sprintf("the store to be there again in mode %s", mode), func() bool { e.lookAhead(); return e.Ready() == nil })
	}
}

// A store is away since the first look, or claim, that it did not answer, however often it was tried since.
func TestTheAbsenceOfAStoreBeginsOnce(t *testing.T) {
	const wait = time.Minute
	fault := errors.New("connection refused")
	for what, answer := range map[string]func(e *Engine, from time.Time, err error){
		"looks":  (*Engine).storeAnswered,
		"claims": func(e *Engine, from time.Time, err error) { e.noteClaims(from, []claims.Found{{Err: err}}) },
	} {
		e := newShop().use(t, ready(t, engine(t, inStrict(Options{Wait: wait}))))
		for _, step := range []struct {
			ago  time.Duration
			err  error
			away bool
		}{{wait / 2, fault, false}, {2 * wait, nil, false}, {2 * wait, fault, true}, {0, fault, true}, {0, nil, false}, {0, fault, false}} {
			if answer(e, time.Now().Add(-step.ago), step.err); e.isAway() != step.away {
				t.Errorf("%s: behind %+v it is away: %v", what, step, !step.away)
			}
		}
	}
}

// While a store is away, the log and /readyz say why: with the reason of now.
func TestAStoreThatIsAwayForAnotherReason(t *testing.T) {
	var log bytes.Buffer
	o := inStrict(Options{Wait: time.Nanosecond, Log: NewLog(&log, Decisions)})
	e := newShop().use(t, ready(t, engine(t, o)))
	refused := func(port int) error { return fmt.Errorf("read tcp 127.0.0.1:%d->127.0.0.1:6379: refused", port) }
	for i, why := range []error{refused(1), refused(2), errors.New("the password is wrong"), errors.New("the password is wrong"), refused(3)} {
		e.storeAnswered(time.Now().Add(-time.Minute), why)
		if err := e.Ready(); err == nil || !strings.Contains(err.Error(), why.Error()) {
			t.Errorf("look %d: %v, and the store said %v", i, err, why)
		}
	}
	if lines := strings.Count(log.String(), `"event":"unready"`); lines != 2 {
		t.Errorf("two reasons have %d lines: %s", lines, &log)
	}
}

// A stranger who asks /readyz hears why a store is away, and no address, name or file. The log has them.
func TestReadyzNamesNoAddress(t *testing.T) {
	var log bytes.Buffer
	e := newShop().use(t, ready(t, engine(t, inStrict(Options{Wait: time.Nanosecond, Log: NewLog(&log, Decisions)}))))
	for why, says := range map[string]string{
		"dial tcp 192.0.2.7:6379: connect: connection refused":                                                     "dial tcp ..: connect: connection refused",
		"dial tcp [2001:db8::7%eth0]:6379: connect: connection refused":                                            "dial tcp ..: connect: connection refused",
		"read tcp 192.0.2.8:51234->192.0.2.7:6379: i/o timeout":                                                    "read tcp ..->..: i/o timeout",
		"dial tcp: lookup redis.internal on 192.0.2.53:53: no such host":                                           "dial tcp: lookup ..: no such host",
		"dial tcp: lookup redis.internal: no such host":                                                            "dial tcp: lookup ..: no such host",
		"redis.internal:6379: the server answered: OOM":                                                            "..: the server answered: OOM",
		"dial unix /run/redis/redis.sock: connect: permission denied":                                              "dial unix ..: connect: permission denied",
		"open /etc/svidd/password: permission denied":                                                              "open ..: permission denied",
		`Get "https://keys.internal/bundle": EOF`:                                                                  `Get "..": EOF`,
		"x509: certificate is valid for a.internal, b.internal, not redis.internal":                                "x509: certificate is valid for ..",
		"x509: cannot validate certificate for 192.0.2.7 because it doesn't contain any IP SANs":                   "x509: cannot validate certificate for .. because it doesn't contain any IP SANs",
		"x509: cannot validate certificate for 2001:db8::7 because it doesn't contain any IP SANs":                 "x509: cannot validate certificate for .. because it doesn't contain any IP SANs",
		"two Sentinels name two primaries, 192.0.2.7:6379 and redis.internal:6380: wait until they agree":          "two Sentinels name two primaries, .. and ..: wait until they agree",
		`pq: no pg_hba.conf entry for host "192.0.2.8", no encryption`:                                             `pq: no pg_hba.conf entry for host "..", no encryption`,
		"the server answered: NOPERM this user has no permissions to run the 'set' command or its subcommand":      "the server answered: NOPERM this user has no permissions to run the 'set' command or its subcommand",
		"claims: read withdrawals: the one at position 7 is missing":                                               "claims: read withdrawals: the one at position 7 is missing",
		"pq: database \"svid\" does not exist; the server is a standby; see sentinel monitor and/or CLUSTER NODES": "pq: database \"svid\" does not exist; the server is a standby; see sentinel monitor and/or CLUSTER NODES",
	} {
		e.storeAnswered(time.Now().Add(-time.Minute), errors.New(why))
		w := request(e.Handler(), "GET", "/readyz")
		if want := errAway.Error() + ": " + says + "\n"; w.Code != 503 || w.Body.String() != want {
			t.Errorf("%s: %d %q, want %q", why, w.Code, w.Body, want)
		}
		e.storeAnswered(time.Now(), nil)
	}
	for _, want := range []string{"192.0.2.7:6379", "/run/redis/redis.sock", "lookup redis.internal"} {
		if !strings.Contains(log.String(), want) {
			t.Errorf("the log does not name %s", want)
		}
	}
}

// That a store is away, and that it is there again, is a line of the log each, however often it is looked at.
func TestAStoreThatIsAwayIsSaidOnce(t *testing.T) {
	var log bytes.Buffer
	o := inStrict(Options{Wait: time.Nanosecond, Log: NewLog(&log, Decisions)})
	e := newShop().use(t, ready(t, engine(t, o)))
	log.Reset()
	for times := 1; times <= 2; times++ {
		for i := 0; i < 5; i++ {
			e.storeAnswered(time.Now().Add(-time.Minute), errors.New("connection refused"))
		}
		for i := 0; i < 5; i++ {
			e.storeAnswered(time.Now(), nil)
		}
		if away, there := strings.Count(log.String(), `"event":"unready"`), strings.Count(log.String(), `"event":"ready"`); away != times || there != times {
			t.Errorf("%d lines say that it is away, and %d that it is there: %s", away, there, &log)
		}
	}
}
