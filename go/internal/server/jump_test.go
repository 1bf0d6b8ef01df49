package server

import (
	"bytes"
	"errors"
	"strings"
	"testing"
	"time"

	"svid.example/go/v3/svid"
)

// A clock that jumps ahead expires nothing. While it is there no token is judged, and when it has come back all is as before. If
// it stays there for a minute, the sidecar restarts.
func TestAClockThatJumpsAhead(t *testing.T) {
	var log bytes.Buffer
	b := benchOf(t, Options{Mode: Once, Log: NewLog(&log, Errors)})
	b.step(Run{})
	if r := b.asks("a"); r.Err != nil || !r.answered {
		t.Fatal(r.Err)
	}
	b.now.Wall += 100_000
	for i := 0; i < 3; i++ {
		b.pass(time.Second)
	}
	if r := b.asks("b"); !errors.Is(r.Err, svid.ErrJump) {
		t.Errorf("a token while the clock is wrong: %v", r.Err)
	}
	if err := b.machine.Ready(b.now, false, false); err == nil || !strings.Contains(err.Error(), "clock") {
		t.Errorf("ready: %v", err)
	}
	if n := strings.Count(log.String(), "\n"); n != 1 || b.count(JumpedAhead{}) != 0 {
		t.Errorf("%d lines, and given up %d times: %s", n, b.count(JumpedAhead{}), &log)
	}
	b.now.Wall -= 100_000
	b.pass(time.Second)
	if err := b.machine.Ready(b.now, false, false); err != nil {
		t.Error(err)
	}
	for id, want := range map[string]error{"a": svid.Replayed, "b": nil} {
		if r := b.asks(id); r.Err != want {
			t.Errorf("the clock is right again: %s: %v, want %v", id, r.Err, want)
		}
	}
	b.now.Wall += 100_000
	for i := time.Duration(0); i <= jumpPatience; i += time.Second {
		if b.pass(time.Second); b.count(JumpedAhead{}) != 0 {
			t.Fatalf("it is given up after %v", i)
		}
	}
	if b.pass(time.Second); b.count(JumpedAhead{}) != 1 {
		t.Errorf("the clock stays there: given up %d times", b.count(JumpedAhead{}))
	}
}

// While the machine runs, the record follows the clock, and a journal that has grown is replaced by a snapshot: once it is longer
// than the last snapshot, and not short. There is one at a time, and one at the end.
func TestRunFollowsTheClockAndTakesSnapshots(t *testing.T) {
	b := benchOf(t, Options{Mode: Once, Journal: &disk{}})
	uses := func() uint64 { b.pass(time.Second); return b.machine.metrics.Uses.Load() }
	b.step(&Feed{Messages: batchOf(svid.Use{Key: svid.TokenKey{1}, Expires: moment + 100, At: moment})}, &Load{Size: smallJournal}, Run{})
	if n := uses(); n != 1 || b.count(Snapshot{}) != 0 {
		t.Errorf("%d uses, %d snapshots of a short journal", n, b.count(Snapshot{}))
	}
	b.step(Kept{&Write{Size: smallJournal + 1}})
	for i := 0; i < 3; i++ {
		if b.pass(time.Second); b.count(Snapshot{}) != 1 {
			t.Errorf("%d snapshots at once", b.count(Snapshot{}))
		}
	}
	const length = 2 * smallJournal
	b.step(Snapshotted{Length: length}, Kept{&Write{Size: length}})
	if b.pass(time.Second); b.count(Snapshot{}) != 1 {
		t.Error("a snapshot of a journal that is not longer than the last one")
	}
	b.step(Kept{&Write{Size: length + 1}})
	if b.pass(time.Second); b.count(Snapshot{}) != 2 {
		t.Error("no snapshot of a journal that is longer than the last one")
	}
	b.step(Snapshotted{Err: errors.New("the disk is full")})
	if m := b.machine.metrics; m.Snapshots.Load() != 1 || m.JournalFailures.Load() != 1 {
		t.Errorf("%d snapshots, %d failures", m.Snapshots.Load(), m.JournalFailures.Load())
	}
	b.now.Wall += 100
	if n := uses(); n != 0 {
		t.Errorf("%d uses that have expired", n)
	}
	for i := 0; i < 600; i++ { // The disk stays full. (Each try begins another journal, and takes the room that is left for a moment.)
		before := b.count(Snapshot{})
		b.step(Kept{&Write{Size: 2*length + int64(i)}})
		if b.pass(time.Second); b.count(Snapshot{}) > before {
			b.step(Snapshotted{Length: length, Size: 2*length + int64(i), Err: errors.New("the disk is full")})
		}
	}
	if n := b.count(Snapshot{}); n < 2+9 || n > 2+10 {
		t.Errorf("in ten minutes of a full disk %d snapshots", n-2)
	}
	before := b.count(Snapshot{})
	if b.step(End{}); b.count(Snapshot{}) != before+1 || b.count(Ended{}) != 0 {
		t.Errorf("at the end %d snapshots", b.count(Snapshot{})-before)
	}
	if b.step(Snapshotted{}); b.count(Ended{}) != 1 {
		t.Error("it does not end")
	}
}

// What fails each second, as where the system refuses memory, is a line a minute.
func TestARecordThatCantFollowTheClockDoesNotFillTheLog(t *testing.T) {
	var log bytes.Buffer
	b := benchOf(t, Options{Mode: Reuse, Log: NewLog(&log, Errors)})
	b.step(&Load{}, Run{})
	b.machine.validator.Close() // So it answers nothing.
	for i := 0; i < 30; i++ {
		b.pass(time.Second)
	}
	if ticks, sizes := strings.Count(log.String(), `"event":"tick"`), strings.Count(log.String(), `"event":"measure"`); ticks+sizes != 1 {
		t.Errorf("in half a minute %d and %d lines: %.2000s", ticks, sizes, &log)
	}
}
