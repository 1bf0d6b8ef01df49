package journal

import (
	"bytes"
	"context"
	"errors"
	"io"
	"sync"
	"sync/atomic"
	"syscall"
	"testing"
	"time"

	"svid.example/go/v3/internal/patience"
	"svid.example/go/v3/svid"
)

// useOf is the use of batch(n).
func useOf(n uint64) svid.Use {
	uses, err := svid.Uses(batch(n))
	if err != nil {
		panic(err)
	}
	return uses[0]
}

// wantMark is where the validator was in its log, as a start and Check find it.
func wantMark(t *testing.T, dir string, want svid.Mark, isThere bool) {
	t.Helper()
	found, err := Check(dir)
	if err != nil || found.InLog != isThere || found.Log != want {
		t.Errorf("Check finds %+v %v (%v), want %+v", found.Log, found.InLog, err, want)
	}
	j := mustOpen(t, dir)
	if got, ok := j.Mark(); ok != isThere || got != want {
		t.Errorf("a start finds %+v %v, want %+v", got, ok, want)
	}
	mustClose(t, j)
}

// A payload begins with where the validator is in its log where that is due, once for all that share it, and so does a snapshot. A
// start finds the last one.
func TestThePayloadHasTheMark(t *testing.T) {
	dir := t.TempDir()
	var now svid.Mark
	reads := false
	j, err := Open(dir)
	if err != nil {
		t.Fatal(err)
	}
	j.quiet = 0
	j.Bear(func() (svid.Mark, bool) { return now, reads })
	if err := j.Load(func([]byte) error { return nil }); err != nil {
		t.Fatal(err)
	}
	if mark, ok := j.Mark(); ok {
		t.Errorf("a new folder has %+v", mark)
	}
	ctx := context.Background()
	if err := j.AppendMark(ctx); err != nil || j.Size() != 0 {
		t.Errorf("without a log %d bytes were written (%v)", j.Size(), err)
	}
	reads, now = true, svid.Mark{Passed: 7, Begun: 3, Deaf: 900}
	if err := j.AppendMark(ctx); err != nil {
		t.Fatal(err)
	}
	p := j.ValidatorID()
	var journal []byte
	number := uint64(0)
	// One more payload is as it is due.
	add := func(mark *svid.Mark, messages []byte) {
		var payload []byte
		if mark != nil {
			payload = svid.AppendMark(nil, *mark)
		}
		number++
		journal = append(journal, frame(2, p, 2, number, append(payload, messages...))...)
	}
	add(&svid.Mark{Passed: 7, Begun: 3, Deaf: 900}, nil)
	for _, step := range []struct {
		what   string
		change func()
		bears  bool
	}{
		{"the same mark", func() {}, false},
		{"one that is not old", func() { now.Passed = 8 }, false},
		{"another moment", func() { now.Deaf = 901 }, true},
		{"an earlier moment", func() { now.Deaf = 3 }, true},
		{"no mark at all", func() { reads = false }, false},
		{"the one before", func() { reads = true }, false},
		{"more of the value behind it", func() { now.Begun = 4 }, false},
		{"that one, which is old now", func() { j.age = 0 }, true},
		{"the same, which is old", func() {}, false},
	} {
		step.change()
		if err := j.AppendUses(ctx, useOf(number)); err != nil {
			t.Fatalf("%s: %v", step.what, err)
		}
		mark := &now
		if !step.bears {
			mark = nil
		}
		add(mark, batch(number))
		if got := bytes.TrimRight(readFile(t, dir, "journal.2"), "\x00"); !bytes.Equal(got, journal) {
			t.Fatalf("%s: the journal is %x, want %x", step.what, got, journal)
		}
	}
	// Who asks for a mark gets it, however old the last one is, and it is not written twice.
	j.age = time.Hour
	for range [2]int{} {
		now.Passed = 11
		if err := j.AppendMark(ctx); err != nil {
			t.Fatal(err)
		}
	}
	add(&now, nil)
	if got := bytes.TrimRight(readFile(t, dir, "journal.2"), "\x00"); !bytes.Equal(got, journal) {
		t.Errorf("the journal is %x, want %x", got, journal)
	}
	if err := j.Snapshot(writes(batch(1))); err != nil {
		t.Fatal(err)
	}
	front := svid.AppendMark(nil, now)
	snapshot := append(append(frame(2, p, 0, 1, front), frame(2, p, 0, 2, batch(1))...), frame(2, p, 0, 3, nil)...)
	if got := readFile(t, dir, snapshotName); !bytes.Equal(got, snapshot) {
		t.Errorf("the snapshot is %x, want %x", got, snapshot)
	}
	// A crash leaves the next journal without a mark: that of the snapshot counts.
	if found, err := Check(dir); err != nil || !found.InLog || found.Log != now {
		t.Errorf("behind a snapshot Check finds %+v (%v), want %+v", found, err, now)
	}
	// The next journal begins with the mark again, since the one that had it is gone.
	if err := j.AppendUses(ctx, useOf(1)); err != nil {
		t.Fatal(err)
	}
	journal = frame(2, p, 3, 1, append(svid.AppendMark(nil, now), batch(1)...))
	if got := bytes.TrimRight(readFile(t, dir, "journal.3"), "\x00"); !bytes.Equal(got, journal) {
		t.Errorf("the next journal is %x, want %x", got, journal)
	}
	if err := j.Close(); err != nil {
		t.Fatal(err)
	}
	wantMark(t, dir, now, true)
	o := mustOpen(t, dir)
	wantMessages(t, o, append(batch(1), batch(1)...))
	// The last one counts, whatever stood there before.
	last := svid.Mark{Passed: 2, Deaf: 5}
	o.Bear(func() (svid.Mark, bool) { return last, true })
	if err := o.AppendMark(ctx); err != nil {
		t.Fatal(err)
	}
	last.Passed = 1
	mustClose(t, o)
	wantMark(t, dir, last, true)
	// Who reads no log any more keeps none.
	o = mustOpen(t, dir)
	if err := o.Snapshot(writes(batch(1))); err != nil {
		t.Fatal(err)
	}
	mustClose(t, o)
	wantMark(t, dir, svid.Mark{}, false)
}

// await waits until something is so.
func await(t *testing.T, isSo func() bool) {
	t.Helper()
	for from := time.Now(); !isSo(); time.Sleep(time.Millisecond) {
		if time.Since(from) > patience.Long {
			t.Fatalf("it is not so after %v", patience.Long)
		}
	}
}

// A mark that can't be written is an error, and the next one goes to the same offset.
func TestAMarkThatIsNotWritten(t *testing.T) {
	dir := t.TempDir()
	fails := false
	j := mustWatch(t, dir, func(call, name string) error {
		if call == "write" && fails {
			return syscall.ENOSPC
		}
		return nil
	})
	mustAppend(t, j, batch(0))
	now := svid.Mark{Passed: 1}
	j.Bear(func() (svid.Mark, bool) { return now, true })
	fails = true
	if err := j.AppendMark(context.Background()); !errors.Is(err, syscall.ENOSPC) {
		t.Errorf("no room: %v", err)
	}
	fails, now.Deaf = false, 44
	if err := j.AppendMark(context.Background()); err != nil {
		t.Error(err)
	}
	mustClose(t, j)
	wantMark(t, dir, now, true)
}

// Uses that share a write share a batch, where they are of one time: that is 65 bytes for each further one.
func TestUsesThatShareAWriteShareABatch(t *testing.T) {
	for _, row := range []struct{ uses, bytes int }{{1, 120}, {2, 184}, {9, 640}} {
		dir := t.TempDir()
		j, begun, let := hang(t, dir)
		j.quiet = 0
		before := j.Size()
		var all sync.WaitGroup
		all.Add(1 + row.uses)
		appends := func(n uint64) {
			defer all.Done()
			if err := j.AppendUses(context.Background(), useOf(n)); err != nil {
				t.Error(err)
			}
		}
		go appends(500)
		<-begun // (and the others share the next write)
		for n := 0; n < row.uses; n++ {
			go appends(uint64(n))
		}
		await(t, func() bool {
			j.gather.Lock()
			defer j.gather.Unlock()
			return j.gathering != nil && len(j.gathering.uses) == row.uses
		})
		let()
		all.Wait()
		if got := j.Size() - before - 120; got != int64(row.bytes) {
			t.Errorf("%d uses take %d bytes, want %d", row.uses, got, row.bytes)
		}
		mustClose(t, j)
		uses, err := svid.Uses(mustOpen(t, dir).messages)
		if err != nil || len(uses) != row.uses+2 {
			t.Errorf("%d uses are read (%v)", len(uses), err)
		}
	}
}

// What waits for the disk has a bound for uses too.
func TestTooManyUsesForOneWrite(t *testing.T) {
	j := mustOpen(t, t.TempDir())
	many := make([]svid.Use, mostMessages/mostOfUse+1)
	for i := range many {
		many[i] = useOf(uint64(i))
		many[i].At = uint64(i) // (a batch each: the most that they can take)
		many[i].Expires = 1 << 40
	}
	if err := j.AppendUses(context.Background(), many...); !errors.Is(err, svid.ErrPayload) {
		t.Error(err)
	}
	if err := j.AppendUses(context.Background(), many[1:]...); err != nil {
		t.Error(err)
	}
	mustClose(t, j)
	if err := j.Snapshot(func(io.Writer) error { return nil }); err != ErrClosed {
		t.Error(err)
	}
}

// A mark that was not written with its payload is due with the next one.
func TestAMarkOfAPayloadThatFailed(t *testing.T) {
	dir := t.TempDir()
	fails := false
	j := mustWatch(t, dir, func(call, name string) error {
		if call == "write" && fails {
			return syscall.ENOSPC
		}
		return nil
	})
	now := svid.Mark{Passed: 1, Deaf: 44}
	j.Bear(func() (svid.Mark, bool) { return now, true })
	fails = true
	if err := j.AppendUses(context.Background(), useOf(1)); !errors.Is(err, syscall.ENOSPC) {
		t.Errorf("no room: %v", err)
	}
	fails = false
	if err := j.AppendUses(context.Background(), useOf(2)); err != nil {
		t.Error(err)
	}
	mustClose(t, j)
	wantMark(t, dir, now, true)
}

// Where uses come one by one, a log costs few bytes: at most half as many again as the 82 of a batch of one use.
func TestAMarkTakesFewBytes(t *testing.T) {
	j := mustOpen(t, t.TempDir())
	passed := uint64(0)
	j.Bear(func() (svid.Mark, bool) { passed++; return svid.Mark{Passed: passed}, true })
	const uses = 200
	began := time.Now()
	for i := uint64(0); i < uses; i++ {
		if err := j.AppendUses(context.Background(), useOf(i)); err != nil {
			t.Fatal(err)
		}
	}
	marks := 1 + int64(time.Since(began)/markAge)
	if most := int64(uses*mostOfUse*3/2) + marks*svid.MarkLen; j.Size() > most {
		t.Errorf("%d uses take %d bytes, at most %d are due", uses, j.Size(), most)
	}
	mustClose(t, j)
}

// Once it is quiet, the journal says where the validator is now, and then it has a mark.
func TestTheLastMarkIsSaidOnceItIsQuiet(t *testing.T) {
	dir := t.TempDir()
	j, err := Open(dir)
	if err != nil {
		t.Fatal(err)
	}
	j.quiet, j.age = 10*time.Millisecond, time.Hour
	var passed atomic.Uint64
	j.Bear(func() (svid.Mark, bool) { return svid.Mark{Passed: passed.Load()}, true })
	if err := j.Load(func([]byte) error { return nil }); err != nil {
		t.Fatal(err)
	}
	for i := uint64(0); i < 2; i++ {
		passed.Store(i)
		if err := j.AppendUses(context.Background(), useOf(i)); err != nil {
			t.Fatal(err)
		}
	}
	await(t, func() bool {
		found, err := Check(dir)
		return err == nil && found.Log == svid.Mark{Passed: 1} && found.Files[len(found.Files)-1].Marks > 0
	})
	if err := j.Close(); err != nil {
		t.Error(err)
	}
	wantMark(t, dir, svid.Mark{Passed: 1}, true)
}
