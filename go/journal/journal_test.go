package journal

import (
	"bytes"
	"context"
	"encoding/binary"
	"errors"
	"fmt"
	"io"
	"math/rand"
	"os"
	"os/exec"
	"os/signal"
	"path/filepath"
	"runtime/debug"
	"strings"
	"sync"
	"syscall"
	"testing"
	"time"

	"svid.example/go/v3/internal/patience"
	"svid.example/go/v3/internal/regular"
	"svid.example/go/v3/svid"
)

// batch is a batch of one use, whose key begins with n. It has 82 bytes, and its frame 120.
func batch(n uint64) []byte {
	use := svid.Use{Expires: 200, At: 100}
	binary.BigEndian.PutUint64(use.Key[:], n)
	return batchOf(use)
}

// batches is the batches from the first number up to before the last.
func batches(first, last uint64) []byte {
	var b []byte
	for n := first; n < last; n++ {
		b = append(b, batch(n)...)
	}
	return b
}

// An opened folder, and the messages that it held.
type opened struct {
	*Journal
	messages []byte
}

// load reads a folder that was opened, and closes it where that fails.
func load(j *Journal, err error) (*opened, error) {
	if err != nil {
		return nil, err
	}
	o := &opened{Journal: j}
	err = j.Load(func(messages []byte) error {
		o.messages = append(o.messages, messages...)
		return nil
	})
	if err != nil {
		j.Close()
		return nil, err
	}
	return o, nil
}

func mustOpen(t *testing.T, dir string) *opened {
	t.Helper()
	j, err := load(Open(dir))
	if err != nil {
		t.Fatal(err)
	}
	t.Cleanup(func() { j.Close() })
	return j
}

// openWith opens a folder by other calls of the system, and reads it.
func openWith(dir string, wrap func(system) system) (*opened, error) {
	f := &folder{dir: dir}
	sys := wrap(f)
	if err := makeFolder(sys); err != nil {
		return nil, err
	}
	if err := f.open(); err != nil {
		return nil, err
	}
	lock, err := f.hold()
	if err != nil {
		return nil, err
	}
	j, err := openBy(sys, dir)
	if err != nil {
		f.Close()
		lock.Close()
		return nil, err
	}
	j.held = []io.Closer{f, lock}
	return load(j, nil)
}

// begin opens the folder of a model of a disk, and reads it.
func begin(d *disk) (*opened, error) {
	if err := makeFolder(d); err != nil {
		return nil, err
	}
	return load(openBy(d, "disk"))
}

// A watched system asks before each call that changes something, and lets it fail with what it is answered.
type watched struct {
	system
	before func(call, name string) error
}

func (w *watched) mkdir() error {
	if err := w.before("mkdir", ""); err != nil {
		return err
	}
	return w.system.mkdir()
}

func (w *watched) rmdir() error {
	if err := w.before("rmdir", ""); err != nil {
		return err
	}
	return w.system.rmdir()
}

func (w *watched) syncAbove() error {
	if err := w.before("sync above", ""); err != nil {
		return err
	}
	return w.system.syncAbove()
}

func (w *watched) create(name string) (file, error) {
	if err := w.before("create", name); err != nil {
		return nil, err
	}
	f, err := w.system.create(name)
	if err != nil {
		return nil, err
	}
	return &watchedFile{f, name, w}, nil
}

func (w *watched) rename(from, to string) error {
	if err := w.before("rename", to); err != nil {
		return err
	}
	return w.system.rename(from, to)
}

func (w *watched) remove(name string) error {
	if err := w.before("remove", name); err != nil {
		return err
	}
	return w.system.remove(name)
}

func (w *watched) sync() error {
	if err := w.before("sync", ""); err != nil {
		return err
	}
	return w.system.sync()
}

type watchedFile struct {
	file
	name string
	by   *watched
}

func (f *watchedFile) WriteAt(b []byte, at int64) (int, error) {
	if err := f.by.before("write", f.name); err != nil {
		return 0, err
	}
	return f.file.WriteAt(b, at)
}

func (f *watchedFile) sync() error {
	if err := f.by.before("fsync", f.name); err != nil {
		return err
	}
	return f.file.sync()
}

func (f *watchedFile) datasync() error {
	if err := f.by.before("fdatasync", f.name); err != nil {
		return err
	}
	return f.file.datasync()
}

// mustWatch opens a folder whose calls are watched. No mark comes by itself.
func mustWatch(t *testing.T, dir string, before func(call, name string) error) *opened {
	t.Helper()
	j, err := openWith(dir, func(s system) system { return &watched{s, before} })
	if err != nil {
		t.Fatal(err)
	}
	j.quiet = 0
	t.Cleanup(func() { j.Close() })
	return j
}

// A fuse lets one call fail, of those that come after setting it: the call of this number, counted from 0.
type fuse struct {
	mu     sync.Mutex
	at, n  int
	set    bool
	failed string
}

func (f *fuse) before(call, name string) error {
	f.mu.Lock()
	defer f.mu.Unlock()
	if !f.set {
		return nil
	}
	f.n++
	if f.n-1 == f.at {
		f.failed = call + " " + name
		return &os.PathError{Op: call, Path: name, Err: syscall.EIO}
	}
	return nil
}

func (f *fuse) from(at int) { f.mu.Lock(); f.at, f.n, f.set = at, 0, true; f.mu.Unlock() }

func mustAppend(t *testing.T, j *opened, b []byte) {
	t.Helper()
	if err := j.Append(context.Background(), b); err != nil {
		t.Fatal(err)
	}
}

func mustClose(t *testing.T, j *opened) {
	t.Helper()
	if err := j.Close(); err != nil {
		t.Fatal(err)
	}
}

// writes gives a Snapshot these bytes.
func writes(b []byte) func(io.Writer) error {
	return func(w io.Writer) error {
		_, err := w.Write(b)
		return err
	}
}

func wantMessages(t *testing.T, j *opened, want []byte) {
	t.Helper()
	if !bytes.Equal(j.messages, want) {
		t.Fatalf("%d bytes of messages, want %d", len(j.messages), len(want))
	}
}

func names(t *testing.T, dir string) string {
	t.Helper()
	entries, err := os.ReadDir(dir)
	if err != nil {
		t.Fatal(err)
	}
	var all []string
	for _, e := range entries {
		all = append(all, e.Name())
	}
	return strings.Join(all, " ")
}

func TestKeepsWhatWasAppended(t *testing.T) {
	dir := filepath.Join(t.TempDir(), "state")
	j := mustOpen(t, dir)
	wantMessages(t, j, nil)
	for n := uint64(0); n < 10; n++ {
		mustAppend(t, j, batch(n))
	}
	if got := j.Size(); got != 1200 {
		t.Fatalf("size %d, want 1200", got)
	}
	mustClose(t, j)
	j = mustOpen(t, dir)
	wantMessages(t, j, batches(0, 10))
	mustAppend(t, j, batch(10))
	if got := j.Size(); got < 1320 || got > 1400 { // (a mark ends the older one)
		t.Errorf("size %d of 11 batches, after a start", got)
	}
	if err := j.Load(func([]byte) error { t.Error("it is read twice"); return nil }); err != nil {
		t.Fatal(err)
	}
	if got := names(t, dir); got != "journal.2 journal.3 lock place snapshot" {
		t.Fatal(got)
	}
	if torn := j.Torn(); len(torn) > 0 {
		t.Errorf("%v is torn", torn[0])
	}
}

func TestSnapshotReplacesWhatIsOlder(t *testing.T) {
	dir := t.TempDir()
	j := mustOpen(t, dir)
	mustAppend(t, j, batches(0, 5))
	err := j.Snapshot(func(w io.Writer) error {
		mustAppend(t, j, batch(7)) // An Append while the snapshot is written is not held up, and is not lost.
		return writes(batches(3, 5))(w)
	})
	if err != nil {
		t.Fatal(err)
	}
	mustAppend(t, j, batch(8))
	if got := names(t, dir); got != "journal.3 lock place snapshot" {
		t.Fatal(got)
	}
	mustClose(t, j)
	j = mustOpen(t, dir)
	if err := j.Snapshot(writes(j.messages)); err != nil {
		t.Fatal(err)
	}
	if got := j.Size(); got != 0 { // (else the next one would be due at once)
		t.Errorf("size %d, and no journal has a batch", got)
	}
	mustClose(t, j)
	want := append(append(batches(3, 5), batch(7)...), batch(8)...)
	wantMessages(t, mustOpen(t, dir), want)
}

func TestFailedSnapshotLosesNothing(t *testing.T) {
	dir := t.TempDir()
	j := mustOpen(t, dir)
	mustAppend(t, j, batches(0, 5))
	if err := j.Snapshot(writes(batches(0, 5))); err != nil {
		t.Fatal(err)
	}
	mustAppend(t, j, batch(5))
	why := errors.New("no memory")
	if err := j.Snapshot(func(io.Writer) error { return why }); !errors.Is(err, why) {
		t.Fatal(err)
	}
	if err := j.Snapshot(writes(make([]byte, svid.MaxPayload+1))); !errors.Is(err, svid.ErrPayload) {
		t.Fatal(err)
	}
	// A function that gets an error of a write, and does not return it.
	if err := j.Snapshot(func(w io.Writer) error { w.Write(make([]byte, svid.MaxPayload+1)); return nil }); !errors.Is(err, svid.ErrPayload) {
		t.Fatal(err)
	}
	if got := names(t, dir); strings.Contains(got, unfinished) {
		t.Errorf("what a snapshot that failed has written stays: %s", got) // It may be what fills the disk.
	}
	mustAppend(t, j, batch(6))
	mustClose(t, j)
	wantMessages(t, mustOpen(t, dir), batches(0, 7))
	if got := names(t, dir); got != "journal.3 journal.4 journal.5 journal.6 journal.7 lock place snapshot" {
		t.Fatal(got)
	}
}

// Whichever call of a snapshot fails, no batch is lost that an Append took before it, while it was written or after it. A sync of
// the folder, or of a journal, is the end; any other fault passes.
func TestEachFailedCallOfASnapshotLosesNothing(t *testing.T) {
	seen := map[string]bool{}
	for number, last := 0, false; !last; number++ {
		dir := t.TempDir()
		f := &fuse{}
		j := mustWatch(t, dir, f.before)
		mustAppend(t, j, batches(0, 3))
		if err := j.Snapshot(writes(batches(0, 3))); err != nil {
			t.Fatal(err)
		}
		acknowledged := batches(0, 4)
		mustAppend(t, j, batch(3))
		n := uint64(4)
		add := func() error {
			err := j.Append(context.Background(), batch(n))
			if err == nil {
				acknowledged = append(acknowledged, batch(n)...)
			}
			n++
			return err
		}
		f.from(number)
		err := j.Snapshot(func(w io.Writer) error { add(); return writes(acknowledged)(w) })
		f.mu.Lock()
		failed := f.failed
		f.set = false
		f.mu.Unlock()
		seen[failed] = true
		if last = failed == ""; last && err != nil {
			t.Fatalf("call %d: %v", number, err)
		}
		end := failed == "sync " || strings.HasPrefix(failed, "fdatasync")
		if again := add(); end != errors.Is(again, svid.ErrFolderEnded) || end != (again != nil) {
			t.Errorf("%s fails, and the next append says %v", failed, again)
		}
		if again := j.Snapshot(writes(acknowledged)); end != (again != nil) {
			t.Errorf("%s fails, and the next snapshot says %v", failed, again)
		}
		add()
		if err := j.Close(); err != nil {
			t.Error(err)
		}
		found := mustOpen(t, dir).messages
		for i := 0; i < len(acknowledged); i += 82 {
			if !bytes.Contains(found, acknowledged[i:i+82]) {
				t.Errorf("%s fails, and batch %d is lost", failed, i/82)
			}
		}
	}
	for _, call := range []string{"create journal.4", "sync ", "write journal.3", "fdatasync journal.3", "create snapshot.new", "write snapshot.new", "fsync snapshot.new",
		"rename snapshot", "remove journal.3", "write journal.4", "fdatasync journal.4"} {
		if !seen[call] {
			t.Errorf("%s was not tried", call)
		}
	}
}

// A snapshot whose name the disk may not have must not let the journals go, also where a later fsync says nothing.
func TestAFolderThatCannotBeForcedToTheDiskIsTheEnd(t *testing.T) {
	for which := 1; which <= 2; which++ {
		dir := t.TempDir()
		syncs, failing := 0, false
		j := mustWatch(t, dir, func(call, _ string) error {
			if failing && call == "sync" {
				if syncs++; syncs == which {
					return syscall.EIO
				}
			}
			return nil
		})
		mustAppend(t, j, batches(0, 3))
		failing = true
		for i := 0; i < 2; i++ {
			if err := j.Snapshot(writes(batches(0, 3))); !errors.Is(err, svid.ErrFolderEnded) || !strings.Contains(err.Error(), "start the service again") {
				t.Errorf("sync %d, snapshot %d: %v", which, i, err)
			}
		}
		if err := j.Append(context.Background(), batch(3)); !errors.Is(err, svid.ErrFolderEnded) || !errors.Is(err, syscall.EIO) {
			t.Errorf("sync %d, append: %v", which, err)
		}
		if got := names(t, dir); got != "journal.2 journal.3 lock place snapshot" {
			t.Errorf("sync %d: %s", which, got)
		}
	}
}

// A snapshot that can't be renamed, or can't begin, leaves all in its place, and Append goes on.
func TestASnapshotThatCannotBeMadeLosesNothing(t *testing.T) {
	for what, hinder := range map[string]string{"rename": "snapshot", "the next journal": "journal.3", "the new file": "snapshot.new"} {
		t.Run(what, func(t *testing.T) {
			dir := t.TempDir()
			j := mustOpen(t, dir)
			mustAppend(t, j, batches(0, 3))
			os.Remove(filepath.Join(dir, hinder))
			if err := os.MkdirAll(filepath.Join(dir, hinder, "not empty"), 0o700); err != nil {
				t.Fatal(err)
			}
			if err := j.Snapshot(writes(batches(0, 3))); err == nil {
				t.Fatal("it was made")
			}
			mustAppend(t, j, batch(3))
			if err := os.RemoveAll(filepath.Join(dir, hinder)); err != nil {
				t.Fatal(err)
			}
			mustAppend(t, j, batch(4))
			mustClose(t, j)
			j = mustOpen(t, dir)
			wantMessages(t, j, batches(0, 5))
			if err := j.Snapshot(writes(batches(0, 5))); err != nil {
				t.Fatal(err)
			}
			mustClose(t, j)
			wantMessages(t, mustOpen(t, dir), batches(0, 5))
		})
	}
}

// What a crash leaves of a write that got no answer is not read, and is reported. The file stays as it is, and the next
// journal grows.
func TestATornTailIsNotRead(t *testing.T) {
	dir := t.TempDir()
	j := mustOpen(t, dir)
	for n := uint64(0); n < 3; n++ {
		mustAppend(t, j, batch(n))
	}
	mustClose(t, j)
	id, snapshot, text := readFile(t, dir, placeName), readFile(t, dir, snapshotName), readFile(t, dir, "journal.2")
	if len(text) != 120+growth {
		t.Fatalf("%d bytes", len(text))
	}
	whole := text[:3*120]
	want := func(content []byte, good int) {
		t.Helper()
		d := newDisk()
		d.here, d.id = settled(true), settled(atRest(id))
		d.snapshot = settled(atRest(snapshot))
		*d.journal(2) = journalOnDisk{atRest(content), settled(true)}
		before := d.journal(2).file.String()
		for i := 0; i < 2; i++ { // (and again, after a kill)
			j, err := begin(d)
			if err != nil {
				t.Fatal(err)
			}
			wantMessages(t, j, batches(0, uint64(good+i)))
			torn := len(bytes.TrimRight(content[120*good:], "\x00"))
			switch found := j.Torn(); {
			case torn == 0 && len(found) > 0:
				t.Errorf("%d bytes: torn at %d", len(content), found[0].At)
			case torn > 0 && (len(found) != 1 || found[0].At != int64(120*good) || found[0].Rest != torn):
				t.Errorf("%d bytes: torn %v, want %d bytes", len(content), *found[0], torn)
			}
			j.quiet, j.growth = 0, 4096
			mustAppend(t, j, batch(uint64(good+i)))
		}
		if now := d.journal(2).file.String(); now != before {
			t.Error("a start has written to a journal that it found")
		}
	}
	zeros := make([]byte, 200)
	for cut := 0; cut <= len(whole); cut++ {
		want(whole[:cut], cut/120)
	}
	want(append(whole[:len(whole):len(whole)], zeros...), 3)                   // a file that grew, but not its content
	want(append(append(whole[:240:240], zeros[:64]...), whole[240+64:]...), 2) // a cell that is missing
	want(append(append(whole[:240:240], whole[:120]...), zeros...), 2)         // a frame of another number
	want(append(whole[:240+100:240+100], make([]byte, growth)...), 2)          // a page that is missing
}

// TestGrowsByZeros looks at the journal's file as it grows, and is followed by another one. Its length changes once for thousands
// of batches.
func TestGrowsByZeros(t *testing.T) {
	dir := t.TempDir()
	j := mustOpen(t, dir)
	j.quiet = 0
	want := func(name string, length int64) {
		t.Helper()
		info, err := os.Stat(filepath.Join(dir, name))
		if err != nil || info.Size() != length {
			t.Fatalf("%s: %v bytes, want %d (%v)", name, info.Size(), length, err)
		}
	}
	want("journal.2", 0)
	for n := uint64(0); n < 100; n++ {
		mustAppend(t, j, batch(n))
		want("journal.2", 120+growth)
	}
	many := batches(100, 5000) // more than there is room for
	mustAppend(t, j, many)
	length := int64(100*120+32+len(many)+7)/8*8 + growth
	want("journal.2", length)
	if err := j.Snapshot(func(io.Writer) error { return io.ErrClosedPipe }); !errors.Is(err, io.ErrClosedPipe) {
		t.Fatal(err)
	}
	want("journal.2", length)
	want("journal.3", 0)
	mustAppend(t, j, batch(5000))
	want("journal.3", 120+growth)
	mustClose(t, j)
	j = mustOpen(t, dir)
	wantMessages(t, j, batches(0, 5001))
	if torn := j.Torn(); len(torn) > 0 {
		t.Error(torn[0])
	}
}

// TestTooManyOpenFilesAreNotTheEnd has others take all files that are free, at each call of a snapshot, and at a look for room.
func TestTooManyOpenFilesAreNotTheEnd(t *testing.T) {
	var before syscall.Rlimit
	if err := syscall.Getrlimit(syscall.RLIMIT_NOFILE, &before); err != nil {
		t.Fatal(err)
	}
	for number, last := 0, false; !last; number++ {
		n := -1 << 20
		j := mustWatch(t, t.TempDir(), func(string, string) error {
			if n++; n-1 == number {
				syscall.Setrlimit(syscall.RLIMIT_NOFILE, &syscall.Rlimit{Cur: 3, Max: before.Max})
			}
			return nil
		})
		mustAppend(t, j, batches(0, 3))
		n = 0
		err := j.Snapshot(writes(batches(0, 3)))
		syscall.Setrlimit(syscall.RLIMIT_NOFILE, &before)
		if err != nil && !errors.Is(err, syscall.EMFILE) {
			t.Error(err)
		}
		last = n <= number
		n = -1 << 20
		mustAppend(t, j, batch(3))
		if err := j.Snapshot(writes(batches(0, 4))); err != nil {
			t.Error(err)
		}
	}
	j := mustOpen(t, t.TempDir())
	syscall.Setrlimit(syscall.RLIMIT_NOFILE, &syscall.Rlimit{Cur: 3, Max: before.Max})
	err := j.Room(context.Background())
	syscall.Setrlimit(syscall.RLIMIT_NOFILE, &before)
	if !errors.Is(err, syscall.EMFILE) || errors.Is(err, ErrMoved) || j.Moved() {
		t.Errorf("a look for room: %v", err)
	}
	if err := j.Room(context.Background()); err != nil {
		t.Error(err)
	}
	mustAppend(t, j, batch(0))
}

// A signal that comes while bytes go to the disk is no fault of the disk, and an error of it is one all the same.
func TestASignalBetweenIsNoFaultOfTheDisk(t *testing.T) {
	real, faults := syncData, []error{syscall.EINTR, syscall.EINTR}
	defer func() { syncData = real }()
	syncData = func(fd int) error {
		if len(faults) > 0 {
			fault := faults[0]
			faults = faults[1:]
			return fault
		}
		return real(fd)
	}
	j := mustOpen(t, t.TempDir())
	j.quiet = 0 // (no mark comes by itself)
	mustAppend(t, j, batch(0))
	faults = []error{syscall.EINTR, syscall.EIO}
	if err := j.Append(context.Background(), batch(1)); !errors.Is(err, syscall.EIO) || len(faults) != 0 {
		t.Errorf("%v, %d faults left", err, len(faults))
	}
}

// A pipe in the place of a file is said at once. One that has the name of an unfinished file is removed.
func TestAPipeInTheFolder(t *testing.T) {
	for _, name := range []string{"lock", "place", "snapshot", "journal.3", "journal.4", "snapshot.new", "place.new"} {
		dir := t.TempDir()
		for name, content := range map[string][]byte{"place": []byte(strings.Repeat("0f", 16)), "journal.3": batches(0, 2), "journal.4": batches(2, 3)} {
			if err := os.WriteFile(filepath.Join(dir, name), content, 0o600); err != nil {
				t.Fatal(err)
			}
		}
		os.Remove(filepath.Join(dir, name))
		if err := syscall.Mkfifo(filepath.Join(dir, name), 0o600); err != nil {
			t.Fatal(err)
		}
		result := make(chan error)
		go func() {
			j, err := load(Open(dir))
			if err == nil {
				j.Close()
			}
			result <- err
		}()
		select {
		case err := <-result:
			if unfinished := strings.HasSuffix(name, ".new"); unfinished != (err == nil) || err != nil && !errors.Is(err, regular.ErrNot) {
				t.Errorf("%s: %v", name, err)
			}
		case <-time.After(patience.Long):
			t.Errorf("%s: Open hangs", name)
		}
	}
}

func TestRemovesWhatWasUnfinished(t *testing.T) {
	dir := t.TempDir()
	for _, name := range []string{"snapshot.new", "place.new", "frames.new"} {
		if err := os.WriteFile(filepath.Join(dir, name), []byte("half"), 0o600); err != nil {
			t.Fatal(err)
		}
	}
	mustOpen(t, dir)
	if got := names(t, dir); got != "journal.2 lock place snapshot" {
		t.Fatal(got)
	}
}

// What can't be removed is an error: it would be in the way of a later snapshot.
func TestWhatWasUnfinishedAndStays(t *testing.T) {
	for _, name := range []string{"snapshot.new", "place.new", "frames.new"} {
		dir := t.TempDir()
		if err := os.MkdirAll(filepath.Join(dir, name, "not empty"), 0o700); err != nil {
			t.Fatal(err)
		}
		if _, err := Open(dir); !errors.Is(err, syscall.ENOTEMPTY) {
			t.Errorf("%s: %v", name, err)
		}
	}
}

func TestAppendRefusesWhatNoFrameBears(t *testing.T) {
	dir := t.TempDir()
	j := mustOpen(t, dir)
	if err := j.Append(context.Background(), make([]byte, svid.MaxPayload+1)); !errors.Is(err, svid.ErrPayload) {
		t.Error(err)
	}
	mustAppend(t, j, nil) // (there is nothing to keep)
	mustAppend(t, j, batch(2))
	long := batches(3, 3+mostMessages/82)
	mustAppend(t, j, long)
	mustClose(t, j)
	wantMessages(t, mustOpen(t, dir), append(batch(2), long...))
}

func TestOneProcessHoldsTheFolder(t *testing.T) {
	dir := t.TempDir()
	j := mustOpen(t, dir)
	_, err := Open(dir)
	if !errors.Is(err, ErrHeld) || !strings.Contains(err.Error(), fmt.Sprintf("held by process %d on ", os.Getpid())) {
		t.Fatal(err)
	}
	mustClose(t, j)
	mustOpen(t, dir)
}

func TestClosed(t *testing.T) {
	j := mustOpen(t, t.TempDir())
	mustClose(t, j)
	for _, err := range []error{j.Append(context.Background(), batch(1)), j.Snapshot(writes(nil)), j.Close()} {
		if err != ErrClosed {
			t.Error(err)
		}
	}
}

func TestManyCallersShareOneSync(t *testing.T) {
	dir := t.TempDir()
	syncs, begun, proceed := -1, make(chan bool), make(chan bool)
	j := mustWatch(t, dir, func(call, _ string) error {
		if call == "fdatasync" {
			if syncs++; syncs == 1 {
				begun <- true
				<-proceed
			}
		}
		return nil
	})
	mustAppend(t, j, batch(1000)) // (the file has grown)
	var all sync.WaitGroup
	appends := func(n uint64) {
		defer all.Done()
		if err := j.Append(context.Background(), batch(n)); err != nil {
			t.Error(err)
		}
	}
	var once sync.Once
	release := func() { once.Do(func() { close(proceed) }); all.Wait() }
	t.Cleanup(release)
	all.Add(1)
	go appends(0)
	<-begun
	const callers = 64
	all.Add(callers)
	for n := uint64(1); n <= callers; n++ {
		go appends(n)
	}
	await(t, func() bool {
		j.gather.Lock()
		defer j.gather.Unlock()
		return j.gathering != nil && len(j.gathering.messages) >= callers*82
	})
	release()
	if syncs != 2 {
		t.Errorf("%d syncs for 1 caller and then %d at once, want 2", syncs, callers)
	}
	mustClose(t, j)
	if got := len(mustOpen(t, dir).messages); got != (callers+2)*82 {
		t.Errorf("%d bytes", got)
	}
	found, err := Check(dir)
	if err != nil || found.Files[1].Frames != 3 || found.Files[1].Marks != 1 {
		t.Errorf("%v (%v), want 3 frames and a mark", found.Files[1], err)
	}
}

func TestFailedSyncIsTheEnd(t *testing.T) {
	fails := true
	dir := t.TempDir()
	j := mustWatch(t, dir, func(call, _ string) error {
		if call == "fdatasync" && fails {
			return syscall.EIO
		}
		return nil
	})
	if err := j.Append(context.Background(), batch(1)); !errors.Is(err, syscall.EIO) {
		t.Fatal(err)
	}
	fails = false // What the kernel says next is worth nothing.
	if err := j.Append(context.Background(), batch(2)); !errors.Is(err, syscall.EIO) {
		t.Fatal(err)
	}
	if err := j.Snapshot(writes(nil)); !errors.Is(err, syscall.EIO) {
		t.Fatal(err)
	}
	mustClose(t, j)
	mustAppend(t, mustOpen(t, dir), batch(3)) // The next start goes on.
}

// hang opens a folder in which each fdatasync waits until it is let go. begun hears of each one.
func hang(t *testing.T, dir string) (j *opened, begun <-chan bool, let func()) {
	begins, ahead, hangs := make(chan bool, 100), make(chan struct{}), false
	j = mustWatch(t, dir, func(call, _ string) error {
		if call == "fdatasync" && hangs {
			begins <- true
			<-ahead
		}
		return nil
	})
	mustAppend(t, j, batch(1000)) // (the file has grown)
	hangs = true
	return j, begins, func() { close(ahead) }
}

// Where the disk hangs, nobody waits for longer than it wants, and Size not at all. What was given up is there in the end, if
// the disk comes back, and all that comes then goes on as before.
func TestADiskThatHangs(t *testing.T) {
	dir := t.TempDir()
	j, begun, let := hang(t, dir)
	for n := uint64(0); n < 3; n++ { // the first is being written, the others wait
		ctx, giveUp := context.WithCancel(context.Background())
		answer := make(chan error)
		go func(n uint64) { answer <- j.Append(ctx, batch(n)) }(n)
		if n == 0 {
			<-begun
		}
		giveUp()
		if err := <-answer; !errors.Is(err, context.Canceled) {
			t.Errorf("batch %d: %v", n, err)
		}
	}
	if n := j.Size(); n != 120 {
		t.Errorf("the size is %d", n)
	}
	// Those that wait for the disk have a bound.
	ctx, giveUp := context.WithCancel(context.Background())
	giveUp()
	big, last := batches(2000, 2000+1<<16), error(nil)
	for i := 0; i < 2+svid.MaxPayload/len(big) && last == nil; i++ {
		if err := j.Append(ctx, big); !errors.Is(err, context.Canceled) {
			last = err
		}
	}
	if last != errFull {
		t.Errorf("too much waits: %v", last)
	}
	let()
	mustAppend(t, j, batch(1001))
	if err := j.Snapshot(func(io.Writer) error { return io.ErrClosedPipe }); !errors.Is(err, io.ErrClosedPipe) {
		t.Error(err)
	}
	mustAppend(t, j, batch(1002))
	mustClose(t, j)
	found := mustOpen(t, dir).messages
	for _, n := range []uint64{1000, 0, 1, 2, 2000, 1001, 1002} {
		if bytes.Count(found, batch(n)) == 0 {
			t.Errorf("batch %d is not there", n)
		}
	}
}

// Who gives up holds nobody up: the write that it began goes on, and so does the next one.
func TestWhoGaveUpHoldsNobodyUp(t *testing.T) {
	j, begun, let := hang(t, t.TempDir())
	gone, giveUp := context.WithCancel(context.Background())
	first, second := make(chan error), make(chan error)
	go func() { first <- j.Append(gone, batch(1)) }()
	<-begun
	go func() { second <- j.Append(context.Background(), batch(2)) }()
	giveUp()
	if err := <-first; !errors.Is(err, context.Canceled) {
		t.Error(err)
	}
	let()
	if err := <-second; err != nil {
		t.Error(err)
	}
	if n := j.Size(); n != 3*120 {
		t.Errorf("the size is %d", n)
	}
}

// Who does not wait hears of its uses once the disk has them, or why it has them not; of a disk that hangs nothing.
func TestWhoDoesNotWaitHearsOfItsUses(t *testing.T) {
	j, begun, let := hang(t, t.TempDir())
	heard := make(chan error, 4)
	keep := func(n uint64) {
		if err := j.KeepUses(func(err error) { heard <- err }, useOf(n)); err != nil {
			t.Fatal(err)
		}
	}
	keep(1)
	<-begun
	keep(2)
	keep(3)
	select {
	case err := <-heard:
		let()
		t.Fatalf("the disk hangs, and it hears: %v", err)
	default:
		let()
	}
	for n := 1; n <= 3; n++ {
		if err := <-heard; err != nil {
			t.Error(err)
		}
	}
	mustClose(t, j)
	uses, err := svid.Uses(mustOpen(t, j.dir).messages)
	if err != nil || len(uses) != 4 {
		t.Errorf("%d uses are read (%v)", len(uses), err)
	}

	fails := false
	full := mustWatch(t, t.TempDir(), func(call, _ string) error {
		if call == "write" && fails {
			return syscall.ENOSPC
		}
		return nil
	})
	fails = true
	if err := full.KeepUses(func(err error) { heard <- err }, useOf(1)); err != nil {
		t.Fatal(err)
	}
	if err := <-heard; !errors.Is(err, syscall.ENOSPC) {
		t.Errorf("no room: %v", err)
	}
	if err := full.KeepUses(func(error) { t.Error("it hears of what is too much") }, make([]svid.Use, mostMessages/mostOfUse+1)...); !errors.Is(err, svid.ErrPayload) {
		t.Errorf("too much: %v", err)
	}
}

func TestValidatorIDIsMadeOnce(t *testing.T) {
	dir := t.TempDir()
	j := mustOpen(t, dir)
	id := j.ValidatorID()
	if id == (svid.ValidatorID{}) {
		t.Fatal("there is none")
	}
	mustAppend(t, j, batch(1))
	mustClose(t, j)
	j = mustOpen(t, dir)
	if again := j.ValidatorID(); again != id {
		t.Fatal(again)
	}
	mustClose(t, j)
	name := filepath.Join(dir, placeName)
	text, err := os.ReadFile(name)
	if want := id.String() + "\n"; string(text) != want || err != nil {
		t.Fatal(text, err)
	}
	if other := mustOpen(t, t.TempDir()).ValidatorID(); other == id {
		t.Fatal("two folders have one validator ID")
	}
	if err := os.WriteFile(name, text[:31], 0o600); err != nil {
		t.Fatal(err)
	}
	if _, err := Open(dir); err == nil || !strings.Contains(err.Error(), "place is not 32 hexadecimal digits: put back a copy") {
		t.Fatal(err)
	}
	// Without it no frame can be read, and no other one is made.
	if err := os.Remove(name); err != nil {
		t.Fatal(err)
	}
	if _, err := Open(dir); err == nil || !strings.Contains(err.Error(), "the file place is missing in "+dir+", and "+dir+"/snapshot can't be read without it: put back a copy") {
		t.Fatal(err)
	}
	if got := names(t, dir); got != "journal.2 journal.3 lock snapshot" {
		t.Error(got)
	}
}

// childRole names what this test binary does when a test started it as a process of its own.
const childRole = "JOURNAL_TEST_CHILD"

func child(role, dir string) *exec.Cmd {
	c := exec.Command(os.Args[0], dir)
	c.Env = append(os.Environ(), childRole+"="+role)
	c.Stderr = os.Stderr
	return c
}

// appender appends from several goroutines, takes one snapshot after another, and prints a letter and the number of a
// batch once the batch was appended.
func appender(dir string) int {
	j, err := load(Open(dir))
	if err != nil {
		fmt.Fprintln(os.Stderr, err)
		return 1
	}
	var mu sync.Mutex
	record := j.messages // As the validator does, it holds a batch before the journal does.
	next := uint64(len(record) / 82)
	take := func() uint64 {
		mu.Lock()
		defer mu.Unlock()
		next++
		record = append(record, batch(next)...)
		return next
	}
	failed := make(chan error)
	for i := 0; i < 4; i++ {
		go func() {
			for {
				n := take()
				if err := j.Append(context.Background(), batch(n)); err != nil {
					failed <- err
				}
				fmt.Printf("%d\n", n)
			}
		}()
	}
	go func() {
		for {
			err := j.Snapshot(func(w io.Writer) error {
				mu.Lock()
				now := record[:len(record):len(record)]
				mu.Unlock()
				for len(now) > 0 { // in pieces
					piece := now
					if most := 5000 * 82; len(piece) > most {
						piece = piece[:most]
					}
					if _, err := w.Write(piece); err != nil {
						return err
					}
					now = now[len(piece):]
				}
				return nil
			})
			if err != nil {
				failed <- err
			}
		}
	}()
	fmt.Fprintln(os.Stderr, <-failed)
	return 1
}

// TestKilledAtAnyMoment kills a process that appends and takes snapshots, again and again, and wants every batch that
// was ever acknowledged each time.
func TestKilledAtAnyMoment(t *testing.T) {
	rounds := 40
	switch {
	case *long:
		rounds = 200
	case testing.Short():
		rounds = 5
	}
	dir := t.TempDir()
	acknowledged := map[uint64]bool{}
	for i := 0; i < rounds; i++ {
		c := child("appender", dir)
		out, err := c.StdoutPipe()
		if err != nil {
			t.Fatal(err)
		}
		if err := c.Start(); err != nil {
			t.Fatal(err)
		}
		var first [1]byte // It is killed some time after it has answered, however long that took.
		if _, err := io.ReadFull(out, first[:]); err != nil {
			t.Fatal(err)
		}
		moment := time.AfterFunc(time.Duration(rand.Intn(100))*time.Millisecond, func() { c.Process.Kill() })
		text, err := io.ReadAll(out)
		text = append(first[:], text...)
		if err != nil {
			t.Fatal(err)
		}
		c.Wait()
		if moment.Stop() {
			t.Fatal("the process ended by itself")
		}
		for _, line := range strings.SplitAfter(string(text), "\n") {
			var n uint64
			if _, err := fmt.Sscanf(line, "%d\n", &n); err == nil && strings.HasSuffix(line, "\n") {
				acknowledged[n] = true
			}
		}
		wantAll(t, dir, acknowledged)
	}
	if len(acknowledged) < rounds {
		t.Fatalf("%d batches in %d rounds are too few to say anything", len(acknowledged), rounds)
	}
	t.Logf("%d acknowledged batches are there after %d kills", len(acknowledged), rounds)
}

func wantAll(t *testing.T, dir string, acknowledged map[uint64]bool) {
	t.Helper()
	j, err := load(Open(dir))
	if err != nil {
		t.Fatal(err)
	}
	defer j.Close()
	found := map[uint64]bool{}
	for m := j.messages; len(m) > 0; m = m[82:] {
		found[binary.BigEndian.Uint64(m[25:])] = true
	}
	for n := range acknowledged {
		if !found[n] {
			t.Fatalf("batch %d was acknowledged and is lost", n)
		}
	}
}

// fullDisk appends until the file may not grow any more, then lets it grow and appends again.
func fullDisk(dir string) int {
	j, err := load(Open(dir))
	if err != nil {
		fmt.Fprintln(os.Stderr, err)
		return 1
	}
	signal.Ignore(syscall.SIGXFSZ)
	var before syscall.Rlimit
	if err := syscall.Getrlimit(syscall.RLIMIT_FSIZE, &before); err != nil {
		fmt.Fprintln(os.Stderr, err)
		return 1
	}
	syscall.Setrlimit(syscall.RLIMIT_FSIZE, &syscall.Rlimit{Cur: 1000, Max: before.Max})
	n := uint64(0)
	for err == nil {
		if err = j.Append(context.Background(), batch(n)); err == nil {
			n++
		}
	}
	refused := j.Append(context.Background(), batch(n))
	syscall.Setrlimit(syscall.RLIMIT_FSIZE, &before)
	again := j.Append(context.Background(), batch(n))
	fmt.Print(n, errors.Is(err, syscall.EFBIG), errors.Is(refused, syscall.EFBIG), again)
	return 0
}

func TestFullDiskTakesNothingHalf(t *testing.T) {
	dir := t.TempDir()
	out, err := child("full disk", dir).Output()
	if want := "8 true true <nil>"; string(out) != want || err != nil {
		t.Fatalf("%q %v, want %q", out, err, want)
	}
	j := mustOpen(t, dir)
	wantMessages(t, j, batches(0, 9))
	if torn := j.Torn(); len(torn) > 0 {
		t.Fatalf("%d bytes were left half", torn[0].Rest)
	}
}

// More messages than one call takes are given in several pieces, each of whole messages.
func TestAnOldFileIsLargerThanACallTakes(t *testing.T) {
	one := batchesOf([]svid.Use{{Expires: 200, At: 100}})
	all := bytes.Repeat(one, svid.MaxMessages/len(one)+2)
	f, pieces, length := File{Messages: all}, 0, 0
	err := f.giveOld(func(messages []byte) error {
		if len(messages) > svid.MaxMessages || len(messages)%len(one) != 0 {
			t.Errorf("a piece of %d bytes", len(messages))
		}
		pieces, length = pieces+1, length+len(messages)
		return nil
	})
	if err != nil || pieces != 2 || length != len(all) {
		t.Errorf("%d of %d bytes in %d pieces: %v", length, len(all), pieces, err)
	}
}

func BenchmarkAppend(b *testing.B) {
	j, err := load(Open(b.TempDir()))
	if err != nil {
		b.Fatal(err)
	}
	defer j.Close()
	one := batch(1)
	b.SetParallelism(16)
	b.RunParallel(func(pb *testing.PB) {
		for pb.Next() {
			if err := j.Append(context.Background(), one); err != nil {
				b.Error(err)
			}
		}
	})
}

// BenchmarkStart reads a record of a million uses into a validator: from frames, as a start does, and from the same messages in a file
// without frames, as version 0.1 did. cpu-ms is the time of all processors.
func BenchmarkStart(b *testing.B) {
	const many = 1_000_000
	validator := func() *svid.Validator {
		v, err := svid.Open(svid.Options{Audiences: []string{"ledger"}, Bundles: []byte("{}"), Longest: svid.NoLimit, Step: svid.NoLimit})
		if err != nil {
			b.Fatal(err)
		}
		return v
	}
	full := validator()
	defer full.Close()
	random := rand.New(rand.NewSource(1))
	for n := 0; n < many; n += 4096 {
		uses := make([]svid.Use, 4096)
		for i := range uses {
			uses[i] = svid.Use{Expires: 101 + uint64(random.Intn(3600)), At: 100}
			random.Read(uses[i].Key[:])
		}
		if err := full.Take(100, batchesOf(uses)); err != nil {
			b.Fatal(err)
		}
	}
	dir, plain := b.TempDir(), filepath.Join(b.TempDir(), "messages")
	j, err := load(Open(dir))
	if err != nil {
		b.Fatal(err)
	}
	var messages bytes.Buffer
	if err := full.Save(&messages); err != nil {
		b.Fatal(err)
	}
	if err := j.Snapshot(full.Save); err != nil {
		b.Fatal(err)
	}
	if err := j.Close(); err != nil {
		b.Fatal(err)
	}
	if err := os.WriteFile(plain, messages.Bytes(), 0o600); err != nil {
		b.Fatal(err)
	}
	take := func(v *svid.Validator) func(messages []byte) error {
		return func(messages []byte) error { return v.Take(100, messages) }
	}
	busy := func() time.Duration {
		var used syscall.Rusage
		if err := syscall.Getrusage(syscall.RUSAGE_SELF, &used); err != nil {
			b.Fatal(err)
		}
		return time.Duration(used.Utime.Nano() + used.Stime.Nano())
	}
	for name, start := range map[string]func(take func([]byte) error) error{
		"frames": func(take func([]byte) error) error {
			j, err := Open(dir)
			if err != nil {
				return err
			}
			defer j.Close()
			return j.Load(take)
		},
		"messages": func(take func([]byte) error) error {
			text, err := regular.Read(plain, mostFile)
			if err != nil {
				return err
			}
			return take(text)
		},
	} {
		b.Run(name, func(b *testing.B) {
			from := busy()
			for i := 0; i < b.N; i++ {
				v := validator()
				if err := start(take(v)); err != nil {
					b.Fatal(err)
				}
				v.Close()
			}
			b.ReportMetric(float64((busy()-from).Milliseconds())/float64(b.N), "cpu-ms/op")
		})
	}
}

// BenchmarkEmptyJournal reads a journal that has grown by zeros and has nothing else.
func BenchmarkEmptyJournal(b *testing.B) {
	zeros := make([]byte, growth)
	b.SetBytes(growth)
	for i := 0; i < b.N; i++ {
		if _, err := svid.NewFileReader(svid.ValidatorID{}, 1).Next(zeros); err != io.EOF {
			b.Fatal(err)
		}
	}
}

// The files are this user's alone, whatever the umask is.
func TestModesOfTheFiles(t *testing.T) {
	defer syscall.Umask(syscall.Umask(0))
	dir := filepath.Join(t.TempDir(), "state")
	j := mustOpen(t, dir)
	mustAppend(t, j, batch(1))
	modes := func() map[string]os.FileMode {
		found := map[string]os.FileMode{}
		err := filepath.Walk(dir, func(name string, info os.FileInfo, err error) error {
			if err == nil {
				found[filepath.Base(name)] = info.Mode().Perm()
			}
			return err
		})
		if err != nil {
			t.Fatal(err)
		}
		return found
	}
	err := j.Snapshot(func(w io.Writer) error {
		if mode := modes()["snapshot.new"]; mode != 0o600 {
			t.Errorf("snapshot.new has mode %v", mode)
		}
		return writes(batch(1))(w)
	})
	if err != nil {
		t.Fatal(err)
	}
	for name, want := range map[string]os.FileMode{"state": 0o700, "lock": 0o600, "place": 0o600, "snapshot": 0o600, "journal.3": 0o600} {
		if got := modes()[name]; got != want {
			t.Errorf("%s has mode %v, want %v", name, got, want)
		}
	}
}

// A folder that Open makes has a name that lasts: the folder above is forced to the disk. Where that can't be, Open fails.
func TestTheNameOfANewFolderLasts(t *testing.T) {
	above := t.TempDir()
	var synced []string
	real := syncFile
	defer func() { syncFile = real }()
	syncFile = func(f *os.File) error {
		synced = append(synced, f.Name())
		return real(f)
	}
	j := mustOpen(t, filepath.Join(above, "state"))
	if len(synced) == 0 || synced[0] != above {
		t.Errorf("forced to the disk: %q", synced)
	}
	mustClose(t, j)
	syncFile = func(*os.File) error { return syscall.EIO }
	if _, err := Open(filepath.Join(above, "another")); !errors.Is(err, syscall.EIO) {
		t.Errorf("its name may be lost: %v", err)
	}
}

// Any call that fails at a start is an error, and the next start goes on.
func TestEachFailedCallOfAStartIsAnError(t *testing.T) {
	for number, last := 0, false; !last; number++ {
		dir := filepath.Join(t.TempDir(), "state")
		f := &fuse{}
		f.from(number)
		j, err := openWith(dir, func(s system) system { return &watched{s, f.before} })
		if err == nil {
			f.mu.Lock()
			f.set = false
			f.mu.Unlock()
			mustClose(t, j)
		}
		if last = f.failed == ""; last != (err == nil) || !last && !errors.Is(err, syscall.EIO) {
			t.Errorf("%s fails: %v", f.failed, err)
		}
		mustAppend(t, mustOpen(t, dir), batch(1))
	}
}

// Starts that are killed leave a journal each, and lose nothing. So many are a reason for a snapshot, which replaces them.
func TestStartsAfterStarts(t *testing.T) {
	dir := t.TempDir()
	mustClose(t, mustOpen(t, dir))
	const starts = 2 * manyJournals
	for n := uint64(0); n < starts; n++ {
		dir = killed(t, dir)
		j := mustOpen(t, dir)
		wantMessages(t, j, batches(0, n))
		if wants, _ := j.WantsSnapshot(); wants != (n+1 >= manyJournals) {
			t.Errorf("start %d: it wants a snapshot: %v", n, wants)
		}
		mustAppend(t, j, batch(n))
	}
	dir = killed(t, dir)
	j := mustOpen(t, dir)
	if err := j.Snapshot(writes(batches(0, starts))); err != nil {
		t.Fatal(err)
	}
	if got, want := names(t, dir), fmt.Sprintf("journal.%d lock place snapshot", starts+4); got != want {
		t.Errorf("%s, want %s", got, want)
	}
	wantMessages(t, mustOpen(t, killed(t, dir)), batches(0, starts))
}

// killed is a copy of a folder, as it is after a kill of the process that has it.
func killed(t *testing.T, dir string) string {
	t.Helper()
	files := map[string][]byte{}
	for _, name := range strings.Fields(names(t, dir)) {
		files[name] = readFile(t, dir, name)
	}
	return laid(t, files)
}

// A number between two journals may have none: crashes leave names each on its own. A snapshot passes it over.
func TestAJournalThatIsNotThere(t *testing.T) {
	dir := t.TempDir()
	for n := uint64(0); n < 3; n++ {
		j := mustOpen(t, dir)
		mustAppend(t, j, batch(n))
		mustClose(t, j)
	}
	if err := os.Remove(filepath.Join(dir, "journal.3")); err != nil {
		t.Fatal(err)
	}
	j := mustOpen(t, dir)
	wantMessages(t, j, append(batch(0), batch(2)...))
	if err := j.Snapshot(writes(j.messages)); err != nil {
		t.Fatal(err)
	}
	if got := names(t, dir); got != "journal.6 lock place snapshot" {
		t.Error(got)
	}
}

func readFile(t *testing.T, dir, name string) []byte {
	t.Helper()
	content, err := os.ReadFile(filepath.Join(dir, name))
	if err != nil {
		t.Fatal(err)
	}
	return content
}

// Before Load nothing is kept. A taker that fails ends the start: nothing is made, and the folder is as it was.
func TestLoadEndsWhereATakerFails(t *testing.T) {
	dir := t.TempDir()
	j := mustOpen(t, dir)
	for n := uint64(0); n < 3; n++ { // (more than a piece each)
		if err := j.Append(context.Background(), batches(20000*n, 20000*(n+1))); err != nil {
			t.Fatal(err)
		}
	}
	mustClose(t, j)
	before := names(t, dir)
	unread, err := Open(dir)
	if err != nil {
		t.Fatal(err)
	}
	defer unread.Close()
	for _, err := range []error{unread.Append(context.Background(), batch(1)), unread.Snapshot(writes(nil))} {
		if err != errUnread {
			t.Error(err)
		}
	}
	taken := 0
	err = unread.Load(func([]byte) error { taken++; return io.ErrShortBuffer })
	if err != io.ErrShortBuffer || taken != 1 {
		t.Errorf("%v, and %d pieces were taken", err, taken)
	}
	for _, err := range []error{unread.Append(context.Background(), batch(1)), unread.Snapshot(writes(nil)), unread.Load(func([]byte) error { return nil })} {
		if err != io.ErrShortBuffer {
			t.Error(err)
		}
	}
	if got := names(t, dir); got != before {
		t.Errorf("%s is there, and was %s", got, before)
	}
	if err := unread.Close(); err != nil {
		t.Error(err)
	}
	wantMessages(t, mustOpen(t, dir), batches(0, 60000))
}

// A file that is made is new: what had its name, and what a link with its name leads to, stay as they were.
func TestAFileThatIsMadeIsNew(t *testing.T) {
	dir := t.TempDir()
	f, err := openFolder(dir)
	if err != nil {
		t.Fatal(err)
	}
	defer f.Close()
	other := filepath.Join(dir, "other")
	for what, make := range map[string]func(name string) error{
		"a file":   func(name string) error { return os.Link(other, name) },
		"a link":   func(name string) error { return os.Symlink(other, name) },
		"a pipe":   func(name string) error { return syscall.Mkfifo(name, 0o600) },
		"no file":  func(string) error { return nil },
		"a folder": func(name string) error { return os.Mkdir(name, 0o700) },
	} {
		if err := os.WriteFile(other, []byte("before"), 0o600); err != nil {
			t.Fatal(err)
		}
		if err := make(filepath.Join(dir, "journal.1")); err != nil {
			t.Fatal(err)
		}
		made, err := f.create("journal.1")
		if err != nil {
			t.Fatalf("%s: %v", what, err)
		}
		if _, err := made.WriteAt([]byte("new"), 0); err != nil {
			t.Fatal(err)
		}
		made.Close()
		if got := readFile(t, dir, "other"); string(got) != "before" {
			t.Errorf("%s: the other one is now %q", what, got)
		}
		if got := readFile(t, dir, "journal.1"); string(got) != "new" {
			t.Errorf("%s: %q", what, got)
		}
		os.Remove(filepath.Join(dir, "journal.1"))
	}
}

// A mark comes after a burst, once, and nobody waits for it.
func TestAMarkEndsABurst(t *testing.T) {
	dir := t.TempDir()
	marks := make(chan int, 10)
	n := 0
	j := mustWatch(t, dir, func(call, _ string) error {
		if call == "fdatasync" {
			n++
			marks <- n
		}
		return nil
	})
	j.quiet = time.Millisecond
	awaitSync := func(due int) {
		t.Helper()
		late := time.After(patience.Long)
		for n := 0; n < due; {
			select {
			case n = <-marks:
			case <-late:
				t.Fatalf("%d syncs do not come", due)
			}
		}
	}
	mustAppend(t, j, batch(0))
	awaitSync(2) // the append, and the mark
	mustAppend(t, j, batch(1))
	awaitSync(4)
	// A journal that is followed by another one has a mark, too, and one without a batch needs none.
	j.write.Lock()
	j.quiet = 0
	j.write.Unlock()
	mustAppend(t, j, batch(2))
	for i := 0; i < 2; i++ {
		if err := j.Snapshot(func(io.Writer) error { return io.ErrClosedPipe }); !errors.Is(err, io.ErrClosedPipe) {
			t.Fatal(err)
		}
	}
	mustClose(t, j)
	if n != 6 {
		t.Errorf("%d syncs", n)
	}
	found, err := Check(dir)
	if err != nil || found.Fault != nil {
		t.Fatal(found, err)
	}
	for i, want := range [][2]int{{0, 1}, {3, 3}, {0, 0}, {0, 0}} {
		if f := found.Files[i]; f.Frames != want[0] || f.Marks != want[1] {
			t.Errorf("%s: %d frames and %d marks, want %v", f.Name, f.Frames, f.Marks, want)
		}
	}
}

// Snapshots, failed ones too, and starts leave no file open.
func TestNoFileStaysOpen(t *testing.T) {
	open := func() int {
		files, err := os.ReadDir("/proc/self/fd")
		if err != nil {
			t.Skip(err)
		}
		return len(files)
	}
	defer debug.SetGCPercent(debug.SetGCPercent(-1)) // (it closes files that nobody has)
	dir := t.TempDir()
	mustClose(t, mustOpen(t, dir))
	before := open()
	for i := 0; i < 5; i++ {
		mustClose(t, mustOpen(t, t.TempDir()))
		j := mustOpen(t, dir)
		if _, err := Open(dir); !errors.Is(err, ErrHeld) {
			t.Fatal(err)
		}
		for n := 0; n < 5; n++ {
			mustAppend(t, j, batch(1))
			if err := j.Snapshot(writes(batch(1))); err != nil {
				t.Fatal(err)
			}
			if err := j.Snapshot(writes(make([]byte, svid.MaxPayload+1))); err == nil {
				t.Fatal("a snapshot that no frame bears")
			}
		}
		mustClose(t, j)
		for name, opens := range map[string]func() error{
			snapshotName: func() error { _, err := load(Open(dir)); return err },
			placeName:    func() error { _, err := Open(dir); return err },
		} {
			good := readFile(t, dir, name)
			if err := os.WriteFile(filepath.Join(dir, name), []byte("no batch, and no ID"), 0o600); err != nil {
				t.Fatal(err)
			}
			if err := opens(); err == nil {
				t.Fatalf("%s is damaged", name)
			}
			if err := os.WriteFile(filepath.Join(dir, name), good, 0o600); err != nil {
				t.Fatal(err)
			}
		}
	}
	if n := open(); n != before {
		t.Errorf("%d files are open, %d before", n, before)
	}
}

// A Close that can't put its mark, since the disk is full, lets go of the folder all the same: a service may open it again.
func TestACloseThatFailsLetsGoOfTheFolder(t *testing.T) {
	dir, isFull := t.TempDir(), false
	j := mustWatch(t, dir, func(call, _ string) error {
		if call == "write" && isFull {
			return syscall.ENOSPC
		}
		return nil
	})
	mustAppend(t, j, batch(0))
	isFull = true
	if err := j.Close(); !errors.Is(err, syscall.ENOSPC) {
		t.Errorf("a mark without room: %v", err)
	}
	if err := j.Close(); err != ErrClosed {
		t.Errorf("a second Close: %v", err)
	}
	if o := mustOpen(t, dir); !bytes.Equal(o.messages, batch(0)) {
		t.Errorf("%d bytes are read", len(o.messages))
	}
}

// All methods at once, for the race detector, and for what they answer.
func TestAllMethodsAtOnce(t *testing.T) {
	dir := t.TempDir()
	mustClose(t, mustOpen(t, dir))
	j := mustOpen(t, dir)
	var all sync.WaitGroup
	const each = 30
	var record sync.Mutex // for held: what was appended, as a validator has it
	held := batch(0)
	ids := make(chan [16]byte, 2*each)
	for g := uint64(0); g < 2; g++ {
		for what, do := range map[string]func(n uint64){
			"append": func(n uint64) {
				record.Lock()
				held = append(held, batch(n)...)
				record.Unlock()
				if err := j.Append(context.Background(), batch(n)); err != nil {
					t.Error(err)
				}
			},
			"snapshot": func(n uint64) {
				if n%10 != 0 {
					return
				}
				err := j.Snapshot(func(w io.Writer) error {
					record.Lock()
					now := append([]byte(nil), held...)
					record.Unlock()
					return writes(now)(w)
				})
				if err != nil {
					t.Error(err)
				}
			},
			"place": func(uint64) {
				ids <- j.ValidatorID()
			},
			"size": func(uint64) { j.Size(); j.Torn() },
			"load": func(uint64) { j.Load(func([]byte) error { return io.EOF }) },
		} {
			all.Add(1)
			go func(g uint64, what string, do func(uint64)) {
				defer all.Done()
				for n := uint64(0); n < each; n++ {
					do(1 + g*each + n)
				}
			}(g, what, do)
		}
	}
	all.Wait()
	first := <-ids
	for len(ids) > 0 {
		if id := <-ids; id != first {
			t.Fatal("two validator IDs were made")
		}
	}
	mustClose(t, j)
	found := mustOpen(t, dir).messages
	for n := uint64(1); n <= 2*each; n++ {
		if !bytes.Contains(found, batch(n)) {
			t.Errorf("batch %d is lost", n)
		}
	}
}
