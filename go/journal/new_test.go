package journal

import (
	"errors"
	"fmt"
	"io"
	"math/rand"
	"os"
	"path/filepath"
	"strings"
	"syscall"
	"testing"
)

// What ends a start at a call: the call fails, or the process is killed before it.
var ends = map[string]func(n int) func(call, name string, length int) (int, error){
	"fails": func(n int) func(call, name string, length int) (int, error) {
		return func(call, _ string, length int) (int, error) {
			if n--; n == -1 {
				return length / 2, syscall.EIO
			}
			return 0, nil
		}
	},
	"killed": func(n int) func(call, name string, length int) (int, error) {
		return func(string, string, int) (int, error) {
			if n--; n < 0 {
				return 0, ErrGone
			}
			return 0, nil
		}
	},
}

// removed is the disk after someone removed its folder, if a start said so.
func removed(d *disk, why error) *disk {
	if why == nil || errors.Is(why, ErrGone) || !strings.Contains(why.Error(), "remove this folder") {
		return d
	}
	empty := newDisk()
	empty.here = d.here
	empty.here.leads(false)
	return empty
}

// freshDisk is the disk after an older version made its folder, and kept nothing there.
func freshDisk() *disk {
	d := newDisk()
	d.here = settled(true)
	*d.journal(1) = journalOnDisk{atRest(nil), settled(true)}
	return d
}

// savedDisk is the disk with what was saved of a damaged folder: a snapshot of messages alone.
func savedDisk() *disk {
	d := newDisk()
	d.here, d.snapshot = settled(true), settled(atRest(batch(0)))
	return d
}

// A new folder, also of an older version, or with what was saved, keeps what is appended to it, whichever call of the starts before failed: its own name
// lasts, and that of the validator ID.
func TestANewFolderWhoseFirstStartsFail(t *testing.T) {
	r := rand.New(rand.NewSource(1))
	well := func(string, string, int) (int, error) { return 0, nil }
	lasts := func(d *disk, old []byte, what string) {
		t.Helper()
		d.before = well
		j, err := begin(d)
		if err != nil {
			t.Fatalf("%s: %v", what, err)
		}
		if string(j.messages) != string(old) {
			t.Fatalf("%s: what was there is lost", what)
		}
		j.quiet, j.growth = 0, 64
		if _, must := j.WantsSnapshot(); must {
			if err := j.Snapshot(func(w io.Writer) error { _, err := w.Write(j.messages); return err }); err != nil {
				t.Fatalf("%s: %v", what, err)
			}
		}
		mustAppend(t, j, batch(1))
		for i := 0; i < 5; i++ {
			found, err := begin(d.crash(r))
			if err != nil {
				t.Fatalf("%s: after a loss of power: %v", what, err)
			}
			if string(found.messages) != string(append(j.messages, batch(1)...)) {
				t.Fatalf("%s: a loss of power took an acknowledged batch", what)
			}
		}
	}
	starts := func(made func() *disk, old []byte, first, second string) {
		for n, over := 0, false; !over; n++ {
			for m, overNext := 0, false; !overNext; m++ {
				d := made()
				d.before = ends[first](n)
				_, err := begin(d)
				over, d = err == nil, removed(d, err)
				d.before = ends[second](m)
				_, err = begin(d)
				overNext, d = err == nil, removed(d, err)
				lasts(d, old, fmt.Sprintf("call %d of the first start %s, and call %d of the next one %s", n, first, m, second))
			}
		}
	}
	for first := range ends {
		for second := range ends {
			starts(newDisk, nil, first, second)
			starts(freshDisk, nil, first, second)
			starts(savedDisk, batch(0), first, second)
		}
	}
}

// The folder above is synced by the starts of a folder that has kept nothing yet, whoever made it, and not by later ones. One that may not
// be read, or has no sync, is another one's.
func TestTheFolderAboveIsSyncedWhileNothingIsKept(t *testing.T) {
	above := t.TempDir()
	dir := filepath.Join(above, "state")
	if err := os.Mkdir(dir, 0o700); err != nil {
		t.Fatal(err)
	}
	var why error
	synced := 0
	real := syncFile
	defer func() { syncFile = real }()
	syncFile = func(f *os.File) error {
		if f.Name() == above {
			synced++
			return why
		}
		return real(f)
	}
	for _, why = range []error{syscall.EIO, syscall.ENOSPC} {
		if _, err := Open(dir); !errors.Is(err, why) || !strings.Contains(err.Error(), "remove this folder") {
			t.Errorf("%v: %v", why, err)
		}
		if _, err := os.Stat(filepath.Join(dir, placeName)); err == nil {
			t.Error("it has an ID")
		}
	}
	for _, why = range []error{syscall.EACCES, syscall.EPERM, syscall.EINVAL} {
		j, err := Open(dir)
		if err != nil {
			t.Errorf("%v: %v", why, err)
			continue
		}
		j.Close()
	}
	if why, synced = nil, 0; t.Failed() {
		return
	}
	mustClose(t, mustOpen(t, dir))
	if synced != 1 {
		t.Errorf("the folder above was synced %d times", synced)
	}
	why, synced = syscall.EIO, 0
	mustClose(t, mustOpen(t, dir))
	if synced != 0 {
		t.Errorf("the folder above was synced %d times of a folder that has a journal", synced)
	}
}

// A new folder whose name can't be forced to the disk is removed: the next start makes it again.
func TestANewFolderWhoseNameMayNotLastIsRemoved(t *testing.T) {
	dir := filepath.Join(t.TempDir(), "state")
	real := syncFile
	syncFile = func(*os.File) error { return syscall.EIO }
	_, err := Open(dir)
	syncFile = real
	if !errors.Is(err, syscall.EIO) {
		t.Error(err)
	}
	if _, err := os.Stat(dir); !errors.Is(err, os.ErrNotExist) {
		t.Errorf("it is there: %v", err)
	}
	mustOpen(t, dir)
}
