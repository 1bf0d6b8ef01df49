package journal

import (
	"errors"
	"os"
	"path/filepath"
	"syscall"
	"testing"
)

// Where the name of a new folder can't be forced to the disk, Open fails, though all in the folder can be.
func TestTheNameOfANewFolderMayBeLost(t *testing.T) {
	above := t.TempDir()
	real := syncFile
	defer func() { syncFile = real }()
	syncFile = func(f *os.File) error {
		if f.Name() == above {
			return syscall.EIO
		}
		return real(f)
	}
	if _, err := Open(filepath.Join(above, "state")); !errors.Is(err, syscall.EIO) {
		t.Errorf("its name may be lost: %v", err)
	}
}

// A blind system can't list the folder, but for so many times.
type blind struct {
	system
	times *int
}

func (b blind) names() ([]string, error) {
	if *b.times--; *b.times < 0 {
		return nil, syscall.EIO
	}
	return b.system.names()
}

// A folder whose names can't be read is not taken for one without journals.
func TestAFolderThatCannotBeListedIsNotEmpty(t *testing.T) {
	dir := t.TempDir()
	j := mustOpen(t, dir)
	mustAppend(t, j, batch(1))
	mustClose(t, j)
	for times := 0; times < 2; times++ { // (one to look for the ID, and one to read)
		left := times
		if _, err := openWith(dir, func(s system) system { return blind{s, &left} }); !errors.Is(err, syscall.EIO) {
			t.Errorf("after %d listings: %v", times, err)
		}
	}
	wantMessages(t, mustOpen(t, dir), batch(1))
}
