package journal

import (
	"context"
	"errors"
	"os"
	"path/filepath"
	"syscall"
	"testing"
)

// What Room has found on the disk is there for what is appended then, and the next start reads as if it had not been asked.
func TestRoomIsMadeBehindTheJournal(t *testing.T) {
	dir, writes := t.TempDir(), 0
	j := mustWatch(t, dir, func(call, _ string) error {
		if call == "write" {
			writes++
		}
		return nil
	})
	writes = 0
	for i := 0; i < 3; i++ {
		if err := j.Room(context.Background()); err != nil {
			t.Fatal(err)
		}
	}
	if info, err := os.Stat(filepath.Join(dir, "journal.2")); err != nil || info.Size() != leastRoom+growth || writes != 1 || j.Size() != 0 {
		t.Errorf("%v, %v: %d writes, a size of %d", info, err, writes, j.Size())
	}
	for n := uint64(0); n < 3000; n++ {
		mustAppend(t, j, batch(n))
	}
	if err := j.Room(context.Background()); err != nil {
		t.Fatal(err)
	}
	mustClose(t, j)
	if err := j.Room(context.Background()); err != ErrClosed {
		t.Errorf("after the end: %v", err)
	}
	again := mustOpen(t, dir)
	wantMessages(t, again, batches(0, 3000))
	if torn := again.Torn(); len(torn) > 0 {
		t.Error(torn[0])
	}
}

// A full disk is reported before anything is appended, until it has room again.
func TestRoomOfAFullDisk(t *testing.T) {
	full := false
	j := mustWatch(t, t.TempDir(), func(call, _ string) error {
		if call == "write" && full {
			return syscall.ENOSPC
		}
		return nil
	})
	full = true
	for i := 0; i < 2; i++ {
		if err := j.Room(context.Background()); !errors.Is(err, syscall.ENOSPC) {
			t.Errorf("a full disk: %v", err)
		}
	}
	full = false
	if err := j.Room(context.Background()); err != nil {
		t.Error(err)
	}
	full = true
	if err := j.Room(context.Background()); err != nil {
		t.Errorf("the room that it has: %v", err)
	}
	full = false
	mustAppend(t, j, batch(1))
}

// What ends the folder is said too, though nobody appended: here the sync of a mark, for which nobody waits.
func TestRoomOfAFolderThatHasEnded(t *testing.T) {
	fails := false
	j := mustWatch(t, t.TempDir(), func(call, _ string) error {
		if call == "fdatasync" && fails {
			return syscall.EIO
		}
		return nil
	})
	mustAppend(t, j, batch(1))
	fails = true
	j.write.Lock()
	_ = j.mark()
	j.write.Unlock()
	if err := j.Room(context.Background()); !errors.Is(err, syscall.EIO) {
		t.Errorf("%v", err)
	}
}

// A caller that asks a disk that hangs waits only as long as it wants, and those that append get their own answer.
func TestRoomOfADiskThatHangs(t *testing.T) {
	j, begun, let := hang(t, t.TempDir())
	first := make(chan error)
	go func() { first <- j.Append(context.Background(), batch(1)) }()
	<-begun
	ctx, giveUp := context.WithCancel(context.Background())
	giveUp()
	if err := j.Room(ctx); !errors.Is(err, context.Canceled) {
		t.Error(err)
	}
	let()
	if err := <-first; err != nil {
		t.Error(err)
	}
	if err := j.Room(context.Background()); err != nil {
		t.Error(err)
	}
}
