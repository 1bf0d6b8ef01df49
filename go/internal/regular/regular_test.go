package regular

import (
	"errors"
	"io/fs"
	"net"
	"os"
	"path/filepath"
	"runtime/debug"
	"strings"
	"syscall"
	"testing"
)

// What is no regular file is said, whatever it is opened for, and nobody waits for its other end.
func TestWhatIsNoRegularFile(t *testing.T) {
	dir := t.TempDir()
	pipe, link, socket := filepath.Join(dir, "pipe"), filepath.Join(dir, "link"), filepath.Join(dir, "socket")
	if err := syscall.Mkfifo(pipe, 0o600); err != nil {
		t.Fatal(err)
	}
	if err := os.Symlink(pipe, link); err != nil {
		t.Fatal(err)
	}
	l, err := net.Listen("unix", socket)
	if err != nil {
		t.Fatal(err)
	}
	defer l.Close()
	for _, name := range []string{pipe, link, socket, dir, "/dev/zero"} {
		for _, flag := range []int{os.O_RDONLY, os.O_WRONLY, os.O_RDWR | os.O_CREATE} {
			file, err := Open(name, flag, 0o600)
			if err == nil {
				file.Close()
			}
			if isFolder := errors.Is(err, syscall.EISDIR); !isFolder && (!errors.Is(err, ErrNot) || !strings.Contains(err.Error(), name)) {
				t.Errorf("%s, opened for %d: %v", name, flag, err)
			}
		}
		if _, err := Read(name, 10); !errors.Is(err, ErrNot) {
			t.Errorf("%s, read: %v", name, err)
		}
	}
}

// A regular file, and a link to one, is made and read, up to a length.
func TestARegularFile(t *testing.T) {
	name, link := filepath.Join(t.TempDir(), "file"), filepath.Join(t.TempDir(), "link")
	file, err := Open(name, os.O_RDWR|os.O_CREATE, 0o640)
	if err != nil {
		t.Fatal(err)
	}
	if _, err := file.WriteString("text"); err != nil {
		t.Fatal(err)
	}
	if info, err := file.Stat(); err != nil || info.Mode().Perm()&0o137 != 0 {
		t.Errorf("mode %v, %v", info.Mode(), err)
	}
	file.Close()
	if err := os.Symlink(name, link); err != nil {
		t.Fatal(err)
	}
	for most, want := range map[int64]string{4: "text", 100: "text", 3: ""} {
		got, err := Read(link, most)
		if string(got) != want || (err == nil) != (want != "") || err != nil && !strings.Contains(err.Error(), "more than 3 bytes") {
			t.Errorf("at most %d: %q, %v", most, got, err)
		}
	}
	if _, err := Read(name+"s", 4); !errors.Is(err, fs.ErrNotExist) {
		t.Error(err)
	}
}

// What is no regular file does not stay open, nor does one that is too long.
func TestNoFileStaysOpen(t *testing.T) {
	defer debug.SetGCPercent(debug.SetGCPercent(-1)) // which would close what is left open
	opened := func() int {
		t.Helper()
		all, err := os.ReadDir("/proc/self/fd")
		if err != nil {
			t.Fatal(err)
		}
		return len(all)
	}
	name := filepath.Join(t.TempDir(), "file")
	if err := os.WriteFile(name, []byte("text"), 0o600); err != nil {
		t.Fatal(err)
	}
	const reads = 20
	before := opened()
	for i := 0; i < reads; i++ {
		if _, err := Read("/dev/zero", 3); !errors.Is(err, ErrNot) {
			t.Error(err)
		}
		if _, err := Read(name, 3); err == nil {
			t.Error("it is too long")
		}
	}
	if after := opened(); after >= before+reads {
		t.Errorf("%d files are open, and %d before", after, before)
	}
}
