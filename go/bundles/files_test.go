package bundles

import (
	"net"
	"os"
	"path/filepath"
	"strings"
	"syscall"
	"testing"
	"time"

	"svid.example/go/v3/internal/agenttest"
	"svid.example/go/v3/internal/patience"
)

// Only a regular file is read: a pipe would not let go of who opens it.
func TestWhatIsNoRegularFile(t *testing.T) {
	folder, elsewhere := t.TempDir(), t.TempDir()
	in := func(name string) string { return filepath.Join(folder, name) }
	write(t, in("good.example.json"), spire)
	write(t, filepath.Join(elsewhere, "linked.json"), spire)
	socket, err := net.Listen("unix", in("socket.example.json"))
	if err != nil {
		t.Fatal(err)
	}
	defer socket.Close()
	named := filepath.Join(elsewhere, "named.json")
	for _, err := range []error{
		os.Symlink(filepath.Join(elsewhere, "linked.json"), in("linked.example.json")),
		syscall.Mkfifo(in("pipe.example.json"), 0o600),
		syscall.Mkfifo(named, 0o600),
		os.Symlink(named, in("to-a-pipe.example.json")),
		os.Symlink("/dev/null", in("device.example.json")),
		os.Mkdir(in("folder.example.json"), 0o700),
	} {
		if err != nil {
			t.Fatal(err)
		}
	}
	done := make(chan *observer, 1)
	go func() {
		w, o := watch(t, nil, Folder(folder), Spec{Domain: "named.example", Source: named})
		w.Reload()
		done <- o
	}()
	select {
	case o := <-done:
		o.want(t, map[string]string{"good.example": spire, "linked.example": spire})
		for _, source := range []string{in("pipe.example.json"), in("to-a-pipe.example.json"), in("device.example.json"), in("folder.example.json"), named} {
			o.wantLines(t, 1, "bundle not read source "+source+" why it is no regular file")
		}
		o.wantLines(t, 1, "bundle not read source "+in("socket.example.json")+" why open ")
	case <-time.After(patience.Long):
		t.Fatal("it waits for a pipe")
	}
}

// A rotation of the same length is one, also within a second.
func TestARotationOfTheSameLength(t *testing.T) {
	folder := t.TempDir()
	name := filepath.Join(folder, "example.org.json")
	write(t, name, spire)
	w, o := watch(t, nil, Folder(folder))
	before, err := os.Stat(name)
	if err != nil {
		t.Fatal(err)
	}
	other := strings.Replace(spire, `"kid": "C6`, `"kid": "D6`, 1)
	write(t, name, other)
	if err := os.Chtimes(name, before.ModTime(), before.ModTime()); err != nil {
		t.Fatal(err)
	}
	w.Reload()
	o.want(t, map[string]string{"example.org": other})
	w.Reload()
	if o.calls != 2 {
		t.Errorf("told %d times", o.calls)
	}
}

// A trust domain's name has 1 to 255 letters of a to z, digits, '.', '-' and '_' (SPIFFE-ID, section 2.1).
func TestNamesOfTrustDomains(t *testing.T) {
	const good = "abcdefghijklmnopqrstuvwxyz0123456789.-_"
	for c := 0; c < 256; c++ {
		name := "a" + string([]byte{byte(c)}) + "b"
		if err := checkDomain(name); (err == nil) != strings.Contains(good, name[1:2]) {
			t.Errorf("%q: %v", name, err)
		}
	}
	for length, want := range map[int]bool{0: false, 1: true, 255: true, 256: false} {
		if err := checkDomain(strings.Repeat("a", length)); (err == nil) != want {
			t.Errorf("%d bytes: %v", length, err)
		}
	}
	// What is no name gets no bundle, and the log says why.
	folder := t.TempDir()
	write(t, filepath.Join(folder, "spiffe:example.json"), spire)
	_, o := watch(t, nil, Folder(folder))
	o.wantLines(t, 1, `is no trust domain's name`)
	agent := agenttest.Start(t)
	agent.Give(t, map[string]string{"spiffe://c/b": spire, "spiffe://a": spire, "spiffe://spiffe://b": spire})
	_, o = watch(t, nil, ofAgent(t, agent.Address))
	o.await(t, "the bundle", o.calledTimes(1))
	if len(o.last) != 1 || o.last["a"] == "" {
		t.Errorf("%q", o.last)
	}
}

// Nor is a folder waited for that is a pipe.
func TestAFolderThatIsAPipe(t *testing.T) {
	folder := filepath.Join(t.TempDir(), "bundles")
	if err := syscall.Mkfifo(folder, 0o600); err != nil {
		t.Fatal(err)
	}
	done := make(chan *observer, 1)
	go func() {
		_, o := watch(t, nil, Folder(folder))
		done <- o
	}()
	select {
	case o := <-done:
		o.wantLines(t, 1, "bundle not read source "+folder+" why open "+folder+": not a directory")
	case <-time.After(patience.Long):
		t.Fatal("it waits for a pipe")
	}
}
