package journal

import (
	"context"
	"errors"
	"io"
	"os"
	"path/filepath"
	"strings"
	"testing"

	"svid.example/go/v3/svid"
)

// moves are what may happen to a state folder that is open: another process could open its path then, or nobody would find what is
// written.
var moves = map[string]func(t *testing.T, dir string){
	"removed": func(t *testing.T, dir string) { must(t, os.RemoveAll(dir)) },
	"moved":   func(t *testing.T, dir string) { must(t, os.Rename(dir, dir+".old")) },
	"replaced by a copy": func(t *testing.T, dir string) {
		must(t, os.Rename(dir, dir+".old"))
		copyFolder(t, dir+".old", dir)
	},
	"emptied": func(t *testing.T, dir string) {
		for _, name := range namesIn(t, dir) {
			must(t, os.Remove(filepath.Join(dir, name)))
		}
	},
	"a file now": func(t *testing.T, dir string) {
		must(t, os.RemoveAll(dir))
		must(t, os.WriteFile(dir, nil, 0o600))
	},
	"without its lock": func(t *testing.T, dir string) { must(t, os.Remove(filepath.Join(dir, lockName))) },
	"with another lock": func(t *testing.T, dir string) {
		must(t, os.Remove(filepath.Join(dir, lockName)))
		must(t, os.WriteFile(filepath.Join(dir, lockName), nil, 0o600))
	},
}

func must(t *testing.T, err error) {
	t.Helper()
	if err != nil {
		t.Fatal(err)
	}
}

func namesIn(t *testing.T, dir string) (names []string) {
	t.Helper()
	entries, err := os.ReadDir(dir)
	must(t, err)
	for _, e := range entries {
		names = append(names, e.Name())
	}
	return names
}

func copyFolder(t *testing.T, from, to string) {
	t.Helper()
	must(t, os.Mkdir(to, 0o700))
	for _, name := range namesIn(t, from) {
		text, err := os.ReadFile(filepath.Join(from, name))
		must(t, err)
		must(t, os.WriteFile(filepath.Join(to, name), text, 0o600))
	}
}

// A service that goes to another folder, as a daemon does, goes on to keep what it accepts.
func TestAFolderOfARelativePath(t *testing.T) {
	ctx := context.Background()
	before, err := os.Getwd()
	must(t, err)
	defer func() { must(t, os.Chdir(before)) }()
	must(t, os.Chdir(t.TempDir()))
	j, err := Open("state")
	must(t, err)
	defer j.Close()
	must(t, os.Chdir("/"))
	must(t, j.Load(func([]byte) error { return nil }))
	must(t, j.Append(ctx, batch(1)))
	must(t, j.Snapshot(func(w io.Writer) error { _, err := w.Write(batch(1)); return err }))
}

// Once the path of a folder leads elsewhere, no append succeeds, no snapshot touches what is there now, and it stays so though the
// folder comes back: another process may have had its path meanwhile.
func TestAFolderThatIsMoved(t *testing.T) {
	t.Parallel()
	ctx := context.Background()
	calls := map[string]func(j *Journal) error{
		"Append":     func(j *Journal) error { return j.Append(ctx, batch(2)) },
		"AppendMark": func(j *Journal) error { return j.AppendMark(ctx) },
		"Room":       func(j *Journal) error { return j.Room(ctx) },
		"Snapshot": func(j *Journal) error {
			return j.Snapshot(func(w io.Writer) error { _, err := w.Write(batch(1)); return err })
		},
	}
	for what, move := range moves {
		for name, call := range calls {
			dir := filepath.Join(t.TempDir(), "state")
			j := mustOpen(t, dir)
			passed := uint64(0)
			j.Bear(func() (svid.Mark, bool) { passed++; return svid.Mark{Passed: passed}, true })
			must(t, j.Append(ctx, batch(1)))
			must(t, j.Room(ctx))
			if j.Moved() {
				t.Fatalf("%s: it says so before", what)
			}
			move(t, dir)
			other, err := Open(dir)
			if err == nil { // Another process has it now.
				_, err = load(other, err)
				must(t, err)
				must(t, other.Append(ctx, batch(3)))
			}
			before := ""
			if other != nil {
				before = strings.Join(namesIn(t, dir), " ")
			}
			err = call(j.Journal)
			if !errors.Is(err, ErrMoved) || !errors.Is(err, svid.ErrFolderEnded) || !strings.Contains(err.Error(), "start the service again") || !strings.Contains(err.Error(), dir) {
				t.Errorf("%s, %s: %v", what, name, err)
			}
			if !j.Moved() {
				t.Errorf("%s, %s: it does not say so", what, name)
			}
			if other != nil {
				if now := strings.Join(namesIn(t, dir), " "); now != before {
					t.Errorf("%s, %s: another one's folder has %s, and had %s", what, name, now, before)
				}
				must(t, other.Append(ctx, batch(4)))
				must(t, other.Close())
			}
			for again, call := range calls {
				if err := call(j.Journal); !errors.Is(err, ErrMoved) {
					t.Errorf("%s, %s, and %s then: %v", what, name, again, err)
				}
			}
		}
	}
	dir := filepath.Join(t.TempDir(), "state")
	j := mustOpen(t, dir)
	must(t, os.Rename(dir, dir+".old"))
	if err := j.Append(ctx, batch(1)); !errors.Is(err, ErrMoved) {
		t.Errorf("moved: %v", err)
	}
	must(t, os.Rename(dir+".old", dir))
	if err := j.Append(ctx, batch(1)); !errors.Is(err, ErrMoved) {
		t.Errorf("moved back: %v", err)
	}
}

// A link to the folder, and a folder with the validator's ID put back from a copy, are where they were.
func TestAFolderThatStays(t *testing.T) {
	t.Parallel()
	ctx, dir := context.Background(), filepath.Join(t.TempDir(), "state")
	must(t, os.Mkdir(dir, 0o700))
	must(t, os.Symlink(dir, dir+".link"))
	j := mustOpen(t, dir+".link")
	idFile := filepath.Join(dir, placeName)
	text, err := os.ReadFile(idFile)
	must(t, err)
	must(t, os.WriteFile(idFile+".copy", text, 0o600))
	must(t, os.Rename(idFile+".copy", idFile))
	must(t, j.Append(ctx, batch(1)))
	must(t, j.Room(ctx))

	// Another ID is that of another folder; and so is none.
	must(t, os.WriteFile(idFile, []byte(strings.Repeat("0", 31)+"1\n"), 0o600))
	if err := j.Room(ctx); !errors.Is(err, ErrMoved) || !strings.Contains(err.Error(), "another validator") {
		t.Errorf("another ID: %v", err)
	}
	j = mustOpen(t, filepath.Join(t.TempDir(), "state"))
	must(t, os.Remove(filepath.Join(j.dir, placeName)))
	if err := j.Room(ctx); !errors.Is(err, ErrMoved) {
		t.Errorf("no ID: %v", err)
	}
}
