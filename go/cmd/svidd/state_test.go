package main

import (
	"bytes"
	"context"
	"io"
	"os"
	"path/filepath"
	"strings"
	"testing"

	"svid.example/go/v3/journal"
	"svid.example/go/v3/svid"
)

// stateFolder makes a folder with two uses in its snapshot and two in its journal, in a frame each.
func stateFolder(t *testing.T) (dir string, uses []svid.Use) {
	t.Helper()
	dir = t.TempDir()
	j, err := journal.Open(dir)
	if err != nil {
		t.Fatal(err)
	}
	if err := j.Load(func([]byte) error { return nil }); err != nil {
		t.Fatal(err)
	}
	for i := byte(1); i <= 4; i++ {
		uses = append(uses, svid.Use{Key: svid.TokenKey{i}, Expires: svid.Now() + 100, At: svid.Now(), ValidatorID: svid.ValidatorID{7}})
	}
	if err := j.Snapshot(func(w io.Writer) error { _, err := w.Write(batchesOf(uses[:2])); return err }); err != nil {
		t.Fatal(err)
	}
	for _, use := range uses[2:] {
		if err := j.Append(context.Background(), batchOf(use)); err != nil {
			t.Fatal(err)
		}
	}
	if err := j.Close(); err != nil {
		t.Fatal(err)
	}
	return dir, uses
}

func TestCheckState(t *testing.T) {
	t.Parallel()
	change := func(name string, at int, bit byte) func(t *testing.T, dir string) {
		return func(t *testing.T, dir string) {
			content, err := os.ReadFile(filepath.Join(dir, name))
			if err != nil {
				t.Fatal(err)
			}
			content[at] ^= bit
			if err := os.WriteFile(filepath.Join(dir, name), content, 0o600); err != nil {
				t.Fatal(err)
			}
		}
	}
	for _, row := range []struct {
		what   string
		change func(t *testing.T, dir string)
		status int
		out    string
		err    string
		uses   int // among the messages
	}{
		{"whole", func(*testing.T, string) {}, 0, "snapshot: whole: 1 frame, 1 mark: 2 uses, 216 bytes\njournal.3: whole: 2 frames, 1 mark: 2 uses, 262264 bytes\n", "", 4},
		{"damaged", change("journal.3", 100, 4), 1, "journal.3: damaged at byte 0: 0 frames, 0 marks: 0 uses, 262264 bytes\n", "journal.3 is damaged at byte 0: look for a failing disk, and put back a copy", 2},
		{"torn", change("journal.3", 300, 4), 0, "journal.3: torn at byte 272, and nobody was answered for the 29 bytes there: 2 frames, 1 mark: 2 uses, 262264 bytes\n", "", 4},
		{"no validator ID", func(t *testing.T, dir string) { os.Remove(filepath.Join(dir, "place")) }, 2, "place is missing\n", "the file place is missing", 0},
		{"a bad validator ID", change("place", 3, 0x80), 2, "", "place is not 32 hexadecimal digits", 0},
	} {
		dir, uses := stateFolder(t)
		row.change(t, dir)
		status, out, err := svidd(t, "", "check-state", dir)
		if status != row.status || !strings.Contains(out, row.out) || !strings.Contains(err, row.err) || row.err == "" && err != "" {
			t.Errorf("%s: %d\n%s%s", row.what, status, out, err)
		}
		for _, args := range [][]string{{"check-state", dir, "--messages"}, {"check-state", "--messages", dir}} {
			status, out, err := here("", args...)
			if status != row.status || !strings.Contains(err, row.err) {
				t.Errorf("%s, with --messages: %d %s", row.what, status, err)
			}
			if found, err := svid.Uses([]byte(out)); err != nil || len(found) != row.uses {
				t.Errorf("%s: %d uses, want %d (%v)", row.what, len(found), row.uses, err)
			}
		}
		_ = uses
	}
	for _, args := range [][]string{{}, {"/none"}, {"/etc/passwd"}, {t.TempDir(), "more"}, {t.TempDir(), "--all"}} {
		if status, out, err := here("", append([]string{"check-state"}, args...)...); status != 2 || out != "" || err == "" {
			t.Errorf("%q: %d %q %q", args, status, out, err)
		}
	}
	if status, out, _ := here("", "check-state", t.TempDir()); status != 0 || out != "place is missing\n" {
		t.Errorf("an empty folder: %d %q", status, out)
	}
}

// Of a path that is no state folder, check-state says what it is, and what to give. A folder on which no sidecar has started yet is no fault.
func TestCheckStateOfAnotherPath(t *testing.T) {
	t.Parallel()
	room := t.TempDir()
	file, other, fresh := filepath.Join(room, "file"), filepath.Join(room, "other"), filepath.Join(room, "fresh")
	if err := os.WriteFile(file, nil, 0o600); err != nil {
		t.Fatal(err)
	}
	for _, name := range []string{other, filepath.Join(other, "lost+found"), filepath.Join(other, "svidd.toml"), fresh, filepath.Join(fresh, "lost+found")} {
		if err := os.Mkdir(name, 0o700); err != nil {
			t.Fatal(err)
		}
	}
	for _, row := range []struct {
		path, out, err string
		status         int
	}{
		{filepath.Join(room, "none"), "", "PATH is not there: GIVE\n", 2},
		{filepath.Join(file, "none"), "", "PATH is not there: GIVE\n", 2},
		{file, "", "PATH is no folder: GIVE\n", 2},
		{other, "", "PATH is no state folder, since it has \"svidd.toml\" and no file place: GIVE\n", 2},
		{fresh, "place is missing\n", "warning: no sidecar has ever started on PATH: GIVE\n", 0},
	} {
		due := "svidd: " + strings.NewReplacer("PATH", row.path, "GIVE", "give the folder that serve has as --state").Replace(row.err)
		if status, out, err := here("", "check-state", row.path); status != row.status || out != row.out || err != due {
			t.Errorf("%s: %d %q %q\nis due: %q", row.path, status, out, err, due)
		}
	}
}

// What a frame bears and is no message is damage to a start, and so to check-state.
func TestCheckStateOfNoMessages(t *testing.T) {
	t.Parallel()
	dir := t.TempDir()
	j, err := journal.Open(dir)
	if err != nil {
		t.Fatal(err)
	}
	if err := j.Load(func([]byte) error { return nil }); err != nil {
		t.Fatal(err)
	}
	if err := j.Append(context.Background(), []byte("garbage")); err != nil {
		t.Fatal(err)
	}
	j.Close()
	if status, out, err := here("", "check-state", dir); status != 1 || !strings.Contains(out, "what it bears is no message") {
		t.Errorf("%d\n%s%s", status, out, err)
	}
}

// The way back from damage (docs/SIDECAR-OPERATION.md): a sidecar goes on with all that can still be read, and with a folder of an older
// version, which is one of messages.
func TestASidecarGoesOnWithWhatWasSaved(t *testing.T) {
	t.Parallel()
	used := token(t, "used", lasting)
	state := filepath.Join(t.TempDir(), "state")
	bundle := bundleOption(bundleFile(t, example))
	p := start(t, bundle, "--state", state)
	p.want(used, 200, "")
	if err := p.run.Process.Kill(); err != nil {
		t.Fatal(err)
	}
	p.run.Wait()
	status, kept, said := svidd(t, "", "check-state", "--messages", state)
	if status != 0 {
		t.Fatal(status, said)
	}
	other := t.TempDir()
	if err := os.WriteFile(filepath.Join(other, "snapshot"), []byte(kept), 0o600); err != nil {
		t.Fatal(err)
	}
	p = start(t, bundle, "--state", other)
	p.want(used, 401, "Replayed")
	p.want(token(t, "new", lasting), 200, "")
	text, err := os.ReadFile(filepath.Join(other, "snapshot"))
	if err != nil || bytes.HasPrefix(text, []byte("JSR")) {
		t.Errorf("the snapshot is still one of messages (%v)", err)
	}
	p.end()
	p = start(t, bundle, "--state", other)
	p.want(used, 401, "Replayed")
	p.end()
}
