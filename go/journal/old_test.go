package journal

import (
	"archive/tar"
	"bytes"
	"compress/gzip"
	"context"
	"errors"
	"io"
	"os"
	"path/filepath"
	"strings"
	"testing"

	"svid.example/go/v3/svid"
)

// oldFolders are those of testdata, and how many batches each has, from 0 on.
var oldFolders = map[string]uint64{"closed": 7, "killed": 5, "torn": 5, "empty": 5, "fresh": 0}

// unpack returns the files of such a folder.
func unpack(t *testing.T, name string) map[string][]byte {
	t.Helper()
	packed, err := os.Open(filepath.Join("testdata", "old-"+name+".tar.gz"))
	if err != nil {
		t.Fatal(err)
	}
	defer packed.Close()
	unzipped, err := gzip.NewReader(packed)
	if err != nil {
		t.Fatal(err)
	}
	files := map[string][]byte{}
	for in := tar.NewReader(unzipped); ; {
		head, err := in.Next()
		if err == io.EOF {
			return files
		}
		if err != nil {
			t.Fatal(err)
		}
		if head.Typeflag != tar.TypeReg {
			continue
		}
		content, err := io.ReadAll(in)
		if err != nil {
			t.Fatal(err)
		}
		files[filepath.Base(head.Name)] = content
	}
}

// laid puts files into a new folder.
func laid(t *testing.T, files map[string][]byte) string {
	t.Helper()
	dir := t.TempDir()
	for name, content := range files {
		if err := os.WriteFile(filepath.Join(dir, name), content, 0o600); err != nil {
			t.Fatal(err)
		}
	}
	return dir
}

// A folder of an older version is read once, and the first snapshot replaces it. Until then nothing of it goes.
func TestAnOldFolderIsReplaced(t *testing.T) {
	for name, uses := range oldFolders {
		t.Run(name, func(t *testing.T) {
			files := unpack(t, name)
			dir := laid(t, files)
			j := mustOpen(t, dir)
			wantUses(t, j, uses)
			if wants, must := j.WantsSnapshot(); wants != (uses > 0) || must != wants {
				t.Errorf("it wants a snapshot: %v, and must: %v", wants, must)
			}
			if id := string(files["place"]); id != "" && id != j.ValidatorID().String()+"\n" {
				t.Errorf("the validator ID is %v, and was %s", j.ValidatorID(), id)
			}
			torn := j.Torn()
			if want := name == "torn"; want != (len(torn) == 1) || want && torn[0].Rest != 33 {
				t.Errorf("torn: %v", torn)
			}
			if err := j.Append(context.Background(), batch(uses)); (err == errOld) != (uses > 0) {
				t.Errorf("an append before the snapshot: %v", err)
			}
			mustClose(t, j)
			if uses == 0 {
				return
			}

			// (no snapshot came: the old files are still there)
			for name, content := range files {
				if now, err := os.ReadFile(filepath.Join(dir, name)); err != nil || name != lockName && !bytes.Equal(now, content) {
					t.Errorf("%s has changed (%v)", name, err)
				}
			}
			j = mustOpen(t, dir)
			wantUses(t, j, uses)
			if err := j.Snapshot(writes(batches(0, uses))); err != nil {
				t.Fatal(err)
			}
			mustAppend(t, j, batch(uses))
			mustClose(t, j)
			found, err := Check(dir)
			if err != nil || found.Fault != nil {
				t.Fatal(found, err)
			}
			for _, f := range found.Files {
				if f.Old || f.Fault != nil {
					t.Errorf("%s: old %v, %v", f.Name, f.Old, f.Fault)
				}
			}
			if len(found.Files) != 2 {
				t.Errorf("%d files", len(found.Files))
			}
			j = mustOpen(t, dir)
			wantUses(t, j, uses+1)
			if wants, must := j.WantsSnapshot(); wants || must {
				t.Error("it wants a snapshot again")
			}
		})
	}
}

// wantUses wants the batches from 0 up to before the last, each at least once, and no others.
func wantUses(t *testing.T, j *opened, last uint64) {
	t.Helper()
	found := j.messages
	for n := uint64(0); n < last; n++ {
		if !bytes.Contains(found, batch(n)) {
			t.Errorf("batch %d is lost", n)
		}
	}
	uses, err := svid.Uses(found)
	if err != nil || uint64(len(uses)) != last {
		t.Errorf("%d uses, want %d (%v)", len(uses), last, err)
	}
}

// An old file that is not the last journal was closed whole. Damage of it is named, and nothing is written.
func TestDamageOfAnOldFolder(t *testing.T) {
	for _, row := range []struct {
		folder, file string
		at           int
		says         string
	}{
		{"closed", "snapshot", 82 + 17 + 64, "snapshot is damaged at byte 82"},
		{"closed", "snapshot", 0, "snapshot is damaged at byte 0"},
		{"killed", "journal.1", 82 + 17 + 64, "journal.1 is damaged at byte 82"},
		{"killed", "journal.1", 0, "journal.1 is damaged at byte 0"},
		{"killed", "journal.2", 4, "journal.2 is damaged at byte 0"},
	} {
		files := unpack(t, row.folder)
		files[row.file][row.at] ^= 0x80
		dir := laid(t, files)
		before := names(t, dir)
		if _, err := load(Open(dir)); err == nil || !strings.Contains(err.Error(), row.says) || !errors.Is(err, svid.ErrDamaged) {
			t.Errorf("%s, %s: %v", row.folder, row.file, err)
		}
		if got := names(t, dir); got != before {
			t.Errorf("%s, %s: %s is there, and was %s", row.folder, row.file, got, before)
		}
	}
}

// Nor may an old file that is not the last journal end in what a disk has where nothing was written: it was closed at its last message.
func TestAnOldFileThatWasNotClosed(t *testing.T) {
	dir := laid(t, map[string][]byte{"journal.1": append(batches(0, 3), 0, 0), "journal.2": batches(3, 5)})
	if _, err := load(Open(dir)); !errors.Is(err, svid.ErrDamaged) || !strings.Contains(err.Error(), "journal.1 is damaged at byte") {
		t.Errorf("it is opened, or not for that: %v", err)
	}
}

// Behind its messages an old file is torn, up to the last byte that is neither zero nor all ones: so a disk may have what was not written.
func TestWhatIsTornOfAnOldFile(t *testing.T) {
	for rest, want := range map[string]int{"": 0, "\x00\x00": 0, "\xff\x00\xff": 0, "\x80": 1, "a\xc3\x00\xff": 2, "\x00\x00\x81\x00": 3} {
		j := mustOpen(t, laid(t, map[string][]byte{"journal.1": append(batches(0, 3), rest...)}))
		wantUses(t, j, 3)
		if torn := j.Torn(); len(torn) > 1 || (len(torn) == 1) != (want > 0) || want > 0 && torn[0].Rest != want {
			t.Errorf("behind the messages %q: torn is %v, want %d bytes", rest, torn, want)
		}
		mustClose(t, j)
	}
}

// A folder of messages is an old one: so an operator gives a sidecar what was saved of a damaged folder.
func TestMessagesAreAnOldFolder(t *testing.T) {
	for _, name := range []string{"snapshot", "journal.1"} {
		j := mustOpen(t, laid(t, map[string][]byte{name: batches(0, 20)}))
		wantUses(t, j, 20)
		if _, must := j.WantsSnapshot(); !must {
			t.Error("it wants no snapshot")
		}
	}
}
