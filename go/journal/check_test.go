package journal

import (
	"bytes"
	"crypto/sha256"
	"encoding/binary"
	"errors"
	"io"
	"os"
	"strings"
	"testing"

	"svid.example/go/v3/svid"
)

// frame is a frame of a file, as docs/FORMATS.md has it. A snapshot has the number 0. (Format 1 filled its frames up to a multiple of
// 32 bytes.)
func frame(format byte, id svid.ValidatorID, journal, number uint64, payload []byte) []byte {
	kind := "svidjnl"
	if journal == 0 {
		kind = "svidsnp"
	}
	numbers := binary.BigEndian.AppendUint64(nil, number)
	numbers = binary.BigEndian.AppendUint32(numbers, uint32(format)<<24|uint32(len(payload)))
	text := append([]byte{format}, kind...)
	text = append(binary.BigEndian.AppendUint64(text, journal), id[:]...)
	digest := sha256.Sum256(append(append(text, numbers...), payload...))
	f := append(append(append([]byte(nil), digest[:20]...), numbers...), payload...)
	cell := 8
	if format == 1 {
		cell = 32
	}
	return append(f, bytes.Repeat([]byte{0xff}, (cell-len(f)%cell)%cell)...)
}

// The files consist of the frames of docs/FORMATS.md, byte for byte.
func TestTheFilesAreThoseOfTheFormat(t *testing.T) {
	dir := t.TempDir()
	j := mustOpen(t, dir)
	j.quiet = 0
	mustAppend(t, j, batch(0))
	err := j.Snapshot(func(w io.Writer) error {
		mustAppend(t, j, batch(2))
		_, err := w.Write(batch(0))
		if err == nil {
			_, err = w.Write(batches(1, 3))
		}
		return err
	})
	if err != nil {
		t.Fatal(err)
	}
	mustAppend(t, j, batches(3, 12))
	mustClose(t, j)
	p := j.ValidatorID()
	snapshot := append(append(frame(2, p, 0, 1, batch(0)), frame(2, p, 0, 2, batches(1, 3))...), frame(2, p, 0, 3, nil)...)
	if got := readFile(t, dir, snapshotName); !bytes.Equal(got, snapshot) {
		t.Errorf("the snapshot is %x, want %x", got, snapshot)
	}
	journal := append(append(frame(2, p, 3, 1, batch(2)), frame(2, p, 3, 2, batches(3, 12))...), frame(2, p, 3, 3, nil)...)
	if len(journal) != 120+776+32 {
		t.Errorf("one use takes 120 bytes, nine batches 776, and a mark 32: all are %d", len(journal))
	}
	got := readFile(t, dir, "journal.3")
	if !bytes.Equal(bytes.TrimRight(got, "\x00"), bytes.TrimRight(journal, "\x00")) || len(got) != 120+growth {
		t.Errorf("the journal is %x, want %x", got[:len(journal)], journal)
	}
}

// A folder of another format is refused by its number.
func TestAFolderOfAnotherFormat(t *testing.T) {
	id := svid.ValidatorID{1, 2, 3}
	const later = "start the svidd that wrote it, or a later one"
	for _, row := range []struct {
		name    string
		content []byte
		want    string
	}{
		{"snapshot", append(frame(3, id, 0, 1, batch(0)), frame(3, id, 0, 2, nil)...), "format 3, and this svidd reads format 2: " + later},
		{"journal.3", append(frame(2, id, 3, 1, batch(0)), frame(3, id, 3, 2, []byte("whatever it bears"))...), "format 3, and this svidd reads format 2: " + later},
		{"snapshot", append(frame(1, id, 0, 1, batch(0)), frame(1, id, 0, 2, nil)...), "format 1, and this svidd reads format 2: a build of svidd 0.2 before its release wrote it"},
		{"journal.3", append(frame(1, id, 3, 1, batch(0)), make([]byte, 1000)...), "format 1, and this svidd reads format 2: a build of svidd 0.2 before its release wrote it"},
	} {
		name, content := row.name, row.content
		dir := laid(t, map[string][]byte{placeName: []byte(id.String() + "\n"), name: content})
		want := name + " has " + row.want
		if _, err := load(Open(dir)); err == nil || !strings.Contains(err.Error(), want) {
			t.Errorf("%v, want %q", err, want)
		}
		if got := readFile(t, dir, name); !bytes.Equal(got, content) {
			t.Errorf("%s was changed", name)
		}
		found, err := Check(dir)
		if err != nil || errors.Is(found.Fault, svid.ErrDamaged) || found.Fault == nil || !strings.Contains(found.Fault.Error(), want) {
			t.Errorf("%v %v", found, err)
		}
	}
}

// A thousand is a folder of 1,000 uses: 500 in a snapshot, and 500 in a journal, in a frame each.
func thousand(t *testing.T) (d *disk, id svid.ValidatorID) {
	t.Helper()
	d = newDisk()
	j, err := begin(d)
	if err != nil {
		t.Fatal(err)
	}
	j.quiet, j.growth = 0, 4096
	if err := j.Snapshot(func(w io.Writer) error {
		for n := uint64(0); n < 500; n += 100 {
			if _, err := w.Write(batches(n, n+100)); err != nil {
				return err
			}
		}
		return nil
	}); err != nil {
		t.Fatal(err)
	}
	for n := uint64(500); n < 1000; n++ {
		mustAppend(t, j, batch(n))
	}
	mustClose(t, j)
	return d, j.ValidatorID()
}

// Each changed bit of a folder of 1,000 uses is found, and named with its file and the offset of its frame. Behind the last frame
// with uses it is a tear: nothing of it was acknowledged.
func TestEachChangedBitIsNamed(t *testing.T) {
	d, id := thousand(t)
	step := 1
	if !*long {
		step = 37 // (which meets each bit of a byte, and each byte of a cell)
	}
	bits := 0
	for _, row := range []struct {
		name  string
		file  *fileOnDisk
		frame int // how many bytes a frame with uses has
		count int
	}{{snapshotName, d.snapshot.now, 8232, 5}, {"journal.3", d.journal(3).file, 120, 500}} {
		number, _ := numberOf(row.name)
		content := append([]byte(nil), row.file.seen...)
		// A reader in front of each frame: what stands before it is as it was.
		var readers []svid.FileReader
		for r := svid.NewFileReader(id, number); ; {
			readers = append(readers, *r)
			if _, err := r.Next(content); err == io.EOF {
				break
			} else if err != nil {
				t.Fatal(err)
			}
		}
		if len(readers) != row.count+2 { // (with a mark, and at the end)
			t.Fatalf("%s has %d frames", row.name, len(readers)-1)
		}
		for bit := 0; bit < 8*len(content); bit += step {
			at, which := bit/8, row.count+1
			if at < row.frame*row.count {
				which = at / row.frame
			} else if at < row.frame*row.count+32 {
				which = row.count
			}
			want := svid.ErrDamaged
			if which >= row.count && number > 0 {
				want = svid.ErrTorn
			}
			content[at] ^= 1 << (bit % 8)
			r := readers[which]
			frame := r.At()
			if _, err := r.Next(content); err != want {
				t.Fatalf("%s, bit %d of byte %d: %v at %d, want %v", row.name, bit%8, at, err, frame, want)
			}
			if bits++; bits%997 == 0 { // (and as a start reads it)
				f := &File{Name: row.name, number: number}
				if err := f.read(append([]byte(nil), content...), svid.NewFileReader(id, number), nil); err != nil {
					t.Fatal(err)
				}
				if f.Fault != want || f.At != frame {
					t.Fatalf("%s, bit %d of byte %d: %v at %d, want %v at %d", row.name, bit%8, at, f.Fault, f.At, want, frame)
				}
			}
			content[at] ^= 1 << (bit % 8)
		}
	}
	// And by a start, which writes nothing.
	file := d.journal(3).file
	file.seen = append([]byte(nil), file.seen...)
	file.seen[1000] ^= 4
	before := d.text()
	if _, err := begin(d); err == nil || !strings.Contains(err.Error(), "disk/journal.3 is damaged at byte 960") || !errors.Is(err, svid.ErrDamaged) {
		t.Error(err)
	}
	if d.text() != before {
		t.Error("a start has changed a damaged folder")
	}
	t.Logf("%d bits", bits)
}

// A changed bit of the validator ID is an error, or lets a start find a snapshot that is not of this ID.
func TestEachChangedBitOfTheValidatorIDIsNamed(t *testing.T) {
	d, _ := thousand(t)
	text := d.id.now.seen
	for bit := 0; bit < 8*32; bit++ {
		changed := append([]byte(nil), text...)
		changed[bit/8] ^= 1 << (bit % 8)
		d.id = settled(atRest(changed))
		_, err := begin(d)
		switch {
		case err == nil:
			if changed[bit/8]|0x20 != text[bit/8] { // (a digit in capitals is the same)
				t.Errorf("bit %d of byte %d is not seen", bit%8, bit/8)
			}
			*d.journal(4) = journalOnDisk{&fileOnDisk{}, settled(false)}
		case !strings.Contains(err.Error(), "place is not 32 hexadecimal digits") && !strings.Contains(err.Error(), "snapshot is damaged at byte 0"):
			t.Error(err)
		}
	}
}

// What is of another folder, or of another file of this one, is not taken for this one's.
func TestFilesThatArePutBack(t *testing.T) {
	folders := [2]string{t.TempDir(), t.TempDir()}
	for i, dir := range folders {
		j := mustOpen(t, dir)
		n := uint64(10 * i)
		mustAppend(t, j, batch(n))
		if err := j.Snapshot(writes(batch(n))); err != nil {
			t.Fatal(err)
		}
		mustAppend(t, j, batch(n+1))
		mustClose(t, j)
	}
	files := func(of int) map[string][]byte {
		found := map[string][]byte{}
		for _, name := range []string{placeName, snapshotName, "journal.3"} {
			found[name] = readFile(t, folders[of], name)
		}
		return found
	}
	here, other := files(0), files(1)
	one, two := batch(0), batch(1)
	for _, row := range []struct {
		what    string
		change  func(f map[string][]byte)
		refused string
		torn    string
		want    []byte
	}{
		{"nothing", func(map[string][]byte) {}, "", "", append(one, two...)},
		{"a snapshot of another folder", func(f map[string][]byte) { f[snapshotName] = other[snapshotName] }, "snapshot is damaged at byte 0", "", nil},
		{"a journal of another folder", func(f map[string][]byte) { f["journal.3"] = other["journal.3"] }, "", "journal.3", one},
		{"the validator ID of another folder", func(f map[string][]byte) { f[placeName] = other[placeName] }, "snapshot is damaged at byte 0", "", nil},
		{"a journal under another number", func(f map[string][]byte) { f["journal.4"] = f["journal.3"]; delete(f, "journal.3") }, "", "journal.4", one},
		{"a journal as a snapshot", func(f map[string][]byte) { f[snapshotName] = f["journal.3"] }, "snapshot is damaged at byte 0", "", nil},
		{"a snapshot as a journal", func(f map[string][]byte) { f["journal.4"] = f[snapshotName] }, "", "journal.4", append(one, two...)},
		{"no validator ID", func(f map[string][]byte) { delete(f, placeName) }, "the file place is missing", "", nil},
		{"half of a snapshot", func(f map[string][]byte) { f[snapshotName] = f[snapshotName][:120] }, "snapshot is damaged at byte 120", "", nil},
		{"an empty snapshot", func(f map[string][]byte) { f[snapshotName] = nil }, "snapshot is damaged at byte 0", "", nil},
		// An older copy of this very folder can't be told from it (docs/SIDECAR-OPERATION.md).
		{"an older copy of a journal", func(f map[string][]byte) { f["journal.3"] = nil }, "", "", one},
	} {
		f := map[string][]byte{}
		for name, content := range here {
			f[name] = content
		}
		row.change(f)
		dir := laid(t, f)
		j, err := load(Open(dir))
		if row.refused != "" {
			if err == nil || !strings.Contains(err.Error(), row.refused) {
				t.Errorf("%s: %v, want %q", row.what, err, row.refused)
			}
			continue
		}
		if err != nil {
			t.Errorf("%s: %v", row.what, err)
			continue
		}
		if got := j.messages; !bytes.Equal(got, row.want) {
			t.Errorf("%s: %d bytes of messages, want %d", row.what, len(got), len(row.want))
		}
		switch torn := j.Torn(); {
		case row.torn == "" && len(torn) > 0:
			t.Errorf("%s: %s is torn", row.what, torn[0].Name)
		case row.torn != "" && (len(torn) != 1 || !strings.HasSuffix(torn[0].Name, row.torn) || torn[0].At != 0):
			t.Errorf("%s: %v is torn, want %s", row.what, torn, row.torn)
		}
		mustClose(t, j)
	}
}

// Check reads a folder that nobody may write to, also while a process has it open, and changes nothing.
func TestCheckChangesNothing(t *testing.T) {
	dir := t.TempDir()
	j := mustOpen(t, dir)
	mustAppend(t, j, batches(0, 3))
	if err := os.Chmod(dir, 0o500); err != nil {
		t.Fatal(err)
	}
	defer os.Chmod(dir, 0o700)
	before := names(t, dir)
	found, err := Check(dir)
	if err != nil || found.Fault != nil || found.ValidatorID != j.ValidatorID() {
		t.Fatal(found, err)
	}
	if f := found.Files[1]; f.Frames != 1 || f.Marks != 0 || !bytes.Equal(f.Messages, batches(0, 3)) || f.Length != 280+growth {
		t.Errorf("%d frames, %d marks, %d bytes", f.Frames, f.Marks, f.Length)
	}
	if got := names(t, dir); got != before {
		t.Errorf("%s is there, and was %s", got, before)
	}
	for _, not := range []string{dir + "/none", dir + "/place"} {
		if _, err := Check(not); err == nil {
			t.Errorf("%s is a folder", not)
		}
	}
	found, err = Check(t.TempDir())
	if err != nil || found.Fault != nil || found.HasID || len(found.Files) != 0 {
		t.Errorf("an empty folder: %v %v", found, err)
	}
}

// While a process writes and takes snapshots, Check finds no damage and no file that is missing.
func TestCheckWhileAProcessWrites(t *testing.T) {
	dir := t.TempDir()
	j := mustOpen(t, dir)
	done, ended := make(chan bool), make(chan bool)
	go func() {
		defer close(ended)
		for n := uint64(0); ; n++ {
			select {
			case <-done:
				return
			default:
			}
			mustAppend(t, j, batch(n))
			if n%20 == 19 {
				if err := j.Snapshot(writes(batches(0, n+1))); err != nil {
					t.Error(err)
				}
			}
		}
	}()
	for i := 0; i < 100; i++ {
		if found, err := Check(dir); err != nil || found.Fault != nil {
			t.Fatalf("%v %v", found, err)
		}
	}
	close(done)
	<-ended
}

// A file that grows while it is read looks damaged, at another offset each time. Damage that stays where it is is reported.
func TestCheckReadsAgainWhatLooksDamaged(t *testing.T) {
	d, _ := thousand(t)
	file := d.journal(3).file
	good := file.seen
	for _, row := range []struct {
		at      []int // where a bit is changed when it is read for the nth time; no more of them are changed after these
		reads   int
		damaged bool
	}{
		{[]int{500}, 2, false},
		{[]int{500, 500}, 2, true},
		{[]int{500, 5000, 50_000}, 4, false},
		{[]int{500, 5000, 500, 500}, 4, true},
	} {
		reads := 0
		d.before = func(call, name string, _ int) (int, error) {
			if call == "read" && name == "journal.3" {
				file.seen = append([]byte(nil), good...)
				if reads < len(row.at) {
					file.seen[row.at[reads]] ^= 1
				}
				reads++
			}
			return 0, nil
		}
		found, err := check(d, "disk")
		if err != nil || errors.Is(found.Fault, svid.ErrDamaged) != row.damaged || reads != row.reads {
			t.Errorf("%v: damaged %v after %d reads (%v)", row, found.Fault, reads, err)
		}
	}
}
