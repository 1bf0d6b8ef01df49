package svid

import (
	"bytes"
	"encoding/hex"
	"errors"
	"io"
	"strings"
	"testing"
)

// growing is a folder whose start is through.
func growing(t *testing.T, id ValidatorID, oldest, newest uint64) *Folder {
	t.Helper()
	f, err := OpenFolder(id, oldest, newest)
	if err != nil {
		t.Fatal(err)
	}
	for _, want := range []Call{CreateJournal, SyncFolder} {
		call, journal, err := f.Due()
		if err != nil || call != want || call == CreateJournal && journal != newest+1 {
			t.Fatal(call, journal, err)
		}
		if err := f.Answer(true); err != nil {
			t.Fatal(err)
		}
	}
	if call, _, err := f.Due(); call != NoCall || err != nil {
		t.Fatal(call, err)
	}
	return f
}

// A frame of docs/FORMATS.md ("Frame"), by hashlib as in tests/cases/journal.case: the first of journal 3 with the payload `hi`, where the validator ID is bytes 07.
func TestAFrameIsThatOfTheFormat(t *testing.T) {
	id := ValidatorID{7, 7, 7, 7, 7, 7, 7, 7, 7, 7, 7, 7, 7, 7, 7, 7}
	f := growing(t, id, 1, 2)
	frame, err := f.Put([]byte("kept"), []byte("hi"))
	want := "3bf3a3b26b4e39456d64009bebc5ad232594d905" + "0000000000000001" + "02" + "000002" + "6869" + strings.Repeat("ff", 6)
	if got := hex.EncodeToString(bytes.TrimPrefix(frame, []byte("kept"))); got != want || err != nil {
		t.Fatalf("%s (%v)", got, err)
	}
	frame = frame[4:]
	r := NewFileReader(id, 3)
	if payload, err := r.Next(frame); string(payload) != "hi" || err != nil || r.At() != 40 {
		t.Error(payload, err, r.At())
	}
	if _, err := r.Next(frame); err != io.EOF {
		t.Error(err)
	}
	if err := f.Synced(); err != nil {
		t.Fatal(err)
	}
	if journal, end := f.Growing(); journal != 3 || end != 40 {
		t.Error(journal, end)
	}
	mark, err := f.Put(nil, nil)
	if err != nil || len(mark) != 32 {
		t.Fatal(mark, err)
	}
	file := append(append([]byte(nil), frame...), mark...)
	for _, row := range []struct {
		what string
		r    *FileReader
		file []byte
		want error
	}{
		{"cut off", NewFileReader(id, 3), file[:39], ErrTorn},
		{"changed", NewFileReader(id, 3), append([]byte{1}, file[1:]...), ErrDamaged},
		{"never written", NewFileReader(id, 3), make([]byte, 100), io.EOF},
		{"no bytes", NewFileReader(id, 3), nil, io.EOF},
		{"of another journal", NewFileReader(id, 4), file, ErrTorn},
		{"of another folder", NewFileReader(ValidatorID{}, 3), file, ErrTorn},
		{"a snapshot", NewFileReader(id, 0), file, ErrDamaged},
	} {
		if _, err := row.r.Next(row.file); err != row.want || row.r.At() != 0 {
			t.Errorf("%s: %v at %d", row.what, err, row.r.At())
		}
	}
	// (the heads of format 1 and format 3, by Python's hashlib)
	for number, row := range map[int]struct{ head, says string }{
		1: {"0d8b60f2c6c3c641776c1cbf648ea7f1d1af4895" + "0000000000000001" + "01" + "000002", "before its release"},
		3: {"409f72e42b6edf86611eee97b36a70d090263f82" + "0000000000000001" + "03" + "000002", "later"},
	} {
		head, err := hex.DecodeString(row.head)
		if err != nil {
			t.Fatal(err)
		}
		var format *FormatError
		if _, err := NewFileReader(id, 3).Next(append(head, frame[32:]...)); !errors.As(err, &format) || format.Format != number || !strings.Contains(err.Error(), row.says) {
			t.Error(err)
		}
	}
	// A reader whose offset the bytes do not have.
	if _, err := r.Next(nil); !errors.Is(err, ErrFolderOrder) {
		t.Error(err)
	}
}

// A switch makes the calls in their order, and a journal that is not there is one more step.
func TestASwitch(t *testing.T) {
	f := growing(t, ValidatorID{}, 2, 3)
	if err := f.Begin(); err != nil {
		t.Fatal(err)
	}
	for i, want := range []Call{CreateJournal, SyncFolder, WriteSnapshot, SyncSnapshot, RenameSnapshot, SyncFolder, RemoveJournal, RemoveJournal, RemoveJournal, NoCall} {
		call, journal, err := f.Due()
		if err != nil || call != want {
			t.Fatalf("call %d is %d, want %d (%v)", i, call, want, err)
		}
		switch call {
		case CreateJournal:
			want := uint64(5)
			if journal != want {
				t.Errorf("journal %d is made", journal)
			}
		case RemoveJournal:
			if want := uint64(2 + i - 6); journal != want {
				t.Errorf("journal %d is removed, want %d", journal, want)
			}
		case WriteSnapshot:
			if err := f.Answer(true); !errors.Is(err, ErrFolderOrder) || !strings.Contains(err.Error(), "mark") {
				t.Error(err)
			}
			for number, payload := range [][]byte{[]byte("one"), nil} {
				frame, err := f.Piece(nil, payload)
				if err != nil {
					t.Fatal(err)
				}
				r := NewFileReader(ValidatorID{}, 0)
				if got, err := r.Next(frame); number == 0 && (string(got) != "one" || err != nil) {
					t.Error(got, err)
				}
			}
		case NoCall:
			return
		}
		if err := f.Answer(true); err != nil {
			t.Fatal(err)
		}
	}
}

// Each fault is an error that says what to do, and nothing happens.
func TestFaultsOfAFolder(t *testing.T) {
	start, err := OpenFolder(ValidatorID{}, 1, 0)
	if err != nil {
		t.Fatal(err)
	}
	idle, ended, flying, switching := growing(t, ValidatorID{}, 1, 0), growing(t, ValidatorID{}, 1, 0), growing(t, ValidatorID{}, 1, 0), growing(t, ValidatorID{}, 1, 0)
	if err := ended.Failed(); err != nil {
		t.Fatal(err)
	}
	if _, err := flying.Put(nil, []byte("one")); err != nil {
		t.Fatal(err)
	}
	if err := switching.Begin(); err != nil {
		t.Fatal(err)
	}
	put := func(f *Folder, payload []byte) error { _, err := f.Put(nil, payload); return err }
	piece := func(f *Folder, payload []byte) error { _, err := f.Piece(nil, payload); return err }
	due := func(f *Folder) error { _, _, err := f.Due(); return err }
	open := func(oldest, newest uint64) error { _, err := OpenFolder(ValidatorID{}, oldest, newest); return err }
	long := make([]byte, MaxPayload+1)
	for i, row := range []struct {
		got  error
		want error
		says string
	}{
		{open(1, 1<<62-1), ErrFolderFull, "go on in a new folder"},
		{open(7, 5), ErrFolderOrder, "not those of a folder"},
		{put(start, nil), ErrFolderOrder, "make the calls that are due"},
		{start.Begin(), ErrFolderOrder, "a call is due"},
		{start.Synced(), ErrFolderOrder, "no frame"},
		{idle.Answer(true), ErrFolderOrder, "no call is due"},
		{idle.Synced(), ErrFolderOrder, "no frame"},
		{idle.Unwritten(), ErrFolderOrder, "no frame"},
		{piece(idle, nil), ErrFolderOrder, "no snapshot"},
		{put(idle, long), ErrPayload, "append less"},
		{piece(idle, long), ErrPayload, "append less"},
		{put(flying, []byte("two")), ErrFolderOrder, "sync it first"},
		{switching.Begin(), ErrFolderOrder, "a call is due"},
		{put(ended, nil), ErrFolderEnded, "start the service again"},
		{piece(ended, nil), ErrFolderEnded, "start the service again"},
		{ended.Begin(), ErrFolderEnded, "start the service again"},
		{due(ended), ErrFolderEnded, "start the service again"},
		{ended.Answer(true), ErrFolderEnded, "start the service again"},
		{ended.Synced(), ErrFolderEnded, "start the service again"},
		{ended.Unwritten(), ErrFolderEnded, "start the service again"},
		{ended.Failed(), ErrFolderEnded, "start the service again"},
	} {
		if !errors.Is(row.got, row.want) || !strings.Contains(row.got.Error(), row.says) {
			t.Errorf("row %d: %v, want %v", i, row.got, row.want)
		}
	}
	// What flies is where it was, and the next frame goes to the same offset if it was not written.
	if err := flying.Unwritten(); err != nil {
		t.Error(err)
	}
	if _, err := flying.Put(nil, long[:MaxPayload]); err != nil {
		t.Error(err)
	}
	if _, end := flying.Growing(); end != 0 {
		t.Error(end)
	}
	// The next journal can't grow while a frame is not synced.
	if err := switching.Answer(true); err != nil {
		t.Fatal(err)
	}
	if _, err := switching.Put(nil, nil); err != nil {
		t.Fatal(err)
	}
	if err := switching.Answer(true); !errors.Is(err, ErrFolderOrder) {
		t.Error(err)
	}
	if err := switching.Synced(); err != nil {
		t.Fatal(err)
	}
	if err := switching.Answer(true); err != nil {
		t.Error(err)
	}
}

func TestCallsOfAFolderHoldOneLock(t *testing.T) {
	f := growing(t, ValidatorID{}, 1, 0)
	calls := map[string]func(){
		"Answer":    func() { _ = f.Answer(true) },
		"Begin":     func() { _ = f.Begin() },
		"Due":       func() { _, _, _ = f.Due() },
		"Failed":    func() { _ = f.Failed() },
		"Growing":   func() { _, _ = f.Growing() },
		"Piece":     func() { _, _ = f.Piece(nil, nil) },
		"Put":       func() { _, _ = f.Put(nil, nil) },
		"Synced":    func() { _ = f.Synced() },
		"Unwritten": func() { _ = f.Unwritten() },
	}
	methods(t, f, calls)
	f.mu.Lock()
	wantWait(t, "a folder", f.mu.Unlock, calls)
}

func TestWholeMessages(t *testing.T) {
	var uses []Use
	for i := byte(0); i < 5; i++ {
		uses = append(uses, Use{Key: TokenKey{i}, Expires: 200, At: 100})
	}
	one, many := batchOf(uses[0]), batchesOf(uses)
	both := append(append([]byte(nil), one...), many...)
	bad := append([]byte(nil), both...)
	bad[2*len(one)-1] = 9 // the kind of its first use
	for _, row := range []struct {
		messages []byte
		whole    int
		fault    string
		message  int
	}{
		{nil, 0, "", 0},
		{both, len(both), "", 0},
		{both[:len(both)-1], len(one), "Truncated", 2},
		{both[:10], 0, "Truncated", 1},
		{bad, len(one), "UseKind", 2},
		{append(both[:len(both):len(both)], 0xff), len(both), "Truncated", 3},
		{append(both[:len(both):len(both)], bytes.Repeat([]byte{0xff}, 100)...), len(both), "Magic", 3},
		{make([]byte, 100), 0, "Magic", 1},
	} {
		whole, err := Whole(row.messages)
		var fault *MessageError
		if whole != row.whole || errors.As(err, &fault) != (row.fault != "") || fault != nil && (fault.Reason != row.fault || fault.Message != row.message) {
			t.Errorf("%d bytes: %d are whole (%v), want %+v", len(row.messages), whole, err, row)
		}
	}
	// More than one call takes.
	large := bytes.Repeat(both, MaxMessages/len(both)+2)
	if whole, err := Whole(large); whole != len(large) || err != nil {
		t.Error(whole, err)
	}
	if whole, err := Whole(append(large, "JSR"...)); whole != len(large) || err == nil || err.(*MessageError).Message != 2*(MaxMessages/len(both)+2)+1 {
		t.Error(whole, err)
	}
}
