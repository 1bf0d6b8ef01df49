package svid

// #include "svid.h"
import "C"

import (
	"errors"
	"fmt"
	"io"
	"sync"
	"unsafe"
)

const (
	// MaxPayload is the greatest number of bytes that one frame of a state folder bears.
	MaxPayload = C.SVID_PAYLOAD_MOST
	// MarkLen is how many of them AppendMark takes.
	MarkLen = C.SVID_LOG_POSITION
)

// Errors of a Folder. After each of them it is as it was.
var (
	// ErrFolderEnded: a sync failed before.
	ErrFolderEnded = ofFolder(C.SVID_FOLDER_ENDED)
	// ErrFolderFull: a number of the folder has reached its end.
	ErrFolderFull = ofFolder(C.SVID_FOLDER_FULL)
	// ErrFolderOrder: the call is not one that may come now.
	ErrFolderOrder = errors.New("svid: this call of the state folder may not come now")
	// ErrPayload: a payload is too long for a frame.
	ErrPayload = ofFolder(C.SVID_FOLDER_TOO_LONG)
)

// What FileReader.Next returns where no frame stands, beside io.EOF and a *FormatError.
var (
	// ErrTorn: a write was cut off. Nobody had an answer that it is on the disk.
	ErrTorn = ofFolder(C.SVID_FILE_TEAR)
	// ErrDamaged: what was synced has changed.
	ErrDamaged = ofFolder(C.SVID_FILE_DAMAGE)
)

// ofFolder is the error of a call on a folder or on a file with this status.
func ofFolder(status C.uint32_t) error { return errors.New("svid: " + wordsOf(status).whole()) }

// A FormatError says that a frame has another format than this library reads, which is format 2.
type FormatError struct{ Format int }

// Error names the format, and what to do.
func (e *FormatError) Error() string {
	what := "svid: " + wordsOf(C.SVID_FILE_OTHER).whole()
	if e.Format == 1 {
		return what + ": it is format 1, which only builds of svidd 0.2 before its release wrote, and this library reads format 2: write the messages of the folder by the build that wrote it"
	}
	return fmt.Sprintf("%s: it is format %d, and this library reads format 2: take the version that wrote it, or a later one", what, e.Format)
}

// A Call of the system that is due in a state folder.
type Call uint64

// The calls.
const (
	NoCall         Call = C.SVID_CALL_NOTHING
	CreateJournal  Call = C.SVID_CALL_CREATE_JOURNAL  // make an empty journal of the number: remove a file that has its name, then make it (O_EXCL)
	SyncFolder     Call = C.SVID_CALL_SYNC_FOLDER     // fsync the folder
	WriteSnapshot  Call = C.SVID_CALL_WRITE_SNAPSHOT  // make a file beside the snapshot, and write the pieces to it, the last one empty
	SyncSnapshot   Call = C.SVID_CALL_SYNC_SNAPSHOT   // sync that file
	RenameSnapshot Call = C.SVID_CALL_RENAME_SNAPSHOT // rename it over the snapshot
	RemoveJournal  Call = C.SVID_CALL_REMOVE_JOURNAL  // remove the journal of the number: one that is not there is a success
)

// A Folder says which call of the system is due in a state folder, and makes the frames that its files consist of. It reads
// and writes no file itself: docs/FORMATS.md ("State folder") has the files. Its methods may be called by many goroutines
// at once.
type Folder struct {
	mu     sync.Mutex
	id     C.svid_folder_id
	folder C.svid_folder
	due    C.svid_due
	told   C.svid_told
}

// OpenFolder begins a start in a folder whose files were read: no journal has a number below oldest or above newest. Without
// journals these are 1 and 0. id tells the folder from each other one. Make the calls that are due: then a new journal
// grows. Errors: ErrFolderFull, ErrFolderOrder.
func OpenFolder(id ValidatorID, oldest, newest uint64) (*Folder, error) {
	f := &Folder{id: folderID(id)}
	if err := folderFailure(C.svid_journal_open(&f.folder, C.uint64_t(oldest), C.uint64_t(newest))); err != nil {
		return nil, err
	}
	return f, nil
}

func folderID(id ValidatorID) (p C.svid_folder_id) {
	*(*ValidatorID)(unsafe.Pointer(&p)) = id
	return p
}

// Begin begins a new journal and a new snapshot: make the calls that are due. Errors: ErrFolderEnded, ErrFolderFull, and
// ErrFolderOrder while a call is due.
func (f *Folder) Begin() error {
	f.mu.Lock()
	defer f.mu.Unlock()
	return folderFailure(C.svid_journal_begin(&f.folder))
}

// Due returns the call that is due, and for CreateJournal and RemoveJournal the number of the journal. Errors: ErrFolderEnded.
func (f *Folder) Due() (call Call, journal uint64, err error) {
	f.mu.Lock()
	defer f.mu.Unlock()
	err = folderFailure(C.svid_journal_due(&f.folder, &f.due))
	return Call(f.due.call), uint64(f.due.journal), err
}

// Answer tells whether the call that was due succeeded. A sync of the folder that fails ends the folder. So does any call of a
// start. Another call that fails ends the switch alone, and a later Begin begins it again. Errors: ErrFolderEnded, and
// ErrFolderOrder where no call is due, where the next journal would grow while a frame is not synced, or where a snapshot has
// no empty piece at its end.
func (f *Folder) Answer(ok bool) error {
	f.mu.Lock()
	defer f.mu.Unlock()
	return folderFailure(C.svid_journal_answer(&f.folder, C.uint32_t(oneIf(ok))))
}

// Growing returns the number of the journal that grows, and how many bytes its synced frames take: the next one goes there.
func (f *Folder) Growing() (journal uint64, end int64) {
	f.mu.Lock()
	defer f.mu.Unlock()
	return uint64(f.folder.newest), int64(f.folder.end)
}

// Put appends the frame of a payload to out. Write it to the journal that grows, at its end, and sync that: then call Synced. Call
// Unwritten if the write failed, and Failed if the sync did. An empty payload is a mark: it carries nothing, and makes damage
// of the frame before it visible. Errors: ErrFolderEnded, ErrPayload, ErrFolderFull, and ErrFolderOrder before a start is
// through, and while a frame is not synced.
func (f *Folder) Put(out, payload []byte) ([]byte, error) {
	return f.frame(out, payload, func(at *C.uint8_t, room C.size_t) C.uint32_t {
		return C.svid_journal_put(&f.folder, &f.id, start(payload), C.size_t(len(payload)), at, room, &f.told)
	})
}

// Piece appends the frame of the next piece of a snapshot to out, while WriteSnapshot is due. An empty payload ends the
// snapshot. Errors: ErrFolderEnded, ErrPayload, ErrFolderFull, and ErrFolderOrder where no snapshot is being written.
func (f *Folder) Piece(out, payload []byte) ([]byte, error) {
	return f.frame(out, payload, func(at *C.uint8_t, room C.size_t) C.uint32_t {
		return C.svid_journal_piece(&f.folder, &f.id, start(payload), C.size_t(len(payload)), at, room, &f.told)
	})
}

func (f *Folder) frame(out, payload []byte, call func(at *C.uint8_t, room C.size_t) C.uint32_t) ([]byte, error) {
	if len(payload) > MaxPayload {
		return nil, ErrPayload
	}
	out = withRoom(out, len(payload)+C.SVID_FRAME_MORE)
	room := out[len(out):cap(out)]
	f.mu.Lock()
	defer f.mu.Unlock()
	if err := folderFailure(call(start(room), C.size_t(len(room)))); err != nil {
		return nil, err
	}
	return out[:len(out)+int(f.told.len)], nil
}

// withRoom is b with room for so many bytes after it.
func withRoom(b []byte, more int) []byte {
	if cap(b)-len(b) >= more {
		return b
	}
	return append(make([]byte, 0, len(b)+more), b...)
}

// Synced tells that the frame of Put is on the disk: now acknowledge what it says. Errors: ErrFolderEnded, and ErrFolderOrder
// where there is no frame.
func (f *Folder) Synced() error {
	f.mu.Lock()
	defer f.mu.Unlock()
	return folderFailure(C.svid_journal_synced(&f.folder))
}

// Unwritten tells that the write of the frame failed. Nothing ends: the next frame goes to the same offset. Errors: as Synced.
func (f *Folder) Unwritten() error {
	f.mu.Lock()
	defer f.mu.Unlock()
	return folderFailure(C.svid_journal_unwritten(&f.folder))
}

// Failed tells that a sync of the journal that grows failed: each later call answers ErrFolderEnded.
func (f *Folder) Failed() error {
	f.mu.Lock()
	defer f.mu.Unlock()
	return folderFailure(C.svid_journal_failed(&f.folder))
}

// A FileReader reads the frames of a snapshot or a journal, one after the other.
type FileReader struct {
	id      C.svid_folder_id
	journal C.uint64_t
	reader  C.svid_reader
	frame   C.svid_frame
}

// NewFileReader returns a reader of the journal of this number, or with 0 of the snapshot, in the folder of this validator ID.
func NewFileReader(id ValidatorID, journal uint64) *FileReader {
	return &FileReader{id: folderID(id), journal: C.uint64_t(journal)}
}

// Next returns the next payload of the file, whose whole content it is given. The payload is a part of that, and empty for a
// mark. The bytes before At need not stay.
//
// Where no frame stands, it returns io.EOF at the end, ErrTorn, ErrDamaged or a *FormatError. At is the offset.
func (r *FileReader) Next(content []byte) (payload []byte, err error) {
	status := C.svid_journal_read(&r.id, r.journal, start(content), C.size_t(len(content)), &r.reader, &r.frame)
	switch status {
	case C.SVID_OK:
		return content[r.frame.payload : r.frame.payload+r.frame.len], nil
	case C.SVID_FILE_END:
		return nil, io.EOF
	case C.SVID_FILE_TEAR:
		return nil, ErrTorn
	case C.SVID_FILE_DAMAGE:
		return nil, ErrDamaged
	case C.SVID_FILE_OTHER:
		return nil, &FormatError{int(r.frame.format)}
	}
	return nil, folderFailure(status)
}

// At is how many bytes the frames take that were read: the offset of the next one.
func (r *FileReader) At() int64 { return int64(r.reader.at) }

// AppendMark appends where a validator is in its log (Validator.LogMark) to out: MarkLen bytes, the front of a payload. Its
// messages stand after them, or none.
func AppendMark(out []byte, mark Mark) []byte {
	out = withRoom(out, MarkLen)
	room := out[len(out) : len(out)+MarkLen]
	m := markOf(mark)
	var told C.svid_told
	C.svid_journal_position(&m, start(room), C.size_t(len(room)), &told)
	return out[:len(out)+MarkLen]
}

// Borne returns what a payload bears: where a validator was in its log as the payload was written, if it begins with that, and
// its messages, which are a part of it.
func Borne(payload []byte) (mark Mark, isMarked bool, messages []byte) {
	var bears C.svid_bears
	C.svid_journal_bears(start(payload), C.size_t(len(payload)), &bears)
	return goMark(&bears.mark), bears.marked == 1, payload[bears.messages:]
}

// Whole returns how many of the bytes are whole messages, from the first one on. It is nil where they all are, and else a
// *MessageError, which counts from the first one, or ErrNoMemory.
//
// The library reads so much at once, and says how many bytes of the last message are there where it is cut off.
func Whole(messages []byte) (int, error) {
	whole, number := 0, 0
	for {
		rest := messages[whole:]
		piece := rest
		if len(piece) > MaxMessages {
			piece = piece[:MaxMessages]
		}
		err := areMessages(piece)
		if err == nil && len(piece) < len(rest) {
			// (how many messages that are, the library says where one is cut off)
			piece = piece[:len(piece)-1]
			err = areMessages(piece)
		}
		if err == nil {
			return len(messages), nil
		}
		var fault *MessageError
		if !errors.As(err, &fault) {
			return whole, err
		}
		begin, err := beginOf(piece, fault)
		if err != nil {
			return whole, err
		}
		whole, number = whole+begin, number+fault.Message-1
		if fault.Reason != truncated || len(piece) == len(rest) || begin == 0 {
			return whole, &MessageError{fault.Reason, number + 1, fault.Offset}
		}
	}
}

// truncated is the Reason of bytes that end before a message does.
var truncated = wordsOf(C.SVID_TRUNCATED).name

// beginOf returns where the message at fault begins. Of messages that are cut off within it, the library says how many of its
// bytes are there. Error: ErrNoMemory.
func beginOf(messages []byte, fault *MessageError) (int, error) {
	cut, is := len(messages), fault
	for least, most := 0, len(messages); is == nil || is.Message < fault.Message || is.Reason != truncated; {
		if is == nil || is.Message < fault.Message {
			least = cut + 1
		} else {
			most = cut - 1
		}
		cut, is = least+(most-least)/2, nil
		if err := areMessages(messages[:cut]); err != nil && !errors.As(err, &is) {
			return 0, err
		}
	}
	return cut - is.Offset, nil
}

// areMessages is nil for messages. It asks for their uses, and gives these no room.
func areMessages(messages []byte) error {
	var told C.svid_told
	status := C.svid_entries_read(start(messages), C.size_t(len(messages)), nil, 0, &told)
	if status == C.SVID_TOO_SHORT {
		return nil
	}
	return failure(status, &told)
}

// folderFailure is the error of a status of a folder, or nil for SVID_OK.
func folderFailure(status C.uint32_t) error {
	switch status {
	case C.SVID_OK:
		return nil
	case C.SVID_FOLDER_ENDED:
		return ErrFolderEnded
	case C.SVID_FOLDER_FULL:
		return ErrFolderFull
	case C.SVID_FOLDER_TOO_LONG:
		return ErrPayload
	}
	if status >= C.SVID_FOLDER_UNFIT && status <= C.SVID_FILE_OTHER {
		return fmt.Errorf("%w: %s", ErrFolderOrder, wordsOf(status).whole())
	}
	return fmt.Errorf("svid: the library answered status %d", uint32(status))
}
