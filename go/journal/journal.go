// Package journal keeps the acceptances of one validator in a folder, so that none is lost when the process is killed
// or the machine loses power.
//
// The folder holds:
//
//	lock         locked (flock) while a process has the folder open; names that process
//	place        the validator's ID, 32 hexadecimal digits, made once
//	snapshot     a record as it was at some time
//	journal.N    what was appended since; the greatest N is the one that grows
//	frames       only until the first snapshot of a folder that an older version wrote: the first journal that it did not write
//	*.new        a file that was being written when the process was killed; Open removes it
//
// The library decides (svid.Folder): what the bytes of a file are, which call of the system comes next, and what is read of a
// file that a crash left. docs/FORMATS.md has the files, and crates/PROOFS.md what is proved of them. This package makes the
// calls, and tells the library how they went. What stands here alone:
//
//   - Append returns after its batch is on the disk. Callers that come while a write is under way share the next frame and its
//     sync. None waits for longer than it wants: a goroutine writes for all of them.
//   - A journal grows by zeros, so that its length changes seldom: to force a new length to the disk takes longer than the
//     bytes themselves.
//   - A mark stands after a journal that was closed, and after one to which nobody appended for a second. So damage of the
//     last batch is seen.
//   - A lock keeps other processes from the folder, as long as its path leads to it. So no Append succeeds once the path leads
//     elsewhere (ErrMoved).
package journal

import (
	"context"
	"errors"
	"fmt"
	"io"
	"os"
	"strconv"
	"sync"
	"sync/atomic"
	"syscall"
	"time"
	"unsafe"

	"svid.example/go/v3/svid"
)

// ErrClosed is what a call returns after Close.
var ErrClosed = errors.New("journal: closed")

// errUnread is what a call returns before Load.
var errUnread = errors.New("journal: the folder is not read yet")

// errOld is what Append returns before the first snapshot of a folder of an older version: such a folder is read in another way.
var errOld = errors.New("journal: an older version wrote the folder: take a snapshot first")

// errFull is what Append returns while so much waits for the disk that there is no room for more.
var errFull = errors.New("journal: the disk does not answer, and too much waits for it")

const (
	// growth is how many zeros stand after the frames of a journal that has grown.
	growth = 256 << 10
	// quiet is how long nobody appends until a mark is worth its write.
	quiet = time.Second
	// markAge is how old the last mark in the journal is when the next payload repeats it, where nobody asks for that. With
	// each payload it would take a fifth as much as a lone use takes.
	markAge = time.Second
	// manyJournals is how many journals a start may find until the next snapshot is due at once.
	manyJournals = 8
	// mostOfUse is how many bytes a use has at the most: those of a batch of one use.
	mostOfUse = 82
	// mostMessages is how many bytes of messages one write takes: a mark may stand before them.
	mostMessages = svid.MaxPayload - svid.MarkLen
)

// A Journal is an open state folder. Its methods may be called from many goroutines at once.
type Journal struct {
	sys   system
	dir   string
	held  []io.Closer // the lock and the folder
	id    svid.ValidatorID
	torn  []*File
	found svid.Mark // the last one of the files that Load read
	marks bool      // it found one
	wants bool

	gather    sync.Mutex // guards gathering
	gathering *commit    // what the next write takes, nil where no caller waits

	write  sync.Mutex // held over a write; guards the fields below
	core   *svid.Folder
	bears  func() (svid.Mark, bool) // where the validator is in its log; may be nil
	borne  borne                    // what the journal that grows has of that
	file   file                     // the journal that grows
	room   int64                    // its length; what is behind its frames is zeros
	buffer []byte                   // for a frame
	old    bool                     // an older version wrote the folder, and no snapshot was taken since
	marked bool                     // its last frame is a mark, or it has none
	marker *time.Timer              // puts a mark once it is quiet; nil before the first batch
	broken error                    // why nothing can be appended any more

	quiet  time.Duration // until a mark is put; 0 for never
	age    time.Duration // markAge
	growth int
	least  int64 // the room that Room wants

	size     atomic.Int64 // for who does not wait for a write
	moved    atomic.Bool  // broken is ErrMoved
	older    int64        // how many bytes of frames older journals have, as a start found them
	snapshot sync.Mutex   // held over a snapshot; guards next and upgrades
	next     file         // the journal that is to grow
	upgrades bool         // the file frames is there
}

// A commit is what one write takes to the disk.
type commit struct {
	messages []byte
	uses     []svid.Use
	marks    bool          // a caller wants the mark, whatever the last one\'s age is
	room     bool          // someone asks for room for the next one
	done     chan struct{} // closed when err and full are set
	kept     []func(error) // these hear err then
	err      error
	full     error // what Room answers
}

// size is how many bytes its messages have at the most.
func (c *commit) size() int { return len(c.messages) + mostOfUse*len(c.uses) }

// Open locks the folder dir, which it makes where its parent is there. Load reads it.
//
// The error wraps ErrHeld, and names the holder, where another process has the folder.
func Open(dir string) (*Journal, error) {
	f, err := openFolder(dir)
	if err != nil {
		return nil, err
	}
	lock, err := f.hold()
	if err != nil {
		f.Close()
		return nil, err
	}
	j, err := openBy(f, f.dir)
	if err != nil {
		lock.Close()
		f.Close()
		return nil, err
	}
	j.held = []io.Closer{f, lock}
	return j, nil
}

// openBy opens a folder by these calls of the system.
func openBy(sys system, dir string) (*Journal, error) {
	if err := removeUnfinished(sys); err != nil {
		return nil, err
	}
	id, err := findID(sys, dir)
	if err != nil {
		return nil, err
	}
	return &Journal{sys: sys, dir: dir, id: id, broken: errUnread, marked: true, quiet: quiet, age: markAge, growth: growth,
		least: leastRoom}, nil
}

// Load reads the folder, gives all that it holds to take, whole messages at a time, and begins a new journal. Only the first call
// does. It reads while take is under way, so take may have messages of a folder that can't be read to its end. Its error ends
// the reading.
//
// Damage is an error that names the file and the offset: no crash leaves such a file. So is a file of another format.
func (j *Journal) Load(take func(messages []byte) error) error {
	j.snapshot.Lock()
	defer j.snapshot.Unlock()
	if j.state() != errUnread {
		return j.state()
	}
	err := j.load(take)
	j.write.Lock()
	defer j.write.Unlock()
	j.broken = err
	return err
}

// state is why nothing can be appended, or nil.
func (j *Journal) state() error {
	j.write.Lock()
	defer j.write.Unlock()
	return j.broken
}

func (j *Journal) load(take func(messages []byte) error) error {
	found, err := j.read(take)
	if err != nil {
		return err
	}
	j.write.Lock()
	j.old = found.old
	j.write.Unlock()
	j.upgrades = found.old || found.fromFrames > 0
	j.wants = !found.hasSnapshot || found.journals >= manyJournals || found.old
	empty := true
	for _, f := range found.files {
		if f.Torn() {
			j.torn = append(j.torn, f)
		}
		if f.number > 0 {
			j.older += f.At
		}
		empty = empty && f.At == 0
	}
	j.size.Store(j.older)
	j.found, j.marks = found.mark, found.isMarked
	if found.old && found.fromFrames == 0 { // (what is there was kept without the ID, so a start before may have failed to keep that)
		if err := keepID(j.sys, j.id, false); err != nil {
			return err
		}
		if err := keepText(j.sys, framesName, strconv.FormatUint(found.newest+1, 10)); err != nil {
			return err
		}
	}
	if j.core, err = svid.OpenFolder(j.id, found.oldest, found.newest); err != nil {
		return fmt.Errorf("journal: %s: %w", j.dir, err)
	}
	err = j.makeCalls(nil)
	if err == nil && !found.hasSnapshot && empty {
		err = j.replace(func(io.Writer) error { return nil })
		j.wants = false
	}
	return err
}

// read reads all files, while take takes what they hold.
func (j *Journal) read(take func(messages []byte) error) (found *contents, err error) {
	pieces, stop := make(chan []byte, 4), make(chan struct{})
	go func() {
		defer close(pieces)
		found, err = readAll(j.sys, func(piece []byte) {
			select {
			case pieces <- piece:
			case <-stop:
			}
		})
	}()
	var fault error
	for piece := range pieces {
		if fault != nil {
			continue
		}
		if fault = take(piece); fault != nil {
			close(stop)
		}
		forget(piece)
	}
	if err == nil {
		err = found.fault(j.dir)
	}
	if err != nil {
		return nil, err
	}
	for _, f := range found.files {
		if fault == nil {
			fault = f.giveOld(take)
		}
		f.Messages, f.content = nil, nil
	}
	return found, fault
}

// forget gives the memory of bytes back to the system, which nobody reads any more: a file may be half as large as the record that it makes, and both would be
// there at once. What they share with others of a page stays.
func forget(piece []byte) {
	if len(piece) == 0 {
		return
	}
	size := os.Getpagesize()
	from := -int(uintptr(unsafe.Pointer(&piece[0]))) & (size - 1)
	if whole := (len(piece) - from) &^ (size - 1); whole > 0 {
		_ = syscall.Madvise(piece[from:from+whole], syscall.MADV_DONTNEED) // Where that fails, the memory goes with the file.
	}
}

// Torn returns the journals in which Load found what a crash left of a write that no Append had answered. They are worth a
// line in the log.
func (j *Journal) Torn() []*File { return j.torn }

// ValidatorID returns the validator's ID, which the first Open of the folder made at random.
func (j *Journal) ValidatorID() svid.ValidatorID { return j.id }

// A borne mark is the last one that a journal has.
type borne struct {
	mark svid.Mark
	at   time.Time // zero: it has none
}

// Bear lets the folder say from now on where the validator is in its log, as long as mark returns that: in the first payload of
// each journal and of each snapshot, in each payload by which Deaf is another one, and else once a second with what is appended
// then. Before the mark that comes once it is quiet, and before Close's, it says the last one.
func (j *Journal) Bear(mark func() (svid.Mark, bool)) {
	j.write.Lock()
	defer j.write.Unlock()
	j.bears = mark
}

// Mark returns where the validator was in its log, as the last payload says that Load read and that has it.
func (j *Journal) Mark() (mark svid.Mark, ok bool) { return j.found, j.marks }

// WantsSnapshot says whether Load found that a snapshot is due: the folder has none, or the journals of many starts, or an older
// version wrote it. In that last case it must be: Append fails until a Snapshot has replaced the old files.
func (j *Journal) WantsSnapshot() (wants, must bool) {
	j.write.Lock()
	defer j.write.Unlock()
	return j.wants, j.old
}

// Size returns how many bytes the frames of the journals have, by which a caller decides when to take a Snapshot. It waits for
// no disk.
func (j *Journal) Size() int64 { return j.size.Load() }

// AppendUses writes uses to the journal, and returns after they are on the disk. Those that share a write share batches.
//
// Callers that come while another write is under way share the next one, and its one fdatasync. Where a write fails (the disk
// is full), a later Append may succeed. Where the disk does not say what it holds (fdatasync failed), this and every later
// Append fails until the folder is opened again.
//
// AppendUses waits until ctx ends, and wraps its error then. What becomes of the uses is open in that case: the disk has them
// now, or later, or never.
//
// Where the path of the folder leads elsewhere once the uses are written, this and every later Append fails, and wraps ErrMoved.
func (j *Journal) AppendUses(ctx context.Context, uses ...svid.Use) error {
	return j.append(ctx, &commit{uses: uses})
}

// KeepUses is AppendUses for who does not wait: kept hears later what became of the uses, and nothing from a disk that hangs. Those of a
// write hear it one after the other, so it is to be short. Where KeepUses returns an error, kept hears nothing.
func (j *Journal) KeepUses(kept func(error), uses ...svid.Use) error {
	_, err := j.join(&commit{uses: uses, kept: []func(error){kept}})
	return err
}

// Append is as AppendUses, for whole messages.
func (j *Journal) Append(ctx context.Context, messages []byte) error {
	return j.append(ctx, &commit{messages: messages})
}

// AppendMark is as AppendUses without uses: it returns after the disk has where the validator is in its log, if Bear was called
// for that.
func (j *Journal) AppendMark(ctx context.Context) error {
	return j.append(ctx, &commit{marks: true})
}

func (j *Journal) append(ctx context.Context, more *commit) error {
	c, err := j.join(more)
	if err != nil {
		return err
	}
	select {
	case <-c.done:
		return c.err
	case <-ctx.Done():
		return fmt.Errorf("journal: the disk did not answer in time: %w", ctx.Err())
	}
}

// join adds to what the next write takes. The first one there lets that write begin.
func (j *Journal) join(more *commit) (*commit, error) {
	if more.size() > mostMessages {
		return nil, fmt.Errorf("journal: append: %w", svid.ErrPayload)
	}
	j.gather.Lock()
	defer j.gather.Unlock()
	if j.gathering == nil {
		j.gathering = &commit{done: make(chan struct{})}
		go j.writeNext(j.gathering)
	}
	if j.gathering.size()+more.size() > mostMessages {
		return nil, errFull
	}
	j.gathering.messages = append(j.gathering.messages, more.messages...)
	j.gathering.uses = append(j.gathering.uses, more.uses...)
	j.gathering.marks = j.gathering.marks || more.marks
	j.gathering.room = j.gathering.room || more.room
	j.gathering.kept = append(j.gathering.kept, more.kept...)
	return j.gathering, nil
}

// writeNext takes a commit to the disk, once the write before it is through, and says so.
func (j *Journal) writeNext(c *commit) {
	j.writeAlone(c)
	close(c.done)
	for _, kept := range c.kept {
		kept(c.err)
	}
}

func (j *Journal) writeAlone(c *commit) {
	j.write.Lock()
	defer j.write.Unlock()
	j.seal()
	c.err = j.commitAll(c)
	if c.room {
		c.full = j.makeRoom()
	}
}

// commitAll takes a commit to the disk, with the mark if it is due. The caller holds write.
func (j *Journal) commitAll(c *commit) error {
	mark, isDue := j.due(c)
	payload, err := j.payload(c, mark, isDue)
	if err != nil || len(payload) == 0 {
		return err
	}
	if err := j.commit(payload); err != nil {
		return err
	}
	if isDue {
		j.borne = borne{mark, time.Now()}
	}
	return nil
}

// payload is what a commit has: the mark, if it is due, and messages.
func (j *Journal) payload(c *commit, mark svid.Mark, isDue bool) ([]byte, error) {
	var payload []byte
	if isDue {
		payload = svid.AppendMark(nil, mark)
	}
	payload = append(payload, c.messages...)
	if len(c.uses) == 0 {
		return payload, nil
	}
	batches, err := svid.Batches(c.uses)
	if err != nil {
		return nil, fmt.Errorf("journal: append: %w", err)
	}
	return append(payload, batches...), nil
}

// due returns where the validator is in its log, and whether a commit is to take that to the disk: the journal has no mark yet, or
// another one that is old or has another Deaf, or a caller wants it. The caller holds write.
func (j *Journal) due(c *commit) (mark svid.Mark, isDue bool) {
	if j.bears == nil {
		return svid.Mark{}, false
	}
	mark, ok := j.bears()
	switch last := j.borne; {
	case !ok:
		return svid.Mark{}, false
	case last.at.IsZero():
		return mark, true
	case mark == last.mark:
		return mark, false
	default:
		return mark, c.marks || mark.Deaf != last.mark.Deaf || time.Since(last.at) >= j.age
	}
}

// seal ends the gathering: who comes from now on is the first of the next write.
func (j *Journal) seal() {
	j.gather.Lock()
	defer j.gather.Unlock()
	j.gathering = nil
}

// commit takes a payload to the disk. The caller holds write.
func (j *Journal) commit(payload []byte) error {
	if j.broken != nil {
		return j.broken
	}
	if j.old {
		return errOld
	}
	_, at := j.core.Growing()
	frame, err := j.core.Put(j.buffer[:0], payload)
	if err != nil {
		return fmt.Errorf("journal: append: %w", err)
	}
	j.keep(frame)
	if err := j.put(frame, at); err != nil {
		j.core.Unwritten()
		return fmt.Errorf("journal: append: %w", err)
	}
	if err := j.file.datasync(); err != nil {
		j.core.Failed()
		return j.end(err)
	}
	if err := j.sys.there(nil); err != nil {
		j.core.Failed()
		return j.end(err)
	}
	if err := j.core.Synced(); err != nil {
		return j.end(err)
	}
	j.size.Store(j.older + at + int64(len(frame)))
	if j.marked = len(payload) == 0; !j.marked {
		j.markSoon()
	}
	return nil
}

// keep keeps the buffer of a frame for the next one, unless it is large.
func (j *Journal) keep(frame []byte) {
	if j.buffer = frame; cap(frame) > 1<<20 {
		j.buffer = nil
	}
}

// put writes a frame at an offset. Where the file is too short, it grows by zeros too, as many as the disk has room for.
func (j *Journal) put(frame []byte, at int64) error {
	if at+int64(len(frame)) <= j.room {
		_, err := j.file.WriteAt(frame, at)
		return err
	}
	grown := append(append(make([]byte, 0, len(frame)+j.growth), frame...), make([]byte, j.growth)...)
	n, err := j.file.WriteAt(grown, at)
	if n < len(frame) {
		return err
	}
	j.room = at + int64(n)
	return nil
}

// markSoon lets a mark stand after the journal once it is quiet. The caller holds write.
func (j *Journal) markSoon() {
	switch {
	case j.quiet == 0:
	case j.marker == nil:
		j.marker = time.AfterFunc(j.quiet, func() {
			j.write.Lock()
			defer j.write.Unlock()
			_ = j.mark() // Nobody waits for it.
		})
	default:
		j.marker.Reset(j.quiet)
	}
}

// mark puts a mark after the journal that grows, unless one is there. Before it comes where the validator is in its log, if
// the journal does not say that. The caller holds write.
func (j *Journal) mark() error {
	if j.broken != nil {
		return j.broken
	}
	if err := j.commitAll(&commit{marks: true}); err != nil {
		return err
	}
	if j.marked {
		return nil
	}
	return j.commit(nil)
}

// An ended error is why nothing can be appended any more. It is svid.ErrFolderEnded, too.
type ended struct{ why error }

func (e *ended) Error() string {
	if errors.Is(e.why, ErrMoved) {
		return fmt.Sprintf("journal: %v: put the folder back there, and start the service again", e.why)
	}
	return fmt.Sprintf("journal: %v: start the service again once its disk is well", e.why)
}
func (e *ended) Unwrap() error        { return e.why }
func (e *ended) Is(target error) bool { return target == svid.ErrFolderEnded }

// end lets every later Append and Snapshot fail, since the disk does not say what it holds. The caller holds write.
func (j *Journal) end(why error) error {
	if j.broken == nil || j.broken == errUnread {
		j.broken = &ended{why}
		j.moved.Store(errors.Is(why, ErrMoved))
	}
	return j.broken
}

// Moved says whether nothing can be appended any more since the path of the folder leads elsewhere (ErrMoved). Append, Snapshot
// and Room see that. It waits for no disk.
func (j *Journal) Moved() bool { return j.moved.Load() }

// Snapshot replaces the snapshot by what write writes, and then drops the journals that are older than the call. Each Write is
// whole messages, and at most svid.MaxPayload bytes.
//
// write must write a record that holds at least each use that was appended before it is called, save those that have
// expired; a validator that adds a use before it appends it does. Append may be called all the while: what it appends then
// goes to a new journal that stays. Where write or the disk fails, the error is returned and nothing is lost: the old
// snapshot and all journals are still there.
func (j *Journal) Snapshot(write func(io.Writer) error) error {
	j.snapshot.Lock()
	defer j.snapshot.Unlock()
	if err := j.state(); err != nil {
		return err
	}
	return j.replace(write)
}

// replace replaces the snapshot. The caller holds snapshot.
func (j *Journal) replace(write func(io.Writer) error) error {
	if err := j.core.Begin(); err != nil {
		return fmt.Errorf("journal: snapshot: %w", err)
	}
	if err := j.makeCalls(write); err != nil {
		return err
	}
	j.write.Lock()
	defer j.write.Unlock()
	j.old = false
	if j.upgrades {
		j.upgrades = j.sys.remove(framesName) != nil // (It says nothing any more, so it may stay.)
	}
	return nil
}

// makeCalls makes the calls of the system that are due, until none is, or one fails.
func (j *Journal) makeCalls(write func(io.Writer) error) error {
	var beside file
	defer func() {
		for _, f := range []file{beside, j.next} {
			if f != nil {
				f.Close()
			}
		}
		j.next = nil
	}()
	for {
		call, number, err := j.core.Due()
		if err != nil {
			return fmt.Errorf("journal: %w", err)
		}
		if err := j.sys.there(nil); err != nil { // What is there now may be another one's.
			j.write.Lock()
			defer j.write.Unlock()
			return j.end(err)
		}
		switch call {
		case svid.NoCall:
			return nil
		case svid.CreateJournal:
			j.next, err = j.sys.create(journalName(number))
		case svid.SyncFolder:
			err = j.sys.sync()
		case svid.WriteSnapshot:
			if beside, err = j.sys.create(snapshotName + unfinished); err == nil {
				err = j.writePieces(beside, write)
			}
		case svid.SyncSnapshot:
			err = beside.sync()
		case svid.RenameSnapshot:
			err = j.sys.rename(snapshotName+unfinished, snapshotName)
		case svid.RemoveJournal:
			if err = j.sys.remove(journalName(number)); errors.Is(err, os.ErrNotExist) {
				err = nil
			}
		default:
			err = fmt.Errorf("the library wants call %d of the system: build this version with the library that it came with", call)
		}
		if err := j.answer(call, err); err != nil {
			if beside != nil {
				_ = j.sys.remove(snapshotName + unfinished) // Where that fails too, the next snapshot or start removes it.
			}
			return err
		}
	}
}

// answer tells the library how the call went that was due, and lets the next journal grow where that is next. It returns why
// the calls end here.
func (j *Journal) answer(call svid.Call, fault error) error {
	j.write.Lock()
	defer j.write.Unlock()
	if fault == nil && call == svid.SyncFolder && j.next != nil {
		_ = j.mark() // The journal is closed. (Where the disk is full, it has no mark. A sync that fails ends the folder.)
	}
	before, _ := j.core.Growing()
	err := j.core.Answer(fault == nil)
	if fault != nil {
		err = fault
	}
	if _, _, ended := j.core.Due(); ended != nil {
		return j.end(err)
	}
	if err != nil {
		return fmt.Errorf("journal: %w", err)
	}
	if now, _ := j.core.Growing(); now != before {
		j.grow()
	}
	return nil
}

// grow lets the next journal be the one that grows. The caller holds write.
func (j *Journal) grow() {
	if j.file != nil {
		j.file.Close() // All of it is on the disk: nothing is lost by an error here.
		j.older = 0
	}
	j.file, j.next, j.room, j.marked, j.borne = j.next, nil, 0, true, borne{}
	j.size.Store(j.older)
}

// writePieces writes a snapshot: each Write of write is a piece, and a mark ends it.
func (j *Journal) writePieces(to file, write func(io.Writer) error) error {
	p := &pieces{core: j.core, to: to}
	j.write.Lock()
	bears := j.bears
	j.write.Unlock()
	if bears != nil {
		if mark, ok := bears(); ok {
			if _, err := p.Write(svid.AppendMark(nil, mark)); err != nil {
				return err
			}
		}
	}
	if err := write(p); err != nil {
		return err
	}
	if p.err == nil {
		p.put(nil)
	}
	return p.err
}

// pieces are those of a snapshot, and the file that they go to.
type pieces struct {
	core   *svid.Folder
	to     file
	at     int64
	buffer []byte
	err    error
}

// Write writes a piece. No bytes are none, since an empty piece would end the snapshot.
func (p *pieces) Write(piece []byte) (int, error) {
	if p.err == nil && len(piece) > 0 {
		p.put(piece)
	}
	if p.err != nil {
		return 0, p.err
	}
	return len(piece), nil
}

func (p *pieces) put(piece []byte) {
	if p.buffer, p.err = p.core.Piece(p.buffer[:0], piece); p.err != nil {
		return
	}
	_, p.err = p.to.WriteAt(p.buffer, p.at)
	p.at += int64(len(p.buffer))
}

// Close waits for a Snapshot and an Append that are under way, puts a mark after the journal, and lets go of the folder. Every
// later Append and Snapshot returns ErrClosed, and so does a second Close.
func (j *Journal) Close() error {
	j.snapshot.Lock()
	defer j.snapshot.Unlock()
	j.write.Lock()
	defer j.write.Unlock()
	if j.broken == ErrClosed {
		return ErrClosed
	}
	var err error
	if j.broken == nil {
		err = j.mark()
	}
	j.broken = ErrClosed
	if j.marker != nil {
		j.marker.Stop()
	}
	held := j.held
	if j.file != nil {
		held = append([]io.Closer{j.file}, held...)
	}
	for _, c := range held {
		if end := c.Close(); err == nil {
			err = end
		}
	}
	return err
}
