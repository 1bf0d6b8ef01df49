package journal

import (
	"bytes"
	"errors"
	"fmt"
	"io"
	"os"

	"svid.example/go/v3/svid"
)

// A File is what a snapshot or a journal holds.
type File struct {
	Name     string // with its folder
	Length   int    // in bytes
	Old      bool   // messages one after the other, as versions before 0.2 wrote them
	Messages []byte
	Frames   int // with a payload
	Marks    int
	Log      svid.Mark // where the validator was in its log, as the last payload says that bears it
	InLog    bool      // one does
	At       int64     // where reading ended
	Rest     int       // bytes behind At, but zeros at the end
	Fault    error     // why: nil at the end, svid.ErrTorn, svid.ErrDamaged or a *svid.FormatError

	number  uint64 // of a journal; 0 of the snapshot
	content []byte // of a file without a frame, until it is known whether it is old
}

// Torn says whether a write was cut off at the end of the file: nobody had an answer that these bytes are on the disk.
func (f *File) Torn() bool { return f.Fault == svid.ErrTorn }

// A damage is why a file can't be read to its end.
type damage struct {
	file *File
	dir  string
}

func (d *damage) Error() string {
	var other *svid.FormatError
	if errors.As(d.file.Fault, &other) {
		return fmt.Sprintf("journal: %s has format %d, and this svidd reads format 2: %s", d.file.Name, other.Format, d.advice(other.Format))
	}
	return fmt.Sprintf("journal: %s is damaged at byte %d: look for a failing disk, and put back a copy of the file of the same day; "+
		"without one, see docs/SIDECAR-OPERATION.md, \"A damaged state folder\": `svidd check-state %s --messages` writes all that can still be read",
		d.file.Name, d.file.At, d.dir)
}

// advice is what to do about a file of another format.
func (d *damage) advice(format int) string {
	if format == 1 {
		return fmt.Sprintf("a build of svidd 0.2 before its release wrote it: let that build write the messages (`svidd check-state %s --messages`), "+
			"and see docs/SIDECAR-OPERATION.md, \"A damaged state folder\"", d.dir)
	}
	return "start the svidd that wrote it, or a later one"
}

func (d *damage) Unwrap() error { return d.file.Fault }

// contents is what the files of a folder hold.
type contents struct {
	id             svid.ValidatorID
	hasID          bool // the folder has a validator ID
	files          []*File
	oldest, newest uint64 // of the journals, or 1 and 0
	journals       int
	hasSnapshot    bool
	old            bool      // an older version wrote the files
	fromFrames     uint64    // the first journal that it did not write, or 0
	mark           svid.Mark // the last one in the files
	isMarked       bool      // one of them has one

	give func(messages []byte)
}

// pieceOfMessages is how many bytes of messages readAll gives away at once, where payloads are shorter.
const pieceOfMessages = 256 << 10

// readAll reads the validator ID, the snapshot and the journals, in this order. Where give is not nil, it is given the messages of
// frames, as they are read, and no file keeps them.
func readAll(sys system, give func(messages []byte)) (*contents, error) {
	c := &contents{oldest: 1, give: give}
	id, err := readID(sys)
	if err != nil && !errors.Is(err, os.ErrNotExist) {
		return nil, err
	}
	c.id, c.hasID = id, err == nil
	numbers, err := journals(sys)
	if err != nil {
		return nil, err
	}
	err = c.add(sys, snapshotName, 0)
	if c.hasSnapshot = err == nil; err != nil && !errors.Is(err, os.ErrNotExist) {
		return nil, err
	}
	for _, n := range numbers {
		if err := c.add(sys, journalName(n), n); err != nil {
			return nil, err
		}
	}
	if c.journals = len(numbers); len(numbers) > 0 {
		c.oldest, c.newest = numbers[0], numbers[len(numbers)-1]
	}
	if c.fromFrames, err = firstOfFrames(sys); err != nil {
		return nil, err
	}
	return c, c.judgeOld()
}

// add reads a file. A snapshot has the number 0.
func (c *contents) add(sys system, name string, number uint64) error {
	content, err := sys.read(name)
	if err != nil {
		return fmt.Errorf("journal: %w", err)
	}
	f := &File{Name: sys.path(name), Length: len(content), number: number}
	if err := f.read(content, svid.NewFileReader(c.id, number), c.give); err != nil {
		return fmt.Errorf("journal: %s: %w", f.Name, err)
	}
	c.files = append(c.files, f)
	if f.InLog {
		c.mark, c.isMarked = f.Log, true
	}
	return nil
}

// read reads the frames of the file. It keeps the payloads in the place of the frames, or gives them away, many at once.
func (f *File) read(content []byte, reader *svid.FileReader, give func(messages []byte)) error {
	given, length := 0, 0
	for f.Fault == nil {
		var payload []byte
		if payload, f.Fault = reader.Next(content); f.Fault != nil {
			break
		}
		if len(payload) == 0 {
			f.Marks++
		} else {
			f.Frames++
		}
		mark, isMarked, messages := svid.Borne(payload)
		if isMarked {
			f.Log, f.InLog = mark, true
		}
		length += copy(content[length:], messages)
		if give != nil && length-given >= pieceOfMessages {
			give(content[given:length:length])
			given = length
		}
	}
	if errors.Is(f.Fault, svid.ErrFolderOrder) {
		return f.Fault
	}
	if f.Fault == io.EOF {
		f.Fault = nil
	}
	f.At, f.Rest = reader.At(), len(bytes.TrimRight(content[reader.At():], "\x00"))
	switch {
	case !f.hasFrames():
		f.content = content
	case give == nil:
		f.Messages = content[:length:length]
	case given < length:
		give(content[given:length:length])
	}
	return nil
}

// hasFrames says whether the file consists of frames, be they damaged. A damaged snapshot need not.
func (f *File) hasFrames() bool {
	return f.At > 0 || f.Fault != nil && !f.Torn() && !(f.number == 0 && f.Fault == svid.ErrDamaged)
}

// judgeOld reads files as an older version wrote them, messages one after the other. These are the files without frames, if there
// are no others, or those that a start took for such before: it left a file that says how many journals they are. (Nothing is
// appended to a folder before its first snapshot of frames.)
//
// The snapshot and each journal but the last one that is not empty were closed whole. A crash may have torn that one.
func (c *contents) judgeOld() error {
	last := -1
	for i, f := range c.files {
		if c.fromFrames == 0 && f.hasFrames() {
			return nil
		}
		if c.mayBeOld(f) && f.number > 0 && len(f.content) > 0 {
			last = i
		}
	}
	wholes := make([]int, len(c.files))
	for i, f := range c.files {
		if !c.mayBeOld(f) {
			continue
		}
		var fault *svid.MessageError
		var err error
		if wholes[i], err = svid.Whole(f.content); err != nil && !errors.As(err, &fault) {
			return err
		}
		c.old = c.old || wholes[i] > 0 || c.fromFrames > 0 && f.Rest > 0
	}
	if !c.old {
		return nil
	}
	for i, f := range c.files {
		if c.mayBeOld(f) {
			f.readOld(wholes[i], i == last)
		}
	}
	return nil
}

// mayBeOld says whether an older version may have written a file.
func (c *contents) mayBeOld(f *File) bool {
	return !f.hasFrames() && (c.fromFrames == 0 || f.number < c.fromFrames)
}

// readOld reads a file of an older version, where so many bytes are whole messages.
func (f *File) readOld(whole int, isLast bool) {
	f.Old, f.Messages, f.At, f.Fault = true, f.content[:whole:whole], int64(whole), nil
	rest := f.content[whole:]
	for len(rest) > 0 && (rest[len(rest)-1] == 0 || rest[len(rest)-1] == 0xff) {
		rest = rest[:len(rest)-1] // (nothing was written there)
	}
	f.Rest = len(rest)
	switch {
	case isLast && f.Rest > 0:
		f.Fault = svid.ErrTorn
	case !isLast && whole < len(f.content):
		f.Fault = svid.ErrDamaged
	}
}

// giveOld gives the messages of a file of an older version to take, as many at once as a call takes.
func (f *File) giveOld(take func(messages []byte) error) error {
	for rest := f.Messages; len(rest) > 0; {
		piece := rest
		if len(piece) > svid.MaxMessages {
			whole, err := svid.Whole(piece[:svid.MaxMessages])
			if whole == 0 {
				return err
			}
			piece = piece[:whole]
		}
		if err := take(piece); err != nil {
			return err
		}
		rest = rest[len(piece):]
	}
	return nil
}

// fault is nil if all files could be read to their ends, or to a tear.
func (c *contents) fault(dir string) error {
	if !c.hasID {
		for _, f := range c.files {
			if !f.Old && f.Rest > 0 {
				return fmt.Errorf("journal: the file %s is missing in %s, and %s can't be read without it: put back a copy", placeName, dir, f.Name)
			}
		}
	}
	for _, f := range c.files {
		if f.Fault != nil && !f.Torn() {
			return &damage{f, dir}
		}
	}
	return nil
}
