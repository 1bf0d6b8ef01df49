package journal

import (
	"errors"
	"fmt"
	"math/rand"
	"os"
	"path/filepath"
	"sort"
	"strconv"
	"strings"
	"sync"
	"syscall"

	"svid.example/go/v3/svid"
)

// A Model is a disk for which a simulation says when a call fails, and when the power is lost. svidd has none: it is for tests.
type Model struct{ disk *disk }

// What a call of a Model returns because of a loss of power. What it was to do is not done.
var (
	// ErrLost is what the call returns in which the power is lost.
	ErrLost = errors.New("the power is lost")
	// ErrGone is what each call returns after that.
	ErrGone = errors.New("the power was lost before")
)

// NewModel returns a disk with an empty folder, but for the ID of a validator.
func NewModel(id svid.ValidatorID) *Model {
	d := newDisk()
	d.here, d.id = settled(true), settled(atRest([]byte(id.String()+"\n")))
	return &Model{d}
}

// Before lets before be asked before each call that changes something, which may let it fail. For a write that fails, it
// says how many bytes land.
func (m *Model) Before(before func(call, name string, length int) (landed int, err error)) {
	m.disk.before = func(call, name string, length int) (int, error) {
		if call == "names" || call == "read" {
			return 0, nil
		}
		return before(call, name, length)
	}
}

// Crash returns what a loss of power may leave.
func (m *Model) Crash(r *rand.Rand) *Model { return &Model{m.disk.crash(r)} }

// Open opens the folder. The journal has no timer: nothing happens to it but by its calls.
func (m *Model) Open() (*Journal, error) {
	if err := makeFolder(m.disk); err != nil {
		return nil, err
	}
	j, err := openBy(m.disk, "disk")
	if err == nil {
		j.quiet, j.growth = 0, 256
	}
	return j, err
}

// A disk is a model of one with one folder: what each call does, and what a crash may leave. Names, lengths and blocks come to
// it by themselves, each on its own, in any order; only a sync says what is there. It is the model of the proofs
// (crates/svid_journal/specs/Disk.antt), and TestTheModelOfADisk holds it to that. The proofs do not speak of the folder's own name,
// which is as the others. Nor do they speak of the lock and of the files that an older version left: a disk keeps all of these files.
type disk struct {
	mu       sync.Mutex
	here     nameOf[bool] // the folder itself
	journals map[uint64]*journalOnDisk
	snapshot nameOf[*fileOnDisk] // nil where there is none
	beside   *fileOnDisk
	id       nameOf[*fileOnDisk]
	idBeside *fileOnDisk
	others   map[string][]byte

	// before is asked before each call that changes something, and may let it fail. For a write that fails, it says how many
	// bytes land.
	before func(call, name string, length int) (landed int, err error)
}

// A fileOnDisk is what a read returns, and what a crash leaves: it begins with kept, and has nothing more if it is whole.
type fileOnDisk struct {
	seen, kept     []byte
	whole, spoiled bool // spoiled: a sync failed, and no later one tells what is on the disk
}

// A nameOf is what a name stands for, and all that it may stand for after a crash. It is stuck after a sync of the folder that
// failed.
type nameOf[A any] struct {
	now   A
	may   []A
	stuck bool
}

type journalOnDisk struct {
	file *fileOnDisk
	here nameOf[bool]
}

func newDisk() *disk {
	return &disk{
		here:     settled(false),
		journals: map[uint64]*journalOnDisk{},
		snapshot: settled[*fileOnDisk](nil),
		beside:   &fileOnDisk{},
		id:       settled[*fileOnDisk](nil),
		idBeside: &fileOnDisk{},
		others:   map[string][]byte{},
		before:   func(string, string, int) (int, error) { return 0, nil },
	}
}

func settled[A any](a A) nameOf[A] { return nameOf[A]{now: a, may: []A{a}} }

// leads lets a name stand for something else.
func (n *nameOf[A]) leads(a A) { *n = nameOf[A]{now: a, may: append(n.may[:len(n.may):len(n.may)], a)} }

// named is a sync of the folder.
func (n *nameOf[A]) named(ok bool) {
	switch {
	case !ok:
		n.stuck = n.stuck || len(n.may) != 1
	case !n.stuck:
		*n = settled(n.now)
	}
}

// written is a write: from an offset on there is what landed.
func (f *fileOnDisk) written(at int, landed []byte) {
	seen := append([]byte(nil), first(at, f.seen)...)
	seen = append(seen, landed...)
	if end := at + len(landed); end < len(f.seen) {
		seen = append(seen, f.seen[end:]...)
	}
	f.seen, f.kept, f.whole = seen, first(at, f.kept), false
}

// first is the first n bytes, or all where there are fewer.
func first(n int, b []byte) []byte {
	if n > len(b) {
		n = len(b)
	}
	return b[:n:n]
}

// forced is a sync.
func (f *fileOnDisk) forced(ok bool) {
	switch {
	case !ok:
		f.spoiled = true
	case !f.spoiled:
		f.kept, f.whole = f.seen, true
	}
}

func (f *fileOnDisk) copied() *fileOnDisk { g := *f; return &g }

// numberOf is the number of a journal's name.
func numberOf(name string) (uint64, bool) {
	n, err := strconv.ParseUint(strings.TrimPrefix(name, journalPrefix), 10, 64)
	return n, err == nil && name == journalName(n)
}

// journal is that of a number. One that was never made has a name that stands for nothing.
func (d *disk) journal(n uint64) *journalOnDisk {
	if d.journals[n] == nil {
		d.journals[n] = &journalOnDisk{file: &fileOnDisk{}, here: settled(false)}
	}
	return d.journals[n]
}

func (d *disk) path(name string) string { return filepath.Join("disk", name) }

func (d *disk) mkdir() error {
	d.mu.Lock()
	defer d.mu.Unlock()
	if d.here.now {
		return &os.PathError{Op: "mkdir", Path: "disk", Err: syscall.EEXIST}
	}
	if _, err := d.before("mkdir", "", 0); err != nil {
		return err
	}
	d.here.leads(true)
	return nil
}

func (d *disk) rmdir() error {
	d.mu.Lock()
	defer d.mu.Unlock()
	if _, err := d.before("rmdir", "", 0); err != nil {
		return err
	}
	d.here.leads(false)
	return nil
}

func (d *disk) syncAbove() error {
	d.mu.Lock()
	defer d.mu.Unlock()
	_, err := d.before("sync of the folder above", "", 0)
	if err != ErrLost && err != ErrGone {
		d.here.named(err == nil)
	}
	return err
}

func (d *disk) names() ([]string, error) {
	d.mu.Lock()
	defer d.mu.Unlock()
	if _, err := d.before("names", "", 0); err != nil {
		return nil, err
	}
	var all []string
	for n, j := range d.journals {
		if j.here.now {
			all = append(all, journalName(n))
		}
	}
	for name := range d.others {
		all = append(all, name)
	}
	if d.snapshot.now != nil {
		all = append(all, snapshotName)
	}
	if d.id.now != nil {
		all = append(all, placeName)
	}
	sort.Strings(all)
	return all, nil
}

func absent(call, name string) error {
	return &os.PathError{Op: call, Path: name, Err: syscall.ENOENT}
}

func (d *disk) read(name string) ([]byte, error) {
	d.mu.Lock()
	defer d.mu.Unlock()
	if _, err := d.before("read", name, 0); err != nil {
		return nil, err
	}
	content, there := d.others[name]
	if n, is := numberOf(name); is {
		j := d.journal(n)
		content, there = j.file.seen, j.here.now
	}
	if name == snapshotName && d.snapshot.now != nil {
		content, there = d.snapshot.now.seen, true
	}
	if name == placeName && d.id.now != nil {
		content, there = d.id.now.seen, true
	}
	if !there {
		return nil, absent("open", name)
	}
	return append([]byte(nil), content...), nil
}

func (d *disk) create(name string) (file, error) {
	d.mu.Lock()
	defer d.mu.Unlock()
	if _, err := d.before("create", name, 0); err != nil {
		return nil, err
	}
	f := &openFile{disk: d, name: name, file: &fileOnDisk{}}
	if n, is := numberOf(name); is {
		j := d.journal(n)
		j.file = f.file
		j.here.leads(true)
		return f, nil
	}
	switch name {
	case snapshotName + unfinished:
		d.beside = f.file
	case placeName + unfinished:
		d.idBeside = f.file
	default:
		d.others[name], f.file = nil, nil
	}
	return f, nil
}

func (d *disk) rename(from, to string) error {
	d.mu.Lock()
	defer d.mu.Unlock()
	if _, err := d.before("rename", from, 0); err != nil {
		return err
	}
	if from == snapshotName+unfinished && to == snapshotName {
		d.snapshot.leads(d.beside.copied())
		return nil
	}
	if from == placeName+unfinished && to == placeName {
		d.id.leads(d.idBeside.copied())
		return nil
	}
	content, there := d.others[from]
	if !there {
		return absent("rename", from)
	}
	delete(d.others, from)
	d.others[to] = content
	return nil
}

func (d *disk) remove(name string) error {
	d.mu.Lock()
	defer d.mu.Unlock()
	if _, err := d.before("remove", name, 0); err != nil {
		return err
	}
	if n, is := numberOf(name); is {
		j := d.journal(n)
		if !j.here.now {
			return absent("remove", name)
		}
		j.here.leads(false)
		return nil
	}
	if _, there := d.others[name]; !there {
		return absent("remove", name) // (a file beside has no name in the model: it is made again)
	}
	delete(d.others, name)
	return nil
}

// Its path leads nowhere else.
func (d *disk) there(*svid.ValidatorID) error { return nil }

func (d *disk) sync() error {
	d.mu.Lock()
	defer d.mu.Unlock()
	_, err := d.before("sync of the folder", "", 0)
	if err == ErrLost || err == ErrGone {
		return err
	}
	for _, j := range d.journals {
		j.here.named(err == nil)
	}
	d.snapshot.named(err == nil)
	d.id.named(err == nil)
	return err
}

// An openFile is a file of the disk. One of the others has no file.
type openFile struct {
	disk *disk
	name string
	file *fileOnDisk
}

func (f *openFile) WriteAt(b []byte, at int64) (int, error) {
	d := f.disk
	d.mu.Lock()
	defer d.mu.Unlock()
	n, err := d.before("write", f.name, len(b))
	if err == ErrGone {
		return 0, err
	}
	if err == nil {
		n = len(b)
	}
	if f.file == nil {
		d.others[f.name] = append([]byte(nil), b[:n]...)
	} else {
		f.file.written(int(at), b[:n])
	}
	return n, err
}

func (f *openFile) sync() error { return f.force("fsync") }

func (f *openFile) datasync() error { return f.force("fdatasync") }

func (f *openFile) force(call string) error {
	f.disk.mu.Lock()
	defer f.disk.mu.Unlock()
	_, err := f.disk.before(call, f.name, 0)
	if err != ErrLost && err != ErrGone && f.file != nil {
		f.file.forced(err == nil)
	}
	return err
}

func (f *openFile) Close() error { return nil }

// crash is the disk after a loss of power: each name and each file is in one of the states that it may have.
func (d *disk) crash(r *rand.Rand) *disk {
	d.mu.Lock()
	defer d.mu.Unlock()
	after := newDisk()
	if after.here = settled(oneOf(r, d.here.may)); !after.here.now {
		return after // and nothing in it
	}
	for name, content := range d.others {
		after.others[name] = content
	}
	stale := [][]byte{d.beside.seen}
	var numbers []uint64
	for n := range d.journals {
		numbers = append(numbers, n)
	}
	sort.Slice(numbers, func(i, k int) bool { return numbers[i] < numbers[k] }) // so that r does the same each time
	for _, n := range numbers {
		stale = append(stale, d.journals[n].file.seen)
	}
	for _, n := range numbers {
		j := d.journals[n]
		after.journals[n] = &journalOnDisk{file: j.file.left(r, stale), here: settled(oneOf(r, j.here.may))}
	}
	if there := oneOf(r, d.snapshot.may); there != nil {
		after.snapshot = settled(there.left(r, stale))
	}
	after.beside = d.beside.left(r, stale)
	if there := oneOf(r, d.id.may); there != nil {
		after.id = settled(there.left(r, stale))
	}
	after.idBeside = d.idBeside.left(r, stale)
	return after
}

func oneOf[A any](r *rand.Rand, may []A) A { return may[r.Intn(len(may))] }

// left is the file after a loss of power. After what was kept there is, if it is not whole, nothing, all that was seen, zeros,
// anything, or cells of these and of other files.
func (f *fileOnDisk) left(r *rand.Rand, stale [][]byte) *fileOnDisk {
	bytes := append([]byte(nil), f.kept...)
	if !f.whole {
		bytes = append(bytes, f.leftBehind(r, stale)...)
	}
	return atRest(bytes)
}

func atRest(b []byte) *fileOnDisk { return &fileOnDisk{seen: b, kept: b, whole: true} }

func (f *fileOnDisk) leftBehind(r *rand.Rand, stale [][]byte) []byte {
	var rest []byte
	if len(f.seen) > len(f.kept) {
		rest = append(rest, f.seen[len(f.kept):]...)
	}
	if len(rest) > 1024 && r.Intn(50) > 0 {
		rest = rest[:1024] // (most of it is zeros)
	}
	switch r.Intn(6) {
	case 0:
		return nil
	case 1:
		return rest
	case 2:
		return first(r.Intn(len(rest)+1), rest)
	case 3:
		return make([]byte, r.Intn(300))
	case 4:
		b := make([]byte, r.Intn(300))
		r.Read(b)
		return b
	}
	for at := 0; at < len(rest); at += 8 {
		cell := rest[at:]
		if len(cell) > 8 {
			cell = cell[:8]
		}
		switch other := oneOf(r, stale); r.Intn(5) {
		case 0:
			copy(cell, make([]byte, 8))
		case 1:
			r.Read(cell)
		case 2:
			if from := len(f.kept) + at; from < len(other) {
				copy(cell, other[from:])
			}
		case 3:
			if from := 8 * r.Intn(1+len(other)/8); from < len(other) {
				copy(cell, other[from:])
			}
		}
	}
	return rest
}

// fileText and nameText are for comparing.
func (f *fileOnDisk) String() string {
	if f == nil {
		return "none"
	}
	text := fmt.Sprintf("%s/%s", f.seen, f.kept)
	if f.whole {
		text += " whole"
	}
	if f.spoiled {
		text += " spoiled"
	}
	return text
}

func (n nameOf[A]) String() string {
	text := fmt.Sprintf("%v of %v", n.now, n.may)
	if n.stuck {
		text += " stuck"
	}
	return text
}
