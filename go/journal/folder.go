package journal

import (
	"encoding/hex"
	"errors"
	"fmt"
	"io"
	"math"
	"os"
	"path/filepath"
	"sort"
	"strconv"
	"strings"
	"syscall"
	"time"

	"svid.example/go/v3/internal/regular"
	"svid.example/go/v3/svid"
)

// The names of the folder's files.
const (
	lockName      = "lock"
	placeName     = "place"
	framesName    = "frames"
	snapshotName  = "snapshot"
	journalPrefix = "journal."
	unfinished    = ".new"
)

// mostFile is how many bytes a file may have: as many as fit into memory.
const mostFile = math.MaxInt64 - 1

// ErrHeld is what the error of Open wraps where another process has the folder.
var ErrHeld = errors.New("the state folder is in use")

// ErrMoved is what the error of an append wraps once the path of the folder leads elsewhere: somebody removed or moved the
// folder, or mounted another one over it. Another process may have opened what is there now, so this is for good.
var ErrMoved = errors.New("the state folder is no longer at its path")

// journalName is the name of the journal of this number.
func journalName(number uint64) string { return journalPrefix + strconv.FormatUint(number, 10) }

// A system makes the calls of the system on one folder. Tests have a model of a disk.
type system interface {
	path(name string) string // for people
	mkdir() error            // makes the folder; the error wraps os.ErrExist where it is there
	rmdir() error            // removes it where it is empty
	syncAbove() error        // of the folder above, which has its name
	names() ([]string, error)
	read(name string) ([]byte, error)
	create(name string) (file, error) // a new file; one that has the name is removed first
	rename(from, to string) error
	remove(name string) error
	sync() error // of the folder
	// there returns nil while the folder is at its path, with the lock that is held; and with this validator ID, if id is not nil.
	// Else the error is ErrMoved, or another one if there is no file descriptor or memory to read the ID. It makes two calls that
	// read no disk, and three more for the ID.
	there(id *svid.ValidatorID) error
}

// A file is open for writing.
type file interface {
	WriteAt(b []byte, at int64) (int, error)
	sync() error     // fsync
	datasync() error // fdatasync
	Close() error
}

// A folder is one of the system's.
type folder struct {
	dir  string
	self *os.File // open all the while

	is, lock os.FileInfo // of the folder, and of the lock that is held
}

// openFolder opens the folder. It makes one that is not there, so that its name lasts.
func openFolder(dir string) (*folder, error) {
	path, err := filepath.Abs(dir) // (a service may go to another folder)
	if err != nil {
		return nil, fmt.Errorf("journal: %w", err)
	}
	f := &folder{dir: path}
	if err := makeFolder(f); err != nil {
		return nil, err
	}
	if err := f.open(); err != nil {
		return nil, err
	}
	return f, nil
}

// makeFolder makes the folder where it is not there, so that its name lasts. Where the sync of the folder above fails, no later sync
// vouches for the name. So the folder is removed, and the next start makes it again.
func makeFolder(sys system) error {
	err := sys.mkdir()
	if errors.Is(err, os.ErrExist) {
		return nil
	}
	if err == nil {
		if err = sys.syncAbove(); err != nil && sys.rmdir() != nil {
			return unsure(sys, err)
		}
	}
	if err != nil {
		return fmt.Errorf("journal: %w", err)
	}
	return nil
}

// unsure is the error of a folder whose name may not last, and that stays.
func unsure(sys system, why error) error {
	return fmt.Errorf("journal: the name of %s may not last (%w): mend the disk, remove this folder, which keeps nothing yet, and start again",
		sys.path(""), why)
}

// open keeps the folder open, so that a sync needs no more files.
func (f *folder) open() error {
	self, err := os.OpenFile(f.dir, os.O_RDONLY|syscall.O_DIRECTORY, 0)
	if err != nil {
		return fmt.Errorf("journal: %w", err)
	}
	if f.is, err = self.Stat(); err != nil {
		self.Close()
		return fmt.Errorf("journal: %w", err)
	}
	f.self = self
	return nil
}

// syncFile is fsync, and syncData is fdatasync. Tests let them fail.
var (
	syncFile = (*os.File).Sync
	syncData = syscall.Fdatasync
)

func (f *folder) Close() error { return f.self.Close() }

func (f *folder) path(name string) string { return filepath.Join(f.dir, name) }

func (f *folder) mkdir() error { return os.Mkdir(f.dir, 0o700) }

func (f *folder) rmdir() error { return syscall.Rmdir(f.dir) }

func (f *folder) syncAbove() error {
	above, err := os.Open(filepath.Dir(f.dir))
	if err != nil {
		return err
	}
	defer above.Close()
	return syncFile(above)
}

func (f *folder) names() ([]string, error) {
	entries, err := os.ReadDir(f.dir)
	if err != nil {
		return nil, err
	}
	var all []string
	for _, e := range entries {
		all = append(all, e.Name())
	}
	return all, nil
}

func (f *folder) read(name string) ([]byte, error) { return regular.Read(f.path(name), mostFile) }

func (f *folder) create(name string) (file, error) {
	if err := f.remove(name); err != nil && !errors.Is(err, os.ErrNotExist) {
		return nil, err
	}
	made, err := os.OpenFile(f.path(name), os.O_WRONLY|os.O_CREATE|os.O_EXCL, 0o600)
	if err != nil {
		return nil, err
	}
	return osFile{made}, nil
}

func (f *folder) rename(from, to string) error { return os.Rename(f.path(from), f.path(to)) }

func (f *folder) remove(name string) error { return os.Remove(f.path(name)) }

func (f *folder) sync() error { return syncFile(f.self) }

func (f *folder) there(id *svid.ValidatorID) error {
	if err := isAt(f.dir, f.is); err != nil {
		return err
	}
	if err := isAt(f.path(lockName), f.lock); err != nil {
		return err
	}
	if id == nil {
		return nil
	}
	switch now, err := readID(f); {
	case errors.Is(err, syscall.EMFILE), errors.Is(err, syscall.ENFILE), errors.Is(err, syscall.ENOMEM):
		return err // It says nothing of the folder, and whoever connects can use up the file descriptors.
	case err != nil:
		return fmt.Errorf("%w: %v", ErrMoved, err)
	case now != *id:
		return fmt.Errorf("%w: %s has the ID of another validator", ErrMoved, f.path(placeName))
	}
	return nil
}

// isAt is ErrMoved where a path does not lead to this file.
func isAt(path string, file os.FileInfo) error {
	switch now, err := os.Stat(path); {
	case err != nil:
		return fmt.Errorf("%w: %v", ErrMoved, err)
	case !os.SameFile(now, file):
		return fmt.Errorf("%w: %s is another file than the one that was opened", ErrMoved, path)
	}
	return nil
}

type osFile struct{ *os.File }

// WriteAt tells how many bytes it has written where it fails, which that of os.File does not.
func (f osFile) WriteAt(b []byte, at int64) (n int, err error) {
	for n < len(b) {
		m, err := syscall.Pwrite(int(f.Fd()), b[n:], at+int64(n))
		if err == syscall.EINTR {
			continue
		}
		if err == nil && m == 0 {
			err = io.ErrShortWrite
		}
		if err != nil {
			return n, &os.PathError{Op: "write", Path: f.Name(), Err: err}
		}
		n += m
	}
	return n, nil
}

func (f osFile) sync() error { return syncFile(f.File) }

// datasync calls again where a signal came between, as package os does: on a file system in user space that may be.
func (f osFile) datasync() error {
	for {
		err := syncData(int(f.Fd()))
		if err == nil {
			return nil
		}
		if err != syscall.EINTR {
			return &os.PathError{Op: "fdatasync", Path: f.Name(), Err: err}
		}
	}
}

// hold locks the folder until the file that it returns is closed, and writes into it who holds it.
func (f *folder) hold() (*os.File, error) {
	lock, err := regular.Open(f.path(lockName), os.O_RDWR|os.O_CREATE, 0o600)
	if err != nil {
		return nil, fmt.Errorf("journal: %w", err)
	}
	if err := f.lockFile(lock); err != nil {
		lock.Close()
		return nil, err
	}
	if f.lock, err = lock.Stat(); err != nil {
		lock.Close()
		return nil, fmt.Errorf("journal: %w", err)
	}
	return lock, nil
}

func (f *folder) lockFile(lock *os.File) error {
	err := syscall.Flock(int(lock.Fd()), syscall.LOCK_EX|syscall.LOCK_NB)
	if err == syscall.EWOULDBLOCK {
		return fmt.Errorf("journal: %w: %s is held by %s: stop it, or give this one a folder of its own",
			ErrHeld, f.dir, holder(lock))
	}
	if err != nil {
		return fmt.Errorf("journal: flock of %s: %w", lock.Name(), err)
	}
	host, err := os.Hostname()
	if err != nil {
		host = "this machine"
	}
	name := fmt.Sprintf("process %d on %s since %s\n", os.Getpid(), host, time.Now().UTC().Format(time.RFC3339))
	if err := lock.Truncate(0); err != nil {
		return fmt.Errorf("journal: %w", err)
	}
	if _, err := lock.WriteAt([]byte(name), 0); err != nil {
		return fmt.Errorf("journal: %w", err)
	}
	return nil
}

// holder is what the lock file says about who holds it.
func holder(lock *os.File) string {
	text, err := io.ReadAll(io.NewSectionReader(lock, 0, 200))
	if name := strings.TrimSpace(string(text)); err == nil && name != "" {
		return name
	}
	return "another process"
}

// journals returns the numbers of the folder's journals in rising order.
func journals(sys system) ([]uint64, error) {
	names, err := sys.names()
	if err != nil {
		return nil, fmt.Errorf("journal: %w", err)
	}
	var numbers []uint64
	for _, name := range names {
		n, err := strconv.ParseUint(strings.TrimPrefix(name, journalPrefix), 10, 64)
		if err == nil && n > 0 && name == journalName(n) {
			numbers = append(numbers, n)
		}
	}
	sort.Slice(numbers, func(i, k int) bool { return numbers[i] < numbers[k] })
	return numbers, nil
}

// removeUnfinished removes the files that a process was writing when it was killed.
func removeUnfinished(sys system) error {
	for _, name := range []string{snapshotName, placeName, framesName} {
		if err := sys.remove(name + unfinished); err != nil && !errors.Is(err, os.ErrNotExist) {
			return fmt.Errorf("journal: %w", err)
		}
	}
	return nil
}

// readID reads the validator ID. The error wraps os.ErrNotExist where there is none.
func readID(sys system) (id svid.ValidatorID, err error) {
	text, err := sys.read(placeName)
	if err != nil {
		return id, fmt.Errorf("journal: %w", err)
	}
	bytes, err := hex.DecodeString(strings.TrimSuffix(string(text), "\n"))
	if err != nil || len(bytes) != len(id) {
		return id, fmt.Errorf("journal: %s is not 32 hexadecimal digits: put back a copy: no file of the folder can be read without it",
			sys.path(placeName))
	}
	copy(id[:], bytes)
	return id, nil
}

// findID reads the validator ID, or makes one at random. Until there is a snapshot it keeps the ID again: no start may have gone well yet. (One of messages
// is kept without the ID, and load sees to that.)
func findID(sys system, dir string) (id svid.ValidatorID, err error) {
	if id, err = readID(sys); errors.Is(err, os.ErrNotExist) {
		id, err = makeID(sys, dir)
	}
	if err != nil {
		return id, err
	}
	hasSnapshot, hasJournal, err := keeps(sys)
	if err == nil && !hasSnapshot {
		err = keepID(sys, id, !hasJournal)
	}
	return id, err
}

// keeps says what the folder keeps.
func keeps(sys system) (hasSnapshot, hasJournal bool, err error) {
	names, err := sys.names()
	if err != nil {
		return false, false, fmt.Errorf("journal: %w", err)
	}
	for _, name := range names {
		hasSnapshot = hasSnapshot || name == snapshotName
		hasJournal = hasJournal || strings.HasPrefix(name, journalPrefix)
	}
	return hasSnapshot, hasJournal, nil
}

// makeID makes a validator ID, where no file needs the one that is missing.
func makeID(sys system, dir string) (id svid.ValidatorID, err error) {
	found, err := readAll(sys, nil)
	if err == nil {
		err = found.fault(dir)
	}
	if err != nil {
		return id, err
	}
	if id, err = svid.NewValidatorID(); err != nil {
		return id, fmt.Errorf("journal: %w", err)
	}
	return id, nil
}

// keepID keeps the validator ID, before anything is kept that can't be read without it. A start that failed or was killed may have left
// a file that has it, and an empty folder itself: no later sync vouches for a name whose sync failed. So the file is made again.
func keepID(sys system, id svid.ValidatorID, isEmpty bool) error {
	if isEmpty {
		// (Who may not read the folder above has not made this one. Where that folder is only read, it may have no sync.)
		if err := sys.syncAbove(); err != nil && !errors.Is(err, os.ErrPermission) && !errors.Is(err, syscall.EINVAL) {
			return unsure(sys, err)
		}
	}
	return keepText(sys, placeName, id.String())
}

// keepText makes a file of one line, whole or not at all, that lasts.
func keepText(sys system, name, text string) error {
	made, err := sys.create(name + unfinished)
	if err == nil {
		_, err = made.WriteAt([]byte(text+"\n"), 0)
		if err == nil {
			err = made.sync()
		}
		made.Close()
	}
	if err == nil {
		err = sys.rename(name+unfinished, name)
	}
	if err == nil {
		err = sys.sync()
	}
	if err != nil {
		return fmt.Errorf("journal: %s: %w", sys.path(name), err)
	}
	return nil
}

// firstOfFrames is the number of the first journal that consists of frames, in a folder of an older version in which a start
// has begun to make such journals; 0 in another one.
func firstOfFrames(sys system) (uint64, error) {
	text, err := sys.read(framesName)
	if errors.Is(err, os.ErrNotExist) {
		return 0, nil
	}
	if err != nil {
		return 0, fmt.Errorf("journal: %w", err)
	}
	number, err := strconv.ParseUint(strings.TrimSuffix(string(text), "\n"), 10, 64)
	if err != nil {
		return 0, fmt.Errorf("journal: %s is not the number of a journal: put back a copy", sys.path(framesName))
	}
	return number, nil
}
