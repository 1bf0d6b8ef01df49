package broker

import (
	"bytes"
	"database/sql"
	"fmt"
	"io/fs"
	"os"
	"os/exec"
	"os/user"
	"path/filepath"
	"strconv"
	"strings"
	"sync"
	"syscall"
	"time"

	_ "github.com/lib/pq" // speaks to the server

	"svid.example/go/v3/internal/patience"
)

// postgresBin is where Debian has the programs of PostgreSQL.
const postgresBin = "/usr/lib/postgresql/15/bin"

// A Postgres is one server of PostgreSQL. It keeps its port and its folder when it is killed and started again. It runs as another
// user where this process is root, since it refuses to run as that. It is for one goroutine at a time.
type Postgres struct {
	process
	URL, Address, Dir string
	Env               []string // more of the environment of its processes
	args              []string
	as                *syscall.Credential
}

// NewPostgres makes a server in dir, which must be there, and belong to whom Owner says. It does not run yet.
func NewPostgres(dir string, more ...string) (*Postgres, error) {
	ports, err := FreePorts(1)
	if err != nil {
		return nil, err
	}
	address := fmt.Sprintf("127.0.0.1:%d", ports[0])
	s := &Postgres{Address: address, URL: "postgres://svid@" + address + "/postgres?sslmode=disable", Dir: filepath.Join(dir, "data")}
	if s.as, err = owner(); err != nil {
		return nil, err
	}
	// (memory that processes share is a file of the folder, which a killed server would leave in /dev/shm else)
	s.args = append([]string{"-D", s.Dir, "-p", fmt.Sprint(ports[0]), "-c", "listen_addresses=127.0.0.1", "-c", "unix_socket_directories=",
		"-c", "shared_buffers=16MB", "-c", "logging_collector=off", "-c", "dynamic_shared_memory_type=mmap"}, more...)
	if _, err := os.Stat(filepath.Join(s.Dir, "PG_VERSION")); err == nil {
		return s, nil
	}
	made.Do(func() { made.files, made.err = makeData() })
	if made.err != nil {
		return nil, made.err
	}
	return s, writeData(s.Dir, made.files, s.as)
}

// made are the data of a server that never ran, which the first server of a process makes: to make them takes longer than most that
// is done with a server.
var made struct {
	sync.Once
	files []file
	err   error
}

// A file of a server, or a folder, by its path in the folder of the data.
type file struct {
	path    string
	mode    fs.FileMode
	content []byte
}

// makeData makes the data of a server, and reads them into memory.
func makeData() (files []file, err error) {
	dir, err := Folder()
	if err != nil {
		return nil, err
	}
	defer os.RemoveAll(dir)
	s := &Postgres{Dir: filepath.Join(dir, "data")}
	if s.as, err = owner(); err != nil {
		return nil, err
	}
	out, err := s.Command("initdb", "-D", s.Dir, "-U", "svid", "--auth=trust", "--no-sync", "-E", "UTF8", "--locale=C", "--wal-segsize=1").CombinedOutput()
	if err != nil {
		return nil, fmt.Errorf("broker: initdb: %w: %s: install Debian's postgresql", err, oneLine(out))
	}
	if err := s.dropTemplates(); err != nil {
		return nil, err
	}
	err = filepath.WalkDir(s.Dir, func(name string, entry fs.DirEntry, err error) error {
		if err != nil {
			return err
		}
		info, err := entry.Info()
		if err != nil {
			return err
		}
		path, err := filepath.Rel(s.Dir, name)
		if err != nil {
			return err
		}
		f := file{path: path, mode: info.Mode()}
		if !entry.IsDir() {
			if f.content, err = os.ReadFile(name); err != nil {
				return err
			}
		}
		files = append(files, f)
		return nil
	})
	return files, err
}

// dropTemplates drops the databases from which others are made, for nobody makes one: two thirds of the files, and each server has its own files.
func (s *Postgres) dropTemplates() error {
	run := s.Command("postgres", "--single", "-D", s.Dir, "-c", "fsync=off", "postgres")
	run.Stdin = strings.NewReader("UPDATE pg_database SET datistemplate = false;\nDROP DATABASE template0;\nDROP DATABASE template1;\n")
	out, err := run.CombinedOutput()
	if err != nil || bytes.Contains(out, []byte("ERROR")) {
		return fmt.Errorf("broker: the templates are not dropped: %v: %s", err, oneLine(out))
	}
	return nil
}

// writeData writes the data of a server to a folder, which is made, and belongs to as.
func writeData(dir string, files []file, as *syscall.Credential) error {
	for _, f := range files {
		name, err := filepath.Join(dir, f.path), error(nil)
		if f.mode.IsDir() {
			err = os.Mkdir(name, f.mode.Perm())
		} else {
			err = os.WriteFile(name, f.content, f.mode.Perm())
		}
		if err == nil {
			err = give(name, as)
		}
		if err != nil {
			return err
		}
	}
	return nil
}

// owner is who a server of PostgreSQL runs as; nil for who this process is.
func owner() (*syscall.Credential, error) {
	if os.Getuid() != 0 {
		return nil, nil
	}
	who, err := user.Lookup("postgres")
	if err != nil {
		return nil, err
	}
	uid, err := strconv.ParseUint(who.Uid, 10, 32)
	if err != nil {
		return nil, err
	}
	gid, err := strconv.ParseUint(who.Gid, 10, 32)
	return &syscall.Credential{Uid: uint32(uid), Gid: uint32(gid)}, err
}

// Folder makes a new folder for a server of PostgreSQL, in memory where that has room: a server makes and removes a thousand files at each start, which takes
// the system longer on a disk than all else that tests do with it. Its user may not go through the folders of a test.
func Folder() (string, error) {
	dir, err := os.MkdirTemp(memory(), "svid-postgres-")
	if err != nil {
		return "", err
	}
	return dir, Own(dir)
}

// memory is the folder of files that are in memory, if it has some GB free; else it is empty, which stands for that of temporary files.
func memory() string {
	const shm = "/dev/shm"
	var has syscall.Statfs_t
	if err := syscall.Statfs(shm, &has); err != nil || has.Bavail*uint64(has.Bsize) < 2<<30 {
		return ""
	}
	return shm
}

// Own gives a folder to who a server of PostgreSQL runs as.
func Own(dir string) error {
	as, err := owner()
	if err != nil {
		return err
	}
	return give(dir, as)
}

// give gives a file or a folder to a user; nil is who this process is.
func give(name string, as *syscall.Credential) error {
	if as == nil {
		return nil
	}
	return os.Chown(name, int(as.Uid), int(as.Gid))
}

// Command is a command of PostgreSQL, as the server's user.
func (s *Postgres) Command(name string, args ...string) *exec.Cmd {
	run := exec.Command(filepath.Join(postgresBin, name), args...)
	run.Dir = filepath.Dir(s.Dir)
	run.Env = append(append(os.Environ(), "LC_ALL=C"), s.Env...)
	run.SysProcAttr = &syscall.SysProcAttr{Credential: s.as}
	return run
}

// Start starts the server, for the first time or again, and waits until it runs: after a kill it can't before all its processes
// have ended.
func (s *Postgres) Start() error {
	for end := time.Now().Add(patience.Long); ; time.Sleep(20 * time.Millisecond) {
		log, err := os.OpenFile(filepath.Join(filepath.Dir(s.Dir), "log"), os.O_CREATE|os.O_APPEND|os.O_WRONLY, 0o644)
		if err != nil {
			return err
		}
		run := s.Command("postgres", s.args...)
		run.Stdout, run.Stderr = log, log
		err = s.start(run)
		log.Close()
		if err != nil {
			return fmt.Errorf("broker: %w: install Debian's postgresql", err)
		}
		ended := make(chan struct{})
		go func() { defer close(ended); run.Process.Wait() }()
		for !s.Answers() && time.Now().Before(end) {
			select {
			case <-ended:
			case <-time.After(20 * time.Millisecond):
				continue
			}
			break
		}
		if s.Answers() {
			return nil
		}
		s.run = nil
		if time.Now().After(end) {
			run.Process.Kill()
			return fmt.Errorf("broker: the server of PostgreSQL does not run: %s", s.said())
		}
	}
}

// end sends a signal, and waits until the server has ended.
func (s *Postgres) end(signal syscall.Signal) {
	if s.run == nil {
		return
	}
	pid := s.run.Process.Pid
	s.Resume()
	syscall.Kill(pid, signal)
	late := time.AfterFunc(patience.Long, func() {
		fmt.Fprintf(os.Stderr, "broker: waited %v for the end of the server in %s, which is killed\n", patience.Long, s.Dir)
		syscall.Kill(pid, syscall.SIGKILL)
	})
	defer late.Stop()
	for syscall.Kill(pid, 0) == nil {
		time.Sleep(5 * time.Millisecond)
	}
	s.run = nil
}

// Kill ends the server as kill -9 does.
func (s *Postgres) Kill() { s.end(syscall.SIGKILL) }

// End ends the server for good. A killed server leaves a segment of shared memory, which it would remove at its next start. A system has a few thousand.
func (s *Postgres) End() {
	s.Kill()
	held, err := os.ReadFile(filepath.Join(s.Dir, "postmaster.pid"))
	if err != nil {
		return // (a server that was stopped leaves nothing)
	}
	const removes, its = 0, 6 // (IPC_RMID, and the line of the file that names the segment)
	var key, id uintptr
	if lines := strings.Split(string(held), "\n"); len(lines) > its {
		if _, err := fmt.Sscan(lines[its], &key, &id); err == nil {
			syscall.Syscall(syscall.SYS_SHMCTL, id, removes, 0)
		}
	}
}

// said is the end of the server's log.
func (s *Postgres) said() string {
	said, _ := os.ReadFile(filepath.Join(filepath.Dir(s.Dir), "log"))
	if most := 1000; len(said) > most {
		said = said[len(said)-most:]
	}
	return oneLine(said)
}

// oneLine is a text as one line: tests of other languages read one, where a server does not start.
func oneLine(text []byte) string { return string(bytes.Join(bytes.Fields(text), []byte(" "))) }

// Stop ends the server as an administrator does, who does not wait for those that are connected.
func (s *Postgres) Stop() { s.end(syscall.SIGINT) }

// Answers says whether the server answers.
func (s *Postgres) Answers() bool { return s.Do("SELECT 1") == nil }

// Do sends a query, whose rows don't matter.
func (s *Postgres) Do(query string, values ...any) error {
	db, err := sql.Open("postgres", s.URL+"&connect_timeout=30")
	if err != nil {
		return err
	}
	defer db.Close()
	_, err = db.Exec(query, values...)
	return err
}
