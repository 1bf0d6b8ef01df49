package broker

import (
	"fmt"
	"os"
	"os/exec"
	"path/filepath"
	"reflect"
	"strconv"
	"strings"
	"syscall"
	"time"

	"svid.example/go/v3/internal/patience"
)

// A process is a server that runs, with what it has started.
type process struct{ run *exec.Cmd }

func (p *process) start(run *exec.Cmd) error {
	if err := run.Start(); err != nil {
		return err
	}
	p.run = run
	return nil
}

// Pid is the server's process, and 0 where it does not run.
func (p *process) Pid() int {
	if p.run == nil {
		return 0
	}
	return p.run.Process.Pid
}

// end sends a signal, and waits until the server has ended.
func (p *process) end(signal syscall.Signal) {
	if p.run != nil {
		p.run.Process.Signal(signal)
		p.run.Process.Signal(syscall.SIGCONT)
		await(p.run)
		p.run = nil
	}
}

// await waits until a server has ended. One that does not end is killed, and a line says so.
func await(run *exec.Cmd) {
	late := time.AfterFunc(patience.Long, func() {
		fmt.Fprintf(os.Stderr, "broker: waited %v for the end of %s, which is killed\n", patience.Long, run)
		run.Process.Kill()
	})
	defer late.Stop()
	run.Wait()
}

// Kill ends the server as kill -9 does, with all that it has started, which else writes to its folder for a while. Of a server
// that does not run it does nothing.
func (p *process) Kill() {
	if p.run == nil {
		return
	}
	stop(p.run.Process.Pid) // From here on it starts nothing.
	started := Children(p.run.Process.Pid)
	p.end(syscall.SIGKILL)
	for _, pid := range started {
		syscall.Kill(pid, syscall.SIGKILL)
	}
	for _, pid := range started {
		for isRunning(pid) {
			time.Sleep(time.Millisecond) // Nothing tells of the end of a process that another one has started.
		}
	}
}

// isRunning says whether a process has not ended yet.
func isRunning(pid int) bool {
	state := stateOf(pid)
	return state != "" && state != "Z"
}

// stateOf is the letter by which Linux says what a process does; "" where there is none.
func stateOf(pid int) string {
	text, err := os.ReadFile(fmt.Sprintf("/proc/%d/stat", pid))
	_, rest, _ := strings.Cut(string(text), ") ")
	if err != nil || rest == "" {
		return ""
	}
	return rest[:1]
}

// stop stops a process, and returns once it does nothing more, or has ended. (A signal reaches a process that waits for a disk after that.)
func stop(pid int) {
	syscall.Kill(pid, syscall.SIGSTOP)
	for look, end := patience.Looks(), time.Now().Add(patience.Long); isRunning(pid) && stateOf(pid) != "T" && time.Now().Before(end); look() {
	}
}

// Pause stops the server and what it has started, as SIGSTOP does, until Resume.
func (p *process) Pause() {
	if p.run == nil {
		return
	}
	stop(p.run.Process.Pid) // From here on it starts nothing.
	for _, pid := range Children(p.run.Process.Pid) {
		stop(pid)
	}
}

// Resume lets a server go on that was paused.
func (p *process) Resume() {
	if p.run == nil {
		return
	}
	p.run.Process.Signal(syscall.SIGCONT)
	for _, pid := range Children(p.run.Process.Pid) {
		syscall.Kill(pid, syscall.SIGCONT)
	}
}

// Children are the processes that one has started. (To look at all processes of the machine takes a hundred times as long.)
func Children(parent int) []int {
	if _, err := os.Stat("/proc/thread-self/children"); err != nil {
		return childrenOfAll(parent)
	}
	// (the kernel's list may lack one while another one ends: so two must be equal)
	for all := childrenListed(parent); ; {
		again := childrenListed(parent)
		if reflect.DeepEqual(all, again) {
			return all
		}
		all = again
	}
}

// childrenListed are those that the kernel lists by the threads that started them.
func childrenListed(parent int) (pids []int) {
	lists, _ := filepath.Glob(fmt.Sprintf("/proc/%d/task/*/children", parent))
	for _, name := range lists {
		text, err := os.ReadFile(name)
		if err != nil {
			continue // The thread has ended.
		}
		for _, word := range strings.Fields(string(text)) {
			pid, _ := strconv.Atoi(word)
			pids = append(pids, pid)
		}
	}
	return pids
}

// childrenOfAll are those of all processes of the machine that one has started, where the kernel has no lists of them.
func childrenOfAll(parent int) (pids []int) {
	files, _ := filepath.Glob("/proc/[0-9]*/stat")
	for _, name := range files {
		text, err := os.ReadFile(name)
		if err != nil {
			continue // It has ended.
		}
		_, rest, ok := strings.Cut(string(text), ") ")
		fields := strings.Fields(rest)
		if ok && len(fields) > 1 && fields[1] == fmt.Sprint(parent) {
			pid, _ := strconv.Atoi(filepath.Base(filepath.Dir(name)))
			pids = append(pids, pid)
		}
	}
	return pids
}
