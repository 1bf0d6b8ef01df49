package main

import (
	"errors"
	"flag"
	"fmt"
	"os"
	"path/filepath"
	"syscall"

	"svid.example/go/v3/journal"
	"svid.example/go/v3/svid"
)

// giveState is what to do about a path that is no state folder.
const giveState = "give the folder that serve has as --state"

// checkState says what a state folder holds, and where it is damaged. It changes nothing.
func checkState(args []string, std stdio) int {
	var asMessages bool
	f := flagsOf("check-state", func(f *flag.FlagSet) { f.BoolVar(&asMessages, "messages", false, "") })
	if err := parse(f, new(string), args); err != nil {
		return fail(std, err)
	}
	dir := f.Arg(0)
	if f.NArg() > 1 { // (options may stand behind the folder)
		if err := parseWords(f, f.Args()[1:]); err != nil {
			return fail(std, err)
		}
	}
	if dir == "" || f.NArg() > 1 || f.NArg() == 1 && f.Arg(0) != dir {
		return fail(std, errors.New("check-state wants one argument: "+giveState))
	}
	found, err := readState(dir)
	if err != nil {
		return fail(std, err)
	}
	if !found.HasID && len(found.Files) == 0 {
		fmt.Fprintf(std.err, "svidd: warning: no sidecar has ever started on %s: %s\n", hideTokens(dir), giveState)
	}
	write := writeState
	if asMessages {
		write = writeMessages
	}
	damaged, err := write(std, found)
	if err != nil {
		return fail(std, err)
	}
	if found.Fault != nil {
		_ = fail(std, found.Fault)
		if !errors.Is(found.Fault, svid.ErrDamaged) {
			return exitFailed
		}
		damaged = true
	}
	if damaged {
		return exitDamaged
	}
	return exitYes
}

// readState is what a state folder holds. Where a path is none, the error says what it is, and what to give.
func readState(dir string) (*journal.Report, error) {
	switch info, err := os.Stat(dir); {
	case errors.Is(err, os.ErrNotExist), errors.Is(err, syscall.ENOTDIR):
		return nil, fmt.Errorf("%s is not there: %s", dir, giveState)
	case err == nil && !info.IsDir():
		return nil, fmt.Errorf("%s is no folder: %s", dir, giveState)
	}
	found, err := journal.Check(dir)
	switch {
	case errors.Is(err, os.ErrPermission):
		return nil, fmt.Errorf("%w: run this as the user that svidd runs as", err)
	case err != nil || found.HasID || len(found.Files) > 0:
		return found, err
	}
	// A sidecar has never started there. It may be a new folder, where a start makes what it needs.
	entries, err := os.ReadDir(dir)
	if err != nil {
		return nil, err
	}
	for _, it := range entries {
		switch it.Name() {
		case "lock", "place.new", "lost+found": // of a start that did not come far, and of a new file system
		default:
			return nil, fmt.Errorf("%s is no state folder, since it has %.40q and no file place: %s", dir, it.Name(), giveState)
		}
	}
	return found, nil
}

// writeState writes a line for the validator ID, one for the bucket if the folder says how far that was read, and one for each file. It tells whether one of them holds what is no message.
func writeState(std stdio, found *journal.Report) (damaged bool, err error) {
	id := found.ValidatorID.String()
	if !found.HasID {
		id = "is missing"
	}
	if _, err := fmt.Fprintf(std.out, "place %s\n", id); err != nil || !found.HasID && found.Fault != nil {
		return false, err
	}
	if found.InLog {
		if _, err := fmt.Fprintln(std.out, logOf(found.Log)); err != nil {
			return false, err
		}
	}
	for _, f := range found.Files {
		uses, err := svid.Uses(f.Messages)
		says := counted(len(uses), "use")
		if err != nil {
			says, damaged = fmt.Sprintf("what it bears is no message: %v", err), true
		}
		if _, err := fmt.Fprintf(std.out, "%s: %s: %s, %s\n", filepath.Base(f.Name), stateOf(f), says, counted(f.Length, "byte")); err != nil {
			return false, err
		}
	}
	return damaged, nil
}

// logOf is where the validator was in the group's bucket as the folder was written last.
func logOf(mark svid.Mark) string {
	says := fmt.Sprintf("bucket read up to value %d", mark.Passed)
	if mark.Deaf > 0 {
		says += fmt.Sprintf(", and no token is accepted before %d", mark.Deaf)
	}
	return says
}

// stateOf is how a file ends, and what it consists of.
func stateOf(f *journal.File) string {
	end := "whole"
	var other *svid.FormatError
	switch {
	case f.Torn():
		end = fmt.Sprintf("torn at byte %d, and nobody was answered for the %s there", f.At, counted(f.Rest, "byte"))
	case errors.As(f.Fault, &other):
		end = fmt.Sprintf("format %d at byte %d", other.Format, f.At)
	case f.Fault != nil:
		end = fmt.Sprintf("damaged at byte %d", f.At)
	}
	if f.Old {
		return end + ": the format of older versions"
	}
	return fmt.Sprintf("%s: %s, %s", end, counted(f.Frames, "frame"), counted(f.Marks, "mark"))
}

// counted is a number of things, as "1 frame" or "2 frames".
func counted(n int, thing string) string {
	if n == 1 {
		return "1 " + thing
	}
	return fmt.Sprintf("%d %ss", n, thing)
}

// writeMessages writes all messages.
func writeMessages(std stdio, found *journal.Report) (damaged bool, err error) {
	for _, f := range found.Files {
		if _, err := std.out.Write(f.Messages); err != nil {
			return false, err
		}
	}
	return false, nil
}
