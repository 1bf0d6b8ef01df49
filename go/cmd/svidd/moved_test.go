package main

import (
	"fmt"
	"os"
	"path/filepath"
	"strings"
	"syscall"
	"testing"
	"time"
)

// moves are ways to make the path of a state folder lead elsewhere while svidd runs.
var moves = map[string]func(t *testing.T, state string){
	"removed": func(t *testing.T, state string) { must(t, os.RemoveAll(state)) },
	"moved":   func(t *testing.T, state string) { must(t, os.Rename(state, state+".old")) },
	"emptied": func(t *testing.T, state string) {
		files, err := filepath.Glob(filepath.Join(state, "*"))
		must(t, err)
		for _, file := range files {
			must(t, os.Remove(file))
		}
	},
	"mounted over": func(t *testing.T, state string) {
		must(t, syscall.Mount(t.TempDir(), state, "", syscall.MS_BIND, ""))
		t.Cleanup(func() { _ = syscall.Unmount(state, syscall.MNT_DETACH) })
	},
}

func must(t *testing.T, err error) {
	t.Helper()
	if err != nil {
		t.Fatal(err)
	}
}

// A sidecar of mode once whose state folder was removed, moved, emptied or mounted over accepts nothing any more, though its file is
// still open: a second one may have begun at the same path, and no token gets 200 of both. Its log says so once.
func TestAStateFolderThatIsMoved(t *testing.T) {
	t.Parallel()
	for what, move := range moves {
		what, move := what, move
		t.Run(what, func(t *testing.T) {
			t.Parallel()
			bundle, state := bundleOption(bundleFile(t, example)), filepath.Join(t.TempDir(), "state")
			first := start(t, bundle, "--state", state)
			first.want(token(t, "before", lasting), 200, "")
			move(t, state)
			first.want(token(t, "at once", lasting), 503, "NotKept")
			second := start(t, bundle, "--state", state)
			accepted := 0
			for i := 0; i < 20; i++ {
				both := token(t, fmt.Sprint("both", i), lasting)
				order := []*process{first, second}
				if i%2 == 1 {
					order = []*process{second, first}
				}
				ok := 0
				for _, p := range order {
					if status, _, _ := p.check(both); status == 200 {
						ok++
					}
				}
				if ok > 1 {
					t.Errorf("a token got 200 %d times", ok)
				}
				accepted += ok
			}
			if accepted == 0 {
				t.Error("the second sidecar accepts nothing")
			}
			first.await("its reason", func() bool {
				status, body := first.get("/readyz")
				return status == 503 && strings.HasPrefix(body, "the state folder is no longer at its path")
			})
			first.await("the log", func() bool { return len(first.events("unready")) > 0 })
			look := time.Now()
			first.await("more looks", func() bool { return time.Since(look) > 2500*time.Millisecond })
			if lines := first.events("unready"); len(lines) != 1 || !strings.Contains(fmt.Sprint(lines[0]["error"]), "put the folder back") {
				t.Errorf("the log: %v", lines)
			}
			if status, body := second.get("/readyz"); status != 200 {
				t.Errorf("the second sidecar: %d %q", status, body)
			}
			second.end()
		})
	}
}
