package main

import (
	"bytes"
	"fmt"
	"net/http"
	"os"
	"os/exec"
	"path/filepath"
	"regexp"
	"strings"
	"sync"
	"syscall"
	"testing"
	"time"

	"svid.example/go/v3/internal/broker"
	"svid.example/go/v3/internal/issuer"
	"svid.example/go/v3/internal/patience"
)

// rowWait is --wait of the sidecars of the table.
const rowWait = 2 * time.Second

// A row is one of the table in docs/SIDECAR-REFERENCE.md, "What /readyz says".
type row struct {
	state, mode          string
	check, reason        string // the status, and the word of a 503
	ready, says, why     string // the status, what the body has, and what it has too
	checkCell, readyCell string
}

// whys are the states that stand in one row of the table, each with what /readyz says of it beside what the row has.
var whys = map[string]map[string]string{
	"There is no trust bundle": {
		"No bundle was read yet":                             "there is no trust bundle: example.org: no such file or directory",
		"The file of the bundle is no JSON":                  "there is no trust bundle: example.org: it is no JSON object",
		"The file has bundles of several trust domains":      `there is no trust bundle: example.org: it has no member "keys"`,
		"The file of the bundle has more than 1 MiB":         "there is no trust bundle: example.org: it has more than 1048576 bytes",
		"The server of the bundle does not answer":           "connection refused",
		"The server of the bundle shows another certificate": "certificate signed by unknown authority",
		"The Workload API does not answer":                   "there is no trust bundle: the Workload API: dial unix",
		"The Workload API knows no such workload":            "there is no trust bundle: the Workload API: it has no identity for this process",
		"The last bundle is gone from its folder":            "there is no trust bundle",
	},
	"No key of the bundles can be used": {
		"The list of keys of the bundle is empty":                          "its list of keys is empty",
		"The keys of the bundle have no `use`, as those of an OIDC issuer": `no entry of it has the use "jwt-svid": it has no use`,
		"The keys of the bundle have a `use` that is another":              `no entry of it has the use "jwt-svid": its use is not "jwt-svid"`,
		"The keys of the bundle are for X.509-SVIDs alone":                 `no entry of it has the use "jwt-svid": it is for X.509-SVIDs`,
		"The keys of the bundle are of another type":                       "its kty is neither RSA nor EC",
		"The RSA keys of the bundle are longer than `--rsa-bits`":          "the key's n has more than the 4096 bits that were chosen",
		"The RSA keys of the bundle are too short":                         "the key's n has fewer than 2048 bits",
		"The points of the keys are not on their curves":                   "no key of it can be used: unusable key: x509",
	},
	"The store does not answer for longer": {
		"The store has been away for longer": "the group's store does not answer",
		"The store hangs":                    "the group's store does not answer",
		"Redis is full":                      "the group's store does not answer, so no token can be claimed: the server answered: OOM",
		"Redis takes no writes":              "the group's store does not answer, so no token can be claimed: the server answered: NOREPLICAS",
		"Redis has taken the rights":         "the server answered: NOPERM", // (of one command or another)
		"PostgreSQL is away":                 "the group's store does not answer",
		"PostgreSQL takes no writes":         "the group's store does not answer, so no token can be claimed: the server is a standby",
		"NATS is away":                       "the group's store does not answer",
	},
}

var tableCell = regexp.MustCompile("^(?:([0-9]{3})(?: `([^`]*)`)?|waits)")

// readyRows reads the table: a row for each state and mode. A row of it has several states by `; `, or by whys.
func readyRows(t *testing.T) (all []row) {
	t.Helper()
	text, err := os.ReadFile("../../../docs/SIDECAR-REFERENCE.md")
	if err != nil {
		t.Fatal(err)
	}
	_, text, found := bytes.Cut(text, []byte("\n### What `/readyz` says\n"))
	if !found {
		t.Fatal("docs/SIDECAR-REFERENCE.md has no such heading")
	}
	for _, line := range strings.Split(string(text), "\n") {
		if strings.HasPrefix(line, "#") {
			break
		}
		cells := strings.Split(strings.Trim(line, "|"), " | ")
		if len(cells) != 4 || !strings.HasPrefix(line, "| ") || strings.HasPrefix(line, "| state ") {
			continue
		}
		check, ready := tableCell.FindStringSubmatch(cells[2]), tableCell.FindStringSubmatch(cells[3])
		if check == nil || ready == nil {
			t.Fatalf("a row that says no status: %s", line)
		}
		modes := strings.Split(strings.ReplaceAll(cells[1], "`", ""), ", ")
		if cells[1] == "all" {
			modes = []string{"once", "strict", "bound", "reuse"}
		}
		for _, state := range strings.Split(strings.TrimSpace(cells[0]), "; ") {
			states := whys[state]
			if states == nil {
				states = map[string]string{state: ""}
			}
			for state, why := range states {
				for _, mode := range modes {
					all = append(all, row{state, mode, check[1], check[2], ready[1], ready[2], why, cells[2], cells[3]})
				}
			}
		}
	}
	return all
}

// A stage is where a row is played: a sidecar that is not started yet, with a bundle, a state folder and a group.
type stage struct {
	*process
	mode   string
	store  storeServer    // of its group, where it has one
	domain string         // of its tokens
	of     *issuer.Issuer // signs them
}

// newStage prepares a sidecar of a mode. In modes strict and bound it has a store, and in once a state folder. Who calls in bound, a header says that
// each client here sends.
func newStage(t *testing.T, mode, bundles string, more ...string) *stage {
	t.Helper()
	s := &stage{mode: mode, domain: "example.org", of: example}
	args := append([]string{bundles, "--replay", mode, "--wait", rowWait.String(), "--admin", filepath.Join(shortFolder(t), "admin.sock")}, more...)
	given := strings.Join(more, " ")
	if mode == "bound" {
		args = append(args, "--caller", "header:User-Agent")
	}
	if (mode == "strict" || mode == "bound") && !strings.Contains(given, "--store") {
		_, url := stores["Redis"](t)
		args = append(args, "--store", url)
	}
	if mode == "once" && !strings.Contains(given, "--state") {
		args = append(args, "--state", filepath.Join(t.TempDir(), "state"))
	}
	s.process = prepare(t, nil, args...)
	return s
}

// shortFolder is a folder for a unix socket, whose path is short: t.TempDir has the name of the test.
func shortFolder(t *testing.T) string {
	t.Helper()
	folder, err := os.MkdirTemp("", "svidd")
	must(t, err)
	t.Cleanup(func() { must(t, os.RemoveAll(folder)) })
	return folder
}

// inGroup is a stage with a store, in each mode.
func inGroup(t *testing.T, mode string, more ...string) *stage {
	server, url := stores["Redis"](t)
	s := newStage(t, mode, bundleOption(bundleFile(t, example)), append([]string{"--store", url}, more...)...)
	s.store = server
	return s
}

// plays bring a sidecar into each state of the table.
var plays = map[string]func(t *testing.T, mode string) *stage{
	"No bundle was read yet": func(t *testing.T, mode string) *stage {
		s := newStage(t, mode, bundleOption(filepath.Join(t.TempDir(), "none.json")))
		s.launch()
		return s
	},
	"The group's store was not reached yet": func(t *testing.T, mode string) *stage {
		s := newStage(t, mode, bundleOption(bundleFile(t, example)), "--store", "redis://"+freeAddress(t))
		s.launch()
		return s
	},
	"The group's log was not reached yet": func(t *testing.T, mode string) *stage {
		s := newStage(t, mode, bundleOption(bundleFile(t, example)), "--nats", "nats://"+freeAddress(t))
		s.launch()
		return s
	},
	"The token's bundle was not read yet, and another one was": func(t *testing.T, mode string) *stage {
		s := newStage(t, mode, bundleOption(bundleFile(t, example)), "--bundle=example.com="+filepath.Join(t.TempDir(), "none.json"))
		var err error
		if s.of, err = issuer.New("example.com"); err != nil {
			t.Fatal(err)
		}
		s.domain = "example.com"
		s.start()
		return s
	},
	"The last bundle is gone from its folder": func(t *testing.T, mode string) *stage {
		folder := t.TempDir()
		name := filepath.Join(folder, "example.org.json")
		writeBundle(t, name, example)
		s := newStage(t, mode, "--bundles="+folder)
		s.start()
		if err := os.Remove(name); err != nil {
			t.Fatal(err)
		}
		s.hangUp()
		return s
	},
	"A bundle can't be read again, or is past its refresh hint": func(t *testing.T, mode string) *stage {
		name := bundleFile(t, example)
		s := newStage(t, mode, bundleOption(name))
		s.start()
		if err := os.WriteFile(name, []byte("{"), 0o600); err != nil {
			t.Fatal(err)
		}
		s.hangUp()
		s.await("the bad bundle", func() bool { return strings.Contains(s.log.String(), "the last good one stays") })
		return s
	},
	"The disk is full": func(t *testing.T, mode string) *stage {
		disk := smallDisk(t)
		s := newStage(t, mode, bundleOption(bundleFile(t, example)), "--state", filepath.Join(disk, "state"))
		s.start()
		s.end()
		fill(t, filepath.Join(disk, "other"))
		s.launch()
		return s
	},
	"A sync has failed": func(t *testing.T, mode string) *stage {
		state := filepath.Join(t.TempDir(), "state")
		s := newStage(t, mode, bundleOption(bundleFile(t, example)), "--state", state)
		s.start()
		s.failSync()
		return s
	},
	"The state folder was removed, moved or mounted over": func(t *testing.T, mode string) *stage {
		state := filepath.Join(t.TempDir(), "state")
		s := newStage(t, mode, bundleOption(bundleFile(t, example)), "--state", state)
		s.start()
		must(t, os.Rename(state, state+".old"))
		return s
	},
	"The disk hangs": func(t *testing.T, mode string) *stage {
		s := newStage(t, mode, bundleOption(bundleFile(t, example)), "--state", filepath.Join(t.TempDir(), "state"))
		s.more = []string{asSvidd + "=1"}
		s.program = hanging(t, "fdatasync")
		s.start()
		s.write("first") // Only a write shows it.
		return s
	},
	"The store has been away for less than `--wait`": func(t *testing.T, mode string) *stage {
		s := inGroup(t, mode, "--wait", "1h")
		s.start()
		s.store.Kill()
		s.await("the loss", func() bool { return s.metric("svidd_store_connected") == "0" })
		return s
	},
	"The store has been away for longer": func(t *testing.T, mode string) *stage {
		s := inGroup(t, mode)
		s.start()
		s.store.Kill()
		return s
	},
	"The store hangs": func(t *testing.T, mode string) *stage {
		s := inGroup(t, mode)
		s.start()
		redis := s.store.(*broker.Redis)
		if err := syscall.Kill(redis.Pid(), syscall.SIGSTOP); err != nil {
			t.Fatal(err)
		}
		t.Cleanup(func() { _ = syscall.Kill(redis.Pid(), syscall.SIGCONT) })
		s.await("the store to stop", func() bool { return isStopped(redis.Pid()) })
		return s
	},
	"The store has lost entries": func(t *testing.T, mode string) *stage {
		s := inGroup(t, mode)
		s.start()
		if _, err := s.store.(*broker.Redis).Do("FLUSHALL"); err != nil {
			t.Fatal(err)
		}
		s.await("the loss", func() bool { return s.metric("svidd_store_epochs_total") != "0" })
		return s
	},
	"The clock has jumped ahead": func(t *testing.T, mode string) *stage {
		file := filepath.Join(t.TempDir(), "ahead")
		s := newStage(t, mode, bundleOption(bundleFile(t, example)))
		s.more = []string{jumpedBy + "=" + file}
		s.start()
		if err := os.WriteFile(file, []byte("100000"), 0o600); err != nil {
			t.Fatal(err)
		}
		return s
	},
	"It drains (`--drain`)": func(t *testing.T, mode string) *stage {
		s := newStage(t, mode, bundleOption(bundleFile(t, example)), "--drain", "1h")
		s.start()
		if err := s.signal(syscall.SIGTERM); err != nil {
			t.Fatal(err)
		}
		return s
	},
}

// token is a new one that would be accepted.
func (s *stage) token(id string) string {
	return s.of.Token("ES256", map[string]any{
		"sub": "spiffe://" + s.domain + "/web", "aud": "ledger", "exp": time.Now().Add(lasting).Unix(), "jti": id,
	})
}

// write lets the state folder be written to: by an acceptance, or by a withdrawal in modes bound and reuse, which keep no acceptance.
func (s *stage) write(id string) {
	if s.mode == "bound" || s.mode == "reuse" {
		s.withdraw(s.token(id))
		return
	}
	s.check(s.token(id))
}

// withdraw withdraws a token, or fails.
func (p *process) withdraw(token string) {
	_, _, _ = svidd(p.t, "", "withdraw", "--admin", p.option("--admin"), token)
}

// hangUp lets the bundles be read again.
func (s *stage) hangUp() {
	s.t.Helper()
	if err := s.signal(syscall.SIGHUP); err != nil {
		s.t.Fatal(err)
	}
}

// Each row of the table in docs/SIDECAR-REFERENCE.md is so. /readyz says it before a token is asked, and goes on saying it.
func TestReadyzTable(t *testing.T) {
	t.Parallel()
	if isAgain := asRoot(t); isAgain {
		return
	}
	played := map[string]bool{}
	var mu sync.Mutex
	var without []unready // sidecars that no token can be accepted by
	rows := readyRows(t)
	t.Run("rows", func(t *testing.T) { // (and after all of them, the alerts)
		for _, r := range rows {
			r := r
			played[r.state] = true
			play := plays[r.state]
			if play == nil {
				t.Errorf("nothing plays the state %q", r.state)
				continue
			}
			t.Run(r.mode+"/"+r.state, func(t *testing.T) {
				t.Parallel() // (most of the time it waits)
				s := play(t, r.mode)
				var status int
				var body string
				isSo := func() bool {
					status, body = s.get("/readyz")
					return fmt.Sprint(status) == r.ready && strings.Contains(body, r.says) && strings.Contains(body, r.why)
				}
				from, h := time.Now(), hurry()
				s.await("/readyz to say "+r.readyCell+": "+r.why, isSo)
				within := soon
				if !strings.Contains(r.reason, "NotReady") {
					within += rowWait // So long a request waits for what is away.
				}
				if took, lost := time.Since(from), h.end(); took > within && lost < took/20 {
					t.Errorf("/readyz says it %v after that it is so", took)
				}
				if strings.Contains(body, "127.0.0.1") {
					t.Errorf("/readyz names an address: %s", body)
				}
				if r.ready == "503" {
					_, page := s.get("/metrics")
					mu.Lock()
					without = append(without, unready{r.mode + ": " + r.state, page})
					mu.Unlock()
				}
				if status, body := s.get("/healthz"); status != 200 {
					t.Errorf("/healthz: %d %s", status, body)
				}
				if want := map[bool]string{true: "1", false: "0"}[r.ready == "200"]; s.metric("svidd_ready") != want {
					t.Errorf("svidd_ready is not %s", want)
				}
				if r.check != "" {
					if r.check == "200" { // (on a busy machine the first ones may wait for too long)
						n := 0
						s.await("a token that is accepted", func() bool {
							n++
							status, _, _ := s.check(s.token(fmt.Sprint("first", n)))
							return status == 200
						})
					}
					for i := 0; i < 2; i++ {
						s.want(s.token(fmt.Sprint("row", i)), map[string]int{"200": 200, "403": 403, "503": 503}[r.check], r.reason)
					}
				}
				if r.reason != "NotReady" && r.reason != "ClockJump" && r.reason != "NoMemory" {
					s.want("a.b.c", 401, "HeaderSpelling")
				}
				if !isSo() {
					t.Errorf("/readyz says %d %s after these tokens", status, body)
				}
			})
		}
	})
	reasons := map[string]bool{}
	for _, r := range rows {
		if r.ready == "503" && r.check == "503" {
			reasons[r.says+r.why] = true
		}
	}
	t.Logf("%d states of %d sidecars in which no token can be accepted, with %d reasons", len(plays), len(without), len(reasons))
	if len(reasons) < 25 {
		t.Errorf("only %d reasons", len(reasons))
	}
	wantAlerts(t, without)
	for state := range plays {
		if !played[state] {
			t.Errorf("docs/SIDECAR-REFERENCE.md does not have the state %q", state)
		}
	}
}

// A disk that fills up while tokens come, and gets room again: /readyz says both, and all goes on without a restart.
func TestADiskThatIsFullForAWhile(t *testing.T) {
	t.Parallel()
	if isAgain := asRoot(t); isAgain {
		return
	}
	disk := smallDisk(t)
	s := newStage(t, "once", bundleOption(bundleFile(t, example)), "--state", filepath.Join(disk, "state"))
	s.start()
	other := filepath.Join(disk, "other")
	fill(t, other)
	s.want(s.token("room that it has"), 200, "")
	accepted := 0
	for isReady := true; isReady; accepted++ {
		if accepted > 10_000 {
			t.Fatal("the disk never fills up")
		}
		status, _, _ := s.check(s.token(fmt.Sprint(accepted)))
		ready, _ := s.get("/readyz")
		if isReady = ready == http.StatusOK; isReady && status != http.StatusOK {
			t.Errorf("token %d: %d, and it is ready", accepted, status)
		}
	}
	if err := os.Remove(other); err != nil {
		t.Fatal(err)
	}
	s.await("room", func() bool { status, _ := s.get("/readyz"); return status == http.StatusOK })
	s.want(s.token("after it"), 200, "")
	s.end()
}

// A token that is asked while the store is away for a short time waits for it, and is accepted.
func TestAStoreThatIsAwayForAShortTime(t *testing.T) {
	t.Parallel()
	server, url := stores["Redis"](t)
	s := newStage(t, "strict", bundleOption(bundleFile(t, example)), "--store", url, "--wait", longWait)
	s.start()
	server.Kill()
	s.await("the loss", func() bool { return s.metric("svidd_store_connected") == "0" })
	answer := make(chan int)
	go func() {
		status, _, _ := s.check(s.token("waits"))
		answer <- status
	}()
	if status, body := s.get("/readyz"); status != http.StatusOK {
		t.Errorf("/readyz: %d %s", status, body)
	}
	if err := server.Start(); err != nil {
		t.Fatal(err)
	}
	if status := <-answer; status != http.StatusOK {
		t.Errorf("%d", status)
	}
}

// asRoot runs a test once more, in namespaces where it may mount, unless it may already.
func asRoot(t *testing.T) (again bool) {
	t.Helper()
	if os.Getuid() == 0 {
		return false
	}
	said, err := exec.Command("unshare", "--user", "--map-root-user", "--mount", os.Args[0], "-test.v", "-test.run=^"+t.Name()+"$").CombinedOutput()
	t.Logf("%s", said)
	if err != nil {
		t.Errorf("as root: %v", err)
	}
	return true
}

// smallDisk is a folder with a disk of its own, of a megabyte.
func smallDisk(t *testing.T) string {
	t.Helper()
	folder := t.TempDir()
	if err := syscall.Mount("svidd", folder, "tmpfs", 0, "size=1m"); err != nil {
		t.Fatalf("mount: %v", err)
	}
	t.Cleanup(func() { _ = syscall.Unmount(folder, syscall.MNT_DETACH) })
	return folder
}

// fill writes a file until the disk is full.
func fill(t *testing.T, name string) {
	t.Helper()
	f, err := os.Create(name)
	if err != nil {
		t.Fatal(err)
	}
	defer f.Close()
	for piece := make([]byte, 4096); err == nil; {
		_, err = f.Write(piece)
	}
	if pathError, ok := err.(*os.PathError); !ok || pathError.Err != syscall.ENOSPC {
		t.Fatal(err)
	}
}

// failSync lets an fdatasync of svidd fail. In mode once that is the sync of a mark, for which no request waits: it comes a second
// after an acceptance.
func (s *stage) failSync() {
	s.t.Helper()
	for end := time.Now().Add(3 * patience.Long); time.Now().Before(end); {
		s.want(s.token(fmt.Sprint(time.Now().UnixNano())), 200, "")
		strace := exec.Command("strace", "-f", "--quiet=all", "--output=/dev/null", "--trace=fdatasync", "--inject=fdatasync:error=EIO", "-p", fmt.Sprint(s.run.Process.Pid))
		if err := strace.Start(); err != nil {
			s.t.Fatalf("a disk that fails is made by strace: %v", err)
		}
		failed := s.failedSync()
		_ = strace.Process.Signal(syscall.SIGTERM) // It lets go of svidd.
		_ = strace.Wait()
		if failed {
			return
		}
	}
	s.t.Fatalf("no sync failed in %v\n%s", 3*patience.Long, s.log)
}

// failedSync waits for what shows that a sync has failed, for some seconds.
func (s *stage) failedSync() bool {
	for end := time.Now().Add(5 * time.Second); time.Now().Before(end); time.Sleep(10 * time.Millisecond) {
		if s.mode == "once" {
			if status, _ := s.get("/readyz"); status == http.StatusServiceUnavailable {
				return true
			}
			continue
		}
		s.write(fmt.Sprint(time.Now().UnixNano()))
		if s.metric("svidd_journal_failures_total") != "0" {
			return true
		}
	}
	return false
}
