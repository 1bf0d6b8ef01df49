package main

import (
	"bufio"
	"bytes"
	"encoding/json"
	"fmt"
	"io"
	"net/http"
	"os"
	"os/exec"
	"path/filepath"
	"regexp"
	"strconv"
	"strings"
	"sync"
	"syscall"
	"testing"
	"time"

	"svid.example/go/v3/internal/broker"
	"svid.example/go/v3/internal/issuer"
	"svid.example/go/v3/internal/patience"
	"svid.example/go/v3/internal/scarce"
	"svid.example/go/v3/svid"
)

// asSvidd, in the environment, lets the test's own binary be the program svidd.
const asSvidd = "SVIDD_TEST_IS_SVIDD"

// jumpedBy, in the environment, names a file that says how many seconds svidd's clock is ahead of this machine's. (Nothing else can
// set the clock of one process.)
const jumpedBy = "SVIDD_TEST_CLOCK"

// starvedBy, in the environment, names a pipe. Once a test opens it, the system refuses svidd memory.
const starvedBy = "SVIDD_TEST_MEMORY"

// inHaste, in the environment, lets svidd wait for a moment where it would for seconds: for a disk that hangs at its end, and before it says why a store
// is not reached.
const inHaste = "SVIDD_TEST_IN_HASTE"

// starve waits until somebody opens the pipe.
func starve(pipe string) {
	if _, err := os.OpenFile(pipe, os.O_RDONLY, 0); err != nil {
		panic(err)
	}
	scarce.Everywhere()
}

func aheadBy(file string) uint64 {
	text, err := os.ReadFile(file)
	if err != nil {
		return 0
	}
	ahead, err := strconv.ParseUint(strings.TrimSpace(string(text)), 10, 64)
	if err != nil {
		panic(err)
	}
	return ahead
}

func TestMain(m *testing.M) {
	if os.Getenv(asSvidd) != "" {
		if name := os.Getenv(jumpedBy); name != "" {
			clock = func() uint64 { return svid.Now() + aheadBy(name) }
		}
		if pipe := os.Getenv(starvedBy); pipe != "" {
			go starve(pipe)
		}
		if os.Getenv(inHaste) != "" {
			endWait, unreachedPause = time.Second, 100*time.Millisecond
		}
		os.Exit(run(os.Args[1:], stdio{os.Stdin, os.Stdout, os.Stderr}))
	}
	var err error
	if example, err = issuer.New("example.org"); err != nil {
		panic(err)
	}
	os.Exit(m.Run())
}

// example signs the tokens of the tests. A test's binary that is svidd has none: an RSA key takes it longer than its start.
var example *issuer.Issuer

// lasting is how long a token of a test lives that is to be good until its end, on a machine that does much else, too.
const lasting = 30 * time.Minute

// token is a new token for the audience ledger that lives for so long.
func token(t testing.TB, id string, life time.Duration) string {
	t.Helper()
	return example.Token("ES256", map[string]any{
		"sub": "spiffe://example.org/web", "aud": []string{"other", "ledger"},
		"exp": time.Now().Add(life).Unix(), "jti": id,
	})
}

// bundleFile writes the issuer's keys as a bundle, with an entry that signs no token, as SPIRE's has.
func bundleFile(t testing.TB, i *issuer.Issuer) string {
	t.Helper()
	name := filepath.Join(t.TempDir(), "bundle.json")
	writeBundle(t, name, i)
	return name
}

func writeBundle(t testing.TB, name string, i *issuer.Issuer) {
	t.Helper()
	var set struct {
		Keys []map[string]any `json:"keys"`
	}
	if err := json.Unmarshal(i.JWKSet(), &set); err != nil {
		t.Fatal(err)
	}
	set.Keys = append(set.Keys, map[string]any{"use": "x509-svid", "kty": "EC", "x5c": []string{"AAAA"}})
	text, err := json.Marshal(set)
	if err != nil {
		t.Fatal(err)
	}
	if err := os.WriteFile(name+".new", text, 0o600); err != nil {
		t.Fatal(err)
	}
	if err := os.Rename(name+".new", name); err != nil {
		t.Fatal(err)
	}
}

// A process is a running svidd.
type process struct {
	t       testing.TB
	program []string // what runs svidd with its words behind: the test's own binary where empty
	args    []string
	more    []string // of its environment
	address string
	run     *exec.Cmd
	log     *lines
	stderr  *os.File // takes the log where it is not nil
	client  *http.Client
}

// lines is a log that can be read while it is written.
type lines struct {
	mu   sync.Mutex
	text bytes.Buffer
}

func (l *lines) Write(b []byte) (int, error) {
	l.mu.Lock()
	defer l.mu.Unlock()
	return l.text.Write(b)
}

func (l *lines) String() string {
	l.mu.Lock()
	defer l.mu.Unlock()
	return l.text.String()
}

// start starts svidd serve on a free port, and waits until it is ready.
func start(t testing.TB, args ...string) *process {
	t.Helper()
	return startBy(t, nil, args...)
}

// startBy starts it by another program.
func startBy(t testing.TB, program []string, args ...string) *process {
	t.Helper()
	p := prepare(t, program, args...)
	p.start()
	return p
}

// prepare gives a process its command line, and lets it end with the test.
func prepare(t testing.TB, program []string, args ...string) *process {
	t.Helper()
	p := &process{t: t, program: program, address: freeAddress(t), log: &lines{}, client: &http.Client{
		Timeout: patience.Long, Transport: &http.Transport{MaxIdleConnsPerHost: 64},
	}}
	p.args = []string{"serve", "--audience", "ledger", "--longest", "3600", "--listen", p.address}
	if given := strings.Join(args, " "); !strings.Contains(given, "--wait") && !strings.Contains(given, "--config") {
		p.args = append(p.args, "--wait", longWait)
	}
	p.args = append(p.args, args...)
	t.Cleanup(p.kill)
	return p
}

// longWait is for how long a request may wait for what is to be there, on a machine that does much else, too.
const longWait = "2m"

// freeAddress is one that the test's process holds, so that tests which run side by side get others.
func freeAddress(t testing.TB) string {
	t.Helper()
	ports, err := broker.FreePorts(1)
	if err != nil {
		t.Fatal(err)
	}
	return fmt.Sprintf("127.0.0.1:%d", ports[0])
}

func command(args ...string) *exec.Cmd {
	c := exec.Command(os.Args[0], args...)
	c.Env = append(os.Environ(), asSvidd+"=1")
	return c
}

func (p *process) start() {
	p.t.Helper()
	p.launch()
	p.await("ready", p.isReady)
}

func (p *process) isReady() bool {
	status, _ := p.get("/readyz")
	return status == http.StatusOK
}

func (p *process) launch() {
	p.t.Helper()
	p.run = command(p.args...)
	if len(p.program) > 0 {
		words := append(p.program[:len(p.program):len(p.program)], p.args...)
		p.run = exec.Command(words[0], words[1:]...)
		p.run.Env = os.Environ()
	}
	p.run.Env = append(p.run.Env, p.more...)
	p.run.Stderr = p.log
	if p.stderr != nil {
		p.run.Stderr = p.stderr
	}
	if err := p.run.Start(); err != nil {
		p.t.Fatal(err)
	}
}

// await waits until something is so.
func (p *process) await(what string, is func() bool) {
	p.t.Helper()
	p.awaitFor(patience.Long, what, is)
}

// awaitFor is await for what may take longer.
func (p *process) awaitFor(most time.Duration, what string, is func() bool) {
	p.t.Helper()
	for look, end := patience.Looks(), time.Now().Add(most); !is(); look() {
		if time.Now().After(end) {
			p.t.Fatalf("waited %v for: %s\n%s", most, what, p.log)
		}
	}
}

// meanwhile does this each second, until the test ends.
func (p *process) meanwhile(do func()) {
	ended, done := make(chan struct{}), make(chan struct{})
	go func() {
		defer close(done)
		for {
			do()
			select {
			case <-ended:
				return
			case <-time.After(time.Second):
			}
		}
	}()
	p.t.Cleanup(func() { close(ended); <-done })
}

// kill ends the process as a crash does, if it runs.
func (p *process) kill() {
	if p.run != nil && p.run.ProcessState == nil {
		if len(p.program) > 0 {
			killAll(p.run.Process.Pid)
		} else {
			_ = p.run.Process.Kill() // svidd starts no process
		}
		_ = p.run.Wait()
	}
	p.client.CloseIdleConnections()
}

// end ends it by SIGTERM, and wants it to end well.
func (p *process) end() {
	p.t.Helper()
	if err := p.signal(syscall.SIGTERM); err != nil {
		p.t.Fatal(err)
	}
	if err := p.wait(); err != nil {
		p.t.Fatalf("svidd: %v\n%s", err, p.log)
	}
	p.client.CloseIdleConnections()
}

// wait waits for its end. A process that does not end is killed.
func (p *process) wait() error {
	ended := make(chan error, 1)
	go func() { ended <- p.run.Wait() }()
	select {
	case err := <-ended:
		return err
	case <-time.After(patience.Long):
		killAll(p.run.Process.Pid)
		<-ended
		return fmt.Errorf("it does not end within %v", patience.Long)
	}
}

// awaitEvents waits until the log has so many lines of an event, and returns them: no request waits for the log.
func (p *process) awaitEvents(name string, n int) (found []map[string]any) {
	p.t.Helper()
	p.await(fmt.Sprintf("%d lines of the event %q", n, name), func() bool { found = p.events(name); return len(found) >= n })
	return found
}

// killAll kills a process and all below it. They are stopped first, so that none starts another one meanwhile.
func killAll(pid int) {
	all := map[int]bool{}
	for found := []int{pid}; len(found) > 0; {
		for _, pid := range found {
			all[pid] = true
			_ = syscall.Kill(pid, syscall.SIGSTOP)
		}
		found = nil
		for parent := range all {
			for _, child := range broker.Children(parent) {
				if !all[child] {
					found = append(found, child)
				}
			}
		}
	}
	for pid := range all {
		_ = syscall.Kill(pid, syscall.SIGKILL)
	}
}

// signal sends svidd a signal. What runs it, such as buildah, may pass none on. So the signal goes to svidd itself, where that
// runs.
func (p *process) signal(s syscall.Signal) error {
	pid, err := p.pid()
	if err != nil {
		return err
	}
	if pid == 0 {
		pid = p.run.Process.Pid
	}
	return syscall.Kill(pid, s)
}

// pid is the process with svidd's own command line, and 0 where there is none.
func (p *process) pid() (int, error) {
	n := len(p.program)
	if n == 0 {
		return p.run.Process.Pid, nil
	}
	line := strings.Join(append(p.program[n-1:n:n], p.args...), "\x00") + "\x00"
	processes, err := filepath.Glob("/proc/[0-9]*")
	if err != nil {
		return 0, err
	}
	for _, folder := range processes {
		if text, err := os.ReadFile(filepath.Join(folder, "cmdline")); err == nil && string(text) == line {
			return strconv.Atoi(filepath.Base(folder))
		}
	}
	return 0, nil
}

func (p *process) get(path string) (status int, body string) {
	answer, err := p.client.Get("http://" + p.address + path)
	if err != nil {
		return 0, err.Error()
	}
	defer answer.Body.Close()
	text, err := io.ReadAll(answer.Body)
	if err != nil {
		return 0, err.Error()
	}
	return answer.StatusCode, string(text)
}

// check asks for a token. The status is 0 where no answer came.
func (p *process) check(token string) (status int, header http.Header, body string) {
	request, err := http.NewRequest(http.MethodGet, "http://"+p.address+"/check/a//b?c", nil)
	if err != nil {
		p.t.Error(err)
		return 0, nil, ""
	}
	request.Header.Set("Authorization", "Bearer "+token)
	answer, err := p.client.Do(request)
	if err != nil {
		return 0, nil, err.Error()
	}
	defer answer.Body.Close()
	text, err := io.ReadAll(answer.Body)
	if err != nil {
		return 0, nil, err.Error()
	}
	return answer.StatusCode, answer.Header, string(text)
}

// want wants a token to be answered with this status and reason.
func (p *process) want(token string, status int, reason string) {
	p.t.Helper()
	got, _, body := p.check(token)
	var said struct{ Reason string }
	if body != "" {
		if err := json.Unmarshal([]byte(body), &said); err != nil {
			p.t.Errorf("body %q: %v", body, err)
		}
	}
	if got != status || said.Reason != reason {
		p.t.Errorf("status %d %q, and %d %q is due", got, said.Reason, status, reason)
	}
}

// events returns the lines of the log with this event.
func (p *process) events(name string) []map[string]any {
	var found []map[string]any
	text := p.log.String()
	text = text[:strings.LastIndexByte(text, '\n')+1] // The last line may still be on its way.
	scanner := bufio.NewScanner(strings.NewReader(text))
	scanner.Buffer(nil, 1<<20)
	for scanner.Scan() {
		var line map[string]any
		if err := json.Unmarshal(scanner.Bytes(), &line); err != nil {
			p.t.Errorf("a line of the log is no JSON object: %q", scanner.Text())
			continue
		}
		p.wellFormed(line)
		if line["event"] == name {
			found = append(found, line)
		}
	}
	return found
}

var logKey = regexp.MustCompile("^[a-z_]+$")

// wellFormed wants a line of the log to have what each one has, and keys that need no quotes.
func (p *process) wellFormed(line map[string]any) {
	p.t.Helper()
	if level := line["level"]; level != "error" && level != "info" && level != "debug" || line["time"] == nil || line["event"] == nil {
		p.t.Errorf("a line of the log lacks something: %v", line)
	}
	for key := range line {
		if !logKey.MatchString(key) {
			p.t.Errorf("a line of the log has the key %q: %v", key, line)
		}
	}
}

// svidd runs a command to its end.
func svidd(t testing.TB, stdin string, args ...string) (status int, out, err string) {
	t.Helper()
	c := command(args...)
	var o, e bytes.Buffer
	c.Stdin, c.Stdout, c.Stderr = strings.NewReader(stdin), &o, &e
	runErr := c.Start()
	if runErr == nil {
		late := time.AfterFunc(patience.Long, func() { _ = c.Process.Kill() })
		runErr = c.Wait()
		if !late.Stop() {
			t.Fatalf("svidd %.40q does not end within %v: %q %q", args, patience.Long, o.String(), e.String())
		}
	}
	if runErr != nil && c.ProcessState == nil {
		t.Fatal(runErr)
	}
	return c.ProcessState.ExitCode(), o.String(), e.String()
}

// metric is the value of one line of /metrics.
func (p *process) metric(name string) string {
	p.t.Helper()
	_, text := p.get("/metrics")
	for _, line := range strings.Split(text, "\n") {
		if rest := strings.TrimPrefix(line, name+" "); rest != line {
			return rest
		}
	}
	p.t.Errorf("/metrics has no %s", name)
	return ""
}

func bundleOption(name string) string { return fmt.Sprintf("--bundle=example.org=%s", name) }
