package main

import (
	"context"
	"errors"
	"flag"
	"fmt"
	"io"
	"net/http"
	"os"
	"os/exec"
	"path/filepath"
	"sort"
	"strconv"
	"strings"
	"sync"
	"sync/atomic"
	"time"

	"svid.example/go/v3/internal/broker"
	"svid.example/go/v3/internal/issuer"
)

const (
	patience = 2 * time.Minute
	inFlight = 32     // tokens that are sent at a time
	bucket   = "svid" // the name of the group
)

// scale runs a group on this machine, sends tokens to all members but one, which only hears of them, or in mode strict of nothing, and
// prints a row with the costs of one token.
func scale(f *flag.FlagSet, args []string) error {
	svidd := f.String("svidd", "", "the program")
	members := f.Int("members", 3, "how many sidecars")
	mode := f.String("mode", "once", "of the sidecars")
	store := f.String("store", "nats", "of mode strict: nats, redis or postgres")
	uses := f.Int("uses", 50_000, "in the bucket or the store before")
	n := f.Int("tokens", 5_000, "to send")
	f.Parse(args)
	dir, err := os.MkdirTemp("", "svid-scale-")
	if err != nil {
		return err
	}
	defer os.RemoveAll(dir)
	g := &scaled{dir: dir, svidd: *svidd, mode: *mode}
	defer g.end()
	kind := "nats"
	if g.mode == "strict" {
		kind = *store
	}
	if err := g.begin(kind, *members, *uses); err != nil {
		return err
	}
	return g.measure(*n)
}

// A scaled is a group on this machine.
type scaled struct {
	dir, svidd, mode, bundle string

	server  server
	url     string // of the server
	issuer  *issuer.Issuer
	members []*member
	client  http.Client
}

// A member is a sidecar.
type member struct {
	address string
	run     *exec.Cmd
}

func (g *scaled) begin(kind string, members, uses int) (err error) {
	g.client.Transport = &http.Transport{MaxIdleConnsPerHost: inFlight}
	g.bundle = filepath.Join(g.dir, "bundle.json")
	if g.issuer, err = issuer.New(domain); err != nil {
		return err
	}
	if err := os.WriteFile(g.bundle, g.issuer.JWKSet(), 0o600); err != nil {
		return err
	}
	if g.server, g.url, err = startServer(kind, g.dir); err != nil {
		return err
	}
	filled := fillBucket
	if g.mode == "strict" {
		filled = fillStore
	}
	if err := filled(g.url, bucket, uses, 1); err != nil {
		return err
	}
	for len(g.members) < members {
		if err := g.start(); err != nil {
			return err
		}
	}
	for _, m := range g.members {
		if err := g.awaitReady(m); err != nil {
			return err
		}
	}
	return nil
}

// start starts one more sidecar.
func (g *scaled) start() error {
	ports, err := broker.FreePorts(1)
	if err != nil {
		return err
	}
	m := &member{address: fmt.Sprintf("127.0.0.1:%d", ports[0])}
	shared := "--nats"
	if g.mode == "strict" {
		shared = "--store"
	}
	m.run = exec.Command(g.svidd, "serve", "--audience", audience, "--bundle", domain+"="+g.bundle, "--longest", fmt.Sprint(longest),
		"--listen", m.address, "--state", filepath.Join(g.dir, fmt.Sprint("state-", len(g.members))), "--replay", g.mode,
		shared, g.url, "--group", bucket, "--log", "errors")
	m.run.Stderr = os.Stderr
	if err := m.run.Start(); err != nil {
		return err
	}
	g.members = append(g.members, m)
	return nil
}

func (g *scaled) awaitReady(m *member) error {
	return await("a sidecar", func() error {
		status, text, err := g.get("http://"+m.address+"/readyz", "")
		if err == nil && status != http.StatusOK {
			err = errors.New(text)
		}
		return err
	})
}

func (g *scaled) end() {
	for _, m := range g.members {
		m.run.Process.Kill()
		m.run.Wait()
	}
	if g.server != nil {
		g.server.Kill()
	}
}

// A reading is what was used of the processor so far, by process.
type reading struct {
	heard, accepting, server time.Duration
	received                 float64 // bytes that the sidecar which only hears read from its connections
}

func (g *scaled) read() (r reading, err error) {
	for i, m := range g.members {
		used, err := cpu(m.run.Process.Pid)
		if err != nil {
			return r, err
		}
		if i == 0 {
			r.heard = used
		} else {
			r.accepting += used
		}
	}
	if r.server, err = cpuOfAll(g.server.Pid()); err != nil {
		return r, err
	}
	text, err := os.ReadFile(fmt.Sprintf("/proc/%d/io", g.members[0].run.Process.Pid))
	if err != nil {
		return r, err
	}
	_, err = fmt.Sscanf(string(text), "rchar: %f", &r.received)
	return r, err
}

// toldAll is nil once the accepting members have told the group of so many uses, and the first member has heard of all that is in the
// bucket; or once they have claimed so many.
func (g *scaled) toldAll(uses int) error {
	told := 0.0
	for _, m := range g.members[1:] {
		for _, name := range []string{`svidd_told_total{outcome="told"}`, `svidd_claims_total{outcome="won"}`} {
			n, err := g.metric(m, name)
			if err != nil {
				return err
			}
			told += n
		}
	}
	heard, values := 0.0, 0.0
	if g.mode != "strict" {
		var err error
		if heard, err = g.metric(g.members[0], "svidd_messages_taken_total"); err != nil {
			return err
		}
		if values, _, err = g.held(); err != nil {
			return err
		}
	}
	if int(told) < uses || heard < values {
		return fmt.Errorf("%.0f uses told or claimed, and %.0f of %.0f values heard", told, heard, values)
	}
	return nil
}

// measure sends n tokens, and prints the row.
func (g *scaled) measure(n int) error {
	tokens := mintAll(g.issuer, "ES256", n, "scale")
	before, err := g.read()
	if err != nil {
		return err
	}
	valuesBefore, bytesBefore, err := g.held()
	if err != nil {
		return err
	}
	from := time.Now()
	took, err := g.send(tokens)
	if err != nil {
		return err
	}
	sending := time.Since(from)
	if err := await("all uses to be heard", func() error { return g.toldAll(n) }); err != nil {
		return err
	}
	lag := time.Since(from) - sending
	after, err := g.read()
	if err != nil {
		return err
	}
	resident, err := g.metric(g.members[0], "process_resident_memory_bytes")
	if err != nil {
		return err
	}
	// Another one, in mode once with all of it to read. It is a member from here on.
	from = time.Now()
	if err := g.start(); err != nil {
		return err
	}
	if err := g.awaitReady(g.members[len(g.members)-1]); err != nil {
		return err
	}
	caughtUp := time.Since(from)
	valuesAfter, bytesAfter, err := g.held()
	if err != nil {
		return err
	}
	members := len(g.members) - 1
	each := func(d time.Duration) float64 { return float64(d.Microseconds()) / float64(n) }
	hear := each(after.heard - before.heard)
	fmt.Printf("| %s | %d | %.0f | %.1f | %.1f | %.0f | %.1f | %.0f | %.1f | %.0f | %.0f | %.1f | %.0f | %.1f |\n", g.mode, members,
		float64(n)/sending.Seconds(), percentile(took, 50), percentile(took, 99),
		each(after.accepting-before.accepting)-float64(members-1)*hear, hear, each(after.server-before.server),
		float64(n)/(valuesAfter-valuesBefore), (bytesAfter-bytesBefore)/float64(n), (after.received-before.received)/float64(n), float64(lag.Milliseconds())/1000, resident/1e6, caughtUp.Seconds())
	return nil
}

// send sends each token to one of the members that accept, by turns, and returns the milliseconds that each took.
func (g *scaled) send(tokens []string) (took []float64, err error) {
	took = make([]float64, len(tokens))
	var next atomic.Int64
	failed := make(chan error, inFlight)
	var workers sync.WaitGroup
	for w := 0; w < inFlight; w++ {
		workers.Add(1)
		go func() {
			defer workers.Done()
			for i := next.Add(1) - 1; int(i) < len(tokens); i = next.Add(1) - 1 {
				m := g.members[1+int(i)%(len(g.members)-1)]
				from := time.Now()
				status, text, err := g.get("http://"+m.address+"/check", tokens[i])
				took[i] = float64(time.Since(from).Microseconds()) / 1000
				if err == nil && status != http.StatusOK {
					err = fmt.Errorf("a token is answered %d %s", status, text)
				}
				if err != nil {
					failed <- err
					return
				}
			}
		}()
	}
	workers.Wait()
	select {
	case err := <-failed:
		return nil, err
	default:
		return took, nil
	}
}

func percentile(values []float64, percent int) float64 {
	sort.Float64s(values)
	return values[(len(values)-1)*percent/100]
}

func (g *scaled) get(url, token string) (status int, text string, err error) {
	ctx, cancel := context.WithTimeout(context.Background(), patience)
	defer cancel()
	request, err := http.NewRequestWithContext(ctx, http.MethodGet, url, nil)
	if err != nil {
		return 0, "", err
	}
	if token != "" {
		request.Header.Set("Authorization", "Bearer "+token)
	}
	answer, err := g.client.Do(request)
	if err != nil {
		return 0, "", err
	}
	defer answer.Body.Close()
	body, err := io.ReadAll(answer.Body)
	return answer.StatusCode, string(body), err
}

func (g *scaled) metric(m *member, name string) (float64, error) {
	_, text, err := g.get("http://"+m.address+"/metrics", "")
	if err != nil {
		return 0, err
	}
	for _, line := range strings.Split(text, "\n") {
		if rest := strings.TrimPrefix(line, name+" "); rest != line {
			return strconv.ParseFloat(rest, 64)
		}
	}
	return 0, fmt.Errorf("no metric is named %s", name)
}

// cpu is the processor time that a process has used.
func cpu(pid int) (time.Duration, error) {
	text, err := os.ReadFile(fmt.Sprintf("/proc/%d/stat", pid))
	if err != nil {
		return 0, err
	}
	// The name, in parentheses, may hold anything.
	fields := strings.Fields(string(text[strings.LastIndexByte(string(text), ')')+1:]))
	const user, system, hertz = 11, 12, 100
	var ticks int64
	for _, i := range []int{user, system} {
		n, err := strconv.ParseInt(fields[i], 10, 64)
		if err != nil {
			return 0, err
		}
		ticks += n
	}
	return time.Duration(ticks) * time.Second / hertz, nil
}

// cpuOfAll is that of a process and of all that it has started and that has not ended.
func cpuOfAll(pid int) (time.Duration, error) {
	all, err := cpu(pid)
	if err != nil {
		return 0, err
	}
	for _, started := range broker.Children(pid) {
		if used, err := cpu(started); err == nil {
			all += used
		}
	}
	return all, nil
}

// await tries until it goes well, or patience ends.
func await(what string, try func() error) error {
	for end := time.Now().Add(patience); ; time.Sleep(5 * time.Millisecond) {
		err := try()
		if err == nil || time.Now().After(end) {
			if err != nil {
				err = fmt.Errorf("waited %v for %s: %w", patience, what, err)
			}
			return err
		}
	}
}
