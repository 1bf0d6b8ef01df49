package main

import (
	"context"
	"database/sql"
	"errors"
	"flag"
	"fmt"
	"net/http"
	"os"
	"os/exec"
	"path/filepath"
	"runtime"
	"sync"
	"sync/atomic"
	"syscall"
	"time"
	"unsafe"

	"github.com/gomodule/redigo/redis"
	_ "github.com/lib/pq" // the peer's driver
	"github.com/nats-io/nats.go"

	"svid.example/go/v3/bundles"
	"svid.example/go/v3/guard"
	"svid.example/go/v3/internal/broker"
	"svid.example/go/v3/internal/issuer"
	"svid.example/go/v3/svid"
)

// processTime is the processor time of a process.
func processTime(pid int) time.Duration {
	var t syscall.Timespec
	_, _, fault := syscall.Syscall(syscall.SYS_CLOCK_GETTIME, uintptr(int32(^int32(pid)<<3|2)), uintptr(unsafe.Pointer(&t)), 0)
	if fault != 0 {
		return 0
	}
	return time.Duration(t.Nano())
}

// A measuredStore is a group's store in a server of its own.
type measuredStore struct {
	kind, url string
	pid       func() int
	end       func()
	peer      func() (first func(key string) error, close func(), err error) // a plain client of the same server
}

func startStore(dir, kind string) (*measuredStore, error) {
	switch kind {
	case "nats":
		b, err := broker.New(dir)
		if err != nil {
			return nil, err
		}
		s := &measuredStore{kind, b.URL, b.Pid, b.Kill, func() (func(string) error, func(), error) { return createPeer(b.URL) }}
		return s, firstError(b.Start(), awaitThat("nats", b.Answers))
	case "redis":
		r, err := broker.NewRedis(dir)
		if err != nil {
			return nil, err
		}
		s := &measuredStore{kind, r.URL, r.Pid, r.Kill, func() (func(string) error, func(), error) { return setPeer(r.Address) }}
		return s, firstError(r.Start(), awaitThat("redis", r.Answers))
	case "postgres":
		p, err := broker.NewPostgres(dir, "-c", "max_connections=5000")
		if err != nil {
			return nil, err
		}
		s := &measuredStore{kind, p.URL, p.Pid, p.Kill, func() (func(string) error, func(), error) { return insertPeer(p.URL) }}
		return s, p.Start()
	}
	return nil, fmt.Errorf("--store %q is none of redis, postgres and nats", kind)
}

func firstError(all ...error) error {
	for _, err := range all {
		if err != nil {
			return err
		}
	}
	return nil
}

// awaitThat asks until something is so.
func awaitThat(what string, so func() bool) error {
	return await(what, func() error {
		if !so() {
			return errors.New("not yet")
		}
		return nil
	})
}

// time is the processor time of the server and of the processes that it has started.
func (s *measuredStore) time() time.Duration {
	sum := processTime(s.pid())
	for _, pid := range broker.Children(s.pid()) {
		sum += processTime(pid)
	}
	return sum
}

// The peers: each key is new, so each call is the first one with it.

func setPeer(address string) (func(string) error, func(), error) {
	pool := &redis.Pool{MaxIdle: inFlight, Dial: func() (redis.Conn, error) { return redis.Dial("tcp", address) }}
	return func(key string) error {
		c := pool.Get()
		defer c.Close()
		answer, err := redis.String(c.Do("SET", key, "1", "NX", "EX", longest))
		if err == nil && answer != "OK" {
			err = errors.New("it was there")
		}
		return err
	}, func() { pool.Close() }, nil
}

func createPeer(url string) (func(string) error, func(), error) {
	nc, err := nats.Connect(url)
	if err != nil {
		return nil, nil, err
	}
	js, err := nc.JetStream()
	if err != nil {
		return nil, nc.Close, err
	}
	kv, err := js.CreateKeyValue(&nats.KeyValueConfig{Bucket: "plain", TTL: longest * time.Second})
	return func(key string) error { _, err := kv.Create(key, []byte("1")); return err }, nc.Close, err
}

func insertPeer(url string) (func(string) error, func(), error) {
	db, err := sql.Open("postgres", url)
	if err != nil {
		return nil, nil, err
	}
	db.SetMaxIdleConns(inFlight)
	if _, err := db.Exec("CREATE TABLE IF NOT EXISTS plain (jti text PRIMARY KEY, expires bigint NOT NULL)"); err != nil {
		return nil, nil, err
	}
	insert, err := db.Prepare("INSERT INTO plain VALUES ($1, $2) ON CONFLICT DO NOTHING")
	return func(key string) error { _, err := insert.Exec(key, time.Now().Unix()+longest); return err }, func() { db.Close() }, err
}

// A check answers nil for an accepted token.
type check func(token string) error

// group measures what an accepted token costs members and store, in turns: groups of so many members, and a plain peer that verifies
// the token by the same keyring and claims it with the server's own words.
func group(f *flag.FlagSet, args []string) error {
	svidd := f.String("svidd", "", "the program, for members that are processes; else they are guards in this one")
	kind := f.String("store", "redis", "redis, postgres or nats")
	sizes := f.String("members", "3,30", "how many members a group has, of each group")
	each := f.Int("each", 0, "how many tokens each member gets in a turn, some at once; 0 shares --tokens among them, and those that are sent at once")
	n := f.Int("tokens", 3000, "to send in a turn")
	turns := f.Int("turns", 5, "how many")
	fill := f.Int("fill", 0, "how many entries the store has before")
	f.Parse(args)
	dir, err := os.MkdirTemp("", "svid-group-")
	if err != nil {
		return err
	}
	defer os.RemoveAll(dir)
	if err := broker.Own(dir); err != nil {
		return err
	}
	s, err := startStore(dir, *kind)
	if err != nil {
		return err
	}
	defer s.end()
	i, err := issuer.New(domain)
	if err != nil {
		return err
	}
	bundle := filepath.Join(dir, "bundle.json")
	if err := os.WriteFile(bundle, i.JWKSet(), 0o644); err != nil {
		return err
	}
	if *fill > 0 {
		if err := fillStore(s.url, bucket, *fill, 1); err != nil {
			return err
		}
	}
	var groups []*crowd
	for _, size := range numbers(*sizes) {
		c, err := s.crowd(*svidd, bundle, size)
		if err != nil {
			return err
		}
		defer c.end()
		groups = append(groups, c)
	}
	peer, err := s.plain(i)
	if err != nil {
		return err
	}
	groups = append(groups, peer)
	fmt.Println("| store | members | accepted a second | p50 ms | p99 ms | µs at members | µs at the store |\n|---|--:|--:|--:|--:|--:|--:|")
	for turn := -1; turn < *turns; turn++ { // The first turn warms up.
		for _, c := range groups {
			count, atOnce := *n, inFlight
			if *each > 0 && c.size > 0 {
				count, atOnce = *each*c.size, inFlight/4*c.size
			}
			row, err := c.measure(s, mintAll(i, "ES256", count, fmt.Sprint(c.size, "-", turn)), atOnce)
			if err != nil {
				return err
			}
			if turn >= 0 {
				fmt.Println(row)
			}
		}
	}
	return nil
}

// numbers reads numbers with commas between them.
func numbers(text string) (all []int) {
	for text != "" {
		var n int
		var rest string
		if k, _ := fmt.Sscanf(text, "%d,%s", &n, &rest); k == 0 {
			return all
		}
		all, text = append(all, n), rest
	}
	return all
}

// A crowd is the members of a group, or the peer.
type crowd struct {
	size   int // 0 for the peer
	checks []check
	time   func() time.Duration
	end    func()
}

// crowd starts a group.
func (s *measuredStore) crowd(svidd, bundle string, size int) (*crowd, error) {
	c := &crowd{size: size}
	if svidd == "" {
		return c, s.insiders(c, bundle)
	}
	return c, s.outsiders(c, svidd, bundle)
}

// insiders are guards in this process.
func (s *measuredStore) insiders(c *crowd, bundle string) error {
	var guards []*guard.Guard
	c.end = func() {
		for _, g := range guards {
			g.Close()
		}
	}
	c.time = func() time.Duration { return processTime(os.Getpid()) }
	spec, err := bundles.Parse(domain + "=" + bundle)
	if err != nil {
		return err
	}
	for i := 0; i < c.size; i++ {
		store, err := newStore(s.url, bucket, 1)
		if err != nil {
			return err
		}
		g, err := guard.Open(guard.Options{Audiences: []string{audience}, Bundles: []bundles.Spec{spec}, Longest: longest, Store: store, Wait: 20 * time.Second})
		if err != nil {
			return err
		}
		guards = append(guards, g)
		c.checks = append(c.checks, func(token string) error { _, err := g.Check(context.Background(), token); return err })
	}
	for _, g := range guards {
		g := g
		if err := await("a guard", g.Ready); err != nil {
			return err
		}
	}
	return nil
}

// outsiders are sidecars.
func (s *measuredStore) outsiders(c *crowd, svidd, bundle string) error {
	var runs []*exec.Cmd
	c.end = func() {
		for _, r := range runs {
			r.Process.Kill()
			r.Wait()
		}
	}
	c.time = func() (sum time.Duration) {
		for _, r := range runs {
			sum += processTime(r.Process.Pid)
		}
		return sum
	}
	g := &scaled{client: http.Client{Transport: &http.Transport{MaxIdleConnsPerHost: inFlight}}}
	ports, err := broker.FreePorts(c.size)
	if err != nil {
		return err
	}
	for _, port := range ports {
		address := fmt.Sprintf("127.0.0.1:%d", port)
		run := exec.Command(svidd, "serve", "--audience", audience, "--bundle", domain+"="+bundle, "--longest", fmt.Sprint(longest),
			"--listen", address, "--replay", "strict", "--store", s.url, "--group", bucket, "--log", "errors", "--wait", "20s")
		run.Stderr = os.Stderr
		if err := run.Start(); err != nil {
			return err
		}
		runs = append(runs, run)
		c.checks = append(c.checks, func(token string) error {
			status, text, err := g.get("http://"+address+"/check", token)
			if err == nil && status != http.StatusOK {
				err = fmt.Errorf("%d %s", status, text)
			}
			return err
		})
		if err := awaitThat("a sidecar", func() bool {
			status, _, err := g.get("http://"+address+"/readyz", "")
			return err == nil && status == http.StatusOK
		}); err != nil {
			return err
		}
	}
	return nil
}

// plain is the peer: it verifies a token and judges it, and then claims it.
func (s *measuredStore) plain(i *issuer.Issuer) (*crowd, error) {
	first, end, err := s.peer()
	if err != nil {
		return nil, err
	}
	text, err := svid.JoinBundles(map[string][]byte{domain: i.JWKSet()})
	if err != nil {
		return nil, err
	}
	keyring, err := svid.NewKeyring(text)
	if err != nil {
		return nil, err
	}
	judgment := svid.Judgment{Audiences: []string{audience}, Longest: longest}
	return &crowd{end: func() { end(); keyring.Close() }, time: func() time.Duration { return processTime(os.Getpid()) },
		checks: []check{func(token string) error {
			yes, err := keyring.Verify(token)
			if err != nil {
				return err
			}
			judged, err := keyring.Judge(judgment, svid.Now(), token, yes)
			if err != nil {
				return err
			}
			return first(judged.Use.Key.String())
		}}}, nil
}

// measure sends tokens, each to one member, so many at once, or one to each member where these are more, and tells what one costs.
func (c *crowd) measure(s *measuredStore, tokens []string, atOnce int) (row string, err error) {
	runtime.GC()
	workers := atOnce
	if len(c.checks) > workers {
		workers = len(c.checks)
	}
	took := make([]time.Duration, len(tokens))
	var next atomic.Int64
	var fault atomic.Pointer[error]
	members, store, from := c.time(), s.time(), time.Now()
	var all sync.WaitGroup
	for w := 0; w < workers; w++ {
		all.Add(1)
		go func(w int) {
			defer all.Done()
			for i := int(next.Add(1) - 1); i < len(tokens) && fault.Load() == nil; i = int(next.Add(1) - 1) {
				begun := time.Now()
				if err := c.checks[w%len(c.checks)](tokens[i]); err != nil {
					fault.Store(&err)
				}
				took[i] = time.Since(begun)
			}
		}(w)
	}
	all.Wait()
	whole := time.Since(from)
	if err := fault.Load(); err != nil {
		return "", *err
	}
	each := func(d time.Duration) float64 { return float64(d.Nanoseconds()) / 1000 / float64(len(tokens)) }
	name := fmt.Sprint(c.size)
	if c.size == 0 {
		name = "plain peer"
	}
	ms := make([]float64, len(took))
	for i, d := range took {
		ms[i] = d.Seconds() * 1000
	}
	return fmt.Sprintf("| %s | %s | %.0f | %.1f | %.1f | %.0f | %.1f |", s.kind, name, float64(len(tokens))/whole.Seconds(), percentile(ms, 50), percentile(ms, 99),
		each(c.time()-members), each(s.time()-store)), nil
}
