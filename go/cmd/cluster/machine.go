package main

import (
	"bufio"
	"bytes"
	"context"
	"errors"
	"fmt"
	"io"
	"net"
	"net/http"
	"os"
	"os/exec"
	"path/filepath"
	"strings"
	"sync"
	"syscall"
	"time"

	"svid.example/go/v3/internal/broker"
	"svid.example/go/v3/internal/issuer"
)

const (
	domain   = "example.org"
	audience = "ledger"
	longest  = 3600 // seconds that a token lives at the most
	patience = 3 * time.Minute
)

// A cluster is all that runs, in one folder.
type cluster struct {
	name     string // of the scenario
	dir      string
	svidd    string
	nginxAt  string // the folder of nginx's configurations
	brokers  []*broker.Server
	store    store  // what the group's store stands in where there are no brokers
	storeURL string // where it is
	issuer   *issuer.Issuer
	bundle   string // a file
	serial   int    // of the next token
	mu       sync.Mutex
	sidecars []*sidecar
	nginx    *exec.Cmd
}

// A store is a server of Redis or PostgreSQL.
type store interface {
	Start() error
	Answers() bool
	Kill()
	Stop()
}

// newCluster makes the folder, the issuer's bundle and the servers of the store.
func newCluster(svidd, nginx, store string) (*cluster, error) {
	dir, err := os.MkdirTemp("", "svid-cluster-")
	if err != nil {
		return nil, err
	}
	c := &cluster{dir: dir, svidd: svidd, nginxAt: nginx, bundle: filepath.Join(dir, "bundle.json")}
	if err := c.begin(store); err != nil {
		c.end()
		return nil, err
	}
	return c, nil
}

func (c *cluster) begin(store string) (err error) {
	if c.issuer, err = issuer.New(domain); err != nil {
		return err
	}
	if err := os.WriteFile(c.bundle, c.issuer.JWKSet(), 0o644); err != nil {
		return err
	}
	if store != "nats" {
		return c.beginStore(store)
	}
	var dirs []string
	for _, name := range []string{"nats-1", "nats-2", "nats-3"} {
		dir := filepath.Join(c.dir, name)
		if err := os.Mkdir(dir, 0o700); err != nil {
			return err
		}
		dirs = append(dirs, dir)
	}
	if c.brokers, err = broker.NewCluster(dirs); err != nil {
		return err
	}
	for _, b := range c.brokers {
		if err := b.Start(); err != nil {
			return err
		}
	}
	for _, b := range c.brokers {
		if err := await("the NATS servers", func() error { return unless(b.Answers(), "no leader") }); err != nil {
			return err
		}
	}
	fmt.Printf("cluster: three NATS servers are a cluster: %s\n", strings.Join(broker.URLs(c.brokers), " "))
	return nil
}

// beginStore starts a server of Redis or of PostgreSQL.
func (c *cluster) beginStore(store string) error {
	dir := filepath.Join(c.dir, store)
	if err := os.Mkdir(dir, 0o700); err != nil {
		return err
	}
	switch store {
	case "redis":
		s, err := broker.NewRedis(dir)
		if err != nil {
			return err
		}
		c.store, c.storeURL = s, s.URL
	case "postgres":
		// (It runs as another user, who must reach its own folder.)
		if err := os.Chmod(c.dir, 0o711); err != nil {
			return err
		}
		if err := broker.Own(dir); err != nil {
			return err
		}
		s, err := broker.NewPostgres(dir)
		if err != nil {
			return err
		}
		c.store, c.storeURL = s, s.URL
	default:
		return fmt.Errorf("no store stands in %s: nats, redis or postgres", store)
	}
	if err := c.store.Start(); err != nil {
		return err
	}
	fmt.Printf("cluster: the group's store stands in %s\n", c.storeURL)
	return await(store, func() error { return unless(c.store.Answers(), "no answer") })
}

// end kills what runs, and removes the folder.
func (c *cluster) end() {
	c.stopSidecars()
	if c.store != nil {
		c.store.Kill()
	}
	for _, b := range c.brokers {
		b.Kill()
	}
	os.RemoveAll(c.dir)
}

// lastWords are the last lines of each sidecar's log, for a failure.
func (c *cluster) lastWords() string {
	c.mu.Lock()
	defer c.mu.Unlock()
	var said strings.Builder
	for _, s := range c.sidecars {
		text, _ := os.ReadFile(s.log)
		lines := strings.Split(strings.TrimSpace(string(text)), "\n")
		if len(lines) > 5 {
			lines = lines[len(lines)-5:]
		}
		fmt.Fprintf(&said, "\n%s: %s", s.log, strings.Join(lines, "\n  "))
	}
	return said.String()
}

// A sidecar is one process svidd.
type sidecar struct {
	name    string
	address string
	admin   string // a unix socket
	log     string
	args    []string
	client  *http.Client
	run     *exec.Cmd
}

// start starts one sidecar for each name, with these options, and waits until each is ready.
func (c *cluster) start(names []string, options ...string) error {
	ports, err := broker.FreePorts(len(names))
	if err != nil {
		return err
	}
	var all []*sidecar
	for i, name := range names {
		dir := filepath.Join(c.dir, c.name+"-"+name)
		s := &sidecar{name: name, address: fmt.Sprintf("127.0.0.1:%d", ports[i]), admin: dir + ".sock", log: dir + ".log", client: newClient()}
		s.args = append([]string{"serve", "--audience", audience, "--bundle", domain + "=" + c.bundle, "--longest", fmt.Sprint(longest),
			"--listen", s.address, "--admin", s.admin, "--state", dir, "--log", "errors"}, options...)
		all = append(all, s)
	}
	c.mu.Lock()
	c.sidecars = append(c.sidecars, all...)
	c.mu.Unlock()
	c.say("each sidecar: svidd %s", strings.Join(all[0].args, " "))
	for _, s := range all {
		if err := c.spawn(s); err != nil {
			return err
		}
	}
	for _, s := range all {
		if err := s.awaitReady(); err != nil {
			return err
		}
	}
	return nil
}

// once are the options of sidecars of mode once that share a bucket of the scenario's name.
func (c *cluster) once() []string {
	return []string{"--replay", "once", "--nats", strings.Join(broker.URLs(c.brokers), ","), "--group", c.name, "--replicas", "3"}
}

// strict are the options of sidecars of mode strict that share a store of the scenario's name.
func (c *cluster) strict() []string { return c.strictNamed(c.name) }

func (c *cluster) strictNamed(name string) []string {
	options := []string{"--replay", "strict", "--group", name}
	if c.store != nil {
		return append(options, "--store", c.storeURL)
	}
	for _, url := range broker.URLs(c.brokers) {
		options = append(options, "--store", url)
	}
	return append(options, "--replicas", "3")
}

func newClient() *http.Client {
	return &http.Client{Timeout: patience, Transport: &http.Transport{MaxIdleConnsPerHost: 256}}
}

// spawn starts a sidecar's process, for the first time or again.
func (c *cluster) spawn(s *sidecar) error {
	log, err := os.OpenFile(s.log, os.O_CREATE|os.O_APPEND|os.O_WRONLY, 0o600)
	if err != nil {
		return err
	}
	defer log.Close()
	run := exec.Command(c.svidd, s.args...)
	run.Stdout, run.Stderr = log, log
	if err := run.Start(); err != nil {
		return err
	}
	c.mu.Lock()
	defer c.mu.Unlock()
	s.run = run
	return nil
}

// kill ends a sidecar as kill -9 does.
func (c *cluster) kill(s *sidecar) {
	c.mu.Lock()
	defer c.mu.Unlock()
	if s.run != nil {
		s.run.Process.Kill()
		s.run.Wait()
		s.run = nil
	}
}

// stopSidecars ends the sidecars and nginx.
func (c *cluster) stopSidecars() {
	c.mu.Lock()
	defer c.mu.Unlock()
	for _, s := range c.sidecars {
		if s.run != nil {
			s.run.Process.Signal(syscall.SIGTERM)
		}
	}
	for _, s := range c.sidecars {
		if s.run != nil {
			ended := time.AfterFunc(patience, func() { s.run.Process.Kill() })
			s.run.Wait()
			ended.Stop()
		}
	}
	c.sidecars = nil
	if c.nginx != nil {
		c.nginx.Process.Signal(syscall.SIGTERM)
		c.nginx.Wait()
		c.nginx = nil
	}
}

func (s *sidecar) awaitReady() error {
	return await(s.name, func() error {
		status, body, err := get(s.client, "http://"+s.address+"/readyz", "")
		if err != nil {
			return err
		}
		return unless(status == http.StatusOK, body)
	})
}

// metric reads one number of /metrics.
func (s *sidecar) metric(name string) (value float64, err error) {
	_, text, err := get(s.client, "http://"+s.address+"/metrics", "")
	if err != nil {
		return 0, err
	}
	for _, line := range strings.Split(text, "\n") {
		if strings.HasPrefix(line, name+" ") {
			_, err := fmt.Sscan(strings.TrimPrefix(line, name+" "), &value)
			return value, err
		}
	}
	return 0, fmt.Errorf("%s has no metric %s", s.name, name)
}

// messages is a sidecar's record, from its admin socket.
func (s *sidecar) messages() ([]byte, error) {
	dial := func(ctx context.Context, _, _ string) (net.Conn, error) {
		return new(net.Dialer).DialContext(ctx, "unix", s.admin)
	}
	transport := &http.Transport{DialContext: dial}
	defer transport.CloseIdleConnections()
	status, body, err := get(&http.Client{Transport: transport, Timeout: patience}, "http://svidd/messages", "")
	if err == nil && status != http.StatusOK {
		err = errors.New(body)
	}
	return []byte(body), err
}

// startNginx starts nginx before the sidecars by one of the configurations, and returns its address.
func (c *cluster) startNginx(config string) (address string, err error) {
	text, err := os.ReadFile(filepath.Join(c.nginxAt, config))
	if err != nil {
		return "", err
	}
	ports, err := broker.FreePorts(2)
	if err != nil {
		return "", err
	}
	address = fmt.Sprintf("127.0.0.1:%d", ports[0])
	values := []string{"FOLDER", c.dir, "NGINX", address, "SERVICE", fmt.Sprintf("127.0.0.1:%d", ports[1])}
	for i, s := range c.sidecars {
		values = append(values, fmt.Sprint("SIDECAR_", i+1), s.address)
	}
	file := filepath.Join(c.dir, "nginx.conf")
	if err := os.WriteFile(file, []byte(strings.NewReplacer(values...).Replace(string(text))), 0o600); err != nil {
		return "", err
	}
	var said bytes.Buffer
	c.nginx = exec.Command("nginx", "-e", filepath.Join(c.dir, "nginx.log"), "-p", c.dir, "-c", file)
	c.nginx.Stderr = &said
	if err := c.nginx.Start(); err != nil {
		return "", err
	}
	return address, await("nginx", func() error {
		_, _, err := get(http.DefaultClient, "http://"+address+"/", "")
		return err
	})
}

// get asks an address, with a token where there is one.
func get(client *http.Client, url, token string) (status int, body string, err error) {
	request, err := http.NewRequest(http.MethodGet, url, nil)
	if err != nil {
		return 0, "", err
	}
	if token != "" {
		request.Header.Set("Authorization", "Bearer "+token)
	}
	answer, err := client.Do(request)
	if err != nil {
		return 0, "", err
	}
	defer answer.Body.Close()
	text, err := io.ReadAll(answer.Body)
	return answer.StatusCode, string(text), err
}

// getThrough asks nginx with this very header Authorization, blanks included. It forges the sidecar's three headers, as a
// client may try.
func getThrough(address, authorization string) (status int, body string, err error) {
	connection, err := net.DialTimeout("tcp", address, patience)
	if err != nil {
		return 0, "", err
	}
	defer connection.Close()
	if err := connection.SetDeadline(time.Now().Add(patience)); err != nil {
		return 0, "", err
	}
	_, err = fmt.Fprintf(connection, "GET / HTTP/1.0\r\nHost: %s\r\nX-Spiffe-Id: spiffe://%s/admin\r\nX-Svid-Audience: all\r\n"+
		"X-Svid-Expires: 1\r\nAuthorization: %s\r\n\r\n", address, domain, authorization)
	if err != nil {
		return 0, "", err
	}
	answer, err := http.ReadResponse(bufio.NewReader(connection), nil)
	if err != nil {
		return 0, "", err
	}
	defer answer.Body.Close()
	text, err := io.ReadAll(answer.Body)
	return answer.StatusCode, string(text), err
}

// await tries until it goes well, or patience ends.
func await(what string, try func() error) error {
	for end := time.Now().Add(patience); ; time.Sleep(5 * time.Millisecond) {
		err := try()
		if err == nil {
			return nil
		}
		if time.Now().After(end) {
			return fmt.Errorf("waited %v for %s: %w", patience, what, err)
		}
	}
}

// unless is an error with this text unless something is so.
func unless(so bool, text string) error {
	if so {
		return nil
	}
	return errors.New(strings.TrimSpace(text))
}
