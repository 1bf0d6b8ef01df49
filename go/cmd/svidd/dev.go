package main

import (
	"bytes"
	"context"
	"crypto/tls"
	"encoding/json"
	"errors"
	"flag"
	"fmt"
	"io"
	"net"
	"net/http"
	"os"
	"os/signal"
	"path/filepath"
	"strings"
	"sync"
	"syscall"
	"time"

	"svid.example/go/v3/bundles"
	"svid.example/go/v3/claims/memory"
	"svid.example/go/v3/guard"
	"svid.example/go/v3/internal/dev"
	"svid.example/go/v3/internal/issuer"
	"svid.example/go/v3/internal/server"
	"svid.example/go/v3/svidhttp"
	"svid.example/go/v3/workload"
)

// A trust domain, a sidecar and a mint in one process, for development alone.

const (
	mostDevLife = 24 * time.Hour
	devSlack    = time.Minute // that a token may live longer by the sidecar's clock
	devHint     = 10 * time.Second
	mintWait    = 10 * time.Second
)

// devOptions are those of dev.
type devOptions struct {
	domain, subject, audience string
	life, rotate              period
	replay, caller, keys      string
	listen, page, endpoint    string
}

func (o *devOptions) flags() *flag.FlagSet {
	return flagsOf("dev", func(f *flag.FlagSet) {
		f.StringVar(&o.domain, "domain", "", "")
		f.StringVar(&o.subject, "subject", "", "")
		f.StringVar(&o.audience, "audience", "", "")
		f.Var(&o.life, "life", "")
		f.Var(&o.rotate, "rotate", "")
		f.StringVar(&o.replay, "replay", "", "")
		f.StringVar(&o.caller, "caller", "", "")
		f.StringVar(&o.keys, "keys", "", "")
		f.StringVar(&o.listen, "listen", "", "")
		f.StringVar(&o.page, "page", "", "")
		f.StringVar(&o.endpoint, "endpoint", "", "")
	})
}

// problems is everything that is wrong with the options.
func (o *devOptions) problems() (all problems) {
	domain := dev.CheckDomain(o.domain)
	all.wrong(domain != nil, "--domain: %v", domain)
	if o.subject == "" {
		o.subject = "spiffe://" + o.domain + "/billing/api"
	} else if domain == nil {
		err := dev.CheckSubject(o.subject, o.domain)
		all.wrong(err != nil, "--subject: %v", err)
	}
	all.wrong(strings.ContainsAny(o.audience, "\r\n") || o.audience == "", "--audience %q is empty, or holds a line break", o.audience)
	for name, given := range map[string]period{"life": o.life, "rotate": o.rotate} {
		all.wrong(time.Duration(given) < time.Second || time.Duration(given) > mostDevLife, "--%s must be from 1s to %v", name, mostDevLife)
	}
	_, ok := devModes[o.replay]
	all.wrong(!ok, "--replay %q is none of once, strict, bound and reuse", o.replay)
	if o.caller != "" {
		rule, err := server.ParseCaller(o.caller)
		all.wrong(err != nil, "--caller: %v", err)
		all.wrong(err == nil && rule.OfEnvoy(), "--caller %s: svidd dev answers no Envoy by gRPC: name a header that a proxy sets", o.caller)
		all.wrong(ok && !devModes[o.replay].callers, "--caller is for --replay bound and --replay reuse")
	}
	at := map[string]string{}
	for _, each := range [][2]string{{"listen", o.listen}, {"page", o.page}, {"endpoint", o.endpoint}} {
		err := dev.CheckAddress(each[1])
		all.wrong(err != nil, "--%s: %v", each[0], err)
		all.wrong(err == nil && at[each[1]] != "", "--%s has the address of --%s", each[0], at[each[1]])
		at[each[1]] = each[0]
	}
	if o.keys != "" {
		err := issuer.CheckPrivate(o.keys)
		all.wrong(err != nil, "--keys: %v", err)
	}
	return all
}

// devModes say what a mode needs.
var devModes = map[string]struct{ callers, store, state bool }{
	string(guard.Once): {state: true}, string(guard.Strict): {store: true}, string(guard.Bound): {callers: true, state: true}, string(guard.Reuse): {callers: true},
}

// dev runs a trust domain and a sidecar until a signal ends it.
func devServe(args []string, std stdio) int {
	var o devOptions
	f := o.flags()
	if err := parse(f, new(string), args); err != nil {
		return fail(std, err)
	}
	if f.NArg() > 0 {
		return fail(std, fmt.Errorf("dev takes no argument, and got %.20q", f.Arg(0)))
	}
	if problems := o.problems(); len(problems) > 0 {
		return problems.tell(std)
	}
	signals := make(chan os.Signal, 8)
	signal.Notify(signals, syscall.SIGTERM, syscall.SIGINT)
	defer signal.Stop(signals)
	room := o.keys
	if room == "" {
		var err error
		if room, err = os.MkdirTemp("", "svidd-dev-"); err != nil { // (of mode 0700)
			return fail(std, err)
		}
		defer os.RemoveAll(room)
	}
	b := &bench{devOptions: o, room: room, std: std, ended: make(chan struct{}), failed: make(chan error, 8)}
	if err := b.run(signals); err != nil {
		_ = dev.Say(std.err, hideTokens(err.Error()))
		return exitFailed
	}
	return exitYes
}

// A bench is a running svidd dev.
type bench struct {
	devOptions
	room    string // the folder of the socket, and of the files that others read
	std     stdio
	desk    *dev.Desk
	servers []served
	ended   chan struct{} // closed when it ends
	failed  chan error

	rotating sync.WaitGroup
	ending   sync.Once
}

func (b *bench) say(text string, values ...any) { _ = dev.Say(b.std.err, fmt.Sprintf(text, values...)) }

func (b *bench) socket() string { return filepath.Join(b.room, "agent.sock") }

func (b *bench) run(signals <-chan os.Signal) error {
	domain, err := issuer.NewDomain(b.domain, time.Duration(b.life), b.keys, nil)
	if err != nil {
		return err
	}
	if err := os.WriteFile(filepath.Join(b.room, "ca.pem"), domain.AuthorityPEM(), 0o600); err != nil {
		return err
	}
	if err := os.WriteFile(filepath.Join(b.room, "bundle.json"), domain.Bundle(devHint), 0o600); err != nil {
		return err
	}
	b.desk = dev.NewDesk(dev.Options{Domain: domain, Subject: b.subject, Audience: b.audience, Page: b.page, Check: "http://" + b.listen + "/check"})
	defer b.end()
	grpc := newGRPC(b.desk.Workload(b.ended), nil)
	grpc.base.ReadTimeout, grpc.base.WriteTimeout = 0, 0 // A stream of bundles has no end.
	if err := b.serve("unix:"+b.socket(), grpc, nil); err != nil {
		return err
	}
	if err := b.serve(b.page, devServer(b.desk.Page(b.ended)), nil); err != nil {
		return err
	}
	if err := b.serve(b.endpoint, devServer(b.desk.Endpoint(devHint)), b.desk.EndpointTLS()); err != nil {
		return err
	}
	lines := guard.NewLines(b.desk.Lines(b.std.err), guard.Decisions)
	defer lines.Close(logWait)
	g, err := b.sidecar(lines)
	if err != nil {
		return err
	}
	defer g.Close()
	defer b.end() // (no request may come after Close)
	checks := dev.Marked(g.Handler())
	if b.caller == "" {
		checks = dev.OfConnection(checks)
	}
	if err := b.serve(b.listen, devServer(checks), nil); err != nil {
		return err
	}
	b.rotating.Add(1)
	go func() {
		defer b.rotating.Done()
		b.desk.RotateEach(time.Duration(b.rotate), b.ended, func(err error) { b.say("the keys stay: %v", err) })
	}()
	return b.await(g, signals)
}

// await says what there is, and returns when a signal says to end, or with what went wrong.
func (b *bench) await(g *guard.Guard, signals <-chan os.Signal) error {
	look := time.NewTicker(readyPause)
	defer look.Stop()
	for looks := look.C; ; {
		select {
		case <-signals:
			return nil
		case err := <-b.failed:
			return err
		case <-looks:
			if g.Ready() == nil {
				looks = nil // It is said once.
				b.greet()
			}
		}
	}
}

func (b *bench) greet() {
	b.say("Workload API: SPIFFE_ENDPOINT_SOCKET=unix://%s", b.socket())
	b.say("bundle endpoint: --bundle %s=https://%s/ --bundle-ca %s=%s", b.domain, b.endpoint, b.domain, filepath.Join(b.room, "ca.pem"))
	b.say("checks, --replay %s: http://%s/check", b.replay, b.listen)
	b.say("page: http://%s/", b.page)
	b.say("ready. Now: svidd mint --try")
}

// sidecar opens the guard. It takes its bundles from the Workload API, as one beside SPIRE does.
func (b *bench) sidecar(lines *guard.Lines) (*guard.Guard, error) {
	api := "unix://" + b.socket()
	address, err := workload.ParseAddress(api)
	if err != nil {
		return nil, err
	}
	longest := uint64((time.Duration(b.life) + devSlack) / time.Second)
	o := guard.Options{Audiences: []string{b.audience}, Bundles: []bundles.Spec{bundles.WorkloadAPI(api, address)}, Mode: guard.Mode(b.replay),
		Longest: longest, Ahead: guard.Exactly, Lines: lines, Failed: func(err error) { b.failed <- err }}
	needs := devModes[b.replay]
	if needs.callers {
		if o.Caller = b.caller; o.Caller == "" {
			o.Caller = "address:X-Real-Ip"
		}
	}
	if needs.store {
		o.Store = &memory.Store{Terms: guard.Terms(longest, 0)}
	}
	if needs.state {
		o.State = filepath.Join(b.room, "state")
	}
	return guard.Open(o)
}

func devServer(handler http.Handler) *http.Server {
	return &http.Server{Handler: handler, ReadHeaderTimeout: headerWait, IdleTimeout: idleWait, MaxHeaderBytes: svidhttp.MaxHeader}
}

// serve answers on an address from now on, over TLS where a configuration is given.
func (b *bench) serve(address string, server answerer, over *tls.Config) error {
	l, err := bind(address, private)
	if err != nil {
		return err
	}
	if over != nil {
		l = tls.NewListener(l, over)
	}
	b.servers = append(b.servers, served{address, server, l})
	go func() {
		if err := server.Serve(l); !errors.Is(err, http.ErrServerClosed) {
			b.failed <- err
		}
	}()
	return nil
}

// end ends the servers, once.
func (b *bench) end() { b.ending.Do(b.endAll) }

func (b *bench) endAll() {
	close(b.ended)
	b.rotating.Wait()
	ctx, cancel := context.WithTimeout(context.Background(), time.Second)
	defer cancel()
	for _, each := range b.servers {
		if each.server.Shutdown(ctx) != nil {
			each.server.Close()
		}
	}
}

// mint asks a running svidd dev for a token.
func mint(args []string, std stdio) int {
	var at string
	var asked dev.Ask
	var life seconds
	var audience list
	var fault string
	var try bool
	f := flagsOf("mint", func(f *flag.FlagSet) {
		f.StringVar(&at, "dev", "", "")
		f.StringVar(&asked.Subject, "subject", "", "")
		f.Var(&audience, "audience", "")
		f.Var(&life, "life", "")
		f.StringVar(&asked.JTI, "jti", "", "")
		f.StringVar(&fault, "fault", "", "")
		f.BoolVar(&try, "try", false, "")
	})
	if err := parse(f, new(string), args); err != nil {
		return fail(std, err)
	}
	if f.NArg() > 0 {
		return fail(std, fmt.Errorf("mint takes no argument, and got %.20q", f.Arg(0)))
	}
	if err := dev.CheckAddress(at); err != nil {
		return fail(std, fmt.Errorf("--dev: %w", err))
	}
	asked.Audience, asked.Life, asked.Fault = audience, life.value, issuer.Fault(fault)
	given, err := askMint(at, asked)
	if err != nil {
		return fail(std, err)
	}
	if !try {
		return show(std, given.Token+"\n")
	}
	fmt.Fprintf(std.out, "a token of %s for %s, until %s (%s)\n", given.Subject, strings.Join(given.Audience, ", "),
		time.Unix(given.Expires, 0).UTC().Format(time.RFC3339), dev.Mark)
	for _, from := range []string{"127.0.0.1", "127.0.0.1", "127.0.0.2"} {
		said, err := present(given, from)
		if err != nil {
			return fail(std, err)
		}
		fmt.Fprintf(std.out, "sent from %s: %s\n", from, said)
	}
	return exitYes
}

// askMint asks the mint at this address.
func askMint(at string, asked dev.Ask) (given dev.Given, err error) {
	text, err := json.Marshal(asked)
	if err != nil {
		return given, err
	}
	client := http.Client{Timeout: mintWait}
	answer, err := client.Post("http://"+at+"/mint", "application/json", bytes.NewReader(text))
	if err != nil {
		return given, fmt.Errorf("no svidd dev answers at %s: start one, or name its --page by --dev: %w", at, err)
	}
	defer answer.Body.Close()
	var said struct {
		dev.Given
		Error string
	}
	body, err := io.ReadAll(io.LimitReader(answer.Body, 1<<20))
	switch {
	case err != nil:
		return given, err
	case json.Unmarshal(body, &said) != nil || said.For != dev.Mark:
		return given, fmt.Errorf("what answers at %s is no svidd dev", at)
	case said.Error != "":
		return given, errors.New(said.Error)
	}
	return said.Given, nil
}

// present sends a token to the sidecar from an address of this machine, and returns the answer in words.
func present(given dev.Given, from string) (string, error) {
	dialer := net.Dialer{LocalAddr: &net.TCPAddr{IP: net.ParseIP(from)}, Timeout: mintWait}
	client := http.Client{Timeout: mintWait, Transport: &http.Transport{DialContext: dialer.DialContext, DisableKeepAlives: true}}
	request, err := http.NewRequest(http.MethodGet, given.Check, nil)
	if err != nil {
		return "", err
	}
	request.Header.Set("Authorization", "Bearer "+given.Token)
	answer, err := client.Do(request)
	if err != nil {
		return "", err
	}
	defer answer.Body.Close()
	if answer.StatusCode == http.StatusOK {
		return "200 accepted", nil
	}
	var why struct{ Result, Reason string }
	body, err := io.ReadAll(io.LimitReader(answer.Body, 1<<16))
	if err == nil {
		err = json.Unmarshal(body, &why)
	}
	return fmt.Sprintf("%d %s %s", answer.StatusCode, why.Result, why.Reason), err
}
