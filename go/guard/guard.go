// Package guard accepts each token once, keeps that over restarts and shares it with a group: the sidecar svidd within a service.
//
//	g, err := guard.Open(guard.Options{Audiences: []string{"ledger"}, Bundles: specs, State: "/var/lib/ledger/svid"})
//	..
//	defer g.Close()
//	http.Handle("/", g.Protect(handler))
//
// A Guard ties these packages: svid judges, bundles reads the keys, journal keeps what was accepted, and a store of package claims
// or a log of package carriers shares it. docs/SIDECAR.md says what each Mode promises, and what an operator does about faults: a Guard is what svidd runs.
package guard

import (
	"context"
	"encoding/json"
	"errors"
	"fmt"
	"io"
	"net"
	"net/http"
	"path/filepath"
	"runtime/debug"
	"sync"
	"time"

	"svid.example/go/v3/bundles"
	"svid.example/go/v3/carriers"
	"svid.example/go/v3/claims"
	"svid.example/go/v3/claims/local"
	"svid.example/go/v3/internal/server"
	"svid.example/go/v3/journal"
	"svid.example/go/v3/svid"
	"svid.example/go/v3/svidhttp"
)

// A Mode is what an acceptance means for the next time that the token comes.
type Mode = server.Mode

// The modes.
const (
	Once   Mode = server.Once   // a token is accepted once by this guard, and the group hears of it at once
	Strict Mode = server.Strict // a token is accepted once in the whole group
	Bound  Mode = server.Bound  // a token is accepted from the caller that used it first in the group, again and again
	Reuse  Mode = server.Reuse  // a token is accepted until it expires or is withdrawn
)

// Lines are a log of one JSON object a line, as docs/SIDECAR.md has them ("Logs"). No line has a token in it.
type Lines = server.Log

// A Level is how much Lines have.
type Level = server.Level

// The levels. Each has what the one before it has.
const (
	Errors    Level = server.Errors    // what an operator must look at
	Decisions Level = server.Decisions // and a line for each judged token, and each start, end and reload
	All       Level = server.All       // and what the group says
)

// NewLines returns a log that writes to out what the level has. A goroutine writes it, so no request waits for out. If out hangs or fails, a
// mebibyte of lines waits, and others are dropped: Lines.Dropped counts them, and a later line says so. Call Lines.Close before the process
// ends, or the last lines may be lost.
func NewLines(out io.Writer, level Level) *Lines {
	return server.NewLog(server.NewOutlet(out), level)
}

const (
	// clockStep is how many seconds the clock may go ahead at once, as it does where the machine was suspended.
	clockStep      = 600
	usualLongest   = 3600
	usualAhead     = 30
	usualWait      = 2 * time.Second
	usualSummaries = 5 * time.Minute
	mostLongest    = 100 * 365 * 24 * 3600 // keeps sums of times far from any limit
	mostAhead      = 24 * 3600
)

// ErrClock: the clock went ahead by more than ten minutes, and stayed there. The guard accepts nothing from then on.
var ErrClock = fmt.Errorf("the clock went ahead by more than %d seconds, and stayed there for a minute: open a new guard, and it takes the clock as it is", clockStep)

// ErrNotAllowed: no pattern of Options.Allow allows the token's subject. The token is good, and it is not used up.
var ErrNotAllowed = svidhttp.ErrNotAllowed

// ErrNoCaller: in mode Bound, the request does not say who presents the token, so the guard did not judge it.
var ErrNoCaller = server.ErrNoCaller

// Options say what a guard is for. Audiences and Bundles must be given, and State, unless Mode is Reuse or Store is given.
type Options struct {
	Audiences []string       // the names of this service: a token is for it if its `aud` has one of them
	Bundles   []bundles.Spec // where the trust bundles come from: bundles.Parse, bundles.Folder, bundles.WorkloadAPI
	Allow     []string       // patterns of the SPIFFE IDs that may call (svid.Allows); nil allows all, and an empty list is an error
	Mode      Mode           // "" is Once, or Strict where Store is given
	Caller    string         // in mode Bound, and to report a second caller of a token in mode Reuse: what names the caller of a request for Protect and Handler, as --caller of svidd has it (docs/SIDECAR-REFERENCE.md); "peer" is the address of the connection to Protect, and "principal" the first URI of the client's certificate there. "" where WithCaller alone says it
	State     string         // the folder that keeps what was accepted over restarts; "" for none
	Store     claims.Store   // the group's: of package claims/redis, claims/postgres or claims/nats, opened with Terms. In modes Strict and Bound each token is claimed there; in all but Strict withdrawals are read there. Close closes it. In mode Bound nil is a store in the folder claims of State, for this guard alone
	Log       carriers.Log   // of a group in mode Once: Options of package jetstream; nil without one
	Longest   uint64         // seconds that a token may still live; 0 is 3600
	Ahead     uint64         // seconds that the clocks of the group may differ; 0 is 30, and Exactly is 0
	RSABits   int            // how many bits an RSA key may have, as svid.KeyringOptions has it
	Wait      time.Duration  // how long one request may wait for the disk, the group and the store; 0 is two seconds
	Summaries time.Duration  // the time between two repairs, in a group of mode Once; 0 is five minutes
	Lines     *Lines         // what happens, as NewLines makes them; nil for none. Close does not close them
	Now       func() uint64  // the clock; nil is svid.Now

	// Failed is called with what the guard can't go on without: ErrClock, a store that is unfit, or a group's log that can't be
	// joined. The guard accepts nothing from then on. It may be nil. It has a goroutine of its own, so it may call
	// Close; and it may be called before Open returns.
	Failed func(error)
}

// Exactly, as Options.Ahead, says that clocks of the group don't differ.
const Exactly = svid.NoLimit

var errNoAudience = errors.New("guard: Options.Audiences is empty: give the names of this service, or no token is for it")

// usual returns the options with what they leave out.
func (o Options) usual() (Options, error) {
	if o.Mode == "" && o.Store != nil {
		o.Mode = Strict
	} else if o.Mode == "" {
		o.Mode = Once
	}
	if o.Longest == 0 {
		o.Longest = usualLongest
	}
	switch o.Ahead {
	case 0:
		o.Ahead = usualAhead
	case Exactly:
		o.Ahead = 0
	}
	if o.Wait == 0 {
		o.Wait = usualWait
	}
	if o.Summaries == 0 {
		o.Summaries = usualSummaries
	}
	switch {
	case len(o.Audiences) == 0:
		return o, errNoAudience
	case len(o.Bundles) == 0:
		return o, errors.New("guard: Options.Bundles is empty: say where the trust bundles come from, as by bundles.Parse")
	case o.Mode == Once && o.State == "":
		return o, errors.New("guard: Options.State is empty: in mode once the record is kept there, since a token that was accepted before a restart must not be accepted after it")
	case o.Mode == Strict && o.Store == nil:
		return o, errors.New("guard: Options.Store is nil: in mode strict each token is claimed in the group's store")
	case o.Mode == Bound && o.Store == nil && o.State == "":
		return o, errors.New("guard: Options.Store and Options.State are empty: in mode bound the group's store has which caller used a token first, or the state folder of a single guard")
	case o.Mode != Bound && o.Mode != Reuse && o.Caller != "":
		return o, errors.New("guard: Options.Caller is for modes bound and reuse: in the others it does not count who presents a token")
	case o.Mode != Once && o.Log != nil:
		return o, errors.New("guard: Options.Log is for mode once, whose members tell each other of their uses: a group of another mode shares Options.Store")
	case o.Mode != Once && o.Mode != Strict && o.Mode != Bound && o.Mode != Reuse:
		return o, fmt.Errorf("guard: Options.Mode %q is none of once, strict, bound and reuse", o.Mode)
	case o.Wait < 0 || o.Summaries < 0:
		return o, errors.New("guard: Options.Wait and Options.Summaries are not negative, and 0 is what is usual")
	case o.Longest > mostLongest || o.Ahead > mostAhead:
		return o, fmt.Errorf("guard: Options.Longest is at most %d, and Options.Ahead at most %d", uint64(mostLongest), uint64(mostAhead))
	}
	if err := server.CheckCallers(o.Allow); err != nil {
		return o, fmt.Errorf("guard: Options.Allow: %w", err)
	}
	if o.Caller != "" {
		if _, err := server.ParseCaller(o.Caller); err != nil {
			return o, fmt.Errorf("guard: Options.Caller: %w", err)
		}
	}
	return o, nil
}

// Keep is how long the group's log keeps a value: a token lives for longest seconds by the clock of who accepts it, and that clock
// and the one of who asks may both be off by ahead.
func Keep(longest, ahead uint64) time.Duration {
	return time.Duration(Terms(longest, ahead).Lasts) * time.Second
}

// StepBack is how many seconds the clock of a group's store may step back, also by a failover.
const StepBack = 60

// leastMargin is the least part of a store's margin that is for members' clocks: so members whose Ahead differs share a store.
const leastMargin = 60

// Terms are those of the store of a group whose members have these Options.Longest and Options.Ahead.
func Terms(longest, ahead uint64) claims.Terms {
	margin := ahead
	if margin < leastMargin {
		margin = leastMargin
	}
	return claims.Terms{Lasts: svid.StaysUntil(longest, 2*ahead), Margin: margin + StepBack, Back: StepBack}
}

// A Guard accepts tokens. Its methods may be called by many goroutines at once.
type Guard struct {
	options Options
	engine  *server.Engine
	caller  *server.CallerRule // nil without Options.Caller
	journal *journal.Journal   // nil without a state folder
	follows following
	life    context.Context // ends with Run or Close
	end     context.CancelFunc
	group   carriers.Group // nil until it is joined; Run sets it, and Close reads it after Run

	ran     sync.WaitGroup // what Open began
	calls   sync.RWMutex   // held for reading by each call that Close waits for; guards closed
	closed  bool
	closing sync.Once
}

// Open returns a guard that runs until Close. It reads the record, and whatever bundles can be read now. Others may come later, and
// so may the servers of the group's store and log: Ready says whether all is there.
func Open(o Options) (*Guard, error) {
	g, err := New(o)
	if err != nil {
		return nil, err
	}
	if err := g.Load(); err != nil {
		g.Close()
		return nil, err
	}
	g.ran.Add(1)
	go func() { defer g.ran.Done(); g.Run(g.life) }()
	return g, nil
}

// New returns a guard that accepts nothing before Load and Run, for a program that wants to answer meanwhile. Open does all three.
func New(o Options) (g *Guard, err error) {
	if o, err = o.usual(); err != nil {
		return nil, err
	}
	g = &Guard{options: o}
	g.life, g.end = context.WithCancel(context.Background())
	defer func() {
		if err != nil {
			g.Close()
			g = nil
		}
	}()
	id, err := svid.NewValidatorID()
	if err != nil {
		return g, err
	}
	var kept server.Journal
	if o.State != "" {
		if g.journal, err = journal.Open(o.State); err != nil {
			return g, err
		}
		kept, id = g.journal, g.journal.ValidatorID()
	}
	if o.Mode == Bound && o.Store == nil {
		o.Store = local.New(local.Options{Dir: filepath.Join(o.State, "claims"), Terms: Terms(o.Longest, o.Ahead), Now: o.Now})
		g.options.Store = o.Store
	}
	if o.Caller != "" {
		if g.caller, err = server.ParseCaller(o.Caller); err != nil {
			return g, err
		}
	}
	g.engine, err = server.NewEngine(server.Options{
		Mode: o.Mode, Caller: g.caller, Audiences: o.Audiences, Allow: o.Allow, Domains: domainsOf(o.Bundles), RSABits: o.RSABits, Longest: o.Longest, Ahead: o.Ahead,
		Step: clockStep, Jumped: func() { g.fail(ErrClock) }, ValidatorID: id, Journal: kept, Grouped: o.Log != nil, Stored: o.Store != nil, Terms: Terms(o.Longest, o.Ahead), Wait: o.Wait, Log: o.Lines,
		Now: o.Now,
	})
	if err != nil {
		return g, err
	}
	if err := g.Follow(o.Bundles); err != nil {
		return g, err
	}
	g.engine.Missing = func() error { return g.follows.watcher.Load().Fault() }
	g.engine.Metrics.BundleAges = func() map[string]time.Duration { return g.follows.watcher.Load().Ages() }
	return g, nil
}

// Load reads the record of the state folder.
func (g *Guard) Load() error {
	if g.journal == nil {
		return g.engine.Load(nil)
	}
	err := g.journal.Load(g.engine.Feed)
	debug.FreeOSMemory() // of the files, which may be as large as the record
	if err != nil {
		return err
	}
	for _, f := range g.journal.Torn() {
		g.options.Lines.Event("journal torn", "file", f.Name, "at", f.At, "bytes", f.Rest, "why", "a crash left them of a write that nobody was answered for")
	}
	if wants, must := g.journal.WantsSnapshot(); wants {
		err := g.journal.Snapshot(g.engine.Save)
		if must && err != nil || errors.Is(err, svid.ErrFolderEnded) {
			return err
		}
		if err != nil {
			g.options.Lines.Error("snapshot", err)
		}
	}
	return g.engine.Load(nil)
}

// Run keeps the record and shares it with the group, until ctx ends. It returns once everything that waited for the group was sent or given up,
// and the last snapshot is taken.
func (g *Guard) Run(ctx context.Context) {
	var joining sync.WaitGroup
	if g.options.Log != nil {
		joining.Add(1)
		go func() { defer joining.Done(); g.join(ctx) }()
	}
	if g.options.Store != nil {
		joining.Add(1)
		go func() { defer joining.Done(); g.openStore(ctx) }()
	}
	g.engine.Run(ctx)
	joining.Wait()
	g.end()
}

// openStore opens the group's store, however long its server takes to come up.
func (g *Guard) openStore(ctx context.Context) {
	state, err := g.options.Store.Open(ctx)
	if err != nil {
		if ctx.Err() == nil {
			g.fail(err)
		}
		return
	}
	g.options.Lines.Event("store", "epoch", state.Epoch, "until", state.Deaf)
	g.engine.UseStore(g.options.Store, state)
}

// join joins the group, however long its broker takes to come up.
func (g *Guard) join(ctx context.Context) {
	o := g.options
	tie, err := o.Log.Join(ctx, carriers.Options{ValidatorID: g.engine.ValidatorID, Keep: Keep(o.Longest, o.Ahead), Log: g.said}, g.engine)
	if err != nil {
		if ctx.Err() == nil {
			g.fail(err)
		}
		return
	}
	if repairs, ok := tie.(carriers.Repairer); ok {
		repairs.Summaries(o.Summaries, g.engine.Summary, g.engine.Answers)
	}
	g.group = tie
	g.engine.Join(tie)
	select {
	case <-tie.Ready():
		o.Lines.Event("group", "name", o.Log.GroupName(), "taken", tie.Taken(), "aside", tie.Aside())
	case <-ctx.Done():
	}
}

// Close ends the guard, and frees what it holds. It lets calls of Check that are under way end, for Options.Wait at the most; later ones
// answer svid.ErrClosed. Where New was called, let Run end before. Who serves Handler or Admin ends that before, too.
func (g *Guard) Close() {
	g.closing.Do(func() {
		g.calls.Lock()
		g.closed = true
		g.calls.Unlock()
		g.end()
		g.ran.Wait()
		if g.group != nil {
			g.group.Close()
		}
		if g.options.Store != nil {
			if err := g.options.Store.Close(); err != nil {
				g.options.Lines.Error("store", err)
			}
		}
		if g.journal != nil {
			if err := g.journal.Close(); err != nil {
				g.options.Lines.Error("journal", err)
			}
		}
		if g.engine != nil {
			g.engine.Close()
		}
	})
}

// fail reports an error that the guard can't go on after.
func (g *Guard) fail(err error) {
	if g.options.Failed != nil {
		go g.options.Failed(err) // Who calls this holds what Close waits for.
	} else {
		g.options.Lines.Error("end", err)
	}
}

// said logs what the packages bundles and carriers say: as an error if they say why something did not work.
func (g *Guard) said(event string, fields ...any) {
	for i := 0; i+1 < len(fields); i += 2 {
		if err, ok := fields[i+1].(error); ok && fields[i] == "why" {
			g.options.Lines.Error(event, err, append(append([]any(nil), fields[:i]...), fields[i+2:]...)...)
			return
		}
	}
	g.options.Lines.Event(event, fields...)
}

// Check accepts a token, and makes that last as the Mode says. The error is nil for an accepted token, a svid.Refusal or
// ErrNotAllowed for one that is not, and any other error if there is no answer about the token: it is not accepted then. In mode
// Bound WithCaller says who presents the token: without it, the error is ErrNoCaller.
func (g *Guard) Check(ctx context.Context, token string) (svid.Accepted, error) {
	if !g.enter() {
		return svid.Accepted{}, svid.ErrClosed
	}
	defer g.calls.RUnlock()
	return g.engine.Check(ctx, token)
}

// enter begins a call that Close waits for, unless the guard is closed.
func (g *Guard) enter() bool {
	g.calls.RLock()
	if g.closed {
		g.calls.RUnlock()
		return false
	}
	return true
}

// ReasonOf is the word for an error of Check that is no answer about the token, as a client gets it.
func (g *Guard) ReasonOf(err error) string { return g.engine.ReasonOf(err) }

// WithCaller returns a context by which Check knows, in mode Bound, who presents the token. The name must come from what a thief of the token
// does not have: the address of the connection, or the client's certificate. Two requests of one name are of one caller. All members of a group
// must name a caller alike.
func WithCaller(ctx context.Context, name string) context.Context {
	return server.WithCaller(ctx, server.CallerNamed(name))
}

// Protect returns a handler that calls next for a request whose bearer token the guard accepts, as svidhttp.Protect does. In mode Bound the
// caller is the one of Options.Caller. Without that option it is the one of WithCaller, which a handler in front of this one gives the request.
func (g *Guard) Protect(next http.Handler) http.Handler {
	protected := svidhttp.Protect(g, next)
	if g.caller == nil {
		return protected
	}
	return http.HandlerFunc(func(w http.ResponseWriter, r *http.Request) {
		from := g.caller.Of(r.Header, sourceOf(r))
		protected.ServeHTTP(w, r.WithContext(server.WithCaller(r.Context(), from)))
	})
}

// sourceOf is what the connection of a request says of the client. A certificate counts only if Go has verified it (tls.Config.ClientAuth).
func sourceOf(r *http.Request) (s server.Source) {
	s.Address, _, _ = net.SplitHostPort(r.RemoteAddr)
	if r.TLS != nil && len(r.TLS.VerifiedChains) > 0 && len(r.TLS.VerifiedChains[0][0].URIs) > 0 {
		s.Principal = r.TLS.VerifiedChains[0][0].URIs[0].String()
	}
	return s
}

// Caller returns the accepted token of a request that came through Protect: its subject, and the use that the record has of it. For
// any other request it is empty.
func Caller(r *http.Request) svid.Accepted {
	accepted, _ := svidhttp.Caller(r)
	return accepted
}

// Ready returns nil if requests are to be sent here: tokens can be judged, and what is accepted can be kept.
func (g *Guard) Ready() error {
	if !g.enter() {
		return svid.ErrClosed
	}
	defer g.calls.RUnlock()
	return g.engine.Ready()
}

// Drain lets Ready return an error from now on. Tokens are still judged.
func (g *Guard) Drain() { g.engine.Drain() }

// A Withdrawn is what Withdraw did.
type Withdrawn struct {
	Use    svid.Use         // what the record gained
	UsedBy svid.ValidatorID // who accepted the token before, as the group's store has it; zeros where nobody did
}

// Withdraw withdraws a token whose signature is good, here and in the group, whether it was used or not. Where the error says that
// the group was not told, the token is withdrawn here, and the same call can be made again.
func (g *Guard) Withdraw(token string) (Withdrawn, error) {
	if !g.enter() {
		return Withdrawn{}, svid.ErrClosed
	}
	defer g.calls.RUnlock()
	found, err := g.engine.Find(token)
	if err != nil {
		return Withdrawn{}, err
	}
	return g.withdraw(found.Key, found.Expires)
}

// WithdrawKey does so by the key and the expiry of a token's use.
func (g *Guard) WithdrawKey(key svid.TokenKey, expires uint64) (Withdrawn, error) {
	if !g.enter() {
		return Withdrawn{}, svid.ErrClosed
	}
	defer g.calls.RUnlock()
	return g.withdraw(key, expires)
}

func (g *Guard) withdraw(key svid.TokenKey, expires uint64) (Withdrawn, error) {
	use, usedBy, err := g.engine.Withdraw(key, expires)
	return Withdrawn{use, usedBy}, err
}

// ValidatorID names this guard among all that share its record.
func (g *Guard) ValidatorID() svid.ValidatorID { return g.engine.ValidatorID }

// WriteMetrics writes what a Prometheus reads.
func (g *Guard) WriteMetrics(w io.Writer) error { return g.engine.WriteMetrics(w) }

// Handler answers /check, /metrics, /healthz and /readyz, as svidd does (docs/SIDECAR.md).
func (g *Guard) Handler() http.Handler { return g.engine.Handler() }

// Envoy answers Envoy's external authorization over gRPC, for a server of HTTP/2, as Handler does at /check.
func (g *Guard) Envoy() http.Handler { return g.engine.Envoy() }

// WithoutMetrics answers what Handler does, but not /metrics.
func (g *Guard) WithoutMetrics() http.Handler { return g.engine.WithoutMetrics() }

// Watched answers /metrics, /healthz and /readyz alone.
func (g *Guard) Watched() http.Handler { return g.engine.Watched() }

// Admin answers on svidd's admin socket. Nothing of it may be reachable by who may not withdraw tokens. reload is called on
// POST /reload.
func (g *Guard) Admin(reload func()) http.Handler {
	return g.AdminWith(func(context.Context) (Reloaded, error) { reload(); return Reloaded{Changed: []string{}}, nil })
}

// A Reloaded says which options a reload changed, and which of those count only after a restart.
type Reloaded = server.Reloaded

// AdminWith is Admin where POST /reload says what became of it. reload returns once all was read, or ctx has ended; its error is what the answer says.
func (g *Guard) AdminWith(reload func(ctx context.Context) (Reloaded, error)) http.Handler {
	return g.engine.Admin(reload)
}

// NoteReload lets the metrics say how a reload ended, which who runs the guard made.
func (g *Guard) NoteReload(err error) { g.engine.Metrics.Reloaded(err) }

// CheckBundle is the validator's own judgment of one bundle, for bundles.Options.Check.
func CheckBundle(domain string, document json.RawMessage) error {
	text, err := json.Marshal(map[string]json.RawMessage{domain: document})
	if err != nil {
		return err
	}
	return svid.CheckBundles(text)
}
