package server

import (
	"bytes"
	"context"
	"encoding/json"
	"io"
	"net/http"
	"net/http/httptest"
	"sync"
	"syscall"
	"testing"
	"time"

	"svid.example/go/v3/carriers"
	"svid.example/go/v3/claims"
	"svid.example/go/v3/claims/memory"
	"svid.example/go/v3/internal/issuer"
	"svid.example/go/v3/internal/patience"
	"svid.example/go/v3/svid"
)

const moment = 1_767_225_600

var example = func() *issuer.Issuer {
	i, err := issuer.New("example.org")
	if err != nil {
		panic(err)
	}
	return i
}()

// A disk is a Journal that keeps what is appended, and fails when a test wants that.
type disk struct {
	mu     sync.Mutex
	kept   []byte
	fault  error
	before func()        // called as an append begins
	hangs  chan struct{} // where it is not nil, an append waits for it
	full   error         // of KeepUses, at once
}

func (d *disk) AppendUses(ctx context.Context, uses ...svid.Use) error {
	return d.append(ctx, func() { d.kept = append(d.kept, batchesOf(uses)...) })
}

func (d *disk) KeepUses(kept func(error), uses ...svid.Use) error {
	if d.full != nil {
		return d.full
	}
	go func() { kept(d.AppendUses(context.Background(), uses...)) }()
	return nil
}

func (d *disk) Room(context.Context) error { return nil }
func (d *disk) Moved() bool                { return false }

func (d *disk) append(ctx context.Context, keep func()) error {
	if d.before != nil {
		d.before()
	}
	if d.hangs != nil {
		select {
		case <-d.hangs:
		case <-ctx.Done():
			return ctx.Err()
		}
	}
	d.mu.Lock()
	defer d.mu.Unlock()
	if d.fault != nil {
		return d.fault
	}
	keep()
	return nil
}

func (d *disk) Size() int64 {
	d.mu.Lock()
	defer d.mu.Unlock()
	return int64(len(d.kept))
}

func (d *disk) Snapshot(write func(io.Writer) error) error {
	var b bytes.Buffer
	if err := write(&b); err != nil {
		return err
	}
	d.mu.Lock()
	defer d.mu.Unlock()
	d.kept = b.Bytes()
	return nil
}

// A broker is a bucket in memory: a log, which each member reads in its order. Each member of the group is a tie to it.
type broker struct {
	mu      sync.Mutex
	log     []stored
	members []*tie
}

type stored struct {
	by      *tie
	kind    carriers.Kind
	number  uint64
	message []byte
}

// put stores a value, and lets all members read who are not held.
func (b *broker) put(v stored) {
	b.mu.Lock()
	defer b.mu.Unlock()
	b.log = append(b.log, v)
	for _, m := range b.members {
		m.read()
	}
}

// uses are the uses of the log's values, in their order.
func (b *broker) uses(t *testing.T) (all []svid.Use) {
	b.mu.Lock()
	defer b.mu.Unlock()
	for _, v := range b.log {
		uses, err := svid.Uses(v.message)
		if err != nil {
			t.Fatal(err)
		}
		all = append(all, uses...)
	}
	return all
}

// A tie is a member's Group.
type tie struct {
	*broker
	engine *Engine
	ready  chan struct{}
	fault  error         // what Put answers, after storing the value; guarded by broker.mu, as the next one
	answer chan struct{} // Put waits for it, after storing the value
	forged []byte        // stands in the place of the value that Put stores, if it is set
	aside  int

	// Of reading the log, guarded by broker.mu.
	held bool
	done int
	gap  uint64 // so many values are gone in front of the next one
}

func (t *tie) Ready() <-chan struct{} { return t.ready }
func (t *tie) Taken() uint64          { return 0 }
func (t *tie) Aside() uint64          { return 0 }
func (t *tie) Connected() bool        { return true }

func (t *tie) Put(ctx context.Context, kind carriers.Kind, number uint64, message []byte) error {
	t.mu.Lock()
	if t.forged != nil {
		message = t.forged
	}
	answer := t.answer
	t.mu.Unlock()
	t.put(stored{t, kind, number, message})
	if answer != nil {
		select {
		case <-answer:
		case <-ctx.Done():
			return ctx.Err()
		}
	}
	t.mu.Lock()
	defer t.mu.Unlock()
	return t.fault
}

func (t *tie) Stored(context.Context, carriers.Kind, uint64) (time.Time, error) {
	return time.Unix(moment, 0), nil
}

// hold lets the member read nothing, or all that it has not read. The caller does not hold mu.
func (t *tie) hold(held bool) {
	t.mu.Lock()
	defer t.mu.Unlock()
	t.held = held
	t.read()
}

func (t *tie) read() {
	if t.held || t.done == len(t.log) {
		return
	}
	var values []carriers.Value
	for i, v := range t.log[t.done:] {
		values = append(values, carriers.Value{Kind: v.kind, Position: uint64(t.done+i+1) + t.gap, Message: v.message})
	}
	t.done = len(t.log)
	for _, err := range t.engine.Take(values) {
		if err != nil {
			t.aside++
		}
	}
}

// join makes an engine a member.
func (b *broker) join(e *Engine) *tie {
	m := &tie{broker: b, engine: e, ready: make(chan struct{})}
	close(m.ready)
	b.members = append(b.members, m)
	e.Join(m)
	return m
}

func engine(t testing.TB, o Options) *Engine {
	t.Helper()
	o.Audiences, o.Longest, o.Ahead = []string{"ledger", "audit"}, 3600, 30
	if o.Now == nil {
		o.Now = func() uint64 { return moment }
	}
	if o.Wait == 0 {
		o.Wait = patience.Long
	}
	if o.ValidatorID == (svid.ValidatorID{}) {
		o.ValidatorID = svid.ValidatorID{1}
	}
	e, err := NewEngine(o)
	if err != nil {
		t.Fatal(err)
	}
	t.Cleanup(e.Close)
	t.Cleanup(soon(t))
	return e
}

// soon ends all tests where this one hangs: earlier than the test tool's own limit would, and later than a test waits for something. One that
// works has more time, some times over: a busy machine gives it little of a processor.
func soon(t testing.TB) (ended func()) {
	const mostLooks, works = 5, 2 * time.Second
	var mu sync.Mutex
	var next *time.Timer
	looks, before, isOver := 0, worked(t), false
	var look func()
	look = func() {
		mu.Lock()
		defer mu.Unlock()
		if isOver {
			return
		}
		now := worked(t)
		if looks++; looks == mostLooks || now-before < works {
			panic(t.Name() + " hangs")
		}
		before = now
		next.Reset(patience.Long + 50*time.Second)
	}
	mu.Lock()
	defer mu.Unlock()
	next = time.AfterFunc(patience.Long+50*time.Second, look)
	return func() {
		mu.Lock()
		defer mu.Unlock()
		isOver = true
		next.Stop()
	}
}

// worked is for how long this process has had a processor.
func worked(t testing.TB) time.Duration {
	var usage syscall.Rusage
	if err := syscall.Getrusage(syscall.RUSAGE_SELF, &usage); err != nil {
		t.Error(err)
	}
	return time.Duration(usage.Utime.Nano() + usage.Stime.Nano())
}

// ready gives an engine its bundles and an empty record.
func ready(t testing.TB, e *Engine) *Engine {
	t.Helper()
	if err := e.SetBundles(map[string]json.RawMessage{"example.org": example.JWKSet()}); err != nil {
		t.Fatal(err)
	}
	if err := e.Load(nil); err != nil {
		t.Fatal(err)
	}
	return e
}

// A shop is a group's store in memory, which a test can hold and let fail.
type shop struct {
	memory.Store
	mu    sync.Mutex
	calls [][]claims.Claim // that came
	held  chan struct{}    // Put answers once it is closed; nil answers at once
	fault error            // what is answered to each claim, which is stored all the same
}

func newShop() *shop {
	return &shop{Store: memory.Store{Now: func() uint64 { return moment }, Terms: claims.Terms{Lasts: 3660, Margin: 90, Back: 60}}}
}

func (s *shop) Put(ctx context.Context, these []claims.Claim, found []claims.Found) {
	s.Store.Put(ctx, these, found)
	s.mu.Lock()
	s.calls = append(s.calls, append([]claims.Claim(nil), these...))
	held, fault := s.held, s.fault
	s.mu.Unlock()
	if held != nil {
		select {
		case <-held:
		case <-ctx.Done():
			fault = ctx.Err()
		}
	}
	for i := range found {
		if fault != nil {
			found[i] = claims.Found{Err: fault}
		}
	}
}

// hold lets no Put answer before the function that it returns was called.
func (s *shop) hold() (release func()) {
	s.mu.Lock()
	defer s.mu.Unlock()
	held := make(chan struct{})
	s.held = held
	return func() {
		s.mu.Lock()
		defer s.mu.Unlock()
		s.held = nil
		close(held)
	}
}

// fail lets each Put answer this.
func (s *shop) fail(err error) {
	s.mu.Lock()
	defer s.mu.Unlock()
	s.fault = err
}

// puts is how many calls came.
func (s *shop) puts() int {
	s.mu.Lock()
	defer s.mu.Unlock()
	return len(s.calls)
}

// use gives an engine the store.
func (s *shop) use(t testing.TB, e *Engine) *Engine {
	t.Helper()
	state, err := s.Open(context.Background())
	if err != nil {
		t.Fatal(err)
	}
	e.UseStore(s, state)
	return e
}

// inStrict are options of mode strict.
func inStrict(o Options) Options {
	o.Mode, o.Stored, o.Terms = Strict, true, claims.Terms{Lasts: 3660, Margin: 90, Back: 60}
	return o
}

// strict returns engines of one group in mode strict.
func strict(t testing.TB, n int) ([]*Engine, *shop) {
	t.Helper()
	return strictWithin(t, n, 0)
}

// strictWithin returns such whose requests wait for so long.
func strictWithin(t testing.TB, n int, wait time.Duration) ([]*Engine, *shop) {
	t.Helper()
	s := newShop()
	var all []*Engine
	for i := 0; i < n; i++ {
		all = append(all, s.use(t, ready(t, engine(t, inStrict(Options{ValidatorID: svid.ValidatorID{byte(i + 1)}, Wait: wait})))))
	}
	return all, s
}

func token(id string) string {
	return example.Token("ES256", map[string]any{"sub": "spiffe://example.org/web", "aud": "ledger", "exp": moment + 300, "jti": id})
}

func check(e *Engine, token string) error {
	_, err := e.Check(context.Background(), token)
	return err
}

func saved(t testing.TB, e *Engine) []byte {
	t.Helper()
	var b bytes.Buffer
	if err := e.Save(&b); err != nil {
		t.Fatal(err)
	}
	return b.Bytes()
}

// wantUses wants all records equal, with so many uses.
func wantUses(t *testing.T, all []*Engine, want int) {
	t.Helper()
	first := saved(t, all[0])
	if uses, err := svid.Uses(first); err != nil || len(uses) != want {
		t.Errorf("%d uses, want %d (%v)", len(uses), want, err)
	}
	for _, e := range all[1:] {
		if !bytes.Equal(saved(t, e), first) {
			t.Error("the records differ")
		}
	}
}

// claimed sends a token to an engine, and returns once a call with its claim is in the store.
func claimed(t *testing.T, s *shop, e *Engine, token string) (answer chan error) {
	t.Helper()
	before := s.puts()
	answer = make(chan error, 1)
	go func() { answer <- check(e, token) }()
	await(t, "the claim", func() bool { return s.puts() > before })
	return answer
}

// givenUp sends a token to an engine of mode strict or bound that gives the request up once the claim is put: the store is to be held, or to fail. On
// a busy machine the request's time may be over before that, so the next engine has twice as long.
func givenUp(t *testing.T, s *shop, o Options, check func(e *Engine) error) (e *Engine, err error) {
	t.Helper()
	for o.Wait = 50 * time.Millisecond; o.Wait <= 2*patience.Long; o.Wait *= 2 {
		before := s.puts()
		e = s.use(t, ready(t, engine(t, o)))
		if err = check(e); s.puts() > before {
			return e, err
		}
	}
	t.Fatalf("no claim is put, and the answer is %v", err)
	return nil, nil
}

// wantClaims wants so many claims to have ended in each way.
func wantClaims(t *testing.T, e *Engine, won, lost, failed uint64) {
	t.Helper()
	m := &e.Metrics
	if w, l, f := m.ClaimsWon.Load(), m.ClaimsLost.Load(), m.ClaimsFailed.Load(); w != won || l != lost || f != failed {
		t.Errorf("%d claims won, %d lost, %d failed; want %d, %d, %d", w, l, f, won, lost, failed)
	}
	if n := withMachine(e, keptOf); n != 0 {
		t.Errorf("%d claims are kept", n)
	}
}

// request sends one to a handler.
func request(h http.Handler, method, target string, authorization ...string) *httptest.ResponseRecorder {
	r := httptest.NewRequest(method, "http://svidd/", nil)
	r.URL.Path = target
	for _, a := range authorization {
		r.Header.Add("Authorization", a)
	}
	w := httptest.NewRecorder()
	h.ServeHTTP(w, r)
	return w
}

func await(t *testing.T, what string, is func() bool) {
	t.Helper()
	for end := time.Now().Add(patience.Long); !is(); time.Sleep(10 * time.Millisecond) {
		if time.Now().After(end) {
			t.Fatalf("waited in vain for %s", what)
		}
	}
}

// takeAll gives an engine messages as a group does.
func takeAll(e *Engine, kind carriers.Kind, messages ...[]byte) (aside int) {
	values := make([]carriers.Value, len(messages))
	for i, m := range messages {
		values[i] = carriers.Value{Kind: kind, Message: m}
	}
	for _, err := range e.Take(values) {
		if err != nil {
			aside++
		}
	}
	return aside
}

// doing is an event by which a test does something to the machine of an engine.
type doing func(m *Machine)

func (d doing) happen(m *Machine) { d(m) }

// kept waits until all that came is on the disk, or could not be kept.
func kept(t testing.TB, e *Engine) {
	t.Helper()
	for end := time.Now().Add(patience.Long); ; time.Sleep(time.Millisecond) {
		e.mu.Lock()
		keeping := e.machine.isKeeping() || e.machine.keeper.again != nil
		e.mu.Unlock()
		if !keeping {
			return
		}
		if time.Now().After(end) {
			t.Fatal("the disk was waited for in vain")
		}
	}
}

// keptOf is how many requests and claims are kept. (What was answered goes when its claim would be put.)
func keptOf(m *Machine) int {
	kept := len(m.requests)
	for _, one := range append(m.claims.later, retry{0, m.claims.waiting}) {
		for _, r := range one.requests {
			if !r.answered {
				kept++
			}
		}
	}
	return kept
}

// untold is how many uses wait to be told to the group.
func untold(m *Machine) int { return len(m.tale.untold) }

// at counts the requests that are so far.
func at(is stage) func(m *Machine) int {
	return func(m *Machine) (n int) {
		for _, r := range m.requests {
			if r.stage == is {
				n++
			}
		}
		return n
	}
}

// again lets an engine give the disk once more what it did not take, and waits for that.
func again(t testing.TB, e *Engine) {
	t.Helper()
	e.step(doing((*Machine).keepAgain))
	kept(t, e)
}
