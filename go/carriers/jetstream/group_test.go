package jetstream

import (
	"bytes"
	"context"
	"encoding/binary"
	"errors"
	"fmt"
	"io"
	"net"
	"os"
	"path/filepath"
	"regexp"
	"runtime"
	"strings"
	"sync"
	"sync/atomic"
	"testing"
	"time"

	"github.com/nats-io/nats.go"

	"svid.example/go/v3/internal/broker"
	"svid.example/go/v3/internal/logtest"
	"svid.example/go/v3/internal/natstest"
	"svid.example/go/v3/internal/patience"
	"svid.example/go/v3/svid"
)

// The layout of a batch of version 2, as docs/FORMATS.md has it.
const (
	headLen = 17
	countAt = 13
	useLen  = 65
)

// batch is a batch of one use with this key and validator ID.
func batch(key [32]byte, id [16]byte) []byte {
	return batchOf(append(append(append(make([]byte, 7, useLen), 200), key[:]...), append(id[:], 0, 0, 0, 0, 0, 0, 0, 100, 0)...))
}

// batchOf is a batch of moment 100 with these uses.
func batchOf(uses ...[]byte) []byte {
	b := append([]byte("JSR\x02\x01"), make([]byte, headLen-5)...)
	binary.BigEndian.PutUint64(b[5:], 100)
	binary.BigEndian.PutUint32(b[countAt:], uint32(len(uses)))
	return append(b, bytes.Join(uses, nil)...)
}

func key(n int) (k [32]byte) {
	binary.BigEndian.PutUint64(k[:], uint64(n))
	return k
}

// A sink keeps values in their order, and puts aside what does not begin as a batch.
type sink struct {
	mu    sync.Mutex
	begun []Log
	held  map[string]bool
	order []Value
	most  int // values at once
}

func (s *sink) Begin(log Log) {
	s.mu.Lock()
	defer s.mu.Unlock()
	s.begun = append(s.begun, log)
}

// begins are the beginnings so far.
func (s *sink) begins() []Log {
	s.mu.Lock()
	defer s.mu.Unlock()
	return append([]Log(nil), s.begun...)
}

func (s *sink) Take(values []Value) (errs []error) {
	s.mu.Lock()
	defer s.mu.Unlock()
	if s.held == nil {
		s.held = map[string]bool{}
	}
	if len(values) > s.most {
		s.most = len(values)
	}
	for i, v := range values {
		if !bytes.HasPrefix(v.Message, []byte("JSR\x02\x01")) {
			if errs == nil {
				errs = make([]error, len(values))
			}
			errs[i] = errors.New("no batch")
			continue
		}
		s.held[string(v.Message)] = true
		s.order = append(s.order, v)
	}
	return errs
}

// inOrder are the values that were taken so far.
func (s *sink) inOrder() []Value {
	s.mu.Lock()
	defer s.mu.Unlock()
	return append([]Value(nil), s.order...)
}

func (s *sink) has(m []byte) bool {
	s.mu.Lock()
	defer s.mu.Unlock()
	return s.held[string(m)]
}

// A member is a group as a test joins it, with its sink and what it logged.
type member struct {
	*Group
	sink
	id    [16]byte
	next  atomic.Uint64 // number
	logMu sync.Mutex
	lines []string
}

func (m *member) log(event string, fields ...any) {
	m.logMu.Lock()
	defer m.logMu.Unlock()
	m.lines = append(m.lines, fmt.Sprint(append([]any{event}, fields...)...))
}

// said are the lines so far.
func (m *member) said() []string {
	m.logMu.Lock()
	defer m.logMu.Unlock()
	return append([]string(nil), m.lines...)
}

func (m *member) logged(text string) bool { return m.logs(text) > 0 }

// logs is how many lines have a text.
func (m *member) logs(text string) (n int) {
	m.logMu.Lock()
	defer m.logMu.Unlock()
	for _, line := range m.lines {
		if strings.Contains(line, text) {
			n++
		}
	}
	return n
}

func options(id byte, urls ...string) Options {
	return Options{Servers: urls, Name: "test", ValidatorID: [16]byte{id}, TTL: time.Hour}
}

func patient(t testing.TB) context.Context {
	ctx, cancel := context.WithTimeout(context.Background(), patience.Long)
	t.Cleanup(cancel)
	return ctx
}

// join joins, and waits until it is ready.
func join(t *testing.T, o Options) *member {
	t.Helper()
	m := &member{id: o.ValidatorID}
	o.Log = m.log
	g, err := Join(patient(t), o, &m.sink)
	if err != nil {
		t.Fatal(err)
	}
	m.Group = g
	t.Cleanup(func() { g.Close() })
	awaitEnd(t, "a member to be ready", g.Ready())
	return m
}

// awaitEnd waits until a channel is closed.
func awaitEnd(t *testing.T, what string, end <-chan struct{}) {
	t.Helper()
	select {
	case <-end:
	case <-time.After(patience.Long):
		t.Fatalf("waited %v for %s", patience.Long, what)
	}
}

func tell(t *testing.T, m *member, n int) []byte {
	t.Helper()
	b := batch(key(n), m.id)
	if err := m.Put(patient(t), Uses, m.next.Add(1), b); err != nil {
		t.Fatal(err)
	}
	return b
}

func awaitHeld(t *testing.T, m *member, b []byte) {
	t.Helper()
	natstest.Await(t, "a batch", func() bool { return m.has(b) })
}

func TestTellsTheOthers(t *testing.T) {
	t.Parallel()
	s := natstest.Start(t)
	a, b := join(t, options(1, s.URL)), join(t, options(2, s.URL))
	use := tell(t, a, 1)
	awaitHeld(t, b, use)
	awaitHeld(t, a, use) // One's own come too.
	claimed := batch(key(2), b.id)
	if err := b.Put(patient(t), Claims, 7, claimed); err != nil {
		t.Fatal(err)
	}
	awaitHeld(t, a, claimed)
	awaitHeld(t, b, claimed)
	for _, m := range []*member{a, b} {
		wantValues(t, m, Value{Kind: Uses, Position: 1, Message: use}, Value{Kind: Claims, Position: 2, Message: claimed})
	}
	for n := 10; n < 200; n++ {
		use = tell(t, a, n)
	}
	c := join(t, options(3, s.URL))
	if got := c.Taken(); got != 192 || !c.has(use) {
		t.Fatalf("a member that came anew was ready with %d values, want 192", got)
	}
	wantBegins(t, a, Log{})
	wantBegins(t, c, Log{Ready: 192})
	if a.Aside() != 0 {
		t.Error(a.Aside(), a.said())
	}
}

// wantValues wants what a member has taken so far.
func wantValues(t *testing.T, m *member, want ...Value) {
	t.Helper()
	got := m.inOrder()
	for i := range got {
		got[i].From = ""
	}
	if fmt.Sprint(got) != fmt.Sprint(want) {
		t.Errorf("%v, want %v", got, want)
	}
}

// wantBegins wants the buckets that a member has heard of as begun.
func wantBegins(t *testing.T, m *member, want ...Log) {
	t.Helper()
	if got := m.begins(); fmt.Sprint(got) != fmt.Sprint(want) {
		t.Errorf("began %+v, want %+v", got, want)
	}
}

func TestKeysOfTheBucket(t *testing.T) {
	t.Parallel()
	s := natstest.Start(t)
	a := join(t, options(1, s.URL))
	tell(t, a, 1)
	if err := a.Put(patient(t), Claims, 3, batch(key(3), a.id)); err != nil {
		t.Fatal(err)
	}
	kv, err := natstest.JetStream(t, a.conn).KeyValue("test")
	if err != nil {
		t.Fatal(err)
	}
	names, err := kv.Keys()
	if err != nil {
		t.Fatal(err)
	}
	want := regexp.MustCompile("^\\[u.[0-9a-f]{32}.1.[0-9a-f]{16} c.[0-9a-f]{32}.3.[0-9a-f]{16}]$")
	if got := fmt.Sprint(names); !want.MatchString(got) || fmt.Sprintf("[%s %s]", a.keyOf(Uses, 1), a.keyOf(Claims, 3)) != got {
		t.Error(got)
	}
}

// All members read the values that they put at the same instant in one order, each once.
func TestValuesHaveOneOrder(t *testing.T) {
	t.Parallel()
	s := natstest.Start(t)
	members := []*member{join(t, options(1, s.URL)), join(t, options(2, s.URL)), join(t, options(3, s.URL))}
	for n := 0; n < 100; n++ {
		putAtOnce(t, members, n)
	}
	wantOneOrder(t, members, 600)
}

// putAtOnce lets each member put two values at the same instant.
func putAtOnce(t *testing.T, members []*member, n int) {
	t.Helper()
	errs := make(chan error)
	for i := 0; i < 2*len(members); i++ {
		go func(i int) {
			m := members[i/2]
			errs <- m.Put(patient(t), Claims, m.next.Add(1), batch(key(2*n+i%2), m.id))
		}(i)
	}
	for range members {
		for i := 0; i < 2; i++ {
			if err := <-errs; err != nil {
				t.Fatal(err)
			}
		}
	}
}

// wantOneOrder waits until each member has so many values, and wants the same ones in the same order, without a gap.
func wantOneOrder(t *testing.T, members []*member, want int) {
	t.Helper()
	var first []Value
	for i, m := range members {
		natstest.Await(t, "all values", func() bool { return len(m.inOrder()) >= want })
		got := m.inOrder()
		if n := len(m.begins()); n != 1 {
			t.Fatalf("member %d began %d times: %v", i, n, m.said())
		}
		if first == nil {
			first = got
		}
		if len(got) != want {
			t.Fatalf("member %d has %d values, want %d", i, len(got), want)
		}
		for j, v := range got {
			if !bytes.Equal(v.Message, first[j].Message) || v.Position != uint64(j+1) {
				t.Fatalf("member %d: value %d is another one", i, j)
			}
		}
	}
}

// A proxy stands before a server, and can hold back what the server says, or cut its connections. It knows what clients said.
type proxy struct {
	URL    string
	listen net.Listener
	mu     sync.Mutex
	free   *sync.Cond
	held   bool
	open   []net.Conn
	heard  bytes.Buffer
}

func newProxy(t *testing.T, server string) *proxy {
	l, err := net.Listen("tcp", "127.0.0.1:0")
	if err != nil {
		t.Fatal(err)
	}
	p := &proxy{URL: "nats://" + l.Addr().String(), listen: l}
	p.free = sync.NewCond(&p.mu)
	t.Cleanup(func() { l.Close(); p.cut(); p.hold(false) })
	go func() {
		for {
			client, err := l.Accept()
			if err != nil {
				return
			}
			up, err := net.Dial("tcp", strings.TrimPrefix(server, "nats://"))
			if err != nil {
				client.Close()
				continue
			}
			p.mu.Lock()
			p.open = append(p.open, client, up)
			p.mu.Unlock()
			go func() { io.Copy(io.MultiWriter(up, p), client); up.Close() }()
			go func() { p.back(client, up); client.Close() }()
		}
	}()
	return p
}

// Write keeps what a client said.
func (p *proxy) Write(said []byte) (int, error) {
	p.mu.Lock()
	defer p.mu.Unlock()
	return p.heard.Write(said)
}

// times is how often clients said something.
func (p *proxy) times(text string) int {
	p.mu.Lock()
	defer p.mu.Unlock()
	return strings.Count(p.heard.String(), text)
}

// back copies what the server says, when it is not held.
func (p *proxy) back(client, up net.Conn) {
	said := make([]byte, 4096)
	for {
		n, err := up.Read(said)
		p.mu.Lock()
		for p.held {
			p.free.Wait()
		}
		p.mu.Unlock()
		if _, werr := client.Write(said[:n]); err != nil || werr != nil {
			return
		}
	}
}

func (p *proxy) hold(held bool) {
	p.mu.Lock()
	defer p.mu.Unlock()
	p.held = held
	p.free.Broadcast()
}

func (p *proxy) cut() {
	p.mu.Lock()
	defer p.mu.Unlock()
	for _, c := range p.open {
		c.Close()
	}
	p.open = nil
}

// TestAPutWhoseAnswerIsLost lets the broker store a value, and holds back or cuts off its answer. The call must find that
// it is stored, once.
func TestAPutWhoseAnswerIsLost(t *testing.T) {
	t.Parallel()
	for name, after := range map[string]func(*proxy, *member){
		"late": func(p *proxy, a *member) {
			natstest.Await(t, "a second attempt", func() bool { return p.times("HPUB $KV.test."+a.keyOf(Claims, 1)+" ") > 1 })
			p.hold(false)
		},
		"cut": func(p *proxy, _ *member) { p.cut(); p.hold(false) },
	} {
		t.Run(name, func(t *testing.T) {
			s := natstest.Start(t)
			p := newProxy(t, s.URL)
			a, other := join(t, options(1, p.URL)), join(t, options(2, s.URL))
			b := batch(key(1), a.id)
			first := make(chan error)
			p.hold(true)
			go func() { first <- a.Put(patient(t), Claims, 1, b) }()
			awaitHeld(t, other, b) // It is stored, and its maker does not know.
			after(p, a)
			if err := <-first; err != nil {
				t.Fatal(err)
			}
			awaitHeld(t, a, tell(t, a, 9))
			wantValues(t, a, Value{Kind: Claims, Position: 1, Message: b}, Value{Kind: Uses, Position: 2, Message: batch(key(9), a.id)})
		})
	}
}

func TestPutWithoutABroker(t *testing.T) {
	t.Parallel()
	s := natstest.Start(t)
	a := join(t, options(1, s.URL))
	s.Kill()
	ctx, cancel := context.WithTimeout(context.Background(), 300*time.Millisecond)
	defer cancel()
	if err := a.Put(ctx, Claims, 1, batch(key(1), a.id)); !errors.Is(err, context.DeadlineExceeded) {
		t.Fatal(err)
	}
	natstest.Await(t, "the loss", func() bool { return !a.Connected() })
	restart(t, s)
	awaitHeld(t, a, tell(t, a, 2))
}

// While the broker does not answer, a value is sent less and less often: it may be slow, since it has much to do.
func TestAPutWaitsLongerEachTime(t *testing.T) {
	t.Parallel()
	s := natstest.Start(t)
	nc := natstest.Connect(t, s.URL)
	js, err := nc.JetStream()
	if err != nil {
		t.Fatal(err)
	}
	sent := make(chan time.Time, 100)
	if _, err := natstest.Connect(t, s.URL).Subscribe("$KV.test.>", func(*nats.Msg) { sent <- time.Now() }); err != nil {
		t.Fatal(err)
	}
	g := &Group{conn: nc, js: js, subject: "$KV.test.", member: "a"}
	ctx, cancel := context.WithCancel(patient(t))
	done, begun := make(chan error), time.Now()
	go func() { done <- g.Put(ctx, Uses, 1, []byte("a value")) }()
	for n, least := range []time.Duration{0, firstWait, 3 * firstWait, 7 * firstWait} {
		select {
		case at := <-sent:
			if after := at.Sub(begun); after < least {
				t.Errorf("attempt %d comes after %v", n+1, after)
			}
		case err := <-done:
			t.Fatalf("%d attempts: %v", n, err)
		}
	}
	cancel()
	if err := <-done; err == nil {
		t.Error("it is stored")
	}
}

func TestAValueThatIsTooLarge(t *testing.T) {
	t.Parallel()
	s := natstest.Start(t)
	a := join(t, options(1, s.URL))
	if err := a.Put(patient(t), Uses, 1, make([]byte, 2<<20)); !errors.Is(err, nats.ErrMaxPayload) {
		t.Error(err)
	}
}

// A value that a member has put, and that the broker has stored, comes soon, though what should bring it does not.
func TestReadingBeginsAnewForAnOwnValue(t *testing.T) {
	silence = time.Hour // so that nothing else lets reading begin again
	t.Cleanup(func() { silence = silenceWait })
	s := natstest.Start(t)
	a := join(t, options(1, s.URL))
	awaitHeld(t, a, tell(t, a, 1))
	for c := range natstest.JetStream(t, a.conn).ConsumerNames(a.stream) {
		if err := natstest.JetStream(t, a.conn).DeleteConsumer(a.stream, c); err != nil {
			t.Fatal(err)
		}
	}
	awaitHeld(t, a, tell(t, a, 2))
	natstest.Await(t, "another feed", func() bool { return a.logged("no value came") })
	awaitHeld(t, a, tell(t, a, 3))
}

// A broker that says nothing any more is asked again, though nobody waits for a value.
func TestReadingBeginsAnewBehindASilence(t *testing.T) {
	silence = heartbeat / 20
	t.Cleanup(func() { silence = silenceWait })
	s := natstest.Start(t)
	a, b := join(t, options(1, s.URL)), join(t, options(2, s.URL))
	natstest.Await(t, "a new beginning", func() bool { return b.logged("said nothing") })
	awaitHeld(t, b, tell(t, a, 1))
}

// An operator is who may change the bucket itself.
type operator struct {
	t  *testing.T
	js nats.JetStreamContext
}

// edit changes the settings of the bucket.
func (o operator) edit(change func(*nats.StreamConfig)) {
	o.t.Helper()
	info, err := o.js.StreamInfo("KV_test")
	if err != nil {
		o.t.Fatal(err)
	}
	c := info.Config
	change(&c)
	if _, err := o.js.UpdateStream(&c); err != nil {
		o.t.Fatal(err)
	}
}

// during changes the settings of the bucket while it does something.
func (o operator) during(change func(*nats.StreamConfig), do func()) {
	o.t.Helper()
	var before nats.StreamConfig
	o.edit(func(c *nats.StreamConfig) { before = *c; change(c) })
	do()
	o.edit(func(c *nats.StreamConfig) { *c = before })
}

// removeAllBut removes the oldest values of the bucket, which must leave one at least.
func (o operator) removeAllBut(left int64) {
	o.t.Helper()
	o.during(func(c *nats.StreamConfig) { c.MaxMsgs = left }, func() { o.awaitLeft(uint64(left)) })
}

// removeAll removes all values of the bucket.
func (o operator) removeAll() {
	o.t.Helper()
	o.during(func(c *nats.StreamConfig) { c.MaxAge, c.Duplicates = 100*time.Millisecond, 100*time.Millisecond }, func() { o.awaitLeft(0) })
}

func (o operator) awaitLeft(n uint64) {
	o.t.Helper()
	natstest.Await(o.t, "values to go", func() bool {
		info, err := o.js.StreamInfo("KV_test")
		return err == nil && info.State.Msgs == n
	})
}

// remove removes a value of the bucket: another one, which comes last, takes its place under the key.
func (o operator) remove(key string, other []byte) {
	o.t.Helper()
	loose := func(c *nats.StreamConfig) { c.Discard, c.DiscardNewPerSubject = nats.DiscardOld, false }
	o.during(loose, func() {
		if _, err := o.js.Publish("$KV.test."+key, other); err != nil {
			o.t.Fatal(err)
		}
	})
}

// A member that finds values missing says so with the next one.
func TestAGapIsTold(t *testing.T) {
	t.Parallel()
	s := natstest.Start(t)
	p := newProxy(t, s.URL)
	a, b := join(t, options(1, s.URL)), join(t, options(2, p.URL))
	awaitHeld(t, b, tell(t, a, 1))
	p.hold(true)
	p.cut()
	tell(t, a, 2)
	other := batch(key(7), a.id)
	operator{t, natstest.JetStream(t, a.conn)}.remove(a.keyOf(Uses, 2), other)
	last := tell(t, a, 3)
	p.hold(false)
	awaitHeld(t, b, last)
	wantValues(t, b, Value{Kind: Uses, Position: 1, Message: batch(key(1), a.id)}, Value{Kind: Uses, Position: 3, Message: other},
		Value{Kind: Uses, Position: 4, Message: last})
	wantBegins(t, b, Log{})
	if !b.logged("values are gonefrom2to2") {
		t.Error(b.said())
	}
}

// A member that has read nothing yet knows that the first value is to be the bucket's first one, or the one behind those
// that were gone when it joined.
func TestAGapInFrontOfTheFirstValueIsTold(t *testing.T) {
	t.Parallel()
	s := natstest.Start(t)
	p := newProxy(t, s.URL)
	a := join(t, options(1, s.URL))
	by := operator{t, natstest.JetStream(t, a.conn)}
	for round, before := range []int{0, 3} {
		for n := 0; n < before; n++ {
			awaitHeld(t, a, tell(t, a, 10+n))
		}
		if before > 0 {
			by.removeAll()
		}
		b := join(t, options(2, p.URL))
		if n := b.Taken(); n != 0 {
			t.Fatalf("a member that came to an empty bucket has read %d values", n)
		}
		p.hold(true)
		p.cut()
		awaitHeld(t, a, tell(t, a, 1+10*round))
		last := tell(t, a, 2+10*round)
		by.removeAllBut(1)
		p.hold(false)
		awaitHeld(t, b, last)
		if !b.logged("values are gone") || !b.logged(errGone.Error()) {
			t.Error(b.said())
		}
		next := tell(t, a, 3+10*round)
		awaitHeld(t, b, next)
		at := uint64(6*round + 2) // (round 0 put three values, and round 1 three before its first member)
		wantValues(t, b, Value{Kind: Uses, Position: at, Message: last}, Value{Kind: Uses, Position: at + 1, Message: next})
		// (None of the bucket's values can have expired. So a member misses what was gone when it joined, too.)
		wantBegins(t, b, Log{Passed: at - 2, Ready: at - 2, Missed: round > 0})
		b.Close()
		by.removeAll()
	}
}

// Where all values are gone that a member has not read, it says so with the next one.
func TestAGapOfAllValuesIsTold(t *testing.T) {
	t.Parallel()
	s := natstest.Start(t)
	p := newProxy(t, s.URL)
	a, b := join(t, options(1, s.URL)), join(t, options(2, p.URL))
	p.hold(true)
	p.cut()
	awaitHeld(t, a, tell(t, a, 1))
	operator{t, natstest.JetStream(t, a.conn)}.removeAll()
	p.hold(false)
	natstest.Await(t, "the gap", func() bool { return b.logged("values are gonefrom1to1") }) // by idle
	last := tell(t, a, 2)
	awaitHeld(t, b, last)
	wantValues(t, b, Value{Kind: Uses, Position: 2, Message: last})
	wantBegins(t, b, Log{})
}

// A member that joins reports values that are gone by then to the operator and to the sink: as a fault, unless they may have expired.
func TestWhatIsGoneBeforeAMemberJoins(t *testing.T) {
	t.Parallel()
	s := natstest.Start(t)
	a := join(t, options(1, s.URL))
	for n := 1; n < 4; n++ {
		awaitHeld(t, a, tell(t, a, n))
	}
	by := operator{t, natstest.JetStream(t, a.conn)}
	by.removeAllBut(1)
	b := join(t, options(2, s.URL))
	wantValues(t, b, Value{Kind: Uses, Position: 3, Message: batch(key(3), a.id)})
	wantBegins(t, b, Log{Passed: 2, Ready: 3, Missed: true})
	const front = "values before the first one are gone"
	if !b.logged(front) || !b.logged(errGone.Error()) || a.logged(front) {
		t.Error(b.said(), a.said())
	}
	by.edit(func(c *nats.StreamConfig) { c.MaxAge, c.Duplicates = 100*time.Millisecond, 100*time.Millisecond })
	by.awaitLeft(0)
	o := options(3, s.URL)
	o.TTL = 100 * time.Millisecond
	c := join(t, o)
	if !c.logged(front) || c.logged(errGone.Error()) {
		t.Error(c.said())
	}
	wantBegins(t, c, Log{Passed: 3, Ready: 3})
}

// Values that a member had no time to read are missed only if they may still live: where each of them must have expired, it
// begins again after them.
func TestWhatExpiresBeforeItIsRead(t *testing.T) {
	t.Parallel()
	now := time.Now()
	for name, row := range map[string]struct {
		bucket bucket
		since  time.Time
		want   bool
	}{
		"it keeps for ever":           {bucket{created: now.Add(-3 * time.Hour)}, time.Time{}, false},
		"it is too young":             {bucket{created: now.Add(-time.Minute), keeps: time.Hour}, time.Time{}, false},
		"nothing was read":            {bucket{created: now.Add(-3 * time.Hour), keeps: time.Hour}, time.Time{}, true},
		"one in front was just read":  {bucket{created: now.Add(-3 * time.Hour), keeps: time.Hour}, now.Add(-time.Minute), false},
		"the one in front is expired": {bucket{created: now.Add(-3 * time.Hour), keeps: time.Hour}, now.Add(-2 * time.Hour), true},
	} {
		s := &sink{}
		r := reader{group: &Group{sink: s, ready: make(chan struct{})}, bucket: row.bucket, seen: 4, since: row.since}
		r.bucket.last = 9
		r.missing(7)
		if got := len(s.begun) == 1 && s.begun[0] == (Log{Passed: 7, Ready: 9}); got != row.want || r.seen != 7 {
			t.Errorf("%s: began %+v, seen %d", name, s.begun, r.seen)
		}
	}
}

// Values that have expired, or that someone removed, are no gap to who has read them, or comes when none is left.
func TestValuesThatWereReadAreNoGap(t *testing.T) {
	t.Parallel()
	s := natstest.Start(t)
	p := newProxy(t, s.URL)
	a, b := join(t, options(1, s.URL)), join(t, options(2, p.URL))
	for n := 0; n < 3; n++ {
		awaitHeld(t, b, tell(t, a, n))
	}
	operator{t, natstest.JetStream(t, a.conn)}.removeAll()
	p.cut()
	c := join(t, options(3, s.URL))
	last := tell(t, a, 3)
	for _, m := range []*member{a, b, c} {
		awaitHeld(t, m, last)
		if got := m.inOrder(); got[len(got)-1].Position != 4 || m.logged("values are gone") || len(m.begins()) != 1 {
			t.Errorf("%+v %v", got, m.said())
		}
	}
}

// A broker that loses its power loses its last values, and gives their positions to others. A member that has read further
// reads those too, though their positions lie behind it.
func TestValuesAtPositionsThatWereReadBefore(t *testing.T) {
	t.Parallel()
	dir, before := t.TempDir(), t.TempDir()
	s, err := broker.New(dir)
	if err != nil {
		t.Fatal(err)
	}
	t.Cleanup(s.Kill)
	begin := func() {
		restart(t, s)
		natstest.Await(t, "JetStream", s.Answers)
	}
	begin()
	p := newProxy(t, s.URL)
	a, b := join(t, options(1, s.URL)), join(t, options(2, p.URL))
	awaitHeld(t, b, tell(t, a, 1))
	s.Kill()
	logtest.CopyAll(t, dir, before)
	begin()
	for n := 2; n < 4; n++ {
		awaitHeld(t, b, tell(t, a, n))
	}
	p.hold(true)
	p.cut()
	s.Kill()
	if err := os.RemoveAll(dir); err != nil {
		t.Fatal(err)
	}
	if err := os.Mkdir(dir, 0o700); err != nil {
		t.Fatal(err)
	}
	logtest.CopyAll(t, before, dir)
	begin()
	c := join(t, options(3, s.URL))
	for n := 10; n < 13; n++ {
		awaitHeld(t, c, tell(t, c, n))
	}
	p.hold(false)
	for n := 10; n < 13; n++ {
		awaitHeld(t, b, batch(key(n), c.id))
	}
	wantBegins(t, b, Log{}, Log{Ready: 4, Missed: true})
	if !b.logged("the broker has lost values") {
		t.Error(b.said())
	}
}

// Nothing is missing, and nobody begins again, while each of three brokers is killed in turn, or restarted, and the members put
// values at the same instant.
func TestValuesWhileServersAreRestarted(t *testing.T) {
	for name, end := range map[string]func(*broker.Server){"killed": (*broker.Server).Kill, "stopped": (*broker.Server).Stop} {
		end := end
		t.Run(name, func(t *testing.T) { whileEnded(t, end) })
	}
}

func whileEnded(t *testing.T, end func(*broker.Server)) {
	servers := natstest.Cluster(t, 3)
	var members []*member
	for i := range servers {
		o := options(byte(1+i), append(broker.URLs(servers[i:]), broker.URLs(servers[:i])...)...)
		o.Replicas = 3
		members = append(members, join(t, o))
	}
	killed := make(chan bool)
	go func() {
		defer close(killed)
		for _, s := range servers {
			end(s)
			time.Sleep(time.Second)
			restart(t, s)
			for look, late := patience.Looks(), time.Now().Add(patience.Long); replicas(members[0]) < 3 && !t.Failed(); look() {
				if time.Now().After(late) {
					t.Errorf("waited %v for the three servers to have the bucket as it is", patience.Long)
				}
			}
		}
	}()
	n := 0
	for going := true; going && !t.Failed(); n++ {
		select {
		case <-killed:
			going = false
		case <-time.After(5 * time.Millisecond):
		}
		putAtOnce(t, members, n)
	}
	wantOneOrder(t, members, 6*n)
	for _, m := range members {
		if m.logged("values are gone") || m.logged("lost values") {
			t.Error(m.said())
		}
	}
	t.Logf("%d values, read by three members in one order", 6*n)
}

// restart starts a server again that was killed.
func restart(t *testing.T, s *broker.Server) {
	if err := s.Start(); err != nil {
		t.Error(err)
	}
}

// replicas is how many servers have the bucket as it is now.
func replicas(m *member) int {
	info, err := m.js.StreamInfo(m.stream)
	if err != nil || info.Cluster == nil || info.Cluster.Leader == "" {
		return 0
	}
	n := 1
	for _, peer := range info.Cluster.Replicas {
		if peer.Current && !peer.Offline {
			n++
		}
	}
	return n
}

func TestValuesThatAreNoBatchAreAside(t *testing.T) {
	t.Parallel()
	s := natstest.Start(t)
	a := join(t, options(1, s.URL))
	kv, err := natstest.JetStream(t, a.conn).KeyValue("test")
	if err != nil {
		t.Fatal(err)
	}
	garbage, from := bytes.Repeat([]byte("x"), 1<<20-1<<10), time.Now()
	for n := 0; n < 64; n++ {
		if _, err := kv.Put(fmt.Sprint("u.lie.", n), garbage); err != nil {
			t.Fatal(err)
		}
	}
	if _, err := kv.Put("empty", nil); err != nil {
		t.Fatal(err)
	}
	awaitHeld(t, a, tell(t, a, 1)) // What comes behind them is heard.
	natstest.Await(t, "it to be counted", func() bool { return a.Taken() > 0 })
	if a.Aside() != 65 || a.Taken() != 1 || !a.logged("put aside") {
		t.Errorf("%d aside, %d taken, want 65 and 1", a.Aside(), a.Taken())
	}
	a.logMu.Lock()
	defer a.logMu.Unlock()
	said := 0
	for _, line := range a.lines {
		if strings.Contains(line, "put aside") {
			said++
		}
	}
	// A line each second at the most, however long a busy machine takes.
	if seconds := int(time.Since(from) / time.Second); said > 1+seconds || len(a.lines) > 30+seconds {
		t.Errorf("%d lines of %d values, and %d in all, within %d seconds", said, a.Aside(), len(a.lines), seconds)
	}
}

func TestValuesAreTakenAtOnce(t *testing.T) {
	t.Parallel()
	s := natstest.Start(t)
	a := join(t, options(1, s.URL))
	kv, err := natstest.JetStream(t, a.conn).KeyValue("test")
	if err != nil {
		t.Fatal(err)
	}
	for n := 0; n < 1000; n++ {
		if n%300 == 299 {
			if _, err := kv.Put(fmt.Sprint("u.lie.", n), []byte("no batch")); err != nil {
				t.Fatal(err)
			}
		}
		tell(t, a, n)
	}
	b := &sink{}
	g, err := Join(patient(t), options(2, s.URL), b)
	if err != nil {
		t.Fatal(err)
	}
	t.Cleanup(func() { g.Close() })
	awaitEnd(t, "a member to be ready", g.Ready())
	if len(b.held) != 1000 || g.Taken() != 1000 || g.Aside() != 3 || b.most < 2 || b.most > mostAtOnce {
		t.Errorf("%d held, %d taken, %d aside, %d at once", len(b.held), g.Taken(), g.Aside(), b.most)
	}
}

func TestGoesOnAfterTheBrokerWasAway(t *testing.T) {
	t.Parallel()
	s := natstest.Start(t)
	a, b := join(t, options(1, s.URL)), join(t, options(2, s.URL))
	awaitHeld(t, b, tell(t, a, 1))
	for n := 2; n < 4; n++ {
		s.Kill()
		natstest.Await(t, "the loss", func() bool { return !a.Connected() && !b.Connected() })
		restart(t, s)
		awaitHeld(t, b, tell(t, a, n))
	}
}

func TestBucketThatWasRemovedIsMadeAnew(t *testing.T) {
	t.Parallel()
	s := natstest.Start(t)
	a, b := join(t, options(1, s.URL)), join(t, options(2, s.URL))
	for n := 0; n < 20; n++ {
		awaitHeld(t, b, tell(t, a, n))
	}
	if err := natstest.JetStream(t, a.conn).DeleteKeyValue("test"); err != nil {
		t.Fatal(err)
	}
	awaitHeld(t, b, tell(t, a, 99))
}

// Someone has removed the bucket's last values by hand. A new member does not wait for these.
func TestReadyThoughTheLastValuesAreGone(t *testing.T) {
	t.Parallel()
	s := natstest.Start(t)
	by := operator{t, newLiar(t, s.URL).js}
	if _, err := by.js.CreateKeyValue(oldBucket); err != nil {
		t.Fatal(err)
	}
	for n := 0; n < 5; n++ {
		if _, err := by.js.Publish(fmt.Sprint("$KV.test.u.", n), batch(key(n), [16]byte{1})); err != nil {
			t.Fatal(err)
		}
	}
	for n := 3; n < 5; n++ {
		if err := by.js.PurgeStream("KV_test", &nats.StreamPurgeRequest{Subject: fmt.Sprint("$KV.test.u.", n)}); err != nil {
			t.Fatal(err)
		}
	}
	by.edit(asDue)
	b := join(t, options(2, s.URL))
	if b.Taken() != 3 {
		t.Errorf("ready with %d values", b.Taken())
	}
	awaitHeld(t, b, tell(t, b, 9))
	if b.logged("reading the bucket anew") {
		t.Error(b.said())
	}
}

func TestJoinWaitsForABroker(t *testing.T) {
	t.Parallel()
	s := natstest.Start(t)
	s.Kill()
	ctx, cancel := context.WithTimeout(context.Background(), 200*time.Millisecond)
	defer cancel()
	if _, err := Join(ctx, options(1, s.URL), &sink{}); !errors.Is(err, context.DeadlineExceeded) {
		t.Fatal(err)
	}
	joined := make(chan error)
	m := &member{}
	go func() {
		o := options(1, s.URL)
		o.Log = m.log
		g, err := Join(patient(t), o, &sink{})
		if err == nil {
			g.Close()
		}
		joined <- err
	}()
	natstest.Await(t, "a line that says why", func() bool { return m.logged("broker not reached") })
	restart(t, s)
	if err := <-joined; err != nil {
		t.Fatal(err)
	}
}

// A broker that refuses a member is asked again and again, and the log says so once.
func TestABrokerThatRefusesIsToldOnce(t *testing.T) {
	t.Parallel()
	server, err := net.Listen("tcp", "127.0.0.1:0")
	if err != nil {
		t.Fatal(err)
	}
	defer server.Close()
	var asked atomic.Int64
	go func() {
		for {
			c, err := server.Accept()
			if err != nil {
				return
			}
			go func() {
				defer c.Close()
				io.WriteString(c, "INFO {}\r\n-ERR 'Authorization Violation'\r\n")
				io.Copy(io.Discard, c)
				asked.Add(1)
			}()
		}
	}()
	m, o := &member{}, options(1, "nats://"+server.Addr().String())
	o.Log = m.log
	ctx, cancel := context.WithCancel(context.Background())
	ended := make(chan struct{})
	go func() {
		defer close(ended)
		_, err = Join(ctx, o, &sink{})
	}()
	natstest.Await(t, "tries", func() bool { return asked.Load() > 3 })
	cancel()
	if awaitEnd(t, "the end of who joins", ended); err == nil || m.logs("broker not reached") != 1 {
		t.Errorf("%v, and the log says %v", err, m.said())
	}
}

func TestJoinRefusesBadOptions(t *testing.T) {
	t.Parallel()
	for name, change := range map[string]func(*Options){
		"no server":   func(o *Options) { o.Servers = nil },
		"no name":     func(o *Options) { o.Name = "" },
		"a wild name": func(o *Options) { o.Name = "a.>" },
		"no TTL":      func(o *Options) { o.TTL = 0 },
		"6 replicas":  func(o *Options) { o.Replicas = 6 },
	} {
		o := options(1, "nats://127.0.0.1:1")
		change(&o)
		if _, err := Join(patient(t), o, &sink{}); err == nil || errors.Is(err, context.DeadlineExceeded) {
			t.Errorf("%s: %v", name, err)
		}
	}
}

func TestSummariesBringBackWhatWasLost(t *testing.T) {
	t.Parallel()
	s := natstest.Start(t)
	a, b := join(t, options(1, s.URL)), join(t, options(2, s.URL))
	var uses [][]byte
	for n := 0; n < 20000; n++ {
		one := batch(key(n), a.id)
		uses = append(uses, one[headLen:])
	}
	lost := batchOf(uses...) // 1.3 MB, more than a message of the broker has room for
	nothing := func([]byte, int) ([][]byte, error) { return [][]byte{batchOf()}, nil }
	a.Summaries(time.Hour, func() ([]byte, error) { return []byte("of a"), nil }, func(summary []byte, most int) ([][]byte, error) {
		if string(summary) != "of b" {
			return nil, fmt.Errorf("asked by %q", summary)
		}
		return svid.Pieces(lost, most)
	})
	b.Summaries(50*time.Millisecond, func() ([]byte, error) { return []byte("of b"), nil }, nothing)
	got := func() (n int) {
		b.mu.Lock()
		defer b.mu.Unlock()
		for m := range b.held {
			n += int(binary.BigEndian.Uint32([]byte(m)[countAt:]))
		}
		return n
	}
	natstest.Await(t, "20,000 uses", func() bool { return got() == 20000 })
	if b.Aside() != 0 {
		t.Error(b.Aside(), b.said())
	}
}

func TestSummariesOfOneMember(t *testing.T) {
	t.Parallel()
	s := natstest.Start(t)
	a := join(t, options(1, s.URL))
	var asked atomic.Int32
	a.Summaries(time.Millisecond, func() ([]byte, error) { asked.Add(1); return []byte("of a"), nil },
		func([]byte, int) ([][]byte, error) { t.Error("a member answers itself"); return nil, nil })
	natstest.Await(t, "five summaries", func() bool { return asked.Load() >= 5 })
	if a.logged("no answer") {
		t.Error(a.said())
	}
}

// A broker that is away for long is found again: nothing bounds how often it is tried.
func TestABrokerThatIsAwayForLong(t *testing.T) {
	t.Parallel()
	s := natstest.Start(t)
	a := join(t, options(1, s.URL))
	if n := a.conn.Opts.MaxReconnect; n >= 0 {
		t.Errorf("after %d tries the client gives up", n)
	}
}

// A broker that refuses a member for a while, as one whose users are changed first, is found again by itself.
func TestABrokerThatRefusesForAWhile(t *testing.T) {
	t.Parallel()
	file := filepath.Join(t.TempDir(), "nats.conf")
	users := func(password string) {
		text := `accounts: { svid: { jetstream: enabled, users: [ { user: admin, password: secret }, { user: member, password: ` + password + ` } ] } }
no_auth_user: admin
`
		if err := os.WriteFile(file, []byte(text), 0o600); err != nil {
			t.Fatal(err)
		}
	}
	users("known")
	s := natstest.Start(t, "-c", file)
	var refused atomic.Int32
	o := options(1, s.URL)
	var joined atomic.Pointer[Group]
	o.Connect = []nats.Option{nats.UserInfo("member", "known"), nats.ErrorHandler(func(_ *nats.Conn, _ *nats.Subscription, err error) {
		if g := joined.Load(); g != nil {
			refused.Add(1)
			g.brokerSays(err)
		}
	})}
	a := join(t, o)
	joined.Store(a.Group)
	from := time.Now()
	for _, password := range []string{"other", "known"} {
		users(password)
		s.Kill()
		restart(t, s)
		natstest.Await(t, "the broker to refuse the member", func() bool { return refused.Load() > 3 || a.conn.IsClosed() })
		if a.conn.IsClosed() {
			t.Fatal("the client has given up")
		}
	}
	awaitHeld(t, a, tell(t, a, 1))
	if lines, minutes := a.logs("broker says"), int(time.Since(from)/time.Minute); lines == 0 || lines > 1+minutes {
		t.Errorf("%d refusals are %d lines", refused.Load(), lines)
	}
}

// The client gives a connection up where the broker says that a limit is exceeded. Once the limit is another one, the group has another connection:
// values come by it, and summaries.
func TestABrokerWhoseLimitIsExceededForAWhile(t *testing.T) {
	t.Parallel()
	file := filepath.Join(t.TempDir(), "nats.conf")
	limit := func(text string) {
		if err := os.WriteFile(file, []byte(text), 0o600); err != nil {
			t.Fatal(err)
		}
	}
	limit("")
	s := natstest.Start(t, "-c", file)
	a, b := join(t, options(1, s.URL)), join(t, options(2, s.URL))
	var asked atomic.Int32
	b.Summaries(time.Hour, func() ([]byte, error) { return []byte("of b"), nil }, func([]byte, int) ([][]byte, error) { asked.Add(1); return nil, nil })
	first := []*nats.Conn{a.connection(), b.connection()}
	limit("max_subscriptions: 1")
	s.Kill()
	restart(t, s)
	for _, nc := range first {
		natstest.Await(t, "the end of a connection", nc.IsClosed)
	}
	limit("")
	s.Kill()
	restart(t, s)
	awaitHeld(t, b, tell(t, a, 1))
	a.Summaries(10*time.Millisecond, func() ([]byte, error) { return []byte("of a"), nil }, func([]byte, int) ([][]byte, error) { return nil, nil })
	natstest.Await(t, "a summary", func() bool { return asked.Load() > 0 })
}

// Servers that have no leader give no answer, however long one waits. So a longer wait for the next one is of no use.
func TestServersWithoutALeaderAreNotSlow(t *testing.T) {
	t.Parallel()
	servers := natstest.Cluster(t, 3)
	o := options(1, broker.URLs(servers)...)
	o.Replicas = 3
	a := join(t, o)
	servers[1].Kill()
	servers[2].Kill()
	natstest.Await(t, "the server that is left", func() bool { return a.Connected() && a.conn.ConnectedUrl() == servers[0].URL })
	natstest.Await(t, "the end of its time as a leader, and an answer that is not slow", func() bool {
		f, isSlow, err := a.feedFrom(1, readWait)
		if err == nil {
			f.close()
		}
		return err != nil && !isSlow
	})
}

// A member is ready with the last value that the bucket held when it joined, and not before.
func TestReadyWithTheLastValue(t *testing.T) {
	t.Parallel()
	r := reader{group: &Group{ready: make(chan struct{})}, bucket: bucket{first: 1, last: 3}}
	for seen := uint64(0); seen < 5; seen++ {
		r.seen = seen
		r.catchUp()
		if got := r.isReady(); got != (seen >= 3) {
			t.Errorf("ready with value %d: %v", seen, got)
		}
	}
}

// delivered is a value as a broker sends it: the position in the bucket, and the number in the feed.
func delivered(n int, position, number uint64) *nats.Msg {
	return &nats.Msg{Subject: "$KV.test.u.x", Sub: &nats.Subscription{}, Data: batch(key(n), [16]byte{1}),
		Reply: fmt.Sprintf("$JS.ACK.KV_test.c.1.%d.%d.1700000000000000000.0", position, number)}
}

// Values that came before one that is missing on its way are given to the sink, and reading begins again after them.
func TestValuesBeforeALossAreTaken(t *testing.T) {
	t.Parallel()
	s := &sink{}
	g := &Group{stream: "KV_test", sink: s, ready: make(chan struct{}), life: context.Background()}
	f := newFeed(g)
	f.name("c")
	f.arrive(delivered(1, 1, 1))
	f.arrive(delivered(2, 2, 2))
	f.arrive(delivered(4, 4, 4))
	r := reader{group: g}
	these, err := f.next(time.Second)
	if err == nil {
		err = r.values(f, these)
	}
	if err != errSkipped || len(s.order) != 2 || r.seen != 2 || len(s.begun) != 0 {
		t.Errorf("%v, %d values, seen %d, began %v", err, len(s.order), r.seen, s.begun)
	}
}

// A heartbeat that counts other values than were read ends the feed if the bucket has more, and none has come for a while. The bucket is
// asked about once in that while.
func TestAHeartbeatOfOtherValues(t *testing.T) {
	t.Parallel()
	a := join(t, options(1, natstest.Start(t).URL))
	awaitHeld(t, a, tell(t, a, 1))
	for name, row := range map[string]struct {
		sent string
		seen uint64
		last time.Duration // ago
		want error
	}{
		"a value is missing":      {"3", 0, doubtPause, errSkipped},
		"fewer values":            {"1", 0, doubtPause, errSkipped},
		"as many values":          {"2", 0, doubtPause, nil},
		"all is read":             {"3", 1, doubtPause, nil},
		"a value has just come":   {"3", 0, -time.Hour, nil}, // (however slow this test is)
		"it does not say so much": {"", 0, doubtPause, nil},
	} {
		f := newFeed(a.Group)
		f.name("c")
		f.given = 2
		r := reader{group: a.Group, seen: row.seen, last: time.Now().Add(-row.last)}
		beat := func() error {
			f.arrive(&nats.Msg{Header: nats.Header{"Status": {"100"}, "Description": {"Idle Heartbeat"}, "Nats-Last-Consumer": {row.sent}}})
			these, err := f.next(patience.Long)
			if err != nil {
				t.Fatal(err)
			}
			return r.values(f, these)
		}
		natstest.Await(t, name, func() bool { // (a busy broker may answer no question in time)
			r.doubted = time.Time{}
			return beat() == row.want
		})
		if !r.doubted.IsZero() {
			r.doubted = r.doubted.Add(time.Hour)
		}
		if err := beat(); err != nil {
			t.Errorf("%s again: %v", name, err)
		}
	}
}

// A server that is behind the others sends values again that were read: these are passed over. Where the last one that was
// read is another one at its position, or was not read, it is another bucket: all is read again.
func TestPositionsThatWereReadBefore(t *testing.T) {
	t.Parallel()
	at := time.Unix(0, 1700000000000000000)
	for name, row := range map[string]struct {
		stamp time.Time
		want  error
		order int
		seen  uint64
		anew  bool
	}{
		"a server behind":    {at, nil, 1, 6, false},
		"another last value": {at.Add(1), errAnother, 0, 0, true},
		"gone, not read":     {time.Time{}, errAnother, 0, 0, true},
	} {
		s := &sink{}
		g := &Group{stream: "KV_test", sink: s, ready: make(chan struct{}), life: context.Background()}
		f := newFeed(g)
		f.name("c")
		for n := 1; n < 4; n++ {
			f.arrive(delivered(n, uint64(3+n), uint64(n)))
		}
		r := reader{group: g, bucket: bucket{first: 1, last: 9, created: time.Now()}, seen: 5, stamp: row.stamp}
		these, err := f.next(time.Second)
		if err == nil {
			err = r.values(f, these)
		}
		if anew := len(s.begun) == 1 && s.begun[0].Missed; err != row.want || len(s.order) != row.order || r.seen != row.seen || anew != row.anew {
			t.Errorf("%s: %v, %d values, seen %d, began %v", name, err, len(s.order), r.seen, s.begun)
		}
	}
}

// A guarded is a sink that looks whether another call could reach it now.
type guarded struct {
	group *Group
	calls int
	open  bool
}

func (s *guarded) look() {
	s.calls++
	if s.group.taking.TryLock() {
		s.group.taking.Unlock()
		s.open = true
	}
}

func (s *guarded) Begin(Log)                   { s.look() }
func (s *guarded) Take(values []Value) []error { s.look(); return nil }

// A sink is called by one goroutine at a time, though answers of others come beside what is read.
func TestASinkIsCalledOnceAtATime(t *testing.T) {
	t.Parallel()
	s := &guarded{group: new(Group)}
	s.group.sink = s
	s.group.begin(Log{})
	s.group.take([]Value{{Kind: Answer}})
	if s.calls != 2 || s.open {
		t.Errorf("%d calls; another one could come meanwhile: %v", s.calls, s.open)
	}
}

// A member that asks for its own values by itself takes none that stand after another value than the last one that it has read: the brokers have lost
// some, and gave their positions to others.
func TestAPullBehindALoss(t *testing.T) {
	t.Parallel()
	a := join(t, options(1, natstest.Start(t).URL))
	for n := 1; n < 4; n++ {
		tell(t, a, n)
	}
	first, err := a.get(patient(t), patience.Long, map[string]any{"seq": 1})
	if err != nil {
		t.Fatal(err)
	}
	at := func(stamp time.Time) (*reader, *sink) {
		s := &sink{}
		g := &Group{conn: a.conn, stream: a.stream, subject: a.subject, sink: s, ready: make(chan struct{}), life: patient(t)}
		g.stored.Store(3)
		return &reader{group: g, bucket: bucket{first: 1, last: 3, created: time.Now()}, seen: 1, stamp: stamp}, s
	}
	same, taken := at(first.Time)
	natstest.Await(t, "the next values", func() bool { same.pull(); return same.seen == 3 })
	if got := len(taken.inOrder()); got != 2 {
		t.Errorf("%d values", got)
	}
	other, none := at(first.Time.Add(time.Nanosecond))
	other.pull()
	if got := len(none.inOrder()); got != 0 || other.seen != 1 {
		t.Errorf("behind another value %d were taken, up to %d", got, other.seen)
	}
}

// A server that was just elected may say at first that the bucket has less than it has. That is no loss; what it says for a while
// is one.
func TestWhatABrokerSaysOfALoss(t *testing.T) {
	t.Parallel()
	made := time.Now()
	says := func(last uint64, created time.Time) (info streamInfo) {
		info.Created, info.State.First, info.State.Last = created, 1, last
		return info
	}
	right, behind, another := says(5, made), says(4, made), says(9, made.Add(time.Second))
	away := errors.New("away")
	for name, row := range map[string]struct {
		first  streamInfo
		then   []streamInfo // by turns, and then no answer
		always bool         // the last one again and again
		lost   bool
		err    error
	}{
		"as it was":             {right, nil, false, false, nil},
		"behind, for a moment":  {behind, []streamInfo{behind, right}, false, false, nil},
		"another, for a moment": {another, []streamInfo{right}, false, false, nil},
		"behind, and then away": {behind, []streamInfo{behind}, false, false, away},
		"behind for long":       {behind, []streamInfo{behind}, true, true, errAnother},
		"another for long":      {another, []streamInfo{another}, true, true, errAnother},
	} {
		row := row
		t.Run(name, func(t *testing.T) {
			t.Parallel()
			s := &sink{}
			r := reader{group: &Group{sink: s, ready: make(chan struct{}), life: context.Background()}, bucket: bucket{first: 1, last: 5, created: made}, seen: 5}
			lost, err := r.isLost(&row.first, func() (streamInfo, error) {
				if len(row.then) == 0 {
					return streamInfo{}, away
				}
				next := row.then[0]
				if len(row.then) > 1 || !row.always {
					row.then = row.then[1:]
				}
				return next, nil
			})
			if lost != row.lost || err != row.err || len(s.begun) == 1 != row.lost || row.lost && !s.begun[0].Missed {
				t.Errorf("lost %v, %v, began %+v", lost, err, s.begun)
			}
		})
	}
}

// A slow is a sink that takes its time until it is let go.
type slow struct {
	begun, free chan struct{}
	once        sync.Once
}

func (s *slow) Begin(Log) {}

func (s *slow) Take([]Value) []error {
	s.once.Do(func() { close(s.begun) })
	<-s.free
	return nil
}

// Close ends a member that is in the midst of many values, as soon as its sink lets it.
func TestCloseInTheMidstOfValues(t *testing.T) {
	s := natstest.Start(t)
	a := join(t, options(1, s.URL))
	for n := 0; n < 4*mostAtOnce; n++ {
		tell(t, a, n)
	}
	a.Close()
	before := runtime.NumGoroutine()
	b := &slow{begun: make(chan struct{}), free: make(chan struct{})}
	g, err := Join(patient(t), options(2, s.URL), b)
	if err != nil {
		t.Fatal(err)
	}
	awaitEnd(t, "the first values", b.begun)
	closed := make(chan struct{})
	go func() { defer close(closed); g.Close() }()
	natstest.Await(t, "the end of the connection", func() bool { return !g.Connected() })
	select {
	case <-closed:
		t.Error("closed while the sink takes values")
	default:
	}
	close(b.free)
	awaitEnd(t, "the group to be closed", closed)
	natstest.Await(t, "the end of its goroutines", func() bool { return runtime.NumGoroutine() <= before })
}

// Close ends every goroutine that Join and Summaries began, also of a member whose broker is away.
func TestCloseLeavesNothing(t *testing.T) {
	s := natstest.Start(t)
	before := runtime.NumGoroutine()
	// (so does a member that gave up as it joined, and one that only looked whether it can join)
	over, end := context.WithCancel(context.Background())
	end()
	for i := 0; i < 10; i++ { // (so many that goroutines which end meanwhile do not hide them)
		if _, err := Join(over, options(1, s.URL), &sink{}); !errors.Is(err, context.Canceled) {
			t.Errorf("joined with a context that is over: %v", err)
		}
		if err := options(1, s.URL).Check(patient(t), time.Hour); err != nil {
			t.Error(err)
		}
	}
	natstest.Await(t, "the end of the goroutines of who never joined", func() bool { return runtime.NumGoroutine() <= before })
	for _, away := range []bool{false, true} {
		a := join(t, options(1, s.URL))
		a.Summaries(time.Millisecond, func() ([]byte, error) { return []byte("of a"), nil }, func([]byte, int) ([][]byte, error) { return nil, nil })
		awaitHeld(t, a, tell(t, a, 1))
		if away {
			s.Kill()
			natstest.Await(t, "the loss", func() bool { return !a.Connected() })
		}
		if err := a.Close(); err != nil {
			t.Fatal(err)
		}
		natstest.Await(t, "the end of its goroutines", func() bool { return runtime.NumGoroutine() <= before })
	}
}
