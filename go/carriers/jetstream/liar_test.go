package jetstream

import (
	"bufio"
	"errors"
	"fmt"
	"net"
	"strings"
	"sync/atomic"
	"testing"
	"time"

	"github.com/nats-io/nats.go"

	"svid.example/go/v3/internal/broker"
	"svid.example/go/v3/internal/natstest"
	"svid.example/go/v3/internal/patience"
)

// A liar is who may publish to the bucket, and wants others to lose or miss values.
type liar struct {
	t    *testing.T
	conn *nats.Conn
	js   nats.JetStreamContext
}

func newLiar(t *testing.T, urls ...string) *liar {
	t.Helper()
	conn := natstest.Connect(t, strings.Join(urls, ","))
	return &liar{t, conn, natstest.JetStream(t, conn)}
}

// put stores a value, with a header of its own making.
func (l *liar) put(key string, value []byte, header nats.Header) error {
	_, err := l.js.PublishMsg(&nats.Msg{Subject: "$KV.test." + key, Header: header, Data: value})
	return err
}

// keys are the keys of the bucket's values, in their order.
func (l *liar) keys() (all []string) {
	l.t.Helper()
	state, err := l.js.StreamInfo("KV_test")
	if err != nil {
		l.t.Fatal(err)
	}
	for n := state.State.FirstSeq; n <= state.State.LastSeq; n++ {
		if m, err := l.js.GetMsg("KV_test", n); err == nil {
			all = append(all, strings.TrimPrefix(m.Subject, "$KV.test."))
		}
	}
	return all
}

// Whoever may publish to the bucket can add values to it, and nothing more: what is there stays.
func TestPublishingRemovesNothing(t *testing.T) {
	t.Parallel()
	for name, n := range map[string]int{"one server": 1, "three servers": 3} {
		t.Run(name, func(t *testing.T) {
			var servers []*broker.Server
			if n == 1 {
				servers = []*broker.Server{natstest.Start(t)}
			} else {
				servers = natstest.Cluster(t, n)
			}
			o := options(1, broker.URLs(servers)...)
			o.Replicas = n
			a := join(t, o)
			for n := 0; n < 5; n++ {
				awaitHeld(t, a, tell(t, a, n))
			}
			l := newLiar(t, broker.URLs(servers)...)
			keys := l.keys()
			lies := map[string]func() error{
				"a roll-up of all":          func() error { return l.put("u.liar.1", batchOf(), nats.Header{"Nats-Rollup": {"all"}}) },
				"a roll-up of a key":        func() error { return l.put(keys[2], batchOf(), nats.Header{"Nats-Rollup": {"sub"}}) },
				"a roll-up of nonsense":     func() error { return l.put("u.liar.2", batchOf(), nats.Header{"Nats-Rollup": {"x"}}) },
				"a second value of a key":   func() error { return l.put(keys[2], batchOf(), nil) },
				"the mark of a deleted key": func() error { return l.put(keys[2], nil, nats.Header{"KV-Operation": {"DEL"}}) },
				"the mark of a purged key": func() error {
					return l.put(keys[2], nil, nats.Header{"KV-Operation": {"PURGE"}, "Nats-Rollup": {"sub"}})
				},
				"a purge":    func() error { return l.js.PurgeStream("KV_test") },
				"a deletion": func() error { return l.js.DeleteMsg("KV_test", 3) },
				"a second bucket": func() error {
					_, err := l.js.AddStream(&nats.StreamConfig{Name: "KV_test", Subjects: []string{"$KV.test.>"}, MaxAge: time.Second})
					return err
				},
			}
			for what, lie := range lies {
				if err := lie(); err == nil {
					t.Errorf("%s is not refused", what)
				}
				if got := l.keys(); fmt.Sprint(got) != fmt.Sprint(keys) {
					t.Fatalf("%s: %v, before %v", what, got, keys)
				}
			}
			for i, s := range servers { // They keep it so over a restart.
				s.Kill()
				restart(t, s)
				natstest.Await(t, "JetStream", s.Answers)
				if n > 1 {
					natstest.Await(t, "its copy of the bucket", func() bool { return replicas(a) == n })
				}
				if err := l.put(keys[2], batchOf(), nil); err == nil {
					t.Errorf("a second value of a key is not refused by server %d", i)
				}
			}
			b := join(t, o)
			if got := len(b.inOrder()); got != 5 {
				t.Errorf("a member that comes anew reads %d values", got)
			}
		})
	}
}

// The broker marks what it says of itself by a header, which a value may have too. It is read as any other value.
func TestNoHeaderHidesAValue(t *testing.T) {
	t.Parallel()
	for name, header := range map[string]nats.Header{
		"none":                 {},
		"a mark of a broker":   {"Status": {"100"}},
		"idle":                 {"Status": {"100"}, "Description": {"Idle Heartbeat"}, "Nats-Last-Consumer": {"7"}},
		"stalled":              {"Status": {"100"}, "Description": {"Idle Heartbeat"}, "Nats-Consumer-Stalled": {"$KV.test.u.stalled.1"}},
		"flow":                 {"Status": {"100"}, "Description": {"FlowControl Request"}},
		"no responders":        {"Status": {"503"}},
		"a missing consumer":   {"Status": {"409"}, "Description": {"Consumer Deleted"}},
		"the mark of a delete": {"KV-Operation": {"DEL"}},
	} {
		header := header
		t.Run(name, func(t *testing.T) {
			t.Parallel()
			s := natstest.Start(t)
			p := newProxy(t, s.URL)
			a, b := join(t, options(1, s.URL)), join(t, options(2, p.URL))
			awaitHeld(t, b, tell(t, a, 1))
			l := newLiar(t, s.URL)
			if err := l.put("u.liar.1", nil, header); err != nil {
				t.Fatal(err)
			}
			if err := l.put("u.liar.2", batch(key(7), a.id), header); err != nil {
				t.Fatal(err)
			}
			last := tell(t, a, 2)
			awaitHeld(t, b, batch(key(7), a.id))
			awaitHeld(t, b, last)
			c := join(t, options(3, s.URL))
			if !c.has(last) || !c.has(batch(key(7), a.id)) {
				t.Error("a member that comes anew does not read all")
			}
			// It is the last value that was read, and reading begins again after it.
			if err := l.put("u.liar.3", nil, header); err != nil {
				t.Fatal(err)
			}
			natstest.Await(t, "it to be read", func() bool { return b.Aside() == 2 })
			p.cut()
			awaitHeld(t, b, tell(t, a, 3))
			if b.logged("values are gone") || len(b.begins()) != 1 {
				t.Error(b.said())
			}
			if got := l.keys(); len(got) != 6 {
				t.Errorf("%v", got)
			}
		})
	}
}

// A header that can't be read does not stop anything either, where it is that of the last value before reading begins again.
func TestABadHeaderStopsNothing(t *testing.T) {
	t.Parallel()
	s := natstest.Start(t)
	a, b := join(t, options(1, s.URL)), join(t, options(2, s.URL))
	awaitHeld(t, b, tell(t, a, 1))
	const bad = "NATS/1.0\r\nno colon\r\n\r\n"
	var text strings.Builder
	for n := 0; n < 200; n++ {
		fmt.Fprintf(&text, "HPUB $KV.test.u.liar.%d %d %d\r\n%s\r\n", n, len(bad), len(bad), bad)
	}
	from := time.Now()
	raw(t, s.URL, text.String())
	natstest.Await(t, "them to be read", func() bool { return b.Aside() == 200 })
	b.logMu.Lock()
	if seconds := int(time.Since(from) / time.Second); len(b.lines) > 30+seconds {
		t.Errorf("%d lines of log for 200 values within %d seconds", len(b.lines), seconds)
	}
	b.logMu.Unlock()
	s.Kill()
	restart(t, s)
	awaitHeld(t, b, tell(t, a, 2))
}

// Summaries that can't be answered do not fill the log.
func TestManyBadSummaries(t *testing.T) {
	t.Parallel()
	s := natstest.Start(t)
	a := join(t, options(1, s.URL))
	var asked atomic.Int32
	a.Summaries(time.Hour, func() ([]byte, error) { return []byte("of a"), nil }, func([]byte, int) ([][]byte, error) {
		asked.Add(1)
		return nil, errors.New("no summary")
	})
	l := newLiar(t, s.URL)
	from := time.Now()
	natstest.Await(t, "them to be asked", func() bool {
		for n := 0; n < 20; n++ {
			if err := l.conn.PublishRequest("svid.test.summary", l.conn.NewInbox(), []byte("lie")); err != nil {
				t.Fatal(err)
			}
		}
		return asked.Load() > 200
	})
	a.logMu.Lock()
	defer a.logMu.Unlock()
	// A line each second at the most, however long a busy machine takes.
	if seconds := int(time.Since(from) / time.Second); len(a.lines) == 0 || len(a.lines) > 30+seconds {
		t.Errorf("%d lines of log for %d summaries within %d seconds", len(a.lines), asked.Load(), seconds)
	}
}

// Who lets the broker send other values to where a member listens, or some of the bucket's, changes nothing in what it reads.
func TestValuesOfAnotherFeed(t *testing.T) {
	t.Parallel()
	s := natstest.Start(t)
	l := newLiar(t, s.URL)
	inboxes := make(chan string, 99)
	if _, err := l.conn.Subscribe("_INBOX.>", func(m *nats.Msg) {
		if strings.HasPrefix(m.Reply, "$JS.ACK.") {
			select {
			case inboxes <- m.Reply:
			default:
			}
		}
	}); err != nil {
		t.Fatal(err)
	}
	a := join(t, options(1, s.URL))
	awaitHeld(t, a, tell(t, a, 1))
	if err := l.conn.FlushTimeout(patience.Long); err != nil {
		t.Fatal(err)
	}
	var inbox string
	select {
	case inbox = <-inboxes:
	case <-time.After(patience.Long):
		t.Fatal("no value was delivered")
	}
	name := strings.Split(inbox, ".")[3]
	victim, err := l.js.ConsumerInfo("KV_test", name)
	if err != nil {
		t.Fatal(err)
	}
	if _, err := l.js.AddStream(&nats.StreamConfig{Name: "other", Subjects: []string{"$KV.other.>"}}); err != nil {
		t.Fatal(err)
	}
	for n := 0; n < 5; n++ {
		if _, err := l.js.Publish("$KV.other.u.x", batch(key(100+n), [16]byte{9})); err != nil {
			t.Fatal(err)
		}
	}
	for _, stream := range []string{"other", "KV_test"} {
		if _, err := l.js.AddConsumer(stream, &nats.ConsumerConfig{DeliverSubject: victim.Config.DeliverSubject, AckPolicy: nats.AckNonePolicy}); err != nil {
			t.Fatal(err)
		}
	}
	for n := 2; n < 6; n++ {
		awaitHeld(t, a, tell(t, a, n))
	}
	want := make([]Value, 5)
	for i := range want {
		want[i] = Value{Kind: Uses, Position: uint64(i + 1), Message: batch(key(i+1), a.id)}
	}
	wantValues(t, a, want...)
}

// Who lets the broker send heartbeats of other feeds to where a member listens does not end the member's own feed. (A broker that is late may end
// it: then another member tries.)
func TestHeartbeatsOfAnotherFeed(t *testing.T) {
	t.Parallel()
	natstest.Await(t, "a feed that stays", func() bool { return staysAtItsFeed(t) })
}

func staysAtItsFeed(t *testing.T) bool {
	s := natstest.Start(t)
	defer s.Kill()
	l := newLiar(t, s.URL)
	beats := make(chan *nats.Msg, 99)
	if _, err := l.conn.Subscribe("_INBOX.>", func(m *nats.Msg) {
		if m.Header.Get("Nats-Last-Consumer") != "" {
			select {
			case beats <- m:
			default:
			}
		}
	}); err != nil {
		t.Fatal(err)
	}
	next := func() (m *nats.Msg) {
		select {
		case m = <-beats:
		case <-time.After(patience.Long):
			t.Fatal("no heartbeat comes")
		}
		return m
	}
	a := join(t, options(1, s.URL))
	awaitHeld(t, a, tell(t, a, 1))
	inbox := next().Subject
	if _, err := l.js.AddConsumer("KV_test", &nats.ConsumerConfig{
		DeliverSubject: inbox, DeliverPolicy: nats.DeliverNewPolicy, AckPolicy: nats.AckNonePolicy, Heartbeat: 100 * time.Millisecond,
	}); err != nil {
		t.Fatal(err)
	}
	for own, others := 0, 0; own < 2 || others < 20; {
		m := next()
		if m.Subject != inbox {
			t.Logf("a heartbeat to %s, and not to %s: %s", m.Subject, inbox, a.said())
			return false
		}
		if m.Header.Get("Nats-Last-Consumer") == "1" {
			own++
		} else {
			others++
		}
	}
	for n := 2; n < 6; n++ {
		awaitHeld(t, a, tell(t, a, n))
	}
	if a.logged("another feed") {
		t.Log(a.said())
		return false
	}
	return true
}

// A value that someone lets the broker deliver in the place of its answer is none.
func TestAValueForAnAnswer(t *testing.T) {
	t.Parallel()
	s := natstest.Start(t)
	a := join(t, options(1, s.URL))
	l := newLiar(t, s.URL)
	if err := l.put("u.liar.1", []byte(`{"message":{"seq":7,"subject":"$KV.test.c.liar.1"}}`), nil); err != nil {
		t.Fatal(err)
	}
	// (Nobody but the liar answers this question. Of others it must be faster than the broker. It listens itself where the values are to
	// go, since the broker wants somebody there.)
	if _, err := l.conn.Subscribe("$JS.API.OF.NOBODY", func(m *nats.Msg) {
		if _, err := l.conn.SubscribeSync(m.Reply); err == nil {
			_, _ = l.js.AddConsumer("KV_test", &nats.ConsumerConfig{DeliverSubject: m.Reply, AckPolicy: nats.AckNonePolicy})
		}
	}); err != nil {
		t.Fatal(err)
	}
	if err := l.conn.FlushTimeout(patience.Long); err != nil {
		t.Fatal(err)
	}
	// (The client takes a value for an answer where one request alone waits, and the reader has some, too.)
	natstest.Await(t, "a value in the place of an answer", func() bool {
		var answer struct{ Message stored }
		err := a.ask(patient(t), time.Second, "OF.NOBODY", nil, &answer)
		if err == nil || answer.Message.Position != 0 {
			t.Fatalf("%v: %+v", err, answer)
		}
		return err == errDelivered
	})
}

// A liar that takes the next keys of a member does not suppress what it says.
func TestALiarThatTakesTheNextKeys(t *testing.T) {
	t.Parallel()
	s := natstest.Start(t)
	a, b := join(t, options(1, s.URL)), join(t, options(2, s.URL))
	awaitHeld(t, b, tell(t, a, 1))
	l := newLiar(t, s.URL)
	seen := l.keys()[0]
	tag := seen[strings.LastIndex(seen, ".")+1:]
	for n := 2; n < 10; n++ {
		for _, end := range []string{"", "." + tag} {
			if err := l.put(fmt.Sprintf("u.%s.%d%s", a.member, n, end), batchOf(), nil); err != nil {
				t.Fatal(err)
			}
		}
	}
	for n := 2; n < 10; n++ {
		awaitHeld(t, b, tell(t, a, n))
	}
}

// What is under a value's key is not done where it is another value.
func TestAnotherValueUnderTheKey(t *testing.T) {
	t.Parallel()
	s := natstest.Start(t)
	a := join(t, options(1, s.URL))
	l := newLiar(t, s.URL)
	for i, row := range []struct {
		there, put []byte
		want       error
	}{
		{batch(key(1), a.id), batch(key(1), a.id), nil}, // as where the answer to an earlier attempt was lost
		{batchOf(), batch(key(2), a.id), errTaken},
		{batch(key(3), a.id)[:headLen], batch(key(3), a.id), errTaken},
		{nil, batch(key(4), a.id), errTaken},
	} {
		n := uint64(i + 1)
		if err := l.put(a.keyOf(Uses, n), row.there, nil); err != nil {
			t.Fatal(err)
		}
		position := uint64(len(l.keys()))
		if err := a.Put(patient(t), Uses, n, row.put); err != row.want {
			t.Errorf("%d: %v, want %v", n, err, row.want)
		}
		if known := a.stored.Load() == position; known != (row.want == nil) { // The reader waits for it then.
			t.Errorf("%d: the last own value is known to be at %d, and is at %d", n, a.stored.Load(), position)
		}
	}
}

// raw says something to a server, and returns once it has answered a ping behind it.
func raw(t *testing.T, url, text string) {
	t.Helper()
	c, err := net.Dial("tcp", strings.TrimPrefix(url, "nats://"))
	if err != nil {
		t.Fatal(err)
	}
	defer c.Close()
	_ = c.SetDeadline(time.Now().Add(patience.Long))
	if _, err := c.Write([]byte("CONNECT {\"headers\":true,\"verbose\":false}\r\n" + text + "PING\r\n")); err != nil {
		t.Fatal(err)
	}
	lines := bufio.NewScanner(c)
	for lines.Scan() {
		switch line := lines.Text(); {
		case line == "PONG":
			return
		case strings.HasPrefix(line, "-ERR"):
			t.Fatal(line)
		}
	}
	t.Fatal(lines.Err())
}
