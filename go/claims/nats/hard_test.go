package nats

import (
	"bufio"
	"bytes"
	"context"
	"crypto/rand"
	"encoding/json"
	"errors"
	"fmt"
	"net"
	"os"
	"os/exec"
	"path/filepath"
	"strconv"
	"strings"
	"sync"
	"sync/atomic"
	"testing"
	"time"

	client "github.com/nats-io/nats.go"

	"svid.example/go/v3/claims"
	"svid.example/go/v3/claims/claimstest"
	"svid.example/go/v3/internal/broker"
	"svid.example/go/v3/internal/clocks"
	"svid.example/go/v3/internal/logtest"
	"svid.example/go/v3/internal/natstest"
	"svid.example/go/v3/internal/patience"
)

// open opens a member's store, and closes it when the test ends.
func open(t testing.TB, m *machine, o claimstest.Options) *Store {
	t.Helper()
	s := m.Store(t, o).(*Store)
	t.Cleanup(func() { s.Close() })
	claimstest.Open(t, s)
	return s
}

// haveEnded wants all members, and one that starts later, to know one epoch, which is another than before and deaf to all that was claimed.
func haveEnded(t *testing.T, m *machine, o claimstest.Options, before claims.State, members ...*Store) {
	t.Helper()
	var is claims.State
	natstest.Await(t, "one other epoch", func() bool {
		is = claimstest.State(t, members[0])
		for _, one := range members[1:] {
			if claimstest.State(t, one).Epoch != is.Epoch {
				return false
			}
		}
		return is.Epoch != before.Epoch
	})
	late := claimstest.State(t, open(t, m, o))
	if is.Deaf < before.Time+o.Terms.Lasts || late.Epoch != is.Epoch || late.Deaf != is.Deaf {
		t.Errorf("%+v, %+v later, and before %+v", is, late, before)
	}
}

func one(owner int) claims.Claim {
	return claims.Claim{Key: claimstest.Key(), Owner: claimstest.Own(owner), Expires: claimstest.Now() + 3000}
}

func wantOwner(t *testing.T, f claims.Found, owner claims.Owner) {
	t.Helper()
	if f.Err != nil || f.Owner != owner {
		t.Errorf("found %x %v, and not %x", f.Owner, f.Err, owner)
	}
}

// A claim whose answer was lost finds its own entry, by itself.
func TestALostAnswer(t *testing.T) {
	t.Parallel()
	m := newMachine(t)
	proxy := logtest.NewProxy(t, m.Address())
	o := claimstest.Options{Name: "lost", Terms: claimstest.Usual, Address: proxy.Address}
	a := open(t, m, o)
	o.Address = ""
	b := open(t, m, o)
	c := one(1)
	copy(c.Owner[:], "the owner of the lost answer")
	proxy.Lose(c.Owner[:])
	wantOwner(t, claimstest.Put(t, a, c)[0], c.Owner)
	if !proxy.HasLost() {
		t.Error("nothing was lost")
	}
	other := c
	other.Owner = claimstest.Own(2)
	wantOwner(t, claimstest.Put(t, b, other)[0], c.Owner)
	if is := claimstest.State(t, a); is.Deaf != 0 {
		t.Errorf("%+v", is)
	}
}

// Where no server is there, nothing is kept that would be sent later, when its request has had its answer.
func TestNothingIsSentLater(t *testing.T) {
	t.Parallel()
	m := newMachine(t)
	proxy := logtest.NewProxy(t, m.Address())
	o := claimstest.Options{Name: "later", Terms: claimstest.Usual, Address: proxy.Address}
	a := open(t, m, o)
	o.Address = ""
	b := open(t, m, o)
	proxy.Shut(true)
	natstest.Await(t, "the end of the connection", func() bool { return !a.conn.IsConnected() })
	var these []claims.Claim
	for i := 0; i < 100; i++ {
		these = append(these, one(1))
	}
	outcomes := make([]outcome, len(these))
	ctx, cancel := context.WithTimeout(context.Background(), 100*time.Millisecond)
	all := make([]int, len(these))
	for i := range all {
		all[i] = i
	}
	a.put(ctx, a.known.Load(), these, outcomes, all) // (Put would wait for the server before that)
	cancel()
	for i := range outcomes {
		if outcomes[i].isDone || outcomes[i].err == nil {
			t.Fatalf("%+v", outcomes[i])
		}
	}
	proxy.Shut(false)
	wantOwner(t, claimstest.Put(t, a, one(1))[0], claimstest.Own(1)) // Whatever was kept has been sent before that.
	for i := range these {
		these[i].Owner = claimstest.Own(2)
	}
	for _, f := range claimstest.Put(t, b, these...) {
		wantOwner(t, f, claimstest.Own(2))
	}
}

// An answer that never comes holds up no other one, in its call and in later ones.
func TestAnAnswerThatNeverComes(t *testing.T) {
	t.Parallel()
	m := newMachine(t)
	a := open(t, m, claimstest.Options{Name: "never", Terms: claimstest.Usual})
	nc := natstest.Connect(t, m.URL)
	if _, err := nc.Subscribe("silent", func(*client.Msg) {}); err != nil {
		t.Fatal(err)
	}
	nc.FlushTimeout(patience.Long)
	const questions = 500
	answered := make(chan int, questions)
	ctx, cancel := context.WithCancel(context.Background())
	ended := make(chan bool)
	go func() {
		a.each(ctx, questions, func(i int) question {
			if i < mostUnderWay {
				return question{"silent", nil, nil}
			}
			return a.ticking()
		}, func(i int, m *client.Msg, err error) bool {
			if err == nil {
				answered <- i
			}
			return err != nil
		})
		close(ended)
	}()
	for i := mostUnderWay; i < questions; i++ {
		select {
		case <-answered:
		case <-time.After(patience.Long):
			t.Fatalf("%d questions are answered", i-mostUnderWay)
		}
	}
	wantOwner(t, claimstest.Put(t, a, one(1))[0], claimstest.Own(1))
	cancel()
	<-ended
	const wait, attempts = 5 * time.Millisecond, 8
	var asked []time.Time
	a.eachWithin(patient(t), wait, 1, func(int) question {
		asked = append(asked, time.Now())
		return question{"silent", nil, nil}
	}, func(int, *client.Msg, error) bool { return len(asked) < attempts })
	for n := 1; n < len(asked); n++ {
		if waited := asked[n].Sub(asked[n-1]); waited < wait<<(n-1) { // (else a server that is slow would be asked the more)
			t.Errorf("attempt %d waited for %v", n, waited)
		}
	}
	a.mu.Lock()
	defer a.mu.Unlock()
	if len(a.waiting) != 0 {
		t.Errorf("%d wait for ever", len(a.waiting))
	}
}

// A server that is away for long is found again: nothing bounds how often it is tried.
func TestAServerThatIsAwayForLong(t *testing.T) {
	t.Parallel()
	a := open(t, newMachine(t), claimstest.Options{Name: "long", Terms: claimstest.Usual})
	if n := a.conn.Opts.MaxReconnect; n >= 0 {
		t.Errorf("after %d tries the client gives up", n)
	}
}

// A server that refuses a member for a while, as one whose users are changed first, is found again by itself.
func TestAServerThatRefusesForAWhile(t *testing.T) {
	t.Parallel()
	users := func(password string) string {
		return `accounts: { svid: { jetstream: enabled, users: [ { user: admin, password: secret }, { user: member, password: ` + password + ` } ] } }
no_auth_user: admin
`
	}
	m := newMachineWith(t, users("known"))
	var refused, said atomic.Int32
	s := newStore(t, Options{Servers: []string{m.URL}, Name: "refused", Terms: claimstest.Usual, Connect: []client.Option{client.UserInfo("member", "known")}})
	s.o.Connect = append(s.o.Connect, client.ErrorHandler(func(_ *client.Conn, _ *client.Subscription, err error) {
		refused.Add(1)
		s.brokerSays(err)
	}))
	s.o.Log = func(event string, _ ...any) {
		if event == "broker says" {
			said.Add(1)
		}
	}
	t.Cleanup(func() { s.Close() })
	claimstest.Open(t, s)
	from := time.Now()
	for _, password := range []string{"other", "known"} {
		m.setConfig(t, users(password))
		m.Kill(t)
		m.Start(t)
		natstest.Await(t, "the server to refuse the member", func() bool { return refused.Load() > 3 || s.conn.IsClosed() })
		if s.conn.IsClosed() {
			t.Fatal("the client has given up")
		}
	}
	if minutes := int32(time.Since(from)/time.Minute) + 1; said.Load() == 0 || said.Load() > minutes {
		t.Errorf("%d refusals are %d lines", refused.Load(), said.Load())
	}
	c := one(1)
	wantOwner(t, claimstest.Put(t, s, c)[0], c.Owner)
}

// The client gives a connection up where the server says that a limit is exceeded. Once the limit is another one, the store has another connection.
func TestAServerWhoseLimitIsExceededForAWhile(t *testing.T) {
	t.Parallel()
	m := newMachine(t)
	var lost, found atomic.Int32
	s := newStore(t, Options{Servers: []string{m.URL}, Name: "limited", Terms: claimstest.Usual})
	s.o.Log = func(event string, _ ...any) {
		switch event {
		case "broker lost":
			lost.Add(1)
		case "broker found":
			found.Add(1)
		}
	}
	t.Cleanup(func() { s.Close() })
	claimstest.Open(t, s)
	first := s.connection()
	m.setConfig(t, "max_subscriptions: 1")
	m.Kill(t)
	m.Start(t)
	natstest.Await(t, "the end of the connection", first.IsClosed)
	other := newStore(t, Options{Servers: []string{m.URL}, Name: "limited", Terms: claimstest.Usual})
	if err := other.Check(patient(t)); err == nil || !strings.Contains(err.Error(), "maximum subscriptions exceeded") {
		t.Errorf("--check-config would say %v", err)
	}
	other.Close()
	m.setConfig(t, "")
	m.Kill(t)
	m.Start(t)
	c := one(1)
	wantOwner(t, claimstest.Put(t, s, c)[0], c.Owner)
	if lost.Load() > 3 || found.Load() == 0 {
		t.Errorf("%d lines say that the server is lost, and %d that it is found", lost.Load(), found.Load())
	}
	s.Close()
	natstest.Await(t, "the end of the other connection", s.connection().IsClosed)
}

// A server that refuses each connection is asked for one each second, and soon at first: it may log all of them.
func TestAServerThatRefusesIsNotAskedAllTheTime(t *testing.T) {
	t.Parallel()
	l, err := net.Listen("tcp", "127.0.0.1:0")
	if err != nil {
		t.Fatal(err)
	}
	defer l.Close()
	var asked atomic.Int32
	go func() {
		for c, err := l.Accept(); err == nil; c, err = l.Accept() {
			asked.Add(1)
			c.Close()
		}
	}()
	s := newStore(t, Options{Servers: []string{"nats://" + l.Addr().String()}, Name: "refusing", Terms: claimstest.Usual})
	defer s.Close()
	ctx, cancel := context.WithTimeout(context.Background(), 4*time.Second)
	defer cancel()
	if _, err := s.Open(ctx); err == nil {
		t.Error("it opens")
	}
	if n := asked.Load(); n > 12 {
		t.Errorf("it was asked %d times in four seconds", n)
	}
}

// A disk that is full takes no claim, and loses none.
func TestAFullDisk(t *testing.T) {
	t.Parallel()
	m := newMachineWith(t, "jetstream { max_file_store: 200KB }")
	o := claimstest.Options{Name: "full", Terms: claimstest.Usual}
	a, b := open(t, m, o), open(t, m, o)
	before := claimstest.State(t, a)
	var mine []claims.Claim
	for isFull, end, open := false, time.Now().Add(patience.Long), []claims.Claim(nil); !isFull; {
		these := open // (those that a busy machine had no time for)
		for open = nil; len(these) < 64; {
			these = append(these, one(1))
		}
		for i, f := range claimstest.Try(a, 10*time.Second, these...) {
			if f.Err == nil {
				mine = append(mine, these[i])
				wantOwner(t, f, claimstest.Own(1))
			} else if open = append(open, these[i]); strings.Contains(f.Err.Error(), "insufficient resources") {
				isFull = true
			}
		}
		if len(mine) > 10_000 || time.Now().After(end) {
			t.Fatal("the disk has no end")
		}
	}
	if len(mine) < 500 {
		t.Errorf("%d claims", len(mine))
	}
	m.Server.Kill()
	m.setConfig(t, "jetstream { max_file_store: 200MB }")
	m.Start(t)
	for i := range mine {
		mine[i].Owner = claimstest.Own(2)
	}
	for i := 0; i < len(mine); i += claims.MostClaims {
		end := i + claims.MostClaims
		if end > len(mine) {
			end = len(mine)
		}
		for _, f := range claimstest.Put(t, b, mine[i:end]...) {
			wantOwner(t, f, claimstest.Own(1))
		}
	}
	if is := claimstest.State(t, b); is.Epoch != before.Epoch || is.Deaf != 0 {
		t.Errorf("%+v, and before %+v", is, before)
	}
}

// An administrator can't remove an entry as long as the stream is what it must be.
func TestNobodyRemovesAnEntry(t *testing.T) {
	t.Parallel()
	m := newMachine(t)
	o := claimstest.Options{Name: "stays", Terms: claimstest.Usual}
	a := open(t, m, o)
	c := one(1)
	wantOwner(t, claimstest.Put(t, a, c)[0], c.Owner)
	js := admin(t, m.URL)
	if err := js.PurgeStream(a.stream(ofClaims), &client.StreamPurgeRequest{Subject: a.subjectOf(&c)}); err == nil {
		t.Error("a purge")
	}
	if err := js.DeleteMsg(a.stream(ofClaims), 1); err == nil {
		t.Error("a deletion")
	}
	again := client.NewMsg(a.subjectOf(&c))
	again.Header.Set("Nats-Rollup", "sub")
	if _, err := js.PublishMsg(again); err == nil {
		t.Error("a roll-up")
	}
	for name, change := range map[string]func(*client.StreamConfig){
		"deny_purge": func(c *client.StreamConfig) { c.DenyPurge = false }, "deny_delete": func(c *client.StreamConfig) { c.DenyDelete = false },
	} {
		i, err := js.StreamInfo(a.stream(ofClaims))
		if err != nil {
			t.Fatal(err)
		}
		change(&i.Config)
		if _, err := js.UpdateStream(&i.Config); err == nil {
			t.Errorf("without %s", name)
		}
	}
	if is := claimstest.State(t, a); is.Deaf != 0 {
		t.Errorf("%+v", is)
	}
}

// Settings by which the stream lost entries end the epoch, and nothing is answered until they are put right.
func TestSettingsThatLose(t *testing.T) {
	t.Parallel()
	m := newMachine(t)
	o := claimstest.Options{Name: "settings", Terms: claimstest.Usual}
	a, b := open(t, m, o), open(t, m, o)
	before := claimstest.State(t, a)
	claimstest.Put(t, a, one(1))
	js := admin(t, m.URL)
	i, err := js.StreamInfo(a.stream(ofClaims))
	if err != nil {
		t.Fatal(err)
	}
	due := i.Config.MaxAge
	i.Config.Duplicates = 0
	keepFor := func(now time.Duration) {
		t.Helper()
		i.Config.MaxAge = now
		if _, err := js.UpdateStream(&i.Config); err != nil {
			t.Fatal(err)
		}
	}
	const wrong = "max_age is 1000000000 and must be 0 or at least"
	var unfit *claims.Unfit
	isWrong := func(s *Store) {
		t.Helper()
		if _, err := s.State(patient(t)); !errors.As(err, &unfit) || !strings.Contains(unfit.Why, wrong) {
			t.Errorf("%v", err)
		}
	}
	keepFor(time.Second)
	isWrong(a)
	const line = "no claim is answered why claims: the stream KV_settings-claims may lose claims: " + wrong
	first := logged(a, line)
	for _, f := range claimstest.Try(a, patience.Long, one(1)) {
		if f.Err == nil {
			t.Errorf("%+v", f)
		}
	}
	if _, err := m.Store(t, o).Open(patient(t)); !errors.As(err, &unfit) {
		t.Errorf("a member that starts: %v", err)
	}
	keepFor(due)
	haveEnded(t, m, o, before, a, b)
	wantOwner(t, claimstest.Put(t, b, one(3))[0], claimstest.Own(3))
	keepFor(time.Second)
	isWrong(a)
	if second := logged(a, line); first == 0 || second <= first {
		t.Errorf("the log says what is wrong %d times, and %d times the second time that it is", first, second-first)
	}
}

// Settings lose entries once, are put right, and lose entries again: another member has accepted a token in between. A member that saw both losses, and nothing
// of that, does not accept it.
func TestSettingsThatLoseTwice(t *testing.T) {
	t.Parallel()
	m := newMachine(t)
	o := claimstest.Options{Name: "twice", Terms: claims.Terms{Lasts: claimstest.Usual.Lasts, Margin: claimstest.Usual.Margin, Back: 1}}
	a, b := open(t, m, o), open(t, m, o)
	js := admin(t, m.URL)
	i, err := js.StreamInfo(a.stream(ofClaims))
	if err != nil {
		t.Fatal(err)
	}
	due := i.Config.MaxAge
	i.Config.Duplicates = 0
	keepFor := func(now time.Duration) {
		t.Helper()
		i.Config.MaxAge = now
		if _, err := js.UpdateStream(&i.Config); err != nil {
			t.Fatal(err)
		}
	}
	isWrong := func() {
		t.Helper()
		var unfit *claims.Unfit
		if _, err := a.State(patient(t)); !errors.As(err, &unfit) {
			t.Fatal(err)
		}
	}
	keepFor(time.Second)
	isWrong()
	keepFor(due)
	c := one(1)
	c.Expires = claimstest.State(t, b).Deaf + 1
	natstest.Await(t, "a time at which such a token is made", func() bool { return claimstest.State(t, b).Time+o.Terms.Lasts > c.Expires })
	if f := claimstest.Put(t, b, c)[0]; claimstest.Judge(c, f, 60) != claimstest.Mine {
		t.Fatalf("%+v", f)
	}
	b.Close()
	keepFor(time.Second)
	natstest.Await(t, "the claim to go", func() bool {
		is, err := js.StreamInfo(a.stream(ofClaims))
		return err == nil && is.State.Msgs == 0
	})
	natstest.Await(t, "looks while the settings are wrong, by which nothing is too young to go", func() bool {
		isWrong()
		return a.samples[ofClaims][0].last > 0
	})
	keepFor(due)
	again := c
	again.Owner = claimstest.Own(2)
	if f := claimstest.Put(t, a, again)[0]; claimstest.Judge(again, f, 60) == claimstest.Mine {
		t.Errorf("accepted twice: %+v", f)
	}
}

// Entries that left too early end one epoch, and not each one that follows: for who saw that, and for who starts later.
func TestWhatLeftTooEarlyEndsOneEpoch(t *testing.T) {
	t.Parallel()
	m := newMachine(t)
	o := claimstest.Options{Name: "early", Terms: claimstest.Usual}
	a, b := open(t, m, o), open(t, m, o)
	before := claimstest.State(t, a)
	claimstest.Put(t, a, one(1))
	js := admin(t, m.URL)
	i, err := js.StreamInfo(a.stream(ofClaims))
	if err != nil {
		t.Fatal(err)
	}
	due := i.Config
	i.Config.MaxAge, i.Config.Duplicates = time.Second, 0
	for _, config := range []client.StreamConfig{i.Config, due} {
		if _, err := js.UpdateStream(&config); err != nil {
			t.Fatal(err)
		}
		natstest.Await(t, "the claim to go", func() bool {
			is, err := js.StreamInfo(a.stream(ofClaims))
			return err == nil && is.State.Msgs == 0
		})
	}
	haveEnded(t, m, o, before, a, b)
	next := claimstest.State(t, a)
	for _, store := range []*Store{a, b, open(t, m, o), a, b} {
		if is := claimstest.State(t, store); is.Epoch != next.Epoch || is.Deaf != next.Deaf {
			t.Errorf("%+v, and then %+v", next, is)
		}
	}
}

// Each setting by which a stream may lose claims, or can't be written, is named, with what it must be.
func TestUnfitStreams(t *testing.T) {
	t.Parallel()
	m := newMachine(t)
	js := admin(t, m.URL)
	for n, unfit := range []struct {
		change func(*client.StreamConfig)
		why    string
	}{
		{func(c *client.StreamConfig) { c.Storage = client.MemoryStorage }, `storage is "memory" and must be "file"`},
		{func(c *client.StreamConfig) { c.MaxMsgs = 1000 }, "max_msgs is 1000 and must be -1"},
		{func(c *client.StreamConfig) { c.MaxBytes = 1 << 20 }, "max_bytes is 1048576 and must be -1"},
		{func(c *client.StreamConfig) { c.Discard, c.DiscardNewPerSubject = client.DiscardOld, false }, `discard is "old" and must be "new"`},
		{func(c *client.StreamConfig) { c.DiscardNewPerSubject = false }, "discard_new_per_subject is missing and must be true"},
		{func(c *client.StreamConfig) { c.MaxMsgsPerSubject = 2 }, "max_msgs_per_subject is 2 and must be 1"},
		{func(c *client.StreamConfig) { c.MaxAge = time.Hour }, "max_age is 3600000000000 and must be 0 or at least 7380000000000 (2h3m0s)"},
		{func(c *client.StreamConfig) { c.DenyDelete = false }, "deny_delete is false and must be true"},
		{func(c *client.StreamConfig) { c.DenyPurge = false }, "deny_purge is false and must be true"},
		{func(c *client.StreamConfig) { c.DenyPurge, c.AllowRollup = false, true }, "allow_rollup_hdrs is true and must be left out"},
		{func(c *client.StreamConfig) { c.MaxMsgSize = 31 }, "max_msg_size is 31 and must be -1 or at least 64"},
		{func(c *client.StreamConfig) { c.Retention = client.WorkQueuePolicy }, `retention is "workqueue" and must be "limits"`},
		{func(c *client.StreamConfig) { c.NoAck = true }, "no_ack is true and must be left out"},
	} {
		name := fmt.Sprint("unfit", n)
		s := m.Store(t, claimstest.Options{Name: name, Terms: claimstest.Usual}).(*Store)
		c := &client.StreamConfig{Name: s.stream(ofClaims), Subjects: []string{s.base + "c.*"}, Storage: client.FileStorage, MaxMsgsPerSubject: 1,
			Discard: client.DiscardNew, DiscardNewPerSubject: true, MaxAge: age(claimstest.Usual), DenyDelete: true, DenyPurge: true, MaxMsgSize: 64}
		unfit.change(c)
		if _, err := js.AddStream(c); err != nil {
			t.Errorf("%s: %v", unfit.why, err)
			continue
		}
		var is *claims.Unfit
		if _, err := s.Open(patient(t)); !errors.As(err, &is) || !strings.Contains(is.Why, unfit.why) {
			t.Errorf("%v, and not %s", err, unfit.why)
		}
		s.Close()
	}
}

// A stream that is removed and made again, also at once and by hand, ends the epoch.
func TestAStreamIsMadeAnew(t *testing.T) {
	t.Parallel()
	m := newMachine(t)
	for _, k := range []kind{ofClaims, ofWithdrawals, ofEpochs, ofClock} {
		for _, isByHand := range []bool{false, true} {
			o := claimstest.Options{Name: fmt.Sprintf("anew-%d-%v", k, isByHand), Terms: claimstest.Usual}
			a, b := open(t, m, o), open(t, m, o)
			before := claimstest.State(t, a)
			c := one(1)
			wantOwner(t, claimstest.Put(t, a, c)[0], c.Owner)
			if _, err := b.Withdraw(patient(t), claims.Withdrawal{Key: claimstest.Key(), Expires: claimstest.Now() + 3000}); err != nil {
				t.Fatal(err)
			}
			js := admin(t, m.URL)
			i, err := js.StreamInfo(a.stream(k))
			if err != nil {
				t.Fatal(err)
			}
			if err := js.DeleteStream(a.stream(k)); err != nil {
				t.Fatal(err)
			}
			if isByHand {
				if _, err := js.AddStream(&i.Config); err != nil {
					t.Fatal(err)
				}
			}
			c.Owner = claimstest.Own(2)
			f := claimstest.Put(t, a, c)[0]
			if f.Owner == claimstest.Own(2) && f.Deaf < c.Expires {
				t.Errorf("%d: %+v", k, f)
			}
			if k == ofClock && isByHand {
				continue // (the clock has no entries)
			}
			haveEnded(t, m, o, before, a, b)
		}
	}
}

// A member that wants tokens to live for longer writes that into the epoch that is, also where another member has ended the one that it saw.
func TestLastsIsRaisedInTheEpochThatIs(t *testing.T) {
	t.Parallel()
	m := newMachine(t)
	o := claimstest.Options{Name: "raised", Terms: claimstest.Usual}
	a, b := open(t, m, o), open(t, m, o)
	before := claimstest.State(t, a)
	b.o.Terms.Lasts += 60
	seen, err := b.examine(patient(t), b.known.Load())
	if err != nil {
		t.Fatal(err)
	}
	x, err := a.examine(patient(t), a.known.Load())
	if err == nil {
		err = a.write(patient(t), x, x.is.record, x.run, true)
	}
	if err != nil {
		t.Fatal(err)
	}
	next := claimstest.State(t, a)
	if next.Epoch == before.Epoch {
		t.Fatal("the epoch did not end")
	}
	if err := b.raise(patient(t), seen); err != nil {
		t.Fatal(err)
	}
	for _, s := range []*Store{a, b} {
		if is := claimstest.State(t, s); is.Epoch != next.Epoch || s.known.Load().Lasts != o.Terms.Lasts+60 {
			t.Errorf("%+v, and before %+v: %d s", is, next, s.known.Load().Lasts)
		}
	}
}

// An operator lets the streams keep all for ever. They still do once a member comes whose tokens live for longer.
func TestAStreamThatKeepsAllForEver(t *testing.T) {
	t.Parallel()
	m := newMachine(t)
	o := claimstest.Options{Name: "ever", Terms: claimstest.Usual}
	a := open(t, m, o)
	js := admin(t, m.URL)
	for _, k := range []kind{ofClaims, ofWithdrawals} {
		i, err := js.StreamInfo(a.stream(k))
		if err == nil {
			i.Config.MaxAge, i.Config.Duplicates = 0, 0
			_, err = js.UpdateStream(&i.Config)
		}
		if err != nil {
			t.Fatal(err)
		}
	}
	o.Terms.Lasts += 60
	b := open(t, m, o)
	for _, k := range []kind{ofClaims, ofWithdrawals} {
		if i, err := js.StreamInfo(a.stream(k)); err != nil || i.Config.MaxAge != 0 {
			t.Errorf("%s keeps its entries for %v (%v)", a.stream(k), i.Config.MaxAge, err)
		}
	}
	c := one(1)
	c.Expires = claimstest.State(t, b).Time + o.Terms.Lasts
	wantOwner(t, claimstest.Put(t, b, c)[0], c.Owner)
}

// A server that lags lacks the last withdrawals. They are read from another one. Nobody waits for one that has expired meanwhile. (The test answers in the place of JetStream.)
func TestWithdrawalsOfAServerThatIsBehind(t *testing.T) {
	t.Parallel()
	ports, err := broker.FreePorts(1)
	if err != nil {
		t.Fatal(err)
	}
	server := exec.Command("nats-server", "-a", "127.0.0.1", "-p", strconv.Itoa(ports[0]))
	if err := server.Start(); err != nil {
		t.Fatal(err)
	}
	t.Cleanup(func() { server.Process.Kill(); server.Wait() })
	url := fmt.Sprintf("nats://127.0.0.1:%d", ports[0])
	nc := natstest.Connect(t, url)
	s := newStore(t, Options{Servers: []string{url}, Name: "behind", Terms: claimstest.Usual})
	t.Cleanup(func() { s.Close() })
	if err := s.connect(patient(t)); err != nil {
		t.Fatal(err)
	}
	s.known.Store(&known{record: record{Lasts: claimstest.Usual.Lasts, Margin: claimstest.Usual.Margin, Back: claimstest.Usual.Back}})
	s.settled.Store(s.doubts.Load())
	made, key := time.Unix(1700000000, 0).UTC(), claimstest.Key()
	firsts := make(chan uint64, 2) // as the stream is said to begin, once and again
	stream := s.stream(ofWithdrawals)
	for subject, answer := range map[string]func(asked []byte) any{
		"STREAM.INFO." + stream: func([]byte) any {
			return map[string]any{"created": made, "state": map[string]any{"first_seq": <-firsts, "last_seq": 3}}
		},
		"STREAM.MSG.GET." + stream: func(asked []byte) any {
			if string(asked) != bySequence(2) {
				return map[string]any{"error": map[string]any{"code": 404, "err_code": 10037}}
			}
			return map[string]any{"message": map[string]any{"seq": 2, "time": made, "subject": fmt.Sprintf("%sw.%s.%d", s.base, keyText(key), made.Unix()+60)}}
		},
	} {
		answer := answer
		if _, err := nc.Subscribe("$JS.API."+subject, func(m *client.Msg) {
			text, _ := json.Marshal(answer(m.Data))
			_ = m.Respond(text)
		}); err != nil {
			t.Fatal(err)
		}
	}
	if err := nc.FlushTimeout(patience.Long); err != nil {
		t.Fatal(err)
	}
	for _, row := range []struct {
		after       string
		first, then uint64
		missing     string
		these       int
	}{
		{"", 1, 1, "the one at position 1 is missing", 0},
		{"", 2, 2, "the one at position 3 is missing", 0}, // (and the one at 2 comes again with it)
		{strconv.FormatInt(made.UnixNano(), 16) + ".1", 1, 4, "", 1},
	} {
		firsts <- row.first
		firsts <- row.then
		these, _, err := s.Withdrawals(patient(t), row.after)
		if len(these) != row.these || (err == nil) != (row.missing == "") || err != nil && !strings.Contains(err.Error(), row.missing) {
			t.Errorf("%+v: %v, %v", row, these, err)
		}
	}
}

// A reads is a reader that is a function.
type reads func(b []byte) (int, error)

func (r reads) Read(b []byte) (int, error) { return r(b) }

// If the server comes into doubt while a claim is on its way, an older copy may have taken that: it is looked at before the claim is answered.
func TestADoubtWhileAClaimIsOnItsWay(t *testing.T) {
	t.Parallel()
	a := open(t, newMachine(t), claimstest.Options{Name: "doubt", Terms: claimstest.Usual})
	claimstest.Put(t, a, one(1))
	doubted := uint64(0)
	a.mu.Lock()
	a.random = bufio.NewReaderSize(reads(func(b []byte) (int, error) { // (each question takes some bytes)
		if doubted == 0 {
			a.doubt()
			doubted = a.doubts.Load()
		}
		return rand.Read(b)
	}), 16)
	a.mu.Unlock()
	c := one(1)
	wantOwner(t, claimstest.Put(t, a, c)[0], c.Owner)
	if settled := a.settled.Load(); doubted == 0 || settled < doubted {
		t.Errorf("answered by a server that was looked at before doubt %d, and not behind %d", settled, doubted)
	}
}

// An answer that came before a suspension of the computer may be of a server that is gone: that is asked once more.
func TestAnAnswerFromBeforeASuspension(t *testing.T) {
	t.Parallel()
	a := open(t, newMachine(t), claimstest.Options{Name: "suspended", Terms: claimstest.Usual})
	claimstest.Put(t, a, one(1))
	asked := func() uint64 { // how often any member has asked for the store's time
		all, err := a.infos(patient(t))
		if err != nil {
			t.Fatal(err)
		}
		return all[ofClock].State.Last
	}
	for _, suspended := range []time.Duration{0, time.Hour} {
		before, wall := asked(), time.Duration(0)
		a.now = func() clocks.Moment {
			wall += suspended
			return clocks.Moment{Wall: wall}
		}
		c := one(1)
		wantOwner(t, claimstest.Put(t, a, c)[0], c.Owner)
		if isAsked := asked() > before; isAsked != (suspended > 0) {
			t.Errorf("suspended for %v: asked once more: %v", suspended, isAsked)
		}
	}
}

// A look at the streams is as old as its beginning, by either clock: while the computer was suspended, another server may have taken the address.
func TestALookAtTheStreamsFromBeforeASuspension(t *testing.T) {
	t.Parallel()
	a := open(t, newMachine(t), claimstest.Options{Name: "looks", Terms: claimstest.Usual})
	a.every = time.Hour
	first := a.looked.Load()
	for _, row := range []struct {
		up, wall time.Duration
		looks    bool
	}{
		{time.Minute, time.Minute, false},
		{time.Minute, -time.Hour, false}, // somebody set the clock back
		{time.Hour, -time.Hour, true},
		{time.Minute, time.Hour, true}, // the computer was suspended
	} {
		a.looked.Store(first)
		a.now = func() clocks.Moment { return clocks.Moment{Up: first.Up + row.up, Wall: first.Wall + row.wall} }
		claimstest.State(t, a)
		if looks := a.looked.Load() != first; looks != row.looks {
			t.Errorf("after %v and %v: another look: %v", row.up, row.wall, looks)
		}
	}
	asked := 0
	a.looked.Store(first)
	a.now = func() clocks.Moment { // (it is suspended after the look has begun)
		if asked++; asked > 2 {
			return clocks.Moment{Up: first.Up, Wall: first.Wall + 2*time.Hour}
		}
		return clocks.Moment{Up: first.Up, Wall: first.Wall + time.Hour}
	}
	claimstest.State(t, a)
	if begun := a.looked.Load(); begun.Wall != first.Wall+time.Hour {
		t.Errorf("the look began %v late", begun.Wall-first.Wall-time.Hour)
	}
}

// A member whose tokens live for longer joins, and withdraws one. Another member that has not looked since hears of that: it would not read it again.
func TestAWithdrawalOfLongerTerms(t *testing.T) {
	t.Parallel()
	m := newMachine(t)
	o := claimstest.Options{Name: "longer", Terms: claimstest.Usual}
	a := open(t, m, o)
	o.Terms.Lasts *= 3
	b := open(t, m, o)
	w := claims.Withdrawal{Key: claimstest.Key(), Expires: claimstest.Now() + 2*claimstest.Usual.Lasts}
	claimstest.Withdraw(t, b, w)
	these, _, err := a.Withdrawals(patient(t), "")
	if err != nil || len(these) != 1 || these[0] != w {
		t.Errorf("%v %v", these, err)
	}
}

// A question that can't be sent has no answer, and nothing is kept of it: while a server is away, there is one after the other.
func TestAQuestionThatCantBeSentLeavesNothing(t *testing.T) {
	t.Parallel()
	a := open(t, newMachine(t), claimstest.Options{Name: "unsent", Terms: claimstest.Usual})
	if err := a.Close(); err != nil {
		t.Fatal(err)
	}
	for n := 0; n < 3; n++ {
		if _, err := a.send(a.ticking(), slot{}); err == nil {
			t.Fatal("a connection that is closed takes a question")
		}
	}
	a.mu.Lock()
	defer a.mu.Unlock()
	if len(a.waiting) > 0 {
		t.Errorf("%d questions wait for an answer", len(a.waiting))
	}
}

// Each thing that a server may say of the streams, and that tells of a loss, is seen: of claims and of withdrawals.
func TestWhatTellsOfALoss(t *testing.T) {
	t.Parallel()
	a := open(t, newMachine(t), claimstest.Options{Name: "tells", Terms: claimstest.Usual})
	c := one(1)
	for n := 0; n < 2; n++ {
		claimstest.Put(t, a, one(1))
		claimstest.Withdraw(t, a, claims.Withdrawal{Key: claimstest.Key(), Expires: c.Expires})
	}
	claimstest.Put(t, a, c)
	claimstest.State(t, a)
	good, err := a.examine(patient(t), a.known.Load())
	if err != nil || good.lost != "" || good.last == 0 || good.lastWithdrawal == 0 || good.own.position == 0 {
		t.Fatalf("%+v, %v", good, err)
	}
	rows := map[string]func(x *exam){
		"nothing":         nil,
		"an earlier time": func(x *exam) { x.now = a.time.Load() - int64(seconds(x.is.Back+1)) },
		"before it began": func(x *exam) { x.is.Began = x.now + int64(seconds(x.is.Back+1)) },
		"the own claim":   func(x *exam) { x.own.position++ },
		"its owner":       func(x *exam) { x.own.claim.Owner[0]++ },
	}
	for k, name := range map[kind]string{ofClaims: "claims", ofWithdrawals: "withdrawals"} {
		k := k
		rows["another stream of "+name] = func(x *exam) { x.all[k].Created = x.all[k].Created.Add(1) }
		rows["the last of the "+name] = func(x *exam) { x.all[k].State.Last-- }
		rows["the first of the "+name] = func(x *exam) { x.all[k].State.First++ }
		rows["one of the "+name] = func(x *exam) { x.all[k].State.Deleted++ }
	}
	for name, change := range rows {
		x := good
		for i, info := range good.all {
			copied := *info
			x.all[i] = &copied
		}
		is := *good.is
		if x.is = &is; change != nil {
			change(&x)
		}
		if lost, err := a.missed(patient(t), x); err != nil || (lost == "") != (change == nil) {
			t.Errorf("%s: %q, %v", name, lost, err)
		}
	}
}

// beforeItComesBack puts a claim, and lets the member through that misses one once there is an answer, or the claim waits for others: then its member
// asks for the store's time again and again.
func beforeItComesBack(t *testing.T, proxy *logtest.Proxy, url, group string, put func() claims.Found) claims.Found {
	t.Helper()
	spy := natstest.Connect(t, url)
	var asked atomic.Int32
	_, err := spy.Subscribe("$KV."+group+"-claims.t", func(*client.Msg) { asked.Add(1) })
	if err == nil {
		err = spy.FlushTimeout(patience.Long)
	}
	if err != nil {
		t.Fatal(err)
	}
	answered := make(chan claims.Found, 1)
	go func() { answered <- put() }()
	natstest.Await(t, "an answer, or a claim that waits", func() bool { return len(answered) > 0 || asked.Load() > 40 })
	proxy.Shut(false)
	return <-answered
}

// A server that lost the last claims with its power, or all, ends the epoch before anybody accepts one of them.
func TestALostTail(t *testing.T) {
	t.Parallel()
	for name, lose := range map[string]func(t *testing.T, folder, kept string){
		"the last ones": func(t *testing.T, folder, kept string) {
			logtest.CopyAll(t, kept, folder)
		},
		"all": func(t *testing.T, folder, _ string) {
			blocks, _ := filepath.Glob(filepath.Join(folder, "msgs", "*"))
			for _, file := range blocks {
				os.Remove(file)
			}
		},
	} {
		lose := lose
		t.Run(name, func(t *testing.T) {
			t.Parallel()
			m := newMachine(t)
			o := claimstest.Options{Name: "tail", Terms: claimstest.Usual}
			proxy := logtest.NewProxy(t, m.Address())
			o.Address = proxy.Address
			a := open(t, m, o)
			o.Address, o.Compares = "", true
			b := open(t, m, o)
			before := claimstest.State(t, a)
			for i := 0; i < 10; i++ {
				claimstest.Put(t, b, one(5))
			}
			folder := filepath.Join(m.dir, "jetstream", "$G", "streams", a.stream(ofClaims))
			kept := filepath.Join(t.TempDir(), "kept")
			m.Server.Stop()
			logtest.CopyAll(t, folder, kept)
			m.Start(t)
			c := one(1)
			wantOwner(t, claimstest.Put(t, a, c)[0], c.Owner)
			proxy.Shut(true)
			m.Server.Kill()
			lose(t, folder, kept)
			m.Start(t)
			natstest.Await(t, "the other member to be connected", b.conn.IsConnected)
			c.Owner = claimstest.Own(2)
			f := beforeItComesBack(t, proxy, m.URL, o.Name, func() claims.Found { return claimstest.Try(b, patience.Long, c)[0] })
			if f.Err != nil || claimstest.Judge(c, f, 60) == claimstest.Mine {
				t.Errorf("accepted twice: %+v", f)
			}
			haveEnded(t, m, o, before, a, b)
		})
	}
}

// What a member writes that lies ends an epoch at most; it hides no loss, and nobody reads more than an entry has.
func TestLies(t *testing.T) {
	t.Parallel()
	m := newMachine(t)
	o := claimstest.Options{Name: "lies", Terms: claimstest.Usual}
	a, b := open(t, m, o), open(t, m, o)
	before := claimstest.State(t, a)
	js := admin(t, m.URL)
	say := func(subject string, data []byte) {
		t.Helper()
		if _, err := js.Publish(a.base+subject, data); err != nil {
			t.Fatalf("%s: %v", subject, err)
		}
	}
	// The time of an entry is the server's, whatever its header says.
	forged := one(7)
	entry := client.NewMsg(a.subjectOf(&forged))
	entry.Data = []byte("a")
	entry.Header["Nats-Time-Stamp"] = []string{"2001-01-01T00:00:00Z"}
	if _, err := js.PublishMsg(entry); err != nil {
		t.Fatal(err)
	}
	var due claims.Owner
	due[0] = 'a'
	f := claimstest.Put(t, a, forged)[0]
	if wantOwner(t, f, due); f.Time < before.Time {
		t.Errorf("%+v", f)
	}
	// A withdrawal that is none, and a tick of anybody.
	say("w.x.y", nil)
	say("w."+keyText(forged.Key)+".99999999999999999999999", nil)
	say("w."+keyText(forged.Key)+".soon", nil)
	for _, far := range []uint64{before.Time + claimstest.Usual.Lasts + claimstest.Usual.Back + 60, 1 << 62, 1<<64 - 1} {
		say("w."+keyText(forged.Key)+"."+number(far), nil) // (nobody would ever forget it)
	}
	say("t", []byte("any"))
	if these, _ := claimstest.Withdrawals(t, b, ""); len(these) != 0 {
		t.Errorf("%v", these)
	}
	// Records that follow none that counts.
	say("e.none", []byte("any"))
	say("e."+strings.Repeat("0", 32), bytes.Repeat([]byte("x"), 1000))
	if x, y := claimstest.State(t, a), claimstest.State(t, b); x.Epoch != before.Epoch || y.Epoch != before.Epoch || x.Deaf != 0 {
		t.Errorf("%+v %+v, and before %+v", x, y, before)
	}
	// One that is no record, in the place of the next one.
	say("e."+a.known.Load().Link, []byte("any"))
	if f := claimstest.Try(b, patience.Long, one(3))[0]; !errors.Is(f.Err, claims.ErrEpoch) {
		t.Errorf("%+v", f)
	}
	if f := claimstest.Put(t, a, one(3))[0]; f.Deaf < before.Time+o.Terms.Lasts {
		t.Errorf("%+v", f)
	}
	haveEnded(t, m, o, before, a, b)
	// One that would take the store's deafness and its terms away.
	deaf := claimstest.State(t, a).Deaf
	for _, r := range []record{{Deaf: 0}, {Deaf: deaf - 1, Lasts: 1, Margin: 1}} {
		k := a.known.Load()
		r.Link, _ = newLink()
		r.Epoch, r.Claims, r.Withdrawals, r.Run = k.Epoch, k.Claims, k.Withdrawals, k.Run
		data, err := json.Marshal(r)
		if err != nil {
			t.Fatal(err)
		}
		say("e."+k.Link, data)
		for _, s := range []*Store{a, b} {
			natstest.Await(t, "the record", func() bool { claimstest.State(t, s); return s.known.Load().position > k.position })
			is := s.known.Load()
			if is.Deaf != deaf || is.Lasts != k.Lasts || is.Margin != k.Margin {
				t.Errorf("%+v, and before %+v", is.record, k.record)
			}
		}
	}
}

// An entry stays until the margin has passed after its token's expiry, and then it goes.
func TestEntriesStay(t *testing.T) {
	t.Parallel()
	m := newMachine(t)
	o := claimstest.Options{Name: "stay", Terms: claims.Terms{Lasts: 2, Margin: 2, Back: 1}}
	a, b := open(t, m, o), open(t, m, o)
	first := claims.Claim{Key: claimstest.Key(), Owner: claimstest.Own(1), Expires: claimstest.State(t, a).Time + 2}
	wantOwner(t, claimstest.Put(t, a, first)[0], first.Owner)
	second := first
	second.Owner = claimstest.Own(2)
	var f claims.Found
	natstest.Await(t, "the entry to go", func() bool {
		f = claimstest.Put(t, b, second)[0]
		return f.Owner == second.Owner
	})
	if f.Time < first.Expires+o.Terms.Margin {
		t.Errorf("it went at %d, and expired at %d", f.Time, first.Expires)
	}
	natstest.Await(t, "time to pass with the streams empty", func() bool { return claimstest.State(t, a).Time > f.Time+6 })
	if is := claimstest.State(t, b); is.Deaf != 0 {
		t.Errorf("%+v", is)
	}
}

// A stream that was made again while no member ran ends the epoch too, as long as its record is there.
func TestAStreamIsMadeAnewWhileNobodyRuns(t *testing.T) {
	t.Parallel()
	m := newMachine(t)
	for _, k := range []kind{ofClaims, ofWithdrawals, ofEpochs} {
		o := claimstest.Options{Name: fmt.Sprint("nobody-", k), Terms: claimstest.Usual}
		a := open(t, m, o)
		claimstest.Put(t, a, one(1))
		before := claimstest.State(t, a)
		a.Close()
		if err := admin(t, m.URL).DeleteStream(a.stream(k)); err != nil {
			t.Fatal(err)
		}
		line := "the epoch ended: claims may be lost"
		if k == ofEpochs {
			line = "a store without its epoch: its tokens are refused until they have expired"
		}
		for i := 0; i < 2; i++ {
			s := open(t, m, o)
			if is := claimstest.State(t, s); is.Epoch == before.Epoch || is.Deaf < before.Time+o.Terms.Lasts {
				t.Errorf("%+v, and before %+v", is, before)
			}
			if n := logged(s, line); n != 1-i { // (the first one does that)
				t.Errorf("%d lines say %q", n, line)
			}
		}
	}
}

// A new store notes when its streams were made once it answers. A stream that is another one before that loses nothing.
func TestAStreamIsMadeAnewInANewStore(t *testing.T) {
	t.Parallel()
	m := newMachine(t)
	proxy := logtest.NewProxy(t, m.Address())
	o := claimstest.Options{Name: "new", Terms: claimstest.Usual, Address: proxy.Address}
	a := m.Store(t, o).(*Store)
	a.forNew.Store(int64(patience.Long)) // (it waits however long this takes)
	t.Cleanup(func() { a.Close() })
	opened := make(chan error, 1)
	go func() {
		_, err := a.Open(patient(t))
		opened <- err
	}()
	js := admin(t, m.URL)
	natstest.Await(t, "the first record", func() bool {
		info, err := js.StreamInfo(a.stream(ofEpochs))
		return err == nil && info.State.Msgs == 1
	})
	proxy.Shut(true)
	for _, k := range []kind{ofClaims, ofWithdrawals} {
		if err := js.DeleteStream(a.stream(k)); err != nil {
			t.Fatal(err)
		}
	}
	o.Address = ""
	maker := m.Store(t, o).(*Store)
	t.Cleanup(func() { maker.Close() })
	if err := maker.connect(patient(t)); err != nil {
		t.Fatal(err)
	}
	for _, k := range []kind{ofClaims, ofWithdrawals} {
		if err := maker.make(patient(t), k); err != nil {
			t.Fatal(err)
		}
	}
	a.forNew.Store(0)
	proxy.Shut(false)
	if err := <-opened; err != nil {
		t.Fatal(err)
	}
	c := one(1)
	wantOwner(t, claimstest.Put(t, a, c)[0], c.Owner)
	before := claimstest.State(t, a)
	for _, s := range []*Store{a, open(t, m, o)} {
		if is := claimstest.State(t, s); is.Epoch != before.Epoch || is.Deaf != 0 || s.known.Load().Claims == 0 {
			t.Errorf("%+v, and before %+v", is, before)
		}
	}
}

// Somebody removed the store, and a member that knows nothing of it makes a new one. That one answers nobody until members that know the one before had time
// to look: they have accepted tokens.
func TestANewStoreWaitsForMembersOfTheOneBefore(t *testing.T) {
	t.Parallel()
	m := newMachine(t)
	proxy := logtest.NewProxy(t, m.Address())
	o := claimstest.Options{Name: "new", Terms: claimstest.Usual, Address: proxy.Address}
	a := open(t, m, o)
	before, c := claimstest.State(t, a), one(1)
	wantOwner(t, claimstest.Put(t, a, c)[0], c.Owner)
	proxy.Shut(true)
	m.Empty(t, o.Name)
	o.Address, o.Compares = "", true
	late := m.Store(t, o).(*Store)
	t.Cleanup(func() { late.Close() })
	opened := make(chan error, 1)
	go func() {
		_, err := late.Open(patient(t))
		opened <- err
	}()
	js := admin(t, m.URL)
	natstest.Await(t, "the new store to wait, or to answer", func() bool {
		const looks = 20 // at the time, of who waits: who does not has some alone
		clock, err := js.StreamInfo(late.stream(ofClock))
		return len(opened) > 0 || err == nil && clock.State.LastSeq >= looks
	})
	if len(opened) > 0 {
		t.Fatal("a new store answers while a member that knows the one before is away")
	}
	proxy.Shut(false)
	is := claimstest.State(t, a)
	if err := <-opened; err != nil {
		t.Fatal(err)
	}
	if of := claimstest.State(t, late); of.Epoch != is.Epoch || of.Deaf < before.Time+o.Terms.Lasts {
		t.Errorf("%+v and %+v, and before %+v", is, of, before)
	}
	again := c
	again.Owner = claimstest.Own(2)
	if f := claimstest.Put(t, late, again)[0]; claimstest.Judge(again, f, 60) == claimstest.Mine {
		t.Errorf("accepted twice: %+v", f)
	}
}

// A member that ends the epoch where another stream stands by now does not wait for its record there: a new store answers soon.
func TestARecordInAnotherStream(t *testing.T) {
	t.Parallel()
	m := newMachine(t)
	a := open(t, m, claimstest.Options{Name: "other", Terms: claimstest.Usual})
	is := *a.known.Load()
	if err := admin(t, m.URL).DeleteStream(a.stream(ofEpochs)); err != nil {
		t.Fatal(err)
	}
	if err := a.make(patient(t), ofEpochs); err != nil {
		t.Fatal(err)
	}
	all, err := a.infos(patient(t))
	if err != nil {
		t.Fatal(err)
	}
	if err := a.write(patient(t), exam{all: all, is: &is, now: is.Began}, is.record, is.Run, true); err == nil || errors.Is(err, errLate) {
		t.Errorf("%v", err)
	}
}

// A token that lives for longer than the terms say has no answer, and nothing is stored of it: an entry that was put too early would leave
// too early.
func TestATokenThatLivesTooLong(t *testing.T) {
	t.Parallel()
	m := newMachine(t)
	o := claimstest.Options{Name: "long", Terms: claimstest.Usual}
	a, b := open(t, m, o), open(t, m, o)
	c := one(1)
	c.Expires = claimstest.State(t, a).Time + o.Terms.Lasts + 60
	fine := one(1)
	found := claimstest.Try(a, patience.Long, c, fine)
	if found[0].Err == nil || !strings.Contains(found[0].Err.Error(), "lives for longer than 7200 s past the store's time") {
		t.Errorf("%+v", found[0])
	}
	wantOwner(t, found[1], fine.Owner)
	c.Owner, c.Expires = claimstest.Own(2), claimstest.Now()+3000
	wantOwner(t, claimstest.Put(t, b, c)[0], c.Owner)
}

// A member that lies may put the entry of another one's token early. It does not count where it leaves while a member may still accept the token.
func TestAnEntryThatLeavesTooEarly(t *testing.T) {
	c := one(1)
	k := &known{record: record{Margin: 120}, age: 2 * time.Hour}
	due := time.Unix(int64(c.Expires+k.Margin), 0).Add(-k.age) // (then it leaves when nobody can accept the token any more)
	for _, row := range []struct {
		owner claims.Owner
		put   time.Time
		isBad bool
	}{
		{c.Owner, due, false},
		{c.Owner, due.Add(-time.Second), true},
		{c.Owner, due.Add(-2 * time.Minute), true},
		{claimstest.Own(2), due.Add(-time.Hour), false},
		{claims.Withdrawn, due.Add(-time.Hour), false},
	} {
		if o := new(Store).found(k, &c, stored{Data: row.owner[:], Time: row.put}); o.owner != row.owner || (o.err != nil) != row.isBad {
			t.Errorf("put %v before that is due: %+v", due.Sub(row.put), o)
		}
	}
}

// A claim and the question for its time go to a server that is alone in one flight, before it answers.
func TestAClaimIsOneFlight(t *testing.T) {
	t.Parallel()
	m := newMachine(t)
	a := open(t, m, claimstest.Options{Name: "flight", Terms: claimstest.Usual})
	for _, n := range []int{1, 3} {
		for end := time.Now().Add(patience.Long); ; {
			var these []claims.Claim
			for i := 0; i < n; i++ {
				these = append(these, one(i))
			}
			wantOwner(t, claimstest.Put(t, a, one(1))[0], claimstest.Own(1))
			before, unsteady := a.conn.Stats().OutMsgs, a.unsteady.Load()
			sent := func() uint64 { return a.conn.Stats().OutMsgs - before }
			m.Pause(t)
			found := make(chan []claims.Found, 1)
			go func() { found <- claimstest.Try(a, patience.Long, these...) }()
			natstest.Await(t, "all that is sent before an answer", func() bool { return sent() > uint64(n) })
			isFirst := a.unsteady.Load() == unsteady // (later it is what is asked again)
			m.Resume(t)
			for i, f := range <-found {
				wantOwner(t, f, these[i].Owner)
			}
			if isFirst && a.unsteady.Load() == unsteady && sent() != uint64(n)+1 {
				t.Errorf("%d messages for %d claims", sent(), n)
			}
			if isFirst {
				break
			}
			if time.Now().After(end) {
				t.Fatal("the question for the time waits for the answer to the claim")
			}
		}
	}
}

// The stamp of a claim that the same flight did not read is asked for. A claim that is not there is a loss.
func TestTheTimeOfAClaim(t *testing.T) {
	t.Parallel()
	m := newMachine(t)
	a := open(t, m, claimstest.Options{Name: "stamp", Terms: claimstest.Usual})
	wantOwner(t, claimstest.Put(t, a, one(1))[0], claimstest.Own(1))
	c := one(2)
	f := claimstest.Put(t, a, c)[0]
	wantOwner(t, f, c.Owner)
	is, err := a.get(patient(t), ofClaims, bySubject(a.subjectOf(&c)), true)
	if err != nil {
		t.Fatal(err)
	}
	if f.Time != uint64(is.Time.Unix()) {
		t.Errorf("%+v of a claim that was stored at %v", f, is.Time)
	}
	k := a.known.Load()
	if now, _, err := a.decided(patient(t), k, stored{Position: is.Position}); err != nil || now != is.Time.UnixNano() {
		t.Errorf("%d, and it was stored at %v: %v", now, is.Time, err)
	}
	doubts := a.doubts.Load()
	if _, _, err := a.decided(patient(t), k, stored{Position: is.Position + 1}); err == nil || a.doubts.Load() == doubts {
		t.Errorf("%v", err)
	}
}

// What the server says of a message counts, and not what the message says.
func TestWhatAMessageSaysOfItself(t *testing.T) {
	t.Parallel()
	ack := &client.Msg{Data: []byte(`{"stream":"KV_x-claims", "seq":7}`)}
	if position, err := acknowledged(ack, "KV_x-claims"); position != 7 || err != nil {
		t.Error(position, err)
	}
	for _, text := range []string{``, `{}`, `{"stream":"KV_y-claims","seq":7}`, `{"stream":"KV_x-claims", "seq":0}`, `{"stream":"KV_x-claims", "seq":-7}`, `[`} {
		if position, err := acknowledged(&client.Msg{Data: []byte(text)}, "KV_x-claims"); err == nil {
			t.Errorf("%s: %d", text, position)
		}
	}
	ack.Reply = "$JS.ACK.KV_x-claims.c.1.7.7.1700000000000000000.0" // a stored message, delivered in the place of the answer
	if position, err := acknowledged(ack, "KV_x-claims"); err == nil {
		t.Error(position)
	}
	is, err := got(&client.Msg{Data: []byte("owner"), Header: client.Header{"Nats-Subject": {"forged", "a"}, "Nats-Sequence": {"1", "2"},
		"Nats-Time-Stamp": {"2001-01-01T00:00:00Z", "2026-01-01T00:00:00Z"}}})
	if err != nil || is.Subject != "a" || is.Position != 2 || is.Time.Year() != 2026 {
		t.Errorf("%+v %v", is, err)
	}
}

// What no server will ever do is said at once.
func TestAStreamThatCantBeMade(t *testing.T) {
	t.Parallel()
	m := newMachine(t)
	if _, err := admin(t, m.URL).AddStream(&client.StreamConfig{Name: "other", Subjects: []string{"$KV.overlap-claims.>"}}); err != nil {
		t.Fatal(err)
	}
	for _, o := range []Options{{Name: "overlap"}, {Name: "several", Replicas: 3}} {
		o.Servers, o.Terms = []string{m.URL}, claimstest.Usual
		s := newStore(t, o)
		var unfit *claims.Unfit
		if _, err := s.Open(patient(t)); !errors.As(err, &unfit) {
			t.Errorf("%s: %v", o.Name, err)
		}
		s.Close()
	}
	for _, o := range []Options{{}, {Name: "a.b", Servers: []string{m.URL}}, {Name: "a"}} {
		if _, err := New(o); err == nil {
			t.Errorf("%+v", o)
		}
	}
}

// A member hears at once of a store that another one has made in the place of the one that it knows, and ends its epoch.
func TestAMemberHearsOfAnotherStore(t *testing.T) {
	t.Parallel()
	m := newMachine(t)
	o := claimstest.Options{Name: "heard", Terms: claimstest.Usual}
	a := m.Store(t, o).(*Store)
	a.every = time.Hour
	t.Cleanup(func() { a.Close() })
	claimstest.Open(t, a)
	before := claimstest.State(t, a)
	claimstest.Put(t, a, one(1))
	claimstest.Watch(t, a)
	m.Empty(t, o.Name)
	o.Compares = true
	late := open(t, m, o)
	if is := claimstest.State(t, late); is.Epoch == before.Epoch || is.Deaf < before.Time+o.Terms.Lasts {
		t.Errorf("%+v, and before %+v", is, before)
	}
	natstest.Await(t, "one epoch", func() bool { return claimstest.State(t, a).Epoch == claimstest.State(t, late).Epoch })
}

// A member that was sent more than its client keeps reads what it has missed in the stream: an epoch that ended meanwhile counts.
func TestMoreIsToldThanTheClientKeeps(t *testing.T) {
	t.Parallel()
	m := newMachine(t)
	o := claimstest.Options{Name: "flood", Terms: claimstest.Usual}
	a := open(t, m, o)
	before := claimstest.State(t, a)
	js := admin(t, m.URL)
	if err := a.told.SetPendingLimits(1, 1<<20); err != nil {
		t.Fatal(err)
	}
	say := func(subject string) {
		t.Helper()
		if _, err := js.Publish(a.base+"e."+subject, []byte("any")); err != nil {
			t.Fatalf("%s: %v", subject, err)
		}
	}
	k := a.known.Load()
	for i := 0; i < 5; i++ {
		say(fmt.Sprint("none", i))
	}
	natstest.Await(t, "lost messages", func() bool { n, err := a.told.Dropped(); return err == nil && n > 0 })
	say(k.Link) // This ends the epoch.
	is, err := a.current(patient(t), false)
	if err != nil || is.Epoch == before.Epoch || is.Deaf < before.Time+claimstest.Usual.Lasts {
		t.Errorf("%v: %+v", err, is)
	}
}

// Members that make a store at once all open it, though the server says to one that its subjects overlap with those of another one's stream.
func TestMembersThatMakeAStoreAtOnce(t *testing.T) {
	t.Parallel()
	m := newMachine(t)
	ctx, cancel := context.WithTimeout(context.Background(), patience.Long)
	defer cancel()
	start := make(chan struct{})
	var all sync.WaitGroup
	for i := 0; i < 4*20; i++ {
		store, err := New(Options{Servers: []string{m.URL}, Name: fmt.Sprint("group", i/4), Terms: claimstest.Usual})
		if err != nil {
			t.Fatal(err)
		}
		t.Cleanup(func() { store.Close() })
		if err := store.connect(ctx); err != nil {
			t.Fatal(err)
		}
		all.Add(1)
		go func() {
			defer all.Done()
			<-start
			if _, err := store.Open(ctx); err != nil {
				t.Error(err)
			}
		}()
	}
	close(start)
	all.Wait()
}
