// Package jetstream shares acceptances and withdrawals with the other validators of a group, over one JetStream stream, their
// bucket, which is their log: its values have one order, and every member reads all of them in it, its own ones too.
//
// Each value is whole batches as docs/FORMATS.md has them. A value has a key of its own, and the bucket refuses a second
// value of a key, so that none ever takes the place of another:
//
//	u.MEMBER.N.TAG   uses and withdrawals that the record of this member has gained
//	c.MEMBER.N.TAG   uses that this member claims: of all claims of a token, the first in the bucket counts
//
// MEMBER is 32 hexadecimal digits, drawn at random when the member joins, and N the number that it gives the value. TAG is
// 16 digits that nobody else knows before the value is in the bucket: so nobody takes its key. What was put before a crash
// is known to its maker only by the bucket, as another member's.
//
// Members join a bucket only if it keeps each value until it expires, whatever is published to it (keeps).
//
// Beside the bucket, members repair what the broker may have lost: at times a member sends a summary of its record to
// another, which answers with what differs (Summaries).
//
// A record believes what it takes. Whoever can write to the bucket decides which tokens are refused, so give the broker
// accounts, and let only members of the group publish to `$KV.NAME.>` and `svid.NAME.>`.
package jetstream

import (
	"bytes"
	"context"
	"crypto/hmac"
	"crypto/rand"
	"crypto/sha256"
	"encoding/hex"
	"errors"
	"fmt"
	"strings"
	"sync"
	"sync/atomic"
	"time"

	"github.com/nats-io/nats.go"

	"svid.example/go/v3/carriers"
	"svid.example/go/v3/claims"
	"svid.example/go/v3/internal/brief"
	"svid.example/go/v3/internal/pause"
)

const (
	connectWait  = 250 * time.Millisecond // between two tries to reach a server
	replaceEvery = 10 * time.Second       // a connection takes the place of another one that the client gave up
	pingEvery    = 5 * time.Second        // a server that misses two pings counts as gone
	attemptWait  = time.Second            // for the broker's answer, before it is asked again
	firstWait    = attemptWait / 4        // the same where a value is put for the first time: its server may have been restarted
	makeWait     = 5 * time.Second        // the same where the bucket is made
	readWait     = 2 * time.Second        // the same where reading it begins, at first; longer after each failure
	mostReadWait = 30 * time.Second       // and at the most, for a broker that is busy
	attemptPause = 50 * time.Millisecond  // after a failed attempt
	tagLen       = 8                      // bytes of a key that nobody can guess
)

// MostReplicas is how many servers keep a bucket at the most, as JetStream has it.
const MostReplicas = 5

// Options say which bucket a group has, and who joins it. They are a carriers.Log.
type Options struct {
	// Servers are the addresses of the broker, as nats://host:4222. Others of its cluster are learnt from these.
	Servers []string
	// Name is the bucket's: letters, digits, - and _.
	Name string
	// ValidatorID tells this member from every other one. Options.Join sets it, and TTL and Log.
	ValidatorID [16]byte
	// TTL is how long the bucket keeps a value: the longest life of a token, and twice the bound for clocks, since
	// the member that accepted and the one that asks may both be off. The bucket's own may be longer, not shorter.
	TTL time.Duration
	// Replicas of the bucket, 1 to 5; 0 is 1. With 3, the group goes on while one of three servers is away.
	Replicas int
	// Files are what the member shows to the broker. Only Options.Join reads them.
	Files Files
	// Connect holds further options of the connection: credentials, certificates.
	Connect []nats.Option
	// Log receives what an operator may want to know: an event, and names and values by turns. It may be nil, and is
	// called from several goroutines.
	Log func(event string, fields ...any)
}

// What values are, and who is given them, is the same whatever carries a group.
type (
	Kind  = carriers.Kind
	Value = carriers.Value
	Log   = carriers.Start
	Sink  = carriers.Sink
)

// The kinds of values.
const (
	Uses   = carriers.Uses   // of a key of the bucket that begins with u
	Claims = carriers.Claims // of a key that begins with c
	Answer = carriers.Answer
)

var _ carriers.Log = Options{}

// GroupName is the bucket's name.
func (o Options) GroupName() string { return o.Name }

// Join joins the bucket that the options name, where ValidatorID, TTL and Log are those of as.
func (o Options) Join(ctx context.Context, as carriers.Options, s carriers.Sink) (carriers.Group, error) {
	connect, err := o.Files.Connect()
	if err != nil {
		return nil, err
	}
	o.Connect = append(connect, o.Connect...)
	o.ValidatorID, o.TTL, o.Log = as.ValidatorID, as.Keep, as.Log
	g, err := Join(ctx, o, s)
	if err != nil {
		return nil, err
	}
	return g, nil
}

// A Group is a member's tie to the others. Its methods may be called from many goroutines at once.
type Group struct {
	options Options
	stream  string       // the bucket's stream
	subject string       // what its keys' subjects begin with
	linking sync.RWMutex // guards the four below
	conn    *nats.Conn
	linked  time.Time // when conn began
	js      nats.JetStreamContext
	hear    func(*nats.Conn) // lets a connection hear summaries; nil before Summaries
	member  string           // this member's name in keys
	secret  [32]byte         // what the tags of its keys are made from

	stored atomic.Uint64 // the position of the last own value that the broker has stored, as far as it has said so

	taking sync.Mutex // one call at a time goes to the sink
	sink   Sink
	taken  atomic.Uint64
	aside  atomic.Uint64
	quiet  carriers.Quiet // of values that were put aside
	asked  carriers.Quiet // of summaries that could not be answered
	faults brief.Causes   // that the client reports of the broker: its goroutine alone uses them

	ready chan struct{}
	life  context.Context // ends with Close
	end   context.CancelFunc
	tasks sync.WaitGroup
}

var (
	_ carriers.Group    = (*Group)(nil)
	_ carriers.Repairer = (*Group)(nil)
)

// Join connects to the broker, makes the group's bucket where it is not there, and begins to read it. It tries until
// ctx ends, so a broker that comes up later is waited for.
//
// A bucket that is there but could lose a claim before its token expires (a shorter TTL, a key that takes a second value,
// a limit after which old values go) is an error that says so, and what to do.
func Join(ctx context.Context, o Options, s Sink) (*Group, error) {
	if err := o.check(); err != nil {
		return nil, err
	}
	var member [16]byte
	if _, err := rand.Read(member[:]); err != nil {
		return nil, fmt.Errorf("group: no random bytes for the name of a member: %w", err)
	}
	g := &Group{options: o, stream: "KV_" + o.Name, subject: "$KV." + o.Name + ".", member: hex.EncodeToString(member[:]),
		sink: s, ready: make(chan struct{})}
	if _, err := rand.Read(g.secret[:]); err != nil {
		return nil, fmt.Errorf("group: no random bytes for the keys of values: %w", err)
	}
	g.life, g.end = context.WithCancel(context.Background())
	if err := g.connect(ctx); err != nil {
		return nil, err
	}
	bucket, err := g.openBucket(ctx, 0)
	if err != nil {
		g.end()
		g.conn.Close()
		return nil, err
	}
	g.tasks.Add(1)
	go g.watch(bucket)
	return g, nil
}

func (o Options) check() error {
	switch {
	case len(o.Servers) == 0:
		return errors.New("group: no server is named")
	case !claims.ValidName(o.Name):
		return fmt.Errorf("group: the name %q is not letters, digits, - and _ alone, or has more than 64 of them", o.Name)
	case o.TTL <= 0:
		return errors.New("group: a TTL is needed: the longest life of a token, and twice the bound for clocks")
	case o.Replicas < 0 || o.Replicas > MostReplicas:
		return fmt.Errorf("group: %d replicas: a bucket has 1 to %d", o.Replicas, MostReplicas)
	}
	return nil
}

// connect tries until a server answers or ctx ends. At some errors of the broker, as that a limit is exceeded, the client gives a connection up:
// then another one takes its place.
func (g *Group) connect(ctx context.Context) error {
	options := append([]nats.Option{
		nats.Name("svidd " + hex.EncodeToString(g.options.ValidatorID[:])),
		nats.NoEcho(), // A member's summary goes to another one.
		nats.MaxReconnects(-1),
		nats.IgnoreAuthErrorAbort(), // A broker may refuse a member until its users, or the member's credentials, are other ones.
		nats.ReconnectWait(connectWait),
		nats.ReconnectBufSize(-1), // What can't be sent now fails now, and its caller tries again.
		nats.PingInterval(pingEvery),
		nats.MaxPingsOutstanding(2),
		nats.DisconnectErrHandler(func(nc *nats.Conn, err error) {
			if last := nc.LastError(); last != nil && nc.IsClosed() {
				err = last
			}
			g.log("broker lost", "why", err)
		}),
		nats.ClosedHandler(func(nc *nats.Conn) {
			if g.connection() == nc && g.life.Err() == nil {
				go g.replace()
			}
		}),
		nats.ReconnectHandler(func(nc *nats.Conn) {
			g.faults.Forget()
			g.log("broker found", "server", nc.ConnectedUrlRedacted())
		}),
		nats.ErrorHandler(func(_ *nats.Conn, _ *nats.Subscription, err error) { g.brokerSays(err) }),
	}, g.options.Connect...)
	said := ""
	return carriers.Persist(ctx, "group: connect", func() (bool, error) {
		nc, err := nats.Connect(strings.Join(g.options.Servers, ","), options...)
		if err != nil {
			g.logChange(&said, "broker not reached", err)
			return false, err
		}
		js, err := nc.JetStream(nats.MaxWait(makeWait))
		if err != nil {
			nc.Close()
			return true, err
		}
		if !g.link(nc, js) {
			nc.Close()
			return true, nats.ErrConnectionClosed
		}
		return true, nil
	})
}

// brokerSays logs what the client reports. It may report the same many times a second.
func (g *Group) brokerSays(err error) {
	if g.faults.IsNew(time.Now(), err) {
		g.log("broker says", "why", err)
	}
}

// replace connects again, where the client has given up. What reads the bucket finds that out by the silence of its feed.
func (g *Group) replace() {
	g.linking.RLock()
	rest := replaceEvery - time.Since(g.linked)
	g.linking.RUnlock()
	if !pause.For(g.life, rest) || g.connect(g.life) != nil {
		return
	}
	nc := g.connection()
	g.log("broker found", "server", nc.ConnectedUrlRedacted())
	g.linking.RLock()
	defer g.linking.RUnlock()
	if g.hear != nil {
		g.hear(nc)
	}
}

// link lets a connection count, unless the group was closed meanwhile.
func (g *Group) link(nc *nats.Conn, js nats.JetStreamContext) bool {
	g.linking.Lock()
	defer g.linking.Unlock()
	if g.life.Err() != nil {
		return false
	}
	g.conn, g.js, g.linked = nc, js, time.Now()
	return true
}

// connection is the one that counts.
func (g *Group) connection() *nats.Conn {
	g.linking.RLock()
	defer g.linking.RUnlock()
	return g.conn
}

// jetStream is that of the connection.
func (g *Group) jetStream() nats.JetStreamContext {
	g.linking.RLock()
	defer g.linking.RUnlock()
	return g.js
}

// Ready is closed once the sink was given every value that the bucket held when this member joined.
func (g *Group) Ready() <-chan struct{} { return g.ready }

// Connected says whether the broker is there at this moment.
func (g *Group) Connected() bool { return g.connection().IsConnected() }

// Taken returns how many values the sink took.
func (g *Group) Taken() uint64 { return g.taken.Load() }

// Aside returns how many values the sink did not take.
func (g *Group) Aside() uint64 { return g.aside.Load() }

// errTaken: the bucket has another value under the key of one that this member puts.
var errTaken = errors.New("someone else has put another value under the key of this one: it is not stored")

// keyOf is the key of a value of this member.
func (g *Group) keyOf(kind Kind, number uint64) string {
	key := fmt.Sprintf("%c.%s.%d", kind, g.member, number)
	tag := hmac.New(sha256.New, g.secret[:])
	tag.Write([]byte(key))
	return key + "." + hex.EncodeToString(tag.Sum(nil)[:tagLen])
}

// Put puts a value of this kind into the bucket, and returns once the broker has stored it. message is whole batches, of
// no more bytes than the broker's messages may have. number is greater than 0, and another one in each call.
//
// It tries until ctx ends. The error then says what the broker said last; the value may be stored all the same, also
// later, but never twice: the broker takes a value only if its key has none yet.
func (g *Group) Put(ctx context.Context, kind Kind, number uint64, message []byte) error {
	subject := g.subject + g.keyOf(kind, number)
	wait := firstWait
	return carriers.Persist(ctx, "group: put", func() (bool, error) {
		attempt, cancel := context.WithTimeout(ctx, wait)
		defer cancel()
		if wait *= 2; wait > attemptWait {
			wait = attemptWait
		}
		m := &nats.Msg{Subject: subject, Header: nats.Header{}, Data: message}
		ack, err := g.jetStream().PublishMsg(m, nats.Context(attempt), nats.ExpectLastSequencePerSubject(0))
		switch {
		case err == nil:
			g.isStored(ack.Sequence)
			return true, nil
		case errors.Is(err, nats.ErrKeyExists): // An earlier attempt may have stored it, and its answer was lost.
			is, err := g.get(attempt, attemptWait, map[string]any{"last_by_subj": subject})
			if err != nil {
				return false, err
			}
			if !bytes.Equal(is.Data, message) {
				return true, errTaken
			}
			g.isStored(is.Position)
			return true, nil
		}
		return errors.Is(err, nats.ErrMaxPayload), err
	})
}

// Stored returns when the broker stored a value that this member has put, by the broker's clock.
func (g *Group) Stored(ctx context.Context, kind Kind, number uint64) (at time.Time, err error) {
	err = carriers.Persist(ctx, "group: look for a stored value", func() (bool, error) {
		is, err := g.get(ctx, attemptWait, map[string]any{"last_by_subj": g.subject + g.keyOf(kind, number)})
		at = is.Time
		return err == nil, err
	})
	return at, err
}

// isStored lets the reader know of the position of an own value.
func (g *Group) isStored(position uint64) {
	for before := g.stored.Load(); before < position && !g.stored.CompareAndSwap(before, position); before = g.stored.Load() {
	}
}

// Close ends what Join and Summaries began, and lets go of the broker. It returns when no Take is under way.
func (g *Group) Close() error {
	g.linking.Lock()
	g.end()
	g.linking.Unlock()
	g.connection().Close() // It ends each wait for a message.
	g.tasks.Wait()
	return nil
}

// begin lets the sink begin to read a bucket.
func (g *Group) begin(log Log) {
	g.taking.Lock()
	defer g.taking.Unlock()
	g.sink.Begin(log)
}

// take gives values to the sink.
func (g *Group) take(values []Value) {
	if len(values) == 0 {
		return
	}
	g.taking.Lock()
	errs := g.sink.Take(values)
	g.taking.Unlock()
	taken := uint64(len(values))
	for i, err := range errs {
		if err == nil {
			continue
		}
		taken--
		n := g.aside.Add(1)
		if held, ok := g.quiet.Speak(time.Now()); ok {
			v := values[i]
			g.log("put aside", "from", v.From, "number", v.Position, "bytes", len(v.Message), "why", err, "aside", n, "unlogged", held)
		}
	}
	g.taken.Add(taken)
}

// logChange logs why something does not work that is tried again and again, when that is something else than said.
func (g *Group) logChange(said *string, event string, why error) {
	if cause := brief.Cause(why); *said != cause {
		*said = cause
		g.log(event, "why", why)
	}
}

func (g *Group) log(event string, fields ...any) {
	if g.options.Log != nil {
		g.options.Log(event, brief.Fields(fields)...)
	}
}
