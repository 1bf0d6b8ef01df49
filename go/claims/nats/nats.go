// Package nats is a claim store in NATS JetStream. See package claims for what it promises, and docs/STORES.md for what an operator
// sets up.
//
// A group has four streams. They belong to the name NAME-claims, so that a log or a bucket of the same group stands beside them:
//
//	KV_NAME-claims               $KV.NAME-claims.c.KEY           the claims, until they have the streams' age
//	KV_NAME-claims-withdrawals   $KV.NAME-claims.w.KEY.EXPIRES   the withdrawals, in their order, as long
//	KV_NAME-claims-epochs        $KV.NAME-claims.e.LINK          the epochs' records: each names the one before it; they stay
//	KV_NAME-claims-clock         $KV.NAME-claims.t               the last message alone: its stamp is the store's time
//
// The first three take one message a subject and refuse a second one. So a put is put-if-absent, atomic by the stream's own order,
// and no member can replace or remove what is there.
package nats

import (
	"bufio"
	"context"
	"crypto/rand"
	"encoding/base64"
	"errors"
	"strings"
	"sync"
	"sync/atomic"
	"time"

	client "github.com/nats-io/nats.go"

	"svid.example/go/v3/claims"
	"svid.example/go/v3/internal/brief"
	"svid.example/go/v3/internal/clocks"
	"svid.example/go/v3/internal/pause"
	"svid.example/go/v3/svid"
)

const (
	connectWait    = 50 * time.Millisecond // between two attempts to connect
	dialWait       = 2 * time.Second       // for a connection to one server
	replaceEvery   = 10 * time.Second      // a connection takes the place of another one that the client gave up
	pingWait       = 2 * time.Second       // between two signs of life of the server; it is away after two without one
	attemptWait    = time.Second           // for an answer of the server, before it is asked again
	againWait      = 20 * time.Millisecond // before a server is asked again that said at once that it can't answer
	mostRest       = time.Second           // before a server is asked again for a connection: it may log each one that it refuses
	mostUnderWay   = 64                    // requests of one call that wait for an answer
	lossWait       = 3 * time.Second       // for an own record to be read by a server that was just elected
	waitRun        = time.Second           // for which a new run of the server waits for members that miss claims
	removing       = time.Second           // for which a stream must be gone before it is made again
	making         = 2 * time.Second       // for which a server may say that subjects overlap, while it makes a stream for another member
	oneWait        = 3 * time.Second       // for the answer to one question, with all attempts
	mostTries      = 100                   // to write a record, while others write theirs
	quarantineLook = 50 * time.Millisecond // between two looks of who waits for other members
)

// waitNew is for how long a new store waits for members that know another one. (Tests have less time.)
var waitNew = 3 * time.Second

// lookEvery is how often a member looks at all that the server says of the streams, which costs a millisecond there. What other members
// write about an epoch it hears at once. (Tests look each time.)
var lookEvery = 10 * time.Second

// Options say where a group has its claims.
type Options struct {
	Servers  []string // addresses: nats://HOST:4222
	Name     string   // of the group (claims.ValidName)
	Replicas int      // servers that keep each entry; 0 is 1
	Terms    claims.Terms
	Connect  []client.Option                   // what else a connection needs: authorities, certificates, credentials
	Log      func(event string, fields ...any) // what an operator should know; nil for nobody
}

// A Store is a claim store in NATS. It is opened once.
type Store struct {
	o    Options
	base string // of the subjects

	inbox string               // of answers
	told  *client.Subscription // to the epochs' records, as their writers send them
	news  sync.Mutex           // of who reads what told has
	life  context.Context
	end   context.CancelFunc
	now   func() clocks.Moment

	mu        sync.Mutex // of these
	conn      *client.Conn
	connected time.Time // when conn began
	random    *bufio.Reader
	waiting   map[string]slot // requests without an answer, by the last part of where it goes

	lookMu    sync.Mutex // of these
	isLooking bool
	next      *look // that begins when the one under way has ended

	settleMu sync.Mutex // of this
	settling *settling
	every    time.Duration                 // between two looks at the streams
	forRun   atomic.Int64                  // nanoseconds for which this member waits at a new run of the server for others that miss claims
	forNew   atomic.Int64                  // and in a new store, for others that know another one (tests end these waits)
	looked   atomic.Pointer[clocks.Moment] // when the last look began that found all to be as it must be; nil before it

	unsteady atomic.Uint64 // how often the server was away, or did not answer
	doubts   atomic.Uint64 // how often it was unknown whether the server still has all
	settled  atomic.Uint64 // doubts at that time, when the server was last found to have all
	knownMu  sync.Mutex    // of the next one, while it changes
	known    atomic.Pointer[known]
	time     atomic.Int64 // the greatest one of the store that was seen in the epoch, in nanoseconds since 1970

	// These belong to the client's goroutine that calls handlers.
	brokerSaid brief.Causes

	// These belong to the goroutine that settles.
	said     string // why the store was in doubt, as the log has it
	wasUnfit string // why the streams were unfit when they were last looked at
	steady   uint64 // unsteady, when the store was last found to have all
	samples  [kinds][]sample

	ownMu sync.Mutex // of these
	own   own
	// positions that the streams of claims and withdrawals have reached
	last, lastWithdrawal uint64
}

// own is the last claim that was acknowledged to this member.
type own struct {
	position uint64
	claim    claims.Claim
	time     int64 // of the store, when it was there; 0 if there is none
}

var _ claims.Store = (*Store)(nil)

// New returns a store that is to be opened. An error says what is wrong with the options.
func New(o Options) (*Store, error) {
	if !claims.ValidName(o.Name) {
		return nil, errors.New("claims: a group's name has letters, digits, - and _ alone, and at most 64 of them")
	}
	if len(o.Servers) == 0 {
		return nil, errors.New("claims: no server is named: give the address of one, such as nats://127.0.0.1:4222")
	}
	if o.Replicas == 0 {
		o.Replicas = 1
	}
	s := &Store{o: o, base: "$KV." + o.Name + "-claims.", inbox: client.NewInbox(), random: bufio.NewReaderSize(rand.Reader, 1<<10), waiting: map[string]slot{}, every: lookEvery, now: clocks.Now}
	s.forRun.Store(int64(waitRun))
	s.forNew.Store(int64(waitNew))
	s.life, s.end = context.WithCancel(context.Background())
	s.doubts.Store(1) // Nothing is known of the server yet.
	return s, nil
}

// log says what an operator should know.
func (s *Store) log(event string, fields ...any) {
	if s.o.Log != nil {
		s.o.Log(event, fields...)
	}
}

// connect connects, and tries until ctx ends. From then on the client connects again by itself, for ever. At some errors of the server, as that a
// limit is exceeded, the client gives the connection up: then another one takes its place.
func (s *Store) connect(ctx context.Context) error {
	options := append([]client.Option{
		client.Name("svid claims " + s.o.Name),
		client.Timeout(dialWait),
		client.MaxReconnects(-1),
		client.IgnoreAuthErrorAbort(), // A server may refuse a member until its users, or the member's credentials, are other ones.
		client.ReconnectWait(connectWait),
		client.ReconnectJitter(connectWait, connectWait),
		client.PingInterval(pingWait),
		client.MaxPingsOutstanding(2),
		client.ReconnectBufSize(-1), // Nothing is sent later that was to be sent while no server was there.
		client.DisconnectErrHandler(func(nc *client.Conn, err error) {
			if s.connection() == nc {
				s.away(saidBy(nc, err))
			}
		}),
		client.ReconnectHandler(func(nc *client.Conn) {
			s.brokerSaid.Forget()
			s.isBack(nc)
		}),
		client.ClosedHandler(func(nc *client.Conn) {
			if s.connection() == nc && s.life.Err() == nil {
				go s.replace()
			}
		}),
		client.ErrorHandler(func(_ *client.Conn, _ *client.Subscription, err error) { s.brokerSays(err) }),
	}, s.o.Connect...)
	for rest := againWait; ; rest *= 2 {
		nc, err := client.Connect(strings.Join(s.o.Servers, ","), options...)
		if err == nil {
			if err = s.subscribe(nc); err == nil && s.keepConnection(nc) {
				return nil
			}
			nc.Close()
		}
		if s.life.Err() != nil {
			return client.ErrConnectionClosed
		}
		if rest > mostRest {
			rest = mostRest
		}
		if !pause.For(ctx, rest) {
			return failed("connect", err)
		}
	}
}

// subscribe lets a new connection hear what is for this member.
func (s *Store) subscribe(nc *client.Conn) error {
	if _, err := nc.Subscribe(s.inbox+".*", s.hear); err != nil {
		return saidBy(nc, err)
	}
	told, err := nc.SubscribeSync(s.base + "e.*")
	if err == nil {
		err = nc.FlushTimeout(dialWait) // (the server may refuse them)
	}
	if err != nil {
		return saidBy(nc, err)
	}
	s.news.Lock()
	s.told = told
	s.news.Unlock()
	return nil
}

// saidBy is why a connection has ended, or err where it has not, or nobody said why.
func saidBy(nc *client.Conn, err error) error {
	if last := nc.LastError(); last != nil && nc.IsClosed() {
		return last
	}
	return err
}

// replace connects again, where the client has given up.
func (s *Store) replace() {
	s.mu.Lock()
	rest := replaceEvery - time.Since(s.connected)
	s.mu.Unlock()
	if pause.For(s.life, rest) && s.connect(s.life) == nil {
		s.isBack(s.connection())
	}
}

// isBack lets nothing count that was known of the server before.
func (s *Store) isBack(nc *client.Conn) {
	s.log("broker found", "server", nc.ConnectedUrlRedacted())
	s.doubts.Add(1)
	if s.known.Load() != nil {
		s.settle() // (whoever misses a claim says so at once)
	}
}

// connection is the one that counts; nil before there is one.
func (s *Store) connection() *client.Conn {
	s.mu.Lock()
	defer s.mu.Unlock()
	return s.conn
}

// brokerSays logs what the client reports. It may report the same many times a second.
func (s *Store) brokerSays(err error) {
	if s.brokerSaid.IsNew(time.Now(), err) {
		s.log("broker says", "why", err)
	}
}

// keepConnection lets the store have a connection, unless it was closed meanwhile.
func (s *Store) keepConnection(nc *client.Conn) bool {
	s.mu.Lock()
	defer s.mu.Unlock()
	if s.life.Err() != nil {
		return false
	}
	s.conn, s.connected = nc, time.Now()
	return true
}

// Close lets go of the server, also of one that Open connects to at the moment.
func (s *Store) Close() error {
	s.mu.Lock()
	s.end()
	nc := s.conn
	s.mu.Unlock()
	if nc != nil {
		nc.Close()
	}
	s.away(client.ErrConnectionClosed)
	return nil
}

// keyText is a key as a part of a subject.
func keyText(key svid.TokenKey) string { return base64.RawURLEncoding.EncodeToString(key[:]) }
