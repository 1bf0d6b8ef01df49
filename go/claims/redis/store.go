// Package redis keeps claims in Redis, version 7.0 or newer: in one server, in one with replicas that Sentinel watches, or in a
// Cluster.
//
// NAME being the group's, a shard has these keys. In a Cluster there are 16 shards, and {NAME:00} to {NAME:0f} stand for {NAME}: the
// first four bits of a key say which.
//
//	svid:{NAME}:KEY          an entry: the owner's 32 bytes. KEY is the token's key, 32 bytes as they are.
//	svid:{NAME}:epoch        the record of the epoch, as record.go has it.
//	svid:{NAME}:seen         the epoch's ID, and the greatest time that a member has seen in it.
//	svid:{NAME}:life:ID      a number, which one life of a member counts up. ID is chosen for each life.
//	svid:{NAME}:withdrawn:N  withdrawals, one after the other, as withdrawn.go has them.
package redis

import (
	"context"
	"crypto/sha256"
	"encoding/hex"
	"errors"
	"fmt"
	"os"
	"sort"
	"strings"
	"sync"
	"time"

	"svid.example/go/v3/claims"
	"svid.example/go/v3/internal/clocks"
	"svid.example/go/v3/internal/pause"
)

const (
	mostIdle   = 4               // connections to a server that wait for a call
	usualWait  = 3 * time.Second // see Options.Wait
	mostWait   = time.Minute
	lifeLasts  = 3600            // seconds for which the server keeps the number of a member that is gone
	lifeSlack  = 60              // seconds of these in which nobody relies on it
	seenSlack  = 5               // seconds by which members write too late, or after one another, what time they have seen
	checkEvery = time.Minute     // the server's settings
	askOthers  = 5 * time.Second // between two tries to reach a server that is not there
	turnWait   = time.Second     // for which a claim tries at first to reach a server, and to compare with it
	shardCount = 16              // of a Cluster
	mostTime   = 1 << 40         // seconds: greater ones, and sums of them, have no room in numbers that all members can read
	mostKnown  = 64              // entries that each look asks for: as many calls of a member are under way together at most
)

// Options say which store a group has.
type Options struct {
	URLs     []string // of servers, one of them the primary; of Sentinels; or of some servers of a Cluster
	Name     string   // the group's
	Terms    claims.Terms
	Replicas int // how many servers must have an entry before it counts; 0 is 1, the primary
	// Wait is how long members compare what they know with a server that has come up again, or whose store was just made, before a claim
	// counts there. Every member must ask for the State, or put a claim, within it. 0 is three seconds.
	Wait time.Duration
}

// A Store is a claim store in Redis.
type Store struct {
	options   Options
	servers   []server
	unchecked bool
	replicas  int    // that must have an entry beside the primary
	life      string // names this member's life in keys
	now       func() clocks.Moment

	watching sync.Mutex // guards watched

	mu      sync.Mutex
	closed  bool
	cluster bool
	shards  []*shard // nil before Open knows whether the server is of a Cluster
	at      string   // where the primary was found; "" where it must be looked for
	stale   bool     // the servers of a Cluster must be asked what they have
	from    int      // which of them is asked first
	open    map[*conn]bool
	idle    map[string][]*conn
	checked map[string]checked // by run
	fault   error              // why nothing may be put
	looked  clocks.Moment      // when the last look at all servers began
	watched map[string]*watched
}

var _ claims.Store = (*Store)(nil)

// A shard is what one server has at a time: all of the store, or, in a Cluster, what has one hash tag.
type shard struct {
	number  int
	prefix  string        // of its keys
	looking chan struct{} // has one who compares, and writes the record

	// Store.mu guards these.
	at      string // the address of its server, in a Cluster
	record  record
	raw     string     // the record as it is stored
	agreed  bool       // the server has what this member knows of, and the record names its run
	doubts  uint64     // how often another server may have come: a look that began before that says nothing of it
	latest  uint64     // the greatest time that was seen in the epoch
	clock   clock      // the store's time, and this machine's
	count   uint64     // what this member has counted up to
	life    uint64     // what of that the server has answered in this epoch
	lifeAt  uint64     // when, by the store's time
	claimed []evidence // entries of its own that the server has answered: of each call that may have put the last one
}

type clock struct {
	store uint64
	own   clocks.Moment
}

// An evidence is an entry that the server must have until it expires.
type evidence struct {
	key   string
	owner claims.Owner
	until uint64
}

func knows(all []evidence, one evidence) bool {
	for _, other := range all {
		if other == one {
			return true
		}
	}
	return false
}

// A checked is what was found of a server's settings.
type checked struct {
	at      time.Time
	settled bool // all that it had was on the disk, once the settings were seen
}

// New returns a store that is not connected yet.
func New(o Options) (*Store, error) {
	s := &Store{options: o, now: clocks.Now, open: make(map[*conn]bool), idle: make(map[string][]*conn), checked: make(map[string]checked),
		watched: make(map[string]*watched)}
	if !claims.ValidName(o.Name) {
		return nil, fmt.Errorf("the name %q is not letters, digits, - and _ alone", o.Name)
	}
	if o.Replicas < 0 || o.Replicas > mostReplicas {
		return nil, fmt.Errorf("an entry can be on 1 to %d servers", mostReplicas)
	}
	if o.Terms.Lasts > mostTime || o.Terms.Margin > mostTime {
		return nil, fmt.Errorf("the times must be at most %d s, which the servers can count with", uint64(mostTime))
	}
	if o.Terms.Back > o.Terms.Margin {
		return nil, errors.New("the step back of the store's clock is a part of the margin, and can't be more")
	}
	if o.Wait < 0 || o.Wait > mostWait {
		return nil, fmt.Errorf("members can compare for at most %v", mostWait)
	}
	if o.Wait == 0 {
		s.options.Wait = usualWait
	}
	if len(o.URLs) == 0 {
		return nil, errors.New("no server is named")
	}
	if o.Replicas > 1 {
		s.replicas = o.Replicas - 1
	}
	for i, text := range o.URLs {
		one, err := parse(text)
		if err == nil {
			_, err = one.secret()
		}
		if err == nil {
			_, err = one.tls()
		}
		if err == nil && i > 0 && (one.service == "") != (s.servers[0].service == "") {
			err = errors.New("either all addresses are those of Sentinels, or none is")
		}
		isKnown := false
		for _, other := range s.servers {
			if isKnown = isKnown || one == other; err == nil && one != other && one.address == other.address {
				err = errors.New("one before it leads to the same server in another way: name each server once")
			}
		}
		if err != nil {
			return nil, fmt.Errorf("address %d: %w", i+1, err)
		}
		if isKnown {
			continue
		}
		if one.replicas-1 > s.replicas {
			s.replicas = one.replicas - 1
		}
		s.unchecked = s.unchecked || one.unchecked
		s.servers = append(s.servers, one)
	}
	id, err := newID()
	if err != nil {
		return nil, err
	}
	s.life = id[:16]
	return s, nil
}

// errClosed: Close was called.
var errClosed = errors.New("the store is closed")

// lock lets one call at a time compare some shards, and ends with ctx.
func lock(ctx context.Context, shards []*shard) (unlock func(), err error) {
	ordered := append([]*shard(nil), shards...) // (so that no two calls wait for one another)
	sort.Slice(ordered, func(i, k int) bool { return ordered[i].number < ordered[k].number })
	locked := 0
	unlock = func() {
		for _, it := range ordered[:locked] {
			<-it.looking
		}
	}
	for _, it := range ordered {
		select {
		case it.looking <- struct{}{}:
			locked++
		case <-ctx.Done():
			unlock()
			return nil, ctx.Err()
		}
	}
	return unlock, nil
}

// keep lets Close end a connection.
func (s *Store) keep(c *conn) error {
	s.mu.Lock()
	defer s.mu.Unlock()
	if s.closed {
		c.Close()
		return errClosed
	}
	s.open[c] = true
	return nil
}

// drop ends a connection, and those to the same server that wait: what has happened to one has happened to them.
func (s *Store) drop(c *conn) {
	s.mu.Lock()
	all := append(s.idle[c.address], c)
	delete(s.idle, c.address)
	for _, one := range all {
		delete(s.open, one)
	}
	s.mu.Unlock()
	for _, one := range all {
		one.Close()
	}
}

// leave ends the use of a connection, which gave err.
func (s *Store) leave(c *conn, err error) {
	if c.Err() == nil && !errors.Is(err, errReplica) && !isGone(err) {
		s.give(c)
		return
	}
	s.drop(c)
	s.lost()
}

// give lets a connection wait for the next call.
func (s *Store) give(c *conn) {
	s.mu.Lock()
	if len(s.idle[c.address]) < mostIdle && !s.closed {
		s.idle[c.address] = append(s.idle[c.address], c)
		c = nil
	} else {
		delete(s.open, c)
	}
	s.mu.Unlock()
	if c != nil {
		c.Close()
	}
}

// take is a connection to the server of some shards, whose entries were compared with what this member knows.
//
// ctx may last for a minute, and the server may hang. So each try to reach it ends, since another one may have taken over. So does each turn to
// compare, since a look waits for that.
func (s *Store) take(ctx context.Context, shards []*shard) (c *conn, err error) {
	for look, most := pauses(), turnWait; ; {
		s.mu.Lock()
		fault := s.fault
		s.mu.Unlock()
		if fault != nil {
			return nil, fault
		}
		isLate := false
		if c, err = nil, nil; s.isUnwatched() {
			isLate = within(ctx, most, func(ctx context.Context) { err = s.watch(ctx) })
		}
		if err == nil {
			c, err = s.idleOne(shards[0])
		}
		if c == nil && err == nil {
			isLate = within(ctx, most, func(ctx context.Context) { c, err = s.connect(ctx, shards[0]) })
		}
		if err == nil {
			if s.isAgreed(shards) {
				return c, nil
			}
			if isLate = within(ctx, most, func(ctx context.Context) { err = s.agree(ctx, c, shards) }); err == nil {
				return c, nil
			}
			s.leave(c, err)
		}
		if isLate {
			most = usualWait // (it may be slow; for longer, members that compare would miss what this one knows)
		}
		var unfit *claims.Unfit
		if !isLate && !errors.Is(err, errCompares) || errors.As(err, &unfit) {
			return nil, err
		}
		if !look(ctx) {
			return nil, err
		}
	}
}

// within lets do end after a time, and says whether it took that.
func within(ctx context.Context, most time.Duration, do func(ctx context.Context)) (isLate bool) {
	begun := time.Now()
	ctx, cancel := context.WithTimeout(ctx, most)
	defer cancel()
	do(ctx)
	return time.Since(begun) >= most
}

// pauses are those between two looks at something that is soon over. They end with ctx.
func pauses() func(ctx context.Context) bool {
	next := 2 * time.Millisecond
	return func(ctx context.Context) bool {
		now := next
		if next *= 2; next > 50*time.Millisecond {
			next = 50 * time.Millisecond
		}
		return pause.For(ctx, now)
	}
}

// connection is one to a shard's server, which may be new.
func (s *Store) connection(ctx context.Context, one *shard) (*conn, error) {
	if c, err := s.idleOne(one); c != nil || err != nil {
		return c, err
	}
	return s.connect(ctx, one)
}

// idleOne is a connection to a shard's server that waits for a call; nil where there is none.
func (s *Store) idleOne(one *shard) (*conn, error) {
	s.mu.Lock()
	defer s.mu.Unlock()
	at := s.at
	if s.cluster {
		at = one.at
	}
	if s.closed {
		return nil, errClosed
	}
	idle := s.idle[at]
	if at == "" || len(idle) == 0 {
		return nil, nil
	}
	last := len(idle) - 1
	s.idle[at] = idle[:last]
	return idle[last], nil
}

// connect makes a connection to a shard's server.
func (s *Store) connect(ctx context.Context, one *shard) (*conn, error) {
	c, err := s.reach(ctx, one)
	if err != nil {
		return nil, err
	}
	if err := s.keep(c); err != nil {
		return nil, err
	}
	s.mu.Lock()
	if !s.cluster {
		s.at = c.address
	}
	for _, it := range s.shards { // (a connection that is new may lead to a server that is)
		if !s.cluster || it.at == c.address {
			it.doubt()
		}
	}
	s.mu.Unlock()
	return c, nil
}

// lost lets the next call look where the servers are.
func (s *Store) lost() {
	s.mu.Lock()
	defer s.mu.Unlock()
	s.at, s.stale = "", true
}

// doubt says that another server may be there.
func (it *shard) doubt() { it.agreed, it.doubts = false, it.doubts+1 }

func (s *Store) isAgreed(shards []*shard) bool {
	s.mu.Lock()
	defer s.mu.Unlock()
	for _, it := range shards {
		if !it.agreed {
			return false
		}
	}
	return true
}

// newShards makes the shards of a server, or of a Cluster.
func newShards(name string, cluster bool) (all []*shard) {
	if !cluster {
		return []*shard{{prefix: "svid:{" + name + "}:", looking: make(chan struct{}, 1)}}
	}
	for i := 0; i < shardCount; i++ {
		all = append(all, &shard{number: i, prefix: fmt.Sprintf("svid:{%s:%02x}:", name, i), looking: make(chan struct{}, 1)})
	}
	return all
}

// Open is part of claims.Store. ctx may have no end: so each try ends, as in take.
func (s *Store) Open(ctx context.Context) (state claims.State, err error) {
	var why error
	for look, most := pauses(), s.options.Wait+turnWait; ; {
		isLate := within(ctx, most, func(ctx context.Context) { state, err = s.tryOpen(ctx) })
		if err == nil {
			return state, nil
		}
		if isLate && most < mostWait {
			most *= 2
		}
		if why == nil || ctx.Err() == nil && !isLate && !errors.Is(err, os.ErrDeadlineExceeded) { // (else it says only that the time is over)
			why = err
		}
		var unfit *claims.Unfit
		if errors.As(err, &unfit) || errors.Is(err, errClosed) || !look(ctx) {
			return claims.State{}, why
		}
	}
}

func (s *Store) tryOpen(ctx context.Context) (claims.State, error) {
	if err := s.find(ctx); err != nil {
		return claims.State{}, err
	}
	return s.State(ctx)
}

// State is part of claims.Store.
func (s *Store) State(ctx context.Context) (state claims.State, err error) {
	s.mu.Lock()
	shards := s.shards
	s.mu.Unlock()
	if shards == nil {
		return state, errors.New("the store is not open")
	}
	if err := s.watch(ctx); err != nil {
		return state, err
	}
	parts, err := s.parts(ctx)
	if err != nil {
		return state, err
	}
	faults := make([]error, len(parts))
	var asking sync.WaitGroup
	for i := range parts { // (the servers of a Cluster do not wait for each other)
		asking.Add(1)
		go func(i int) { defer asking.Done(); faults[i] = s.beat(ctx, parts[i]) }(i)
	}
	asking.Wait()
	for _, err := range faults {
		if err != nil {
			return claims.State{}, err
		}
	}
	s.mu.Lock()
	defer s.mu.Unlock()
	var epochs []string
	for _, it := range s.shards {
		epochs = append(epochs, it.record.id)
		if it.record.deaf > state.Deaf {
			state.Deaf = it.record.deaf
		}
		if it.clock.store > state.Time {
			state.Time = it.clock.store
		}
	}
	if state.Epoch = epochs[0]; s.cluster {
		sum := sha256.Sum256([]byte(strings.Join(epochs, ",")))
		state.Epoch = hex.EncodeToString(sum[:idLength/2])
	}
	return state, nil
}

// parts are the shards, those of one server together.
func (s *Store) parts(ctx context.Context) ([][]*shard, error) {
	if err := s.locate(ctx); err != nil {
		return nil, err
	}
	s.mu.Lock()
	defer s.mu.Unlock()
	if !s.cluster {
		return [][]*shard{s.shards}, nil
	}
	var parts [][]*shard
	by := make(map[string]int)
	for _, it := range s.shards {
		n, there := by[it.at]
		if !there {
			n = len(parts)
			by[it.at] = n
			parts = append(parts, nil)
		}
		parts[n] = append(parts[n], it)
	}
	return parts, nil
}

// Close is part of claims.Store.
func (s *Store) Close() error {
	s.mu.Lock()
	s.closed = true
	all := s.open
	s.open, s.idle = make(map[*conn]bool), make(map[string][]*conn)
	s.mu.Unlock()
	for c := range all {
		c.Close()
	}
	return nil
}
