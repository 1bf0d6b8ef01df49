package redis

import (
	"context"
	"errors"
	"fmt"
	"net"
	"strconv"
	"strings"
	"sync"
	"time"

	"svid.example/go/v3/claims"
	"svid.example/go/v3/internal/clocks"
)

// askWait is for how long one server of several is waited for, where another one may answer.
const askWait = time.Second

// find connects for the first time, and learns whether there is a Cluster.
func (s *Store) find(ctx context.Context) error {
	s.mu.Lock()
	closed, found := s.closed, s.shards != nil
	s.mu.Unlock()
	if closed {
		return errClosed
	}
	if found {
		return nil
	}
	c, err := s.any(ctx)
	if err != nil {
		return err
	}
	defer c.Close()
	answers, err := c.do(ctx, cmd("INFO", "server"))
	if err == nil {
		err = firstFailure(answers)
	}
	if err != nil {
		return err
	}
	cluster := field(textOf(answers[0]), "redis_mode") == "cluster"
	if cluster {
		for i := range s.servers {
			if s.servers[i].service != "" || s.servers[i].network != "tcp" || s.servers[i].db != "" && s.servers[i].db != "0" {
				return claims.Unfitf("a Cluster is named by redis://HOST:PORT of some of its servers, and has one database")
			}
		}
	}
	s.mu.Lock()
	defer s.mu.Unlock()
	if s.shards == nil {
		s.cluster, s.stale, s.shards = cluster, cluster, newShards(s.options.Name, cluster)
	}
	return nil
}

// any is a connection to any server that may have the store.
func (s *Store) any(ctx context.Context) (*conn, error) {
	if s.servers[0].service != "" {
		return s.primary(ctx)
	}
	var faults []string
	for i := range s.servers {
		call, cancel := s.each(ctx)
		c, err := s.servers[i].dial(call)
		if err == nil {
			if _, err = c.do(call, cmd("TIME")); err != nil { // (one that hangs takes connections, too)
				c.Close()
			}
		}
		cancel()
		if err == nil {
			return c, nil
		}
		faults = append(faults, s.servers[i].address+": "+err.Error())
	}
	return nil, errors.New(strings.Join(faults, "; "))
}

// each bounds how long one of several servers is waited for.
func (s *Store) each(ctx context.Context) (context.Context, context.CancelFunc) {
	if len(s.servers) == 1 {
		return context.WithCancel(ctx)
	}
	return context.WithTimeout(ctx, askWait)
}

// reach makes a connection to the server of a shard.
func (s *Store) reach(ctx context.Context, one *shard) (*conn, error) {
	s.mu.Lock()
	cluster, at := s.cluster, one.at
	s.mu.Unlock()
	if !cluster {
		return s.primary(ctx)
	}
	c, err := s.servers[0].at(at).dial(ctx)
	if err != nil {
		s.lost()
		return nil, fmt.Errorf("%s: %w", at, err)
	}
	answers, err := c.do(ctx, cmd("CLUSTER", "MYID"))
	if err == nil {
		err = firstFailure(answers)
	}
	if err != nil {
		c.Close()
		return nil, err
	}
	c.node = textOf(answers[0])
	return c, nil
}

// primary connects to the primary: to the first of all servers that says that it is one.
func (s *Store) primary(ctx context.Context) (*conn, error) {
	servers := make([]*server, 0, len(s.servers))
	if s.servers[0].service != "" {
		at, err := s.sentinels(ctx)
		if err != nil {
			return nil, err
		}
		servers = append(servers, s.servers[0].at(at))
	} else {
		for i := range s.servers {
			servers = append(servers, &s.servers[i])
		}
	}
	type reached struct {
		c   *conn
		err error
	}
	all := make(chan reached, len(servers))
	call, cancel := context.WithCancel(ctx)
	for _, one := range servers {
		go func(one *server) {
			c, err := one.dial(call)
			if err == nil {
				if err = isPrimary(call, c); err != nil {
					c.Close()
				}
			}
			if err != nil {
				err = fmt.Errorf("%s: %w", one.address, err)
			}
			all <- reached{c, err}
		}(one)
	}
	var faults []string
	var last error
	for n := range servers {
		r := <-all
		if r.err == nil {
			cancel()
			go func(n int) { // (the others are not waited for)
				for n++; n < len(servers); n++ {
					if r := <-all; r.err == nil {
						r.c.Close()
					}
				}
			}(n)
			return r.c, nil
		}
		last = r.err
		faults = append(faults, r.err.Error())
	}
	cancel()
	if len(faults) == 1 {
		return nil, last
	}
	return nil, errors.New(strings.Join(faults, "; "))
}

// isPrimary is nil for a server that says that it is a primary.
func isPrimary(ctx context.Context, c *conn) error {
	answers, err := c.do(ctx, cmd("ROLE"))
	if err == nil {
		err = firstFailure(answers)
	}
	if err != nil {
		return err
	}
	if role, is := answers[0].([]any); !is || len(role) == 0 || textOf(role[0]) != "master" {
		return errReplica
	}
	return nil
}

// sentinels is the address of the primary. All Sentinels that answer must name the same one.
func (s *Store) sentinels(ctx context.Context) (string, error) {
	names := make([]string, len(s.servers))
	faults := make([]error, len(s.servers))
	s.ask(ctx, func(ctx context.Context, i int, c *conn) {
		names[i], faults[i] = named(ctx, c, s.servers[i].service)
	}, faults)
	var said string
	var text []string
	for i := range names {
		if faults[i] != nil {
			text = append(text, s.servers[i].address+": "+faults[i].Error())
			continue
		}
		if names[i] == "" {
			continue
		}
		if said != "" && names[i] != said {
			return "", fmt.Errorf("two Sentinels name two primaries, %s and %s: %w", said, names[i], errDisagree)
		}
		said = names[i]
	}
	if said == "" {
		return "", errors.New(strings.Join(text, "; "))
	}
	return said, nil
}

var errDisagree = errors.New("wait until they agree, or see why they don't")

// named is what a Sentinel names as the primary.
func named(ctx context.Context, c *conn, service string) (string, error) {
	answers, err := c.do(ctx, cmd("SENTINEL", "GET-MASTER-ADDR-BY-NAME", service))
	if err == nil {
		err = firstFailure(answers)
	}
	if err != nil {
		return "", err
	}
	parts, _ := answers[0].([]any)
	if len(parts) != 2 {
		return "", fmt.Errorf("it knows no primary of the name %q: see its line sentinel monitor", service)
	}
	return net.JoinHostPort(textOf(parts[0]), textOf(parts[1])), nil
}

// locate learns which server of a Cluster has each shard.
func (s *Store) locate(ctx context.Context) error {
	s.mu.Lock()
	due, from := s.cluster && s.stale, s.from
	s.mu.Unlock()
	if !due {
		return nil
	}
	var faults []string
	for i := range s.servers {
		one := &s.servers[(from+i)%len(s.servers)]
		call, cancel := s.each(ctx)
		ranges, err := one.slots(call)
		cancel()
		if err == nil {
			err = s.assign(ranges)
		}
		if err == nil {
			return nil
		}
		faults = append(faults, one.address+": "+err.Error())
		s.mu.Lock()
		s.from = from + i + 1 // (so that a call whose time is over leaves the next one a server that answers)
		s.mu.Unlock()
		if ctx.Err() != nil {
			break
		}
	}
	return errors.New(strings.Join(faults, "; "))
}

// A slotRange is a range of slots, and the address of their server.
type slotRange struct {
	from, to int64
	at       string
}

func (s *server) slots(ctx context.Context) (ranges []slotRange, err error) {
	c, err := s.dial(ctx)
	if err != nil {
		return nil, err
	}
	defer c.Close()
	answers, err := c.do(ctx, cmd("CLUSTER", "SLOTS"))
	if err == nil {
		err = firstFailure(answers)
	}
	if err != nil {
		return nil, err
	}
	all, _ := answers[0].([]any)
	for _, one := range all {
		parts, _ := one.([]any)
		if len(parts) < 3 {
			return nil, errProtocol
		}
		from, is := parts[0].(int64)
		to, is2 := parts[1].(int64)
		primary, _ := parts[2].([]any)
		if !is || !is2 || len(primary) < 2 {
			return nil, errProtocol
		}
		port, is := primary[1].(int64)
		host := textOf(primary[0])
		if !is {
			return nil, errProtocol
		}
		if host == "" { // (it does not know its own name)
			if host, _, err = net.SplitHostPort(s.address); err != nil {
				return nil, err
			}
		}
		ranges = append(ranges, slotRange{from, to, net.JoinHostPort(host, strconv.FormatInt(port, 10))})
	}
	return ranges, nil
}

// assign notes where each shard is.
func (s *Store) assign(ranges []slotRange) error {
	s.mu.Lock()
	defer s.mu.Unlock()
	for _, it := range s.shards {
		at, slot := "", int64(slotOf(it.prefix))
		for _, p := range ranges {
			if p.from <= slot && slot <= p.to {
				at = p.at
			}
		}
		if at == "" {
			return fmt.Errorf("no server of the Cluster has the slot %d: see redis-cli --cluster check", slot)
		}
		if it.at != at {
			it.at = at
			it.doubt()
		}
	}
	s.stale = false
	return nil
}

// slotOf is the slot of a Cluster that has a key with a hash tag: CRC-16 of the tag, by the polynomial 0x1021.
func slotOf(key string) uint16 {
	if from := strings.IndexByte(key, '{'); from >= 0 {
		if to := strings.IndexByte(key[from+1:], '}'); to > 0 {
			key = key[from+1 : from+1+to]
		}
	}
	var sum uint16
	for _, b := range []byte(key) {
		sum ^= uint16(b) << 8
		for bit := 0; bit < 8; bit++ {
			if sum&0x8000 != 0 {
				sum = sum<<1 ^ 0x1021
			} else {
				sum <<= 1
			}
		}
	}
	return sum % 16384
}

// A watched is a connection to a server that is asked once a second.
type watched struct {
	conn  *conn
	asked clocks.Moment // by it, last
	tried time.Time
}

// ask asks all servers at once, on connections that are kept. One that is not there is tried again later: its fault is set, and ask is
// not called.
func (s *Store) ask(ctx context.Context, ask func(ctx context.Context, i int, c *conn), faults []error) {
	s.watching.Lock()
	defer s.watching.Unlock()
	var asking sync.WaitGroup
	for i := range s.servers {
		w := s.watched[s.servers[i].address]
		if w == nil {
			w = new(watched)
			s.watched[s.servers[i].address] = w
		}
		if w.conn == nil && !w.tried.IsZero() && time.Since(w.tried) < askOthers {
			faults[i] = errors.New("it was not there a moment ago")
			continue
		}
		asking.Add(1)
		go func(i int) {
			defer asking.Done()
			call, cancel := s.each(ctx)
			defer cancel()
			now := s.now()
			if w.conn != nil && now.Since(w.asked) > askOthers { // It may have ended meanwhile, which says nothing of the server.
				s.leaveWatched(w)
			}
			w.asked = now
			if w.conn == nil {
				c, err := s.servers[i].dial(call)
				if err == nil {
					err = s.keep(c)
				}
				if err != nil {
					w.tried, faults[i] = time.Now(), err
					return
				}
				w.conn = c
			}
			ask(call, i, w.conn)
			if w.conn.Err() != nil {
				if call.Err() != nil { // (it hangs)
					w.tried = time.Now()
				}
				s.leaveWatched(w)
			}
		}(i)
	}
	asking.Wait()
}

// leaveWatched ends the connection. The caller has watching.
func (s *Store) leaveWatched(w *watched) {
	s.mu.Lock()
	delete(s.open, w.conn)
	s.mu.Unlock()
	w.conn.Close()
	w.conn = nil
}

// isAlone says whether no other server can take over, but in a Cluster, which sees to that. The caller has the lock.
func (s *Store) isAlone() bool { return s.cluster || len(s.servers) == 1 && s.servers[0].service == "" }

// isUnwatched says whether the last look at all servers is too old for what one of them answers to count: until shortly before, a server that takes over
// compares.
func (s *Store) isUnwatched() bool {
	s.mu.Lock()
	defer s.mu.Unlock()
	return !s.isAlone() && s.now().Since(s.looked) > s.options.Wait-s.options.Wait/30
}

// watch sees that no two servers say that they are the primary, and that no other one has taken over.
func (s *Store) watch(ctx context.Context) error {
	s.mu.Lock()
	begun, alone := s.now(), s.isAlone()
	s.mu.Unlock()
	if alone {
		return nil
	}
	var primaries []string
	var fault error
	if s.servers[0].service != "" {
		at, err := s.sentinels(ctx)
		if errors.Is(err, errDisagree) {
			fault = err
		} else if err == nil {
			primaries = append(primaries, at)
		}
	} else {
		is := make([]bool, len(s.servers))
		s.ask(ctx, func(ctx context.Context, i int, c *conn) { is[i] = isPrimary(ctx, c) == nil }, make([]error, len(is)))
		for i := range is {
			if is[i] {
				primaries = append(primaries, s.servers[i].address)
			}
		}
	}
	if len(primaries) > 1 {
		fault = fmt.Errorf("%s say both that they are the primary, so a token could be claimed twice: stop all but one, or make them replicas of that one (REPLICAOF)",
			strings.Join(primaries, " and "))
	}
	s.mu.Lock()
	defer s.mu.Unlock()
	if fault == nil && ctx.Err() != nil { // (who does not answer in that time may be the primary)
		return ctx.Err()
	}
	s.fault, s.looked = fault, begun
	if len(primaries) == 1 && s.at != "" && s.at != primaries[0] { // (another one has taken over)
		s.at = ""
	}
	return fault
}

// stays is nil if a connection's server still is the primary, once it has answered a call that began then: else who was away meanwhile would see that
// later than the answer.
func (s *Store) stays(ctx context.Context, c *conn, begun clocks.Moment) error {
	unwatched := s.isUnwatched()
	if !unwatched && s.now().Since(begun) <= s.options.Wait/3 {
		return nil
	}
	_, err := c.do(ctx, cmd("TIME")) // (it may be gone by now)
	if err == nil && unwatched {
		err = s.watch(ctx)
	}
	s.mu.Lock()
	defer s.mu.Unlock()
	switch {
	case err != nil:
		return err
	case s.fault != nil:
		return s.fault
	case !s.isAlone() && s.at != c.address:
		return errMeanwhile
	}
	return nil
}
