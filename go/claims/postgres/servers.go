package postgres

import (
	"context"
	"errors"
	"fmt"
	"strings"
	"sync"
	"time"

	"svid.example/go/v3/internal/clocks"
)

const (
	lookEvery = 500 * time.Millisecond  // between two looks at a server
	lookWait  = 2 * time.Second         // for one look
	mostAge   = 2900 * time.Millisecond // of the last look at each server, if claims are to count: the quarantine of a new primary is longer
)

// A server is one of the addresses.
type server struct {
	number int // from 1
	url    string

	// Where there are several servers, the last look at this one:
	role  role
	fault error
	at    clocks.Moment // zero before the first one
}

// A role is what a server is.
type role struct {
	primary bool
	system  string // which servers have alike that came of one
	line    string // of a primary: the timeline, in 8 digits
	started string
}

// servers are all addresses. Where there are several, each one is looked at all the time: so a member does not go on with a primary
// whose place another server has taken.
type servers struct {
	all  []*server
	done chan struct{}
	now  func() clocks.Moment

	mu      sync.Mutex
	begun   bool
	changed chan struct{} // is closed, and made again, after each look
	tasks   sync.WaitGroup
}

func newServers(urls []string, done chan struct{}) *servers {
	s := &servers{done: done, now: clocks.Now, changed: make(chan struct{})}
	for i, url := range urls {
		s.all = append(s.all, &server{number: i + 1, url: url})
	}
	return s
}

const askRole = `SELECT pg_is_in_recovery(), (SELECT c.system_identifier::text FROM pg_control_system() AS c), pg_postmaster_start_time()::text,
	CASE WHEN pg_is_in_recovery() THEN '' ELSE substr(pg_walfile_name(pg_current_wal_insert_lsn()), 1, 8) END`

// reach connects to a server, and asks what it is.
func reach(ctx context.Context, at *server) (*conn, role, error) {
	c, err := dial(ctx, at.url)
	if err != nil {
		return nil, role{}, err
	}
	c.at = at
	is, err := c.role(ctx)
	if err != nil {
		c.close()
		return nil, role{}, err
	}
	return c, is, nil
}

func (c *conn) role(ctx context.Context) (role, error) {
	rows, err := c.query(ctx, askRole)
	if err != nil {
		return role{}, err
	}
	row := rows[0]
	return role{primary: row[0] == false, system: text(row[1]), started: text(row[2]), line: text(row[3])}, nil
}

// connect connects to the primary.
func (s *servers) connect(ctx context.Context) (*conn, error) {
	at, err := s.await(ctx)
	if err != nil {
		return nil, err
	}
	c, is, err := reach(ctx, at)
	if err != nil {
		return nil, fmt.Errorf("address %d: %w", at.number, err)
	}
	if !is.primary {
		c.close()
		return nil, fmt.Errorf("address %d: %w", at.number, errStandby)
	}
	return c, nil
}

// await is the primary, once each server was looked at.
func (s *servers) await(ctx context.Context) (*server, error) {
	if len(s.all) == 1 {
		return s.all[0], nil
	}
	s.begin()
	for {
		s.mu.Lock()
		changed := s.changed
		at, err := s.primary()
		s.mu.Unlock()
		if err != errUnlookedServers {
			return at, err
		}
		select {
		case <-changed:
		case <-ctx.Done():
			return nil, ctx.Err()
		case <-s.done:
			return nil, context.Canceled
		}
	}
}

var errUnlookedServers = errors.New("not all servers were looked at")

// primary is the primary by the last looks. The caller has the lock.
func (s *servers) primary() (*server, error) {
	var first *server
	var faults []string
	now := s.now()
	for _, one := range s.all {
		if one.at == (clocks.Moment{}) || now.Since(one.at) > mostAge {
			return nil, errUnlookedServers
		}
		switch {
		case one.fault != nil:
			faults = append(faults, fmt.Sprintf("address %d: %v", one.number, one.fault))
		case !one.role.primary:
			faults = append(faults, fmt.Sprintf("address %d: %v", one.number, errStandby))
		case first == nil:
			first = one
		case first.role == one.role: // One server may have two addresses.
		case first.role.system != one.role.system:
			return nil, fmt.Errorf("addresses %d and %d are primaries of two database clusters: name the servers of one", first.number, one.number)
		case first.role.line == one.role.line:
			return nil, fmt.Errorf("addresses %d and %d are both primaries: stop the wrong one", first.number, one.number)
		case first.role.line < one.role.line:
			first = one // It was promoted later.
		}
	}
	if first == nil {
		return nil, errors.New(strings.Join(faults, "; "))
	}
	return first, nil
}

// use says whether what a server answers counts.
func (s *servers) use(at *server) error {
	if len(s.all) == 1 {
		return nil
	}
	s.mu.Lock()
	defer s.mu.Unlock()
	first, err := s.primary()
	if err == nil && first != at && first.role != at.role {
		return errStale
	}
	return err
}

// begin looks at all servers from now on, until the end.
func (s *servers) begin() {
	s.mu.Lock()
	defer s.mu.Unlock()
	if s.begun {
		return
	}
	select {
	case <-s.done:
		return
	default:
	}
	s.begun = true
	for _, one := range s.all {
		s.tasks.Add(1)
		go s.watch(one)
	}
}

// watch looks at a server.
func (s *servers) watch(one *server) {
	defer s.tasks.Done()
	ctx, cancel := context.WithCancel(context.Background())
	defer cancel()
	s.tasks.Add(1)
	go func() {
		defer s.tasks.Done()
		<-s.done
		cancel()
	}()
	tick := time.NewTicker(lookEvery)
	defer tick.Stop()
	var c *conn
	defer func() {
		if c != nil {
			c.close()
		}
	}()
	for {
		c = s.lookAt(ctx, one, c)
		select {
		case <-tick.C:
		case <-s.done:
			return
		}
	}
}

// lookAt asks what a server is, by a connection if there is one, and returns that which is there then.
func (s *servers) lookAt(ctx context.Context, one *server, c *conn) *conn {
	ctx, cancel := context.WithTimeout(ctx, lookWait)
	defer cancel()
	var is role
	var err error
	begun := s.now()
	if c != nil && begun.Since(one.at) > mostAge { // It may have ended meanwhile, which says nothing of the server.
		c.close()
		c = nil
	}
	if c == nil {
		c, is, err = reach(ctx, one)
	} else if is, err = c.role(ctx); err != nil {
		c.close()
		c = nil
	}
	s.mu.Lock()
	defer s.mu.Unlock()
	one.role, one.fault, one.at = is, err, begun
	if now := s.now(); err != nil && now.Since(begun) <= mostAge {
		one.at = now // It answered nobody until now.
	}
	close(s.changed)
	s.changed = make(chan struct{})
	return c
}

// wait waits for those that look, which end once done is closed. None begins from here on.
func (s *servers) wait() {
	s.mu.Lock()
	s.begun = true
	s.mu.Unlock()
	s.tasks.Wait()
}
