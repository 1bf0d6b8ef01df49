// Package postgres keeps the claims of a group in a table of PostgreSQL, version 15 or newer.
//
// Schema has the table, in a schema that has the group's name, and the functions that a member calls. A member needs no other right, so
// it can't change or remove what is there.
package postgres

import (
	"context"
	"database/sql/driver"
	"encoding/binary"
	"errors"
	"fmt"
	"strconv"
	"strings"
	"sync"
	"time"

	"svid.example/go/v3/claims"
	"svid.example/go/v3/internal/clocks"
)

const (
	mostCalls = 8                      // claims are on their way by so many connections at most
	mostLeft  = 100                    // sessions that are to be ended
	pause     = 100 * time.Millisecond // before Open tries again
)

// Options say which store a group has.
type Options struct {
	URLs     []string // of all servers, one of them the primary, or of the only one
	Name     string   // the group's: that of the schema
	Terms    claims.Terms
	Replicas int // more than 1 wants a server that waits for standbys: so many servers have each claim before it counts
}

// A Store keeps claims in PostgreSQL.
type Store struct {
	options             Options
	putOne, putAll, ask string
	servers             *servers
	turn                chan struct{} // who looks at the store has it
	calls               chan struct{} // one for each claim's call

	mu     sync.Mutex
	closed bool
	done   chan struct{}
	open   map[*conn]bool
	idle   []*conn
	left   []string // sessions that may do yet what was given up
	epoch  string   // the one that this member knows; "" where it knows none
	unfit  error    // why nothing is accepted
	marks  marks
}

var _ claims.Store = (*Store)(nil)

var (
	errMissing  = errors.New("there is no store in the database")
	errNotOpen  = errors.New("the store is not open")
	errStandby  = errors.New("the server is a standby")
	errAnswer   = errors.New("the server's answer is none of this store")
	errGone     = errors.New("the entry was just removed")
	errTooLate  = errors.New("the token expires too late by the store's clock, and nothing was stored")
	errRun      = errors.New("the server was restarted, and members check whether it lacks claims")
	errBack     = errors.New("the store's clock went back")
	errUnlooked = errors.New("nobody has looked at the store for a while, or its clock went ahead")
	errAlone    = errors.New("not as many servers have the claim as are to have it")
	errStale    = errors.New("another server has become the primary")
	errHeld     = errors.New("somebody else claims the token at the moment, and has not committed that")
)

// errStatus are what answers say that don't count.
var errStatus = map[byte]error{1: errRun, 2: errBack, 3: errUnlooked, inQuarantine: errRun}

const inQuarantine = 4

// heldTooLong is the code of the error where put has waited for its lock_timeout.
const heldTooLong = "55P03"

// New returns a store that is not connected yet. An error has no part of an address that may be secret.
func New(o Options) (*Store, error) {
	if !claims.ValidName(o.Name) || strings.HasPrefix(o.Name, "pg_") || len(o.Name) > 63 {
		return nil, fmt.Errorf("the name %q is not letters, digits, - and _ alone, has more than 63 of them, or begins with pg_", o.Name)
	}
	if o.Terms.Lasts > most || o.Terms.Margin > most || o.Terms.Back > o.Terms.Margin {
		return nil, fmt.Errorf("the times must be at most %d s, and the step back at most the margin", uint64(most))
	}
	if len(o.URLs) == 0 {
		return nil, errors.New("no server is named")
	}
	for i, text := range o.URLs {
		if err := check(text); err != nil {
			return nil, fmt.Errorf("address %d: %w", i+1, err)
		}
	}
	schema := quoted(o.Name)
	s := &Store{
		options: o,
		putOne:  "SELECT " + schema + ".put($1::bytea, $2::bytea, $3::bigint)",
		putAll:  "SELECT " + schema + ".put($1::bytea[], $2::bytea[], $3::bigint[])",
		ask: `SELECT s.format, s.id::text, s.deaf, s.at, s.wait, s.lasts, s.margin, s.back, s.due, current_setting('fsync'), current_setting('full_page_writes'),
			current_setting('synchronous_commit'), current_setting('synchronous_standby_names'), s.owner::text, s.sees
			FROM ` + schema + `.state($1::uuid, $2::bytea[], $3::bytea[], $4::bigint[], $5::boolean) AS s`,
		turn:  make(chan struct{}, 1),
		calls: make(chan struct{}, mostCalls),
		done:  make(chan struct{}),
		open:  make(map[*conn]bool),
	}
	s.servers = newServers(o.URLs, s.done)
	return s, nil
}

// take takes a connection to the primary.
func (s *Store) take(ctx context.Context) (*conn, error) {
	s.mu.Lock()
	for n := len(s.idle); n > 0; n = len(s.idle) {
		c := s.idle[n-1]
		s.idle = s.idle[:n-1]
		if s.servers.use(c.at) == nil {
			s.mu.Unlock()
			return c, nil
		}
		s.forget(c)
	}
	s.mu.Unlock()
	c, err := s.servers.connect(ctx)
	if err != nil {
		return nil, err
	}
	s.mu.Lock()
	defer s.mu.Unlock()
	if s.closed {
		c.close()
		return nil, context.Canceled
	}
	s.open[c] = true
	return c, nil
}

// give gives a connection back. After an error it ends, with all that wait: what has happened to one has happened to them.
func (s *Store) give(c *conn, err error) {
	s.mu.Lock()
	defer s.mu.Unlock()
	if err == nil && len(s.idle) <= mostCalls && !s.closed {
		s.idle = append(s.idle, c)
		return
	}
	s.forget(c)
	if err != nil && code(err) == "" && len(s.left) < mostLeft {
		s.left = append(s.left, c.session)
	}
	if err != nil {
		for _, c := range s.idle {
			s.forget(c)
		}
		s.idle = nil
	}
}

// forget ends a connection. The caller has the lock.
func (s *Store) forget(c *conn) {
	c.close()
	delete(s.open, c)
}

// call calls a function of the store.
func (s *Store) call(ctx context.Context, text string, values ...driver.Value) ([][]driver.Value, error) {
	return s.callThen(ctx, func(context.Context, *conn) error { return nil }, text, values...)
}

// confirm asks whether the standbys have what was committed on this connection by a call that began at a time, where a claim is to have some. Where the
// call took long, it asks whether the server is still there: a member that was away would see later that it is not.
func (s *Store) confirm(ctx context.Context, c *conn, begun clocks.Moment) (err error) {
	if s.options.Replicas > 1 {
		var rows [][]driver.Value
		rows, err = c.call(ctx, "SELECT "+quoted(s.options.Name)+".kept($1::integer)", int64(s.options.Replicas))
		if err == nil && (len(rows) != 1 || rows[0][0] != true) {
			err = errAlone
		}
	}
	if err == nil && s.servers.now().Since(begun) > quarantine/3 {
		_, err = c.role(ctx)
	}
	return err
}

// callThen is call where something more is to go well on the same connection.
func (s *Store) callThen(ctx context.Context, then func(context.Context, *conn) error, text string, values ...driver.Value) ([][]driver.Value, error) {
	c, err := s.take(ctx)
	if err != nil {
		return nil, err
	}
	rows, err := c.call(ctx, text, values...)
	if code(err) == heldTooLong {
		s.give(c, nil) // Nothing has happened to it.
		return nil, errHeld
	}
	if err == nil {
		err = then(ctx, c)
	}
	s.give(c, err)
	if err == nil {
		err = s.servers.use(c.at)
	}
	if err != nil && ctx.Err() != nil {
		return nil, ctx.Err()
	}
	return rows, s.fault(err)
}

// fault says what an error of the server means.
func (s *Store) fault(err error) error {
	switch code(err) {
	case "42P01", "3F000", "42883": // no table, no schema, no function
		return errMissing
	case "25006", "55000": // It only reads, or it recovers.
		return errStandby
	case "42501":
		return claims.Unfitf("this user may not use the store of the group (%v): an administrator gives it the rights that svidd schema --role prints%s",
			err, s.grants())
	}
	return err
}

// lacking says which rights a member lacks, as SQL that gives them.
const lacking = `WITH the AS (SELECT n.oid, n.nspname FROM pg_namespace AS n WHERE n.nspname = $1), missing (it) AS (
	SELECT format('USAGE ON SCHEMA %I', the.nspname) FROM the WHERE NOT has_schema_privilege(the.oid, 'USAGE')
	UNION ALL SELECT format('EXECUTE ON FUNCTION %s', p.oid::regprocedure) FROM the JOIN pg_proc AS p ON p.pronamespace = the.oid
		WHERE p.proname IN ('put', 'kept', 'withdraw', 'withdrawals', 'state', 'expire', 'agree') AND NOT has_function_privilege(p.oid, 'EXECUTE'))
	SELECT string_agg(format('GRANT %s TO %I', it, current_user), '; ' ORDER BY it) FROM missing`

// grants says which grants are missing, in front of them ": "; "" where that is unknown.
func (s *Store) grants() string {
	ctx, cancel := context.WithTimeout(context.Background(), dialWait)
	defer cancel()
	c, err := s.take(ctx)
	if err != nil {
		return ""
	}
	rows, err := c.query(ctx, lacking, s.options.Name)
	s.give(c, err)
	if err != nil || len(rows) != 1 || rows[0][0] == nil {
		return ""
	}
	return ": " + text(rows[0][0])
}

// Close ends all connections.
func (s *Store) Close() error {
	s.mu.Lock()
	if !s.closed {
		s.closed = true
		close(s.done)
		for c := range s.open {
			c.close()
		}
	}
	s.mu.Unlock()
	s.servers.wait()
	return nil
}

// Open is part of claims.Store.
func (s *Store) Open(ctx context.Context) (claims.State, error) {
	for {
		state, wait, err := s.agree(ctx)
		var unfit *claims.Unfit
		if err == nil && wait == 0 || errors.As(err, &unfit) {
			return state, err
		}
		if err != nil {
			wait = pause
		}
		timer := time.NewTimer(wait)
		select {
		case <-timer.C:
		case <-ctx.Done():
			timer.Stop()
			if err == nil {
				err = errRun
			}
			return claims.State{}, fmt.Errorf("%w: %v", ctx.Err(), err)
		case <-s.done:
			timer.Stop()
			return claims.State{}, context.Canceled
		}
	}
}

// agree looks at the store, and agrees on the terms.
func (s *Store) agree(ctx context.Context) (claims.State, time.Duration, error) {
	at, err := s.look(ctx)
	if err != nil {
		return claims.State{}, 0, err
	}
	mine := s.options.Terms
	if mine.Margin > at.terms.Margin {
		return claims.State{}, 0, claims.Unfitf("the group's store keeps a claim for %d s past its token's expiry, and this member needs %d s: give all members the same "+
			"--ahead; once none runs, DROP SCHEMA %s CASCADE lets the next one make the store with its own", at.terms.Margin, mine.Margin, quoted(s.options.Name))
	}
	if mine.Margin-mine.Back > at.terms.Margin-at.terms.Back {
		return claims.State{}, 0, claims.Unfitf("the group's store bears a step back of its clock by %d s of a margin of %d s, which leaves less than the %d s that this member "+
			"needs: give all members the same times", at.terms.Back, at.terms.Margin, mine.Margin-mine.Back)
	}
	if mine.Lasts > at.terms.Lasts {
		if _, err := s.call(ctx, "SELECT "+quoted(s.options.Name)+".agree($1::bigint)", int64(mine.Lasts)); err != nil {
			return claims.State{}, 0, err
		}
	}
	return at.state, at.wait, nil
}

// State is part of claims.Store.
func (s *Store) State(ctx context.Context) (claims.State, error) {
	at, err := s.look(ctx)
	return at.state, err
}

// A sight is what a look at the store saw.
type sight struct {
	state claims.State
	terms claims.Terms
	wait  time.Duration // until claims are answered
}

// look looks at the store, makes it where there is none, and removes what is over, one goroutine at a time.
func (s *Store) look(ctx context.Context) (at sight, err error) {
	select {
	case s.turn <- struct{}{}:
		defer func() { <-s.turn }()
	case <-ctx.Done():
		return at, ctx.Err()
	case <-s.done:
		return at, context.Canceled
	}
	if err := s.endLeft(ctx); err != nil {
		return at, err
	}
	at, due, err := s.see(ctx)
	if err == errMissing {
		if err = s.make(ctx); err == nil {
			at, due, err = s.see(ctx)
		}
	}
	for end := halfway(ctx); due && err == nil && time.Now().Before(end); {
		due, err = s.expire(ctx)
	}
	return at, err
}

// halfway is when half of the time of a call is over, or a second. What is not removed by then goes with the next look: this one has an answer
// to give.
func halfway(ctx context.Context) time.Time {
	most := time.Second
	if end, ok := ctx.Deadline(); ok && time.Until(end)/2 < most {
		most = time.Until(end) / 2
	}
	return time.Now().Add(most)
}

// endLeft ends what was given up: a call that waits for a standby does so for ever, and the server has no end of processes.
func (s *Store) endLeft(ctx context.Context) error {
	s.mu.Lock()
	left := s.left
	s.left = nil
	s.mu.Unlock()
	if left == nil {
		return nil
	}
	_, err := s.call(ctx, terminate, strings.Join(left, ","))
	if err != nil {
		s.mu.Lock()
		s.left = append(left, s.left...)
		s.mu.Unlock()
	}
	return err
}

// see asks what the store is, and keeps what of that matters to a claim.
func (s *Store) see(ctx context.Context) (at sight, due bool, err error) {
	s.mu.Lock()
	var known driver.Value
	if s.epoch != "" {
		known = s.epoch
	}
	keys, owners, ends := arrays(s.marks.all)
	s.mu.Unlock()
	rows, err := s.call(ctx, s.ask, known, keys, owners, ends, strconv.FormatBool(s.options.Replicas <= 1))
	if err != nil {
		return at, false, err
	}
	if len(rows) != 1 {
		return at, false, errAnswer
	}
	row := rows[0]
	if row[0] != int64(1) {
		return at, false, s.refuse(claims.Unfitf("the group's store has format %v and not 1: another version of svid made it", row[0]))
	}
	at.state = claims.State{Epoch: text(row[1]), Deaf: number(row[2]), Time: number(row[3])}
	at.wait = time.Duration(number(row[4])) * time.Millisecond
	at.terms = claims.Terms{Lasts: number(row[5]), Margin: number(row[6]), Back: number(row[7])}
	if err := s.refuse(unfit(text(row[9]), text(row[10]), text(row[11]), text(row[12]), s.options.Replicas)); err != nil {
		return at, false, err
	}
	if s.options.Replicas > 1 && row[14] != true {
		owner := strings.ReplaceAll(text(row[13]), `"`, `""`)
		return at, false, s.refuse(claims.Unfitf("the owner of the group's store may not see which standbys have a claim: GRANT pg_read_all_stats TO \"%s\"", owner))
	}
	s.mu.Lock()
	defer s.mu.Unlock()
	if s.epoch != at.state.Epoch {
		s.epoch, s.marks = at.state.Epoch, marks{}
	}
	s.marks.drop(at.state.Time, at.terms.Margin)
	return at, row[8] == true, nil
}

// refuse lets nothing be accepted, where err says why, until it says nothing more.
func (s *Store) refuse(err error) error {
	s.mu.Lock()
	defer s.mu.Unlock()
	s.unfit = err
	return err
}

// unfit says what settings of a server let it lose claims.
func unfit(fsync, fullPageWrites, commit, names string, replicas int) error {
	var wrong []string
	if fsync != "on" {
		wrong = append(wrong, "fsync is "+fsync+" and must be on")
	}
	if fullPageWrites != "on" {
		wrong = append(wrong, "full_page_writes is "+fullPageWrites+" and must be on")
	}
	if commit != "on" && commit != "remote_apply" {
		wrong = append(wrong, "synchronous_commit is "+commit+" and must be on")
	}
	if replicas > 1 && standbys(names) < replicas-1 {
		wrong = append(wrong, fmt.Sprintf("synchronous_standby_names is %q and must wait for %d: such as 'FIRST %[2]d (*)'", names, replicas-1))
	}
	if wrong == nil {
		return nil
	}
	return claims.Unfitf("the server of the group's store may lose claims: %s", strings.Join(wrong, ", "))
}

// standbys is for how many standbys a server waits by its setting synchronous_standby_names.
func standbys(names string) int {
	names = strings.TrimSpace(names)
	if names == "" {
		return 0
	}
	before, _, listed := strings.Cut(names, "(")
	if !listed {
		return 1 // a list of names: the first one that is there
	}
	words := strings.Fields(before)
	if len(words) == 0 || strings.Contains(before, `"`) {
		return 1
	}
	n, err := strconv.Atoi(words[len(words)-1])
	if err != nil || n < 1 {
		return 1
	}
	return n
}

// make makes the store. Members that start together do so one after the other.
func (s *Store) make(ctx context.Context) error {
	c, err := s.take(ctx)
	if err != nil {
		return err
	}
	err = s.makeBy(ctx, c)
	s.give(c, err)
	if code(err) == "42501" {
		return claims.Unfitf("the group has no store yet, and this user may not make it (%v): an administrator makes it by what svidd schema prints, "+
			"or GRANTs this user CREATE ON DATABASE", err)
	}
	if code(err) == "42P07" || code(err) == "42723" {
		return claims.Unfitf("the schema %s has a part of a store (%v): DROP SCHEMA %[1]s CASCADE, and make it again", quoted(s.options.Name), err)
	}
	return err
}

func (s *Store) makeBy(ctx context.Context, c *conn) error {
	if _, err := c.query(ctx, "BEGIN"); err != nil {
		return err
	}
	if _, err := c.query(ctx, "SELECT pg_advisory_xact_lock(hashtext('svid ' || $1))", s.options.Name); err != nil {
		return err
	}
	rows, err := c.query(ctx, "SELECT to_regprocedure($1) IS NULL", quoted(s.options.Name)+".state(uuid,bytea[],bytea[],bigint[],boolean)")
	if err != nil {
		return err
	}
	if rows[0][0] == true {
		if _, err := c.query(ctx, Schema(s.options.Name, s.options.Terms, "")); err != nil {
			return err
		}
	}
	_, err = c.query(ctx, "COMMIT")
	return err
}

// expire removes what is over, and says whether more may be.
func (s *Store) expire(ctx context.Context) (more bool, err error) {
	rows, err := s.call(ctx, "SELECT "+quoted(s.options.Name)+".expire()")
	if err != nil || len(rows) != 1 {
		return false, err
	}
	return rows[0][0] == int64(pieces), nil
}

// Put is part of claims.Store.
func (s *Store) Put(ctx context.Context, these []claims.Claim, found []claims.Found) {
	if len(these) == 0 {
		return
	}
	a, err := s.put(ctx, these)
	if err == errHeld && len(these) > 1 { // It may be one of them alone, which is to hold up no other.
		half, done := len(these)/2, make(chan struct{})
		go func() { defer close(done); s.Put(ctx, these[:half], found[:half]) }()
		s.Put(ctx, these[half:], found[half:])
		<-done
		return
	}
	if err != nil {
		for i := range found {
			found[i] = claims.Found{Err: err}
		}
		return
	}
	var stored *claims.Claim // the one that stays for longest
	var earlier []claims.Claim
	for i := range these {
		found[i] = claims.Found{Owner: these[i].Owner, Time: a.time, Deaf: a.deaf}
		if len(a.rest) > 0 {
			found[i].Owner, found[i].Err = cell(a.rest[i*cellLen : (i+1)*cellLen])
		}
		if found[i].Err != nil || found[i].Owner != these[i].Owner {
			continue
		}
		if !a.stored(i) {
			earlier = append(earlier, these[i])
		} else if stored == nil || stored.Expires < these[i].Expires {
			stored = &these[i]
		}
	}
	s.keep(stored, earlier, a.epoch)
}

// cell reads what put answers for one claim.
func cell(bytes []byte) (owner claims.Owner, err error) {
	switch bytes[0] {
	case 1, cellStored:
		copy(owner[:], bytes[1:])
		return owner, nil
	case 2:
		return owner, errTooLate
	}
	return owner, errGone
}

// keep keeps in mind which claims are there: one that a call stored, or none, and those that were there earlier.
func (s *Store) keep(stored *claims.Claim, earlier []claims.Claim, epoch string) {
	s.mu.Lock()
	defer s.mu.Unlock()
	if s.epoch != epoch {
		return
	}
	for _, one := range earlier {
		s.marks.found(one)
	}
	if stored != nil {
		s.marks.add(*stored)
	}
}

// put calls the function, and returns an answer that counts.
func (s *Store) put(ctx context.Context, these []claims.Claim) (a answer, err error) {
	if len(these) == 1 {
		one := &these[0]
		return s.decide(ctx, 1, s.putOne, one.Key[:], one.Owner[:], time64(one.Expires))
	}
	keys, owners, ends := arrays(these)
	return s.decide(ctx, len(these), s.putAll, keys, owners, ends)
}

// decide calls a function that answers as put does for n claims. Where the answer does not count, it looks at the store, so that the
// next one may.
func (s *Store) decide(ctx context.Context, n int, text string, values ...driver.Value) (a answer, err error) {
	s.mu.Lock()
	epoch, err := s.epoch, s.unfit
	s.mu.Unlock()
	if epoch == "" && err == nil {
		err = errNotOpen
	}
	if err != nil {
		return a, err
	}
	select {
	case s.calls <- struct{}{}:
	case <-ctx.Done():
		return a, ctx.Err()
	}
	begun := s.servers.now()
	rows, err := s.callThen(ctx, func(ctx context.Context, c *conn) error { return s.confirm(ctx, c, begun) }, text, values...)
	<-s.calls
	if err == errMissing || err == errAlone {
		if _, err := s.look(ctx); err != nil {
			return a, err
		}
	}
	if err != nil {
		return a, err
	}
	a, ok := answered(rows)
	if !ok || len(a.rest) > 0 && len(a.rest) != n*cellLen {
		return a, errAnswer
	}
	if a.status == counts && a.epoch == epoch {
		return a, nil
	}
	if a.status != inQuarantine || a.epoch != epoch {
		if _, err := s.look(ctx); err != nil {
			return a, err
		}
	}
	if a.status == counts {
		return a, claims.ErrEpoch
	}
	if err := errStatus[a.status]; err != nil {
		return a, err
	}
	return a, errAnswer
}

// Withdraw is part of claims.Store.
func (s *Store) Withdraw(ctx context.Context, w claims.Withdrawal) (owner claims.Owner, err error) {
	a, err := s.decide(ctx, 1, "SELECT "+quoted(s.options.Name)+".withdraw($1::bytea, $2::bigint)", w.Key[:], time64(w.Expires))
	if err != nil {
		return owner, err
	}
	if len(a.rest) > 0 {
		return cell(a.rest) // (a withdrawal that was there may end earlier than this one, so it is no mark)
	}
	s.keep(&claims.Claim{Key: w.Key, Owner: claims.Withdrawn, Expires: w.Expires}, nil, a.epoch)
	return claims.Withdrawn, nil
}

// Withdrawals is part of claims.Store.
func (s *Store) Withdrawals(ctx context.Context, after string) (these []claims.Withdrawal, last string, err error) {
	epoch, position, ok := parsePosition(after)
	var known driver.Value
	if ok {
		known = epoch
	}
	rows, err := s.call(ctx, "SELECT w.this::text, w.last, w.these FROM "+quoted(s.options.Name)+".withdrawals($1::uuid, $2::bigint) AS w", known, position)
	if err != nil {
		return nil, after, err
	}
	if len(rows) != 1 || len(rows[0]) != 3 {
		return nil, after, errAnswer
	}
	bytes, _ := rows[0][2].([]byte)
	if len(bytes)%40 != 0 {
		return nil, after, errAnswer
	}
	these = make([]claims.Withdrawal, len(bytes)/40)
	for i := range these {
		copy(these[i].Key[:], bytes[40*i:])
		these[i].Expires = binary.BigEndian.Uint64(bytes[40*i+32:])
	}
	return these, text(rows[0][0]) + "/" + strconv.FormatUint(number(rows[0][1]), 10), nil
}

// parsePosition reads a position: an epoch, and a number in it.
func parsePosition(text string) (epoch string, position int64, ok bool) {
	epoch, digits, ok := strings.Cut(text, "/")
	if !ok || len(epoch) != 36 {
		return "", 0, false
	}
	for i, c := range []byte(epoch) {
		isDash := i == 8 || i == 13 || i == 18 || i == 23
		if isDash != (c == '-') || !isDash && !(c >= '0' && c <= '9' || c >= 'a' && c <= 'f') {
			return "", 0, false
		}
	}
	position, err := strconv.ParseInt(digits, 10, 64)
	return epoch, position, err == nil && position >= 0
}
