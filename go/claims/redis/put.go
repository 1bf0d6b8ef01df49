package redis

import (
	"context"
	"errors"
	"fmt"
	"strconv"
	"sync"
	"time"

	"github.com/gomodule/redigo/redis"

	"svid.example/go/v3/claims"
	"svid.example/go/v3/svid"
)

// aheadOfStore is by how many seconds the store's time is known, at the least, before it is asked.
const aheadOfStore = 2

// errTooLong says that a token lives for too long.
var errTooLong = errors.New("the token lives for longer than the group's terms allow: give all members the same longest life of a token")

// errNoEntry says that an entry went.
var errNoEntry = errors.New("the entry that refused the claim has gone, or is empty")

// A part is the claims of a call that one server has.
type part struct {
	shards []*shard
	claims []int // their indexes
	of     []int // the shard of each, as an index of shards
}

// Put is part of claims.Store.
func (s *Store) Put(ctx context.Context, these []claims.Claim, found []claims.Found) {
	if len(these) == 0 {
		return
	}
	s.mu.Lock()
	shards := s.shards
	s.mu.Unlock()
	if shards == nil {
		fail(found, errors.New("the store is not open"))
		return
	}
	if err := s.locate(ctx); err != nil {
		fail(found, err)
		return
	}
	parts := s.split(these)
	var others sync.WaitGroup
	for i := 1; i < len(parts); i++ {
		others.Add(1)
		go func(p *part) { defer others.Done(); s.putPart(ctx, p, these, found) }(parts[i])
	}
	s.putPart(ctx, parts[0], these, found)
	others.Wait()
}

func fail(found []claims.Found, err error) {
	for i := range found {
		found[i] = claims.Found{Err: err}
	}
}

// shardOf is the number of a key's shard.
func (s *Store) shardOf(c *claims.Claim) int {
	if len(s.shards) == 1 {
		return 0
	}
	return int(c.Key[0] >> 4)
}

// split sorts claims by their servers.
func (s *Store) split(these []claims.Claim) (parts []*part) {
	s.mu.Lock()
	defer s.mu.Unlock()
	var by [shardCount]struct {
		p *part
		n int
	}
	for i := range these {
		number := s.shardOf(&these[i])
		b := &by[number]
		if b.p == nil {
			it := s.shards[number]
			for _, p := range parts {
				if p.shards[0].at == it.at {
					b.p = p
				}
			}
			if b.p == nil {
				b.p = &part{claims: make([]int, 0, len(these)), of: make([]int, 0, len(these))}
				parts = append(parts, b.p)
			}
			b.n = len(b.p.shards)
			b.p.shards = append(b.p.shards, it)
		}
		b.p.claims, b.p.of = append(b.p.claims, i), append(b.p.of, b.n)
	}
	return parts
}

// A sent is what a member knew of a shard when it sent claims.
type sent struct {
	record  record
	now     uint64     // the store's time, as far as it is known
	claimed []evidence // what it had put before
}

// putPart puts the claims of one server.
func (s *Store) putPart(ctx context.Context, p *part, these []claims.Claim, found []claims.Found) {
	set := func(err error) {
		for _, i := range p.claims {
			found[i] = claims.Found{Err: err}
		}
	}
	begun := s.now()
	c, err := s.take(ctx, p.shards)
	if err != nil {
		set(err)
		return
	}
	known := make([]sent, len(p.shards))
	s.mu.Lock()
	now := s.now()
	for i, it := range p.shards {
		known[i] = sent{it.record, it.clock.store + uint64(now.Since(it.clock.own)/time.Second), it.claimed}
	}
	s.mu.Unlock()
	again, err := s.putNew(ctx, c, p, known, these, found)
	if err == nil && len(again) > 0 {
		err = s.readOthers(ctx, c, p, again, known, these, found)
	}
	if err == nil {
		err = s.stays(ctx, c, begun)
	}
	if err != nil {
		set(err)
	}
	s.leave(c, err)
}

func (it *shard) key(c *claims.Claim) string { return it.prefix + string(c.Key[:]) }

// putNew puts claims, each where there is no entry. again has those of the part that found one.
func (s *Store) putNew(ctx context.Context, c *conn, p *part, known []sent, these []claims.Claim, found []claims.Found) (again []int, err error) {
	defer c.end()
	if err := c.begin(ctx); err != nil {
		return nil, err
	}
	asked := make([]int, 0, len(p.claims))
	for n, i := range p.claims {
		one, k := &these[i], &known[p.of[n]]
		if one.Expires > plus(plus(k.now, k.record.terms.Lasts), aheadOfStore) {
			found[i] = claims.Found{Err: errTooLong}
			continue
		}
		found[i] = claims.Found{}
		asked = append(asked, n)
		until := svid.StaysUntil(one.Expires, k.record.terms.Margin)
		if err := c.Send("SET", p.shards[p.of[n]].key(one), one.Owner[:], "NX", "EXAT", strconv.FormatUint(until, 10)); err != nil {
			return nil, err
		}
	}
	if len(asked) == 0 {
		return nil, nil
	}
	behind, err := s.sendBehind(ctx, c, p.shards)
	if err != nil {
		return nil, err
	}
	answers, err := c.answers(len(asked) + behind)
	if err != nil {
		return nil, err
	}
	at, err := s.behind(answers[len(asked):], p.shards, known, func(at uint64) { p.note(at, asked, answers, these, known, true) })
	if err != nil {
		return nil, err
	}
	var fault error
	for k, n := range asked {
		i := p.claims[n]
		switch answer := answers[k].(type) {
		case string: // OK
			s.answered(p.shards[p.of[n]], &these[i], &known[p.of[n]], these[i].Owner, at, &found[i])
		case nil:
			again = append(again, n)
		case redis.Error:
			found[i] = claims.Found{Err: fmt.Errorf("the server answered: %w", answer)}
			if isGone(found[i].Err) {
				fault = found[i].Err
			}
		default:
			return nil, errProtocol
		}
	}
	if fault != nil {
		s.lost()
	}
	return again, nil
}

// answered sets what was found of a claim.
func (s *Store) answered(it *shard, c *claims.Claim, known *sent, owner claims.Owner, at uint64, f *claims.Found) {
	if c.Expires > plus(at, known.record.terms.Lasts) {
		*f = claims.Found{Err: errTooLong}
		return
	}
	*f = claims.Found{Owner: owner, Time: at, Deaf: known.record.deaf}
}

// sendBehind writes what stands behind the entries of a call, and says how many answers that has.
func (s *Store) sendBehind(ctx context.Context, c *conn, shards []*shard) (int, error) {
	n := len(shards) + 2
	for _, it := range shards {
		if err := c.Send("GETRANGE", it.prefix+"epoch", "0", "31"); err != nil {
			return 0, err
		}
	}
	if err := c.Send("TIME"); err != nil {
		return 0, err
	}
	if err := c.Send("INFO", "replication"); err != nil {
		return 0, err
	}
	if s.replicas > 0 {
		n++
		wait := s.wait(ctx)
		if err := c.Send(wait.word, wait.args...); err != nil {
			return 0, err
		}
	}
	return n, nil
}

// behind reads that: the store's time. An error says that nothing of the call counts. Else note is called before anybody compares what the server has.
func (s *Store) behind(answers []any, shards []*shard, known []sent, note func(at uint64)) (at uint64, err error) {
	if err := firstFailure(answers); err != nil {
		return 0, err
	}
	at, _, err = timeOf(answers[len(shards)])
	if err != nil {
		return 0, err
	}
	who, err := replicationOf(answers[len(shards)+1])
	if err != nil {
		return 0, err
	}
	if !who.primary {
		err = errReplica
	}
	s.mu.Lock()
	defer s.mu.Unlock()
	for i, it := range shards {
		switch id := textOf(answers[i]); {
		case id != known[i].record.id || it.record.id != known[i].record.id:
			it.agreed, err = false, claims.ErrEpoch
		case who.run != known[i].record.run || who.run != it.record.run || err != nil: // (what a later run has was compared without this answer)
			it.agreed, err = false, errMeanwhile
		case plus(at, known[i].record.terms.Back) < it.latest:
			it.agreed, err = false, claims.ErrEpoch
		}
	}
	if err != nil {
		return 0, err
	}
	for _, it := range shards {
		it.tick(at)
	}
	if s.replicas > 0 {
		err = s.enough(answers[len(shards)+2])
	}
	if err == nil {
		note(at)
	}
	return at, err
}

// note remembers, in each shard, the claims whose answer says that the entry is this member's: each one that was found, since nobody knows which of them
// was put last, and the last one that the call has put. Then what was put before the call is forgotten. The claims with these indexes in the part have the
// answers, in the server's order. The caller has the lock.
func (p *part) note(at uint64, indexes []int, answers []any, these []claims.Claim, known []sent, isNew bool) {
	var own [shardCount][]evidence
	for k, n := range indexes {
		c, m := &these[p.claims[n]], p.of[n]
		until := svid.StaysUntil(c.Expires, known[m].record.terms.Margin)
		isOwn := answers[k] == "OK" || c.Owner != claims.Withdrawn && textOf(answers[k]) == string(c.Owner[:]) // (a withdrawal of before may end earlier)
		if isOwn && until > at+1 {
			own[m] = append(own[m], evidence{p.shards[m].key(c), c.Owner, until})
		}
	}
	for m, it := range p.shards {
		if isNew && len(own[m]) > 0 {
			own[m] = own[m][len(own[m])-1:]
		}
		for _, one := range own[m] {
			if !knows(it.claimed, one) {
				it.remember(one, known[m].claimed, isNew)
			}
		}
	}
}

// remember remembers an entry, and forgets those that were known before the call that put it. One that was found takes no room from others: in mode bound
// a call may find more than there is room for, which were put long ago.
func (it *shard) remember(one evidence, before []evidence, isNew bool) {
	var left []evidence // (who compares has the other slice)
	for _, other := range it.claimed {
		if !isNew || !knows(before, other) {
			left = append(left, other)
		}
	}
	if isNew {
		it.claimed = append(left, one)
	} else {
		it.claimed = append([]evidence{one}, left...)
	}
	if len(it.claimed) > mostKnown {
		it.claimed = it.claimed[1:]
	}
}

// readOthers reads the entries that refused claims, which have these places in the part.
func (s *Store) readOthers(ctx context.Context, c *conn, p *part, again []int, known []sent, these []claims.Claim, found []claims.Found) error {
	defer c.end()
	if err := c.begin(ctx); err != nil {
		return err
	}
	for _, n := range again {
		if err := c.Send("GETRANGE", p.shards[p.of[n]].key(&these[p.claims[n]]), "0", "31"); err != nil {
			return err
		}
	}
	count := len(again)
	if s.replicas > 0 { // (WAIT waits for what this connection has written last)
		it := p.shards[0]
		if err := c.Send("SET", it.lifeKey(s.life)+":wait", "1", "EX", lifeLasts); err != nil {
			return err
		}
		count++
	}
	behind, err := s.sendBehind(ctx, c, p.shards)
	if err != nil {
		return err
	}
	answers, err := c.answers(count + behind)
	if err != nil {
		return err
	}
	if err := firstFailure(answers[len(again):count]); err != nil {
		return err
	}
	at, err := s.behind(answers[count:], p.shards, known, func(at uint64) { p.note(at, again, answers, these, known, false) })
	if err != nil {
		return err
	}
	for k, n := range again {
		i := p.claims[n]
		switch answer := answers[k].(type) {
		case []byte:
			var owner claims.Owner
			copy(owner[:], answer)
			if len(answer) == 0 {
				found[i] = claims.Found{Err: errNoEntry}
				continue
			}
			s.answered(p.shards[p.of[n]], &these[i], &known[p.of[n]], owner, at, &found[i])
		case redis.Error:
			found[i] = claims.Found{Err: fmt.Errorf("the server answered: %w", answer)}
		default:
			return errProtocol
		}
	}
	return nil
}
