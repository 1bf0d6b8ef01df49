package redis

import (
	"context"
	"errors"
	"fmt"
	"strconv"
	"strings"
	"time"

	"github.com/gomodule/redigo/redis"

	"svid.example/go/v3/claims"
	"svid.example/go/v3/internal/clocks"
	"svid.example/go/v3/svid"
)

// errCompares: members compare what they know with what a server has, or the group's store was just made.
var errCompares = errors.New("the group's members look whether the server has lost claims")

// errMeanwhile: the server's run, or its role, changed while a call was on its way.
var errMeanwhile = errors.New("the server came up again, or another one took over, while the claim was on its way")

// A view is what a server has of a shard at one moment.
type view struct {
	raw          string     // the record
	seen         string     // the greatest time that a member has written, and in which epoch
	life         string     // this member's number
	asked        []evidence // what this member had put, when it asked
	claimed      []any      // the owner that each of these entries has
	doubts       uint64     // of the shard, when it asked
	time, millis uint64
	who          replication
}

// agree compares the shards of a connection's server with what this member knows, and writes what is due: an epoch where there is
// none, the next one where something was lost, or the server's new run. It is nil once claims may be put.
func (s *Store) agree(ctx context.Context, c *conn, shards []*shard) error {
	unlock, err := lock(ctx, shards)
	if err != nil {
		return err
	}
	defer unlock()
	return s.compare(ctx, c, shards)
}

// compare is agree for who has the lock.
func (s *Store) compare(ctx context.Context, c *conn, shards []*shard) error {
	const mostWrites = 20 // others write too
	for n := 0; n < mostWrites; n++ {
		views, err := s.look(ctx, c, shards)
		if err != nil {
			return err
		}
		if !views[0].who.primary {
			return errReplica
		}
		if err := s.check(ctx, c, views[0].who.run, isKnown(views[0])); err != nil {
			s.disagree(shards)
			return err
		}
		again := false
		var wait error
		for i, it := range shards {
			next, err := s.due(it, views[i], c.node)
			if errors.Is(err, errCompares) {
				wait = err
				continue
			}
			if err != nil {
				return err
			}
			if next == nil {
				again = !s.adopt(it, views[i]) || again
				continue
			}
			if err := s.swap(ctx, c, it, views[i].raw, next.text()); err != nil {
				return err
			}
			again = true
		}
		if !again {
			return wait
		}
	}
	return errors.New("other members write the epoch's record all the time")
}

// disagree lets no claim be put until the server was compared.
func (s *Store) disagree(shards []*shard) {
	s.mu.Lock()
	defer s.mu.Unlock()
	for _, it := range shards {
		it.agreed = false
	}
}

// isKnown says whether a record names the server's run: then a member has seen that it keeps what it answers.
func isKnown(v view) bool {
	r, ok := readRecord(v.raw)
	return ok && r.run == v.who.run
}

// look reads what a server has.
func (s *Store) look(ctx context.Context, c *conn, shards []*shard) ([]view, error) {
	var commands []command
	views := make([]view, len(shards))
	s.mu.Lock()
	for i, it := range shards {
		views[i].asked, views[i].doubts = it.claimed, it.doubts
		commands = append(commands, cmd("GETRANGE", it.prefix+"epoch", 0, mostRecord), cmd("GETRANGE", it.prefix+"seen", 0, 63),
			cmd("GETRANGE", it.lifeKey(s.life), 0, 31))
		for _, one := range it.claimed {
			commands = append(commands, cmd("GETRANGE", one.key, 0, 31))
		}
	}
	s.mu.Unlock()
	answers, err := c.do(ctx, append(commands, cmd("TIME"), cmd("INFO", "replication"))...)
	if err == nil {
		err = firstFailure(answers)
	}
	if err != nil {
		return nil, err
	}
	last := answers[len(answers)-2:]
	seconds, millis, err := timeOf(last[0])
	if err != nil {
		return nil, err
	}
	who, err := replicationOf(last[1])
	if err != nil {
		return nil, err
	}
	for i := range views {
		v := &views[i]
		v.raw, v.seen, v.life, v.time, v.millis, v.who = textOf(answers[0]), textOf(answers[1]), textOf(answers[2]), seconds, millis, who
		v.claimed, answers = answers[3:3+len(v.asked)], answers[3+len(v.asked):]
	}
	return views, nil
}

func (it *shard) lifeKey(life string) string { return it.prefix + "life:" + life }

// due is the record that must be written; nil where all is well. errCompares says that it is to be waited for.
func (s *Store) due(it *shard, v view, node string) (*record, error) {
	s.mu.Lock()
	defer s.mu.Unlock()
	known, time := it.record, maximum(it.latest, v.time)
	if v.raw == "" && known.id == "" {
		return s.first(v, node)
	}
	if v.raw == "" { // All was lost.
		return s.end(known, time, v, node)
	}
	r, ok := readRecord(v.raw)
	if !ok {
		return nil, claims.Unfitf("the key %sepoch is not the record of a claim store of this version of svid: give the group another name, or remove the key "+
			"once all members are stopped, and start none until tokens of today are over", it.prefix)
	}
	if known.id != "" && known.id != r.id && (!r.follows(known.id) || r.deaf < svid.DeafAfter(it.latest, known.terms.Lasts, known.deaf)) {
		// It is another history, or who ended the epoch that this member knows did not know of all that it has answered.
		r.terms = claims.Terms{Lasts: maximum(r.terms.Lasts, known.terms.Lasts), Margin: maximum(r.terms.Margin, known.terms.Margin), Back: maximum(r.terms.Back, known.terms.Back)}
		r.deaf = maximum(r.deaf, known.deaf)
		return s.end(r, time, v, node, known.id)
	}
	if is, want := r.terms, s.options.Terms; is.Margin < want.Margin || is.Back < want.Back || is.Margin < plus(is.Back, want.Margin-want.Back) {
		return nil, claims.Unfitf("the group's store keeps claims for %d s past their expiry, and allows its clock %d s back; this member needs %d s and %d s: give "+
			"all members the same clock tolerance, or give the group another name", r.terms.Margin, r.terms.Back, s.options.Terms.Margin, s.options.Terms.Back)
	}
	if greatest := seenIn(r, v.seen, it); v.time+r.terms.Back < greatest {
		return s.end(r, greatest+seenSlack, v, node)
	}
	moved := r.node != node && v.who.before != r.run // (else a replica of the same primary took over)
	if known.id == r.id && s.lacks(it, v) || moved || r.run != v.who.run && v.who.before != "" && s.replicas == 0 {
		return s.end(r, maximum(time, seenIn(r, v.seen, it)), v, node)
	}
	switch {
	case r.run != v.who.run && r.next != v.who.run:
		next := r
		next.next, next.until = v.who.run, s.waits(v)
		return &next, nil
	case r.run != v.who.run && v.millis < r.until:
		return nil, errCompares
	case r.run != v.who.run:
		next := r
		next.run, next.node, next.next, next.until = v.who.run, node, "", 0
		return &next, nil
	case r.terms.Lasts < s.options.Terms.Lasts:
		next := r
		next.terms.Lasts = s.options.Terms.Lasts
		return &next, nil
	case known.id != r.id && v.millis < r.settle:
		return nil, errCompares
	}
	return nil, nil
}

// end is the record of the epoch behind one that ends. Nobody puts anything into it before members have had the time to see it: each
// looks whether it covers what that one has answered.
func (s *Store) end(r record, at uint64, v view, node string, others ...string) (*record, error) {
	next, err := r.successor(at, v.time, v.who, node, others...)
	next.settle = s.waits(v)
	return &next, err
}

// waits is until when members compare, in milliseconds.
func (s *Store) waits(v view) uint64 { return v.millis + uint64(s.options.Wait/time.Millisecond) }

// first is the record of a store that is not there.
func (s *Store) first(v view, node string) (*record, error) {
	id, err := newID()
	if err != nil {
		return nil, err
	}
	return &record{id: id, began: v.time, terms: s.options.Terms, run: v.who.run, node: node, settle: s.waits(v),
		list: 1, since: v.time}, nil
}

// seenIn is the greatest time that is known to have been in a record's epoch.
func seenIn(r record, seen string, it *shard) uint64 {
	at := r.began
	if id, text, _ := strings.Cut(seen, " "); id == r.id {
		if n, err := strconv.ParseUint(text, 10, 53); err == nil {
			at = maximum(at, n)
		}
	}
	if it.record.id == r.id {
		at = maximum(at, it.latest)
	}
	return at
}

// lacks says whether the server lacks what this member knows to have been there.
func (s *Store) lacks(it *shard, v view) bool {
	if it.life > 0 && v.time+lifeSlack < it.lifeAt+lifeLasts {
		if n, err := strconv.ParseUint(v.life, 10, 64); err != nil || n < it.life {
			return true
		}
	}
	for n, one := range v.asked {
		if v.time+1 < one.until && textOf(v.claimed[n]) != string(one.owner[:]) {
			return true
		}
	}
	return false
}

func maximum(a, b uint64) uint64 {
	if a > b {
		return a
	}
	return b
}

// adopt takes a record that was read. It does not where an answer of an earlier run came after the look had begun: nobody has compared what that put.
func (s *Store) adopt(it *shard, v view) bool {
	r, _ := readRecord(v.raw) // (which due has read)
	s.mu.Lock()
	defer s.mu.Unlock()
	for _, one := range it.claimed {
		if r.id == it.record.id && r.run != it.record.run && !knows(v.asked, one) {
			return false
		}
	}
	if r.id != it.record.id {
		it.latest, it.life, it.lifeAt, it.claimed = v.time, 0, 0, nil // (that epoch's end counts with all that was lost)
	}
	it.record, it.raw, it.agreed = r, v.raw, v.doubts == it.doubts
	it.tick(v.time)
	return true
}

// tick notes the store's time.
func (it *shard) tick(seconds uint64) {
	it.latest = maximum(it.latest, seconds)
	it.clock = clock{seconds, clocks.Now()}
}

// swap writes a record in the place of one that was read, if nobody else has written meanwhile.
func (s *Store) swap(ctx context.Context, c *conn, it *shard, from, to string) error {
	key := it.prefix + "epoch"
	answers, err := c.do(ctx, cmd("WATCH", key), cmd("GETRANGE", key, 0, mostRecord))
	if err == nil {
		err = firstFailure(answers)
	}
	if err != nil {
		return err
	}
	if textOf(answers[1]) != from {
		_, err := c.do(ctx, cmd("UNWATCH"))
		return err
	}
	commands := []command{cmd("MULTI"), cmd("SET", key, to), cmd("EXEC")}
	if s.replicas > 0 {
		commands = append(commands, s.wait(ctx))
	}
	if answers, err = c.do(ctx, commands...); err == nil {
		err = firstFailure(answers)
	}
	if err == nil && s.replicas > 0 {
		err = s.enough(answers[len(answers)-1])
	}
	return err
}

// wait is the command by which replicas have what was written before.
func (s *Store) wait(ctx context.Context) command {
	most := int64(1000)
	if end, ok := ctx.Deadline(); ok {
		if left := time.Until(end).Milliseconds() / 2; left < most { // (the server looks at it ten times a second)
			most = left
		}
	}
	if most < 1 {
		most = 1
	}
	return cmd("WAIT", s.replicas, most)
}

// enough is nil for an answer to wait by which enough replicas have it.
func (s *Store) enough(answer any) error {
	if n, is := answer.(int64); !is || n < int64(s.replicas) {
		return fmt.Errorf("%v replicas have it, and %d must: start those that are missing, and see that they reach their primary", answer, s.replicas)
	}
	return nil
}

// beat compares, and counts this member's number up at the server, so that it sees later what was lost after that.
func (s *Store) beat(ctx context.Context, shards []*shard) error {
	c, err := s.connection(ctx, shards[0])
	if err != nil {
		return err
	}
	err = s.agree(ctx, c, shards)
	for look := pauses(); errors.Is(err, errCompares) && look(ctx); {
		err = s.agree(ctx, c, shards)
	}
	if err == nil {
		err = s.count(ctx, c, shards)
	}
	s.leave(c, err)
	return err
}

// count counts up, and does what is due to lists. (Numbers must reach the server in their order.)
func (s *Store) count(ctx context.Context, c *conn, shards []*shard) error {
	unlock, err := lock(ctx, shards)
	if err != nil {
		return err
	}
	defer unlock()
	if err := s.countUp(ctx, c, shards); err != nil {
		return err
	}
	return s.turn(ctx, c, shards)
}

func (s *Store) countUp(ctx context.Context, c *conn, shards []*shard) error {
	const each = 3
	var commands []command
	numbers, records := make([]uint64, len(shards)), make([]record, len(shards))
	s.mu.Lock()
	for i, it := range shards {
		it.count++ // (it never goes back: an older copy must not have a greater one)
		numbers[i], records[i] = it.count, it.record
		commands = append(commands, cmd("SET", it.lifeKey(s.life), int64(numbers[i]), "EX", lifeLasts),
			cmd("SET", it.prefix+"seen", it.record.id+" "+strconv.FormatUint(it.latest, 10)), cmd("GETRANGE", it.prefix+"epoch", 0, idLength-1))
	}
	s.mu.Unlock()
	commands = append(commands, cmd("TIME"), cmd("INFO", "replication"))
	if s.replicas > 0 {
		commands = append(commands, s.wait(ctx))
	}
	answers, err := c.do(ctx, commands...)
	if err == nil {
		err = firstFailure(answers)
	}
	if err != nil {
		return err
	}
	last := answers[each*len(shards):]
	seconds, _, err := timeOf(last[0])
	if err != nil {
		return err
	}
	who, err := replicationOf(last[1])
	if err != nil {
		return err
	}
	if s.replicas > 0 {
		if err := s.enough(last[2]); err != nil {
			return err
		}
	}
	s.mu.Lock()
	defer s.mu.Unlock()
	for i, it := range shards {
		if textOf(answers[each*i+2]) != records[i].id || who.run != records[i].run || !who.primary || it.record.id != records[i].id {
			it.agreed = false
			return claims.ErrEpoch
		}
		it.life, it.lifeAt = numbers[i], seconds
		it.tick(seconds)
	}
	return nil
}

// isGone says whether an error says that the server does not serve a shard, or not now.
func isGone(err error) bool {
	var fault redis.Error
	if !errors.As(err, &fault) {
		return false
	}
	word, _, _ := strings.Cut(string(fault), " ")
	return word == "MOVED" || word == "ASK" || word == "READONLY" || word == "CLUSTERDOWN" || word == "TRYAGAIN"
}
