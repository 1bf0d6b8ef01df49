package redis

import (
	"context"
	"encoding/binary"
	"errors"
	"fmt"
	"hash/crc32"
	"strconv"
	"strings"

	"svid.example/go/v3/claims"
)

// A list is a string of withdrawals, one after the other. Each has withdrawalLength bytes: the letters svw1, the token's key,
// when it expires, with the most significant byte first, and the CRC-32C of all these. A reader passes over bytes that are none, and looks at each
// byte for the beginning of one. So one that was cut off hides none, even where the first bytes of the next one make it whole.
const (
	withdrawalMark   = "svw1"
	withdrawalLength = 4 + 32 + 8 + 4
	listShare        = 4 // of the time that a withdrawal counts, in which one list takes them
	mostLists        = 8 // that are read
	mostPages        = 64
	// A page has as many as one call returns, after the rest of the last one that was read.
	mostPage = (claims.MostWithdrawals+1)*withdrawalLength - 1
)

var castagnoli = crc32.MakeTable(crc32.Castagnoli)

func withdrawalText(w claims.Withdrawal) []byte {
	text := append(make([]byte, 0, withdrawalLength), withdrawalMark...)
	text = append(text, w.Key[:]...)
	text = binary.BigEndian.AppendUint64(text, w.Expires)
	return binary.BigEndian.AppendUint32(text, crc32.Checksum(text, castagnoli))
}

// readWithdrawal reads the first bytes of a text.
func readWithdrawal(text []byte) (w claims.Withdrawal, ok bool) {
	if string(text[:4]) != withdrawalMark || binary.BigEndian.Uint32(text[44:]) != crc32.Checksum(text[:44], castagnoli) {
		return w, false
	}
	copy(w.Key[:], text[4:])
	w.Expires = binary.BigEndian.Uint64(text[36:])
	return w, true
}

func (it *shard) listKey(number uint64) string {
	return it.prefix + "withdrawn:" + strconv.FormatUint(number, 10)
}

// Withdraw is part of claims.Store.
func (s *Store) Withdraw(ctx context.Context, w claims.Withdrawal) (claims.Owner, error) {
	found := make([]claims.Found, 1)
	s.Put(ctx, []claims.Claim{{Key: w.Key, Owner: claims.Withdrawn, Expires: w.Expires}}, found)
	if found[0].Err != nil {
		return claims.Owner{}, found[0].Err
	}
	shards, err := s.lists()
	if err != nil {
		return claims.Owner{}, err
	}
	c, err := s.take(ctx, shards)
	if err != nil {
		return claims.Owner{}, err
	}
	err = s.append(ctx, c, shards[0], w)
	s.leave(c, err)
	if err != nil {
		return claims.Owner{}, err
	}
	return found[0].Owner, nil
}

// lists is the shard that has the lists.
func (s *Store) lists() ([]*shard, error) {
	s.mu.Lock()
	defer s.mu.Unlock()
	if s.shards == nil {
		return nil, errors.New("the store is not open")
	}
	return s.shards[:1], nil
}

// append puts a withdrawal at the end of the list that takes them.
func (s *Store) append(ctx context.Context, c *conn, it *shard, w claims.Withdrawal) error {
	s.mu.Lock()
	known := sent{record: it.record, now: it.clock.store}
	s.mu.Unlock()
	for list := known.record.list; ; {
		r := &known.record
		key := it.listKey(list)
		goes := plus(plus(plus(maximum(known.now, w.Expires), r.terms.Lasts), r.terms.Margin), r.terms.Back)
		commands := []command{cmd("APPEND", key, withdrawalText(w)), cmd("EXPIREAT", key, strconv.FormatUint(goes, 10)),
			cmd("GETRANGE", it.prefix+"epoch", 0, mostRecord), cmd("TIME"), cmd("INFO", "replication")}
		if s.replicas > 0 {
			commands = append(commands, s.wait(ctx))
		}
		answers, err := c.do(ctx, commands...)
		if err == nil {
			err = firstFailure(answers)
		}
		if err != nil {
			return err
		}
		is, ok := readRecord(textOf(answers[2]))
		if !ok {
			return claims.ErrEpoch
		}
		answers[2] = []byte(is.id)
		if _, err := s.behind(answers[2:], []*shard{it}, []sent{known}, func(uint64) {}); err != nil {
			return err
		}
		if is.list == list {
			return nil
		}
		list = is.list // (readers may have read the other one to its end)
	}
}

// turn begins another list where one has taken withdrawals for long enough, so that the server removes them by their age.
func (s *Store) turn(ctx context.Context, c *conn, shards []*shard) error {
	s.mu.Lock()
	it := shards[0]
	if it != s.shards[0] {
		s.mu.Unlock()
		return nil
	}
	r, raw, now := it.record, it.raw, it.clock.store
	s.mu.Unlock()
	if now < plus(r.since, plus(r.terms.Lasts, r.terms.Margin)/listShare+1) {
		return nil
	}
	answers, err := c.do(ctx, cmd("STRLEN", it.listKey(r.list)))
	if err == nil {
		err = firstFailure(answers)
	}
	if err != nil || answers[0] == int64(0) {
		return err
	}
	r.list, r.since = r.list+1, now
	if err := s.swap(ctx, c, it, raw, r.text()); err != nil {
		return err
	}
	return s.compare(ctx, c, shards)
}

// A position is an epoch, a list, and the byte of it up to which a member has read.
type position struct {
	epoch    string
	list, at uint64
}

func (p position) String() string { return fmt.Sprintf("%s/%d/%d", p.epoch, p.list, p.at) }

func readPosition(text string) (p position) {
	parts := strings.Split(text, "/")
	if len(parts) != 3 {
		return position{}
	}
	var err, err2 error
	p.epoch = parts[0]
	p.list, err = strconv.ParseUint(parts[1], 10, 62)
	p.at, err2 = strconv.ParseUint(parts[2], 10, 62)
	if err != nil || err2 != nil {
		return position{}
	}
	return p
}

// Withdrawals is part of claims.Store.
func (s *Store) Withdrawals(ctx context.Context, after string) (these []claims.Withdrawal, last string, err error) {
	shards, err := s.lists()
	if err != nil {
		return nil, after, err
	}
	c, err := s.take(ctx, shards)
	if err != nil {
		return nil, after, err
	}
	these, p, err := s.read(ctx, c, shards[0], readPosition(after))
	s.leave(c, err)
	if err != nil {
		return nil, after, err
	}
	return these, p.String(), nil
}

// read reads pages of lists.
func (s *Store) read(ctx context.Context, c *conn, it *shard, p position) (these []claims.Withdrawal, _ position, err error) {
	for pages := 0; pages < mostPages && len(these) < claims.MostWithdrawals; pages++ {
		answers, err := c.do(ctx, cmd("GETRANGE", it.prefix+"epoch", 0, mostRecord), cmd("STRLEN", it.listKey(p.list)),
			cmd("GETRANGE", it.listKey(p.list), strconv.FormatUint(p.at, 10), strconv.FormatUint(p.at+mostPage-1, 10)), cmd("TIME"))
		if err == nil {
			err = firstFailure(answers)
		}
		if err != nil {
			return nil, p, err
		}
		r, ok := readRecord(textOf(answers[0]))
		length, is := answers[1].(int64)
		text, is2 := answers[2].([]byte)
		if !ok || !is || !is2 {
			return nil, p, claims.ErrEpoch
		}
		first := uint64(1)
		if r.list > mostLists {
			first = r.list - mostLists
		}
		switch {
		case p.epoch != r.id || p.list < first || p.list > r.list:
			p = position{r.id, first, 0}
			continue
		case p.list == r.list && p.at > uint64(length):
			p.at = 0 // (somebody removed it)
			continue
		}
		seconds, _, err := timeOf(answers[3])
		if err != nil {
			return nil, p, err
		}
		far := plus(plus(seconds, r.terms.Lasts), r.terms.Back) // No store takes a withdrawal of a token that lives for longer.
		more := len(text) == mostPage
		for ; len(text) >= withdrawalLength && len(these) < claims.MostWithdrawals; text = text[1:] {
			if w, ok := readWithdrawal(text); ok && w.Expires <= far {
				these = append(these, w)
			}
			p.at++
		}
		if more || len(text) >= withdrawalLength {
			continue
		}
		if p.list == r.list {
			break
		}
		p = position{r.id, p.list + 1, 0}
	}
	return these, p, nil
}
