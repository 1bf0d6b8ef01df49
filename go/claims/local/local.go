// Package local is a claim store of one process. What it has stands in a folder, as a state folder does (package journal), so that a restart
// forgets nothing.
//
// It is for a single member in mode bound. A folder that is removed, or put back from an older copy, has lost claims, and nothing tells that: wait
// for Terms.Lasts before the next start then.
package local

import (
	"context"
	"errors"
	"io"
	"strconv"
	"sync"

	"svid.example/go/v3/claims"
	"svid.example/go/v3/journal"
	"svid.example/go/v3/svid"
)

// ErrFar is the answer to a claim of a token that lives for longer than the terms allow.
var ErrFar = errors.New("the token lives longer than the store keeps claims")

// ErrClosed is what each call returns after Close.
var ErrClosed = errors.New("the store of claims is closed")

// Options of a Store.
type Options struct {
	Dir   string // the folder, which Open makes where its parent is there
	Terms claims.Terms
	Now   func() uint64 // the clock, in seconds since 1970; nil is svid.Now
}

// A Store has claims in a folder. New returns one.
//
// An entry is two uses in the folder. Each has a half of the owner as its validator ID; that of the second half is a withdrawal.
type Store struct {
	Options
	open *journal.Journal

	mu      sync.Mutex
	closed  bool
	entries map[svid.TokenKey]*entry
	over    map[uint64][]svid.TokenKey // which entries are over, by the minute in which they are
	minute  uint64                     // of the last time that those were dropped
	latest  uint64                     // the greatest time that the clock had
	deaf    uint64
	saved   int64 // bytes of the last snapshot; of State alone, which one goroutine calls
}

// An entry is kept once the disk has it.
type entry struct {
	owner  claims.Owner
	at     uint64 // when it was put
	until  uint64 // when it is over
	isKept bool
}

// half is how many bytes of an owner one use has.
const half = len(svid.ValidatorID{})

// uses are those that tell an entry.
func (e *entry) uses(key svid.TokenKey) [2]svid.Use {
	first := svid.Use{Key: key, At: e.at, Expires: e.until}
	second := first
	second.Withdrawn = true
	copy(first.ValidatorID[:], e.owner[:half])
	copy(second.ValidatorID[:], e.owner[half:])
	return [2]svid.Use{first, second}
}

// These keys stand for what the store says of itself. No token has one of them, as they are no digest that anybody knows a text of.
var (
	timeKey = svid.TokenKey{0}     // its use tells a time that the clock had
	deafKey = svid.TokenKey{31: 1} // its use expires when the store's deafness ends
)

const (
	// perMinute is how many seconds share a slot of Store.over.
	perMinute = 60
	// smallFolder is how many bytes a folder has before a snapshot is worth its writing.
	smallFolder = 1 << 20
	// perWrite is how many uses one write of a snapshot has.
	perWrite = 1000
)

var _ claims.Store = (*Store)(nil)

// New returns a store that is not open.
func New(o Options) *Store {
	if o.Now == nil {
		o.Now = svid.Now
	}
	return &Store{Options: o, entries: map[svid.TokenKey]*entry{}, over: map[uint64][]svid.TokenKey{}}
}

// Open is part of claims.Store. Its error is that of journal.Open or of Journal.Load, where the folder is another process's or damaged.
func (s *Store) Open(ctx context.Context) (claims.State, error) {
	if err := s.load(); err != nil {
		return claims.State{}, err
	}
	return s.State(ctx)
}

// load reads the folder, unless that was done.
func (s *Store) load() error {
	s.mu.Lock()
	defer s.mu.Unlock()
	if s.open != nil {
		return nil
	}
	j, err := journal.Open(s.Dir)
	if err != nil {
		return err
	}
	if err := j.Load(s.take); err != nil {
		_ = j.Close() // (what is wrong with the folder is said)
		return err
	}
	s.open = j
	return nil
}

// take takes messages of the folder.
func (s *Store) take(messages []byte) error {
	uses, err := svid.Uses(messages)
	for _, use := range uses {
		s.latest = later(s.latest, use.At)
		switch use.Key {
		case timeKey:
		case deafKey:
			s.deaf = later(s.deaf, use.Expires)
		default:
			s.makeRoom(use.Key, use.At)
			is := s.add(use.Key, entry{at: use.At, until: use.Expires, isKept: true})
			if use.Withdrawn {
				copy(is.owner[half:], use.ValidatorID[:])
			} else {
				copy(is.owner[:half], use.ValidatorID[:])
			}
		}
	}
	return err
}

// makeRoom makes room under a key whose entry is over by then.
func (s *Store) makeRoom(key svid.TokenKey, now uint64) {
	if is := s.entries[key]; is != nil && is.until <= now {
		delete(s.entries, key)
	}
}

// add returns the entry of a key: the one that is there, or this one.
func (s *Store) add(key svid.TokenKey, one entry) *entry {
	is := s.entries[key]
	if is == nil {
		is = &one
		s.entries[key] = is
		minute := one.until / perMinute
		s.over[minute] = append(s.over[minute], key)
	}
	return is
}

// now is the store's time. A clock that goes back by more than the terms allow ends the epoch: what was dropped meanwhile may be live.
func (s *Store) now() (now uint64, told []svid.Use) {
	if now = s.Now(); now+s.Terms.Back < s.latest {
		s.deaf = svid.DeafAfter(s.latest, s.Terms.Lasts, s.deaf)
		s.latest = now
		told = append(told, svid.Use{Key: deafKey, At: now, Expires: s.deaf})
	}
	s.latest = later(s.latest, now)
	return now, told
}

// Put is part of claims.Store.
func (s *Store) Put(ctx context.Context, these []claims.Claim, found []claims.Found) {
	entries, told, err := s.enter(these, found)
	if err == nil && len(told) > 0 {
		err = s.keep(ctx, entries, told)
	}
	if err == nil {
		return
	}
	for i := range found {
		found[i] = claims.Found{Err: err}
	}
}

// enter makes the entries that are missing, and sets each answer. The disk lacks some of the entries, and these uses.
func (s *Store) enter(these []claims.Claim, found []claims.Found) (lacking []*entry, told []svid.Use, err error) {
	s.mu.Lock()
	defer s.mu.Unlock()
	if s.open == nil || s.closed {
		return nil, nil, ErrClosed
	}
	now, told := s.now()
	for i := range these {
		claim := &these[i]
		if claim.Expires > now && claim.Expires-now > s.Terms.Lasts {
			found[i] = claims.Found{Err: ErrFar}
			continue
		}
		is := s.entryOf(claim, now)
		found[i] = claims.Found{Owner: is.owner, Time: now, Deaf: s.deaf}
		if !is.isKept {
			uses := is.uses(claim.Key)
			lacking, told = append(lacking, is), append(told, uses[:]...)
		}
	}
	return lacking, told, nil
}

// entryOf is what stands under the key of a claim. An entry that is over leaves it to the next one.
func (s *Store) entryOf(claim *claims.Claim, now uint64) *entry {
	s.makeRoom(claim.Key, now)
	one := entry{owner: claim.Owner, at: now, until: svid.StaysUntil(claim.Expires, s.Terms.Margin)}
	if one.until <= now { // (no message can tell a use that is over: nobody accepts the token, so nothing need stay)
		one.isKept = true
		return &one
	}
	return s.add(claim.Key, one)
}

// keep brings uses to the disk. Where that fails they are put again with the next claims of these tokens.
func (s *Store) keep(ctx context.Context, entries []*entry, told []svid.Use) error {
	if err := s.open.AppendUses(ctx, told...); err != nil {
		return err
	}
	s.mu.Lock()
	defer s.mu.Unlock()
	for _, is := range entries {
		is.isKept = true
	}
	return nil
}

// Withdraw is part of claims.Store.
func (s *Store) Withdraw(ctx context.Context, w claims.Withdrawal) (claims.Owner, error) {
	var found [1]claims.Found
	s.Put(ctx, []claims.Claim{{Key: w.Key, Owner: claims.Withdrawn, Expires: w.Expires}}, found[:])
	return found[0].Owner, found[0].Err
}

// Withdrawals is part of claims.Store. There are none: the one member made them all, and has them in its record.
func (s *Store) Withdrawals(context.Context, string) ([]claims.Withdrawal, string, error) {
	return nil, "", nil
}

// State is part of claims.Store.
func (s *Store) State(ctx context.Context) (claims.State, error) {
	state, told, err := s.look()
	if err != nil {
		return state, err
	}
	if len(told) > 0 {
		if err := s.open.AppendUses(ctx, told...); err != nil {
			return state, err
		}
	}
	if err := s.open.Room(ctx); err != nil {
		return state, err
	}
	s.drop(state.Time)
	return state, s.save()
}

// look says what the store is, and once a minute which uses the disk is to have before entries are dropped: the time, so that the next start sees a
// clock that goes back.
func (s *Store) look() (claims.State, []svid.Use, error) {
	s.mu.Lock()
	defer s.mu.Unlock()
	if s.open == nil || s.closed {
		return claims.State{}, nil, ErrClosed
	}
	now, told := s.now()
	if now/perMinute != s.minute {
		told = append(told, s.timeUse(now))
	}
	return claims.State{Epoch: strconv.FormatUint(s.deaf, 10), Deaf: s.deaf, Time: now}, told, nil
}

// drop drops entries that are over, once a minute.
func (s *Store) drop(now uint64) {
	s.mu.Lock()
	defer s.mu.Unlock()
	if now/perMinute == s.minute {
		return
	}
	s.minute = now / perMinute
	for minute, keys := range s.over {
		if minute >= s.minute {
			continue
		}
		for _, key := range keys {
			s.makeRoom(key, now)
		}
		delete(s.over, minute)
	}
}

// save replaces the folder's files by a snapshot, where that is due.
func (s *Store) save() error {
	wants, must := s.open.WantsSnapshot()
	if !wants && !must && s.open.Size() <= s.saved+smallFolder {
		return nil
	}
	return s.open.Snapshot(func(w io.Writer) error {
		uses := s.uses() // (now, since those that were appended before must be among them)
		s.saved = 0
		for len(uses) > 0 {
			n := perWrite
			if n > len(uses) {
				n = len(uses)
			}
			messages, err := svid.Batches(uses[:n])
			if err != nil {
				return err
			}
			written, err := w.Write(messages)
			if s.saved += int64(written); err != nil {
				return err
			}
			uses = uses[n:]
		}
		return nil
	})
}

// uses are all uses that the folder is to have.
func (s *Store) uses() []svid.Use {
	s.mu.Lock()
	defer s.mu.Unlock()
	uses := make([]svid.Use, 0, 2*len(s.entries)+2)
	uses = append(uses, s.timeUse(s.latest))
	if s.deaf > s.latest {
		uses = append(uses, svid.Use{Key: deafKey, At: s.latest, Expires: s.deaf})
	}
	for key, is := range s.entries {
		both := is.uses(key)
		uses = append(uses, both[:]...)
	}
	return uses
}

// timeUse tells a time for as long as an entry may live that was dropped by then.
func (s *Store) timeUse(now uint64) svid.Use {
	return svid.Use{Key: timeKey, At: now, Expires: svid.StaysUntil(now+s.Terms.Lasts, s.Terms.Margin+1)}
}

// Close is part of claims.Store.
func (s *Store) Close() error {
	s.mu.Lock()
	j, done := s.open, s.closed
	s.closed = true
	s.mu.Unlock()
	if j == nil || done {
		return nil
	}
	return j.Close()
}

func later(a, b uint64) uint64 {
	if a > b {
		return a
	}
	return b
}
