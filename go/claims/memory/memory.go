// Package memory is a claim store in memory, for tests: members in one process share it.
package memory

import (
	"context"
	"fmt"
	"strconv"
	"strings"
	"sync"
	"time"

	"svid.example/go/v3/claims"
	"svid.example/go/v3/svid"
)

// A Store is in memory. Its fields may be set before it is used.
type Store struct {
	Now   func() uint64 // its clock; nil is the machine's
	Terms claims.Terms
	Fault func() error // is asked before each call: what it returns is the call's error; nil never fails

	mu          sync.Mutex
	entries     map[svid.TokenKey]entry
	withdrawals []claims.Withdrawal
	epoch       int
	deaf        uint64
	latest      uint64
}

type entry struct {
	owner   claims.Owner
	expires uint64
}

var _ claims.Store = (*Store)(nil)

// now is the store's time. Time that goes back by more than Terms.Back ends the epoch.
func (s *Store) now() uint64 {
	var now uint64
	if s.Now != nil {
		now = s.Now()
	} else {
		now = uint64(time.Now().Unix())
	}
	if now+s.Terms.Back < s.latest {
		s.next()
	}
	if now > s.latest {
		s.latest = now
	}
	return now
}

// Lose drops all entries but those with such keys (nil keeps none), and so ends the epoch.
func (s *Store) Lose(keeps func(svid.TokenKey) bool) {
	s.mu.Lock()
	defer s.mu.Unlock()
	s.now()
	for key := range s.entries {
		if keeps == nil || !keeps(key) {
			delete(s.entries, key)
		}
	}
	s.next()
}

// next begins the next epoch. Its withdrawals may be lost too.
func (s *Store) next() {
	s.withdrawals = nil
	s.epoch++
	if deaf := s.latest + s.Terms.Lasts; deaf > s.deaf {
		s.deaf = deaf
	}
}

func (s *Store) fault() error {
	if s.Fault == nil {
		return nil
	}
	return s.Fault()
}

// Open is part of claims.Store.
func (s *Store) Open(ctx context.Context) (claims.State, error) { return s.State(ctx) }

// Put is part of claims.Store.
func (s *Store) Put(ctx context.Context, these []claims.Claim, found []claims.Found) {
	err := s.fault()
	s.mu.Lock()
	defer s.mu.Unlock()
	now := s.now()
	for i := range these {
		found[i] = claims.Found{Err: err}
		if err == nil {
			found[i] = claims.Found{Owner: s.put(these[i], now), Time: now, Deaf: s.deaf}
		}
	}
}

// put stores a claim, unless its key has an owner already, and returns the key's owner.
func (s *Store) put(c claims.Claim, now uint64) claims.Owner {
	if is, there := s.entries[c.Key]; there && is.expires+s.Terms.Margin > now {
		return is.owner
	}
	if s.entries == nil {
		s.entries = map[svid.TokenKey]entry{}
	}
	s.entries[c.Key] = entry{c.Owner, c.Expires}
	return c.Owner
}

// Withdraw is part of claims.Store.
func (s *Store) Withdraw(ctx context.Context, w claims.Withdrawal) (claims.Owner, error) {
	if err := s.fault(); err != nil {
		return claims.Owner{}, err
	}
	s.mu.Lock()
	defer s.mu.Unlock()
	s.withdrawals = append(s.withdrawals, w)
	return s.put(claims.Claim{Key: w.Key, Owner: claims.Withdrawn, Expires: w.Expires}, s.now()), nil
}

// Withdrawals is part of claims.Store.
func (s *Store) Withdrawals(ctx context.Context, after string) (these []claims.Withdrawal, last string, err error) {
	if err := s.fault(); err != nil {
		return nil, after, err
	}
	s.mu.Lock()
	defer s.mu.Unlock()
	epoch, number, _ := strings.Cut(after, "-")
	from, err := strconv.Atoi(number)
	if err != nil || epoch != strconv.Itoa(s.epoch) || from > len(s.withdrawals) {
		from = 0
	}
	these = append(these, s.withdrawals[from:]...)
	if len(these) > claims.MostWithdrawals {
		these = these[:claims.MostWithdrawals]
	}
	return these, fmt.Sprintf("%d-%d", s.epoch, from+len(these)), nil
}

// State is part of claims.Store.
func (s *Store) State(context.Context) (claims.State, error) {
	if err := s.fault(); err != nil {
		return claims.State{}, err
	}
	s.mu.Lock()
	defer s.mu.Unlock()
	now := s.now()
	for key, is := range s.entries {
		if is.expires+s.Terms.Margin <= now {
			delete(s.entries, key)
		}
	}
	return claims.State{Epoch: strconv.Itoa(s.epoch), Deaf: s.deaf, Time: now}, nil
}

// Close is part of claims.Store.
func (s *Store) Close() error { return nil }
