package nats

import (
	"context"
	"encoding/base64"
	"errors"
	"fmt"
	"strconv"
	"strings"

	client "github.com/nats-io/nats.go"

	"svid.example/go/v3/claims"
	"svid.example/go/v3/internal/pause"
	"svid.example/go/v3/svid"
)

// Withdraw is part of claims.Store.
func (s *Store) Withdraw(ctx context.Context, w claims.Withdrawal) (claims.Owner, error) {
	c := claims.Claim{Key: w.Key, Owner: claims.Withdrawn, Expires: w.Expires}
	for {
		outcomes := make([]outcome, 1)
		_, _, err := s.settleThese(ctx, []claims.Claim{c}, outcomes)
		switch {
		case outcomes[0].isDone && outcomes[0].err != nil:
			return claims.Owner{}, outcomes[0].err
		case errors.Is(err, claims.ErrEpoch) && ctx.Err() == nil:
			continue
		case err != nil:
			return claims.Owner{}, err
		}
		var position uint64
		q := question{s.base + "w." + keyText(w.Key) + "." + number(w.Expires), nil, nil}
		err = s.one(ctx, q, func(m *client.Msg) (err error) {
			position, err = acknowledged(m, s.stream(ofWithdrawals))
			return err
		})
		s.reached(0, position)
		if err != nil && !errors.Is(err, errStands) {
			return claims.Owner{}, failed("withdraw", err)
		}
		return outcomes[0].owner, nil
	}
}

// Withdrawals is part of claims.Store. A position says which stream it is of, and the number of a message there.
func (s *Store) Withdrawals(ctx context.Context, after string) (these []claims.Withdrawal, last string, err error) {
	k, _, err := s.ready(ctx)
	if err != nil {
		return nil, after, err
	}
	var i info
	if err := s.api(ctx, "STREAM.INFO."+s.stream(ofWithdrawals), nil, &i); err != nil {
		return nil, after, failed("read withdrawals", err)
	}
	made := strconv.FormatInt(i.Created.UnixNano(), 16)
	from := uint64(0)
	if before, digits, ok := strings.Cut(after, "."); ok && before == made {
		if n, err := strconv.ParseUint(digits, 10, 64); err == nil && n <= i.State.Last {
			from = n
		}
	}
	to := i.State.Last
	if from+1 < i.State.First {
		from = i.State.First - 1
	}
	if to-from > claims.MostWithdrawals {
		to = from + claims.MostWithdrawals
	}
	all := make([]stored, to-from)
	failures := make([]error, to-from)
	s.each(ctx, len(all), func(n int) question {
		return s.getting(s.stream(ofWithdrawals), bySequence(from+1+uint64(n)), k.isAlone)
	}, func(n int, m *client.Msg, err error) bool {
		if err == nil {
			all[n], err = got(m)
		}
		failures[n] = err
		return isAgain(err)
	})
	isFresh := false
	for n, is := range all {
		switch err := failures[n]; {
		case errors.Is(err, errNone) && i.State.Deleted == 0:
			// Those in front expire meanwhile. A server that is behind the others has not got those at the end.
			var now info
			if err := s.api(ctx, "STREAM.INFO."+s.stream(ofWithdrawals), nil, &now); err != nil {
				return nil, after, failed("read withdrawals", err)
			}
			if now.State.First <= from+1+uint64(n) {
				return nil, after, failed("read withdrawals", fmt.Errorf("the one at position %d is missing", from+1+uint64(n)))
			}
			continue
		case errors.Is(err, errNone):
			continue
		case err != nil:
			return nil, after, failed("read withdrawals", err)
		}
		w, ok := s.withdrawalOf(is.Subject)
		if ok && !isFresh && isFar(w, is, k) { // Another member may have raised Lasts.
			if _, k, err = s.look(ctx); err != nil {
				return nil, after, failed("read withdrawals", err)
			}
			isFresh = true
		}
		if ok && !isFar(w, is, k) {
			these = append(these, w)
		}
	}
	return these, made + "." + number(to), nil
}

// isFar says whether the store would not have taken a withdrawal when it was written, since its token lives for too long. A member that lies
// may have written one that nobody would ever forget.
func isFar(w claims.Withdrawal, is stored, k *known) bool {
	return w.Expires > plus(uint64(is.Time.Unix()), k.Lasts, k.Back)
}

// withdrawalOf reads the subject of a withdrawal. A member that lies may have written another one.
func (s *Store) withdrawalOf(subject string) (w claims.Withdrawal, ok bool) {
	key, expires, ok := strings.Cut(strings.TrimPrefix(subject, s.base+"w."), ".")
	if !ok {
		return w, false
	}
	b, err := base64.RawURLEncoding.DecodeString(key)
	if err != nil || len(b) != len(svid.TokenKey{}) {
		return w, false
	}
	copy(w.Key[:], b)
	w.Expires, err = strconv.ParseUint(expires, 10, 64)
	return w, err == nil
}

// Open is part of claims.Store.
func (s *Store) Open(ctx context.Context) (claims.State, error) {
	if s.connection() == nil {
		if err := s.connect(ctx); err != nil {
			return claims.State{}, err
		}
	}
	return s.state(ctx)
}

// State is part of claims.Store.
func (s *Store) State(ctx context.Context) (claims.State, error) {
	if s.connection() == nil {
		return claims.State{}, errors.New("claims: the store is not open")
	}
	if looked := s.looked.Load(); looked == nil || s.now().Since(*looked) >= s.every {
		s.settleMu.Lock()
		under := s.settling
		s.settleMu.Unlock()
		if under != nil { // It may have looked before something was lost.
			if err := under.wait(ctx); err != nil {
				return claims.State{}, err
			}
		}
		if err := s.settle().wait(ctx); err != nil {
			return claims.State{}, err
		}
	}
	return s.state(ctx)
}

// wait waits until it is found out, or ctx ends.
func (now *settling) wait(ctx context.Context) error {
	select {
	case <-now.done:
		return nil
	case <-ctx.Done():
		return failed("read the state", errLate)
	}
}

func (s *Store) state(ctx context.Context) (claims.State, error) {
	for {
		_, doubts, err := s.ready(ctx)
		if err != nil {
			return claims.State{}, err
		}
		now, k, err := s.look(ctx)
		if err == nil && s.doubts.Load() == doubts {
			return claims.State{Epoch: k.Epoch, Deaf: k.Deaf, Time: uint64(now) / 1e9}, nil
		}
		if ctx.Err() != nil {
			return claims.State{}, failed("read the state", errLate)
		}
		if err != nil && !pause.For(ctx, againWait) {
			return claims.State{}, err
		}
	}
}
