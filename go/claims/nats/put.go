package nats

import (
	"context"
	"errors"
	"fmt"
	"strconv"
	"time"

	client "github.com/nats-io/nats.go"

	"svid.example/go/v3/claims"
	"svid.example/go/v3/internal/pause"
	"svid.example/go/v3/svid"
)

// A look is the store's time, read after it was asked for, and what is known of the store then. Who asks while one is under way shares the
// next one.
type look struct {
	done chan struct{}
	now  int64
	k    *known
	err  error
}

// look reads the store's time and its epoch. Both are as of now or later.
func (s *Store) look(ctx context.Context) (now int64, k *known, err error) {
	s.lookMu.Lock()
	if s.next == nil {
		s.next = &look{done: make(chan struct{})}
	}
	one := s.next
	if !s.isLooking {
		s.isLooking = true
		go s.looks()
	}
	s.lookMu.Unlock()
	select {
	case <-one.done:
		return one.now, one.k, one.err
	case <-ctx.Done():
		return 0, nil, failed("read the store's time", errLate)
	}
}

func (s *Store) looks() {
	for {
		s.lookMu.Lock()
		one := s.next
		s.next = nil
		if one == nil {
			s.isLooking = false
			s.lookMu.Unlock()
			return
		}
		s.lookMu.Unlock()
		one.now, one.k, one.err = s.lookNow(s.life)
		close(one.done)
	}
}

func (s *Store) lookNow(ctx context.Context) (now int64, k *known, err error) {
	k = s.known.Load()
	if k == nil {
		return 0, nil, errNobody
	}
	questions := append(make([]question, 0, 2), s.ticking())
	if !k.isAlone {
		questions = append(questions, s.getting(s.stream(ofEpochs), bySequence(k.read+1), false))
	}
	var position uint64
	var clock, epoch error = nil, errNone
	s.each(ctx, len(questions), func(i int) question { return questions[i] }, func(i int, m *client.Msg, err error) bool {
		if i == 0 {
			if clock = err; err == nil {
				position, clock = acknowledged(m, s.stream(ofClock))
			}
		} else if epoch = err; err == nil {
			_, epoch = got(m)
		}
		return false
	})
	if clock == nil {
		now, clock = s.stampOf(ctx, position, k.isAlone)
	}
	if clock != nil {
		s.doubt()
		return 0, nil, failed("read the store's time", clock)
	}
	if !errors.Is(epoch, errNone) && epoch != nil {
		s.doubt()
		return 0, nil, failed("read the store's epoch", epoch)
	}
	if k, err = s.current(ctx, epoch == nil); err != nil {
		return 0, nil, err
	}
	return now, k, s.passes(now, k)
}

// current is what is known of the store now. A server that has the streams alone sends each member an epoch's record before it acknowledges
// a later put of that member, and by the same connection. With others a member asks, and knows that there is one.
func (s *Store) current(ctx context.Context, isTold bool) (*known, error) {
	s.news.Lock()
	defer s.news.Unlock()
	for {
		if n, _, err := s.told.Pending(); err != nil || n == 0 {
			break
		}
		isTold = true
		if _, err := s.told.NextMsg(againWait); err != nil {
			break // There were more than the client keeps, and some of them are lost here: the stream has all.
		}
	}
	if !isTold {
		return s.known.Load(), nil
	}
	is := *s.known.Load()
	before := is.position
	if err := s.readOn(ctx, &is); err != nil {
		s.doubts.Add(1)
		return nil, err
	}
	if is.position == before {
		s.doubts.Add(1) // It follows none that is known: it may be of another store.
	}
	s.learn(&is)
	return &is, nil
}

// passes notes the store's time. An error says that it went back.
func (s *Store) passes(now int64, k *known) error {
	for {
		latest := s.time.Load()
		if now+int64(seconds(k.Back)) < latest {
			s.doubts.Add(1)
			return failed("read the store's time", errors.New("it went back"))
		}
		if now <= latest || s.time.CompareAndSwap(latest, now) {
			return nil
		}
	}
}

// ticking puts a message whose stamp is the store's time.
func (s *Store) ticking() question { return question{s.base + "t", nil, nil} }

// stamp reads the store's time.
func (s *Store) stamp(ctx context.Context, isAlone bool) (now int64, err error) {
	var position uint64
	err = s.one(ctx, s.ticking(), func(m *client.Msg) (err error) {
		position, err = acknowledged(m, s.stream(ofClock))
		return err
	})
	if err != nil {
		return 0, failed("read the store's time", err)
	}
	return s.stampOf(ctx, position, isAlone)
}

// stampOf is the stamp of the last message of the clock, which is at this position or a later one.
func (s *Store) stampOf(ctx context.Context, position uint64, isAlone bool) (now int64, err error) {
	q := s.getting(s.stream(ofClock), bySubject(s.base+"t"), isAlone)
	err = s.one(ctx, q, func(m *client.Msg) error {
		is, err := got(m)
		if err == nil && is.Position < position || errors.Is(err, errNone) {
			return errOther
		}
		now = is.Time.UnixNano()
		return err
	})
	return now, err
}

// An outcome of a put.
type outcome struct {
	owner  claims.Owner
	err    error
	isDone bool
}

// Put is part of claims.Store.
func (s *Store) Put(ctx context.Context, these []claims.Claim, found []claims.Found) {
	if len(these) == 0 {
		return
	}
	outcomes := make([]outcome, len(these))
	now, k, err := s.settleThese(ctx, these, outcomes)
	for i, o := range outcomes {
		switch {
		case o.isDone && o.err == nil && err == nil:
			found[i] = claims.Found{Owner: o.owner, Time: uint64(now) / uint64(time.Second), Deaf: k.Deaf}
		case o.isDone && o.err != nil:
			found[i] = claims.Found{Err: o.err}
		case err != nil:
			found[i] = claims.Found{Err: err}
		default:
			found[i] = claims.Found{Err: failed("put", o.err)}
		}
	}
}

// settleThese puts claims until each has an outcome, and then reads the store's time.
func (s *Store) settleThese(ctx context.Context, these []claims.Claim, outcomes []outcome) (now int64, k *known, err error) {
	epoch := ""
	for {
		ready, doubts, err := s.ready(ctx)
		if err != nil {
			return 0, nil, err
		}
		if epoch == "" {
			epoch = ready.Epoch
		}
		if ready.Epoch != epoch {
			return 0, nil, claims.ErrEpoch
		}
		if err := s.keep(ctx, ready, these, outcomes); err != nil {
			return 0, nil, err
		}
		open := make([]int, 0, len(these))
		for i := range outcomes {
			if !outcomes[i].isDone {
				open = append(open, i)
			}
		}
		begun := s.now()
		if last, all := s.put(ctx, ready, these, outcomes, open); all {
			if s.now().Since(begun) > attemptWait {
				last = stored{} // The computer was suspended, and the server that answered may be gone: it is asked once more.
			}
			if now, k, err = s.decided(ctx, ready, last); err == nil {
				if k.Epoch != epoch {
					return 0, nil, claims.ErrEpoch
				}
				if s.doubts.Load() == doubts {
					return now, k, nil
				}
			}
		}
		if ctx.Err() != nil {
			return 0, nil, failed("put", errLate)
		}
		if s.doubts.Load() == doubts && !pause.For(ctx, againWait) {
			return 0, nil, failed("put", errLate)
		}
	}
}

// decided reads the store's time and its epoch after all was decided. last is the claim that was sent last, as it stands, if it was taken just
// now: a server that has the streams alone decides one after the other, so the stamp of that one is after all others.
func (s *Store) decided(ctx context.Context, ready *known, last stored) (now int64, k *known, err error) {
	if last.Position == 0 || !ready.isAlone {
		return s.look(ctx)
	}
	if last.Time.IsZero() {
		q := s.getting(s.stream(ofClaims), bySequence(last.Position), true)
		s.each(ctx, 1, func(int) question { return q }, func(_ int, m *client.Msg, fault error) bool {
			if err = fault; err == nil {
				last, err = got(m)
			}
			return false
		})
		if err != nil {
			s.doubt() // (that it is not there any more is a loss)
			return 0, nil, failed("read the store's time", err)
		}
	}
	if k, err = s.current(ctx, false); err != nil {
		return 0, nil, err
	}
	now = last.Time.UnixNano()
	return now, k, s.passes(now, k)
}

// keep sets the outcome of claims that the store would not keep for long enough. The time of the store that was seen last says so, since an
// entry has its age from its put.
func (s *Store) keep(ctx context.Context, k *known, these []claims.Claim, outcomes []outcome) error {
	isFresh := false
	for i, c := range these {
		for !outcomes[i].isDone && c.Expires > plus(uint64(s.time.Load())/uint64(time.Second), k.Lasts) {
			if isFresh {
				outcomes[i] = outcome{isDone: true, err: tooLong(c.Expires, s.time.Load(), k.Lasts)}
				break
			}
			if _, _, err := s.look(ctx); err != nil {
				return err
			}
			isFresh = true
		}
	}
	return nil
}

func tooLong(expires uint64, now int64, lasts uint64) error {
	return fmt.Errorf("claims: a token that expires at %d lives for longer than %d s past the store's time %d: give all members a greater longest", expires, lasts,
		now/int64(time.Second))
}

func (s *Store) subjectOf(c *claims.Claim) string { return s.base + "c." + keyText(c.Key) }

// put puts the open ones, and reads what stands where one was refused. It says whether all have an outcome, and how the last one stands, if it
// was taken.
//
// A server that has the streams alone does what comes by one connection in its order. So the same flight asks for the last claim as it stands,
// with its stamp, and this costs no time. If the answer is of another position, the claim was decided later: whoever needs its stamp asks again.
func (s *Store) put(ctx context.Context, k *known, these []claims.Claim, outcomes []outcome, open []int) (last stored, all bool) {
	s.ownMu.Lock()
	base := s.last
	s.ownMu.Unlock()
	var refused []int
	var standing stored
	stream, latest := s.stream(ofClaims), own{}
	questions := len(open)
	if k.isAlone && questions > 0 {
		questions++
	}
	all = true
	s.each(ctx, questions, func(n int) question {
		if n == len(open) {
			return s.getting(stream, bySubject(s.subjectOf(&these[open[n-1]])), true)
		}
		c := &these[open[n]]
		return question{s.subjectOf(c), c.Owner[:], nil}
	}, func(n int, m *client.Msg, err error) bool {
		if n == len(open) {
			if err == nil {
				standing, _ = got(m)
			}
			return false
		}
		i := open[n]
		var position uint64
		if err == nil {
			position, err = acknowledged(m, stream)
		}
		switch {
		case err == nil && position <= base:
			s.doubts.Add(1) // It is no position of the stream that acknowledged an earlier claim.
			all, outcomes[i].err = false, claims.ErrEpoch
		case err == nil:
			outcomes[i] = outcome{owner: these[i].Owner, isDone: true}
			if position > latest.position {
				latest = own{position: position, claim: these[i]}
			}
			if n == len(open)-1 {
				last.Position = position
			}
		case errors.Is(err, errStands):
			refused = append(refused, i)
		case !isAgain(err):
			outcomes[i] = outcome{isDone: true, err: failed("put", err)} // (such as a full disk)
		default:
			s.mayDoubt(err)
			all, outcomes[i].err = false, err
		}
		return false
	})
	if n := len(refused) - 1; n >= 0 && refused[n] == open[len(open)-1] && standing.Position != 0 {
		outcomes[refused[n]] = s.found(k, &these[refused[n]], standing)
		refused = refused[:n]
	}
	switch {
	case len(refused) > 0 || last.Position < latest.position:
		last = stored{} // What stands there is read after that one was decided.
	case last.Position != 0 && standing.Position == last.Position:
		last = standing
	}
	all = s.read(ctx, k, these, outcomes, refused) && all
	s.owns(latest)
	return last, all
}

// read reads what stands where a claim was refused. It says whether all have an outcome.
func (s *Store) read(ctx context.Context, k *known, these []claims.Claim, outcomes []outcome, refused []int) (all bool) {
	all = true
	s.each(ctx, len(refused), func(n int) question {
		return s.getting(s.stream(ofClaims), bySubject(s.subjectOf(&these[refused[n]])), k.isAlone)
	}, func(n int, m *client.Msg, err error) bool {
		i := refused[n]
		if err == nil {
			var is stored
			if is, err = got(m); err == nil {
				outcomes[i] = s.found(k, &these[i], is)
				return false
			}
		}
		s.mayDoubt(err)
		all, outcomes[i].err = false, err
		return false
	})
	return all
}

// owns notes the last claim that was acknowledged to this member.
func (s *Store) owns(latest own) {
	if latest.position == 0 {
		return
	}
	latest.time = s.time.Load()
	s.ownMu.Lock()
	defer s.ownMu.Unlock()
	if s.own.position < latest.position {
		s.own = latest
	}
	if s.last < latest.position {
		s.last = latest.position
	}
}

// mayDoubt doubts the server where it did not answer: another one may have the streams now.
func (s *Store) mayDoubt(err error) {
	if errors.Is(err, errNobody) || errors.Is(err, errLate) {
		s.doubt()
	}
}

// found is the outcome where an entry stands. Whatever a liar has written, an owner's length of it counts.
func (s *Store) found(k *known, c *claims.Claim, is stored) outcome {
	o := outcome{isDone: true}
	copy(o.owner[:], is.Data)
	if leaves := is.Time.Add(k.age).Unix(); o.owner == c.Owner && k.age > 0 && uint64(leaves) < svid.StaysUntil(c.Expires, k.Margin) {
		o.err = fmt.Errorf("claims: the claim of a token that expires at %d was put at %d, and leaves too early", c.Expires, is.Time.Unix())
	}
	return o
}

func number(n uint64) string { return strconv.FormatUint(n, 10) }
