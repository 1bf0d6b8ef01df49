package nats

import (
	"bytes"
	"context"
	"encoding/json"
	"errors"
	"fmt"
	"time"

	client "github.com/nats-io/nats.go"

	"svid.example/go/v3/claims"
	"svid.example/go/v3/internal/brief"
	"svid.example/go/v3/internal/pause"
	"svid.example/go/v3/internal/streams"
)

// A settling finds out what the store is.
type settling struct {
	done chan struct{}
	err  error
}

// settle lets a goroutine find out what the store is, unless one does so.
func (s *Store) settle() *settling {
	s.settleMu.Lock()
	defer s.settleMu.Unlock()
	if s.settling == nil {
		now := &settling{done: make(chan struct{})}
		s.settling = now
		go func() {
			for {
				doubts, begun := s.doubts.Load(), s.now()
				if now.err = s.check(s.life); now.err != nil {
					s.doubts.Add(1)
					if cause := brief.Cause(now.err); s.said != cause && s.life.Err() == nil {
						s.said = cause
						s.log("no claim is answered", "why", now.err.Error())
					}
					break
				}
				s.said = ""
				s.looked.Store(&begun)
				s.settled.Store(doubts)
				if s.doubts.Load() == doubts {
					break
				}
			}
			s.settleMu.Lock()
			s.settling = nil
			s.settleMu.Unlock()
			close(now.done)
		}()
	}
	return s.settling
}

// ready waits until nothing is in doubt. It returns what is known then, and what doubts is as long as that stays so.
func (s *Store) ready(ctx context.Context) (*known, uint64, error) {
	var why error
	for {
		if s.life.Err() != nil {
			return nil, 0, client.ErrConnectionClosed
		}
		if k, settled := s.known.Load(), s.settled.Load(); k != nil && settled == s.doubts.Load() {
			return k, settled, nil
		}
		now := s.settle()
		select {
		case <-now.done:
			var unfit *claims.Unfit
			if why = now.err; errors.As(why, &unfit) {
				return nil, 0, why
			}
			if why != nil && !pause.For(ctx, againWait) {
				return nil, 0, why
			}
		case <-ctx.Done():
			if why == nil {
				why = errLate
			}
			return nil, 0, failed("find out whether the store has all that it had", why)
		}
	}
}

// An exam is what the server says of the store, and what of it is wrong.
type exam struct {
	all   [kinds]*info
	now   int64
	run   string
	is    *known
	lost  string // why the epoch ends: what was lost; "" for nothing
	unfit error  // settings by which claims may be lost

	// What the store must have: as it was before the server was asked.
	own                  own
	last, lastWithdrawal uint64
}

// check finds out what the store is, makes what is missing, ends the epoch if something was lost, and waits for other members that may
// have lost something where that is due.
func (s *Store) check(ctx context.Context) error {
	k, unsteady := s.known.Load(), s.unsteady.Load()
	x, err := s.examine(ctx, k)
	if err == nil && (x.unfit != nil || x.lost != "" && !x.is.isAlone) {
		// A server that was just elected may not have read yet all that it has, and another member may just have raised what is due.
		if !x.is.isAlone {
			err = s.barrier(ctx)
		}
		if err == nil {
			x, err = s.examine(ctx, k)
		}
	}
	if err != nil {
		return err
	}
	switch {
	case x.is.Link == "" && k == nil:
		err = s.begin(ctx, x)
	case x.lost != "":
		err = s.finish(ctx, x, k)
	}
	if err != nil {
		return err
	}
	if x.unfit != nil {
		if k != nil {
			s.wasUnfit = x.unfit.Error()
			s.learn(x.is)
		}
		return x.unfit
	}
	s.wasUnfit = ""
	if err := s.raise(ctx, x); err != nil {
		return err
	}
	if err := s.quarantine(ctx, x, k, unsteady != s.steady); err != nil {
		return err
	}
	s.steady = unsteady
	x.is.age = time.Duration(x.all[ofClaims].Config.Number("max_age"))
	s.learn(x.is)
	if x.is.isAlone {
		s.reached(x.all[ofClaims].State.Last, x.all[ofWithdrawals].State.Last)
	}
	return nil
}

// examine asks the server for all that it says of the store.
func (s *Store) examine(ctx context.Context, k *known) (x exam, err error) {
	s.ownMu.Lock()
	x.own, x.last, x.lastWithdrawal = s.own, s.last, s.lastWithdrawal
	s.ownMu.Unlock()
	var missing string
	if x.all, missing, err = s.present(ctx, k); err != nil {
		return x, err
	}
	if x.run = s.run(x.all); x.run == "" {
		return x, errNobody
	}
	if x.now, err = s.stamp(ctx, x.all[ofClock].isAlone()); err != nil {
		return x, err
	}
	var isSame bool
	if x.is, isSame, err = s.readEpochs(ctx, k, x.all[ofEpochs]); err != nil {
		return x, err
	}
	terms := x.is.terms()
	if x.is.Link == "" {
		terms = s.o.Terms
	}
	for i := range x.all {
		if err := s.fit(kind(i), x.all[i].Config, terms); err != nil && x.unfit == nil {
			x.unfit = err
		}
	}
	switch {
	case x.is.Link == "" && k == nil:
	case missing != "":
		x.lost = missing
	case !isSame:
		x.lost = "another store stands in the place of the one before"
	default:
		x.lost, err = s.missed(ctx, x)
	}
	if k != nil && x.lost == "" {
		switch {
		case x.unfit != nil && s.wasUnfit != x.unfit.Error():
			x.lost = x.unfit.Error()
		case x.unfit == nil && s.wasUnfit != "":
			x.lost = "the streams had settings by which they may have lost claims"
		}
	}
	return x, err
}

// begin writes the first record of a store. A store that has claims, and none, is one that has lost it.
func (s *Store) begin(ctx context.Context, x exam) error {
	if x.unfit != nil {
		return x.unfit
	}
	r := record{Lasts: s.o.Terms.Lasts, Margin: s.o.Terms.Margin, Back: s.o.Terms.Back} // (quarantine notes when the streams were made)
	if x.all[ofClaims].State.Last > 0 || x.all[ofWithdrawals].State.Last > 0 {
		r.Deaf = (&known{record: r}).deafAt(x.now)
		s.log("a store without its epoch: its tokens are refused until they have expired", "deaf", r.Deaf)
	}
	x.is.record = r
	return s.write(ctx, x, r, x.run, true)
}

// barrier waits until the leaders of the streams have read all that they have: they answer a message that they refuse behind it.
func (s *Store) barrier(ctx context.Context) error {
	for _, subject := range []string{"c.-", "w.-.-", "e.-"} {
		q := question{s.base + subject, nil, client.Header{"Nats-Expected-Last-Sequence": {"999999999999"}}}
		if err := s.one(ctx, q, refusal); !is(err, wrongLast) {
			return failed("wait for a server that was just elected", err)
		}
	}
	return nil
}

// learn knows the store as it is now, unless more is known already.
func (s *Store) learn(is *known) {
	s.knownMu.Lock()
	defer s.knownMu.Unlock()
	k := s.known.Load()
	if k != nil && k.made.Equal(is.made) && is.read < k.read {
		return
	}
	if k == nil || k.Epoch != is.Epoch {
		s.time.Store(is.Began)
		s.ownMu.Lock()
		s.own, s.last, s.lastWithdrawal = own{}, 0, 0
		s.ownMu.Unlock()
	}
	s.known.Store(is)
}

// reached notes positions that the streams of claims and withdrawals have reached.
func (s *Store) reached(claim, withdrawal uint64) {
	s.ownMu.Lock()
	defer s.ownMu.Unlock()
	if s.last < claim {
		s.last = claim
	}
	if s.lastWithdrawal < withdrawal {
		s.lastWithdrawal = withdrawal
	}
}

// raise lets the store keep what this member's terms want. A greater margin than the store's it can't have.
func (s *Store) raise(ctx context.Context, x exam) error {
	is, want := x.is, s.o.Terms
	if want.Margin > is.Margin || want.Back > is.Back || plus(is.Back, want.Margin) > plus(is.Margin, want.Back) {
		return claims.Unfitf("claims: the group keeps entries for %d s past their expiry, %d of them for a clock that steps back, and this member wants "+
			"%d and %d: give all members the same ahead and back, and start a group with greater ones under another name", is.Margin, is.Back, want.Margin, want.Back)
	}
	if want.Lasts <= is.Lasts {
		return nil
	}
	terms := is.terms()
	terms.Lasts = want.Lasts
	for _, k := range []kind{ofClaims, ofWithdrawals} {
		if n := x.all[k].Config.Number("max_age"); n == 0 || n >= int64(age(terms)) {
			continue
		}
		wanted := streams.Config{}
		for name, value := range x.all[k].Config {
			wanted[name] = value
		}
		wanted["max_age"] = json.RawMessage(fmt.Sprint(int64(age(terms))))
		if err := s.api(ctx, "STREAM.UPDATE."+s.stream(k), wanted, nil); err != nil {
			return claims.Unfitf("claims: the stream %s keeps entries for %v, and tokens of %d s want %v: run nats stream edit --max-age=%v %s (%v)", s.stream(k),
				time.Duration(x.all[k].Config.Number("max_age")), want.Lasts, age(terms), age(terms), s.stream(k), err)
		}
	}
	for try := 0; is.Lasts < want.Lasts; try++ {
		if try == mostTries {
			return failed("raise lasts", errors.New("other members write records too"))
		}
		r := is.record
		r.Lasts = want.Lasts
		if err := s.write(ctx, x, r, is.Run, false); err != nil {
			return err
		}
	}
	return nil
}

// quarantine waits for members that may have lost something, where the store is a new one or another process has it. They look at once, and
// end the epoch.
//
// After it, a new store's record notes when the streams were made. A server that has just made one may say another time a moment later, as
// make has it. Nobody is answered before that.
func (s *Store) quarantine(ctx context.Context, x exam, k *known, unsteady bool) error {
	is, now, began := x.is, x.now, x.is.Began
	isNewStore, isNewRun := k == nil && is.Before == "", is.Run != x.run || unsteady && !is.isAlone && k != nil
	waits := func() bool {
		return isNewStore && now < began+s.forNew.Load() || isNewRun && now < x.now+s.forRun.Load()
	}
	isNew := k == nil && waits()
	for waits() {
		if !pause.For(ctx, quarantineLook) {
			return ctx.Err()
		}
		var err error
		if now, err = s.stamp(ctx, x.all[ofClock].isAlone()); err != nil {
			return err
		}
		if err := s.readOn(ctx, is); err != nil {
			return err
		}
	}
	if isNew {
		var err error
		if x.all, err = s.infos(ctx); err != nil {
			return err
		}
		for i := range x.all {
			if x.all[i] == nil {
				return failed("open the store", errors.New("someone removed the stream "+s.stream(kind(i))))
			}
		}
		is.made = x.all[ofEpochs].Created
	}
	for try := 0; is.Run != x.run || is.Claims == 0; try++ {
		if try == mostTries {
			return failed("note the server's run", errors.New("other members write records too"))
		}
		r := is.record
		if r.Claims == 0 {
			r = x.noted(r)
		}
		if err := s.write(ctx, x, r, x.run, false); err != nil {
			return err
		}
	}
	return nil
}

// noted is a record that notes when the streams were made.
func (x *exam) noted(r record) record {
	r.Claims, r.Withdrawals = x.all[ofClaims].Created.UnixNano(), x.all[ofWithdrawals].Created.UnixNano()
	return r
}

func (i *info) isAlone() bool {
	return i.Cluster == nil && i.Config.Number("num_replicas") == 1 && string(i.Config["allow_direct"]) == "true"
}

// present returns all streams. It makes those that are missing; missing says which, if there was a store before.
func (s *Store) present(ctx context.Context, k *known) (all [kinds]*info, missing string, err error) {
	for gone := time.Now(); ; {
		if all, err = s.infos(ctx); err != nil {
			return all, "", err
		}
		isWhole := true
		for i := range all {
			if all[i] != nil {
				continue
			}
			if isWhole = false; k != nil {
				if time.Since(gone) < removing {
					continue
				}
				missing = "someone removed the stream " + s.stream(kind(i))
			}
			if err := s.make(ctx, kind(i)); err != nil {
				return all, "", err
			}
		}
		if isWhole {
			return all, missing, nil
		}
		if !pause.For(ctx, againWait) {
			return all, "", ctx.Err()
		}
	}
}

// run says which process has the streams now, as far as a client sees that.
func (s *Store) run(all [kinds]*info) string {
	i := all[ofClaims]
	if i.Cluster != nil {
		return i.Cluster.Leader // "" while there is none
	}
	return s.connection().ConnectedServerId()
}

// readEpochs reads the epochs' stream on from what is known. isSame says that it still has the known record: else it was read from its
// first message, as one that nobody knows.
func (s *Store) readEpochs(ctx context.Context, k *known, i *info) (is *known, isSame bool, err error) {
	fresh := &known{made: i.Created, isAlone: i.isAlone(), age: 0}
	is, isSame = fresh, true
	if k != nil {
		copied := *k
		copied.isAlone = i.isAlone()
		m, err := s.get(ctx, ofEpochs, bySequence(k.position), i.isAlone())
		switch {
		case err != nil && !errors.Is(err, errNone):
			return nil, false, err
		case err == nil && i.Created.Equal(k.made) && bytes.Equal(m.Data, k.raw) && i.State.Last >= k.read:
			is = &copied
		default:
			isSame = false
		}
	}
	return is, isSame, s.readOn(ctx, is)
}

// readOn reads the messages of the epochs' stream that came after the last one.
func (s *Store) readOn(ctx context.Context, is *known) error {
	for {
		m, err := s.get(ctx, ofEpochs, bySequence(is.read+1), is.isAlone)
		if errors.Is(err, errNone) {
			return nil
		}
		if err != nil {
			return failed("read the epochs", err)
		}
		is.follow(s.base, m)
	}
}

// get asks for one message.
func (s *Store) get(ctx context.Context, k kind, by string, isAlone bool) (m stored, err error) {
	err = s.one(ctx, s.getting(s.stream(k), by, isAlone), func(answer *client.Msg) (err error) {
		m, err = got(answer)
		return err
	})
	return m, err
}

// write writes a record after the known one, and reads what stands there then: this one, or that of another member.
func (s *Store) write(ctx context.Context, x exam, r record, run string, isEnd bool) (err error) {
	is, all := x.is, x.all
	if r.Link, err = newLink(); err != nil {
		return err
	}
	if isEnd {
		if r.Epoch, err = newLink(); err != nil {
			return err
		}
		r.First, r.FirstWithdrawal = all[ofClaims].State.First, all[ofWithdrawals].State.First
	}
	r.Began, r.Run = x.now, run
	r.Deleted, r.Gone = all[ofClaims].State.Deleted, all[ofWithdrawals].State.Deleted
	data, err := json.Marshal(r)
	if err != nil {
		return err
	}
	link := is.Link
	if link == "" {
		link = first
	}
	var position uint64
	err = s.one(ctx, question{s.base + "e." + link, data, nil}, func(m *client.Msg) (err error) {
		position, err = acknowledged(m, s.stream(ofEpochs))
		return err
	})
	if err != nil && !errors.Is(err, errStands) {
		return failed("write the epoch's record", err)
	}
	if err == nil && position <= is.read {
		return failed("write the epoch's record", errors.New("another stream stands in the place of the one before"))
	}
	for before, from := is.position, time.Now(); ; {
		if err := s.readOn(ctx, is); err != nil || is.position != before {
			return err
		}
		// A server that was just elected may not have read it yet. If it never comes, it is another stream by now.
		if time.Since(from) > lossWait || !pause.For(ctx, againWait) {
			return failed("write the epoch's record", errLate)
		}
	}
}

// finish ends the epoch, unless another member has ended it since this one has answered its last claim.
func (s *Store) finish(ctx context.Context, x exam, k *known) error {
	is, r := x.is, x.is.record
	if k != nil {
		if is.Link == "" {
			r = k.record
		}
		r.Before = k.Epoch
		if is.Link != "" && is.Epoch != k.Epoch && is.Deaf >= plus(uint64(s.time.Load())/uint64(time.Second), is.Lasts) {
			return nil
		}
	} else {
		r.Before = is.Epoch
	}
	latest := s.time.Load()
	if latest < x.now {
		latest = x.now
	}
	r.Deaf = (&known{record: r}).deafAt(latest)
	r = x.noted(r)
	for try := 0; try < mostTries; try++ {
		before := is.Epoch
		if err := s.write(ctx, x, r, x.run, true); err != nil {
			return err
		}
		if is.Epoch != before && is.Deaf >= plus(uint64(latest)/uint64(time.Second), is.Lasts) {
			s.log("the epoch ended: claims may be lost", "why", x.lost, "epoch", is.Epoch, "deaf", is.Deaf)
			return nil
		}
	}
	return failed("end the epoch", errors.New("other members write records too"))
}

// missed says what of the store is lost, "" for nothing.
func (s *Store) missed(ctx context.Context, x exam) (string, error) {
	is, now, own, c, w := x.is, x.now, x.own, x.all[ofClaims], x.all[ofWithdrawals]
	switch {
	case is.Claims != 0 && c.Created.UnixNano() != is.Claims:
		return "the claims' stream was made anew", nil
	case is.Claims != 0 && w.Created.UnixNano() != is.Withdrawals:
		return "the withdrawals' stream was made anew", nil
	case c.State.Last < x.last || w.State.Last < x.lastWithdrawal:
		return "the streams end before what they acknowledged", nil
	case c.State.Deleted > is.Deleted:
		return fmt.Sprintf("claims are gone: %d between the first one and the last one, and %d before", c.State.Deleted, is.Deleted), nil
	case w.State.Deleted > is.Gone:
		return fmt.Sprintf("withdrawals are gone: %d between the first one and the last one, and %d before", w.State.Deleted, is.Gone), nil
	}
	if now+int64(seconds(is.Back)) < s.time.Load() || now+int64(seconds(is.Back)) < is.Began {
		return fmt.Sprintf("the store's time went back to %d", now/int64(time.Second)), nil
	}
	if why := s.front(is, c, now, ofClaims, is.First); why != "" {
		return why, nil
	}
	if why := s.front(is, w, now, ofWithdrawals, is.FirstWithdrawal); why != "" {
		return why, nil
	}
	if own.time != 0 && now-own.time < int64(age(is.terms()))/2 {
		m, err := s.get(ctx, ofClaims, bySubject(s.subjectOf(&own.claim)), is.isAlone)
		if err != nil && !errors.Is(err, errNone) {
			return "", failed("look for the last own claim", err)
		}
		// (Another member may have claimed the token since, at the same position.)
		if err != nil || m.Position != own.position || !bytes.Equal(m.Data, own.claim.Owner[:]) {
			return "the last own claim is gone: the store has lost what it acknowledged", nil
		}
	}
	return "", nil
}

// A sample says which position a stream had at a time.
type sample struct {
	time int64
	last uint64
}

// front says what is lost in front of a stream's first message: what came after a sample must be there until it has the stream's age, unless it
// was gone when the epoch began, at the position first.
func (s *Store) front(is *known, i *info, now int64, k kind, first uint64) string {
	keeps := i.Config.Number("max_age")
	if keeps == 0 {
		keeps = 1 << 62
	}
	all := s.samples[k]
	if len(all) == 0 {
		all = append(all, sample{i.Created.UnixNano(), 0})
	}
	for len(all) > 1 && now-all[1].time >= keeps {
		all = all[1:]
	}
	slack := int64(seconds(is.Back)) + int64(time.Second)
	for _, one := range all {
		if i.State.First > one.last+1 && i.State.First > first && now-one.time < keeps-slack {
			return fmt.Sprintf("messages are gone from the beginning of %s, and are too young for that", s.stream(k))
		}
	}
	if now-all[len(all)-1].time >= keeps/64 {
		all = append(all, sample{now, i.State.Last})
	}
	s.samples[k] = all
	return ""
}
