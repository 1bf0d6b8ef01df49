package jetstream

import (
	"errors"
	"fmt"
	"strings"
	"time"

	"github.com/nats-io/nats.go"

	"svid.example/go/v3/internal/brief"
	"svid.example/go/v3/internal/pause"
	"svid.example/go/v3/internal/streams"
)

const (
	idleUntilReady  = time.Second      // without a value, before the reader asks how far the bucket is
	idleWait        = 5 * time.Second  // the same once it has caught up
	ownWait         = time.Second / 10 // without a value though an own one is stored, before the reader asks for it: a claim waits for it
	mostLack        = 10               // of these, before another feed is begun
	stallWait       = 10 * time.Second // without a value that is there, before reading begins again; longer after each time in vain
	mostAnewWait    = time.Second / 4  // between two beginnings
	lossWait        = 3 * time.Second  // for which the broker must say that values are lost, before they are
	lossPause       = time.Second / 4  // between two questions about that
	doubtPause      = heartbeat / 2    // behind a value, and between two questions, before a heartbeat is doubted
	mostAtOnce      = 256              // values are given to the sink
	mostBytesAtOnce = 1 << 20          // of these, before the last
)

var (
	errGone = errors.New("someone removed them, or the broker lost them: whether they claim a token is unknown to sidecars that " +
		"have not read them")
	errAnother = errors.New("the bucket is another one than before, or has lost values")
)

// A reader reads the bucket's values in their order, and goes on after the last one after whatever happened to the
// broker.
type reader struct {
	group  *Group
	bucket bucket
	seen   uint64    // the position of the last value that was read, or of the last one that was gone before
	stamp  time.Time // when the broker stored that value; zero if it was not read
	since  time.Time // no value behind that one was stored before; zero if nothing is known
	last   time.Time // when a value came, or reading began

	look    time.Time // when idle asked for the bucket's state last
	doubted time.Time // when doubt did
	gone    time.Time // since when idle finds that all values behind the last one are gone; zero if it does not
	lack    int       // how often in a row idle found an own value stored that the feed has not brought
	pulled  bool      // values were asked for, and the feed has brought nothing since
	forget  string    // what was said about settings by which the bucket may lose values

	anew bool          // the bucket is read from its first value again
	room []Value       // for values to take at once
	wait time.Duration // for the broker's answer where reading begins

	// How often reading began again since a value came: a broker that is slow to begin must get the time for it.
	vain int
}

// watch reads until the group is closed.
func (g *Group) watch(b bucket) {
	defer g.tasks.Done()
	r := reader{group: g, wait: readWait}
	r.begin(b, false)
	said, behind, rest := "", uint64(0), attemptPause
	for g.life.Err() == nil {
		err := r.read()
		if g.life.Err() != nil {
			return
		}
		if rest = longer(rest, mostAnewWait); r.seen != behind {
			rest = attemptPause
		}
		if brief.Cause(err) != said || r.seen != behind {
			event := "another feed"
			if r.anew {
				event = "reading the bucket anew"
			}
			g.log(event, "behind", r.seen, "why", err)
		}
		r.anew = false
		said, behind = brief.Cause(err), r.seen
		pause.For(g.life, rest)
	}
}

// longer is how long to wait after one more failure: a broker that was away for hours is found as soon as one that was away for seconds.
func longer(wait, most time.Duration) time.Duration {
	if wait *= 2; wait > most {
		wait = most
	}
	return wait
}

// front says that values are gone which the bucket had before this member read it, and whether they may still live.
func (r *reader) front() (missed bool) {
	b := r.bucket
	if b.first == 1 {
		return false
	}
	fields := []any{"first", b.first, "made", b.created.UTC().Format(time.RFC3339), "keeps", b.keeps.String()}
	if missed = !r.mayHaveExpired(); missed {
		fields = append(fields, "why", errGone)
	}
	r.group.log("values before the first one are gone", fields...)
	return missed
}

// mayHaveExpired says whether the values after the last one may be gone since the bucket kept them for its time.
func (r *reader) mayHaveExpired() bool {
	b := r.bucket
	return b.keeps > 0 && time.Since(b.created) >= b.keeps && (r.since.IsZero() || time.Since(r.since) >= b.keeps)
}

// read reads values after the last one until something is wrong.
func (r *reader) read() error {
	r.catchUp()
	f, isSlow, err := r.feed()
	if errors.Is(err, nats.ErrStreamNotFound) {
		return r.reopen()
	}
	if isSlow {
		r.wait = longer(r.wait, mostReadWait)
	}
	if err != nil {
		return err
	}
	defer f.close()
	r.wait, r.last = readWait, time.Now()
	if err := r.isSame(); err != nil {
		return err
	}
	for {
		these, err := f.next(r.patience())
		if errors.Is(err, errNoValue) {
			err = r.idle(f)
		} else if err == nil {
			err = r.values(f, these)
		}
		if err != nil {
			return err
		}
	}
}

// feed lets the broker send the values after the last one. While the server is elected that does so, the reader asks for
// own values itself.
func (r *reader) feed() (f *feed, isSlow bool, err error) {
	position, done := r.seen+1, make(chan struct{})
	go func() {
		defer close(done)
		f, isSlow, err = r.group.feedFrom(position, r.wait)
	}()
	for {
		select {
		case <-done:
			return f, isSlow, err
		case <-time.After(ownWait):
			r.pull()
		}
	}
}

// pull asks for the values after the last one, each by itself, where the broker has stored an own one that no feed has brought.
// The bucket's leader answers, whatever else is elected. What may be wrong is left to who reads the feed.
func (r *reader) pull() {
	g := r.group
	var all []Value
	seen, stamp := r.seen, r.stamp
	// (not for long: until this ends the broker has no answer to what it asks, and the feed stands still)
	for last, begun := g.stored.Load(), time.Now(); seen < last && len(all) < mostAtOnce && !stamp.IsZero() && time.Since(begun) < attemptWait; seen++ {
		v, err := g.get(g.life, attemptWait, map[string]any{"seq": seen + 1})
		if err != nil || v.Position != seen+1 {
			break
		}
		all, stamp = append(all, g.valueAt(v.Subject, v.Data, v.Position)), v.Time
	}
	if len(all) == 0 {
		return
	}
	// They stand after the last one only if that is still there.
	if is, err := g.get(g.life, attemptWait, map[string]any{"seq": r.seen}); err != nil || !is.Time.Equal(r.stamp) {
		return
	}
	r.seen, r.stamp, r.since, r.gone, r.last, r.pulled = seen, stamp, stamp, time.Time{}, time.Now(), true
	g.take(all)
	r.catchUp()
}

func (r *reader) patience() time.Duration {
	if r.isReady() {
		return ownWait
	}
	return idleUntilReady
}

// values gives values to the sink, and answers the broker behind them.
func (r *reader) values(f *feed, these *gathered) error {
	all, subjects, now := r.room[:0], string(these.subjects), time.Now()
	var wrong error
	data, subject := uint32(0), uint32(0) // where those of the next value begin
	for _, v := range these.values {
		message, key := these.data[data:v.data:v.data], subjects[subject:v.subject]
		data, subject = v.data, v.subject
		f.given++
		r.pulled = false
		stamp := time.Unix(0, v.stamp)
		if r.wasRead(v.position, stamp) {
			r.lack = 0
			continue
		}
		if v.position <= r.seen {
			wrong = errAnother
			break
		}
		if v.position-1 > r.seen {
			r.group.take(all)
			all = all[:0]
			r.missing(v.position - 1)
		}
		r.seen, r.stamp, r.since, r.gone, r.last, r.vain, r.lack = v.position, stamp, stamp, time.Time{}, now, 0, 0
		all = append(all, r.group.valueAt(key, message, v.position))
	}
	r.group.take(all)
	r.room = all
	for i := range all {
		all[i] = Value{} // The room keeps no message alive.
	}
	if wrong == errAnother {
		r.begin(r.bucket, true)
	}
	r.catchUp()
	switch {
	case wrong != nil:
		return wrong
	case these.control != nil:
		isOther, err := f.control(these.control)
		if isOther && err == nil {
			err = r.doubt()
		}
		return err
	}
	return these.err
}

// doubt asks the bucket, where a heartbeat counts other values than were read. If the bucket has more, the feed has skipped them. If it
// has not, it is the heartbeat of another feed: a member that lies can let the broker send it here, and must not end this feed by it.
// While values come, their own numbers show whether one is missing.
func (r *reader) doubt() error {
	if time.Since(r.last) < doubtPause || time.Since(r.doubted) < doubtPause {
		return nil
	}
	r.doubted = time.Now()
	info, err := r.group.info(r.group.life, attemptWait)
	if err != nil || info.State.Last <= r.seen {
		return nil // (idle finds out what an error means)
	}
	return errSkipped
}

// wasRead says whether a value is one that was read before. A server that is behind the others sends those, before it comes
// to the first one that is asked for. The value that was read last shows that it is the same bucket (isSame).
func (r *reader) wasRead(position uint64, stamp time.Time) bool {
	return !r.stamp.IsZero() && (position < r.seen || position == r.seen && stamp.Equal(r.stamp))
}

// missing skips values after the last one, up to this later position, that were gone before they were read. The sink sees that by
// the position of the next value, unless they may have expired: then it begins again after them.
func (r *reader) missing(to uint64) {
	fields := []any{"from", r.seen + 1, "to", to}
	expired := r.mayHaveExpired()
	if !expired {
		fields = append(fields, "why", errGone)
	}
	r.group.log("values are gone", fields...)
	r.seen, r.stamp = to, time.Time{}
	if expired {
		r.group.begin(Log{Passed: to, Ready: r.bucket.last})
	}
}

// isSame returns nil if the bucket still has the value that was read last, at its position: then what comes after it goes on
// where reading ended. A broker that lost its last values with its power gives their positions to others, which would be
// passed over, so all is read again then.
func (r *reader) isSame() error {
	g := r.group
	info, err := r.ask()
	if err != nil {
		return err
	}
	r.mind(info.Config)
	if lost, err := r.isLost(&info, r.ask); err != nil || lost {
		return err
	}
	if r.stamp.IsZero() {
		return nil
	}
	m, err := g.get(g.life, readWait, map[string]any{"seq": r.seen})
	switch {
	case errors.Is(err, nats.ErrMsgNotFound): // It has expired, or someone removed it. Nothing else took its place.
		return nil
	case err != nil:
		return err
	case !m.Time.Equal(r.stamp):
		r.begin(bucketOf(info), true)
		return errors.New("the bucket has another value than before at the position of the last one: the broker has lost values")
	}
	return nil
}

// isOther says whether the bucket is another one than before, or has no value any more at the position of the last one.
func (r *reader) isOther(info streamInfo) bool {
	return !info.Created.Equal(r.bucket.created) || info.State.Last < r.seen
}

// isLost says whether the bucket is another one, or has lost its last values: then reading begins again, and the error says so. A
// server that was just elected may not have read yet all that it has, so the broker must say the same for a while.
func (r *reader) isLost(info *streamInfo, ask func() (streamInfo, error)) (lost bool, err error) {
	for from := time.Now(); r.isOther(*info); {
		if time.Since(from) > lossWait {
			r.begin(bucketOf(*info), true)
			return true, errAnother
		}
		pause.For(r.group.life, lossPause)
		if *info, err = ask(); err != nil {
			return false, err
		}
	}
	return false, nil
}

func (r *reader) ask() (streamInfo, error) { return r.group.info(r.group.life, readWait) }

// mind says that someone changed the bucket, so that it may lose values. Who has read them goes on: the next one to join
// does not.
func (r *reader) mind(c streams.Config) {
	err := r.group.keeps(c)
	if err == nil {
		r.forget = ""
		return
	}
	r.group.logChange(&r.forget, "bucket", err)
}

// valueAt reads a value's key. One that no member wrote is taken as uses, and put aside if it is none.
func (g *Group) valueAt(subject string, message []byte, position uint64) Value {
	v := Value{Kind: Uses, Position: position, Message: message, From: subject}
	if strings.HasPrefix(strings.TrimPrefix(subject, g.subject), "c.") {
		v.Kind = Claims
	}
	return v
}

// catchUp says that the group is ready once all is read that the bucket held at the beginning.
func (r *reader) catchUp() {
	if !r.isReady() && r.seen >= r.bucket.last {
		close(r.group.ready)
	}
}

func (r *reader) isReady() bool {
	select {
	case <-r.group.ready:
		return true
	default:
		return false
	}
}

// idle looks at the bucket where no value has come for a while. An error says that reading must begin again.
func (r *reader) idle(f *feed) error {
	if r.group.Connected() && time.Since(f.heard) > silence {
		return errSilent
	}
	if r.lack++; r.group.stored.Load() <= r.seen && !r.pulled {
		r.lack = 0
	}
	r.pull()
	isLate := r.lack > mostLack<<r.vain // Where reading began in vain before, it gets more time.
	if r.isReady() && !isLate && time.Since(r.look) < idleWait {
		return nil
	}
	r.look = time.Now()
	info, err := r.group.info(r.group.life, attemptWait)
	switch {
	case errors.Is(err, nats.ErrStreamNotFound):
		return r.reopen()
	case err != nil:
		return nil // The broker is away, which the connection's handlers log.
	}
	r.mind(info.Config)
	if lost, err := r.isLost(&info, r.ask); lost {
		return err
	} else if err != nil {
		return nil
	}
	if info.State.Last > r.seen && (info.State.First > info.State.Last || r.isLast()) {
		// All values after the last one are gone, if the broker says so for a while.
		if r.gone.IsZero() {
			r.gone = time.Now()
		}
		if time.Since(r.gone) > lossWait {
			r.missing(info.State.Last)
			r.catchUp()
		}
		return nil
	}
	r.gone = time.Time{}
	switch {
	case info.State.Last == r.seen && !isLate:
		r.since = time.Now()
	case r.pulled && isLate || info.State.Last > r.seen && (isLate || time.Since(r.last) > stallWait<<r.vain):
		r.lack, r.pulled = 0, false
		if r.vain < 3 {
			r.vain++
		}
		return fmt.Errorf("no value came after %d, and %d is there", r.seen, info.State.Last)
	case info.State.Last == r.seen && isLate: // The own value is lost, or was one of an earlier bucket.
		r.group.stored.Store(r.seen)
	}
	return nil
}

// isLast says whether the bucket has no value after the last one that was read. The bucket's leader knows it: the server that
// feeds this reader may be after.
func (r *reader) isLast() bool {
	_, err := r.group.get(r.group.life, attemptWait, map[string]any{"seq": r.seen + 1, "next_by_subj": r.group.subject + ">"})
	return errors.Is(err, nats.ErrMsgNotFound)
}

// reopen makes the bucket again where someone removed it.
func (r *reader) reopen() error {
	b, err := r.group.openBucket(r.group.life, removing)
	if err != nil {
		return err
	}
	if b.created.Equal(r.bucket.created) && b.last >= r.seen {
		return errors.New("the bucket was not found, and is there again")
	}
	r.begin(b, true)
	return errors.New("the bucket was gone, and was made anew")
}

// begin lets the reader read a bucket from its beginning. lost says that it read another one before, or values that are lost:
// there may have been more of them.
func (r *reader) begin(b bucket, lost bool) {
	r.anew, r.pulled = lost, false
	r.group.stored.Store(0)
	r.bucket, r.seen, r.stamp, r.since, r.gone, r.vain, r.lack = b, b.first-1, time.Time{}, time.Time{}, time.Time{}, 0, 0
	missed := r.front()
	if b.last < b.first {
		r.since = time.Now()
	}
	r.group.begin(Log{Passed: r.seen, Ready: b.last, Missed: missed || lost})
}
