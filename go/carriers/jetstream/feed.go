package jetstream

import (
	"context"
	"errors"
	"fmt"
	"strconv"
	"strings"
	"sync"
	"time"

	"github.com/nats-io/nats.go"
)

const (
	heartbeat   = 2 * time.Second // of the broker where it has no value
	silenceWait = 5 * time.Second // in which two heartbeats are missing

	// mostGathered is how many bytes wait for the reader, by the room that they have. The broker sends fewer before it waits for an
	// answer (32 MB, with what it sends around each value).
	mostGathered = 32 << 20
	// ofControl is how many of them a message counts that is no value, beside its texts.
	ofControl = 1 << 10
	// ofArrived is how many of them a value counts, beside its bytes and its subject.
	ofArrived = 24
)

// silence is how long the broker may say nothing. Tests alone change it.
var silence = silenceWait

var (
	errNoValue = errors.New("no value came in time")
	errSkipped = errors.New("the broker's feed has skipped values, which the bucket has")
	errSilent  = fmt.Errorf("the broker said nothing for %v", silenceWait)
)

// A feed is the bucket's values from a position on, as the broker sends them.
//
// The client has a subscription of this kind (an "ordered consumer"), which a member that lies can stop: a value may have
// the header by which the broker marks its heartbeats, and the client then skips the value, misses it, begins again
// at its position, and so on for ever. So a feed takes for a value what the broker sends as one, whatever its header is.
//
// The client's goroutine gathers what comes, so that it is read while more comes, and takes little room until then.
type feed struct {
	group    *Group
	consumer string // the broker's name for the feed
	front    string // what the broker's words about a value begin with
	inbox    *nats.Subscription
	named    chan struct{} // closed once consumer and front are known
	done     chan struct{}
	came     chan struct{} // something is there to be read
	read     chan struct{} // something was read

	// Of the client's goroutine:
	isNamed bool
	isOver  bool   // the feed is of no use any more
	number  uint64 // of the last value that came, in this feed

	mu    sync.Mutex
	all   []*gathered // what came, in its order; guarded by mu
	bytes int         // that these count; guarded by mu
	usual room        // for the next ones; guarded by mu

	// Of the reader:
	given uint64    // the number of the last value that was read
	heard time.Time // when something was read last
}

// gathered is what came one after the other: values, and behind them a message that is none, or why the feed ends.
type gathered struct {
	values   []arrived
	data     []byte // of the values
	subjects []byte // of the values
	control  *control
	err      error
}

// A control is what counts of a message that is no value. The message is not kept: who lets the broker answer a question here, as it
// answers one wherever that asks it to, sends as many bytes as a value has.
type control struct {
	asks [2]string // where the broker wants an answer; "" for nowhere
	sent string    // the number of the last value that it has sent; "" where it does not say so
}

// A room says how much one that is gathered has room for.
type room struct{ values, data, subjects int }

// An arrived is a value as it came. It has no pointer, since there may be very many.
type arrived struct {
	position      uint64
	stamp         int64  // when the broker stored it, in nanoseconds
	data, subject uint32 // where they end
}

// feedFrom lets the broker send values. It waits so long for the broker's answer; isSlow says that it took longer.
func (g *Group) feedFrom(position uint64, wait time.Duration) (f *feed, isSlow bool, err error) {
	// The one server that makes feeds says nothing while the others elect it. To ask it first costs less than to wait for
	// the answer to a request that nobody got.
	if err := g.ask(g.life, attemptWait, "INFO", nil, new(struct{})); err != nil {
		return nil, false, err
	}
	f = newFeed(g)
	nc := g.connection()
	inbox := nc.NewInbox()
	f.inbox, err = nc.Subscribe(inbox, f.arrive)
	if err != nil {
		return nil, false, err
	}
	// No subject is named: the broker would look at each one of the bucket to count those that fit, and take a minute
	// for a million.
	request := map[string]any{"stream_name": g.stream, "config": nats.ConsumerConfig{
		DeliverSubject: inbox, DeliverPolicy: nats.DeliverByStartSequencePolicy, OptStartSeq: position,
		AckPolicy: nats.AckNonePolicy, MaxDeliver: 1, Heartbeat: heartbeat, FlowControl: true, Replicas: 1, MemoryStorage: true,
	}}
	var made struct{ Name string }
	if err := g.ask(g.life, wait, "CONSUMER.CREATE."+g.stream, request, &made); err != nil {
		f.close()
		return nil, errors.Is(err, context.DeadlineExceeded), err
	}
	f.name(made.Name)
	return f, false, nil
}

func newFeed(g *Group) *feed {
	return &feed{group: g, named: make(chan struct{}), done: make(chan struct{}), came: make(chan struct{}, 1), read: make(chan struct{}, 1), heard: time.Now()}
}

// name says how the broker calls the feed.
func (f *feed) name(consumer string) {
	f.consumer, f.front = consumer, acknowledge+f.group.stream+"."+consumer+"."
	close(f.named)
}

// close ends the feed. The broker forgets it after some seconds in which nobody listens: a member that could let it forget
// its own one at once could end those of others too.
func (f *feed) close() {
	close(f.done)
	_ = f.inbox.Unsubscribe()
}

// acknowledge begins the subject at which a value would be acknowledged. The broker alone chooses that, and gives it to each value.
const acknowledge = "$JS.ACK."

// arrive gathers a message. The client calls it in one goroutine.
func (f *feed) arrive(m *nats.Msg) {
	if !f.isNamed {
		select {
		case <-f.named:
			f.isNamed = true
		case <-f.done:
			return
		}
	}
	if f.isOver {
		return
	}
	if !strings.HasPrefix(m.Reply, acknowledge) {
		c := &control{[2]string{m.Reply, m.Header.Get("Nats-Consumer-Stalled")}, m.Header.Get("Nats-Last-Consumer")}
		f.gather(func(g *gathered) { g.control = c })
		return
	}
	about, own, err := f.about(m)
	if err == nil && !own {
		return // Someone lets the broker send other values here.
	}
	if f.number++; err == nil && about.number != f.number {
		err = errSkipped
	}
	if err != nil {
		f.isOver = true
		f.gather(func(g *gathered) { g.err = err })
		return
	}
	f.gather(func(g *gathered) {
		if g.values == nil {
			u := f.usual
			g.values, g.data, g.subjects = make([]arrived, 0, u.values), make([]byte, 0, u.data), make([]byte, 0, u.subjects)
		}
		g.data, g.subjects = append(g.data, m.Data...), append(g.subjects, m.Subject...)
		g.values = append(g.values, arrived{about.position, about.stamp, uint32(len(g.data)), uint32(len(g.subjects))})
	})
}

// gather lets something be added to what came last, and waits while too much is there.
func (f *feed) gather(add func(g *gathered)) {
	f.mu.Lock()
	for f.bytes > mostGathered {
		f.mu.Unlock()
		select {
		case <-f.read:
		case <-f.done:
			return
		}
		f.mu.Lock()
	}
	var g *gathered
	if n := len(f.all); n > 0 {
		g = f.all[n-1]
	}
	if g == nil || g.isFull() {
		g = new(gathered)
		f.all = append(f.all, g)
	}
	before := g.size()
	add(g)
	f.bytes += g.size() - before
	f.mu.Unlock()
	select {
	case f.came <- struct{}{}:
	default:
	}
}

// isFull says whether what comes next is to be gathered behind it.
func (g *gathered) isFull() bool {
	return g.control != nil || g.err != nil || len(g.values) == mostAtOnce || len(g.data) > mostBytesAtOnce
}

// size is how many bytes it counts as.
func (g *gathered) size() int {
	size := cap(g.data) + cap(g.subjects) + ofArrived*cap(g.values)
	if c := g.control; c != nil {
		size += ofControl + len(c.asks[0]) + len(c.asks[1]) + len(c.sent)
	}
	return size
}

// about is what the broker says about a value.
type about struct {
	position, number uint64
	stamp            int64
}

// about reads what the broker says about a value. own says that it is one of this feed.
func (f *feed) about(m *nats.Msg) (a about, own bool, err error) {
	if strings.HasPrefix(m.Reply, f.front) && a.read(m.Reply[len(f.front):]) {
		return a, true, nil
	}
	said, err := m.Metadata()
	if err != nil {
		return about{}, false, err
	}
	a = about{said.Sequence.Stream, said.Sequence.Consumer, said.Timestamp.UnixNano()}
	return a, said.Stream == f.group.stream && said.Consumer == f.consumer, nil
}

// read reads five numbers: how often the value was sent, its position, its number in the feed, its time, and how many follow.
// (Metadata of the client reads all forms that there are, in four times the time.)
func (a *about) read(text string) bool {
	var numbers [5]uint64
	at := 0
	for i := range numbers {
		from := at
		for ; at < len(text) && text[at] != '.'; at++ {
			digit := uint64(text[at]) - '0'
			if digit > 9 {
				return false
			}
			numbers[i] = numbers[i]*10 + digit
		}
		if at == from || at-from > 18+1 || (at == len(text)) != (i == len(numbers)-1) {
			return false
		}
		at++
	}
	*a = about{position: numbers[1], number: numbers[2], stamp: int64(numbers[3])}
	return true
}

// next returns what came next, or errNoValue if nothing comes in time.
func (f *feed) next(wait time.Duration) (*gathered, error) {
	if g := f.pop(); g != nil {
		return g, nil
	}
	timer := time.NewTimer(wait)
	defer timer.Stop()
	for {
		select {
		case <-f.came:
			if g := f.pop(); g != nil {
				return g, nil
			}
		case <-timer.C:
			return nil, errNoValue
		case <-f.group.life.Done():
			return nil, f.group.life.Err()
		}
	}
}

// pop takes what came first, or nil where nothing is there.
func (f *feed) pop() *gathered {
	f.mu.Lock()
	defer f.mu.Unlock()
	if len(f.all) == 0 {
		return nil
	}
	g := f.all[0]
	f.all[0] = nil
	if f.all = f.all[1:]; len(f.all) == 0 {
		f.all = nil
	}
	f.bytes -= g.size()
	if len(g.values) > 0 {
		// (As many come at once the next time, with some more digits.)
		f.usual = room{len(g.values), len(g.data), len(g.subjects) + len(g.values)}
	}
	select {
	case f.read <- struct{}{}:
	default:
	}
	f.heard = time.Now()
	return g
}

// control answers the broker, which asks whether all was read that it has sent. isOther says that it has sent another number of values than
// were read: it lost some on their way, or someone lets it send the heartbeats of another feed here.
func (f *feed) control(c *control) (isOther bool, err error) {
	for _, asks := range c.asks {
		if strings.HasPrefix(asks, "$JS.FC."+f.group.stream+".") {
			if err := f.group.connection().Publish(asks, nil); err != nil {
				return false, err
			}
		}
	}
	return c.sent != "" && c.sent != strconv.FormatUint(f.given, 10), nil
}
