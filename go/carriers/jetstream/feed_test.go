package jetstream

import (
	"context"
	"fmt"
	"runtime"
	"strings"
	"testing"
	"time"

	"github.com/nats-io/nats.go"

	"svid.example/go/v3/internal/patience"
)

// What a feed gathers is read as it came: each value once, with its own bytes and key, and what is no value in its place.
func TestAFeedGathersInOrder(t *testing.T) {
	t.Parallel()
	g := &Group{stream: "KV_test", subject: "$KV.test.", ready: make(chan struct{}), life: context.Background()}
	f := newFeed(g)
	const many = 3*mostAtOnce + 7
	value := func(n int) []byte { return []byte(strings.Repeat(fmt.Sprint(n, "."), n%50)) }
	go func() {
		f.name("c")
		for n := 1; n <= many; n++ {
			f.arrive(&nats.Msg{Subject: fmt.Sprintf("$KV.test.%c.%d", "uc"[n%2], n), Sub: &nats.Subscription{}, Data: value(n),
				Reply: fmt.Sprintf("$JS.ACK.KV_test.c.1.%d.%d.%d.0", n, n, 1700000000000000000+n)})
			if n%100 == 0 {
				f.arrive(&nats.Msg{Header: nats.Header{"Nats-Last-Consumer": {fmt.Sprint(n)}}}) // (it is none of another number)
			}
			if n%37 == 0 { // This is of another feed.
				f.arrive(&nats.Msg{Sub: &nats.Subscription{}, Data: value(n), Reply: "$JS.ACK.KV_test.b.1.5.5.1700000000000000000.0"})
			}
		}
	}()
	taken := &tracking{of: g}
	g.sink = taken
	r := reader{group: g, bucket: bucket{last: many}}
	for end := time.Now().Add(patience.Long); !r.isReady(); {
		these, err := f.next(time.Until(end))
		if err == nil {
			err = r.values(f, these)
		}
		if err != nil {
			t.Fatal(err)
		}
	}
	for i, v := range taken.all {
		n := i + 1
		if kind := Kind("uc"[n%2]); v.Position != uint64(n) || string(v.Message) != string(value(n)) || v.From != fmt.Sprintf("$KV.test.%c.%d", kind, n) || v.Kind != kind {
			t.Fatalf("value %d is %+v", n, v)
		}
	}
	if len(taken.all) != many || r.seen != many || !r.stamp.Equal(time.Unix(0, 1700000000000000000+many)) {
		t.Errorf("%d values, up to %d of %v", len(taken.all), r.seen, r.stamp)
	}
}

// A tracking sink keeps the values as they are: nothing writes to them later. The group says that it is ready once all are taken, and not before.
type tracking struct {
	of  *Group
	all []Value
}

func (*tracking) Begin(Log) {}
func (s *tracking) Take(values []Value) []error {
	if s.all = append(s.all, values...); (&reader{group: s.of}).isReady() {
		panic("the group is ready before its values are taken")
	}
	return nil
}

// What waits for the reader has a bound, beyond which the client waits too, and nothing is lost.
func TestAFeedGathersNoMoreThanItMay(t *testing.T) {
	t.Parallel()
	for what, count := range map[string]func(n int, large []byte) *nats.Msg{
		"values": func(n int, large []byte) *nats.Msg {
			return &nats.Msg{Sub: &nats.Subscription{}, Data: large, Reply: fmt.Sprintf("$JS.ACK.KV_test.c.1.%d.%d.1700000000000000000.0", n, n)}
		},
		"other messages": func(int, []byte) *nats.Msg { return &nats.Msg{} },
	} {
		g := &Group{stream: "KV_test", sink: &tracking{}, ready: make(chan struct{}), life: context.Background()}
		f := newFeed(g)
		f.name("c")
		large, came, most := make([]byte, 1<<18), make(chan int, 1<<17), 2*mostGathered/(1<<18)
		if what != "values" {
			most = 2 * mostGathered / ofControl
		}
		go func() {
			defer close(came)
			for n := 1; n <= most; n++ {
				f.arrive(count(n, large))
				came <- n
			}
		}()
		held := func() int { f.mu.Lock(); defer f.mu.Unlock(); return f.bytes }
		for end := time.Now().Add(patience.Long); held() <= mostGathered && time.Now().Before(end); time.Sleep(time.Millisecond) {
		}
		time.Sleep(20 * time.Millisecond)
		if n := held(); n <= mostGathered || n > mostGathered+mostBytesAtOnce {
			t.Errorf("%s: %d bytes wait", what, n)
		}
		values := 0
		for n := 0; n < most; {
			these, err := f.next(patience.Long)
			if err != nil {
				t.Fatal(what, err)
			}
			if n += len(these.values); these.control != nil {
				n++
			}
			values += len(these.values)
		}
		for range came {
		}
		if n := held(); n != 0 || (values == most) != (what == "values") {
			t.Errorf("%s: %d bytes are left, %d values came of %d", what, n, values, most)
		}
		// Who waits is let go at the end.
		f.bytes = mostGathered + 1
		gone := make(chan struct{})
		go func() { defer close(gone); f.arrive(count(most+1, nil)) }()
		close(f.done)
		select {
		case <-gone:
		case <-time.After(patience.Long):
			t.Errorf("%s: it waits after the end", what)
		}
	}
}

// What waits counts by the room that it has, whatever was gathered before: a large value lets the room of the next ones be large, and those may be
// small, and each of them have another message behind it.
func TestTheRoomOfWhatIsGatheredCounts(t *testing.T) {
	t.Parallel()
	value := func(n int, data []byte) *nats.Msg {
		return &nats.Msg{Sub: &nats.Subscription{}, Data: data, Reply: fmt.Sprintf("$JS.ACK.KV_test.c.1.%d.%d.1700000000000000000.0", n, n)}
	}
	long := strings.Repeat("k", 4000) // (a server takes no line of more than 4,096 bytes)
	for what, small := range map[string]func(f *feed, n int){
		"other messages": func(f *feed, n int) { f.arrive(&nats.Msg{}) },
		"small values":   func(f *feed, n int) { f.arrive(value(n, []byte("a"))); f.arrive(&nats.Msg{}) },
		"long keys": func(f *feed, n int) {
			for i := 0; i < mostAtOnce/2; i++ { // (numbers rise by one)
				m := value(2+(n-2)*mostAtOnce/2+i, []byte("a"))
				m.Subject = long
				f.arrive(m)
			}
		},
	} {
		f := newFeed(&Group{stream: "KV_test", life: context.Background()})
		f.name("c")
		f.arrive(value(1, make([]byte, mostBytesAtOnce)))
		if _, err := f.next(patience.Long); err != nil {
			t.Fatal(err)
		}
		const many = 3 * mostGathered / mostBytesAtOnce
		came, end := make(chan struct{}), time.Now().Add(patience.Long)
		go func() {
			defer close(came)
			for n := 2; n < 2+many; n++ {
				small(f, n)
			}
		}()
		for isOver := false; !isOver && time.Now().Before(end); time.Sleep(time.Millisecond) {
			select {
			case <-came:
				isOver = true
			default:
				f.mu.Lock()
				isOver = f.bytes > mostGathered
				f.mu.Unlock()
			}
		}
		room := 0
		f.mu.Lock()
		for _, g := range f.all {
			room += cap(g.data) + cap(g.subjects)
		}
		f.mu.Unlock()
		if room > mostGathered+2*mostBytesAtOnce {
			t.Errorf("%s: %d bytes of room", what, room)
		}
		close(f.done)
		awaitEnd(t, what+" to end", came)
	}
}

// Of a message that is no value nothing is kept but what the broker asks and says: it may be of any length, and the broker answers a question
// wherever its asker wants that.
func TestAFeedKeepsNoOtherMessage(t *testing.T) {
	t.Parallel()
	f := newFeed(&Group{stream: "KV_test", life: context.Background()})
	f.name("c")
	gone := make(chan struct{})
	func() {
		m := &nats.Msg{Data: make([]byte, mostBytesAtOnce), Header: nats.Header{"Nats-Last-Consumer": {"1"}}}
		runtime.SetFinalizer(m, func(*nats.Msg) { close(gone) })
		f.arrive(m)
	}()
	for end := time.Now().Add(patience.Long); ; {
		runtime.GC()
		select {
		case <-gone:
		case <-time.After(10 * time.Millisecond):
			if time.Now().Before(end) {
				continue
			}
			t.Error("it is kept")
		}
		break
	}
	// What it says of the values counts, and how long that is.
	f.arrive(&nats.Msg{Reply: strings.Repeat("a", mostGathered)})
	if f.bytes <= mostGathered {
		t.Errorf("%d bytes wait", f.bytes)
	}
	for range [2]int{} {
		these, err := f.next(patience.Long)
		if err != nil || these.control == nil {
			t.Fatal(these, err)
		}
		if isOther, err := f.control(these.control); err != nil || isOther != (f.bytes > 0) {
			t.Errorf("%v %v, and %d bytes wait", isOther, err, f.bytes)
		}
	}
	if f.bytes != 0 {
		t.Errorf("%d bytes wait", f.bytes)
	}
}

// What the broker says about a value is read as the client of NATS reads it, in each form.
func TestWhatTheBrokerSaysAboutAValue(t *testing.T) {
	t.Parallel()
	f := newFeed(&Group{stream: "KV_test"})
	f.name("c")
	for reply, want := range map[string]struct {
		about
		own, bad bool
	}{
		"$JS.ACK.KV_test.c.1.7.8.1700000000000000001.9":                    {about: about{7, 8, 1700000000000000001}, own: true},
		"$JS.ACK._.hash.KV_test.c.1.7.8.1700000000000000001.9.token":       {about: about{7, 8, 1700000000000000001}, own: true},
		"$JS.ACK.domain.hash.KV_test.c.1.7.8.1700000000000000001.9.token":  {about: about{7, 8, 1700000000000000001}, own: true},
		"$JS.ACK.KV_test.d.1.7.8.1700000000000000001.9":                    {},
		"$JS.ACK.KV_tes.c.1.7.8.1700000000000000001.9":                     {},
		"$JS.ACK.domain.hash.KV_other.c.1.7.8.1700000000000000001.9.token": {},
		"$JS.ACK.KV_test.c.1.7.8.9":                                        {bad: true},
		"$JS.ACK.":                                                         {bad: true},
	} {
		got, own, err := f.about(&nats.Msg{Sub: &nats.Subscription{}, Reply: reply})
		if own != want.own || (err != nil) != want.bad || want.own && got != want.about {
			t.Errorf("%s: %+v, own %v, %v", reply, got, own, err)
		}
	}
	for _, text := range []string{"", "1.2.3.4", "1.2.3.4.", "1.2.3.4.5.", "1.2.3.4.5.6", "1..3.4.5", ".2.3.4.5", "1.2.3.4.x", "1.2.-3.4.5", "1.20000000000000000000.3.4.5", "a.2.3.4.5"} {
		if a := (about{}); a.read(text) {
			t.Errorf("%q is %+v", text, a)
		}
	}
}
