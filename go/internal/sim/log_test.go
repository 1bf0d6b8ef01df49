package sim

import (
	"sort"
	"time"

	"svid.example/go/v3/carriers"
	"svid.example/go/v3/internal/server"
	"svid.example/go/v3/svid"
)

// keeps is how long the log keeps a value, and how long a store that has lost entries accepts no token.
const keeps = (longest + 2*ahead) * time.Second

// A logServer is the group's log, as a Group promises it: values have one order, and stay until they are too old, unless
// someone removes them. Members see by the positions that values are missing, or the server tells them.
type logServer struct {
	w      *world
	values []stored      // in the order of their positions
	last   uint64        // the position of the last one that it was given
	gone   uint64        // values up to this position were too old
	away   time.Duration // nobody reaches the server before this time
	copies int           // how often an older copy was put back
}

// A stored is a value that the log has.
type stored struct {
	position uint64
	kind     carriers.Kind
	uses     []svid.Use
	message  []byte
	at       time.Duration
}

// append puts a value at the end.
func (s *logServer) append(kind carriers.Kind, message []byte, uses []svid.Use) {
	s.last++
	s.values = append(s.values, stored{s.last, kind, uses, message, s.w.now})
	s.w.tell("log: value %d has %s", s.last, names(uses))
	for _, m := range s.w.members {
		if m.life != nil {
			m.life.pumpSoon(m.delay(kindRead))
		}
	}
}

// expire removes what is too old.
func (s *logServer) expire() {
	for len(s.values) > 0 && s.values[0].at+keeps < s.w.now {
		if s.gone = s.values[0].position; s.gone > s.last {
			s.gone = s.last
		}
		s.values = s.values[1:]
	}
	s.w.after(3*time.Second, s.expire)
}

// first is the position of the first value that it has, or the one behind the last.
func (s *logServer) first() uint64 {
	if len(s.values) == 0 {
		return s.last + 1
	}
	return s.values[0].position
}

// next is the first value behind a position, or nil.
func (s *logServer) next(position uint64) *stored {
	i := sort.Search(len(s.values), func(i int) bool { return s.values[i].position > position })
	if i == len(s.values) {
		return nil
	}
	return &s.values[i]
}

// remove lets someone remove a value.
func (s *logServer) remove(number int) {
	if len(s.values) == 0 {
		return
	}
	i := number % len(s.values)
	s.w.tell("log: value %d is removed", s.values[i].position)
	s.values = append(append([]stored(nil), s.values[:i]...), s.values[i+1:]...)
}

// putBack puts an older copy back, which lacks the last values: members lose their connections, and hear of it.
func (s *logServer) putBack(number int) {
	if number > len(s.values) {
		number = len(s.values)
	}
	s.values = s.values[: len(s.values)-number : len(s.values)-number]
	if s.last = s.gone; len(s.values) > 0 {
		s.last = s.values[len(s.values)-1].position
	}
	s.copies++
	s.w.tell("log: an older copy, up to value %d", s.last)
	for _, m := range s.w.members {
		if m.life != nil {
			m.life.pumpSoon(m.delay(kindRead)) // The connection is lost, and made again.
		}
	}
}

// use appends a use by who is no member; none that no message can tell.
func (s *logServer) use(use svid.Use, uses []svid.Use) {
	if message, err := use.Batch(); err == nil {
		s.append(carriers.Uses, message, uses)
	}
}

// send puts a value into the log, and tries for as long as the machine wants. Each try may be late, and its answer lost.
func (l *life) send(p *server.Put) {
	w, m := l.m.w, l.m
	end := w.now + p.Within
	done := false
	land := func(err error) {
		if !l.dead && !done {
			done = true
			p.Err = err
			l.step(server.Landed{Put: p})
		}
	}
	message, err := svid.Batches(p.Uses)
	if err != nil {
		w.fail("%v", err)
		return
	}
	uses := append([]svid.Use(nil), p.Uses...)
	var try func()
	try = func() {
		if l.dead || done || w.now >= end {
			return
		}
		request, answer := m.delay(kindSend), m.delay(kindLand)
		losesAnswer := m.answersLost > 0
		if losesAnswer && !w.healed {
			m.answersLost--
		}
		w.after(request, func() { // (it may come after the end of the process that sent it)
			if w.log.away > w.now || m.cutOff() {
				w.after(50*time.Millisecond, try)
				return
			}
			w.log.append(p.Kind, message, uses)
			if losesAnswer && !w.healed {
				w.tell("%v: the answer to that is lost", m)
				w.after(time.Second, try)
				return
			}
			at := w.wall()
			w.after(answer, func() {
				if p.Timed {
					p.At = at
				}
				land(nil)
			})
		})
	}
	try()
	w.at(end, func() { land(errLate) })
}
