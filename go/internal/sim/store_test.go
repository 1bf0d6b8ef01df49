package sim

import (
	"time"

	"svid.example/go/v3/claims"
	"svid.example/go/v3/claims/memory"
	"svid.example/go/v3/internal/server"
	"svid.example/go/v3/svid"
)

// back is how many seconds the store's clock may step back.
const back = 5

// terms are those of the store.
var terms = claims.Terms{Lasts: longest + 2*ahead, Margin: ahead + back, Back: back}

// gone is a withdrawal that was answered as done: whose claim the store had, when, and how often it had lost entries.
type gone struct {
	by   claims.Owner
	at   time.Duration
	lost int
}

// A storeServer is the group's store, as claims.Store promises it: what it loses ends its epoch.
type storeServer struct {
	memory.Store
	w      *world
	offset time.Duration // its clock is ahead by so much
	away   time.Duration // nobody reaches it before this time
	lost   int           // how often it has lost entries

	ever map[svid.TokenKey]map[claims.Owner]bool // whose claims it took first
	puts [][]claims.Claim                        // that came
	gone map[svid.TokenKey]gone                  // tokens whose withdrawal was answered as done, and whose claim the store had; claims.Withdrawn for nobody's
	told map[svid.TokenKey]int                   // how often it had lost entries when it took the withdrawal of a token
}

func newStore(w *world) *storeServer {
	s := &storeServer{w: w, ever: map[svid.TokenKey]map[claims.Owner]bool{}, gone: map[svid.TokenKey]gone{}, told: map[svid.TokenKey]int{}}
	s.Store = memory.Store{Terms: terms, Now: func() uint64 { return base + uint64((w.now+s.offset)/time.Second) }}
	return s
}

// take puts claims, and keeps whose each is.
func (s *storeServer) take(these []claims.Claim, found []claims.Found) {
	s.Store.Put(nil, these, found)
	for i, c := range these {
		if found[i].Owner == c.Owner {
			if s.ever[c.Key] == nil {
				s.ever[c.Key] = map[claims.Owner]bool{}
			}
			s.ever[c.Key][c.Owner] = true
		}
	}
	s.w.tell("store: puts %d claims", len(these))
	if s.puts = append(s.puts, these); len(s.puts) > 8 {
		s.puts = s.puts[1:]
	}
}

// putAgain lets claims of before arrive once more.
func (s *storeServer) putAgain(number int) {
	if n := len(s.puts); n > 0 {
		s.take(s.puts[n-1-number%n], make([]claims.Found, len(s.puts[n-1-number%n])))
	}
}

// reached says whether a member reaches the store now.
func (m *member) reached() bool { return m.w.store.away <= m.w.now && !m.cutOff() }

// put puts claims into the store. The call may be late, also after the end of the process, and its answer may be late or lost.
func (l *life) put(b *server.Batch) {
	w, m := l.w, l.m
	these := append([]claims.Claim(nil), b.Claims...)
	done := false
	answer := func(found []claims.Found, err error) {
		if l.dead || done {
			return
		}
		done = true
		for i := range b.Found {
			if b.Found[i].Err = err; err == nil {
				b.Found[i] = found[i]
			}
		}
		l.step(server.Claimed{Batch: b})
	}
	losesAnswer := m.answersLost > 0 && !w.healed
	if losesAnswer {
		m.answersLost--
	}
	w.after(m.delay(kindSend), func() {
		if !m.reached() {
			w.after(m.delay(kindLand), func() { answer(nil, errAway) })
			return
		}
		found := make([]claims.Found, len(these))
		w.store.take(these, found)
		if losesAnswer {
			w.tell("%v: the answer to that is lost", m)
			w.after(m.delay(kindLand), func() { answer(nil, errAway) })
			return
		}
		w.after(m.delay(kindLand), func() { answer(found, nil) })
	})
	w.at(w.now+b.Within, func() { answer(nil, errLate) })
}

// withdrawAtStore does so for a withdrawal.
func (l *life) withdrawAtStore(s *server.StoreWithdraw) {
	w, m := l.w, l.m
	done := false
	answer := func(err error) {
		if !l.dead && !done {
			done = true
			s.Err = err
			l.step(server.Stored{StoreWithdraw: s})
		}
	}
	losesAnswer := m.answersLost > 0 && !w.healed
	if losesAnswer {
		m.answersLost--
	}
	asked := s.Withdrawal
	w.after(m.delay(kindSend), func() {
		if !m.reached() {
			answer(errAway)
			return
		}
		owner, err := w.store.Withdraw(nil, asked)
		w.store.told[asked.Key] = w.store.lost
		if losesAnswer {
			err = errAway
		}
		w.after(m.delay(kindLand), func() {
			s.Owner = owner
			answer(err)
		})
	})
	w.at(w.now+s.Within, func() { answer(errLate) })
}

// openStore reaches the store, and looks at it each second from then on.
func (l *life) openStore() {
	if l.dead {
		return
	}
	if !l.m.reached() {
		l.w.after(100*time.Millisecond, l.openStore)
		return
	}
	state, _ := l.w.store.State(nil)
	l.step(server.StoreOpened{State: state})
	l.look()
}

// look asks the store what it is, and reads the withdrawals that are new.
func (l *life) look() {
	if l.dead {
		return
	}
	l.w.after(time.Second+l.m.delay(kindTick), l.look)
	if !l.m.reached() {
		return
	}
	state, _ := l.w.store.State(nil)
	if l.step(server.Looked{State: state}); l.dead {
		return
	}
	these, last, _ := l.w.store.Withdrawals(nil, l.position)
	h := &server.Heard{These: these, Whole: true}
	if l.step(h); l.dead || h.Err != nil {
		return
	}
	l.position = last
	for _, one := range these {
		if _, is := l.heard[one.Key]; !is {
			l.heard[one.Key] = l.w.now
		}
	}
}
