package nats

import (
	"context"
	"fmt"
	"path/filepath"
	"strings"
	"sync"
	"syscall"
	"testing"
	"time"

	"svid.example/go/v3/claims"
	"svid.example/go/v3/claims/claimstest"
	"svid.example/go/v3/internal/broker"
	"svid.example/go/v3/internal/logtest"
	"svid.example/go/v3/internal/natstest"
	"svid.example/go/v3/internal/patience"
)

// A crowd puts claims of the same keys at several members, each call until all is answered.
type crowd struct {
	t       *testing.T
	ledger  claimstest.Ledger
	mu      sync.Mutex
	longest time.Duration
	answers int
	by      map[int]int // by member
	epochs  int         // claims that were put again since the epoch ended
	all     []claims.Claim
	running sync.WaitGroup
	stop    chan struct{}
}

func newCrowd(t *testing.T, members ...claims.Store) *crowd {
	c := &crowd{t: t, stop: make(chan struct{}), by: make(map[int]int)}
	for n, store := range members {
		c.running.Add(1)
		go c.member(n, len(members), store)
	}
	t.Cleanup(c.end)
	return c
}

func (c *crowd) end() {
	select {
	case <-c.stop:
	default:
		close(c.stop)
	}
	c.running.Wait()
}

// key is the same at each member for the same number.
func (c *crowd) claim(i int) claims.Claim {
	c.mu.Lock()
	defer c.mu.Unlock()
	for len(c.all) <= i {
		c.all = append(c.all, claims.Claim{Key: claimstest.Key(), Expires: claimstest.Now() + 600})
	}
	return c.all[i]
}

func (c *crowd) member(n, members int, store claims.Store) {
	defer c.running.Done()
	for i := 0; ; i += 8 {
		select {
		case <-c.stop:
			return
		default:
		}
		these := make([]claims.Claim, 8)
		for k := range these {
			these[k] = c.claim(i + (k*(2*n+1)+n)%8)
			these[k].Owner = claimstest.Own(n)
		}
		begun := time.Now()
		for len(these) > 0 {
			found := make([]claims.Found, len(these))
			ctx, cancel := context.WithTimeout(context.Background(), patience.Long)
			store.Put(ctx, these, found)
			cancel()
			var again []claims.Claim
			for i, f := range found {
				switch claimstest.Judge(these[i], f, 60) {
				case claimstest.Mine:
					c.ledger.Accept(c.t, these[i])
				case claimstest.Undecided:
					again = append(again, these[i])
				}
			}
			c.mu.Lock()
			c.answers += len(these) - len(again)
			c.by[n] += len(these) - len(again)
			c.epochs += len(again)
			if took := time.Since(begun); took > c.longest {
				c.longest = took
			}
			c.mu.Unlock()
			if these = again; time.Since(begun) > patience.Long {
				c.t.Errorf("no answer: %v", found[0].Err)
				return
			}
		}
	}
}

// more waits until each member has had 60 more answers. A call has 8 claims, so each one that was under way has ended by then.
func (c *crowd) more(what string, members int) {
	c.t.Helper()
	c.mu.Lock()
	before := make(map[int]int)
	for n, answers := range c.by {
		before[n] = answers
	}
	c.mu.Unlock()
	natstest.Await(c.t, what, func() bool {
		c.mu.Lock()
		defer c.mu.Unlock()
		for n := 0; n < members; n++ {
			if c.by[n] < before[n]+60 {
				return false
			}
		}
		return true
	})
}

// Of three servers each is killed in turn while members put claims. None is accepted twice, none waits for the server that is away, all find
// their entries later, and the epoch stays.
func TestEachServerIsKilledInTurn(t *testing.T) {
	t.Parallel()
	servers := natstest.Cluster(t, 3)
	var members []claims.Store
	for range servers {
		store := newStore(t, Options{Servers: broker.URLs(servers), Name: "turn", Replicas: 3, Terms: claimstest.Usual})
		t.Cleanup(func() { store.Close() })
		claimstest.Open(t, store)
		members = append(members, store)
	}
	before := claimstest.State(t, members[0])
	for _, store := range members {
		claimstest.Watch(t, store)
	}
	crowd := newCrowd(t, members...)
	for i, server := range servers {
		crowd.more("claims", len(members))
		server.Kill()
		crowd.more("claims with two servers", len(members))
		if err := server.Start(); err != nil {
			t.Fatal(err)
		}
		natstest.Await(t, "the server to have all again", func() bool { return areCurrent(t, servers[(i+1)%3].URL, "turn") })
	}
	crowd.end()
	t.Logf("%d answers, %d accepted, the longest call took %v, %d put again", crowd.answers, crowd.ledger.Len(), crowd.longest, crowd.epochs)
	if crowd.epochs != 0 {
		t.Errorf("%d claims had no answer", crowd.epochs)
	}
	if is := claimstest.State(t, members[1]); is.Epoch != before.Epoch || is.Deaf != 0 {
		t.Errorf("%+v, and before %+v", is, before)
	}
	if crowd.ledger.Len()*3 < crowd.answers {
		t.Errorf("%d of %d were accepted", crowd.ledger.Len(), crowd.answers)
	}
}

// Members that make a store together all ask for its streams, and some servers then note another time at which a stream was made than others
// do. Each server is restarted in turn, so each of them leads the streams: the epoch stays.
func TestEachServerIsRestartedInTurn(t *testing.T) {
	t.Parallel()
	servers := natstest.Cluster(t, 3)
	o := Options{Servers: broker.URLs(servers), Name: "restart", Replicas: 3, Terms: claimstest.Usual}
	members := make([]*Store, 12)
	var opening sync.WaitGroup
	for i := range members {
		members[i] = newStore(t, o)
		t.Cleanup(func(store *Store) func() { return func() { store.Close() } }(members[i]))
		opening.Add(1)
		go func(store *Store) {
			defer opening.Done()
			if _, err := store.Open(patient(t)); err != nil {
				t.Error(err)
			}
		}(members[i])
	}
	opening.Wait()
	before := claimstest.State(t, members[0])
	first := one(0)
	wantOwner(t, claimstest.Put(t, members[0], first)[0], first.Owner)
	for i, server := range servers {
		server.Stop()
		for n, store := range members {
			c := one(n)
			wantOwner(t, claimstest.Put(t, store, c)[0], c.Owner)
		}
		if err := server.Start(); err != nil {
			t.Fatal(err)
		}
		natstest.Await(t, "the server to have all again", func() bool { return areCurrent(t, servers[(i+1)%3].URL, o.Name) })
	}
	late := newStore(t, o)
	t.Cleanup(func() { late.Close() })
	claimstest.Open(t, late)
	for _, store := range append(members, late) {
		if is := claimstest.State(t, store); is.Epoch != before.Epoch || is.Deaf != 0 {
			t.Fatalf("%+v, and before %+v", is, before)
		}
	}
	first.Owner = claimstest.Own(99)
	wantOwner(t, claimstest.Put(t, late, first)[0], claimstest.Own(0))
	isSteady := func(s *Store) bool {
		s.settleMu.Lock()
		defer s.settleMu.Unlock()
		return s.settling == nil && s.steady == s.unsteady.Load()
	}
	for n := 0; !isSteady(members[0]); n++ { // (a busy server may not answer in time)
		if n == 20 {
			t.Fatal("each look waits for members that may miss claims, though no server was away since the last one")
		}
		claimstest.State(t, members[0])
	}
}

// areCurrent says whether all servers have all of a group's streams.
func areCurrent(t *testing.T, url, name string) bool {
	js, done, err := adminAt(url)
	if err != nil {
		return false
	}
	defer done()
	for _, ending := range endings {
		info, err := js.StreamInfo("KV_" + name + "-claims" + ending)
		if err != nil || info.Cluster == nil || info.Cluster.Leader == "" || len(info.Cluster.Replicas) != 2 {
			return false
		}
		for _, r := range info.Cluster.Replicas {
			if !r.Current {
				return false
			}
		}
	}
	return true
}

// Members that start together make one store, and it is deaf to nothing.
func TestAClusterIsOpenedAtOnce(t *testing.T) {
	t.Parallel()
	servers := natstest.Cluster(t, 3)
	var members []*Store
	for i := 0; i < 9; i++ {
		store := newStore(t, Options{Servers: []string{servers[i%3].URL}, Name: "once", Replicas: 3, Terms: claimstest.Usual})
		t.Cleanup(func() { store.Close() })
		members = append(members, store)
	}
	var opening sync.WaitGroup
	states := make([]claims.State, len(members))
	for i := range members {
		opening.Add(1)
		go func(i int) {
			defer opening.Done()
			var err error
			if states[i], err = members[i].Open(patient(t)); err != nil {
				t.Error(err)
			}
		}(i)
	}
	opening.Wait()
	for i, s := range members {
		if is := claimstest.State(t, s); is.Epoch != states[0].Epoch || is.Deaf != 0 || states[i].Epoch != is.Epoch {
			t.Errorf("%+v, %+v, and %+v", states[i], is, states[0])
		}
	}
	c := one(1)
	for i, s := range members {
		c.Owner = claimstest.Own(i)
		if f := claimstest.Put(t, s, c)[0]; f.Owner != claimstest.Own(0) {
			t.Errorf("%d: %+v", i, f)
		}
	}
}

// Three servers that all come back with an older copy, as after a loss of power, end the epoch before anybody accepts what was claimed.
func TestAClusterIsPutBack(t *testing.T) {
	t.Parallel()
	clusterIsPutBack(t, true)
}

// Where the member that misses its claim is away meanwhile, another one may claim the token again, and at the same position: nobody waits for one that is
// away. The member sees the loss all the same, once it is back.
func TestAClusterIsPutBackUnseen(t *testing.T) {
	t.Parallel()
	clusterIsPutBack(t, false)
}

func clusterIsPutBack(t *testing.T, isSeen bool) {
	dirs := []string{t.TempDir(), t.TempDir(), t.TempDir()}
	servers, err := broker.NewCluster(dirs, "--no_advertise") // (so that a proxy is all that its member knows)
	if err != nil {
		t.Fatal(err)
	}
	o := Options{Servers: broker.URLs(servers), Name: "back", Replicas: 3, Terms: claimstest.Usual}
	all := func(do func(*broker.Server)) {
		for _, server := range servers {
			do(server)
		}
	}
	t.Cleanup(func() { all((*broker.Server).Kill) })
	start := func() {
		all(func(server *broker.Server) {
			if err := server.Start(); err != nil {
				t.Fatal(err)
			}
		})
		all(func(server *broker.Server) { natstest.Await(t, "JetStream", server.Answers) })
	}
	start()
	begin := func(o Options) *Store {
		store := newStore(t, o)
		t.Cleanup(func() { store.Close() })
		claimstest.Open(t, store)
		return store
	}
	proxy, through := logtest.NewProxy(t, strings.TrimPrefix(servers[0].URL, "nats://")), o
	through.Servers = []string{"nats://" + proxy.Address}
	a, b := begin(through), begin(o)
	if isSeen {
		b.compares()
	}
	before := claimstest.State(t, a)
	claimstest.Put(t, a, one(1))
	natstest.Await(t, "all servers to have all", func() bool { return areCurrent(t, servers[0].URL, o.Name) })
	all((*broker.Server).Stop)
	kept := t.TempDir()
	for i, dir := range dirs {
		logtest.CopyAll(t, dir, filepath.Join(kept, fmt.Sprint(i)))
	}
	start()
	c := one(1)
	wantOwner(t, claimstest.Put(t, a, c)[0], c.Owner)
	if isSeen {
		claimstest.Watch(t, a)
	}
	all((*broker.Server).Kill)
	for i, dir := range dirs {
		logtest.CopyAll(t, filepath.Join(kept, fmt.Sprint(i)), dir)
	}
	proxy.Shut(true)
	start()
	c.Owner = claimstest.Own(2)
	f := beforeItComesBack(t, proxy, servers[1].URL, o.Name, func() claims.Found { return claimstest.Try(b, patience.Long, c)[0] })
	if isSeen && claimstest.Judge(c, f, 60) == claimstest.Mine {
		t.Errorf("accepted twice: %+v", f)
	}
	var is claims.State
	natstest.Await(t, "one other epoch", func() bool {
		is = claimstest.State(t, a)
		return is.Epoch != before.Epoch && claimstest.State(t, b).Epoch == is.Epoch
	})
	if late := claimstest.State(t, begin(o)); is.Deaf < before.Time+o.Terms.Lasts || late.Epoch != is.Epoch || late.Deaf != is.Deaf {
		t.Errorf("%+v, %+v later, and before %+v", is, late, before)
	}
}

// A leader that hangs is replaced, and what it does when it goes on counts for nothing.
func TestALeaderHangs(t *testing.T) {
	t.Parallel()
	servers := natstest.Cluster(t, 3)
	var members []claims.Store
	for range servers {
		store := newStore(t, Options{Servers: broker.URLs(servers), Name: "hangs", Replicas: 3, Terms: claimstest.Usual})
		t.Cleanup(func() { store.Close() })
		claimstest.Open(t, store)
		members = append(members, store)
	}
	before := claimstest.State(t, members[0])
	for _, store := range members {
		claimstest.Watch(t, store)
	}
	crowd := newCrowd(t, members...)
	answers := func(what string) {
		t.Helper()
		crowd.more(what, len(members))
	}
	answers("claims")
	info, err := admin(t, servers[0].URL).StreamInfo("KV_hangs-claims")
	if err != nil {
		t.Fatal(err)
	}
	for i, server := range servers {
		if info.Cluster.Leader != fmt.Sprint("n", i) {
			continue
		}
		pid := server.Pid()
		syscall.Kill(pid, syscall.SIGSTOP)
		t.Cleanup(func() { syscall.Kill(pid, syscall.SIGCONT) })
		answers("claims without the leader")
		syscall.Kill(pid, syscall.SIGCONT)
		answers("claims with all servers")
		natstest.Await(t, "the server to have all again", func() bool { return areCurrent(t, servers[(i+1)%3].URL, "hangs") })
		answers("claims with all servers again")
	}
	crowd.end()
	t.Logf("%d answers, %d accepted, the longest call took %v", crowd.answers, crowd.ledger.Len(), crowd.longest)
	if is := claimstest.State(t, members[1]); is.Epoch != before.Epoch || is.Deaf != 0 || crowd.epochs != 0 {
		t.Errorf("%+v, and before %+v, %d put again", is, before, crowd.epochs)
	}
}
