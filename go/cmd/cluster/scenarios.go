package main

import (
	"bytes"
	"encoding/binary"
	"errors"
	"fmt"
	"math"
	"math/rand"
	"net/http"
	"os/exec"
	"strings"
	"sync"
	"time"

	"github.com/nats-io/nats.go"

	"svid.example/go/v3/internal/broker"
	"svid.example/go/v3/svid"
)

// How much the scenarios do.
var (
	tokens     = 2000
	manyTokens = 10000
	rounds     = 200
)

var three = []string{"a", "b", "c"}

// noHurry is for sidecars whose brokers stay up: they wait for an answer however busy the machine is.
var noHurry = []string{"--wait", "30s"}

// strict: of all sidecars, one accepts a token.
func strict(c *cluster) error {
	if err := c.start(three, append(c.strict(), noHurry...)...); err != nil {
		return err
	}
	if err := c.throughNginx(); err != nil {
		return err
	}
	sent := c.mint(tokens)
	from := time.Now()
	err := c.atOnce(sent, func(int) {}, func(t token, v []verdict) error {
		return unless(taken(v) == 1, fmt.Sprintf("a token was accepted %s, want once", plural(taken(v), "times")))
	})
	if err != nil {
		return err
	}
	c.say("%d tokens, each sent to three sidecars at the same instant: exactly one 200 each (%.0f tokens/s)",
		len(sent), float64(len(sent))/time.Since(from).Seconds())
	uses, err := usedOnce(c.sidecars)
	if err != nil {
		return err
	}
	return unless(len(uses) == len(sent)+1, fmt.Sprintf("the records have %d uses, want %d", len(uses), len(sent)+1))
}

// usedOnce are the uses of all records together. In mode strict each sidecar remembers its own, and no two have a use of one token.
func usedOnce(of []*sidecar) (map[svid.TokenKey]string, error) {
	all := map[svid.TokenKey]string{}
	for _, s := range of {
		uses, err := s.uses()
		if err != nil {
			return nil, err
		}
		for _, u := range uses {
			if other, twice := all[u.Key]; twice {
				return nil, fmt.Errorf("%s and %s accepted the token %v", other, s.name, u.Key)
			}
			all[u.Key] = s.name
		}
	}
	return all, nil
}

// throughNginx lets a token through once, whichever sidecar nginx asks.
func (c *cluster) throughNginx() error {
	address, err := c.startNginx("nginx.conf")
	if err != nil {
		return err
	}
	c.say("nginx asks the sidecars by turns: http://%s/", address)
	one := c.mint(1)[0]
	for i, want := range []string{"200 " + one.hello(), "401", "401", "401"} {
		status, body, err := getThrough(address, "Bearer "+one.text)
		got := strings.TrimSpace(fmt.Sprint(status, " ", body))
		if err != nil || !strings.HasPrefix(got, want) {
			return fmt.Errorf("time %d of a token through nginx: %s %v, want %s", i+1, got, err, want)
		}
	}
	c.say("a token through nginx: 200, and 401 each time after that; the service read the sidecar's three headers, not the client's")
	return nil
}

// hello is what the service answers behind nginx, by the sidecar's headers.
func (t token) hello() string {
	return fmt.Sprintf("hello spiffe://%s/billing for %s until %d", domain, audience, t.exp)
}

// once: what slips in between is in every report.
func once(c *cluster) error { return c.showOnce(tokens) }

func onceMany(c *cluster) error { return c.showOnce(manyTokens) }

func (c *cluster) showOnce(n int) error {
	if err := c.start(three, c.once()...); err != nil {
		return err
	}
	sent := c.mint(n)
	accepted := map[svid.TokenKey]int{}
	err := c.atOnce(sent, func(int) {}, func(t token, v []verdict) error {
		accepted[t.key] = taken(v)
		return unless(taken(v) > 0, "a token was accepted by nobody")
	})
	if err != nil {
		return err
	}
	uses, err := c.sameRecords()
	if err != nil {
		return err
	}
	recorded, doubles := map[svid.TokenKey]int{}, 0
	for _, u := range uses {
		recorded[u.Key]++
	}
	for key, n := range accepted {
		if recorded[key] != n {
			return fmt.Errorf("%d sidecars accepted the token %v, and the records have %d uses of it", n, key, recorded[key])
		}
		if n > 1 {
			doubles++
		}
	}
	c.say("%d tokens, each sent to three sidecars at the same instant: %d were accepted by two or three, and every report lists these",
		n, doubles)
	if err := c.noneAgain(sent); err != nil {
		return err
	}
	return c.withdrawOne()
}

// noneAgain sends tokens again to every sidecar: none may be accepted.
func (c *cluster) noneAgain(sent []token) error {
	err := c.atOnce(sent, func(int) {}, func(t token, v []verdict) error {
		return unless(taken(v) == 0, "a token was accepted that had been before")
	})
	if err == nil {
		c.say("sent again to all three: %d times 401", len(c.sidecars)*len(sent))
	}
	return err
}

// withdrawOne withdraws a token at one sidecar, so that none accepts it.
func (c *cluster) withdrawOne() error {
	one := c.mint(1)[0]
	if said, err := exec.Command(c.svidd, "withdraw", "--admin", c.sidecars[0].admin, one.text).CombinedOutput(); err != nil {
		return fmt.Errorf("svidd withdraw: %w: %s", err, said)
	}
	for _, s := range c.sidecars {
		key := "withdrawn"
		err := await(s.name+" to hear of a withdrawal", func() error {
			uses, err := s.uses()
			if err != nil {
				return err
			}
			for _, u := range uses {
				if u.Key == one.key && u.Withdrawn {
					return nil
				}
			}
			return errors.New(key)
		})
		if err != nil {
			return err
		}
		if v, err := s.check(one.text); err != nil || v.reason != "Withdrawn" {
			return fmt.Errorf("a token that was withdrawn: %+v %v", v, err)
		}
	}
	c.say("a token that was withdrawn at one sidecar: 401 Withdrawn at all three")
	return nil
}

// uses is a sidecar's record.
func (s *sidecar) uses() ([]svid.Use, error) {
	messages, err := s.messages()
	if err != nil {
		return nil, err
	}
	uses, err := svid.Uses(messages)
	return uses, err
}

// sameRecords waits until the records of all sidecars are equal bytes, and returns their uses.
func (c *cluster) sameRecords() (uses []svid.Use, err error) {
	var record []byte
	from := time.Now()
	err = await("equal records", func() (err error) {
		if record, err = c.sidecars[0].messages(); err != nil {
			return err
		}
		for _, s := range c.sidecars[1:] {
			other, err := s.messages()
			if err != nil {
				return err
			}
			if !bytes.Equal(record, other) {
				return fmt.Errorf("%d and %d bytes", len(record), len(other))
			}
		}
		return nil
	})
	if err != nil {
		return nil, err
	}
	if uses, err = svid.Uses(record); err == nil {
		c.say("the records of all three are the same %d bytes, %.1f s later", len(record), time.Since(from).Seconds())
	}
	return uses, err
}

// liar: a member that lies does no harm but to itself.
func liar(c *cluster) error {
	if err := c.start(three, c.once()...); err != nil {
		return err
	}
	nc, err := nats.Connect(strings.Join(broker.URLs(c.brokers), ","))
	if err != nil {
		return err
	}
	defer nc.Close()
	js, err := nc.JetStream()
	if err != nil {
		return err
	}
	kv, err := js.KeyValue(c.name)
	if err != nil {
		return err
	}
	lies := [][]byte{batchOf(math.MaxUint64), batchOf(svid.Now() + 3600), []byte("no batch"), batchOf(svid.Now())[:16]}
	for i := 0; i < 64; i++ {
		lies = append(lies, bytes.Repeat([]byte{byte(i)}, 1<<20-1<<10))
	}
	for i, lie := range lies {
		if _, err := kv.Put(fmt.Sprint("u.lie.", i), lie); err != nil {
			return err
		}
	}
	if err := nc.PublishRequest("svid."+c.name+".summary", nc.NewInbox(), []byte("no summary")); err != nil {
		return err
	}
	for _, s := range c.sidecars {
		err := await(s.name+" to put lies aside", func() error {
			n, err := s.metric("svidd_messages_aside_total")
			if err == nil && int(n) != len(lies) {
				err = fmt.Errorf("%v of %d", n, len(lies))
			}
			return err
		})
		if err != nil {
			return err
		}
	}
	c.say("batches of the greatest moment and of an hour ahead, half a batch, no batch, and 64 MB of garbage: each sidecar put %d values aside",
		len(lies))
	sent := c.mint(200)
	err = c.atOnce(sent, func(int) {}, func(t token, v []verdict) error {
		return unless(taken(v) > 0, "a token was accepted by nobody")
	})
	if err != nil {
		return err
	}
	_, err = c.sameRecords()
	return err
}

// split: nginx sends each token to one of two groups by its signed part, so that each store has half of them, and a token reaches the
// same group however it is spelled.
func split(c *cluster) error {
	groups := []string{"split-1", "split-2"}
	for i, name := range groups {
		if err := c.start([]string{fmt.Sprint("first-", i+1), fmt.Sprint("second-", i+1)}, append(c.strictNamed(name), noHurry...)...); err != nil {
			return err
		}
	}
	address, err := c.startNginx("nginx-split.conf")
	if err != nil {
		return err
	}
	sent, err := c.eachSpelling(address)
	if err != nil {
		return err
	}
	times := len(sent)
	for _, t := range c.mint(tokens / 4) {
		sent = append(sent, t)
		spellings, err := t.spellings()
		if err != nil {
			return err
		}
		statuses := make(chan int, times)
		for _, one := range spellings {
			go func(authorization string) {
				status, _, err := getThrough(address, authorization)
				if err != nil {
					status = 0
				}
				statuses <- status
			}(one)
		}
		counts := map[int]int{}
		for range spellings {
			counts[<-statuses]++
		}
		if counts[http.StatusOK] != 1 || counts[http.StatusUnauthorized] != times-1 {
			return fmt.Errorf("a token in %d spellings through nginx: %v, want one 200", times, counts)
		}
	}
	seen, err := usedOnce(c.sidecars)
	if err != nil {
		return err
	}
	var has []int
	for i := range groups {
		uses, err := usedOnce(c.sidecars[2*i : 2*i+2])
		if err != nil {
			return err
		}
		has = append(has, len(uses))
	}
	if len(seen) != len(sent) || has[0] < len(sent)/4 || has[1] < len(sent)/4 {
		return fmt.Errorf("of %d tokens one group has %d and the other %d, together %d", len(sent), has[0], has[1], len(seen))
	}
	c.say("%d tokens, each sent in %d spellings at once through nginx: one 200 each; one group accepted %d of all, and the other %d",
		len(sent)-times, times, has[0], has[1])
	return nil
}

// eachSpelling sends a new token in each spelling, and returns these tokens: each spelling is accepted.
func (c *cluster) eachSpelling(address string) ([]token, error) {
	var sent []token
	for i, n := 0, 1; i < n; i++ {
		t := c.mint(1)[0]
		spellings, err := t.spellings()
		if err != nil {
			return nil, err
		}
		n = len(spellings)
		if status, body, err := getThrough(address, spellings[i]); err != nil || status != http.StatusOK || strings.TrimSpace(body) != t.hello() {
			return nil, fmt.Errorf("a new token as %q: %d %q %v", spellings[i], status, body, err)
		}
		sent = append(sent, t)
	}
	return sent, nil
}

// batchOf is a batch of this moment without a use.
func batchOf(moment uint64) []byte {
	b := append([]byte("JSR\x02\x01"), make([]byte, 12)...)
	binary.BigEndian.PutUint64(b[5:], moment)
	return b
}

// strictKills: still no token is accepted twice while a sidecar and a NATS server are killed.
func strictKills(c *cluster) error {
	if err := c.start(three, c.strict()...); err != nil {
		return err
	}
	what, killServer := "two of these and a NATS server were killed", func() error { return c.killLeaderFor(3 * time.Second) }
	if c.store != nil {
		what, killServer = "two of these and the store's server were killed", func() error { return c.awayFor(c.store.Kill, time.Second) }
	}
	return c.onceDuring(what, []func() error{
		func() error { return c.killFor(c.sidecars[0], time.Second) },
		killServer,
		func() error { return c.killFor(c.sidecars[1], time.Second) },
	})
}

// strictRestarts: each NATS server is restarted, as for an upgrade. No entry is lost.
func strictRestarts(c *cluster) error {
	if err := c.start(three, c.strict()...); err != nil {
		return err
	}
	if c.store != nil {
		again := func() error { return c.awayFor(c.store.Stop, time.Second) }
		return c.onceDuring("the store's server was restarted twice", []func() error{again, again})
	}
	var steps []func() error
	for i := range c.brokers {
		i := i
		steps = append(steps, func() error { return c.restart(i, time.Second) })
	}
	return c.onceDuring("each NATS server was restarted", steps)
}

// onceDuring sends tokens to three sidecars of mode strict while steps are done, one after the other: no token is accepted twice, and
// no sidecar sees that the store has lost an entry.
func (c *cluster) onceDuring(what string, steps []func() error) error {
	sent := c.mint(manyTokens)
	killed := make(chan error, len(steps))
	begun := make(chan func() error, len(steps))
	go func() {
		for step := range begun {
			killed <- step()
		}
	}()
	defer close(begun)
	next := 0
	progress := func(i int) {
		if next < len(steps) && i == len(sent)*(next+1)/(len(steps)+1) {
			begun <- steps[next]
			next++
		}
	}
	won, burnt := 0, 0
	err := c.atOnce(sent, progress, func(t token, v []verdict) error {
		switch n := taken(v); {
		case n > 1:
			return fmt.Errorf("a token was accepted %d times", n)
		case n == 1:
			won++
		case v[0].doubtful || v[1].doubtful || v[2].doubtful:
			burnt++
		default:
			return errors.New("a token was accepted by nobody, and no answer to it was lost")
		}
		return nil
	})
	for i := 0; i < len(steps) && err == nil; i++ {
		err = <-killed
	}
	if err != nil {
		return err
	}
	c.say("%d tokens, each sent to three sidecars at the same instant, while %s: one 200 each for %d, and none for %d whose answer was "+
		"lost or 503 first", len(sent), what, won, burnt)
	for _, s := range c.sidecars {
		if err := s.awaitReady(); err != nil { // (one that was killed is started again)
			return err
		}
		if n, err := s.metric("svidd_store_epochs_total"); err != nil || n != 0 {
			return fmt.Errorf("%s says that the store has lost entries %v times (%v)", s.name, n, err)
		}
	}
	if _, err := usedOnce(c.sidecars); err != nil {
		return err
	}
	return c.noneAgain(sent)
}

// restart ends a NATS server as an operator does, starts it again after a while, and waits until it has the store.
func (c *cluster) restart(i int, while time.Duration) error {
	c.brokers[i].Stop()
	c.say("stopped NATS server %d for %v", i+1, while)
	time.Sleep(while)
	if err := c.brokers[i].Start(); err != nil {
		return err
	}
	nc, err := nats.Connect(strings.Join(broker.URLs(c.brokers), ","))
	if err != nil {
		return err
	}
	defer nc.Close()
	js, err := nc.JetStream()
	if err != nil {
		return err
	}
	return await("all servers to have the store", func() error {
		for _, stream := range []string{"", "-withdrawals", "-epochs", "-clock"} {
			info, err := js.StreamInfo(c.claims() + stream)
			if err != nil || info.Cluster == nil || info.Cluster.Leader == "" {
				return fmt.Errorf("no leader: %v", err)
			}
			for _, peer := range info.Cluster.Replicas {
				if !peer.Current || peer.Offline {
					return fmt.Errorf("%s is behind", peer.Name)
				}
			}
		}
		return nil
	})
}

// claims is the stream of claims in NATS.
func (c *cluster) claims() string { return "KV_" + c.name + "-claims" }

// awayFor ends the store's server, and starts it again after a while.
func (c *cluster) awayFor(end func(), while time.Duration) error {
	end()
	c.say("the store's server was ended for %v", while)
	time.Sleep(while)
	return c.store.Start()
}

// killFor kills a sidecar, and starts it again after a while.
func (c *cluster) killFor(s *sidecar, while time.Duration) error {
	c.kill(s)
	c.say("killed sidecar %s for %v", s.name, while)
	time.Sleep(while)
	return c.spawn(s)
}

// killLeaderFor kills the NATS server that leads the claims, and starts it again after a while.
func (c *cluster) killLeaderFor(while time.Duration) error {
	nc, err := nats.Connect(strings.Join(broker.URLs(c.brokers), ","))
	if err != nil {
		return err
	}
	defer nc.Close()
	js, err := nc.JetStream()
	if err != nil {
		return err
	}
	info, err := js.StreamInfo(c.claims())
	if err != nil {
		return err
	}
	for i, b := range c.brokers {
		if info.Cluster != nil && info.Cluster.Leader == fmt.Sprint("n", i) {
			b.Kill()
			c.say("killed NATS server %d, which led the claims, for %v", i+1, while)
			time.Sleep(while)
			return b.Start()
		}
	}
	return errors.New("the claims have no leader")
}

// kills: what was answered 200 before a kill -9 is not answered 200 after it.
func kills(c *cluster) error {
	if err := c.start([]string{"alone"}, "--replay", "once"); err != nil {
		return err
	}
	if err := c.killAgain(rounds); err != nil {
		return err
	}
	c.stopSidecars()
	if err := c.start([]string{"strict"}, c.strict()...); err != nil {
		return err
	}
	return c.killAgain(rounds / 4)
}

// killAgain kills the only sidecar at random moments, again and again.
func (c *cluster) killAgain(rounds int) error {
	s := c.sidecars[0]
	var before []token
	for round := 1; round <= rounds; round++ {
		accepted := c.acceptUntilKilled(s, time.Duration(rand.Intn(120))*time.Millisecond)
		if err := c.spawn(s); err != nil {
			return err
		}
		if err := s.awaitReady(); err != nil {
			return err
		}
		again := accepted
		for i := 0; i < 50 && len(before) > 0; i++ {
			again = append(again, before[rand.Intn(len(before))])
		}
		if err := c.noneTwice(again); err != nil {
			return fmt.Errorf("after kill %d: %w", round, err)
		}
		before = append(before, accepted...)
		if round%50 == 0 {
			c.say("sidecar %s: %d kills, %d tokens answered 200 before one, none again after it", s.name, round, len(before))
		}
	}
	return c.noneTwice(before)
}

// noneTwice sends tokens again that were accepted.
func (c *cluster) noneTwice(sent []token) error {
	return c.atOnce(sent, func(int) {}, func(t token, v []verdict) error {
		return unless(taken(v) == 0, "a token was answered 200 twice")
	})
}

// acceptUntilKilled sends new tokens until the sidecar is killed, after the time, and returns those that were answered
// 200.
func (c *cluster) acceptUntilKilled(s *sidecar, after time.Duration) (accepted []token) {
	queue := make(chan token, 1000)
	for _, t := range c.mint(cap(queue)) {
		queue <- t
	}
	close(queue)
	var mu sync.Mutex
	var workers sync.WaitGroup
	for i := 0; i < inFlight; i++ {
		workers.Add(1)
		go func() {
			defer workers.Done()
			for t := range queue {
				v, err := s.check(t.text)
				if err != nil {
					return
				}
				if v.accepted {
					mu.Lock()
					accepted = append(accepted, t)
					mu.Unlock()
				}
			}
		}()
	}
	time.Sleep(after)
	c.kill(s)
	workers.Wait()
	return accepted
}
