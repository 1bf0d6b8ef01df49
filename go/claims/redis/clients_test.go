package redis

import (
	"context"
	"fmt"
	"strconv"
	"strings"
	"testing"
	"time"

	"svid.example/go/v3/claims"
	"svid.example/go/v3/claims/claimstest"
	"svid.example/go/v3/internal/broker"
	"svid.example/go/v3/internal/logtest"
)

// faults are the errors of this package that other languages have by a name.
var faults = map[string]error{"run": errCompares, "late": errTooLong, "gone": errNoEntry, "epoch": claims.ErrEpoch, "replica": errReplica}

// newRemote is a store whose calls a client of another language makes.
func newRemote(o Options) (claims.Store, error) {
	r, err := claimstest.NewRemote(o.Terms, o.Name, o.Replicas, append([]string{strconv.FormatInt(o.Wait.Milliseconds(), 10)}, o.URLs...)...)
	if err != nil {
		return nil, err
	}
	r.Faults = faults
	return r, nil
}

// A Go member and one of another language are members of one store: each claim has one owner, and each hears of the other's withdrawals and of the
// end of an epoch. Each ends an epoch in which the other put the last claim.
func TestAMemberOfAnotherLanguage(t *testing.T) {
	t.Parallel()
	if !claimstest.OfOthers() {
		return // (the tests of that language run this one)
	}
	s := start(t)
	members(t, Options{URLs: []string{s.URL}}, newShards("svid", false), s.Redis)
}

// So they are in a Cluster.
func TestAMemberOfAnotherLanguageInACluster(t *testing.T) {
	t.Parallel()
	if !claimstest.OfOthers() {
		return
	}
	all, o := clusterOf(t, 0, 3)
	members(t, o, newShards("svid", true), all...)
}

// members looks that a Go member and one of another language are members of one store. Its first server is killed meanwhile.
func members(t *testing.T, o Options, shards []*shard, all ...*broker.Redis) {
	ours, theirs := openedOwn(t, o), opened(t, o)
	both := []claims.Store{ours, theirs}
	before := claimstest.State(t, ours)
	stays(t, before, theirs)
	ends := []func(){claimstest.Watch(t, ours), claimstest.Watch(t, theirs)}
	var ledger claimstest.Ledger
	end := claimstest.Load(t, &ledger, both...)
	logtest.Await(t, "claims", func() bool { return ledger.Len() > 200 })
	all[0].Kill()
	if err := all[0].Start(); err != nil {
		t.Fatal(err)
	}
	logtest.Await(t, "the server", all[0].Answers)
	n := ledger.Len()
	logtest.Await(t, "more claims", func() bool { return ledger.Len() > n+200 })
	end()
	stays(t, before, both...)
	var due []claims.Withdrawal
	for n, by := range both {
		other := both[1-n]
		due = append(due, withdrawal())
		claimstest.Withdraw(t, by, due[n])
		all, _ := claimstest.Withdrawals(t, other, "")
		same(t, all, due)
		c := claims.Claim{Key: due[n].Key, Owner: claimstest.Own(1), Expires: due[n].Expires}
		if f := claimstest.Put(t, other, c)[0]; f.Owner != claims.Withdrawn {
			t.Errorf("%+v", f)
		}
	}
	for _, end := range ends {
		end()
	}
	for n, by := range both {
		before := claimstest.State(t, both[1-n])
		lost := claim(n)
		if f := claimstest.Put(t, by, lost)[0]; f.Owner != lost.Owner {
			t.Fatalf("%+v", f)
		}
		it := shards[0]
		if len(shards) > 1 {
			it = shards[lost.Key[0]>>4]
		}
		if _, err := all[owns(t, all, it)].Do("DEL", it.key(&lost)); err != nil { // (only this member knows of it)
			t.Fatal(err)
		}
		claimstest.State(t, by)
		refused(t, both[1-n], lost)
		endedFor(t, lost.Key[0], before, newOwn(t, o), both...)
	}
}

// The rights that the documents name for members in other languages are enough, and each is needed.
func TestRightsOfAnotherLanguage(t *testing.T) {
	t.Parallel()
	if !claimstest.OfOthers() {
		return
	}
	s := start(t)
	do := func(words ...string) error { _, err := s.Do(words...); return err }
	line := rights(t, "service")
	acl(t, do, line)
	url := strings.Replace(s.URL, "redis://", "redis://service:secret@", 1) + "/2"
	use := func(wait time.Duration) error {
		m := newStore(t, Options{URLs: []string{url}, Wait: 20 * time.Millisecond})
		defer m.Close()
		ctx, cancel := context.WithTimeout(context.Background(), wait)
		defer cancel()
		if _, err := m.Open(ctx); err != nil {
			return err
		}
		c := claim(1)
		for n := 0; n < 2; n++ {
			if f := claimstest.Try(m, wait, c)[0]; f.Err != nil {
				return f.Err
			}
		}
		w := withdrawal()
		if _, err := m.Withdraw(ctx, w); err != nil {
			return err
		}
		if all, _, err := m.Withdrawals(ctx, ""); err != nil || !contains(all, w) {
			return fmt.Errorf("%d withdrawals, %v", len(all), err)
		}
		return nil
	}
	logtest.Await(t, "what the rights allow", func() bool {
		err := use(5 * time.Second)
		if err != nil {
			t.Log(err)
		}
		return err == nil
	})
	for _, word := range line {
		word = strings.Trim(word, "()'")
		if !strings.HasPrefix(word, "+") || word == "+wait" || word == "+role" { // (for replicas, and where there are several servers)
			continue
		}
		s.do(t, "FLUSHALL")
		s.do(t, "SCRIPT", "FLUSH")
		s.do(t, "ACL", "DELUSER", "service")
		var less []string
		for _, one := range line {
			if strings.Trim(one, "()'") != word {
				less = append(less, one)
			} else if strings.HasSuffix(one, ")'") {
				less[len(less)-1] += ")'"
			}
		}
		acl(t, do, less)
		if err := use(time.Second); err == nil {
			t.Errorf("the right %s is not needed", word)
		}
	}
}

// A Cluster has one database and no Sentinel, and the error says how it is named.
func TestHowAClusterIsNamed(t *testing.T) {
	t.Parallel()
	if !claimstest.OfOthers() {
		return
	}
	all, o := clusterOf(t, 0, 3)
	for _, url := range o.URLs {
		claimstest.Refuses(t, newStore(t, Options{URLs: []string{url + "/2"}}), "a Cluster is named by redis://HOST:PORT")
	}
	owner := all[owns(t, all, newShards("svid", false)[0])]
	s, err := broker.NewSentinel(t.TempDir(), "svid", owner.Address, 1)
	if err == nil {
		err = s.Start()
	}
	if err != nil {
		t.Fatal(err)
	}
	t.Cleanup(s.Kill)
	claimstest.Refuses(t, newStore(t, Options{URLs: []string{s.URL}}), "name some of its servers as redis://HOST:PORT")
	if answer, err := owner.Do("EXISTS", "svid:{svid}:epoch"); err != nil || answer != ":0" {
		t.Errorf("%q, %v", answer, err)
	}
}
