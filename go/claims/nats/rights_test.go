package nats

import (
	"errors"
	"os"
	"regexp"
	"strings"
	"sync"
	"testing"
	"time"

	client "github.com/nats-io/nats.go"

	"svid.example/go/v3/claims"
	"svid.example/go/v3/claims/claimstest"
	"svid.example/go/v3/internal/natstest"
	"svid.example/go/v3/internal/patience"
)

// permitted is a server where a member has the rights of permissions.conf, and who shows no password is an administrator.
func permitted(t *testing.T) (m *machine, member client.Option, rights string) {
	t.Helper()
	text, err := os.ReadFile("permissions.conf")
	if err != nil {
		t.Fatal(err)
	}
	rights = string(text)
	return newMachineWith(t, `accounts: { svid: { jetstream: enabled, users: [
  { user: admin, password: secret },
  { user: member, password: known, permissions: { `+rights+` } },
] } }
no_auth_user: admin
`), client.UserInfo("member", "known"), rights
}

// A member can do all that a store does with the rights of permissions.conf, and needs each of them.
func TestRightsSuffice(t *testing.T) {
	t.Parallel()
	m, member, rights := permitted(t)
	spy := natstest.Connect(t, m.URL)
	var mu sync.Mutex
	used := map[string]bool{}
	for _, all := range []string{"$JS.API.>", "$KV.>"} {
		if _, err := spy.Subscribe(all, func(m *client.Msg) {
			mu.Lock()
			defer mu.Unlock()
			used[m.Subject] = true
		}); err != nil {
			t.Fatal(err)
		}
	}
	spy.FlushTimeout(patience.Long)
	o := Options{Servers: []string{m.URL}, Name: "svid", Terms: claimstest.Usual, Connect: []client.Option{member}}
	begin := func() *Store {
		s := newStore(t, o)
		t.Cleanup(func() { s.Close() })
		claimstest.Open(t, s)
		return s
	}
	a, b := begin(), begin()
	js := admin(t, m.URL)
	for _, isDirect := range []bool{true, false} {
		for _, k := range []kind{ofClaims, ofWithdrawals, ofEpochs, ofClock} {
			i, err := js.StreamInfo(a.stream(k))
			if err != nil {
				t.Fatal(err)
			}
			i.Config.AllowDirect = isDirect
			if _, err := js.UpdateStream(&i.Config); err != nil {
				t.Fatal(err)
			}
		}
		before := claimstest.State(t, a)
		claimstest.State(t, b)
		c := one(1)
		wantOwner(t, claimstest.Put(t, a, c)[0], c.Owner)
		other := c
		other.Owner = claimstest.Own(2)
		wantOwner(t, claimstest.Put(t, b, other)[0], c.Owner)
		w := claims.Withdrawal{Key: claimstest.Key(), Expires: claimstest.Now() + 3000}
		claimstest.Withdraw(t, b, w)
		if all, _ := claimstest.Withdrawals(t, a, ""); len(all) == 0 || all[len(all)-1] != w {
			t.Errorf("%v", all)
		}
		k := a.known.Load()
		if _, err := js.Publish(a.base+"e."+k.Link, []byte("an end")); err != nil {
			t.Fatal(err)
		}
		for _, s := range []*Store{a, b} {
			if f := claimstest.Put(t, s, one(1))[0]; f.Deaf < before.Time+claimstest.Usual.Lasts {
				t.Errorf("%+v", f)
			}
		}
	}
	patterns := regexp.MustCompile(`"(\$[^"]*)"`).FindAllStringSubmatch(rights[:strings.Index(rights, "subscribe")], -1)
	if len(patterns) < 10 {
		t.Fatal(patterns)
	}
	for _, p := range patterns {
		is := regexp.MustCompile("^" + strings.ReplaceAll(regexp.QuoteMeta(p[1]), `\*`, "[^.]+") + "$")
		natstest.Await(t, p[1]+" to be used", func() bool {
			mu.Lock()
			defer mu.Unlock()
			for subject := range used {
				if is.MatchString(subject) {
					return true
				}
			}
			return false
		})
	}
}

// With those rights a member can neither remove nor replace anything, nor change a stream, nor see who asks for what.
func TestRightsDoNoMore(t *testing.T) {
	t.Parallel()
	m, member, _ := permitted(t)
	o := Options{Servers: []string{m.URL}, Name: "svid", Terms: claimstest.Usual, Connect: []client.Option{member}}
	a := newStore(t, o)
	t.Cleanup(func() { a.Close() })
	claimstest.Open(t, a)
	denied := make(chan string, 100)
	nc := natstest.Connect(t, m.URL, member, client.ErrorHandler(func(_ *client.Conn, _ *client.Subscription, err error) { denied <- err.Error() }))
	violation := func(what string) {
		t.Helper()
		nc.FlushTimeout(patience.Long)
		select {
		case said := <-denied:
			if !strings.Contains(strings.ToLower(said), "permissions violation") || !strings.Contains(said, what) {
				t.Errorf("%s: %s", what, said)
			}
		case <-time.After(patience.Long):
			t.Errorf("%s is permitted", what)
		}
	}
	for k := kind(0); k < kinds; k++ {
		for _, call := range []string{"STREAM.DELETE", "STREAM.PURGE", "STREAM.UPDATE", "STREAM.MSG.DELETE", "STREAM.SNAPSHOT", "STREAM.RESTORE", "CONSUMER.CREATE"} {
			subject := "$JS.API." + call + "." + a.stream(k)
			nc.PublishRequest(subject, "_INBOX.x", nil)
			violation(subject)
		}
	}
	for _, subject := range []string{"_INBOX.x.y", "$KV.svid.a", "$JS.API.STREAM.CREATE.other", "$JS.API.STREAM.LIST"} {
		nc.Publish(subject, nil)
		violation(subject)
	}
	for _, subject := range []string{"$KV.svid-claims.c.*", "$KV.svid-claims.>", "$JS.>", ">"} {
		nc.SubscribeSync(subject)
		violation(subject)
	}
	// To make a stream again changes nothing of one that is there.
	settings := a.due(ofClaims)
	settings["max_age"] = int64(time.Hour)
	if err := a.api(patient(t), "STREAM.CREATE."+a.stream(ofClaims), settings, nil); !is(err, nameInUse) {
		t.Errorf("%v", err)
	}
	// So a member whose tokens may live longer says what an administrator must do.
	o.Terms.Lasts *= 2
	late := newStore(t, o)
	defer late.Close()
	var unfit *claims.Unfit
	if _, err := late.Open(patient(t)); !errors.As(err, &unfit) || !strings.Contains(unfit.Why, "nats stream edit --max-age=4h3m0s KV_svid-claims") {
		t.Errorf("%v", err)
	}
}
