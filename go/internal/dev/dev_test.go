package dev

import (
	"context"
	"fmt"
	"net/http"
	"net/http/httptest"
	"os"
	"path/filepath"
	"sort"
	"strings"
	"sync/atomic"
	"testing"
	"time"

	"svid.example/go/v3/internal/issuer"
	"svid.example/go/v3/internal/patience"
)

const life = 5 * time.Minute

// deskOf is a desk whose clock a test sets, and whose keys stand in this folder.
func deskOf(t *testing.T, folder string) (d *Desk, clock *atomic.Int64) {
	t.Helper()
	clock = new(atomic.Int64)
	clock.Store(1_767_225_600)
	now := func() time.Time { return time.Unix(clock.Load(), 0) }
	domain, err := issuer.NewDomain("example.org", life, folder, now)
	if err != nil {
		t.Fatal(err)
	}
	return NewDesk(Options{Domain: domain, Subject: "spiffe://example.org/a", Audience: "ledger", Page: "127.0.0.1:9900", Now: now}), clock
}

// An agent gives one token until half of its life is over, and then another one: so no client gets a token that expires on its way.
func TestTheAgentGivesATokenForHalfOfItsLife(t *testing.T) {
	d, clock := deskOf(t, "")
	fetch := func() issuer.Minted {
		t.Helper()
		given, err := d.fetch("spiffe://example.org/a", []string{"ledger"})
		if err != nil {
			t.Fatal(err)
		}
		return given
	}
	first, half := fetch(), int64(life/time.Second)/2
	if clock.Add(half - 1); fetch().Token != first.Token {
		t.Error("another token before half of its life is over")
	}
	clock.Add(1)
	if next := fetch(); next.Token == first.Token || next.Expires <= first.Expires {
		t.Errorf("behind half of its life the token expires at %d, as that of before at %d", next.Expires, first.Expires)
	}
}

// A token is given again to who asks for the same subject and audiences, in whatever order, and to nobody else.
func TestTheAgentGivesATokenToWhoAskedForIt(t *testing.T) {
	d, _ := deskOf(t, "")
	asked := []string{"a ledger", "a ledger audit", "a audit ledger", "a audit", "b ledger"}
	given := map[string]string{}
	for _, words := range append(asked, asked...) {
		subject, audience := "spiffe://example.org/"+words[:1], strings.Fields(words)[1:]
		one, err := d.fetch(subject, append([]string(nil), audience...))
		if err != nil {
			t.Fatal(err)
		}
		sort.Strings(audience)
		if one.Subject != subject || fmt.Sprint(one.Audience) != fmt.Sprint(audience) {
			t.Errorf("%s: a token of %s for %s", words, one.Subject, one.Audience)
		}
		name := fmt.Sprint(subject, audience)
		if before, ok := given[name]; ok && before != one.Token {
			t.Errorf("%s: another token each time", words)
		}
		given[name] = one.Token
	}
}

// The headers that say where a request came from are those of the connection, whatever a client wrote there.
func TestTheConnectionSaysWhereARequestCameFrom(t *testing.T) {
	for remote, want := range map[string][]string{"192.0.2.1:1234": {"192.0.2.1"}, "@": nil} {
		r := httptest.NewRequest(http.MethodGet, "/check", nil)
		r.RemoteAddr = remote
		for _, name := range []string{"X-Real-Ip", "X-Forwarded-For"} {
			r.Header.Add(name, "198.51.100.1")
			r.Header.Add(name, "198.51.100.2")
		}
		OfConnection(http.HandlerFunc(func(_ http.ResponseWriter, r *http.Request) {
			if got := r.Header["X-Real-Ip"]; fmt.Sprint(got) != fmt.Sprint(want) {
				t.Errorf("%s: X-Real-Ip is %q", remote, got)
			}
			if got := r.Header["X-Forwarded-For"]; got != nil {
				t.Errorf("%s: X-Forwarded-For is %q", remote, got)
			}
		})).ServeHTTP(httptest.NewRecorder(), r)
	}
}

// However many subjects clients ask for, an agent keeps few tokens in mind.
func TestTheTokensOfAnAgentHaveABound(t *testing.T) {
	d, _ := deskOf(t, "")
	for i := 0; i < mostGiven+20; i++ {
		if _, err := d.fetch(fmt.Sprint("spiffe://example.org/", i), []string{"ledger"}); err != nil {
			t.Fatal(err)
		}
	}
	if len(d.given) > mostGiven || len(d.events) > mostEvents {
		t.Errorf("%d tokens and %d events are kept", len(d.given), len(d.events))
	}
}

// A page that is closed, and one of a desk that ends, is let go.
func TestAPageThatIsClosedIsLetGo(t *testing.T) {
	d, _ := deskOf(t, "")
	for name, byClient := range map[string]bool{"the client": true, "the desk": false} {
		ended, answered := make(chan struct{}), make(chan struct{})
		ctx, leave := context.WithCancel(context.Background())
		r := httptest.NewRequest(http.MethodGet, "http://127.0.0.1:9900/events", nil).WithContext(ctx)
		go func() { defer close(answered); d.Page(ended).ServeHTTP(httptest.NewRecorder(), r) }()
		if byClient {
			leave()
		} else {
			close(ended)
		}
		select {
		case <-answered:
		case <-time.After(patience.Long):
			t.Fatalf("%s ends, and the page is served on", name)
		}
		leave()
	}
}

// Keys that could not be kept stay, and rotate once they can.
func TestKeysRotateOnceTheyCanBeKept(t *testing.T) {
	folder := filepath.Join(t.TempDir(), "keys")
	if err := os.Mkdir(folder, 0o700); err != nil {
		t.Fatal(err)
	}
	d, _ := deskOf(t, folder)
	move := func(from, to string) {
		t.Helper()
		if err := os.Rename(from, to); err != nil {
			t.Fatal(err)
		}
	}
	move(folder, folder+".away")
	before, ended, over, failed := fmt.Sprint(d.Domain.KeyIDs()), make(chan struct{}), make(chan struct{}), make(chan error, 1)
	go func() {
		defer close(over)
		d.RotateEach(time.Millisecond, ended, func(err error) {
			select {
			case failed <- err:
			default:
			}
		})
	}()
	await := func(what string, is func() bool) {
		t.Helper()
		for late := time.Now().Add(patience.Long); !is(); time.Sleep(time.Millisecond) {
			if time.Now().After(late) {
				t.Fatalf("%s does not come", what)
			}
		}
	}
	await("a failure", func() bool { return len(failed) > 0 })
	if now := fmt.Sprint(d.Domain.KeyIDs()); now != before {
		t.Errorf("keys that are not kept count: %s, and %s before", now, before)
	}
	move(folder+".away", folder)
	await("a rotation", func() bool { return fmt.Sprint(d.Domain.KeyIDs()) != before })
	close(ended)
	<-over
}
