package server

import (
	"bytes"
	"context"
	"encoding/json"
	"errors"
	"fmt"
	"io"
	"net/http"
	"net/http/httptest"
	"os"
	"runtime"
	"strings"
	"sync"
	"testing"

	"svid.example/go/v3/carriers"
	"svid.example/go/v3/internal/issuer"
	"svid.example/go/v3/svid"
)

// While the state folder's messages are taken, and after a failure, nothing is judged: a token that they have as used could
// be accepted.
func TestNothingIsJudgedWhileTheRecordIsRead(t *testing.T) {
	asked, reading := 0, false
	var e *Engine
	e = engine(t, Options{Mode: Once, Journal: &disk{}, Now: func() uint64 {
		if reading {
			asked++
			reading = false // (Ready asks for the time, too)
			if err := e.Ready(); err == nil || !strings.Contains(err.Error(), "state folder") {
				t.Errorf("ready while the record is read: %v", err)
			}
			reading = true
		}
		return moment
	}})
	if err := e.SetBundles(map[string]json.RawMessage{"example.org": example.JWKSet()}); err != nil {
		t.Fatal(err)
	}
	messages := batchOf(svid.Use{Key: svid.TokenKey{1}, Expires: moment + 9, At: moment})
	reading = true
	if err := e.Load(append(messages, "garbage"...)); err == nil || e.Ready() == nil {
		t.Errorf("a damaged folder: %v, ready: %v", err, e.Ready())
	}
	if err := e.Load(messages); err != nil {
		t.Error(err)
	}
	reading = false
	if err := e.Ready(); err != nil || asked == 0 {
		t.Errorf("after it: %v, %d times", err, asked)
	}
	if uses, err := svid.Uses(saved(t, e)); err != nil || len(uses) != 1 {
		t.Errorf("the record has %d uses, %v", len(uses), err)
	}

	// The clock jumps ahead after the last message.
	now := uint64(moment)
	far := engine(t, Options{Mode: Once, Step: 600, Now: func() uint64 { now += 1000; return now }})
	if err := far.Load(messages); err != svid.ErrJump || far.machine.known.Loaded {
		t.Errorf("a clock that jumps: %v", err)
	}
}

// Bundles that are replaced at the same time leave the validator and the keyring with the same ones.
func TestBundlesThatAreReplacedAtOnce(t *testing.T) {
	e := ready(t, engine(t, Options{Mode: Reuse}))
	other, err := issuer.New("example.org")
	if err != nil {
		t.Fatal(err)
	}
	sets := []json.RawMessage{example.JWKSet(), other.JWKSet()}
	claims := map[string]any{"sub": "spiffe://example.org/web", "aud": "ledger", "exp": moment + 300}
	tokens := []string{example.Token("ES256", claims), other.Token("ES256", claims)}
	for round := 0; round < 100; round++ {
		var all sync.WaitGroup
		for _, set := range sets {
			all.Add(1)
			go func(set json.RawMessage) {
				defer all.Done()
				if err := e.SetBundles(map[string]json.RawMessage{"example.org": set}); err != nil {
					t.Error(err)
				}
			}(set)
		}
		all.Wait()
		first, second := check(e, tokens[0]), check(e, tokens[1])
		if (first == nil) == (second == nil) || first != nil && first != svid.BadSignature || second != nil && second != svid.BadSignature {
			t.Fatalf("round %d: the tokens of both: %v, %v", round, first, second)
		}
	}
}

// A withdrawal names any token that has not expired, also one that lives for longer than tokens may, and one that was used.
func TestAnyTokenCanBeWithdrawn(t *testing.T) {
	e := ready(t, engine(t, Options{Mode: Once, Journal: &disk{}}))
	h := e.Admin(nil)
	claims := func(exp int) map[string]any {
		return map[string]any{"sub": "spiffe://example.org/web", "aud": "ledger", "exp": exp, "jti": fmt.Sprint(exp)}
	}
	used := example.Token("ES256", claims(moment+300))
	if err := check(e, used); err != nil {
		t.Fatal(err)
	}
	long := example.Token("ES256", claims(moment+1_000_000))
	if err := check(e, long); err != svid.TooLongLived {
		t.Fatal(err)
	}
	for what, row := range map[string]struct {
		token  string
		status int
	}{
		"no token": {"a.b.c", 422}, "used": {used, 200}, "long-lived": {long, 200}, "expired": {example.Token("ES256", claims(moment)), 422},
		"not signed": {long[:len(long)-8] + "AAAAAAAA", 422},
	} {
		w := httptest.NewRecorder()
		h.ServeHTTP(w, httptest.NewRequest("POST", "/withdraw", strings.NewReader(`{"token":"`+row.token+`"}`)))
		if w.Code != row.status {
			t.Errorf("%s: %d %s", what, w.Code, w.Body)
		}
	}
	if err := check(e, used); err != svid.Withdrawn {
		t.Errorf("used, and withdrawn: %v", err)
	}
	// The other sidecars may take tokens that live for longer: each has the withdrawal.
	if uses, err := svid.Uses(saved(t, e)); err != nil || len(uses) != 3 {
		t.Errorf("the record has %d uses, %v", len(uses), err)
	}
}

// A withdrawal is done once all have it, and is an error else, which says so.
func TestAWithdrawalThatIsNotDone(t *testing.T) {
	unready := engine(t, Options{Mode: Reuse})
	if err := unready.SetBundles(map[string]json.RawMessage{"example.org": example.JWKSet()}); err != nil {
		t.Fatal(err)
	}
	if w := withdraw(unready); w.Code != 503 || len(saved(t, unready)) != 17 {
		t.Errorf("before all is read: %d %s", w.Code, w.Body)
	}
	for _, mode := range []Mode{Once, Reuse} {
		e := ready(t, engine(t, Options{Mode: mode, Grouped: true, Journal: &disk{}}))
		m := (&broker{}).join(e)
		m.fault = errors.New("no servers")
		if w := withdraw(e); w.Code != 503 || !strings.Contains(w.Body.String(), "no servers") || e.Metrics.Withdrawals.Load() != 0 {
			t.Errorf("%s: %d %s, %d are counted", mode, w.Code, w.Body, e.Metrics.Withdrawals.Load())
		}
		m.mu.Lock()
		m.fault = nil
		m.mu.Unlock()
		if w := withdraw(e); w.Code != 200 || e.Metrics.Withdrawals.Load() != 1 {
			t.Errorf("%s, again: %d %s", mode, w.Code, w.Body)
		}
	}
}

// Who reads the record sees whether it is whole.
func TestARecordThatIsCutOffDoesNotLookWhole(t *testing.T) {
	e, err := NewEngine(Options{Mode: Once, Now: func() uint64 { return moment }, ValidatorID: svid.ValidatorID{1}, Longest: 3600, Ahead: 30})
	if err != nil {
		t.Fatal(err)
	}
	ready(t, e)
	server := httptest.NewServer(e.Admin(nil))
	defer server.Close()
	server.Config.ErrorLog = NewLog(io.Discard, Errors).Standard("http")
	read := func() ([]byte, error) {
		answer, err := http.Get(server.URL + "/messages")
		if err != nil {
			return nil, err
		}
		defer answer.Body.Close()
		text, err := io.ReadAll(answer.Body)
		if err == nil && answer.StatusCode != http.StatusOK {
			err = errors.New(answer.Status)
		}
		return text, err
	}
	if text, err := read(); err != nil || len(text) != 17 {
		t.Errorf("%d bytes, %v", len(text), err)
	}
	e.Close() // From here on the record can't be saved.
	if text, err := read(); err == nil {
		t.Errorf("%d bytes look like a whole record", len(text))
	}
}

// The engine's memory stays as it is while tokens are found, and bundles replaced.
func TestNothingIsLeaked(t *testing.T) {
	e := ready(t, engine(t, Options{Mode: Reuse}))
	const most = 20 << 20
	one := token("a")
	other := map[string]json.RawMessage{"example.org": example.JWKSet()}
	// (a key that is large, so that a few that are kept are seen)
	var key map[string]any
	if err := json.Unmarshal(firstKey(t, example), &key); err != nil {
		t.Fatal(err)
	}
	key["kid"], key["note"] = "large", strings.Repeat("a", 100_000)
	large, err := json.Marshal(map[string]any{"keys": []any{key}})
	if err != nil {
		t.Fatal(err)
	}
	other["example.com"] = large
	if err := e.SetBundles(other); err != nil {
		t.Fatal(err)
	}
	round := func(n int) {
		for i := 0; i < n; i++ {
			if _, err := e.Find(one); err != nil {
				t.Fatal(err)
			}
			if _, err := e.Find("a.b.c"); err == nil {
				t.Fatal("no token was found")
			}
			if i%10 == 0 {
				if err := e.SetBundles(other); err != nil {
					t.Fatal(err)
				}
			}
		}
		runtime.GC()
	}
	round(200)
	before := resident(t)
	round(1200)
	if grown := resident(t) - before; grown > most {
		t.Errorf("%d bytes more are in use", grown)
	}
}

// firstKey is the first key of an issuer's.
func firstKey(t *testing.T, i *issuer.Issuer) json.RawMessage {
	t.Helper()
	var set struct{ Keys []json.RawMessage }
	if err := json.Unmarshal(i.JWKSet(), &set); err != nil {
		t.Fatal(err)
	}
	return set.Keys[0]
}

// resident is how many bytes of memory this process has.
func resident(t *testing.T) int {
	t.Helper()
	text, err := os.ReadFile("/proc/self/statm")
	if err != nil {
		t.Skip(err)
	}
	var all, pages int
	if _, err := fmt.Sscan(string(text), &all, &pages); err != nil {
		t.Fatal(err)
	}
	return pages * os.Getpagesize()
}

// What waits for a clock that is right again has a bound, and a message that has room comes behind one that has none.
func TestLateMessagesHaveABound(t *testing.T) {
	var l late
	half := make([]byte, mostLate/2-2*ofLate)
	l.add([][]byte{half, half[:len(half)-10], half, half[:9], half[:2], half[:1]})
	if len(l.messages) != 4 || l.bytes != mostLate {
		t.Errorf("%d messages of %d bytes wait, want 4 of %d", len(l.messages), l.bytes, mostLate)
	}
	// One that has no bytes takes room too.
	l = late{}
	l.add(make([][]byte, mostLate/16))
	if len(l.messages) > mostLate/24 {
		t.Errorf("%d messages without bytes wait", len(l.messages))
	}
}

// Everything at once, for the race detector; and each token is accepted once in the modes that say so.
func TestEverythingAtOnce(t *testing.T) {
	for _, mode := range []Mode{Once, Strict, Reuse} {
		var out bytes.Buffer
		o := inStrict(Options{Grouped: mode == Once, Journal: &disk{}, Log: NewLog(&out, All)})
		o.Mode = mode
		e := newShop().use(t, ready(t, engine(t, o)))
		if mode == Once {
			(&broker{}).join(e)
		}
		ctx, cancel := context.WithCancel(context.Background())
		ran := make(chan struct{})
		go func() { defer close(ran); e.Run(ctx) }()
		bundles := []map[string]json.RawMessage{
			{"example.org": example.JWKSet()},
			{"example.org": example.JWKSet(), "example.com": json.RawMessage(`{"keys":[]}`)},
		}
		const each, workers = 20, 3
		tokens := make([]string, each)
		for i := range tokens {
			tokens[i] = token(fmt.Sprint(i))
		}
		accepted := make([]int, each)
		var mu sync.Mutex
		late := batchOf(svid.Use{Key: svid.TokenKey{9}, Expires: moment + 300, At: moment})
		tasks := []func(i int){
			func(i int) {
				switch err := check(e, tokens[i]); err {
				case nil:
					mu.Lock()
					accepted[i]++
					mu.Unlock()
				case svid.Replayed:
				default:
					t.Error(err)
				}
			},
			func(i int) {
				if err := e.SetBundles(bundles[i%2]); err != nil {
					t.Error(err)
				}
			},
			func(i int) {
				if _, err := e.Find(tokens[i]); err != nil {
					t.Error(err)
				}
			},
			func(i int) {
				if w := withdraw(e); w.Code != 200 {
					t.Error(w.Body)
				}
			},
			func(i int) {
				for _, path := range []string{"/metrics", "/readyz", "/check"} {
					request(e.Handler(), "GET", path)
				}
			},
			func(i int) {
				if w := request(e.Admin(nil), "GET", "/messages"); w.Code != 200 {
					t.Error(w.Code)
				}
				e.step(doing((*Machine).measure))
			},
			func(i int) {
				e.step(doing(func(m *Machine) { m.late.add([][]byte{late}) }))
				e.step(doing((*Machine).takeLate))
			},
			func(i int) {
				e.snapshot()
				e.step(doing(func(m *Machine) { m.keepSoon(svid.Use{Expires: 1 << 40, At: uint64(i)}) }))
				again(t, e)
			},
			func(i int) {
				e.Log.Event("a", "i", i)
				e.Log.Standard("b").Println(i)
			},
		}
		var all sync.WaitGroup
		for w := 0; w < workers; w++ {
			for _, task := range tasks {
				all.Add(1)
				go func(task func(int)) {
					defer all.Done()
					for i := 0; i < each; i++ {
						task(i)
					}
				}(task)
			}
		}
		all.Wait()
		cancel()
		<-ran
		kept(t, e)
		for i, n := range accepted {
			if n != 1 && mode != Reuse || n != workers && mode == Reuse {
				t.Errorf("%s: token %d was accepted %d times", mode, i, n)
			}
		}
		for _, line := range strings.Split(strings.TrimSuffix(out.String(), "\n"), "\n") {
			if !json.Valid([]byte(line)) {
				t.Fatalf("%s: %q", mode, line)
			}
		}
	}
}

// A client that goes away does not keep its acceptance from the disk, nor from the group.
func TestAClientThatGoesAway(t *testing.T) {
	d := &disk{}
	e := ready(t, engine(t, Options{Mode: Once, Journal: d, Grouped: true}))
	(&broker{}).join(e)
	gone, leave := context.WithCancel(context.Background())
	leave()
	if _, err := e.Check(gone, token("a")); err != nil {
		t.Error(err)
	}
	if d.Size() != 82 || withMachine(e, untold) != 1 {
		t.Errorf("%d bytes are on the disk, and %d uses wait to be told", d.Size(), withMachine(e, untold))
	}
}

// Without a group nothing waits to be told.
func TestASidecarByItselfTellsNobody(t *testing.T) {
	e := ready(t, engine(t, Options{Mode: Once, Journal: &disk{}}))
	if err := check(e, token("a")); err != nil {
		t.Fatal(err)
	}
	if withMachine(e, untold) != 0 || e.Metrics.Untold.Load() != 0 {
		t.Errorf("%d uses wait, %d are given up", withMachine(e, untold), e.Metrics.Untold.Load())
	}
	if aside := takeAll(e, carriers.Uses, []byte("garbage")); aside != 1 {
		t.Errorf("%d aside", aside)
	}
}
