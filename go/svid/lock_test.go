package svid

import (
	"bytes"
	"errors"
	"reflect"
	"runtime"
	"sync"
	"testing"
	"time"

	"svid.example/go/v3/internal/issuer"
	"svid.example/go/v3/internal/patience"
)

// The race detector does not see what the C library writes. So these tests hold a lock, or all handles, and want each call to
// wait for it.

var (
	ofLocks     *issuer.Issuer
	ofLocksOnce sync.Once
)

// issuerOfLocks is one issuer for all of these tests.
func issuerOfLocks(t *testing.T) *issuer.Issuer {
	t.Helper()
	ofLocksOnce.Do(func() { ofLocks = newIssuer(t, "example.org") })
	return ofLocks
}

// inside runs a call. By its name the calls that wait are found among all goroutines.
//
//go:noinline
func inside(call func(), done chan<- string, name string) {
	call()
	done <- name
}

// waiting is how many calls of inside wait for a lock or for a channel.
func waiting() (n int) {
	stacks := make([]byte, 1<<20)
	stacks = stacks[:runtime.Stack(stacks, true)]
	for _, stack := range bytes.Split(stacks, []byte("\n\n")) {
		if !bytes.Contains(stack, []byte("svid.inside(")) {
			continue
		}
		state, frames, _ := bytes.Cut(stack, []byte("\n"))
		if bytes.HasPrefix(frames, []byte("sync.runtime_Semacquire")) || bytes.Contains(state, []byte("[chan receive")) {
			n++
		}
	}
	return n
}

// wantWait wants each of the calls to wait until free is called, and to return after that. Other calls may wait before.
func wantWait(t *testing.T, what string, free func(), calls map[string]func()) {
	t.Helper()
	before := waiting()
	done := make(chan string, len(calls))
	for name, call := range calls {
		go inside(call, done, name)
	}
	returned := 0
	for end := time.Now().Add(patience.Long); returned+waiting()-before < len(calls); time.Sleep(time.Millisecond) {
		select {
		case name := <-done:
			returned++
			t.Errorf("%s does not wait: %s", name, what)
		default:
		}
		if time.Now().After(end) {
			t.Fatalf("calls neither wait nor return: %s", what)
		}
	}
	free()
	for ; returned < len(calls); returned++ {
		select {
		case <-done:
		case <-time.After(patience.Long):
			t.Fatalf("a call does not return: %s", what)
		}
	}
}

// methods wants calls to have every exported method of a value.
func methods(t *testing.T, of any, calls map[string]func()) {
	t.Helper()
	for kind, i := reflect.TypeOf(of), 0; i < kind.NumMethod(); i++ {
		if calls[kind.Method(i).Name] == nil {
			t.Errorf("there is no call of %s here", kind.Method(i).Name)
		}
	}
}

func openValidator(t *testing.T, bundles []byte) *Validator {
	t.Helper()
	v, err := Open(Options{Audiences: []string{"ledger"}, Bundles: bundles, Longest: 3600})
	if err != nil {
		t.Fatal(err)
	}
	t.Cleanup(v.Close)
	return v
}

func TestEachCallOfAValidatorHoldsItsLock(t *testing.T) {
	const now = 1_767_225_600
	one := issuerOfLocks(t)
	v, k := openValidator(t, one.Bundles()), openKeyring(t, string(one.Bundles()))
	token := one.Token("ES256", map[string]any{"sub": "spiffe://example.org/web", "aud": "ledger", "exp": now + 300, "jti": "a"})
	yes, err := k.Verify(token)
	if err != nil {
		t.Fatal(err)
	}
	judged, err := v.Judge(now, token, yes)
	if err != nil {
		t.Fatal(err)
	}
	summary, err := v.Summary()
	if err != nil {
		t.Fatal(err)
	}
	read := [5]Token{NewToken(token), NewToken(token), NewToken(token), NewToken(token), NewToken(token)}
	for i := range read {
		defer read[i].Close()
		if _, err := k.VerifyToken(&read[i]); err != nil {
			t.Fatal(err)
		}
	}
	calls := map[string]func(){
		"Accept":       func() { _, _ = v.Accept(k, now, token) },
		"Answer":       func() { _, _ = v.Answer(now, summary) },
		"Ask":          func() { _, _, _ = v.Ask(now, 1, new([32]byte), new(KnownClaim), &read[4]) },
		"Check":        func() { _, _ = v.Check(now, token, yes) },
		"CheckToken":   func() { _, _ = v.CheckToken(now, &read[0]) },
		"Close":        v.Close,
		"Come":         func() { _, _ = v.Come(1) },
		"Due":          func() { _, _, _ = v.Due() },
		"Edition":      func() { _ = v.Edition() },
		"Found":        func() { _, _, _ = v.Found(now, 1, 0, [32]byte{}, Found{}, &read[2]) },
		"GoOn":         func() { _ = v.GoOn() },
		"Judge":        func() { _, _ = v.Judge(now, token, yes) },
		"JudgeRequest": func() { _, _, _ = v.JudgeRequest(now, 1, 0, &read[3]) },
		"JudgeToken":   func() { _, _ = v.JudgeToken(now, &read[1]) },
		"Judges":       func() { _ = v.Judges() },
		"Know":         func() { _ = v.Know(Known{}) },
		"Leave":        func() { _, _ = v.Leave(1, 0) },
		"LogBeside":    func() { _, _ = v.LogBeside() },
		"LogMark":      func() { _, _, _ = v.LogMark() },
		"OpenLog":      func() { _ = v.OpenLog(Log{}) },
		"OpenMember":   func() { _ = v.OpenMember(MemberTerms{}) },
		"Overdue":      func() { _, _ = v.Overdue(1) },
		"Read":         func() { _, _ = v.Read(now, 1, nil, 1, nil) },
		"ReadEach":     func() { _, _ = v.ReadEach(now, 1, [][]byte{nil}, 1, nil, nil) },
		"Ready":        func() { _ = v.Ready() },
		"Save":         func() { _ = v.Save(&bytes.Buffer{}) },
		"Renew":        func() { _ = v.Renew(k, one.Bundles()) },
		"Send":         func() { _, _ = v.Send(1, 0) },
		"SetAudiences": func() { _ = v.SetAudiences([]string{"other"}) },
		"SetBundles":   func() { _ = v.SetBundles(one.Bundles()) },
		"SetRules":     func() { _ = v.SetRules([]string{"other"}, nil) },
		"Size":         func() { _, _ = v.Size() },
		"Summary":      func() { _, _ = v.Summary() },
		"Take":         func() { _ = v.Take(now, batchOf(judged.Use)) },
		"TakeEach":     func() { _, _ = v.TakeEach(now, [][]byte{batchOf(judged.Use)}) },
		"Tick":         func() { _ = v.Tick(now) },
		"WalkAnswer":   func() { _, _ = v.WalkAnswer(summary, 1000) },
		"WalkSummary":  func() { _, _ = v.WalkSummary(0) },
		"Withdraw":     func() { _, _ = v.Withdraw(now, judged.Use.Key, now+300) },
		"Wrote":        func() { _, _ = v.Wrote(1, 0, true) },

		"WithdrawalCome":    func() { _, _, _ = v.WithdrawalCome(1) },
		"WithdrawalOverdue": func() { _, _, _ = v.WithdrawalOverdue(1) },
		"WithdrawalTold":    func() { _, _, _ = v.WithdrawalTold(0, KeeperDisk, true) },
	}
	methods(t, v, calls)
	v.mu.Lock()
	wantWait(t, "another call holds the validator's lock", v.mu.Unlock, calls)
}

// A walk takes the lock for each of its calls, also where the one before has not shown it.
func TestTheLastStepOfAWalkHoldsTheLock(t *testing.T) {
	v := openValidator(t, []byte(`{}`))
	v.mu.Lock()
	wantWait(t, "another call holds the validator's lock", v.mu.Unlock, map[string]func(){
		"tellBucket": func() { _, _ = v.tellBucket(7, 0, nil) },
	})
}

// The lock is held until the library has returned: for a long call that shows.
func TestALongCallKeepsTheLock(t *testing.T) {
	const now = 1_767_225_600
	v := openValidator(t, []byte(`{}`))
	uses := make([]Use, 100_000)
	for i := range uses {
		uses[i] = Use{Key: TokenKey{byte(i), byte(i >> 8), byte(i >> 16)}, Expires: now + 300, At: now - uint64(i%10)}
	}
	batches := batchesOf(uses)
	done := make(chan error)
	go func() { done <- v.Take(now, batches) }()
	held := 0
	for {
		select {
		case err := <-done:
			if err != nil || held == 0 {
				t.Errorf("the lock was held %d times of those that were looked: %v", held, err)
			}
			return
		default:
		}
		if v.mu.TryLock() {
			v.mu.Unlock()
		} else {
			held++
		}
	}
}

func TestEachCallOfAKeyringHoldsItsLock(t *testing.T) {
	one := issuerOfLocks(t)
	k := openKeyring(t, string(one.Bundles()))
	token := func(jti string) string {
		return one.Token("ES256", map[string]any{"sub": "spiffe://example.org/web", "aud": "ledger", "exp": 2_000_000_000, "jti": jti})
	}
	good := token("a")
	strange := token("b")[:20]
	reading := map[string]func(){
		"Candidates":         func() { _, _ = k.Candidates(good) },
		"Judge":              func() { _, _ = k.Judge(Judgment{Audiences: []string{"ledger"}}, 1, good, nil) },
		"Verify":             func() { _, _ = k.Verify(good) },
		"Verify of no token": func() { _, _ = k.Verify(strange) },
		"VerifyToken":        func() { read := NewToken(good); _, _ = k.VerifyToken(&read); read.Close() },
	}
	changing := map[string]func(){
		"SetBundles": func() { _ = k.SetBundles(one.Bundles()) },
	}
	all := map[string]func(){"Close": nil}
	for name, call := range reading {
		all[name] = call
	}
	for name, call := range changing {
		all[name] = call
	}
	all["Close"] = func() {}
	methods(t, k, all)
	delete(all, "Close")
	k.mu.Lock()
	wantWait(t, "another call holds the keyring's lock", k.mu.Unlock, all)
	changing["Close"] = k.Close
	k.mu.RLock()
	wantWait(t, "a call reads the bundles", k.mu.RUnlock, changing)
}

// A handle of the library serves one call at a time, and is there for the next one afterwards.
func TestEachHandleServesOneCall(t *testing.T) {
	one := issuerOfLocks(t)
	k := openKeyring(t, string(one.Bundles()))
	var all []*asker
	for range make([]struct{}, cap(k.askers)) {
		all = append(all, <-k.askers)
	}
	askers := k.askers
	free := func() {
		for _, a := range all {
			askers <- a
		}
	}
	wantWait(t, "all handles are in use", free, map[string]func(){
		"Candidates": func() { _, _ = k.Candidates("a.b.c") },
		"Verify":     func() { _, _ = k.Verify("a.b.c") },
	})
	if len(k.askers) != cap(k.askers) {
		t.Errorf("%d handles of %d are left", len(k.askers), cap(k.askers))
	}

	// The bundles stay until it has its answer: their handles are closed behind it.
	for i := range all {
		all[i] = <-k.askers
	}
	done := make(chan string, 1)
	go inside(func() { _, _ = k.Candidates("a.b.c") }, done, "Candidates")
	for end := time.Now().Add(patience.Long); waiting() < 1; time.Sleep(time.Millisecond) {
		if time.Now().After(end) {
			t.Fatal("Candidates does not wait")
		}
	}
	wantWait(t, "a call asks of the bundles", free, map[string]func(){"SetBundles": func() { _ = k.SetBundles(one.Bundles()) }})
	select {
	case <-done:
	case <-time.After(patience.Long):
		t.Fatal("Candidates does not return")
	}
}

// The keys of bundles have a lock of their own.
func TestTheKeysOfBundlesHaveALock(t *testing.T) {
	one := issuerOfLocks(t)
	k := openKeyring(t, string(one.Bundles()))
	token := NewToken(one.Token("ES256", map[string]any{"sub": "spiffe://example.org/web", "aud": "ledger", "exp": 2_000_000_000}))
	defer token.Close()
	makers, keys, err := k.ask(nil, new(signing), &token)
	if err != nil {
		t.Fatal(err)
	}
	text := []byte(makers[0].key.JSON())
	all := map[string]func(){"a known key": func() { keys.get(text) }, "a new key": func() { keys.get([]byte("{}")) }}
	keys.mu.Lock()
	wantWait(t, "another call changes the keys", keys.mu.Unlock, all)
	changing := map[string]func(){"a new key": func() { keys.get([]byte(`{"kty":"EC"}`)) }}
	keys.mu.RLock()
	wantWait(t, "another call reads the keys", keys.mu.RUnlock, changing)
}

// The handles of bundles that were replaced are closed, and those of a keyring that is closed.
func TestOldBundlesAreFreed(t *testing.T) {
	one := issuerOfLocks(t)
	k := openKeyring(t, string(one.Bundles()))
	for i, replace := range []func(){
		func() {
			if err := k.SetBundles(one.Bundles()); err != nil {
				t.Fatal(err)
			}
		},
		k.Close,
	} {
		old := k.askers
		replace()
		if len(old) != cap(old) {
			t.Errorf("%d: %d handles of %d", i, len(old), cap(old))
		}
		for n := len(old); n > 0; n-- {
			token, a := NewToken(one.Token("ES256", map[string]any{"sub": "spiffe://example.org/web", "aud": "ledger", "exp": 2_000_000_000})), <-old
			if err := token.read(&a.told); err != nil {
				t.Fatal(err)
			}
			if _, err := a.makers(nil, new(signing), &token, k.keys); !errors.Is(err, ErrClosed) {
				t.Errorf("%d: a handle is still open: %v", i, err)
			}
			if _, err := a.candidates(token.text, k.keys); !errors.Is(err, ErrClosed) {
				t.Errorf("%d: a handle is still open: %v", i, err)
			}
			token.Close()
			old <- a
			<-old
		}
	}
}
