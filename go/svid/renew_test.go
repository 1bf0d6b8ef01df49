package svid

import (
	"bytes"
	"errors"
	"fmt"
	"os"
	"os/exec"
	"runtime"
	"strconv"
	"strings"
	"syscall"
	"testing"
	"time"
	"unsafe"

	"svid.example/go/v3/internal/patience"
)

// manyKeys are a mebibyte of bundles, as much as svidd reads: 26,000 keys of one trust domain.
func manyKeys() []byte {
	const one, size = `{"kty":"EC","use":"jwt-svid","kid":""}`, 1 << 20
	text := []byte(`{"many.example":{"keys":[` + one)
	for len(text)+1+len(one)+3 <= size {
		text = append(append(text, ','), one...)
	}
	return append(text, "]}}"...)
}

// Bundles are read before the lock of the validator or of the keyring is taken: what is wrong with them is answered while
// another call holds it.
func TestBundlesAreReadWithoutALock(t *testing.T) {
	v, k := openValidator(t, []byte("{}")), openKeyring(t, "{}")
	v.mu.Lock()
	k.mu.Lock()
	defer v.mu.Unlock()
	defer k.mu.Unlock()
	for name, call := range map[string]func() error{
		"Validator.SetBundles": func() error { return v.SetBundles([]byte("[]")) },
		"Keyring.SetBundles":   func() error { return k.SetBundles([]byte("[]")) },
		"Renew":                func() error { return v.Renew(k, []byte("[]")) },
	} {
		done := make(chan error, 1)
		go func() { done <- call() }()
		select {
		case err := <-done:
			if err != ErrBundles {
				t.Errorf("%s: %v", name, err)
			}
		case <-time.After(patience.Long):
			t.Errorf("%s waits for a lock", name)
		}
	}
}

// beside makes a renewal, and returns how long it took, and the longest check that was made meanwhile.
func beside(v *Validator, renew func() error) (renewal, check time.Duration, err error) {
	done := make(chan error, 1)
	began := time.Now()
	go func() { done <- renew() }()
	for {
		select {
		case err := <-done:
			return time.Since(began), check, err
		default:
		}
		from := time.Now()
		if _, err := v.Check(0, "a.b.c", nil); err != HeaderNotObject && err != HeaderSpelling {
			return 0, 0, fmt.Errorf("a check: %w", err)
		}
		if took := time.Since(from); took > check {
			check = took
		}
	}
}

// A check is not held up by a renewal, however many keys the bundles have. (Other work on the machine may hold it up: so
// one of many tries is to show it. A check that waited for the bundles to be read would wait for half of the renewal or
// all of it, each time.)
func TestARenewalHoldsUpNoCheck(t *testing.T) {
	many := manyKeys()
	v, k := openValidator(t, many), openKeyring(t, string(many))
	for name, renew := range map[string]func() error{
		"SetBundles": func() error { return v.SetBundles(many) },
		"Renew":      func() error { return v.Renew(k, many) },
	} {
		held := true
		for end := time.Now().Add(patience.Long); held && time.Now().Before(end); {
			renewal, check, err := beside(v, renew)
			if err != nil {
				t.Fatal(err)
			}
			t.Logf("%s: the longest check %v, the renewal %v", name, check, renewal)
			held = check > renewal/5
		}
		if held {
			t.Errorf("%s holds up a check", name)
		}
	}
}

// A renewal of a mebibyte of bundles takes less than 200 MB of memory, with all that the process has: some 85 MB, and more on a
// busy machine, where the old bundles are collected later.
func TestTheMemoryOfARenewal(t *testing.T) {
	const told = "SVID_TEST_OF_MEMORY"
	if os.Getenv(told) == "" {
		cmd := exec.Command(os.Args[0], "-test.run", "^TestTheMemoryOfARenewal$")
		cmd.Env = append(os.Environ(), told+"=1")
		out, err := cmd.CombinedOutput()
		_, peak, found := bytes.Cut(out, []byte("VmHWM:"))
		kib, bad := strconv.Atoi(strings.Fields(string(peak) + " ?")[0])
		if err != nil || !found || bad != nil {
			t.Fatalf("%v: %s", err, out)
		}
		if kib > 200_000_000/1024 {
			t.Errorf("%d KiB", kib)
		}
		return
	}
	many := manyKeys()
	v, k := openValidator(t, many), openKeyring(t, string(many))
	for i := 0; i < 5; i++ {
		if err := v.Renew(k, many); err != nil {
			t.Fatal(err)
		}
	}
	status, err := os.ReadFile("/proc/self/status")
	if err != nil {
		t.Fatal(err)
	}
	_, peak, _ := bytes.Cut(status, []byte("VmHWM:"))
	fmt.Println("VmHWM:" + string(peak[:bytes.IndexByte(peak, '\n')]))
}

// A key that may have signed a token is a candidate with a question, which counts while the bundles are those that the key was of.
func TestAQuestionIsOfItsBundles(t *testing.T) {
	one := issuerOfLocks(t)
	k := openKeyring(t, string(one.Bundles()))
	token := one.Token("ES256", map[string]any{"sub": "spiffe://example.org/web", "aud": "ledger", "exp": 2_000_000_000, "jti": "a"})
	read := NewToken(token)
	defer read.Close()
	makers, keys, err := k.ask(nil, new(signing), &read)
	if err != nil || len(makers) == 0 {
		t.Fatal(err)
	}
	all, err := k.Candidates(token)
	if err != nil || len(all) != len(makers) {
		t.Fatal(all, err)
	}
	for i, m := range makers {
		if (Candidate{all[i].Question, m.algorithm, m.key}) != all[i] || all[i].Question == (Question{}) {
			t.Errorf("%d: %v, want %v", i, m, all[i])
		}
	}
	for i := range all {
		if asked, same, err := k.question(token, i, keys); asked != all[i].Question || !same || err != nil {
			t.Errorf("%d: %v %v %v", i, asked, same, err)
		}
	}
	if !k.has(keys) {
		t.Error("the bundles are other ones, and nobody replaced them")
	}
	if err := k.SetBundles(one.Bundles()); err != nil {
		t.Fatal(err)
	}
	if k.has(keys) {
		t.Error("a question of the bundles of before counts after a renewal")
	}
	if asked, same, err := k.question(token, 0, keys); asked != (Question{}) || same || err != nil {
		t.Errorf("after a renewal: %v %v %v", asked, same, err)
	}
}

// Validator and keyring get the same bundles, or both keep what they had.
func TestRenewIsOfBoth(t *testing.T) {
	const now = 1_767_225_600
	one := issuerOfLocks(t)
	v, k := openValidator(t, []byte("{}")), openKeyring(t, "{}")
	accept := func(jti string) error {
		_, err := v.Accept(k, now, one.Token("ES256", map[string]any{"sub": "spiffe://example.org/web", "aud": "ledger", "exp": now + 300, "jti": jti}))
		return err
	}
	if err := accept("a"); err != UnknownDomain {
		t.Error(err)
	}
	if err := v.Renew(k, one.Bundles()); err != nil {
		t.Fatal(err)
	}
	if err := accept("a"); err != nil {
		t.Error(err)
	}
	for _, bad := range []string{"", "[]", `{"a":{}}`} {
		if err := v.Renew(k, []byte(bad)); err == nil {
			t.Errorf("%q is taken", bad)
		}
		if err := accept("b" + bad); err != nil {
			t.Errorf("behind %q: %v", bad, err)
		}
	}
	if err := accept("a"); err != Replayed {
		t.Error(err)
	}
	if err := v.Renew(k, []byte("{}")); err != nil {
		t.Fatal(err)
	}
	if err := accept("c"); err != UnknownDomain {
		t.Error(err)
	}
	closed := openValidator(t, []byte("{}"))
	closed.Close()
	if err := closed.Renew(k, one.Bundles()); err != ErrClosed {
		t.Error(err)
	}
	if err := accept("d"); err != UnknownDomain {
		t.Errorf("the keyring of a closed validator has other bundles: %v", err)
	}
}

// A renewal between the verification of a token and its check refuses no good token, though the new bundles have its key written otherwise.
func TestAcceptVerifiesOnceMoreBehindARenewal(t *testing.T) {
	const now = 1_767_225_600
	one := issuerOfLocks(t)
	token := func(jti string) string {
		return one.Token("ES256", map[string]any{"sub": "spiffe://example.org/web", "aud": "ledger", "exp": now + 300, "jti": jti})
	}
	v, k := openValidator(t, one.Bundles()), openKeyring(t, string(one.Bundles()))
	r, err := openRenewal(bytes.ReplaceAll(one.Bundles(), []byte(`"kty":`), []byte(`"note":"","kty":`)))
	if err != nil {
		t.Fatal(err)
	}
	defer r.close()
	v.mu.Lock()
	var renewed, accepted error
	wantWait(t, "the validator's lock is held", func() {
		k.mu.Lock()
		renewed = r.of(v, k)
		k.mu.Unlock()
		v.mu.Unlock()
	}, map[string]func(){"Accept": func() { _, accepted = v.Accept(k, now, token("a")) }})
	if renewed != nil || accepted != nil {
		t.Errorf("the renewal: %v, the token: %v", renewed, accepted)
	}
	// A validator that lacks the keyring's key says so, and the signature is verified no more.
	if err := v.SetBundles(newIssuer(t, "example.org").Bundles()); err != nil {
		t.Fatal(err)
	}
	answer := make(chan error, 1)
	go func() {
		_, err := v.Accept(k, now, token("b"))
		answer <- err
	}()
	select {
	case err := <-answer:
		if err != BadSignature {
			t.Errorf("without the key: %v", err)
		}
	case <-time.After(patience.Long):
		t.Error("without the key there is no answer")
	}
}

// threadTime is how long this thread was on a processor: other work beside does not count.
func threadTime(t testing.TB) time.Duration {
	var now syscall.Timespec
	const clockThread = 3 // CLOCK_THREAD_CPUTIME_ID
	if _, _, e := syscall.Syscall(syscall.SYS_CLOCK_GETTIME, clockThread, uintptr(unsafe.Pointer(&now)), 0); e != 0 {
		t.Fatal(e)
	}
	return time.Duration(now.Nano())
}

// An answer of a key that the bundles have no more costs little, also where they have thousands.
func TestAnOldAnswerCostsLittle(t *testing.T) {
	runtime.LockOSThread()
	defer runtime.UnlockOSThread()
	const now = 1_767_225_600
	one := issuerOfLocks(t)
	token := one.Token("ES256", map[string]any{"sub": "spiffe://many.example/web", "aud": "ledger", "exp": now + 300, "jti": "a", "pad": strings.Repeat("a", 4_000)})
	header, rest, _ := strings.Cut(token, ".")
	_ = header
	token = "eyJhbGciOiJFUzI1NiJ9." + rest // it names no key
	v := openValidator(t, manyKeys())
	calls := map[string]func() error{
		"Check": func() error { _, err := v.Check(now, token, []Question{{1}}); return err },
		"Judge": func() error { _, err := v.Judge(now, token, []Question{{1}, {2}}); return err },
	}
	for name, call := range calls {
		for try := 0; ; try++ {
			from := threadTime(t)
			if err := call(); !errors.Is(err, BadSignature) {
				t.Fatalf("%s: %v", name, err)
			}
			// (With each key it would be 26,000 hashes of the token: half a second.)
			took := threadTime(t) - from
			if took < 50*time.Millisecond {
				break
			}
			if try == 5 {
				t.Errorf("%s takes %v", name, took)
				break
			}
		}
	}
}

// The answer of a key counts wherever it stands among those that are tried.
func TestEachAnswerThatIsTriedCounts(t *testing.T) {
	const now = 1_767_225_600
	one := issuerOfLocks(t)
	for order := 0; order < MaxCandidates; order++ {
		keys := make([]string, 0, 200)
		for i := 0; i < 200; i++ {
			keys = append(keys, `{"kty":"EC","use":"jwt-svid","kid":"`+strconv.Itoa(i)+`"}`)
		}
		text := string(one.Bundles())
		begin, end := strings.Index(text, `"keys":[`)+len(`"keys":[`), strings.LastIndex(text, "]")
		own := text[begin:end]
		bundles := text[:begin] + strings.Join(append(keys[:order:order], append([]string{own}, keys[order:]...)...), ",") + text[end:]
		v, k := openValidator(t, []byte(bundles)), openKeyring(t, bundles)
		token := one.Sign("ES256", `{"alg":"ES256"}`, fmt.Sprintf(`{"sub":"spiffe://example.org/web","aud":"ledger","exp":%d,"jti":"%d"}`, now+300, order))
		yes, err := k.Verify(token)
		if err != nil {
			t.Fatal(err)
		}
		if _, err := v.Check(now, token, yes); err != nil {
			t.Errorf("%d: %v, with %d answers", order, err, len(yes))
		}
	}
}

// Judge lends the bundles of a handle to itself: behind it, the handle lists their keys again, whatever Judge answered.
func TestJudgeGivesTheBundlesBack(t *testing.T) {
	const now = 1_767_225_600
	one := issuerOfLocks(t)
	k := openKeyring(t, string(one.Bundles()))
	token := one.Token("ES256", map[string]any{"sub": "spiffe://example.org/web", "aud": "ledger", "exp": now + 300})
	by := Judgment{Audiences: []string{"ledger"}, Longest: NoLimit}
	for i := 0; i < 2*cap(k.askers); i++ {
		yes, err := k.Verify(token)
		if err != nil || len(yes) != 1 {
			t.Fatalf("behind %d judgments: %v, %v", i, yes, err)
		}
		if _, err := k.Judge(by, now, token, yes); err != nil {
			t.Fatalf("judgment %d: %v", i, err)
		}
		if _, err := k.Judge(by, now, token, nil); err != BadSignature {
			t.Fatalf("judgment %d without a signature: %v", i, err)
		}
	}
}

// A token may be short or long: Verify answers the question that the library lists for it.
func TestVerifyOfLongTokens(t *testing.T) {
	one := issuerOfLocks(t)
	k := openKeyring(t, string(one.Bundles()))
	for _, pad := range []int{0, 4096, 40_000} {
		token := one.Token("ES256", map[string]any{"sub": "spiffe://example.org/web", "aud": "ledger", "exp": 2_000_000_000, "pad": strings.Repeat("a", pad)})
		for i := 0; i < 2*cap(k.askers); i++ {
			candidates, err := k.Candidates(token)
			if err != nil || len(candidates) != 1 {
				t.Fatalf("%d bytes: %v, %v", len(token), candidates, err)
			}
			if yes, err := k.Verify(token); err != nil || len(yes) != 1 || yes[0] != candidates[0].Question {
				t.Fatalf("%d bytes: %v, %v, want %v", len(token), yes, err, candidates[0].Question)
			}
		}
	}
}
