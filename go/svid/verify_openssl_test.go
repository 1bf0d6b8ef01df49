//go:build cgo && !gocrypto

package svid

import (
	"fmt"
	"os"
	"runtime"
	"runtime/debug"
	"strconv"
	"strings"
	"sync"
	"testing"
	"time"

	"svid.example/go/v3/internal/issuer"
	"svid.example/go/v3/internal/patience"
)

// keptSeats is how many seats a key keeps.
func keptSeats(k *Key) (kept int) {
	for _, seats := range k.handle.seats {
		for i := range seats {
			if seats[i].key != 0 {
				kept++
			}
		}
	}
	return kept
}

// collect frees what nothing refers to, and waits until the finalizers of that have run.
func collect() {
	for n := 0; n < 2; n++ { // (what the first ones let go has its own in the second round)
		ran := make(chan struct{})
		runtime.SetFinalizer(&struct{ ran chan struct{} }{ran}, func(it *struct{ ran chan struct{} }) { close(it.ran) })
		runtime.GC()
		<-ran
	}
}

// OpenSSL's memory of a key is given back with the key, and what it keeps to verify by it with it.
func TestKeysOfOpenSSLAreFreed(t *testing.T) {
	one, err := issuer.New("example.org")
	if err != nil {
		t.Fatal(err)
	}
	defer debug.SetGCPercent(debug.SetGCPercent(-1)) // (so that no key of an earlier test goes meanwhile)
	collect()
	before := openHandles.Load()
	keyring, err := NewKeyring(one.Bundles())
	if err != nil {
		t.Fatal(err)
	}
	for _, algorithm := range []string{"RS256", "PS384", "ES256", "ES512"} {
		token := one.Token(algorithm, map[string]any{"sub": "spiffe://example.org/web", "aud": "ledger", "exp": 2_000_000_000})
		if yes, err := keyring.Verify(token); err != nil || len(yes) != 1 {
			t.Fatalf("%s: %v %v", algorithm, yes, err)
		}
	}
	if openHandles.Load() == before {
		t.Fatal("OpenSSL holds no key")
	}
	keyring.Close()
	keyring = nil
	for end := time.Now().Add(patience.Long); openHandles.Load() > before; { // (keys of earlier tests may go meanwhile)
		if time.Now().After(end) {
			t.Fatalf("OpenSSL holds %d keys of a keyring that is gone", openHandles.Load()-before)
		}
		runtime.GC()
	}
}

// A key keeps what it verified by once it made a signature, and not for a stranger's.
func TestAStrangersTokenKeepsNoSeat(t *testing.T) {
	one, err := issuer.New("example.org")
	if err != nil {
		t.Fatal(err)
	}
	keyring, err := NewKeyring(one.Bundles())
	if err != nil {
		t.Fatal(err)
	}
	defer keyring.Close()
	token := one.Token("ES256", map[string]any{"sub": "spiffe://example.org/web", "aud": "ledger", "exp": 2_000_000_000})
	candidates, err := keyring.Candidates(token)
	if err != nil || len(candidates) == 0 {
		t.Fatal(candidates, err)
	}
	s := signingOf(t, token)
	good := s.signature
	key, bad := candidates[0].Key, append([]byte(nil), good...)
	bad[0] ^= 1
	for i := 0; i < 2*cap(slots); i++ {
		if err := key.Verify("ES256", s.text, bad); err != ErrSignature {
			t.Fatal(err)
		}
	}
	if n := keptSeats(key); n != 0 {
		t.Errorf("a stranger's token left %d seats", n)
	}
	for i := 0; i < 2*cap(slots); i++ {
		if err := key.Verify("ES256", s.text, good); err != nil {
			t.Fatal(err)
		}
	}
	if n := keptSeats(key); n == 0 || n > cap(slots) {
		t.Errorf("%d seats are kept of %d", n, cap(slots))
	}
}

// threads is how many threads this process has.
func threads(t *testing.T) int {
	t.Helper()
	status, err := os.ReadFile("/proc/self/status")
	if err != nil {
		t.Fatal(err)
	}
	_, rest, _ := strings.Cut(string(status), "Threads:")
	n, err := strconv.Atoi(strings.Fields(rest)[0])
	if err != nil {
		t.Fatal(err)
	}
	return n
}

// However many goroutines verify at once, only as many threads are in OpenSSL as there are processors.
func TestNoThreadsPileUp(t *testing.T) {
	one, err := issuer.New("example.org")
	if err != nil {
		t.Fatal(err)
	}
	keyring, err := NewKeyring(one.Bundles())
	if err != nil {
		t.Fatal(err)
	}
	defer keyring.Close()
	var group sync.WaitGroup
	before, crowd := threads(t), 50*cap(slots)
	for i := 0; i < crowd; i++ {
		token := one.Token("ES384", map[string]any{"sub": "spiffe://example.org/web", "aud": "ledger", "exp": 2_000_000_000, "jti": fmt.Sprint(i)})
		group.Add(1)
		go func() {
			defer group.Done()
			for i := 0; i < 10; i++ {
				if yes, err := keyring.Verify(token); err != nil || len(yes) != 1 {
					t.Error(yes, err)
				}
			}
		}()
	}
	group.Wait()
	// (a thread that Go started stays)
	if more := threads(t) - before; more > 2*cap(slots)+2 {
		t.Errorf("%d goroutines that verify made %d threads more", crowd, more)
	}
}
