package svid_test

import (
	"crypto/ecdsa"
	"crypto/elliptic"
	"crypto/rand"
	"encoding/base64"
	"encoding/json"
	"errors"
	"fmt"
	"math/big"
	"sort"
	"strings"
	"sync/atomic"
	"syscall"
	"testing"
	"time"
	"unsafe"

	"svid.example/go/v3/internal/issuer"
	"svid.example/go/v3/svid"
)

// mebibyte is how much svidd reads of a bundle.
const mebibyte = 1 << 20

// A junk is a token of a stranger, whose signature no key made, and the bundles
// that make it cost the most: a trust domain of a mebibyte of keys, that of the
// good tokens beside it.
type junk struct {
	name, algorithm string
	signature       []byte
	key             func(kid string) map[string]string
	oneKid          bool // all keys have the token's kid, and else the token names none
	fresh           bool // each token names other keys, which nobody tried before: as many with one kid as are tried
	few             bool // there are no more keys than are tried, instead of a mebibyte
	pad             int
}

func junks(t testing.TB) []junk {
	ec := func(algorithm string, curve elliptic.Curve) junk {
		key, err := ecdsa.GenerateKey(curve, rand.Reader)
		if err != nil {
			t.Fatal(err)
		}
		signature := make([]byte, 2*((curve.Params().BitSize+7)/8))
		for i := range signature {
			signature[i] = byte(i + 1)
		}
		signature[0], signature[len(signature)/2] = 0, 0
		return junk{name: algorithm, algorithm: algorithm, signature: signature, key: func(kid string) map[string]string { return issuer.ECKey(kid, &key.PublicKey) }}
	}
	rsa := func(algorithm string, bits int, exponent int64) junk {
		n := make([]byte, bits/8)
		if _, err := rand.Read(n); err != nil {
			t.Fatal(err)
		}
		n[0], n[len(n)-1] = n[0]|0x80, n[len(n)-1]|1
		modulus := base64.RawURLEncoding.EncodeToString(n)
		e := base64.RawURLEncoding.EncodeToString(big.NewInt(exponent).Bytes())
		signature := append([]byte(nil), n...)
		signature[0] = 1
		return junk{name: fmt.Sprintf("%s-%d-e%d", algorithm, bits, exponent), algorithm: algorithm, signature: signature, key: func(kid string) map[string]string {
			return map[string]string{"kty": "RSA", "use": "jwt-svid", "kid": kid, "n": modulus, "e": e}
		}}
	}
	none := func(string) map[string]string { return map[string]string{"kty": "EC", "use": "jwt-svid", "kid": "0"} }
	all := []junk{
		{name: "26,000-keys", algorithm: "ES256", signature: []byte("signature"), key: none},
		{name: "26,000-keys-of-one-kid", algorithm: "ES256", signature: []byte("signature"), key: none, oneKid: true},
		ec("ES256", elliptic.P256()), ec("ES384", elliptic.P384()), ec("ES512", elliptic.P521()),
	}
	for _, algorithm := range issuer.Algorithms {
		if algorithm[0] != 'E' {
			all = append(all, rsa(algorithm, 2048, 65537), rsa(algorithm, 4096, 65537), rsa(algorithm, 4096, 1<<31-1))
		}
	}
	for _, j := range all[2:len(all):len(all)] {
		if strings.HasPrefix(j.name, "ES") || j.name == "PS512-4096-e2147483647" {
			j.name, j.fresh = j.name+"-fresh", true
			all = append(all, j)
		}
	}
	for _, j := range all[:len(all):len(all)] {
		j.name, j.pad = j.name+"/64-KiB", 48_000
		all = append(all, j)
	}
	return all
}

// bundles has a mebibyte of the keys, or a few, at junk.example, and the issuer's at example.org.
func (j junk) bundles(t testing.TB) []byte {
	var keys []json.RawMessage
	for size, i := 0, 0; ; i++ {
		kid := i
		if j.fresh {
			kid /= svid.MaxCandidates
		}
		members := j.key(fmt.Sprint(kid))
		members["number"] = fmt.Sprint(i)
		key := mustJSON(members)
		if size += len(key) + 1; size > mebibyte-10 || j.few && i == svid.MaxCandidates {
			break
		}
		keys = append(keys, key)
	}
	sets := map[string]any{"junk.example": map[string]any{"keys": keys}}
	var own map[string]json.RawMessage
	if err := json.Unmarshal(example.Bundles(), &own); err != nil {
		t.Fatal(err)
	}
	for domain, set := range own {
		sets[domain] = set
	}
	return mustJSON(sets)
}

func (j junk) token(jti int) string {
	encode := base64.RawURLEncoding.EncodeToString
	header := fmt.Sprintf(`{"alg":"%s"}`, j.algorithm)
	switch {
	case j.oneKid:
		header = fmt.Sprintf(`{"alg":"%s","kid":"0"}`, j.algorithm)
	case j.fresh:
		header = fmt.Sprintf(`{"alg":"%s","kid":"%d"}`, j.algorithm, jti+1)
	}
	payload := fmt.Sprintf(`{"sub":"spiffe://junk.example/x","aud":"ledger","exp":%d,"jti":"%d","pad":"%s"}`, moment+300, jti, strings.Repeat("a", j.pad))
	return encode([]byte(header)) + "." + encode([]byte(payload)) + "." + encode(j.signature)
}

// open is a validator and a keyring of these bundles, as svidd has them.
func (j junk) open(t testing.TB) (*svid.Validator, *svid.Keyring) {
	o := options(1)
	o.Bundles = j.bundles(t)
	v, err := svid.Open(o)
	if err != nil {
		t.Fatal(err)
	}
	t.Cleanup(v.Close)
	return v, keyring(t, o.Bundles)
}

// processorTime is how long this process was on a processor.
func processorTime(t testing.TB) time.Duration {
	var now syscall.Timespec
	const clockProcess = 2 // CLOCK_PROCESS_CPUTIME_ID
	if _, _, e := syscall.Syscall(syscall.SYS_CLOCK_GETTIME, clockProcess, uintptr(unsafe.Pointer(&now)), 0); e != 0 {
		t.Fatal(e)
	}
	return time.Duration(now.Nano())
}

// A token of a stranger costs no more where its trust domain has thousands of keys.
func TestAJunkTokenCostsLittle(t *testing.T) {
	// each is the time of a processor that such a token takes.
	each := func(j junk) time.Duration {
		v, k := j.open(t)
		defer v.Close()
		defer k.Close()
		from := processorTime(t)
		const tokens = 3
		for i := 0; i < tokens; i++ {
			if _, err := v.Accept(k, moment, j.token(i)); !errors.Is(err, svid.BadSignature) {
				t.Fatalf("%s: %v", j.name, err)
			}
		}
		return (processorTime(t) - from) / tokens
	}
	for _, j := range junks(t) {
		if j.pad == 0 || j.fresh || j.algorithm[0] != 'E' {
			continue // they cost less
		}
		few := j
		few.few = true
		// (With each key it would be 26,000 hashes of the token, or thousands of verifications.)
		var ofFew, ofMany time.Duration
		isMore := true
		for try := 0; try < 3 && isMore; try++ { // (the collector, and other tests of this process, take some of the time)
			ofFew, ofMany = each(few), each(j)
			isMore = ofMany > 4*ofFew+20*time.Millisecond
		}
		if isMore {
			t.Errorf("%s: a junk token takes %v of a processor with a mebibyte of keys, and %v with %d keys", j.name, ofMany, ofFew, svid.MaxCandidates)
		}
	}
}

// BenchmarkJunkTokens measures what a token of a stranger costs: milliseconds of a
// processor for each.
func BenchmarkJunkTokens(b *testing.B) {
	for _, j := range junks(b) {
		v, k := j.open(b)
		b.Run(j.name, func(b *testing.B) {
			tokens := make([]string, b.N)
			for i := range tokens {
				tokens[i] = j.token(i)
			}
			if _, err := v.Accept(k, moment, j.token(-1)); !errors.Is(err, svid.BadSignature) {
				b.Fatal(err)
			}
			from := processorTime(b)
			b.ResetTimer()
			for _, token := range tokens {
				_, _ = v.Accept(k, moment, token)
			}
			b.ReportMetric(float64((processorTime(b)-from).Microseconds())/1000/float64(b.N), "cpu-ms/token")
		})
	}
}

// BenchmarkGoodTokensBesideJunk measures how long good tokens take, in
// milliseconds, while two strangers send junk without a pause.
func BenchmarkGoodTokensBesideJunk(b *testing.B) {
	for _, j := range junks(b) {
		v, k := j.open(b)
		for _, strangers := range []int{0, 2} {
			b.Run(fmt.Sprintf("%s/%d-strangers", j.name, strangers), func(b *testing.B) {
				goods := make([]string, b.N)
				for i := range goods {
					goods[i] = example.Token("ES256", claims(fmt.Sprint(j.name, strangers, b.N, i)))
				}
				var ended int32
				done := make(chan struct{})
				for s := 0; s < strangers; s++ {
					go func() {
						token := j.token(0)
						for atomic.LoadInt32(&ended) == 0 {
							_, _ = v.Accept(k, moment, token)
						}
						done <- struct{}{}
					}()
				}
				took := make([]time.Duration, b.N)
				b.ResetTimer()
				for i, token := range goods {
					from := time.Now()
					if _, err := v.Accept(k, moment, token); err != nil {
						b.Error(err)
					}
					took[i] = time.Since(from)
				}
				b.StopTimer()
				atomic.StoreInt32(&ended, 1)
				for s := 0; s < strangers; s++ {
					<-done
				}
				sort.Slice(took, func(i, j int) bool { return took[i] < took[j] })
				ms := func(d time.Duration) float64 { return float64(d.Microseconds()) / 1000 }
				b.ReportMetric(ms(took[len(took)/2]), "median-ms")
				b.ReportMetric(ms(took[len(took)-1]), "longest-ms")
			})
		}
	}
}
