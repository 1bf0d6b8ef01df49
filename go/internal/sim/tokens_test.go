package sim

import (
	"encoding/json"
	"fmt"
	"sync"

	"svid.example/go/v3/internal/issuer"
	"svid.example/go/v3/svid"
)

// The setting of all groups. Times are whole seconds.
const (
	base    = 1_767_225_600 // when a run begins
	longest = 60
	ahead   = 5
	step    = 90 // more than a minute: so long a clock may be wrong until a sidecar restarts
	wildest = 30 // so far ahead may a clock be that is further off than the options say
)

// A token of the pool. Real signatures were made once, and verified once by each of the bundles: in a run nobody verifies any.
type token struct {
	text    string
	key     svid.TokenKey
	issued  uint64
	expires uint64
	issuer  int

	verified [bundleSets]verdict
}

// A verdict is what the effect Verify finds.
type verdict struct {
	once  sync.Once
	by    *svid.Key
	fault error
}

const (
	slot       = 5  // seconds between two times at which tokens are issued
	slots      = 60 // such times
	eachSlot   = 8  // tokens of each
	bundleSets = 3  // the keys of issuer 0, those of issuer 1, and those of another trust domain alone
)

// A pool is all tokens, and the bundles by which they are verified.
type pool struct {
	tokens   [slots][eachSlot]*token
	bundles  [bundleSets][]byte
	keyrings [bundleSets]*svid.Keyring
}

var (
	thePool  pool
	makePool sync.Once
)

// tokensOf returns the pool, which the first call makes.
func tokensOf() *pool {
	makePool.Do(func() {
		if err := thePool.make(); err != nil {
			panic(err)
		}
	})
	return &thePool
}

func (p *pool) make() error {
	var issuers [2]*issuer.Issuer
	for i := range issuers {
		var err error
		if issuers[i], err = issuer.New("example.org"); err != nil {
			return err
		}
	}
	sets := []map[string]json.RawMessage{
		{"example.org": issuers[0].JWKSet()}, {"example.org": issuers[1].JWKSet()}, {"example.com": json.RawMessage(`{"keys":[]}`)},
	}
	for i, set := range sets {
		var err error
		if p.bundles[i], err = json.Marshal(set); err != nil {
			return err
		}
		if p.keyrings[i], err = svid.NewKeyring(p.bundles[i]); err != nil {
			return err
		}
	}
	for s := range p.tokens {
		for n := range p.tokens[s] {
			one := &token{issued: base + uint64(s*slot)}
			if n%4 == 3 {
				one.issuer = 1
			}
			one.expires = one.issued + longest - uint64(n*n)/2
			one.text = issuers[one.issuer].Token("ES256", map[string]any{
				"sub": "spiffe://example.org/web", "aud": "ledger", "exp": one.expires, "jti": fmt.Sprint(s, n)})
			said, err := svid.Read(one.text)
			if err != nil {
				return err
			}
			one.key = said.Key
			p.tokens[s][n] = one
		}
	}
	return nil
}

// verify is what the keyring of these bundles finds.
func (p *pool) verify(set int, one *token) (*svid.Key, error) {
	v := &one.verified[set]
	v.once.Do(func() {
		read := svid.NewToken(one.text)
		defer read.Close()
		v.by, v.fault = p.keyrings[set].VerifyToken(&read)
	})
	return v.by, v.fault
}
