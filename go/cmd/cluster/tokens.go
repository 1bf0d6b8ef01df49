package main

import (
	"crypto/elliptic"
	"crypto/sha256"
	"encoding/base64"
	"encoding/json"
	"fmt"
	"math/big"
	"net/http"
	"strings"
	"sync"
	"time"

	"svid.example/go/v3/svid"
)

// A token is one that nobody has seen yet, with the key by which records name it.
type token struct {
	text string
	key  svid.TokenKey
	exp  int64
}

// mint makes new tokens, each with a jti of its own. They live for half an hour.
func (c *cluster) mint(n int) []token {
	exp := time.Now().Unix() + longest/2
	all := make([]token, n)
	for i := range all {
		c.serial++
		jti := fmt.Sprint(c.name, "-", c.serial)
		all[i].key, all[i].exp = keyOf(jti), exp
		all[i].text = c.issuer.Token("ES256", map[string]any{"sub": c.issuer.Subject("/billing"), "aud": audience, "exp": exp, "jti": jti})
	}
	return all
}

// keyOf is the key of a token with this jti, as docs/FORMATS.md has it.
func keyOf(jti string) svid.TokenKey {
	return sha256.Sum256([]byte("\x01\x00\x00\x00" + string(rune(len(domain))) + domain + jti))
}

// spellings are the values of a header Authorization that a sidecar accepts with this token: the scheme in any case, blanks
// around it and around the token, and the other good signature.
func (t token) spellings() ([]string, error) {
	other, err := otherSignature(t.text)
	return []string{
		"Bearer " + t.text,
		"bearer " + t.text,
		"BEARER " + t.text,
		"Bearer  " + t.text,
		"\tBearer " + t.text,
		"Bearer " + t.text + " \t",
		"Bearer " + other,
		"\t bEARER   " + other + "\t",
	}, err
}

// otherSignature is a token of ES256 with the signature (r, n-s), which is as good as its own (r, s).
func otherSignature(token string) (string, error) {
	signed := token[:strings.LastIndexByte(token, '.')+1]
	signature, err := base64.RawURLEncoding.DecodeString(token[len(signed):])
	if err != nil {
		return "", err
	}
	s := signature[len(signature)/2:]
	new(big.Int).Sub(elliptic.P256().Params().N, new(big.Int).SetBytes(s)).FillBytes(s)
	return signed + base64.RawURLEncoding.EncodeToString(signature), nil
}

// A verdict is a sidecar's answer to a token.
type verdict struct {
	accepted bool
	reason   string // of a refusal
	doubtful bool   // the token was sent more than once, since an answer was no verdict
}

// check sends a token once. An error says that the answer is no verdict.
func (s *sidecar) check(token string) (verdict, error) {
	status, body, err := get(s.client, "http://"+s.address+"/check", token)
	if err != nil {
		return verdict{}, err
	}
	switch status {
	case http.StatusOK:
		return verdict{accepted: true}, nil
	case http.StatusUnauthorized:
		var said struct{ Reason string }
		if err := json.Unmarshal([]byte(body), &said); err != nil {
			return verdict{}, err
		}
		return verdict{reason: said.Reason}, nil
	}
	return verdict{}, fmt.Errorf("%s answers %d: %s", s.name, status, body)
}

// insist sends a token until the answer is a verdict, as a client does that tries again.
func (s *sidecar) insist(token string) (v verdict, err error) {
	doubtful := false
	err = await("an answer of "+s.name, func() (err error) {
		v, err = s.check(token)
		doubtful = doubtful || err != nil
		return err
	})
	v.doubtful = doubtful
	return v, err
}

// inFlight is how many tokens are sent at a time.
const inFlight = 24

// atOnce sends each token to all sidecars at the same instant, and gives each token's verdicts to judge, which is
// called by one goroutine at a time. progress is called before each token. The first error is returned.
func (c *cluster) atOnce(tokens []token, progress func(i int), judge func(t token, verdicts []verdict) error) error {
	var mu sync.Mutex
	var first error
	fail := func(err error) bool {
		mu.Lock()
		defer mu.Unlock()
		if first == nil {
			first = err
		}
		return first != nil
	}
	queue := make(chan token)
	var workers sync.WaitGroup
	for i := 0; i < inFlight; i++ {
		workers.Add(1)
		go func() {
			defer workers.Done()
			for t := range queue {
				verdicts, err := c.toAll(t.text)
				if err == nil {
					mu.Lock()
					err = judge(t, verdicts)
					mu.Unlock()
				}
				fail(err)
			}
		}()
	}
	for i, t := range tokens {
		if fail(nil) {
			break
		}
		progress(i)
		queue <- t
	}
	close(queue)
	workers.Wait()
	return first
}

// toAll sends one token to every sidecar at the same instant.
func (c *cluster) toAll(token string) ([]verdict, error) {
	start := make(chan struct{})
	verdicts, errs := make([]verdict, len(c.sidecars)), make([]error, len(c.sidecars))
	var all sync.WaitGroup
	for i, s := range c.sidecars {
		all.Add(1)
		go func(i int, s *sidecar) {
			defer all.Done()
			<-start
			verdicts[i], errs[i] = s.insist(token)
		}(i, s)
	}
	close(start)
	all.Wait()
	for _, err := range errs {
		if err != nil {
			return nil, err
		}
	}
	return verdicts, nil
}

// taken counts the verdicts that accept.
func taken(verdicts []verdict) (n int) {
	for _, v := range verdicts {
		if v.accepted {
			n++
		}
	}
	return n
}
