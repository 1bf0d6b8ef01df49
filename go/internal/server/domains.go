package server

import (
	"encoding/json"
	"errors"
	"fmt"
	"sort"
	"strings"

	"svid.example/go/v3/bundles"
	"svid.example/go/v3/svid"
)

// SetDomains replaces Options.Domains from now on. It may be called while requests come.
func (e *Engine) SetDomains(domains []string) { e.toHave.Store(&domains) }

// domains are the trust domains that are to have a bundle.
func (e *Engine) domains() []string {
	if now := e.toHave.Load(); now != nil {
		return *now
	}
	return e.Domains
}

// Unusable says why a key of a bundle verifies no token, or nothing, for bundles.Options.Unusable. So many bits has an RSA key at
// most.
func Unusable(rsaBits int) func(key json.RawMessage) string {
	return func(key json.RawMessage) string {
		if _, err := (svid.KeyringOptions{RSABits: rsaBits}).ParseKey(key); errors.Is(err, svid.ErrKey) {
			return strings.TrimPrefix(err.Error(), "svid: ")
		}
		return ""
	}
}

// usable are the keys of bundles that can verify a token: how many of each trust domain, and why none can. Nobody may change them.
type usable struct {
	keys map[string]int
	none map[string]error
}

// usableOf looks at the keys of bundles. The error is svid.ErrNoMemory.
func (e *Engine) usableOf(domains map[string]json.RawMessage) (*usable, error) {
	u := &usable{map[string]int{}, map[string]error{}}
	for domain, bundle := range domains {
		keys, err := bundles.Usable(bundle, Unusable(e.RSABits))
		if errors.Is(err, svid.ErrNoMemory) {
			return nil, err
		}
		u.keys[domain] = keys
		if err != nil {
			u.none[domain] = err
		}
	}
	return u, nil
}

// useless says why no token can be accepted by bundles: no key of them can be used. It is "" where one can, and where there are none.
func (u *usable) useless() string {
	var without []string
	for domain, keys := range u.keys {
		if keys > 0 {
			return ""
		}
		without = append(without, domain)
	}
	if len(without) == 0 {
		return ""
	}
	sort.Strings(without)
	return fmt.Sprintf("no key of a trust bundle can verify a token: that of %s: %v", inShort(without), u.none[without[0]])
}

// noCaller says why nobody may call: no trust domain of these patterns has a key that can be used. It is nil where one has.
func (u *usable) noCaller(allow []string) error {
	for _, pattern := range allow {
		// (Without what stands for the end of each path, a pattern is the SPIFFE ID that its callers' IDs begin with.)
		domain, _, err := svid.ParseID(strings.TrimSuffix(pattern, "/*"))
		if err != nil || u.keys[domain] > 0 {
			return nil
		}
	}
	if len(allow) == 0 {
		return nil
	}
	return errNobodyMayCall
}

// errNobodyMayCall: each good token gets 403.
var errNobodyMayCall = errors.New("no trust domain that may call has a trust bundle with a key that can be used: look at --allow")

// inShort names the first of some trust domains, and how many others there are.
func inShort(domains []string) string {
	if len(domains) == 1 {
		return domains[0]
	}
	return fmt.Sprintf("%s and %d others", domains[0], len(domains)-1)
}
