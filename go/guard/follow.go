package guard

import (
	"context"
	"encoding/json"
	"sync"
	"sync/atomic"

	"svid.example/go/v3/bundles"
	"svid.example/go/v3/internal/server"
)

// following is what the guard follows: the sources of its bundles.
type following struct {
	watcher atomic.Pointer[bundles.Watcher]
	turning sync.Mutex         // one Follow at a time
	end     context.CancelFunc // of that watcher; turning guards it

	mu     sync.Mutex
	number int                        // of the watcher that counts
	given  map[string]json.RawMessage // by trust domain, what the engine has
	by     int                        // the watcher that gave it
}

// domainsOf are the trust domains that have sources of their own.
func domainsOf(specs []bundles.Spec) (domains []string) {
	for _, spec := range specs {
		if spec.Domain != "" {
			domains = append(domains, spec.Domain)
		}
	}
	return domains
}

// Follow follows these sources of bundles from now on, and no others. What they give replaces all bundles, once one of them can be
// read. Until then those stay whose trust domains still have a source. An error says that a source is none, and changes nothing.
func (g *Guard) Follow(specs []bundles.Spec) error {
	if _, err := bundles.ParseSpecs(nil, "", specs...); err != nil {
		return err // before the watcher of those that stay counts no more, even for a moment: what it gave then would be lost
	}
	g.follows.turning.Lock()
	defer g.follows.turning.Unlock()
	ctx, cancel := context.WithCancel(g.life)
	number := g.follows.next()
	watcher, err := bundles.Watch(ctx, specs, func(domains map[string]json.RawMessage) error { return g.renew(number, domains) },
		bundles.Options{Log: g.said, Check: CheckBundle, Unusable: Unusable(g.options.RSABits)})
	if err != nil {
		cancel()
		g.follows.back()
		return err
	}
	g.engine.SetDomains(domainsOf(specs))
	if g.follows.end != nil {
		g.follows.end()
	}
	g.follows.end = cancel
	g.follows.watcher.Store(watcher)
	g.leave(number, specs)
	return nil
}

// leave takes away the bundles of trust domains that none of these sources gives, where the watcher of this number has not replaced
// all yet: who was taken out of the options is not to be let in until another source answers. (What a Workload API gives is
// not known before.)
func (g *Guard) leave(number int, specs []bundles.Spec) {
	g.follows.mu.Lock()
	defer g.follows.mu.Unlock()
	stay := map[string]json.RawMessage{}
	for _, spec := range specs {
		if spec.Domain == "" && spec.IsRemote() {
			return
		}
		if bundle, is := g.follows.given[spec.Domain]; is {
			stay[spec.Domain] = bundle
		}
	}
	if g.follows.by == number || len(stay) == len(g.follows.given) {
		return
	}
	if err := g.take(g.follows.by, stay); err != nil {
		g.said("bundles not taken; those before stay", "why", err)
	}
}

// Admit accepts tokens for these audiences, of callers whose SPIFFE IDs one of the patterns allows, from now on, and no others. As
// in Options, nil as allow lets all call, and an empty list is an error. What was accepted before stays used. It copies the record if the audiences are other ones, and checks wait
// for that: some seconds for a million entries. On an error those of before count.
func (g *Guard) Admit(audiences, allow []string) error {
	if len(audiences) == 0 {
		return errNoAudience
	}
	return g.engine.SetRules(audiences, allow)
}

// Reload reads the files of bundles now, and has each address asked now.
func (g *Guard) Reload() { g.follows.watcher.Load().Reload() }

// FileFault is what is wrong with a file or a folder of bundles, as it was read last: the last good bundle stays. It is nil where nothing is.
func (g *Guard) FileFault() error { return g.follows.watcher.Load().FileFault() }

// next lets another watcher count, and back the one before it.
func (f *following) next() int {
	f.mu.Lock()
	defer f.mu.Unlock()
	f.number++
	return f.number
}

func (f *following) back() {
	f.mu.Lock()
	defer f.mu.Unlock()
	f.number--
}

// renew runs at each change of the bundles. The watcher logs an error, and calls it again. One that was replaced changes nothing.
func (g *Guard) renew(number int, domains map[string]json.RawMessage) error {
	g.follows.mu.Lock()
	defer g.follows.mu.Unlock()
	if number != g.follows.number {
		return nil
	}
	return g.take(number, domains)
}

// take gives the engine these bundles, which come from the watcher of this number. The caller holds mu.
func (g *Guard) take(number int, domains map[string]json.RawMessage) error {
	if err := g.engine.SetBundles(domains); err != nil {
		return err
	}
	g.follows.given, g.follows.by = domains, number
	g.options.Lines.Event("bundles", "trust_domains", len(domains))
	return nil
}

// Unusable says why a key of a bundle verifies no token, or nothing, for bundles.Options.Unusable. So many bits has an RSA key at
// most.
func Unusable(rsaBits int) func(key json.RawMessage) string { return server.Unusable(rsaBits) }
