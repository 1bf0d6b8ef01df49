package bundles

import (
	"context"
	"encoding/json"
	"errors"
	"fmt"
	"sort"
	"strings"
	"time"

	"svid.example/go/v3/svid"
)

// Between two attempts to reach a Workload API.
const (
	shortestPause = time.Second
	longestPause  = 30 * time.Second
)

// attend keeps the bundles of a Workload API up to date: its stream gives all of them, at once and whenever one has changed.
func (w *Watcher) attend(ctx context.Context, s Spec) {
	pause := shortestPause
	for {
		err := s.client.WatchBundles(ctx, w.options.Limit, func(bundles map[string][]byte) {
			pause = shortestPause
			w.adopt(s, bundles)
		})
		if ctx.Err() != nil {
			return
		}
		w.lost(s, err)
		var retry <-chan time.Time
		if !s.client.IsForGood(err) {
			retry = w.options.after(pause)
		}
		select {
		case <-ctx.Done():
			return
		case <-w.again[s.Domain]:
		case <-retry:
		}
		if pause *= 2; pause > longestPause {
			pause = longestPause
		}
	}
}

// of names the bundle of a trust domain that comes from a Workload API.
func (s Spec) of(domain string) string { return domain + " of " + s.Source }

var errNoBundles = errors.New("it gives no bundle")

// adopt replaces the bundles that a Workload API gave before. A bundle that can't be read leaves the last good one in its place; one that
// the API does not give any more is removed.
func (w *Watcher) adopt(s Spec, bundles map[string][]byte) {
	if len(bundles) == 0 {
		w.fault(s.Source, errNoBundles) // It always has the bundle of its own trust domain.
		return
	}
	w.fault(s.Source, nil)
	names := make([]string, 0, len(bundles))
	for name := range bundles {
		names = append(names, name)
	}
	sort.Slice(names, func(i, j int) bool { // the small ones first: they have room
		a, b := len(bundles[names[i]]), len(bundles[names[j]])
		return a < b || a == b && names[i] < names[j]
	})
	changed, there, room := false, map[string]bool{}, mostDocument
	for _, name := range names {
		domain := domainNamed(name)
		if _, named := w.specOf(domain); named {
			continue
		}
		there[s.of(domain)] = true
		text, err := bundles[name], checkDomain(domain)
		if err == nil {
			text, err = mended(domain, text, &room)
		}
		_, now := w.judge(domain, s.of(domain), text, err)
		changed = now || changed
	}
	if w.dropOthers(s, there) || changed {
		w.tell()
	}
}

// domainNamed is the trust domain that a Workload API names by its SPIFFE ID. Another name stays as it is.
func domainNamed(name string) string {
	domain, path, err := svid.ParseID(name)
	if err != nil || path != "" {
		return name
	}
	return domain
}

// mended is a bundle of a Workload API as the validator wants it, if there is room for it among the bytes that all of them may
// have. It takes what it needs of that.
func mended(domain string, text []byte, room *int) ([]byte, error) {
	if err := fits(len(text), *room); err != nil {
		return nil, err
	}
	if err := bearable(text); err != nil {
		return nil, err
	}
	joined, err := svid.JoinBundles(map[string][]byte{domain: text})
	if err != nil {
		if _, bad := parse(text); bad != nil {
			err = bad // (which says more)
		}
		return nil, err // (as it came, its keys would lack a use, and none would count)
	}
	var of map[string]json.RawMessage
	if err := json.Unmarshal(joined, &of); err != nil {
		return nil, err
	}
	whole := of[domain]
	if err := fits(len(whole), *room); err != nil {
		return nil, err
	}
	*room -= len(whole)
	return whole, nil
}

// fits is an error where a bundle of so many bytes has no room.
func fits(bytes, room int) error {
	switch {
	case bytes > mostDocument:
		return errTooLong
	case bytes > room:
		return fmt.Errorf("with it, the bundles of this Workload API have more than %d bytes", mostDocument)
	}
	return nil
}

// Answered says whether a Workload API has given its bundles, where one is asked.
func (w *Watcher) Answered() bool {
	w.mu.Lock()
	defer w.mu.Unlock()
	for _, s := range w.specs {
		if s.api {
			return w.had
		}
	}
	return true
}

// dropOthers drops the bundles of a Workload API that it has not given any more, and what was wrong with them. From now on
// it is live. It returns whether that is news.
func (w *Watcher) dropOthers(s Spec, there map[string]bool) (changed bool) {
	w.mu.Lock()
	defer w.mu.Unlock()
	changed = !w.had
	w.live, w.had = true, true
	for source := range w.faults {
		if strings.HasSuffix(source, s.of("")) && !there[source] {
			delete(w.faults, source)
		}
	}
	for domain, b := range w.held {
		if b.source == s.of(domain) && !there[b.source] {
			delete(w.held, domain)
			delete(w.said, domain)
			w.log("bundle dropped: the Workload API has it no more", "domain", domain, "source", s.Source)
			changed = true
		}
	}
	return changed
}

// lost says that the stream of a Workload API has ended. Until then its bundles were good.
func (w *Watcher) lost(s Spec, err error) {
	w.mu.Lock()
	w.stillGood()
	w.live = false
	w.mu.Unlock()
	w.fault(s.Source, err)
}

// stillGood makes the bundles of a live Workload API as good as new, except where one could not be read. The caller holds mu.
func (w *Watcher) stillGood() {
	if !w.live {
		return
	}
	for _, s := range w.specs {
		for domain, b := range w.held {
			if s.api && b.source == s.of(domain) && w.faults[b.source] == "" {
				b.good = time.Now()
			}
		}
	}
}
