// Package bundles keeps the trust bundles of a service up to date. They come from a SPIFFE Workload API, from files, from
// folders, and over https as SPIFFE federation has it (profiles https_web and https_spiffe).
//
// A bundle is a SPIFFE bundle document, as `spire-server bundle show -format spiffe` prints it. It is handed on as it
// is. Entries that sign no token (those for X.509-SVIDs, say) are named in the log, once each.
//
// A source that can't be read, or gives no bundle, changes nothing: the last good bundle stays, and the log says so.
// Only a file that is gone from a folder takes its trust domain with it, and so does a Workload API that names a trust
// domain no more.
//
// A bundle has at most 1 MiB, and 32,768 of the brackets { and [. All bundles together have at most 4 MiB, where each of these
// brackets counts as 32 bytes more: the heaviest are skipped beyond that, and the log says so.
package bundles

import (
	"bytes"
	"context"
	"crypto/sha256"
	"crypto/tls"
	"crypto/x509"
	"encoding/json"
	"errors"
	"fmt"
	"net"
	"net/http"
	"os"
	"path/filepath"
	"sort"
	"strings"
	"sync"
	"sync/atomic"
	"syscall"
	"time"

	"svid.example/go/v3/internal/brief"
	"svid.example/go/v3/internal/secured"
)

const (
	usualEvery    = 5 * time.Second  // between two looks at files and folders
	usualLimit    = 15 * time.Second // for one answer over https, and the first one of a Workload API
	mostRedirects = 5
	mostIdle      = 100              // connections that stay open for the next look
	idleWait      = 90 * time.Second // so long
	handshakeWait = 10 * time.Second
	mostHeader    = 1 << 16 // bytes of the header of an answer
	mostSaid      = 16      // entries of one bundle that are logged each by itself
	mostJudged    = 64      // keys of one bundle that Options.Unusable is asked about, once one can be used
)

// Options say what Watch needs beside its sources. Each field may be left out.
type Options struct {
	// Log receives what an operator may want to know: an event, and names and values by turns. It is called from
	// several goroutines.
	Log func(event string, fields ...any)
	// Check judges a bundle that was read before it takes the place of the last good one. The validator's own reader
	// belongs here.
	Check func(domain string, document json.RawMessage) error
	// Unusable says why a key can't verify any token, or nothing. It is asked about the first keys of a new bundle, until one
	// can, for the log alone.
	Unusable func(key json.RawMessage) (why string)
	// Every is the time between two looks at files and folders; 0 is five seconds.
	Every time.Duration
	// Limit is how long one answer over https may take, and the first one of a Workload API; 0 is fifteen seconds.
	Limit time.Duration
	// Roots are the authorities for https; nil is the system's.
	Roots *x509.CertPool

	after func(time.Duration) <-chan time.Time // is time.After, except in tests of pauses
	calm  time.Duration                        // is usualCalm, except in tests
}

// A Watcher keeps bundles up to date until its context ends. Its methods may be called from many goroutines at once.
type Watcher struct {
	specs    []Spec
	onChange func(map[string]json.RawMessage) error
	options  Options
	client   *http.Client
	again    map[string]chan struct{} // by the domain of an address, and by "" for the Workload API: ask now

	reading sync.Mutex  // one look at the files at a time
	telling sync.Mutex  // one call of onChange at a time, the newest last
	untaken string      // what was wrong with the last call of onChange; telling guards it
	retell  atomic.Bool // so the next look at the files calls it again

	mu     sync.Mutex // guards the fields below
	held   map[string]*bundle
	faults map[string]string                     // by source: what was last wrong with it
	words  map[string]*words                     // by source: what the log says of a Workload API
	said   map[string]map[[sha256.Size]byte]bool // by domain: the passed over entries of its bundle that were logged
	live   bool                                  // the Workload API has given its bundles, and would tell of a change
	had    bool                                  // it has given bundles before
}

// A bundle is the last good one of a trust domain.
type bundle struct {
	document json.RawMessage
	source   string
	good     time.Time     // when its source last gave a good bundle
	refresh  time.Duration // how long it is good before it is asked for again
	weight   int
	isOver   bool // all bundles together are too heavy, so it does not count
}

// Watch reads the files and folders of the specs, begins to ask the addresses, and goes on until ctx ends.
//
// onChange receives all bundles by trust domain, at the start if one could be read, whenever one has changed, and once the
// Workload API has answered. If it returns an error, it receives them again at the next look at the files. It must not change
// the documents, and may not call the watcher. An error of Watch says that a spec is bad; a source that can't be read is none,
// since it may come.
func Watch(ctx context.Context, specs []Spec, onChange func(domains map[string]json.RawMessage) error, o Options) (*Watcher, error) {
	if err := checkAll(specs); err != nil {
		return nil, err
	}
	if o.Every == 0 {
		o.Every = usualEvery
	}
	if o.Limit == 0 {
		o.Limit = usualLimit
	}
	if o.after == nil {
		o.after = time.After
	}
	if o.calm == 0 {
		o.calm = usualCalm
	}
	w := &Watcher{specs: specs, onChange: onChange, options: o, client: httpsOnly(o.Roots), again: map[string]chan struct{}{},
		held: map[string]*bundle{}, faults: map[string]string{}, words: map[string]*words{}, said: map[string]map[[sha256.Size]byte]bool{}}
	w.readFiles()
	for _, s := range specs {
		if s.isAddress() || s.api {
			w.again[s.Domain] = make(chan struct{}, 1)
		}
		if s.api {
			w.words[s.Source] = &words{at: map[string]time.Time{}}
		}
	}
	for _, s := range specs {
		switch {
		case s.isAddress():
			go w.follow(ctx, s)
		case s.api:
			go w.attend(ctx, s)
		}
	}
	go w.look(ctx)
	return w, nil
}

// Reload reads the files and folders now, and has each address asked now, and a Workload API that does not answer.
func (w *Watcher) Reload() {
	w.readFiles()
	for _, again := range w.again {
		select {
		case again <- struct{}{}:
		default: // It is about to be asked.
		}
	}
}

// Age is how long ago the source of a trust domain last gave a good bundle. It grows while the source is unwell. ok is
// false where there is no bundle that counts.
func (w *Watcher) Age(domain string) (age time.Duration, ok bool) {
	age, ok = w.Ages()[domain]
	return age, ok
}

// Fault is what is wrong with a source at the moment: of several, with the first one that a spec names. It is nil where nothing is. It names the
// trust domain, and no file.
func (w *Watcher) Fault() error { return w.faultOf(func(Spec) bool { return true }) }

// FileFault is Fault of files and folders alone, as they were read last.
func (w *Watcher) FileFault() error { return w.faultOf(func(s Spec) bool { return !s.IsRemote() }) }

func (w *Watcher) faultOf(counts func(s Spec) bool) error {
	w.mu.Lock()
	defer w.mu.Unlock()
	for _, s := range w.specs {
		if !counts(s) {
			continue
		}
		for source, why := range w.faults {
			isOfFolder := s.isFolder() && filepath.Dir(source) == filepath.Clean(s.Source) && !w.isNamed(source)
			if source != s.Source && !isOfFolder {
				continue
			}
			of := s.Domain
			switch {
			case s.api:
				of = "the Workload API"
			case isOfFolder:
				of = filepath.Base(source)
			case s.isFolder():
				of = "the folder"
			}
			return fmt.Errorf("%s: %s", of, strings.TrimPrefix(why, "open "+source+": "))
		}
	}
	return nil
}

// Ages is Age of every trust domain that has a bundle that counts.
func (w *Watcher) Ages() map[string]time.Duration {
	w.mu.Lock()
	defer w.mu.Unlock()
	w.stillGood()
	now, ages := time.Now(), map[string]time.Duration{}
	for domain, b := range w.held {
		if !b.isOver {
			ages[domain] = now.Sub(b.good)
		}
	}
	return ages
}

// look reads the files every so often.
func (w *Watcher) look(ctx context.Context) {
	tick := time.NewTicker(w.options.Every)
	defer tick.Stop()
	for {
		select {
		case <-ctx.Done():
			return
		case <-tick.C:
			w.readFiles()
			w.reportHeld()
		}
	}
}

// readFiles reads all files and folders, and tells what has changed.
func (w *Watcher) readFiles() {
	w.reading.Lock()
	defer w.reading.Unlock()
	changed := false
	for _, s := range w.specs {
		switch {
		case s.isFolder():
			changed = w.readFolder(s.Source) || changed
		case !s.isAddress() && !s.api:
			changed = w.readFile(s.Domain, s.Source) || changed
		}
	}
	if changed || w.retell.Load() {
		w.tell()
	}
}

func (w *Watcher) readFile(domain, name string) (changed bool) {
	text, err := readFile(name)
	_, changed = w.judge(domain, name, text, err)
	return changed
}

var errNotRegular = errors.New("it is no regular file")

// readFile reads a regular file. To open a pipe, or to read one, may take for ever.
func readFile(name string) ([]byte, error) {
	f, err := os.OpenFile(name, os.O_RDONLY|syscall.O_NONBLOCK, 0)
	if err != nil {
		return nil, err
	}
	defer f.Close()
	if is, err := f.Stat(); err != nil || !is.Mode().IsRegular() {
		return nil, errNotRegular
	}
	return readAll(f)
}

// readDir is os.ReadDir, which does not wait for a pipe.
func readDir(dir string) ([]os.DirEntry, error) {
	f, err := os.OpenFile(dir, os.O_RDONLY|syscall.O_DIRECTORY, 0)
	if err != nil {
		return nil, err
	}
	defer f.Close()
	entries, err := f.ReadDir(-1)
	sort.Slice(entries, func(i, j int) bool { return entries[i].Name() < entries[j].Name() })
	return entries, err
}

// readFolder reads each file DOMAIN.json of a folder, and drops the domains whose file is gone.
func (w *Watcher) readFolder(dir string) (changed bool) {
	entries, err := readDir(dir)
	if w.fault(dir, err); err != nil {
		return false
	}
	there, listed := map[string]bool{}, map[string]bool{}
	for _, e := range entries {
		if filepath.Ext(e.Name()) != ".json" {
			continue
		}
		domain, name := strings.TrimSuffix(e.Name(), ".json"), filepath.Join(dir, e.Name())
		listed[name] = true
		if err := w.ofFolder(domain); err != nil {
			w.fault(name, err)
			continue
		}
		there[name] = true
		changed = w.readFile(domain, name) || changed
	}
	w.forget(dir, listed)
	return w.dropGone(dir, there) || changed
}

// forget drops what was wrong with files of a folder that are there no more.
func (w *Watcher) forget(dir string, listed map[string]bool) {
	w.mu.Lock()
	defer w.mu.Unlock()
	for source := range w.faults {
		if filepath.Dir(source) == filepath.Clean(dir) && !listed[source] && !w.isNamed(source) {
			delete(w.faults, source)
		}
	}
}

// isNamed says whether a spec names this source.
func (w *Watcher) isNamed(source string) bool {
	for _, s := range w.specs {
		if s.Source == source {
			return true
		}
	}
	return false
}

// ofFolder is an error where the bundle of a trust domain is not to be read from a folder.
func (w *Watcher) ofFolder(domain string) error {
	if s, named := w.specOf(domain); named {
		return fmt.Errorf("the bundle of %s comes from %s", domain, s.Source)
	}
	return checkDomain(domain)
}

// specOf is the spec that names this trust domain, if one does.
func (w *Watcher) specOf(domain string) (s Spec, named bool) {
	for _, s := range w.specs {
		if s.Domain == domain && s.Domain != "" {
			return s, true
		}
	}
	return Spec{}, false
}

// dropGone drops the bundles that came from files of a folder that are there no more.
func (w *Watcher) dropGone(dir string, there map[string]bool) (changed bool) {
	w.mu.Lock()
	defer w.mu.Unlock()
	for domain, b := range w.held {
		if filepath.Dir(b.source) == filepath.Clean(dir) && w.ofFolder(domain) == nil && !there[b.source] {
			delete(w.held, domain)
			delete(w.said, domain)
			w.log("bundle dropped: its file is gone", "domain", domain, "source", b.source)
			changed = true
		}
	}
	return changed
}

// follow asks an address again and again: when the bundle's refresh hint says so, sooner where it gave none, and when
// Reload asks for it.
func (w *Watcher) follow(ctx context.Context, s Spec) {
	for ctx.Err() == nil {
		text, err := w.fetch(ctx, s)
		if ctx.Err() != nil {
			return
		}
		wait, changed := w.judge(s.Domain, s.Source, text, err)
		if changed {
			w.tell()
		}
		select {
		case <-ctx.Done():
		case <-w.again[s.Domain]:
		case <-w.options.after(wait):
		}
	}
}

// fetch gets a bundle over https.
func (w *Watcher) fetch(ctx context.Context, s Spec) ([]byte, error) {
	ctx, cancel := context.WithTimeout(ctx, w.options.Limit)
	defer cancel()
	client, err := w.endpoint(s)
	if err != nil {
		return nil, err
	}
	request, err := http.NewRequestWithContext(ctx, http.MethodGet, s.Source, nil)
	if err != nil {
		return nil, err
	}
	answer, err := client.Do(request)
	if err != nil {
		return nil, notAsked(err)
	}
	defer answer.Body.Close()
	if answer.StatusCode != http.StatusOK {
		return nil, fmt.Errorf("it answers %s", brief.Text(answer.Status, mostOfAnswer))
	}
	return readAll(answer.Body)
}

// httpsOnly is a client that is led to no address without TLS. Its transport is its own: a service may have replaced
// http.DefaultTransport. It speaks HTTP/1.1, whose connection ends with a request that takes too long: of HTTP/2 it would go on to read
// what the server sends.
func httpsOnly(roots *x509.CertPool) *http.Client {
	transport := &http.Transport{
		Proxy: http.ProxyFromEnvironment, MaxIdleConns: mostIdle, IdleConnTimeout: idleWait, MaxResponseHeaderBytes: mostHeader,
		TLSHandshakeTimeout: handshakeWait, TLSClientConfig: &tls.Config{RootCAs: roots, MinVersion: tls.VersionTLS12},
	}
	transport.DialTLSContext = func(ctx context.Context, network, address string) (net.Conn, error) {
		return secured.Dial(ctx, network, address, transport.TLSClientConfig, handshakeWait)
	}
	return &http.Client{Transport: transport, CheckRedirect: func(next *http.Request, before []*http.Request) error {
		if next.URL.Scheme != "https" || len(before) > mostRedirects {
			return fmt.Errorf("it leads to %s", brief.Text(next.URL.String(), mostOfAnswer))
		}
		return nil
	}}
}

// judge puts what a source gave in the place of its last good bundle, if it is one. It returns whether that is another
// one than before, and how long to wait before the source is asked again.
func (w *Watcher) judge(domain, source string, text []byte, err error) (wait time.Duration, changed bool) {
	if err == nil {
		if wait, is := w.isHeld(domain, source, text); is {
			w.fault(source, nil)
			return wait, false
		}
		err = bearable(text)
	}
	var d document
	if err == nil {
		d, err = parse(text)
	}
	if err == nil && w.options.Check != nil {
		err = w.options.Check(domain, text)
	}
	if w.fault(source, err); err != nil {
		return shortestRefresh, false
	}
	w.mu.Lock()
	defer w.mu.Unlock()
	last := w.held[domain]
	changed = !last.has(text)
	b := &bundle{document: text, source: source, good: time.Now(), refresh: d.refresh(), weight: weight(text)}
	if !changed {
		b.isOver = last.isOver
	}
	w.held[domain] = b
	if changed {
		w.say(domain, source, d)
	}
	return b.refresh, changed
}

// isHeld says whether a source gave its last good bundle again. That is as good as new, and is not judged again: to read it takes
// memory.
func (w *Watcher) isHeld(domain, source string, text []byte) (wait time.Duration, is bool) {
	w.mu.Lock()
	defer w.mu.Unlock()
	b := w.held[domain]
	if !b.has(text) || b.source != source {
		return 0, false
	}
	b.good = time.Now()
	return b.refresh, true
}

// has says whether it is this bundle. A bundle that is nil is none.
func (b *bundle) has(text []byte) bool { return b != nil && bytes.Equal(b.document, text) }

// say logs a new bundle, and the entries of it that are passed over: each once, as long as it is in the bundle, and
// where there are many, the first ones. (The bundle may be of a trust domain that means no good.)
func (w *Watcher) say(domain, source string, d document) {
	over, said := 0, map[[sha256.Size]byte]bool{}
	keys, none := d.usable(w.options.Unusable, func(i int, entry json.RawMessage, why string) {
		if over++; over > mostSaid {
			return
		}
		name := sha256.Sum256(entry)
		if said[name] = true; !w.said[domain][name] {
			w.log("key passed over", "domain", domain, "source", source, "entry", i, "why", why)
		}
	})
	w.said[domain] = said
	w.log("bundle read", "domain", domain, "source", source, "keys", keys, "passed_over", over)
	if entry, is := d.private(); is {
		w.log("bundle has a private key", "domain", domain, "source", source, "entry", entry, "why", errPrivate)
	}
	if keys == 0 {
		w.log("bundle has no key", "domain", domain, "source", source, "why", fmt.Errorf("no token of this trust domain can be accepted: %w", none))
	}
}

// fault logs what is wrong with a source, when that is something else than before, and when it is well again.
func (w *Watcher) fault(source string, err error) {
	w.mu.Lock()
	defer w.mu.Unlock()
	last := w.faults[source]
	err = brief.Error(err) // (a source may have said much)
	switch {
	case err == nil && last != "":
		delete(w.faults, source)
	case err != nil && brief.Cause(err) != last:
		w.faults[source] = brief.Cause(err)
	default:
		return
	}
	w.report(source, err)
}

// report logs how it is with a source. The caller holds mu.
func (w *Watcher) report(source string, err error) {
	event, fields := "bundle source is well again", []any{"source", source}
	if err != nil {
		event = "bundle not read"
		for _, b := range w.held {
			if b.source == source || strings.HasSuffix(b.source, " of "+source) {
				event = "bundle not read; the last good one stays"
			}
		}
		fields = append(fields, "why", err)
	}
	if of := w.words[source]; of != nil {
		now := time.Now()
		if of.err = err; now.Sub(of.at[event]) < w.options.calm {
			of.held++
			return
		}
		if of.held > 0 {
			fields = append(fields, "unlogged", of.held)
		}
		of.at[event], of.said, of.held = now, w.faults[source], 0
	}
	w.log(event, fields...)
}

// usualCalm is the least time between two lines of a kind about a Workload API, which may end each stream at once.
const usualCalm = 10 * time.Second

// words are what the log says of a Workload API.
type words struct {
	at   map[string]time.Time // when each event had a line last
	said string               // what was wrong with it by the last line; "" where nothing was
	err  error                // what is wrong now
	held int                  // so many changes have had no line since the last one
}

// reportHeld logs how it is with a Workload API by now, where the last line says something else.
func (w *Watcher) reportHeld() {
	w.mu.Lock()
	defer w.mu.Unlock()
	for source, of := range w.words {
		if of.held > 0 && of.said != w.faults[source] {
			of.held-- // (this change has its line, or is held again)
			w.report(source, of.err)
		}
	}
}

// tell tells onChange what is held now, and logs why it does not take that, once.
func (w *Watcher) tell() {
	w.telling.Lock()
	defer w.telling.Unlock()
	w.mu.Lock()
	all := w.fitting()
	w.mu.Unlock()
	why := ""
	err := w.onChange(all)
	if err != nil {
		why = err.Error()
	}
	w.retell.Store(err != nil)
	if err != nil && why != w.untaken {
		w.log("bundles not taken; those before stay", "why", err)
	}
	w.untaken = why
}

func (w *Watcher) log(event string, fields ...any) {
	if w.options.Log != nil {
		w.options.Log(event, fields...)
	}
}
