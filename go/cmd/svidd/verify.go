package main

import (
	"context"
	"encoding/json"
	"errors"
	"fmt"
	"io"
	"strings"
	"sync"
	"time"

	"svid.example/go/v3/bundles"
	"svid.example/go/v3/guard"
	"svid.example/go/v3/internal/jsontext"
	"svid.example/go/v3/svid"
)

// fetchWait is how long verify waits for the bundles that come over https or from a Workload API.
const fetchWait = 20 * time.Second

// verify judges the token of standard input by itself: there is no record, so a
// token that was used is none. It prints the claims of one that is accepted.
func verify(args []string, std stdio) int {
	var o options
	f := flagsOf("verify", o.addCommon)
	if err := parse(f, &o.config, args); err != nil {
		return fail(std, err)
	}
	if f.NArg() > 0 {
		// (of a token this is no more than its header)
		return fail(std, fmt.Errorf("verify takes no argument, and got %.20q: it reads the token from standard input", f.Arg(0)))
	}
	if problems := o.commonProblems(); len(problems) > 0 {
		return problems.tell(std)
	}
	token, err := readToken(std)
	if err != nil {
		return fail(std, err)
	}
	if token == "" {
		return fail(std, errNoToken)
	}
	var said spoken
	err = o.judge(token, &said)
	defer said.exposed.warn(std)
	var refusal svid.Refusal
	switch {
	case errors.As(err, &refusal):
		fmt.Fprintf(std.err, "refused %s\n%s\n", refusal.String(), refusal.Sentence())
		if refusal == svid.NoKey || refusal == svid.BadSignature { // One of these keys may have made the signature.
			said.over.warn(std)
		}
		return exitRefused
	case err != nil:
		return fail(std, err)
	}
	payload, err := svid.Payload(token)
	if err != nil {
		return fail(std, err)
	}
	if _, err := fmt.Fprintf(std.out, "%s\n", jsontext.Printable(payload)); err != nil {
		return fail(std, err)
	}
	return exitYes
}

var errNoToken = errors.New("standard input has no token")

var errLines = errors.New("standard input has more than one line: give it one token")

// readToken reads standard input: one token, with or without one line end, which is LF or CR LF. All else is part of the
// token, and refused with it. Of a token that is too long it reads as much as shows that.
func readToken(std stdio) (string, error) {
	const most = svid.MaxToken + len("\r\n")
	text, err := io.ReadAll(io.LimitReader(std.in, int64(most+1)))
	token := string(text)
	if strings.HasSuffix(token, "\n") {
		token = strings.TrimSuffix(strings.TrimSuffix(token, "\n"), "\r")
	}
	if err == nil && strings.Contains(token, "\n") {
		err = errLines
	}
	return token, err
}

// judge is nil for a token that a validator with an empty record accepts.
func (o *options) judge(token string, said *spoken) error {
	text, err := o.readBundles(said)
	if err != nil {
		return err
	}
	keyring, err := svid.OpenKeyring(svid.KeyringOptions{Bundles: text, RSABits: o.rsaBits})
	if err != nil {
		return err
	}
	defer keyring.Close()
	by := svid.Judgment{Audiences: o.audiences, Longest: svid.NoLimit}
	if o.longest.given {
		by.Longest = o.longest.value
	}
	// (a token that the keyring refuses goes on, since another refusal may come first)
	yes, err := keyring.Verify(token)
	var refusal svid.Refusal
	if err != nil && !errors.As(err, &refusal) {
		return err
	}
	_, err = keyring.Judge(by, svid.Now(), token, yes)
	return err
}

// readBundles reads all bundles once. One that can't be read is an error.
func (o *options) readBundles(said *spoken) ([]byte, error) {
	specs, err := o.specs()
	if err != nil {
		return nil, err
	}
	wanted, remote := make(map[string]bool), false
	for _, s := range specs {
		wanted[s.Domain] = s.Domain != ""
		remote = remote || s.IsRemote()
	}
	ctx, cancel := context.WithTimeout(context.Background(), fetchWait)
	defer cancel()
	changes, faults := make(chan map[string]json.RawMessage, 1), make(chan error, 1)
	watcher, err := bundles.Watch(ctx, specs, func(domains map[string]json.RawMessage) error {
		select {
		case <-changes: // only the newest counts
		default:
		}
		changes <- domains
		return nil
	}, bundles.Options{Check: guard.CheckBundle, Unusable: guard.Unusable(o.rsaBits), Log: func(event string, fields ...any) {
		if why := passedOver(event, fields); why != nil {
			said.over.add(why.Error())
		}
		if event == "bundle has a private key" {
			said.exposed.add(unread(fields).Error())
		}
		if strings.HasPrefix(event, "bundle not read") {
			select {
			case faults <- unread(fields):
			default:
			}
		}
	}})
	if err != nil {
		return nil, err
	}
	if !remote && len(changes) == 0 && len(faults) == 0 {
		return nil, fmt.Errorf("%s has no file DOMAIN.json", o.bundleFolder)
	}
	for {
		select {
		case domains := <-changes:
			if hasAll(domains, wanted) && watcher.Answered() {
				return json.Marshal(domains)
			}
		case err := <-faults:
			return nil, err
		case <-ctx.Done():
			return nil, errors.New("the bundles did not come in time")
		}
	}
}

// A spoken is what is said of bundles that are read.
type spoken struct {
	over    sentences // of keys that are skipped
	exposed sentences // of private keys
}

// sentences are gathered by several goroutines.
type sentences struct {
	mu  sync.Mutex
	all []string
}

func (s *sentences) add(one string) {
	s.mu.Lock()
	defer s.mu.Unlock()
	s.all = append(s.all, one)
}

// warn prints them.
func (s *sentences) warn(std stdio) {
	s.mu.Lock()
	defer s.mu.Unlock()
	for _, one := range s.all {
		fmt.Fprintf(std.err, "svidd: warning: %s\n", hideTokens(one))
	}
}

// passedOver is what a Watcher says of a key that it passes over: where it stands, and why. It is nil for one that is for X.509-SVIDs, as each bundle
// of SPIRE has some.
func passedOver(event string, fields []any) error {
	said := saidOf(fields)
	if event != "key passed over" || said["why"] == svid.EntryX509.String() {
		return nil
	}
	return fmt.Errorf("entry %v of %v is skipped: %v", said["entry"], said["source"], said["why"])
}

// unread is what a Watcher says of a source that it could not read: the source, and why.
func unread(fields []any) error {
	said := saidOf(fields)
	return fmt.Errorf("%v: %v", said["source"], said["why"])
}

// saidOf are the fields that a Watcher says, by their names.
func saidOf(fields []any) map[any]any {
	said := make(map[any]any)
	for i := 0; i+1 < len(fields); i += 2 {
		said[fields[i]] = fields[i+1]
	}
	return said
}

func hasAll(domains map[string]json.RawMessage, wanted map[string]bool) bool {
	for domain, is := range wanted {
		if _, ok := domains[domain]; is && !ok {
			return false
		}
	}
	return true
}
