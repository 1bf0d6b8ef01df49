// Package svidtest makes tokens, trust bundles and a clock for the tests of a service that uses package guard. No service runs it.
package svidtest

import (
	"os"
	"path/filepath"
	"sync/atomic"
	"testing"
	"time"

	"svid.example/go/v3/bundles"
	"svid.example/go/v3/claims/memory"
	"svid.example/go/v3/internal/issuer"
)

// A Fault is what is wrong with a token on purpose.
type Fault = issuer.Fault

// The faults of a token, and how it is refused.
const (
	Expired       = issuer.Expired       // Expired
	NotYet        = issuer.NotYet        // NotYet
	OtherAudience = issuer.OtherAudience // NotAudience
	BadSignature  = issuer.BadSignature  // BadSignature
	UnknownKey    = issuer.UnknownKey    // NoKey
)

// A Wish says what a token has. Subject and Audience are to be given. Life 0 is five minutes, the most that there is. JTI "" writes none, as SPIRE does.
type Wish = issuer.Wish

// life is that of a token.
const life = 5 * time.Minute

// An Issuer makes the tokens of a trust domain. Its methods end the test that they fail in.
type Issuer struct {
	t      testing.TB
	domain *issuer.Domain
	file   string // of its bundle
}

// New returns an issuer with new keys, and the clock of a test: nil is that of the machine.
func New(t testing.TB, domain string, clock *Clock) *Issuer {
	t.Helper()
	now := time.Now
	if clock != nil {
		now = clock.time
	}
	made, err := issuer.NewDomain(domain, life, "", now)
	if err != nil {
		t.Fatal(err)
	}
	i := &Issuer{t: t, domain: made, file: filepath.Join(t.TempDir(), domain+".json")}
	i.write()
	return i
}

// Bundle says where the trust bundle stands, for guard.Options.Bundles.
func (i *Issuer) Bundle() bundles.Spec {
	return bundles.Spec{Domain: i.domain.Name(), Source: i.file}
}

// Token signs a token.
func (i *Issuer) Token(w Wish) string {
	i.t.Helper()
	if w.Life == 0 {
		w.Life = life
	}
	minted, err := i.domain.Mint(w)
	if err != nil {
		i.t.Fatal(err)
	}
	return minted.Token
}

// Rotate lets the next key sign from now on. The bundle has both keys, and a guard reads it by itself.
func (i *Issuer) Rotate() {
	i.t.Helper()
	if err := i.domain.Rotate(); err != nil {
		i.t.Fatal(err)
	}
	i.write()
}

// write replaces the file of the bundle as a whole.
func (i *Issuer) write() {
	i.t.Helper()
	next := i.file + ".new"
	err := os.WriteFile(next, i.domain.Bundle(time.Minute), 0o600)
	if err == nil {
		err = os.Rename(next, i.file)
	}
	if err != nil {
		i.t.Fatal(err)
	}
}

// A Clock shows the time that a test sets, in whole seconds since 1970. Its methods may be called by many goroutines at once.
type Clock struct{ at atomic.Uint64 }

// NewClock returns a clock that shows the machine's time, and stands still.
func NewClock() *Clock {
	c := new(Clock)
	c.at.Store(uint64(time.Now().Unix()))
	return c
}

// Now is the time, for guard.Options.Now.
func (c *Clock) Now() uint64 { return c.at.Load() }

// Add lets so many seconds pass. A guard ends for good once its clock was more than ten minutes ahead for a minute (guard.ErrClock).
func (c *Clock) Add(seconds uint64) { c.at.Add(seconds) }

func (c *Clock) time() time.Time { return time.Unix(int64(c.Now()), 0) }

// A Store is a group's store in memory, for guard.Options.Store. Lose lets it lose entries.
type Store = memory.Store
