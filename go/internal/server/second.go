package server

import (
	"errors"
	"sync"

	"svid.example/go/v3/svid"
)

// In mode reuse with Options.Caller nobody is refused, and a second caller of a token is reported.

// errSecond: a token is used by another caller than the one that used it first.
var errSecond = errors.New("another caller than the first uses this token: it may be stolen, or its client's address changed")

const (
	// mostCallers is of how many tokens the first caller is known.
	mostCallers = 1 << 16
	// forgetEach is how many seconds lie between two looks for tokens that are over.
	forgetEach = 30
)

// firsts has the first caller of each token, until the token expires.
type firsts struct {
	mu     sync.Mutex
	of     map[svid.TokenKey]first
	looked uint64 // when it was looked for tokens that are over
}

// A first is the first caller of a token.
type first struct {
	digest [32]byte
	name   string
	until  uint64 // when the token is over, as the library says
	said   bool   // that there was a second one
}

// meet takes note that a caller uses a token. other is the first caller's name, where that is another one; news says that it is the first time that
// another one comes. known is false where there is no room for the token.
func (f *firsts) meet(now uint64, use svid.Use, from Caller) (other string, news, known bool) {
	f.mu.Lock()
	defer f.mu.Unlock()
	one, ok := f.of[use.Key]
	switch {
	case ok && one.digest == from.digest:
		return "", false, true
	case ok:
		news = !one.said
		one.said = true
		f.of[use.Key] = one
		return one.name, news, true
	}
	if now >= f.looked+forgetEach {
		f.forget(now)
	}
	if len(f.of) >= mostCallers {
		return "", false, false
	}
	if f.of == nil {
		f.of = map[svid.TokenKey]first{}
	}
	f.of[use.Key] = first{digest: from.digest, name: from.name, until: use.Expires}
	return "", false, true
}

// forget forgets tokens that are over.
func (f *firsts) forget(now uint64) {
	f.looked = now
	for key, one := range f.of {
		if one.until <= now {
			delete(f.of, key)
		}
	}
}

// asksCaller says whether it counts who presents a token.
func (e *Engine) asksCaller() bool { return e.Mode == Bound || e.Mode == Reuse && e.Caller != nil }

// noteCaller reports a second caller of a token that was accepted. It is nobody's reason to refuse anything.
func (e *Engine) noteCaller(from Caller, use svid.Use, token string) {
	if e.Mode != Reuse || e.Caller == nil {
		return
	}
	if !from.isOne() {
		e.Metrics.UnknownCaller.Add(1)
		return
	}
	other, news, known := e.firsts.meet(e.time().Wall, use, from)
	switch {
	case !known:
		e.Metrics.UnknownCaller.Add(1)
	case other != "":
		e.Metrics.SecondCaller.Add(1)
		if news {
			said := readUnverified(token)
			e.Log.Error("second caller", errSecond, "first", e.Log.member(other), "second", e.Log.member(from.name), "key", use.Key.String(), "kid", cut(said.KeyID), "sub", said.Subject)
		}
	}
}
