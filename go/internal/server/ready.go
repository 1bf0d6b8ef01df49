package server

import (
	"context"
	"errors"
	"net/http"
	"sync/atomic"
	"time"

	"svid.example/go/v3/internal/brief"
	"svid.example/go/v3/svid"
)

// An outlook is whether an acceptance could be kept, as the engine sees it each second by itself: before a token is burnt that
// could not be kept, and though nobody sends tokens to an unready sidecar.
type outlook struct {
	noRoom atomic.Bool             // in mode once: the state folder does not take the next acceptance
	away   atomic.Pointer[absence] // since when the group's store has not answered; nil while it does
	claims atomic.Pointer[absence] // since when it takes no claim, though it may answer; nil while it does, as far as is known
	memory atomic.Int64            // when memory was last refused for a token, in nanoseconds after the start; 0 if it was not since a token was accepted

	looked atomic.Pointer[Time] // when the last look at the store began that has ended; nil before it

	looking chan struct{} // has one who looks at the store, and only then uses the fields below
	said    bool          // that the store has been away for too long
	causes  brief.Causes  // of that
	heard   string        // the position of the last withdrawal that was read
}

// An absence is since when a store does not do what it is there for, and why.
type absence struct {
	since time.Time
	why   error
}

// isLonger says whether it is longer than a request waits.
func (a *absence) isLonger(than time.Duration) bool { return a != nil && time.Since(a.since) > than }

// isAway says whether the store has been away for longer than a request waits, or has taken no claim for so long.
func (e *Engine) isAway() bool {
	return e.outlook.away.Load().isLonger(e.Wait) || e.outlook.claims.Load().isLonger(e.Wait)
}

// starvedFor is for how long memory that was refused for a token makes the engine unready, where no token is accepted meanwhile.
const starvedFor = 10 * time.Second

// errStarved: a token would be answered 503.
var errStarved = errors.New("the system refused memory for a token")

// isStarved says whether memory was refused for a token, and none was accepted since.
func (e *Engine) isStarved() bool {
	at := e.outlook.memory.Load()
	return at != 0 && time.Since(e.start)-time.Duration(at) < starvedFor
}

// noteMemory takes note of whether there was memory for a token. (A bad one may take none: whoever sends such tokens does not make the engine ready.)
func (e *Engine) noteMemory(err error) {
	switch {
	case errors.Is(err, svid.ErrNoMemory):
		e.outlook.memory.Store(int64(time.Since(e.start)) | 1) // (0 is none)
	case err == nil && e.outlook.memory.Load() != 0:
		e.outlook.memory.Store(0)
	}
}

// lookAhead sees whether an acceptance could be kept, and logs a change.
func (e *Engine) lookAhead() {
	e.lookForRoom()
	e.lookAtStore()
}

// lookAheadEachSecond does so until the engine ends. A look that takes longer than a second is followed by the next one.
func (e *Engine) lookAheadEachSecond() {
	for next := tickEvery; e.pause(next); {
		from := time.Now()
		e.lookAhead()
		next = pauseAfter(time.Since(from))
	}
}

// pauseAfter is the pause after a look that took so long.
func pauseAfter(took time.Duration) time.Duration {
	const least = tickEvery / 20
	if took > tickEvery-least {
		return least
	}
	return tickEvery - took
}

// lookForRoom sees whether the disk takes the next acceptance, and logs a change. It takes Options.Wait at the most, as an acceptance does.
func (e *Engine) lookForRoom() {
	if e.Mode != Once || e.Journal == nil {
		return
	}
	ctx, cancel := context.WithTimeout(e.life, e.Wait)
	defer cancel()
	fault := e.Journal.Room(ctx)
	if e.life.Err() != nil {
		return // It is the engine that ends.
	}
	switch before := e.outlook.noRoom.Swap(fault != nil); {
	case fault != nil && !before:
		e.Log.Error("unready", fault)
	case fault == nil && before:
		e.Log.Event("ready")
	}
}

// WithoutMetrics answers what Handler does, but not /metrics.
func (e *Engine) WithoutMetrics() http.Handler {
	return notFound(e.Handler(), func(path string) bool { return path != "/metrics" })
}

// Watched answers /metrics, /healthz and /readyz, as Handler does, and nothing else: no token is judged there.
func (e *Engine) Watched() http.Handler {
	return notFound(e.Handler(), func(path string) bool { return path == "/metrics" || path == "/healthz" || path == "/readyz" })
}

// notFound answers 404 to each path that is not to be answered, as the handler does to one that it does not know.
func notFound(handler http.Handler, answers func(path string) bool) http.Handler {
	return http.HandlerFunc(func(w http.ResponseWriter, r *http.Request) {
		if !answers(r.URL.Path) {
			r = r.Clone(r.Context())
			r.URL.Path = ""
		}
		handler.ServeHTTP(w, r)
	})
}
