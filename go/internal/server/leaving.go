package server

import (
	"context"
	"sync"
	"time"
)

// lookPause is between two looks whether the clients have left of requests that wait for their claims. The first one may come at any time within it.
const lookPause = 50 * time.Millisecond

// whoLeft is the key of a context's function that says whether the client has left.
type whoLeft struct{}

// WithLeaving is a context that never ends by itself as its client leaves: hasLeft says whether it has. In modes strict and bound the engine asks that now
// and then while a request waits for others, and takes its claim back if it was not put. (A request that puts its own claim waits for
// the store.)
func WithLeaving(ctx context.Context, hasLeft func() bool) context.Context {
	return context.WithValue(ctx, whoLeft{}, hasLeft)
}

// isPatient says whether a context never ends by itself.
func isPatient(ctx context.Context) bool {
	if ctx.Done() == nil {
		return true
	}
	_, looks := ctx.Value(whoLeft{}).(func() bool)
	return looks
}

// A pulse is a channel that ends every lookPause, while somebody wants it: one timer for all who wait.
type pulse struct {
	mu   sync.Mutex
	next chan struct{} // nil while nobody waits for it
}

// wait returns the channel that ends next.
func (p *pulse) wait() <-chan struct{} {
	p.mu.Lock()
	defer p.mu.Unlock()
	if p.next == nil {
		p.next = make(chan struct{})
		time.AfterFunc(lookPause, p.beat)
	}
	return p.next
}

func (p *pulse) beat() {
	p.mu.Lock()
	defer p.mu.Unlock()
	close(p.next)
	p.next = nil
}

// awaitClaim waits for the answer to a request, and tells the machine if the client leaves meanwhile.
func (e *Engine) awaitClaim(ctx context.Context, r *Request) {
	hasLeft, ok := ctx.Value(whoLeft{}).(func() bool)
	if !ok {
		select {
		case <-r.done:
		case <-ctx.Done():
			e.step(Gone{r, ctx.Err()})
			<-r.done
		}
		return
	}
	select {
	case <-r.done: // A refused token waits for nothing.
		return
	default:
	}
	for {
		select {
		case <-r.done:
			return
		case <-e.pulse.wait():
		}
		if hasLeft() {
			e.step(Gone{r, context.Canceled})
			<-r.done
			return
		}
	}
}
