package carriers

import (
	"context"
	"fmt"
	"time"

	"svid.example/go/v3/internal/pause"
)

const attemptPause = 50 * time.Millisecond // after a failed attempt

// Persist calls try until it says that it is done, or ctx ends. The error after the end of ctx holds both that end and what
// the last try said.
func Persist(ctx context.Context, what string, try func() (done bool, err error)) error {
	for {
		done, err := try()
		if done {
			return err
		}
		if !pause.For(ctx, attemptPause) {
			return fmt.Errorf("%s: %w (%v)", what, ctx.Err(), err)
		}
	}
}
