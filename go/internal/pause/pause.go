// Package pause waits between two tries.
package pause

import (
	"context"
	"time"
)

// For returns after d, or when ctx ends, and says whether to go on.
func For(ctx context.Context, d time.Duration) bool {
	timer := time.NewTimer(d)
	defer timer.Stop()
	select {
	case <-ctx.Done():
		return false
	case <-timer.C:
		return true
	}
}
