package carriers

import (
	"context"
	"errors"
	"strings"
	"testing"
	"time"
)

// What fails is tried again after a pause, until ctx ends: a broker that is away is not asked as fast as can be.
func TestAnAttemptThatFailedIsFollowedByAPause(t *testing.T) {
	const within = 10 * attemptPause
	ctx, cancel := context.WithTimeout(context.Background(), within)
	defer cancel()
	tries, why := 0, errors.New("connection refused")
	err := Persist(ctx, "try", func() (bool, error) { tries++; return false, why })
	if !errors.Is(err, context.DeadlineExceeded) || !strings.Contains(err.Error(), why.Error()) {
		t.Errorf("at the end: %v", err)
	}
	if most := int(within/attemptPause) + 1; tries > most {
		t.Errorf("%d tries within %v, and %d have room", tries, within, most)
	}
	if err := Persist(context.Background(), "try", func() (bool, error) { return true, why }); err != why {
		t.Errorf("one that is done: %v", err)
	}
}

// A quiet log lets a line out each second, which says how many were held back since the last one.
func TestLinesThatAreHeldBackAreCountedOnce(t *testing.T) {
	var q Quiet
	from := time.Unix(1_767_225_600, 0)
	for i, row := range []struct {
		after time.Duration
		held  uint64
		ok    bool
	}{{0, 0, true}, {1, 0, false}, {quietTime - 1, 0, false}, {quietTime, 2, true}, {2*quietTime - 1, 0, false}, {2 * quietTime, 1, true}, {9 * quietTime, 0, true}} {
		if held, ok := q.Speak(from.Add(row.after)); held != row.held || ok != row.ok {
			t.Errorf("%d, after %v: %d were held back, and it may speak: %v", i, row.after, held, ok)
		}
	}
}
