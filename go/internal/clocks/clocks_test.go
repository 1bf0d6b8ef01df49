package clocks

import (
	"testing"
	"time"

	"svid.example/go/v3/internal/patience"
)

// Time has passed if either clock says so.
func TestSince(t *testing.T) {
	then := Moment{Up: time.Minute, Wall: 1000 * time.Hour}
	for _, row := range []struct{ up, wall, want time.Duration }{
		{0, 0, 0},
		{time.Second, time.Second, time.Second},
		{time.Second, time.Hour, time.Hour},    // it was suspended
		{time.Second, -time.Hour, time.Second}, // the clock of the wall was set back
	} {
		if passed := (Moment{then.Up + row.up, then.Wall + row.wall}).Since(then); passed != row.want {
			t.Errorf("after %v and %v: %v, want %v", row.up, row.wall, passed, row.want)
		}
	}
}

// Both clocks are the computer's.
func TestNow(t *testing.T) {
	before, from := time.Now(), Now()
	for late := before.Add(patience.Long); Now().Up <= from.Up; {
		if time.Now().After(late) {
			t.Fatal("the clock that only goes ahead stands still")
		}
	}
	if off := time.Unix(0, int64(from.Wall)).Sub(before); off < -time.Hour || off > time.Hour {
		t.Errorf("the clock of the wall is off by %v", off)
	}
}
