// Package clocks says how much time has passed, also where the computer was suspended meanwhile.
package clocks

import "time"

// A Moment is a moment by the two clocks of the computer.
type Moment struct {
	Up   time.Duration // since the process started, by a clock that only goes ahead, and stands still while the computer is suspended
	Wall time.Duration // since 1970, by a clock that may be wrong, jump, and go back
}

var start = time.Now()

// Now is this moment.
func Now() Moment {
	now := time.Now()
	return Moment{Up: now.Sub(start), Wall: time.Duration(now.UnixNano())}
}

// Since is how much time has passed since then: as much as either clock says. So a clock of the wall that jumps ahead lets things look older,
// and one that goes back changes nothing.
func (m Moment) Since(then Moment) time.Duration {
	up, wall := m.Up-then.Up, m.Wall-then.Wall
	if wall > up {
		return wall
	}
	return up
}
