package carriers

import (
	"sync"
	"time"
)

// quietTime is how long a log is quiet after a line, so that a member that lies does not fill a disk.
const quietTime = time.Second

// A Quiet lets one line through at a time, and counts those that it holds back.
type Quiet struct {
	mu   sync.Mutex
	next time.Time
	held uint64
}

// Speak says whether a line may go out now, and how many were held back since the one before.
func (q *Quiet) Speak(now time.Time) (held uint64, ok bool) {
	q.mu.Lock()
	defer q.mu.Unlock()
	if now.Before(q.next) {
		q.held++
		return 0, false
	}
	held, q.held, q.next = q.held, 0, now.Add(quietTime)
	return held, true
}
