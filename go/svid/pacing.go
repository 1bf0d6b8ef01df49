package svid

/*
#include "svid.h"
static svid_pacing pacing_first(void) { return (svid_pacing)SVID_PACING_FIRST; }
*/
import "C"

import "time"

// A Pacing says when claims that wait go out: many share a call to the store, and none waits long for that. up is a moment by a clock that only
// goes ahead, which counts in whole milliseconds. Give it to one goroutine at a time, and begin with NewPacing.
type Pacing struct{ c C.svid_pacing }

// NewPacing returns one where no call is under way.
func NewPacing() *Pacing { return &Pacing{C.pacing_first()} }

// Calls is how many calls are under way.
func (p *Pacing) Calls() int { return int(p.c.calls) }

// MaySend says whether a call goes out, where so many claims wait.
func (p *Pacing) MaySend(up time.Duration, waiting int) bool {
	return C.svid_pacing_may_send(&p.c, millis(up), C.uint64_t(waiting)) == 1
}

// Due is when a call goes out beside those that are under way, where claims wait. any is false where an answer has to come first.
func (p *Pacing) Due() (at time.Duration, any bool) {
	due := C.svid_pacing_due(&p.c)
	return time.Duration(due) * time.Millisecond, due != C.UINT64_MAX
}

// Sent: a call goes out.
func (p *Pacing) Sent(up time.Duration) { C.svid_pacing_sent(&p.c, millis(up)) }

// Answered: a call has ended, and the store has answered some of its claims. The others wait for the pause before they are put again.
func (p *Pacing) Answered() (pause time.Duration) {
	C.svid_pacing_answered(&p.c)
	return time.Duration(p.c.pause) * time.Millisecond
}

// Unanswered: a call has ended without an answer. Its claims wait for the pause before they are put again.
func (p *Pacing) Unanswered() (pause time.Duration) {
	return time.Duration(C.svid_pacing_unanswered(&p.c)) * time.Millisecond
}

func millis(up time.Duration) C.uint64_t { return C.uint64_t(up / time.Millisecond) }
