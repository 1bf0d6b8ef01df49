package server

import (
	"bytes"
	"encoding/json"
	"fmt"
	"io"
	"sync"
	"time"
)

// An Outlet writes lines to a writer that may hang or fail, such as standard error where nobody reads it. Nobody who gives
// it a line waits for that writer: a goroutine writes them. Lines for which there is no room, and those that the writer does
// not take, are dropped and counted. Once the writer takes lines again, one of them says how many were dropped. A line that
// is too long ever to have room is dropped by itself: one in its place says so, and those behind it are written.
//
// Its methods may be called by many goroutines at once.
type Outlet struct {
	out   io.Writer
	torn  bool          // the last byte that out took ends no line; run alone uses it
	ended chan struct{} // closed once nothing waits and no more comes

	mu      sync.Mutex
	wake    sync.Cond // something waits, or no more comes
	waiting []byte    // whole lines
	full    bool      // a line was dropped behind those that wait
	unsaid  uint64    // lines that were dropped, and no line said so yet
	dropped uint64    // all that were
	closed  bool
}

const (
	// mostWaiting is how many bytes of lines wait for the writer, beside as many that it is given.
	mostWaiting = 1 << 20
	// onePage is how many bytes are written at once, where a line is not longer. A pipe takes so many as a whole, so lines
	// of several processes that share it do not mix.
	onePage = 4096
)

// NewOutlet returns an outlet to out, and begins to write.
func NewOutlet(out io.Writer) *Outlet {
	o := &Outlet{out: out, ended: make(chan struct{})}
	o.wake.L = &o.mu
	go o.run()
	return o
}

// Write takes a line, which ends in a line feed, or drops it. It returns at once, and no error.
func (o *Outlet) Write(line []byte) (int, error) {
	kept, tooLong := line, len(line) > mostWaiting
	if tooLong {
		kept = tooLongLine(len(line))
	}
	o.mu.Lock()
	defer o.mu.Unlock()
	o.full = o.full || len(o.waiting)+len(kept) > mostWaiting // so none is kept behind one that is dropped
	if o.full || o.closed {
		o.drop(1)
	} else {
		o.waiting = append(o.waiting, kept...)
		if tooLong {
			o.dropped++ // (which is said)
		}
	}
	o.wake.Signal()
	return len(line), nil
}

// drop counts lines. The caller holds mu.
func (o *Outlet) drop(lines uint64) {
	o.unsaid += lines
	o.dropped += lines
}

// Dropped is how many lines were dropped. It is 0 for a nil Outlet.
func (o *Outlet) Dropped() uint64 {
	if o == nil {
		return 0
	}
	o.mu.Lock()
	defer o.mu.Unlock()
	return o.dropped
}

// Close lets no more lines come, and waits until those that came are written, but at most as long as most.
func (o *Outlet) Close(most time.Duration) {
	o.mu.Lock()
	o.closed = true
	o.wake.Signal()
	o.mu.Unlock()
	late := time.NewTimer(most)
	defer late.Stop()
	select {
	case <-o.ended:
	case <-late.C:
	}
}

// run writes what comes, until Close.
func (o *Outlet) run() {
	defer close(o.ended)
	for lines, unsaid := o.next(nil); len(lines) > 0; lines, unsaid = o.next(lines) {
		all := lines
		if unsaid > 0 {
			all = append(all, droppedLine(unsaid)...)
		}
		if taken := o.write(all); taken < len(all) {
			o.lost(lines, taken, unsaid)
		}
	}
}

// next waits for lines and takes all that are there, with the number of those that were dropped behind them. There are none
// once no more come. spare is room for later lines.
func (o *Outlet) next(spare []byte) (lines []byte, unsaid uint64) {
	o.mu.Lock()
	defer o.mu.Unlock()
	for len(o.waiting) == 0 && !o.closed {
		o.wake.Wait()
	}
	lines, unsaid = o.waiting, o.unsaid
	o.waiting, o.unsaid, o.full = spare[:0], 0, false
	return lines, unsaid
}

// write writes lines, and returns how many bytes of them the writer took: fewer where it failed.
func (o *Outlet) write(lines []byte) (taken int) {
	if o.torn {
		if _, err := o.out.Write([]byte{'\n'}); err != nil {
			return 0
		}
	}
	for taken < len(lines) {
		rest := lines[taken:]
		end := len(rest)
		if end > onePage {
			if end = bytes.LastIndexByte(rest[:onePage], '\n') + 1; end == 0 {
				end = bytes.IndexByte(rest, '\n') + 1
			}
		}
		n, err := o.out.Write(rest[:end])
		if taken += n; err != nil {
			o.torn = taken > 0 && lines[taken-1] != '\n'
			return taken
		}
	}
	o.torn = false
	return taken
}

// lost counts the lines that the writer did not take as a whole, and lets a later one say so.
func (o *Outlet) lost(lines []byte, taken int, unsaid uint64) {
	if taken > len(lines) {
		taken = len(lines) // (behind them stood the line that counts)
	}
	o.mu.Lock()
	defer o.mu.Unlock()
	o.unsaid += unsaid
	o.drop(uint64(bytes.Count(lines[taken:], []byte{'\n'})))
}

// droppedLine is the line that says how many were dropped.
func droppedLine(lines uint64) []byte {
	return lineOfDropped(lines, fmt.Sprintf("%d lines were dropped: who reads the log did not take them in time", lines))
}

// tooLongLine is the line in the place of one that has so many bytes.
func tooLongLine(length int) []byte {
	return lineOfDropped(1, fmt.Sprintf("a line of %d bytes was dropped: a line may have %d", length, mostWaiting))
}

func lineOfDropped(lines uint64, why string) []byte {
	text, err := json.Marshal(map[string]any{"time": timestamp(time.Now()), "level": Errors.String(), "event": "log", "dropped": lines, "error": why})
	if err != nil {
		return nil
	}
	return append(text, '\n')
}
