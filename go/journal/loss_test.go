package journal

import (
	"context"
	"encoding/binary"
	"errors"
	"flag"
	"fmt"
	"io"
	"math/rand"
	"os"
	"sort"
	"strings"
	"syscall"
	"testing"
)

// long lets the tests of this package try as much as is asked of a release: go/build long.
var long = flag.Bool("long", false, "try every bit, 200 kills and 50,000 losses of power")

// A history is what happens to one folder on a model of a disk: lives of a process. Each ends by a loss of power, or
// by the end of the process.
type history struct {
	t            *testing.T
	r            *rand.Rand
	disk         *disk
	j            *opened
	record       map[uint64]bool // what the process has in memory
	acknowledged map[uint64]bool
	appended     map[uint64]bool
	next         uint64
	calls        int // until the power is lost; below 0 it is not
	faults       int // one call of so many fails; 0 for none
	lost         bool
	did          []string
}

// before makes calls fail: one by the loss of power, and others at random.
func (h *history) before(call, name string, length int) (int, error) {
	if h.lost {
		return 0, ErrGone
	}
	if h.calls--; h.calls == 0 {
		h.lost = true
		h.did = append(h.did, "the power is lost in "+call+" "+name)
		return 0, ErrLost
	}
	if call != "names" && call != "read" && h.faults > 0 && h.r.Intn(h.faults) == 0 {
		h.did = append(h.did, call+" "+name+" fails")
		return h.r.Intn(length + 1), syscall.EIO
	}
	return 0, nil
}

// life is one of the process: a start, and what it does until it ends. It tells whether the power was lost.
func (h *history) life(calls, faults int) (lost bool) {
	h.disk.before = h.before
	h.calls, h.faults, h.lost = calls, faults, false
	j, err := begin(h.disk)
	h.did = append(h.did, fmt.Sprintf("start: %v", err))
	if err != nil {
		if strings.Contains(err.Error(), "remove this folder") && !h.lost { // As someone does who reads that.
			here := h.disk.here
			here.leads(false)
			h.disk = newDisk()
			h.disk.here = here
		}
		if damaged := new(damage); errors.As(err, &damaged) || calls < 0 && faults == 0 {
			h.fail("a start is refused: %v", err)
		}
		return h.lost
	}
	j.quiet, j.growth, j.least = 0, 32*h.r.Intn(20), int64(h.r.Intn(300))
	h.take(j)
	if wants, must := j.WantsSnapshot(); must || wants && h.r.Intn(2) == 0 {
		if must && j.Append(context.Background(), batch(h.next)) != errOld {
			h.fail("an old folder takes a batch")
		}
		if h.snapshot(j) != nil && must {
			return h.lost // (as svidd does)
		}
	}
	for i := h.r.Intn(12); i > 0 && !h.lost; i-- {
		h.step(j)
	}
	if !h.lost && h.r.Intn(2) == 0 {
		h.did = append(h.did, fmt.Sprintf("close: %v", j.Close()))
	}
	return h.lost
}

// take gives a new record what a start found: all that was acknowledged, and nothing that was not appended.
func (h *history) take(j *opened) {
	h.record = map[uint64]bool{}
	for m := j.messages; len(m) > 0; m = m[82:] {
		n := binary.BigEndian.Uint64(m[25:])
		if !h.appended[n] || string(m[:82]) != string(batch(n)) {
			h.fail("batch %d was not appended", n)
		}
		h.record[n] = true
	}
	for n := range h.acknowledged {
		if !h.record[n] {
			h.fail("batch %d was acknowledged, and is lost", n)
		}
	}
}

// step is something that a process does.
func (h *history) step(j *opened) {
	switch h.r.Intn(9) {
	case 0, 1:
		_ = h.snapshot(j)
	case 8:
		h.did = append(h.did, fmt.Sprintf("room: %v", j.Room(context.Background())))
	case 2:
		j.write.Lock()
		err := j.mark()
		j.write.Unlock()
		h.did = append(h.did, fmt.Sprintf("mark: %v", err))
	default:
		h.append(j)
	}
}

// snapshot writes the record in pieces. Something may be appended meanwhile.
func (h *history) snapshot(j *opened) error {
	err := j.Snapshot(func(w io.Writer) error {
		var all []uint64
		for n := range h.record {
			all = append(all, n)
		}
		sort.Slice(all, func(i, k int) bool { return all[i] < all[k] })
		if h.r.Intn(3) == 0 {
			h.append(j)
		}
		for len(all) > 0 {
			some := 1 + h.r.Intn(len(all))
			var piece []byte
			for _, n := range all[:some] {
				piece = append(piece, batch(n)...)
			}
			if _, err := w.Write(piece); err != nil {
				return err
			}
			all = all[some:]
		}
		return nil
	})
	h.did = append(h.did, fmt.Sprintf("snapshot: %v", err))
	return err
}

// append appends some batches at once. The record has them before.
func (h *history) append(j *opened) {
	var bytes []byte
	var some []uint64
	for i := h.r.Intn(3); i >= 0; i-- {
		h.next++
		h.appended[h.next], h.record[h.next] = true, true
		some = append(some, h.next)
		bytes = append(bytes, batch(h.next)...)
	}
	err := j.Append(context.Background(), bytes)
	h.did = append(h.did, fmt.Sprintf("append %d: %v", some, err))
	if err == nil {
		for _, n := range some {
			h.acknowledged[n] = true
		}
	}
	if _, _, ended := j.core.Due(); ended != nil && err == nil {
		h.fail("an append is acknowledged after the end")
	}
}

func (h *history) fail(format string, args ...any) {
	h.t.Helper()
	for _, did := range h.did {
		h.t.Log(did)
	}
	h.t.Fatalf(format, args...)
}

// losses runs histories until the power was lost so many times. Each begins with what disk returns, which has the uses old.
func losses(t *testing.T, most int, disk func() *disk, old ...uint64) {
	lost, kept := 0, 0
	for seed := int64(0); lost < most; seed++ {
		h := &history{t: t, r: rand.New(rand.NewSource(seed)), disk: disk(), acknowledged: map[uint64]bool{}, appended: map[uint64]bool{}, next: 1000}
		for _, n := range old {
			h.acknowledged[n], h.appended[n] = true, true
		}
		h.did = append(h.did, fmt.Sprintf("seed %d", seed))
		for lives := 1 + h.r.Intn(5); lives > 0; lives-- {
			calls, faults := 1+h.r.Intn(60), 0
			if h.r.Intn(3) == 0 {
				faults = 5 + h.r.Intn(20)
			}
			if h.life(calls, faults) {
				lost++
			}
			// The process ends, and power may be lost after that, too.
			if h.lost || h.r.Intn(3) == 0 {
				h.disk = h.disk.crash(h.r)
			}
		}
		h.life(-1, 0)
		kept += len(h.acknowledged)
	}
	if kept < most/10 {
		t.Errorf("%d acknowledged batches in %d losses are too few to say anything", kept, lost)
	}
	t.Logf("%d losses of power, and all of %d acknowledged batches were found", lost, kept)
}

// share is how many of the tries of a release this run makes. go/build lets few be tried under the race detector, which takes ten times as long
// and sees nothing in one goroutine: without it the same tests try more.
func share(all int) int {
	switch {
	case *long:
		return all
	case testing.Short(), os.Getenv("SVID_TEST_FEW") != "":
		return all / 100
	default:
		return all / 10
	}
}

// Power is lost at any call, calls fail, starts are interrupted, and starts come after starts: all that was acknowledged is
// found, and nothing that was not appended.
func TestALossOfPowerAtEachCall(t *testing.T) { losses(t, share(50_000), newDisk) }

// The same from a folder of an older version on.
func TestALossOfPowerOverAnOldFolder(t *testing.T) {
	for name, uses := range oldFolders {
		t.Run(name, func(t *testing.T) {
			files := unpack(t, name)
			var old []uint64
			for n := uint64(0); n < uses; n++ {
				old = append(old, n)
			}
			losses(t, share(5000), func() *disk {
				d := newDisk()
				d.here = settled(true)
				for file, content := range files {
					if n, is := numberOf(file); is {
						*d.journal(n) = journalOnDisk{atRest(content), settled(true)}
					} else if file == snapshotName {
						d.snapshot = settled(atRest(content))
					} else if file == placeName {
						d.id = settled(atRest(content))
					} else {
						d.others[file] = content
					}
				}
				return d
			}, old...)
		})
	}
}

func TestMain(m *testing.M) {
	flag.Parse()
	switch os.Getenv(childRole) {
	case "":
		os.Exit(m.Run())
	case "appender":
		os.Exit(appender(flag.Arg(0)))
	case "full disk":
		os.Exit(fullDisk(flag.Arg(0)))
	}
}
