package server

import (
	"bytes"
	"fmt"
	"strings"
	"sync/atomic"
	"testing"

	"svid.example/go/v3/carriers"
	"svid.example/go/v3/svid"
)

// A sidecar of mode once says that another one claims tokens in its bucket, as svidd 2.0 did in mode strict, once a minute; what is from
// before its own begin is not said.
func TestAnotherModeInTheGroup(t *testing.T) {
	use := svid.Use{Key: svid.TokenKey{1}, Expires: moment + 3000, At: moment + 40, ValidatorID: svid.ValidatorID{7}}
	old, withdrawn := use, use
	old.At, withdrawn.Withdrawn = moment-1, true
	for _, c := range []struct {
		kind carriers.Kind
		use  svid.Use
		said bool
	}{
		{carriers.Claims, use, true}, {carriers.Claims, old, false}, {carriers.Claims, withdrawn, false}, {carriers.Uses, use, false},
	} {
		var log bytes.Buffer
		now := uint64(moment)
		e := ready(t, engine(t, Options{Mode: Once, Now: func() uint64 { return now }, Log: NewLog(&log, Errors)}))
		now = moment + 40
		e.Begin(carriers.Start{})
		for i := byte(0); i < 2; i++ {
			c.use.Key[1] = i
			if errs := e.Take([]carriers.Value{{Kind: c.kind, Position: uint64(i + 1), Message: batchOf(c.use)}}); errs != nil {
				t.Error(errs)
			}
		}
		want := uint64(0)
		if c.said {
			want = 2
		}
		lines := strings.Count(log.String(), `"event":"mode"`)
		if e.Metrics.OtherMode.Load() != want || (lines == 1) != c.said || c.said && !strings.Contains(log.String(), c.use.ValidatorID.String()) {
			t.Errorf("%+v: %d times, %s", c, e.Metrics.OtherMode.Load(), log.String())
		}
	}
}

// A use that the group was not told comes by summary and answer.
func TestASummaryRepairsWhatWasNotTold(t *testing.T) {
	here := ready(t, engine(t, Options{Mode: Once, ValidatorID: svid.ValidatorID{1}}))
	there := ready(t, engine(t, Options{Mode: Once, ValidatorID: svid.ValidatorID{2}}))
	if err := check(here, token("a")); err != nil {
		t.Fatal(err)
	}
	summary, err := there.Summary()
	if err != nil {
		t.Fatal(err)
	}
	answer, err := here.machine.Answer(summary)
	if err != nil {
		t.Fatal(err)
	}
	if errs := there.Take([]carriers.Value{{Kind: carriers.Answer, Message: answer}}); errs != nil {
		t.Fatal(errs)
	}
	if err := check(there, token("a")); err != svid.Replayed {
		t.Error(err)
	}
}

// What expires while a summary is on its way makes no difference: the other one answers nothing.
func TestWhatExpiresOnTheWayOfASummary(t *testing.T) {
	var later atomic.Uint64
	there := ready(t, engine(t, Options{Mode: Once, ValidatorID: svid.ValidatorID{1}}))
	here := ready(t, engine(t, Options{Mode: Once, ValidatorID: svid.ValidatorID{2}, Now: func() uint64 { return moment + later.Load() }}))
	soon := svid.Use{Key: svid.TokenKey{1, 1}, Expires: moment + 2, At: moment, ValidatorID: svid.ValidatorID{3}}
	last := svid.Use{Key: svid.TokenKey{1, 2}, Expires: moment + 300, At: moment, ValidatorID: svid.ValidatorID{3}}
	for _, e := range []*Engine{there, here} {
		if errs := e.Take([]carriers.Value{{Kind: carriers.Uses, Message: batchOf(soon)}, {Kind: carriers.Uses, Message: batchOf(last)}}); errs != nil {
			t.Fatal(errs)
		}
	}
	summary, err := there.Summary()
	if err != nil {
		t.Fatal(err)
	}
	for later.Store(0); later.Load() < mostSettle; later.Add(1) {
		here.step(doing(func(m *Machine) { m.tick() }))
		if answer, err := here.machine.Answer(summary); err != nil || len(answer) > 0 {
			t.Errorf("after %d s: %d bytes, %v", later.Load(), len(answer), err)
		}
	}
	if size, err := here.machine.validator.Size(); err != nil || size.Uses != 1 {
		t.Errorf("%+v: one of two has expired (%v)", size, err)
	}
}

// Of messages that are taken at once each counts as if it came alone, whatever stands before it.
func TestMessagesThatAreTakenAtOnce(t *testing.T) {
	use := func(n byte) svid.Use {
		return svid.Use{Key: svid.TokenKey{n}, Expires: moment + 9, At: moment, ValidatorID: svid.ValidatorID{n}}
	}
	honest, other := batchOf(use(1)), batchOf(use(2))
	// A batch of three uses that ends where the honest message completes its second use, and is its third one.
	swallowing := append(append([]byte(nil), other...), other[17:65]...)
	swallowing[16] = 3
	late := batchOf(svid.Use{Key: svid.TokenKey{3}, Expires: moment + 100, At: moment + 31})
	expired := batchOf(svid.Use{Key: svid.TokenKey{4}, Expires: moment, At: moment - 1})
	first := carriers.Value{Message: make([]byte, takePiece)} // is no message, and a piece of its own
	for what, row := range map[string]struct {
		messages [][]byte
		aside    []int // these are put aside
		uses     int
	}{
		"nothing":                {nil, nil, 0},
		"two":                    {[][]byte{honest, other}, nil, 2},
		"one that swallows":      {[][]byte{swallowing, honest}, []int{0}, 1},
		"one that is too far":    {[][]byte{honest, late, other}, []int{1}, 2},
		"one that has expired":   {[][]byte{honest, expired, other}, nil, 2},
		"garbage at the end":     {[][]byte{honest, other, []byte("garbage")}, []int{2}, 2},
		"a bad use":              {[][]byte{append(honest[:81:81], 7), other}, []int{0}, 1},
		"an empty one":           {[][]byte{{}, other}, nil, 1},
		"two halves of one":      {[][]byte{honest[:50], honest[50:], other}, []int{0, 1}, 1},
		"one, and then the same": {[][]byte{honest, honest}, nil, 1},
	} {
		for _, kind := range []carriers.Kind{carriers.Uses, carriers.Claims} {
			for _, values := range [][]carriers.Value{{}, {first}} {
				front := len(values)
				for _, message := range row.messages {
					values = append(values, carriers.Value{Kind: kind, Message: message})
				}
				e := ready(t, engine(t, Options{Mode: Once}))
				var aside []int
				for i, err := range e.Take(values) {
					if err != nil && i >= front {
						aside = append(aside, i-front)
					}
				}
				if uses, err := svid.Uses(saved(t, e)); err != nil || len(uses) != row.uses || fmt.Sprint(aside) != fmt.Sprint(row.aside) {
					t.Errorf("%s, behind %d: %d aside and %d uses (%v), want %d and %d", what, front, aside, len(uses), err, row.aside, row.uses)
				}
			}
		}
	}
}
