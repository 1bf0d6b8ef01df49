package server

import (
	"bytes"
	"encoding/json"
	"fmt"
	"strings"
	"testing"

	"svid.example/go/v3/carriers"
	"svid.example/go/v3/svid"
)

// grouped is a member of a group of mode once that is ready, and its log.
func grouped(t *testing.T) (*Engine, *bytes.Buffer) {
	t.Helper()
	var out bytes.Buffer
	e := ready(t, engine(t, Options{Mode: Once, Grouped: true, Log: NewLog(&out, Errors)}))
	(&broker{}).join(e)
	e.look()
	return e, &out
}

// saidTwice are the lines of the log about tokens that two accepted, each as its key and who did.
func saidTwice(t *testing.T, out *bytes.Buffer) (all []string) {
	t.Helper()
	for _, line := range strings.Split(strings.TrimSpace(out.String()), "\n") {
		var said struct {
			Event, Key   string
			ValidatorIDs string `json:"validator_ids"`
		}
		if line == "" {
			continue
		}
		if err := json.Unmarshal([]byte(line), &said); err != nil {
			t.Fatal(err)
		}
		if said.Event == "accepted twice" {
			all = append(all, said.Key[:2]+" "+said.ValidatorIDs)
		}
	}
	return all
}

// A use of another validator, of a token with this key.
func of(key, validator byte) svid.Use {
	return svid.Use{Key: svid.TokenKey{key}, Expires: moment + 300, At: moment, ValidatorID: svid.ValidatorID{validator}}
}

func ids(validators ...byte) string {
	var all []string
	for _, v := range validators {
		all = append(all, svid.ValidatorID{v}.String())
	}
	return strings.Join(all, " ")
}

// A sidecar says of each token that it accepted too, once, when it hears that another one did. The line has both, and not the token.
func TestATokenThatTwoAcceptedIsSaid(t *testing.T) {
	e, out := grouped(t)
	accepted, err := e.Check(ctxOf(t), token("a"))
	if err != nil {
		t.Fatal(err)
	}
	own := accepted.Use
	theirs := own
	theirs.ValidatorID = svid.ValidatorID{2}
	for i := 0; i < 3; i++ { // It may be told again, as by an answer to a summary.
		if aside := takeAll(e, carriers.Uses, batchOf(theirs)); aside != 0 {
			t.Fatal(aside)
		}
	}
	due := []string{own.Key.String()[:2] + " " + ids(1, 2)}
	if got := saidTwice(t, out); fmt.Sprint(got) != fmt.Sprint(due) {
		t.Errorf("said %q, and %q is due", got, due)
	}
	if strings.Contains(out.String(), token("a")[:40]) {
		t.Error("the log has a token")
	}
	if page := request(e.Handler(), "GET", "/metrics").Body.String(); !strings.Contains(page, "svidd_accepted_twice_total 1\n") {
		t.Error("the metric does not say it")
	}
}

// Only another validator's acceptance of a token that was accepted here counts, and once.
func TestWhatIsNoDoubleAcceptance(t *testing.T) {
	e, out := grouped(t)
	accepted, err := e.Check(ctxOf(t), token("a"))
	if err != nil {
		t.Fatal(err)
	}
	own := accepted.Use
	withdrawn, far := own, own
	withdrawn.ValidatorID, withdrawn.Withdrawn = svid.ValidatorID{2}, true
	far.ValidatorID, far.At = svid.ValidatorID{2}, moment+31
	for name, message := range map[string][]byte{
		"its own use": batchOf(own), "another token": batchOf(of(1, 2)), "a withdrawal": batchOf(withdrawn), "no messages": []byte("JSR"), "a time far ahead": batchOf(far),
	} {
		takeAll(e, carriers.Uses, message)
		if got := saidTwice(t, out); got != nil {
			t.Errorf("%s: said %q", name, got)
		}
	}
	// (Each own use comes back from the group, and costs no report.)
	costs := func(use svid.Use) float64 {
		message := batchOf(use)
		return testing.AllocsPerRun(10, func() { e.step(doing(func(m *Machine) { m.lookTwice(message) })) })
	}
	if back, other := costs(own), costs(of(1, 2)); back > other {
		t.Errorf("its own use asks for memory %v times, and another token %v times", back, other)
	}
	two := of(1, 2)
	for i := 0; i < 2; i++ { // of others alone: each of the two says so
		takeAll(e, carriers.Uses, batchOf(two))
		two.ValidatorID[0]++
	}
	if got := saidTwice(t, out); got != nil {
		t.Errorf("of others: said %q", got)
	}
}

// A message may tell of many tokens, and of some that are accepted twice.
func TestSeveralTokensThatTwoAccepted(t *testing.T) {
	e, out := grouped(t)
	var theirs []byte
	for i := 0; i < 3; i++ {
		accepted, err := e.Check(ctxOf(t), token(fmt.Sprint(i)))
		if err != nil {
			t.Fatal(err)
		}
		use := accepted.Use
		use.ValidatorID = svid.ValidatorID{2}
		theirs = append(append(theirs, batchOf(of(byte(i), 2))...), batchOf(use)...)
	}
	takeAll(e, carriers.Uses, theirs)
	if got := saidTwice(t, out); len(got) != 3 || e.Metrics.AcceptedTwice.Load() != 3 {
		t.Errorf("said %q, and counted %d", got, e.Metrics.AcceptedTwice.Load())
	}
}

// What is not in a group, or in another mode, keeps none of its acceptances.
func TestOnlyAGroupOfOnceLooksForDoubles(t *testing.T) {
	for _, o := range []Options{{Mode: Once}, {Mode: Reuse}} {
		e := ready(t, engine(t, o))
		if _, err := e.Check(ctxOf(t), token("a")); err != nil {
			t.Fatal(err)
		}
		if n := withMachine(e, func(m *Machine) int { return len(m.own.young) + len(m.own.old) }); n != 0 {
			t.Errorf("%s: %d are kept", o.Mode, n)
		}
	}
}

// Acceptances are kept until they expire, and not more than so many.
func TestOwnUsesHaveABound(t *testing.T) {
	var o ownUses
	one := of(1, 1)
	o.add(moment, 300, one)
	o.add(moment+300, 300, of(2, 1))
	if _, _, is := o.find(one.Key); !is {
		t.Error("one that may live is gone")
	}
	o.add(moment+301, 300, of(3, 1))
	o.add(moment+602, 300, of(4, 1))
	if _, _, is := o.find(one.Key); is {
		t.Error("one that has expired is kept")
	}
	for i := 0; i < 3*mostOwn; i++ {
		o.add(moment+602, 300, svid.Use{Key: svid.TokenKey{9, byte(i), byte(i >> 8), byte(i >> 16)}})
	}
	if n := len(o.young) + len(o.old); n > 2*mostOwn {
		t.Errorf("%d are kept", n)
	}
}
