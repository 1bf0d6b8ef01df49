package svid_test

import (
	"bytes"
	"encoding/binary"
	"math/rand"
	"reflect"
	"strings"
	"testing"

	"svid.example/go/v3/svid"
)

// fill gives a validator n uses that expire from 1 second on.
func fill(t testing.TB, v *svid.Validator, seed int64, n int) {
	t.Helper()
	random := rand.New(rand.NewSource(seed))
	for i := 0; i < n; i++ {
		u := svid.Use{Expires: moment + 1 + uint64(random.Intn(1000)), At: moment - uint64(random.Intn(2)), ValidatorID: svid.ValidatorID{9}}
		random.Read(u.Key[:])
		if err := v.Take(moment, batchOf(u)); err != nil {
			t.Fatal(err)
		}
	}
}

// uses are those that messages tell, by their keys.
func uses(t *testing.T, messages []byte) map[svid.TokenKey]svid.Use {
	t.Helper()
	told, err := svid.Uses(messages)
	if err != nil {
		t.Fatal(err)
	}
	all := make(map[svid.TokenKey]svid.Use, len(told))
	for _, u := range told {
		all[u.Key] = u
	}
	return all
}

// The summary of a walk is the core's own, byte for byte.
func TestWalkSummaryIsTheCores(t *testing.T) {
	for _, n := range []int{0, 1, 5000} {
		v := open(t, 1)
		if err := v.Tick(moment); err != nil {
			t.Fatal(err)
		}
		fill(t, v, 1, n)
		for _, settle := range []uint64{0, 7} {
			walked, err := v.WalkSummary(settle)
			if err != nil {
				t.Fatal(err)
			}
			if err := v.Tick(moment + settle); err != nil {
				t.Fatal(err)
			}
			if core, err := v.Summary(); err != nil || !bytes.Equal(walked, core) {
				t.Errorf("%d uses, %d seconds on: the summaries differ (%v)", n, settle, err)
			}
		}
	}
}

// What an answer of a walk brings is what was missing, and none of it is new to who answered.
func TestWalkAnswerBringsWhatIsMissing(t *testing.T) {
	here, there, both := open(t, 1), open(t, 2), open(t, 3)
	for _, v := range []*svid.Validator{here, there, both} {
		fill(t, v, 1, 3000)
	}
	fill(t, there, 2, 40)
	fill(t, both, 2, 40)
	fill(t, here, 3, 7)
	fill(t, both, 3, 7)
	ask := func(from, to *svid.Validator, most int) []byte {
		t.Helper()
		summary, err := from.WalkSummary(0)
		if err != nil {
			t.Fatal(err)
		}
		answer, err := to.WalkAnswer(summary, most)
		if err != nil {
			t.Fatal(err)
		}
		if err := from.Take(moment, answer); err != nil {
			t.Fatal(err)
		}
		return answer
	}
	const all = 1 << 20
	// The core's own answer to the same summary brings the same record.
	summary, err := here.Summary()
	if err != nil {
		t.Fatal(err)
	}
	core, err := there.Answer(moment, summary)
	if err != nil {
		t.Fatal(err)
	}
	if walked := ask(here, there, all); len(uses(t, walked)) < 40 || !reflect.DeepEqual(uses(t, walked), uses(t, core)) {
		t.Errorf("an answer of %d uses; the core's has %d", len(uses(t, walked)), len(uses(t, core)))
	}
	if !bytes.Equal(save(t, here), save(t, both)) {
		t.Error("something is missing")
	}
	if err := there.Take(moment, save(t, here)); err != nil {
		t.Fatal(err)
	}
	if answer := ask(here, there, all); len(answer) != 0 {
		t.Errorf("equal records, and an answer of %d bytes", len(answer))
	}
	// An answer that is longer than the room that stands ready brings all of it at once.
	another := open(t, 5)
	if answer := ask(another, there, all); len(answer) < 128<<10 || !bytes.Equal(save(t, another), save(t, both)) {
		t.Errorf("an answer of %d bytes brings another record", len(answer))
	}
	// Small answers bring all of it by and by.
	empty := open(t, 4)
	rounds := 0
	for ; !bytes.Equal(save(t, empty), save(t, both)); rounds++ {
		if answer := ask(empty, there, 4000); len(answer) > 8000 || rounds > 500 {
			t.Fatalf("round %d: %d bytes", rounds, len(answer))
		}
	}
	if rounds < 20 {
		t.Errorf("%d rounds", rounds)
	}
}

func TestWalkAnswerRefusesWhatIsNoSummary(t *testing.T) {
	v := open(t, 1)
	summary, err := v.WalkSummary(0)
	if err != nil {
		t.Fatal(err)
	}
	at := func(moment uint64) []byte {
		s := append([]byte(nil), summary...)
		binary.BigEndian.PutUint64(s[5:], moment)
		return s
	}
	for _, row := range []struct {
		what    string
		summary []byte
		want    string
	}{
		{"nothing", nil, svid.ErrNotSummary.Error()},
		{"a batch", batchOf(svid.Use{Expires: 2, At: 1}), svid.ErrNotSummary.Error()},
		{"two summaries", append(at(moment), summary...), svid.ErrNotSummary.Error()},
		{"a byte more", append(at(moment), 'J'), "svid: Truncated in message 2 at byte 1: "},
		{"a byte less", summary[:len(summary)-1], "svid: Truncated in message 1 at byte 8204: "},
		{"the greatest moment", at(^uint64(0)), ""},
		{"long ago", at(0), ""},
	} {
		_, err := v.WalkAnswer(row.summary, 1000)
		if (err == nil) != (row.want == "") || err != nil && !strings.HasPrefix(err.Error(), row.want) {
			t.Errorf("%s: %v", row.what, err)
		}
	}
	if size, err := v.Size(); err != nil || size.Moment != 0 {
		t.Errorf("answers of buckets raise the record: %+v, %v", size, err)
	}
	v.Close()
	if _, err := v.WalkSummary(0); err != svid.ErrClosed {
		t.Errorf("closed: %v", err)
	}
	if _, err := v.WalkAnswer(summary, 1000); err != svid.ErrClosed {
		t.Errorf("closed: %v", err)
	}
}

// An answer has no use that has expired at the summary's moment, though others of its bucket are missing. Small answers are of
// other buckets each time, so that all come by and by, also where nobody takes them.
func TestWhatAWalkAnswers(t *testing.T) {
	v := open(t, 1)
	const many = 100
	for i := byte(0); i < many; i++ {
		for _, u := range []svid.Use{{Key: svid.TokenKey{i, 1}, Expires: moment + 5}, {Key: svid.TokenKey{i, 2}, Expires: moment + 100}} {
			u.At, u.ValidatorID = moment, svid.ValidatorID{9}
			if err := v.Take(moment, batchOf(u)); err != nil {
				t.Fatal(err)
			}
		}
	}
	other := open(t, 2)
	if err := other.Tick(moment + 5); err != nil {
		t.Fatal(err)
	}
	summary, err := other.Summary()
	if err != nil {
		t.Fatal(err)
	}
	buckets := map[byte]bool{}
	for round := 0; round < 200 && len(buckets) < 10; round++ {
		answer, err := v.WalkAnswer(summary, 1)
		if err != nil {
			t.Fatal(err)
		}
		uses, err := svid.Uses(answer)
		if err != nil || len(uses) != 1 || uses[0].Expires != moment+100 {
			t.Fatalf("%v, %v", uses, err)
		}
		buckets[uses[0].Key[0]] = true
	}
	if len(buckets) < 10 {
		t.Errorf("all answers are of %d buckets", len(buckets))
	}
	// The core's own answer has as much room as it needs.
	answer, err := v.Answer(moment, summary)
	if uses, bad := svid.Uses(answer); err != nil || bad != nil || len(uses) != many {
		t.Errorf("%d uses, %v, %v", len(uses), err, bad)
	}
}
