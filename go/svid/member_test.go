package svid_test

import (
	"errors"
	"fmt"
	"testing"

	"svid.example/go/v3/svid"
)

const lasts = longest + 2*10

// logOf lets a validator read a log from its first value on.
func logOf(t *testing.T, v *svid.Validator) *svid.Validator {
	t.Helper()
	if err := v.OpenLog(svid.Log{Lasts: lasts}); err != nil {
		t.Fatal(err)
	}
	return v
}

// claim is a use of a key by a validator, made at a time, of a token that expires 300 seconds past the moment.
func claim(key, id byte, at uint64) svid.Use {
	return svid.Use{Key: svid.TokenKey{key}, Expires: moment + 300, At: at, ValidatorID: svid.ValidatorID{id}}
}

// readAll reads a value whole, and returns the fates of its uses and what the last call said.
func readAll(t *testing.T, v *svid.Validator, now, position uint64, value []byte, room int) (fates []svid.Fate, last svid.Reading) {
	t.Helper()
	out := make([]svid.LogUse, room)
	for last.Rest = svid.RestNoRoom; last.Rest != svid.RestNothing; {
		var err error
		if last, err = v.Read(now, position, value, v.Edition(), out); err != nil {
			t.Fatalf("value %d: %v", position, err)
		}
		if last.From != len(fates) && last.Count > 0 {
			t.Errorf("value %d goes on at %d, behind %d uses", position, last.From, len(fates))
		}
		for _, use := range out[:last.Count] {
			fates = append(fates, use.Fate)
		}
	}
	return fates, last
}

// Each use of a value has its fate, whatever the room is.
func TestReadAnswersTheFateOfEachUse(t *testing.T) {
	gone := claim(9, 2, moment)
	gone.Withdrawn = true
	for _, room := range []int{1, 2, 3, 100} {
		v := logOf(t, open(t, 1))
		for i, row := range []struct {
			now   uint64
			uses  []svid.Use
			fates string
		}{
			{moment, []svid.Use{claim(1, 1, moment), claim(2, 2, moment)}, "[Accepted First]"},
			{moment, []svid.Use{claim(1, 1, moment), claim(2, 1, moment)}, "[Replayed Replayed]"},
			{moment, []svid.Use{claim(3, 2, moment+11), claim(4, 1, moment+10)}, "[Accepted TooFarAhead]"}, // (by rising times)
			{moment, []svid.Use{claim(3, 1, moment+1)}, "[Replayed]"},
			{moment, []svid.Use{gone}, "[Withdrawal]"},
			{0, []svid.Use{claim(5, 1, moment), claim(9, 1, moment)}, "[Accepted Withdrawn]"},
			{moment, nil, "[]"},
			{moment + 300, []svid.Use{claim(6, 1, moment)}, "[Expired]"},
		} {
			fates, last := readAll(t, v, row.now, uint64(i+1), batchesOf(row.uses), room)
			if fmt.Sprint(fates) != row.fates || last.Order != svid.OrderNext || last.Fault != nil {
				t.Errorf("value %d by %d: %v %+v, want %s", i+1, room, fates, last, row.fates)
			}
		}
		mark, accepts, err := v.LogMark()
		if err != nil || mark != (svid.Mark{Passed: 8}) || !accepts {
			t.Errorf("%+v %v %v", mark, accepts, err)
		}
	}
	if got := fmt.Sprint(svid.Fate(0), svid.Fate(8)); got != "none Fate(8)" {
		t.Error(got)
	}
}

// The uses are those of the value, with what a withdrawal is.
func TestReadWritesTheUses(t *testing.T) {
	v := logOf(t, open(t, 1))
	gone := claim(2, 9, moment)
	gone.Withdrawn = true
	uses := []svid.Use{claim(1, 1, moment), gone}
	out := make([]svid.LogUse, 5)
	reading, err := v.Read(moment, 1, batchesOf(uses), 1, out)
	if err != nil || reading.Count != 2 || fmt.Sprint(out[0].Use, out[1].Use) != fmt.Sprint(uses[0], uses[1]) || out[2] != (svid.LogUse{}) {
		t.Errorf("%+v %+v %v", reading, out, err)
	}
}

// Bytes that are no messages have no uses, and are read.
func TestReadOfAValueThatIsNoMessages(t *testing.T) {
	v := logOf(t, open(t, 1))
	good := batchOf(claim(1, 1, moment))
	turned := append(batchesOf([]svid.Use{claim(2, 1, moment)}), good[17:]...)
	turned[16] = 2
	late := append([]byte(nil), good...)
	late[11]-- // its moment: 256 seconds before the use was made
	for i, row := range []struct {
		value  []byte
		reason string
	}{
		{[]byte("garbage"), "Magic"}, {good[:81], "Truncated"}, {append(good[:81:81], 7), "UseKind"}, {turned, "UseOrder"}, {late, "UseFuture"},
	} {
		fates, last := readAll(t, v, moment, uint64(i+1), row.value, 9)
		var fault *svid.MessageError
		if len(fates) != 0 || !errors.As(last.Fault, &fault) || fault.Reason != row.reason {
			t.Errorf("%s: %v %+v", row.reason, fates, last)
		}
	}
	if fates, _ := readAll(t, v, moment, 6, good, 9); fmt.Sprint(fates) != "[Accepted]" {
		t.Error(fates)
	}
}

// Values that are missing let a validator accept nothing, until they must have expired or someone says so.
func TestReadBehindAGap(t *testing.T) {
	for _, goOn := range []bool{false, true} {
		v := logOf(t, open(t, 1))
		if _, err := v.Read(moment, 1, batchOf(claim(1, 1, moment)), 1, make([]svid.LogUse, 1)); err != nil {
			t.Fatal(err)
		}
		fates, last := readAll(t, v, moment, 4, batchOf(claim(2, 1, moment)), 9)
		if fmt.Sprint(fates) != "[First]" || last.Order != svid.OrderGap {
			t.Errorf("%v %+v", fates, last)
		}
		mark, accepts, err := v.LogMark()
		if err != nil || mark != (svid.Mark{Passed: 4, Deaf: moment + lasts}) || accepts {
			t.Errorf("%+v %v %v", mark, accepts, err)
		}
		if fates, last := readAll(t, v, moment, 4, batchOf(claim(3, 1, moment)), 9); len(fates) != 0 || last.Order != svid.OrderAgain {
			t.Errorf("a value that was read: %v %+v", fates, last)
		}
		now := uint64(moment)
		if goOn {
			err = v.GoOn()
		} else {
			now += lasts
		}
		later := claim(4, 1, now)
		later.Expires = now + 300
		if fates, _ := readAll(t, v, now, 5, batchOf(later), 9); fmt.Sprint(fates) != "[Accepted]" || err != nil {
			t.Errorf("it goes on %v: %v %v", goOn, fates, err)
		}
	}
}

// Of values that an earlier life may have read none is accepted.
func TestReadOfWhatAnEarlierLifeMayHaveRead(t *testing.T) {
	v := open(t, 1)
	if err := v.OpenLog(svid.Log{Mark: svid.Mark{Passed: 6}, Ready: 7, Lasts: lasts}); err != nil {
		t.Fatal(err)
	}
	for i, want := range []string{"[First]", "[Accepted]"} {
		if _, accepts, err := v.LogMark(); err != nil || accepts != (i > 0) {
			t.Errorf("it accepts: %v (%v)", accepts, err)
		}
		if fates, last := readAll(t, v, moment, uint64(7+i), batchOf(claim(byte(i), 1, moment)), 9); fmt.Sprint(fates) != want || last.Order != svid.OrderNext {
			t.Errorf("%v %+v, want %s", fates, last, want)
		}
	}
}

// A validator goes on where an earlier life of it was, with the claims that its record did not take.
func TestALogIsReadOnFromASave(t *testing.T) {
	one, two := logOf(t, open(t, 1)), open(t, 1)
	uses := []svid.Use{claim(1, 2, moment), claim(1, 3, moment), claim(2, 2, moment+100)}
	if fates, _ := readAll(t, one, moment, 1, batchesOf(uses), 9); fmt.Sprint(fates) != "[First Replayed TooFarAhead]" {
		t.Fatal(fates)
	}
	beside, err := one.LogBeside()
	if err != nil {
		t.Fatal(err)
	}
	mark, _, err := one.LogMark()
	if err != nil {
		t.Fatal(err)
	}
	if err := two.OpenLog(svid.Log{Mark: mark, Beside: beside, Ready: 1, Lasts: lasts}); err != nil {
		t.Fatal(err)
	}
	if err := two.Take(moment, save(t, one)); err != nil {
		t.Fatal(err)
	}
	value := batchesOf([]svid.Use{claim(1, 1, moment+1), claim(2, 1, moment+1), claim(3, 1, moment+1)})
	if fates, last := readAll(t, two, moment+1, 2, value, 9); fmt.Sprint(fates) != "[Replayed Replayed Accepted]" || last.Order != svid.OrderNext {
		t.Errorf("%v %+v", fates, last)
	}
	var fault *svid.MessageError
	if err := two.OpenLog(svid.Log{Beside: []byte("garbage")}); !errors.As(err, &fault) {
		t.Error(err)
	}
	if mark, _, err := two.LogMark(); err != nil || mark.Passed != 2 {
		t.Errorf("it reads another log: %+v %v", mark, err)
	}
}

// Many claims beside the record are written whole.
func TestManyClaimsBesideARecord(t *testing.T) {
	v := logOf(t, open(t, 1))
	const many = 300
	for i := 0; i < many; i++ {
		use := claim(byte(i), 2, moment+100)
		use.Key[1] = byte(i >> 8)
		readAll(t, v, moment, uint64(i+1), batchOf(use), 1)
	}
	beside, err := v.LogBeside()
	if err != nil {
		t.Fatal(err)
	}
	if uses, err := svid.Uses(beside); err != nil || len(uses) != many {
		t.Errorf("%d uses, %v", len(uses), err)
	}
}

// A token that is judged is refused while a claim beside the record has its key, and is accepted by its own claim alone.
func TestATokenIsAcceptedByItsClaim(t *testing.T) {
	v, k := open(t, 1), keyring(t, example.Bundles())
	token, other := example.Token("ES256", claims("a")), example.Token("ES256", claims("b"))
	yes, more := verified(t, k, token), verified(t, k, other)
	logOf(t, v)
	if _, err := v.Check(moment, token, yes); err != svid.ErrHasLog {
		t.Errorf("Check: %v", err)
	}
	judged, err := v.Judge(moment, token, yes)
	if err != nil || judged.Edition() != 1 {
		t.Fatal(judged, err)
	}
	if fates, _ := readAll(t, v, moment, 1, batchOf(judged.Use), 9); fmt.Sprint(fates) != "[Accepted]" {
		t.Error(fates)
	}
	if _, err := v.Judge(moment, token, yes); err != svid.Replayed {
		t.Errorf("again: %v", err)
	}
	claimed, err := v.Judge(moment, other, more)
	if err != nil {
		t.Fatal(err)
	}
	far := claimed.Use
	far.At, far.ValidatorID = moment+100, svid.ValidatorID{2}
	readAll(t, v, moment, 2, batchOf(far), 9)
	if _, err := v.Judge(moment, other, more); err != svid.Replayed {
		t.Errorf("a claim beside the record: %v", err)
	}
}

// Where bundles were replaced since a token was judged, its value is not read before it is judged again.
func TestReadWithOtherBundles(t *testing.T) {
	v := logOf(t, open(t, 1))
	edition := v.Edition()
	if err := v.SetBundles([]byte(`{`)); err == nil || v.Edition() != edition {
		t.Errorf("bundles that are refused: %v, edition %d", err, v.Edition())
	}
	if err := v.SetBundles(example.Bundles()); err != nil {
		t.Fatal(err)
	}
	out := make([]svid.LogUse, 1)
	if _, err := v.Read(moment, 1, batchOf(claim(1, 1, moment)), edition, out); err != svid.ErrRenewed {
		t.Error(err)
	}
	if reading, err := v.Read(moment, 1, batchOf(claim(1, 1, moment)), v.Edition(), out); err != nil || out[0].Fate != svid.FateAccepted {
		t.Errorf("%+v %v", reading, err)
	}
}

func TestErrorsOfALog(t *testing.T) {
	v := open(t, 1)
	out := make([]svid.LogUse, 1)
	for _, call := range []struct {
		what string
		do   func() error
	}{
		{"Read", func() error { _, err := v.Read(moment, 1, nil, 1, out); return err }},
		{"LogMark", func() error { _, _, err := v.LogMark(); return err }},
		{"LogBeside", func() error { _, err := v.LogBeside(); return err }},
		{"GoOn", v.GoOn},
	} {
		if err := call.do(); err != svid.ErrNoLog {
			t.Errorf("%s without a log: %v", call.what, err)
		}
	}
	logOf(t, v)
	if err := v.Tick(moment); err != nil {
		t.Fatal(err)
	}
	value := batchOf(claim(1, 1, moment))
	if _, err := v.Read(moment+100_000, 1, value, 1, out); err != svid.ErrJump {
		t.Errorf("a clock that jumps: %v", err)
	}
	if _, err := v.Read(0, 2, value, 1, out); err != svid.ErrJump {
		t.Errorf("a gap without a clock: %v", err)
	}
	if reading, err := v.Read(0, 1, value, 1, nil); err != nil || reading.Rest != svid.RestNoRoom || reading.Count != 0 {
		t.Errorf("no room: %+v %v", reading, err)
	}
	if reading, err := v.Read(0, 1, value, 1, out); err != nil || reading.Rest != svid.RestNothing || out[0].Fate != svid.FateAccepted {
		t.Errorf("without a clock: %+v %v", reading, err)
	}
	v.Close()
	for what, err := range map[string]error{
		"Read": func() error { _, err := v.Read(moment, 2, value, 1, out); return err }(), "OpenLog": v.OpenLog(svid.Log{}), "GoOn": v.GoOn(),
	} {
		if err != svid.ErrClosed {
			t.Errorf("%s of a closed validator: %v", what, err)
		}
	}
}
