package svid_test

import (
	"bytes"
	"fmt"
	"testing"

	"svid.example/go/v3/svid"
)

// rowsOfValues are values one after the other: some are bad, empty, large, or of many uses.
func rowsOfValues() map[string][][]byte {
	n := 0
	value := func(uses int) []byte {
		all := make([]svid.Use, uses)
		for i := range all {
			n++
			all[i] = svid.Use{Key: svid.TokenKey{1, byte(n), byte(n >> 8)}, Expires: moment + 300, At: moment, ValidatorID: svid.ValidatorID{byte(n % 3)}}
		}
		return batchesOf(all)
	}
	early := batchOf(svid.Use{Key: svid.TokenKey{2}, Expires: moment + 300, At: moment + 200, ValidatorID: svid.ValidatorID{9}})
	cut, same := value(2), value(1)
	many := make([][]byte, 900)
	for i := range many {
		many[i] = value(1)
	}
	return map[string][][]byte{
		"none":                   {},
		"one":                    {value(1)},
		"some":                   {value(1), value(3), value(1)},
		"an empty one":           {value(1), {}, value(1)},
		"no bytes at all":        {nil, {}},
		"garbage in the midst":   {value(1), []byte("garbage"), value(2)},
		"garbage at the end":     {value(1), value(1), []byte("x")},
		"one that is cut":        {value(1), cut[:100], cut[100:], value(1)},
		"one that swallows":      {append(cut[:len(cut):len(cut)], value(1)[:50]...), value(1)},
		"one from too far ahead": {value(1), early, value(1)},
		"the same":               {same, same, value(1), same},
		"a large one":            {value(1), value(100), value(1), value(64), value(1)},
		"many":                   many,
		"many behind a bad one":  append([][]byte{[]byte("bad")}, many[:300]...),
	}
}

// TakeEach takes what Take takes of each value by itself, and says the same of it.
func TestTakeEach(t *testing.T) {
	for what, values := range rowsOfValues() {
		one, each := open(t, 1), open(t, 1)
		var want, got []string
		for _, value := range values {
			want = append(want, fmt.Sprint(one.Take(moment, value)))
		}
		for at := 0; at < len(values); {
			taken, err := each.TakeEach(moment, values[at:])
			for i := 0; i < taken; i++ {
				got = append(got, "<nil>")
			}
			if at += taken; at == len(values) {
				if err != nil {
					t.Errorf("%s: %v behind all", what, err)
				}
				break
			}
			if err == nil {
				t.Fatalf("%s: %d of %d, and no error", what, at, len(values))
			}
			got = append(got, fmt.Sprint(err))
			at++
		}
		if fmt.Sprint(got) != fmt.Sprint(want) {
			t.Errorf("%s: %v, want %v", what, got, want)
		}
		if a, b := savedOf(t, one), savedOf(t, each); !bytes.Equal(a, b) {
			t.Errorf("%s: another record", what)
		}
	}
	v := open(t, 1)
	v.Close()
	if n, err := v.TakeEach(moment, [][]byte{{}}); n != 0 || err != svid.ErrClosed {
		t.Error(n, err)
	}
}

// ReadEach reads what Read reads of each value by itself, wherever the room ends, and says the same of it.
func TestReadEach(t *testing.T) {
	for what, values := range rowsOfValues() {
		for _, room := range []int{1, 2, 64, 1000} {
			one, each := open(t, 1), open(t, 1)
			for _, v := range []*svid.Validator{one, each} {
				if err := v.OpenLog(svid.Log{Lasts: lasts}); err != nil {
					t.Fatal(err)
				}
			}
			var want, got []string
			out := make([]svid.LogUse, room)
			for i, value := range values {
				for rest := svid.RestNoRoom; rest != svid.RestNothing; {
					r, err := one.Read(moment, uint64(i+1), value, 1, out)
					if err != nil {
						t.Fatal(what, err)
					}
					for _, use := range out[:r.Count] {
						want = append(want, fmt.Sprint(i, use))
					}
					if rest = r.Rest; rest == svid.RestNothing {
						want = append(want, fmt.Sprint(i, r.Order, r.Fault))
					}
				}
			}
			readings := make([]svid.Reading, 5)
			for at := 0; at < len(values); {
				n, err := each.ReadEach(moment, uint64(at+1), values[at:], 1, out, readings)
				if err != nil || n == 0 {
					t.Fatal(what, n, err)
				}
				uses := out
				for i, r := range readings[:n] {
					for _, use := range uses[:r.Count] {
						got = append(got, fmt.Sprint(at, use))
					}
					if uses = uses[r.Count:]; r.Rest != svid.RestNothing {
						if i != n-1 {
							t.Fatalf("%s: it goes on behind a value with a rest", what)
						}
						break
					}
					got = append(got, fmt.Sprint(at, r.Order, r.Fault))
					at++
				}
			}
			if fmt.Sprint(got) != fmt.Sprint(want) {
				t.Errorf("%s, room for %d:\n%v, want\n%v", what, room, got, want)
			}
			a, _, err := one.LogMark()
			b, _, err2 := each.LogMark()
			if a != b || err != nil || err2 != nil || !bytes.Equal(savedOf(t, one), savedOf(t, each)) {
				t.Errorf("%s, room for %d: %v and %v, or another record (%v, %v)", what, room, a, b, err, err2)
			}
		}
	}
}

// After a gap, and behind a value that was read before, ReadEach stops; and it reads nothing by other bundles, or where it has no room for it.
func TestWhereReadEachStops(t *testing.T) {
	v := open(t, 1)
	uses, readings := make([]svid.LogUse, 9), make([]svid.Reading, 9)
	three := rowsOfValues()["some"]
	if n, err := v.ReadEach(moment, 1, three, 1, uses, readings); n != 0 || err != svid.ErrNoLog {
		t.Error(n, err)
	}
	if err := v.OpenLog(svid.Log{Lasts: lasts}); err != nil {
		t.Fatal(err)
	}
	if n, err := v.ReadEach(moment, 1, three, 2, uses, readings); n != 0 || err != svid.ErrRenewed {
		t.Error(n, err)
	}
	for _, none := range []struct {
		values   [][]byte
		readings []svid.Reading
	}{{nil, readings}, {three, nil}} {
		if n, err := v.ReadEach(moment, 1, none.values, 1, uses, none.readings); n != 0 || err != nil {
			t.Error(n, err)
		}
	}
	if n, err := v.ReadEach(moment, 3, three, 1, uses, readings); n != 1 || err != nil || readings[0].Order != svid.OrderGap {
		t.Error(n, err, readings[0])
	}
	if n, err := v.ReadEach(moment, 3, three, 1, uses, readings); n != 1 || err != nil || readings[0].Order != svid.OrderAgain {
		t.Error(n, err, readings[0])
	}
	if n, err := v.ReadEach(moment, 4, three[1:], 1, uses, readings); n != 2 || err != nil || readings[1].Order != svid.OrderNext {
		t.Error(n, err, readings[:2])
	}
}

func savedOf(t *testing.T, v *svid.Validator) []byte {
	t.Helper()
	var all bytes.Buffer
	if err := v.Save(&all); err != nil {
		t.Fatal(err)
	}
	return all.Bytes()
}
