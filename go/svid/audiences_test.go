//go:build cgo

package svid_test

import (
	"bytes"
	"encoding/binary"
	"errors"
	"fmt"
	"testing"

	"svid.example/go/v3/internal/scarce"
	"svid.example/go/v3/svid"
)

// Other audiences count at once, and the record stays: a token that was used is refused, and a verdict of before counts no more.
func TestAudiencesAreReplaced(t *testing.T) {
	v, k := open(t, 1), keyring(t, example.Bundles())
	of := func(audience, id string) string {
		c := claims(id)
		c["aud"] = audience
		return example.Token("ES256", c)
	}
	used := of("ledger", "a")
	_, err := v.Accept(k, moment, used)
	if err != nil {
		t.Fatal(err)
	}
	withdrawn := of("audit", "w")
	judged, err := v.Judge(moment, withdrawn, verified(t, k, withdrawn))
	if err != nil {
		t.Fatal(err)
	}
	if _, err := v.Withdraw(moment, judged.Use.Key, judged.Use.Expires); err != nil {
		t.Fatal(err)
	}
	before := save(t, v)
	if err := v.SetAudiences([]string{"other", "audit"}); err != nil {
		t.Fatal(err)
	}
	if fmt.Sprintf("%x", save(t, v)) != fmt.Sprintf("%x", before) {
		t.Error("the record is another one")
	}
	for _, row := range []struct {
		token string
		want  error
	}{
		{of("ledger", "b"), svid.NotAudience}, {of("other", "c"), nil}, {of("audit", "d"), nil}, {withdrawn, svid.Withdrawn},
	} {
		if err := refuse(v, k, row.token); err != row.want {
			t.Errorf("%v, want %v", err, row.want)
		}
	}
	if err := v.SetBundles(example.Bundles()); err != nil { // as a renewal would
		t.Fatal(err)
	}
	if err := v.SetAudiences([]string{"ledger"}); err != nil {
		t.Fatal(err)
	}
	if err := refuse(v, k, used); err != svid.Replayed {
		t.Errorf("the used token: %v", err)
	}
	if edition := v.Edition(); edition != 4 {
		t.Errorf("edition %d", edition)
	}
}

// The bundles that count stay, whenever they came.
func TestAudiencesKeepTheBundles(t *testing.T) {
	v, k := open(t, 1), keyring(t, example.Bundles())
	if err := v.SetBundles([]byte(`{"example.com":{"keys":[]}}`)); err != nil {
		t.Fatal(err)
	}
	if err := v.SetAudiences([]string{"ledger"}); err != nil {
		t.Fatal(err)
	}
	if err := refuse(v, k, example.Token("ES256", claims("a"))); err != svid.UnknownDomain {
		t.Errorf("a token of the bundles of before: %v", err)
	}
}

// A validator of a log reads on where it was: within a value, after a gap, with claims beside its record, and accepts nothing that
// an earlier life may have read.
func TestAudiencesKeepTheLog(t *testing.T) {
	values := [][]svid.Use{
		{claim(1, 1, moment), claim(1, 2, moment), claim(2, 1, moment)},
		{claim(3, 2, moment+100), claim(4, 1, moment), claim(4, 1, moment), claim(5, 1, moment)},
		{claim(3, 1, moment), claim(6, 1, moment)},
	}
	for _, ready := range []uint64{0, 2, 3} {
		for _, gap := range []uint64{0, 1} {
			read := func(renews bool) (all string) {
				v := open(t, 1)
				if err := v.OpenLog(svid.Log{Ready: ready, Lasts: lasts}); err != nil {
					t.Fatal(err)
				}
				out := make([]svid.LogUse, 1)
				for i, uses := range values {
					for rest := svid.RestNoRoom; rest != svid.RestNothing; {
						if renews {
							if err := v.SetAudiences([]string{"other"}); err != nil {
								t.Fatal(err)
							}
						}
						position := uint64(i + 1)
						if i > 0 {
							position += gap
						}
						reading, err := v.Read(moment, position, batchesOf(uses), v.Edition(), out)
						if err != nil {
							t.Fatal(err)
						}
						all += fmt.Sprintf("%+v %v\n", reading, out[:reading.Count])
						rest = reading.Rest
					}
					mark, accepts, err := v.LogMark()
					beside, besideErr := v.LogBeside()
					all += fmt.Sprintf("%+v %v %v %x %v %x\n", mark, accepts, err, beside, besideErr, save(t, v))
				}
				return all
			}
			if with, without := read(true), read(false); with != without {
				t.Errorf("ready %d, gap %d:\n%s\n%s", ready, gap, with, without)
			}
		}
	}
}

// A renewing writer lets other audiences count between two pieces of a record.
type renewing struct {
	v     *svid.Validator
	whole []byte
	times int
}

func (r *renewing) Write(piece []byte) (int, error) {
	r.whole = append(r.whole, piece...)
	r.times++
	return len(piece), r.v.SetAudiences([]string{fmt.Sprint(r.times)})
}

// A record that is being written goes on as it was, with each use of it: else a snapshot would forget some.
func TestAudiencesChangeWhileARecordIsWritten(t *testing.T) {
	v := open(t, 1)
	const n = 3*4096 + 7
	for i := 0; i < n; i += 2 { // (in an order that is none of the record's)
		one, two := claim(0, byte(i%5), moment-uint64(i%11)), claim(1, 2, moment-uint64(i%7))
		binary.BigEndian.PutUint32(one.Key[2:], uint32(i)*2654435761)
		binary.BigEndian.PutUint32(two.Key[2:], uint32(n-i))
		one.Expires += uint64(i % 13)
		if err := v.Take(moment, batchesOf([]svid.Use{one, two})); err != nil {
			t.Fatal(err)
		}
	}
	before := save(t, v)
	w := &renewing{v: v}
	if err := v.Save(w); err != nil || w.times < 4 {
		t.Fatalf("%d pieces: %v", w.times, err)
	}
	if !bytes.Equal(w.whole, before) || !bytes.Equal(save(t, v), before) {
		t.Error("the record is another one")
	}
	if size, err := v.Size(); err != nil || size.Uses != n+1 || size.Moment != moment {
		t.Errorf("%+v %v", size, err)
	}
}

// What goes wrong changes nothing: neither the audiences, nor the record, nor the log.
func TestAudiencesThatCannotBeReplaced(t *testing.T) {
	for _, reads := range []bool{false, true} {
		v, k := open(t, 1), keyring(t, example.Bundles())
		if err := refuse(v, k, example.Token("ES256", claims("used"))); err != nil {
			t.Fatal(err)
		}
		if reads {
			readAll(t, logOf(t, v), moment, 1, batchesOf([]svid.Use{claim(1, 2, moment), claim(1, 1, moment)}), 9)
		}
		state := func() string {
			mark, accepts, err := v.LogMark()
			beside, _ := v.LogBeside()
			return fmt.Sprintf("%d %+v %v %v %x %x", v.Edition(), mark, accepts, err, beside, save(t, v))
		}
		before := state()
		for _, wrong := range [][]string{{""}, {"a\nb"}} {
			if err := v.SetAudiences(wrong); !errors.Is(err, svid.ErrAudience) || state() != before {
				t.Errorf("%q: %v", wrong, err)
			}
		}
		for _, all := range []bool{false, true} {
			for n := 0; ; n++ {
				var err error
				if scarce.During(n, all, func() { err = v.SetAudiences([]string{"other"}) }) == 0 {
					if err != nil || n < 10 {
						t.Errorf("no memory is refused at %d, and %v", n, err)
					}
					break
				}
				token := example.Token("ES256", claims(fmt.Sprint(n, all)))
				if _, judged := v.Judge(moment, token, verified(t, k, token)); err != svid.ErrNoMemory || state() != before || judged != nil {
					t.Fatalf("allocation %d, all after it %v: %v, and a token: %v", n, all, err, judged)
				}
			}
			if err := v.SetAudiences([]string{"ledger", "audit"}); err != nil {
				t.Fatal(err)
			}
			before = state()
		}
	}
	v := open(t, 1)
	v.Close()
	if err := v.SetAudiences([]string{"other"}); err != svid.ErrClosed {
		t.Errorf("closed: %v", err)
	}
}
