package redis

import (
	"encoding/binary"
	"fmt"
	"math"
	"strconv"
	"strings"
	"testing"

	"svid.example/go/v3/claims"
	"svid.example/go/v3/claims/claimstest"
)

func withdrawal() claims.Withdrawal {
	return claims.Withdrawal{Key: claimstest.Key(), Expires: claimstest.Now() + 3000}
}

// same looks that two lists have the same withdrawals, in their order. (One that was tried again may stand there again.)
func same(t *testing.T, got, want []claims.Withdrawal) {
	t.Helper()
	var once []claims.Withdrawal
	for _, w := range got {
		if !contains(once, w) {
			once = append(once, w)
		}
	}
	if fmt.Sprint(once) != fmt.Sprint(want) {
		t.Errorf("%d withdrawals, and not %d", len(got), len(want))
	}
}

// A list that has taken withdrawals for long enough is followed by another one, and the server removes it by its age.
func TestListsHaveAnAge(t *testing.T) {
	t.Parallel()
	s := start(t)
	o := Options{URLs: []string{s.URL}}
	a, b := opened(t, o), opened(t, o)
	var due []claims.Withdrawal
	position := ""
	for n := 0; n < 4; n++ {
		for i := 0; i < 3; i++ {
			w := withdrawal()
			claimstest.Withdraw(t, a, w)
			due = append(due, w)
		}
		more, last := claimstest.Withdrawals(t, b, position)
		same(t, more, due[len(due)-3:])
		position = last
		age(t, s)
		claimstest.State(t, a)
		claimstest.State(t, a) // (a list that has nothing is not followed by another one)
		r, _ := readRecord(recordOf(t, s))
		if r.list != uint64(n+2) || r.since < claimstest.Now()-60 {
			t.Fatalf("%+v", r)
		}
		most := int64(claimstest.Usual.Lasts + claimstest.Usual.Margin + claimstest.Usual.Back + 3010)
		ttl, _ := strconv.ParseInt(strings.TrimPrefix(s.do(t, "TTL", fmt.Sprint("svid:{svid}:withdrawn:", n+1)), ":"), 10, 64)
		if ttl > most || ttl < int64(claimstest.Usual.Lasts+claimstest.Usual.Margin) {
			t.Errorf("list %d goes in %d s", n+1, ttl)
		}
	}
	all, _ := claimstest.Withdrawals(t, b, "")
	same(t, all, due)
	s.do(t, "DEL", "svid:{svid}:withdrawn:1") // (as if its time had come)
	all, _ = claimstest.Withdrawals(t, b, "")
	same(t, all, due[3:])
	// Who had read a part of it goes on with the next one.
	more, _ := claimstest.Withdrawals(t, b, fmt.Sprintf("%s/1/48", claimstest.State(t, a).Epoch))
	same(t, more, due[3:])
	// A member that does not know yet of the next list writes to the one before, and then to that one too.
	claimstest.Withdraw(t, a, withdrawal())
	age(t, s)
	claimstest.State(t, a)
	_, position = claimstest.Withdrawals(t, a, position)
	w := withdrawal()
	claimstest.Withdraw(t, b, w)
	more, _ = claimstest.Withdrawals(t, a, position)
	if !contains(more, w) {
		t.Errorf("%v, and not %v", more, w)
	}
	// More than one call returns, in lists that others follow.
	r, _ := readRecord(recordOf(t, s))
	position, due = fmt.Sprintf("%s/%d/0", r.id, r.list+1), nil
	for n := 0; n < 2; n++ {
		var text strings.Builder
		for range [claims.MostWithdrawals * 2 / 3]struct{}{} {
			due = append(due, withdrawal())
			text.Write(withdrawalText(due[len(due)-1]))
		}
		r.list++
		s.do(t, "SET", fmt.Sprint("svid:{svid}:withdrawn:", r.list), text.String())
	}
	r.list++
	s.do(t, "SET", "svid:{svid}:epoch", r.text())
	more, _ = claimstest.Withdrawals(t, b, position)
	same(t, more, due)
}

func contains(all []claims.Withdrawal, w claims.Withdrawal) bool {
	for _, one := range all {
		if one == w {
			return true
		}
	}
	return false
}

// age lets the list of now be old enough to be followed by another one.
func age(t *testing.T, s *machine) {
	t.Helper()
	r, ok := readRecord(recordOf(t, s))
	if !ok {
		t.Fatal("no record")
	}
	r.since -= (r.terms.Lasts+r.terms.Margin)/listShare + 2
	s.do(t, "SET", "svid:{svid}:epoch", r.text())
}

// Bytes that are no withdrawals hide none, however many they are.
func TestGarbageInAList(t *testing.T) {
	t.Parallel()
	s := start(t)
	a := opened(t, Options{URLs: []string{s.URL}})
	const list = "svid:{svid}:withdrawn:1"
	// The last bytes of these are the first ones of whatever follows them.
	endsIn := func(text string) claims.Withdrawal {
		w := withdrawal()
		for n := uint64(0); ; n++ {
			binary.BigEndian.PutUint64(w.Key[16:], n)
			if strings.HasSuffix(string(withdrawalText(w)), text) {
				return w
			}
		}
	}
	var due []claims.Withdrawal
	position := ""
	for _, garbage := range []string{"", "x", "svw1", strings.Repeat("svw1", 11), strings.Repeat("x", 47), strings.Repeat("y", 200_000),
		string(withdrawalText(endsIn("\x00"))[:47])} {
		s.do(t, "APPEND", list, garbage)
		w := withdrawal()
		claimstest.Withdraw(t, a, w)
		due = append(due, w)
		more, last := claimstest.Withdrawals(t, a, position)
		same(t, more, []claims.Withdrawal{w})
		position = last
	}
	all, _ := claimstest.Withdrawals(t, a, "")
	same(t, all, due)
	for _, rest := range []string{"s", "sv"} { // (what is cut off here is whole by the next one)
		cut := endsIn(rest)
		s.do(t, "APPEND", list, strings.TrimSuffix(string(withdrawalText(cut)), rest))
		w := withdrawal()
		claimstest.Withdraw(t, a, w)
		due = append(due, cut, w)
	}
	all, _ = claimstest.Withdrawals(t, a, "")
	same(t, all, due)
	s.do(t, "APPEND", list, strings.Repeat("z", mostPages*claims.MostWithdrawals*withdrawalLength+1)) // (one call does not read so much)
	behind := withdrawal()
	claimstest.Withdraw(t, a, behind)
	due = append(due, behind)
	all, _ = claimstest.Withdrawals(t, a, "")
	same(t, all, due)
	bad := withdrawalText(withdrawal())
	bad[20]++
	s.do(t, "APPEND", list, string(bad))
	all, _ = claimstest.Withdrawals(t, a, "")
	same(t, all, due)
	far := withdrawal()
	for _, far.Expires = range []uint64{claimstest.Now() + claimstest.Usual.Lasts + claimstest.Usual.Back + 3600, 1 << 62, math.MaxUint64} {
		s.do(t, "APPEND", list, string(withdrawalText(far))) // (nobody would ever forget it)
	}
	all, _ = claimstest.Withdrawals(t, a, "")
	same(t, all, due)
	s.do(t, "SET", list, string(withdrawalText(due[0]))) // (who had read more reads all again)
	more, _ := claimstest.Withdrawals(t, a, position)
	same(t, more, due[:1])
	// As many in a page as fit, and more than a call returns.
	var text strings.Builder
	due = nil
	for len(due) < claims.MostWithdrawals+100 {
		due = append(due, endsIn("s"))
		text.Write(withdrawalText(due[len(due)-1])[:47])
	}
	s.do(t, "SET", list, text.String()+"s")
	s.do(t, "CONFIG", "RESETSTAT")
	all, _ = claimstest.Withdrawals(t, a, "")
	same(t, all, due)
	reads := s.do(t, "EVAL", "return tonumber(redis.call('INFO', 'commandstats'):match('cmdstat_getrange:calls=(%d+)'))", "0")
	if n, err := strconv.Atoi(strings.TrimPrefix(reads, ":")); err != nil || n > 20 {
		t.Errorf("%s reads of %d withdrawals, %v", reads, len(due), err)
	}
}

// An epoch that another member names has an ID of digits, whatever that member writes: it stands in positions, logs and metrics.
func TestNoTextIsAnID(t *testing.T) {
	id, err := newID()
	if err != nil {
		t.Fatal(err)
	}
	for _, row := range []struct {
		id string
		ok bool
	}{{id, true}, {id[1:], false}, {id[1:] + "/", false}, {id[1:] + "\n", false}, {"\x1b]0;" + id[4:], false}} {
		r := record{id: row.id}
		if _, ok := readRecord(r.text()); ok != row.ok {
			t.Errorf("%q: %v", row.id, ok)
		}
	}
}
