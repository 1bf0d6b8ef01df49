package postgres

import (
	"math/rand"
	"reflect"
	"testing"

	"svid.example/go/v3/claims"
)

// A member keeps few of its claims in mind, however many it puts: the last ones, and that which stays for longest. Each look asks for all of them.
func TestAFewMarksAreKept(t *testing.T) {
	const seed, last = 1, 10_000
	dice := rand.New(rand.NewSource(seed))
	for name, expires := range map[string]func(n uint64) uint64{
		"rising": func(n uint64) uint64 { return n }, "falling": func(n uint64) uint64 { return last - n }, "equal": func(uint64) uint64 { return 5 },
		"any": func(uint64) uint64 { return uint64(dice.Intn(last)) },
	} {
		var m marks
		latest := uint64(0)
		for n := uint64(1); n <= last; n++ {
			one := claims.Claim{Expires: expires(n)}
			one.Key[0], one.Key[1] = byte(n), byte(n>>8)
			m.add(one)
			if one.Expires > latest {
				latest = one.Expires
			}
			if len(m.all) > mostMarks {
				t.Fatalf("%s: behind %d claims %d are kept", name, n, len(m.all))
			}
			if m.all[len(m.all)-1] != one {
				t.Fatalf("%s: the last one of %d is not kept", name, n)
			}
		}
		longest := uint64(0)
		for _, one := range m.all {
			if one.Expires > longest {
				longest = one.Expires
			}
		}
		if longest != latest {
			t.Errorf("%s: the longest one that is kept stays until %d, and one until %d", name, longest, latest)
		}
		m.drop(latest+10, 10)
		if len(m.all) == 0 || m.all[0].Expires != latest {
			t.Errorf("%s: the longest one is dropped before the store may remove it", name)
		}
		m.drop(last+20, 10)
		if len(m.all) != 0 {
			t.Errorf("%s: %d are kept that are over", name, len(m.all))
		}
	}
}

// Of claims that earlier calls stored nobody knows the order. Each is kept once, until one that was stored later outlives it, and none takes the room of the
// last calls.
func TestEachClaimThatWasThereIsKept(t *testing.T) {
	var m marks
	expires := func() (all []uint64) {
		for _, one := range m.all {
			all = append(all, one.Expires)
		}
		return all
	}
	one := func(n uint64) claims.Claim { return claims.Claim{Key: [32]byte{byte(n), byte(n >> 8)}, Expires: n} }
	for n := uint64(1); n <= recent; n++ {
		m.add(one(10 + n))
	}
	for _, n := range []uint64{5, 300, 500, 400, 500, 18, 200} {
		m.found(one(n))
	}
	if want := []uint64{500, 400, 300, 200, 5, 11, 12, 13, 14, 15, 16, 17, 18}; !reflect.DeepEqual(expires(), want) {
		t.Errorf("%v, and not %v", expires(), want)
	}
	m.add(one(350))
	for n := uint64(0); n < recent; n++ {
		m.add(one(20 + n))
	}
	if want := []uint64{500, 400, 350, 20, 21, 22, 23, 24, 25, 26, 27}; !reflect.DeepEqual(expires(), want) {
		t.Errorf("%v, and not %v", expires(), want)
	}
	for n := uint64(1000); n < 1100; n++ {
		m.found(one(n))
	}
	if is := expires(); len(is) != mostMarks || is[0] != 1099 || is[mostMarks-recent] != 20 || is[mostMarks-1] != 27 {
		t.Errorf("%v", is)
	}
}

// Calls that are under way together may be answered in any order. Whichever was the last one at the server, it is kept.
func TestEachCallThatIsUnderWayMayBeTheLast(t *testing.T) {
	for at := 0; at < mostCalls; at++ {
		var m marks
		last := claims.Claim{Key: [32]byte{1}, Expires: 100}
		for n := 0; n < mostCalls; n++ {
			if n == at {
				m.add(last)
			} else {
				m.add(claims.Claim{Key: [32]byte{2, byte(n)}, Expires: 100})
			}
		}
		isKept := false
		for _, one := range m.all {
			isKept = isKept || one == last
		}
		if !isKept {
			t.Errorf("the last claim is not kept where %d answers of %d come after it", mostCalls-1-at, mostCalls)
		}
	}
}
