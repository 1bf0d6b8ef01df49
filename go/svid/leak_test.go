package svid_test

import (
	"fmt"
	"os"
	"strings"
	"testing"

	"svid.example/go/v3/svid"
)

// Bundles that are replaced leave no memory behind.
func TestARenewalLeavesNothing(t *testing.T) {
	resident := func() (bytes int) {
		t.Helper()
		text, err := os.ReadFile("/proc/self/statm")
		if err != nil {
			t.Fatal(err)
		}
		var all, pages int
		if _, err := fmt.Sscan(string(text), &all, &pages); err != nil {
			t.Fatal(err)
		}
		return pages * os.Getpagesize()
	}
	var keys []string
	for i := 0; i < 10; i++ {
		keys = append(keys, fmt.Sprintf(`{"kty":"EC","use":"jwt-svid","kid":"%d","note":"%s"}`, i, strings.Repeat("a", 60_000)))
	}
	large := []byte(`{"example.org":{"keys":[` + strings.Join(keys, ",") + `]}}`)
	v := open(t, 1)
	renew := func(times int) {
		t.Helper()
		for i := 0; i < times; i++ {
			if err := v.SetBundles(large); err != nil {
				t.Fatal(err)
			}
		}
	}
	renew(5)
	const times, most = 60, 15 << 20 // a renewal that kept the old ones would take 600 kB
	before := resident()
	renew(times)
	if grown := resident() - before; grown > most {
		t.Errorf("%d renewals take %d bytes", times, grown)
	}
	if _, err := v.Judge(moment, "a.b.c", nil); err != svid.HeaderSpelling && err != svid.HeaderNotObject {
		t.Error(err)
	}
}
