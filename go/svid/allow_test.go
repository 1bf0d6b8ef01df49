package svid_test

import (
	"errors"
	"fmt"
	"strings"
	"testing"

	"svid.example/go/v3/svid"
)

func TestAllows(t *testing.T) {
	for _, row := range []struct {
		pattern, id string
		want        bool
	}{
		{"spiffe://example.org/billing/api", "spiffe://example.org/billing/api", true},
		{"spiffe://example.org/billing/api", "spiffe://example.org/billing/api/v1", false},
		{"spiffe://example.org/billing/*", "spiffe://example.org/billing/api", true},
		{"spiffe://example.org/billing/*", "spiffe://example.org/billing/api/v1", true},
		{"spiffe://example.org/billing/*", "spiffe://example.org/billing", false},
		{"spiffe://example.org/billing/*", "spiffe://example.org/billingx/api", false},
		{"spiffe://example.org/*", "spiffe://example.org/a", true},
		{"spiffe://example.org/*", "spiffe://example.org", false},
		{"spiffe://example.org", "spiffe://example.org", true},
		{"spiffe://example.org", "spiffe://example.org/a/b", true},
		{"spiffe://example.org", "spiffe://example.org.evil/a", false},
	} {
		if got, err := svid.Allows(row.pattern, row.id); got != row.want || err != nil {
			t.Errorf("%s of %s: %v, %v", row.pattern, row.id, got, err)
		}
	}
	for pattern, offset := range map[string]int{
		"": 0, "example.org": 0, "spiffe://": 0, "spiffe://Example.org/*": 9, "spiffe://example.org/*/a": 21, "spiffe://example.org/a*": 22,
		"spiffe://example.org//*": 21, "spiffe://example.org/" + strings.Repeat("a", 2048): 0,
	} {
		var fault *svid.PatternError
		if _, err := svid.Allows(pattern, "no ID"); !errors.As(err, &fault) || fault.Pattern != pattern || fault.Offset != offset {
			t.Errorf("%.40q: %v", pattern, err)
		}
		if err := svid.CheckPattern(pattern); !errors.As(err, &fault) {
			t.Errorf("%.40q: %v", pattern, err)
		}
	}
	if _, err := svid.Allows("spiffe://example.org", "no ID"); err == nil || errors.As(err, new(*svid.PatternError)) {
		t.Errorf("no ID: %v", err)
	}
	if err := svid.CheckPattern("spiffe://example.org/a/*"); err != nil {
		t.Error(err)
	}
}

func ExampleAllows() {
	fmt.Println(svid.Allows("spiffe://example.org/billing/*", "spiffe://example.org/billing/api"))
	// Output: true <nil>
}
