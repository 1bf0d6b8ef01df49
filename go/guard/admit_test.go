package guard

import (
	"context"
	"testing"

	"svid.example/go/v3/svid"
)

// Other audiences and callers count at once; what can't be meant changes nothing; and what was accepted stays used.
func TestAdmit(t *testing.T) {
	g := open(t, usual(t))
	check := func(token string) error {
		_, err := g.Check(context.Background(), token)
		return err
	}
	used := token("a")
	if err := check(used); err != nil {
		t.Fatal(err)
	}
	for _, wrong := range [][2][]string{{nil, nil}, {{""}, nil}, {{"ledger"}, {"nobody"}}, {{"ledger"}, {}}} {
		if err := g.Admit(wrong[0], wrong[1]); err == nil {
			t.Errorf("%q is good", wrong)
		}
	}
	if err := check(token("b")); err != nil {
		t.Errorf("after what changes nothing: %v", err)
	}
	if err := g.Admit([]string{"other"}, nil); err != nil {
		t.Fatal(err)
	}
	if err := check(token("c")); err != svid.NotAudience {
		t.Errorf("the audience of before: %v", err)
	}
	if err := g.Admit([]string{"ledger"}, []string{"spiffe://example.org/job"}); err != nil {
		t.Fatal(err)
	}
	if err := check(token("d")); err != ErrNotAllowed {
		t.Errorf("a caller of before: %v", err)
	}
	if err := g.Admit([]string{"ledger"}, nil); err != nil {
		t.Fatal(err)
	}
	if err := check(used); err != svid.Replayed {
		t.Errorf("a used token: %v", err)
	}
}
