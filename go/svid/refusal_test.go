package svid_test

import (
	"strings"
	"testing"

	"svid.example/go/v3/svid"
)

// Each refusal has a sentence of its own, for people.
func TestSentences(t *testing.T) {
	seen := map[string]svid.Refusal{}
	for _, refusal := range svid.Refusals() {
		sentence := refusal.Sentence()
		if other, twice := seen[sentence]; twice || !strings.HasSuffix(sentence, ".") {
			t.Errorf("%v says %q, and %v the same", refusal, sentence, other)
		}
		seen[sentence] = refusal
	}
	if got := svid.Withdrawn.Sentence(); len(seen) != len(svid.Refusals()) || got != "The token was withdrawn." {
		t.Errorf("%d sentences, and that of Withdrawn is %q", len(seen), got)
	}
	if got := svid.Refusal(1).Sentence(); got != "No refusal has this number." {
		t.Errorf("no refusal says %q", got)
	}
}
