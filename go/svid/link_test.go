package svid

import (
	"bytes"
	"crypto/sha256"
	"encoding/hex"
	"os"
	"testing"
)

// The header of this folder says the sum of the one that it includes. Go compiles this package again only if a file of this folder has changed.
func TestTheHeaderSaysTheSumOfTheOneThatItIncludes(t *testing.T) {
	included, err := os.ReadFile("../../packages/c/include/svid.h")
	if err != nil {
		t.Fatal(err)
	}
	header, err := os.ReadFile("svid.h")
	if err != nil {
		t.Fatal(err)
	}
	sum := sha256.Sum256(included)
	if due := hex.EncodeToString(sum[:]); !bytes.Contains(header, []byte(due+" */\n#include \"../../packages/c/include/svid.h\"\n")) {
		t.Errorf("write the sum of packages/c/include/svid.h into go/svid/svid.h: %s", due)
	}
}
