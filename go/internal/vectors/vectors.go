// Package vectors reads the files of the folder tests/vectors/, which the tests of every language read.
//
// The files are outside of the module, so `go test` does not see that one has changed: run it with -count=1.
package vectors

import (
	"encoding/hex"
	"encoding/json"
	"os"
	"path/filepath"
	"strings"
	"testing"
)

// Each vector has these.
type Each struct {
	Name    string `json:"name"`
	Readers string `json:"readers"`
}

func (e Each) each() Each { return e }

// Read reads a file into file, which has what stands beside the vectors, and returns the vectors that are for Go. There are
// as many as the file says.
func Read[Vector interface{ each() Each }](t testing.TB, name string, file any) []Vector {
	t.Helper()
	text, err := os.ReadFile(filepath.Join(folder(t), name+".json"))
	if err != nil {
		t.Fatal(err)
	}
	var all struct {
		Counts  map[string]int `json:"counts"`
		Vectors []Vector       `json:"vectors"`
	}
	if err := json.Unmarshal(text, &all); err != nil {
		t.Fatal(err)
	}
	if file != nil {
		if err := json.Unmarshal(text, file); err != nil {
			t.Fatal(err)
		}
	}
	var mine []Vector
	for _, v := range all.Vectors {
		for _, reader := range strings.Fields(v.each().Readers) {
			if reader == "go" {
				mine = append(mine, v)
			}
		}
	}
	if len(mine) != all.Counts["go"] || len(mine) == 0 {
		t.Fatalf("%s: %d vectors are for Go, and not %d", name, len(mine), all.Counts["go"])
	}
	return mine
}

// folder is the folder tests/vectors/. It stands beside the module, and `go test` runs a test in the folder of its package. (A program that
// was compiled with -trimpath does not know where its sources are.)
func folder(t testing.TB) string {
	t.Helper()
	here, err := os.Getwd()
	if err != nil {
		t.Fatal(err)
	}
	for module := here; module != filepath.Dir(module); module = filepath.Dir(module) {
		if _, err := os.Stat(filepath.Join(module, "go.mod")); err == nil {
			return filepath.Join(filepath.Dir(module), "tests", "vectors")
		}
	}
	t.Fatalf("no folder above %s has a go.mod", here)
	return ""
}

// Bytes are bytes that stand in a file as hexadecimal digits.
type Bytes []byte

// UnmarshalJSON reads them.
func (b *Bytes) UnmarshalJSON(text []byte) error {
	var digits string
	if err := json.Unmarshal(text, &digits); err != nil {
		return err
	}
	var err error
	*b, err = hex.DecodeString(digits)
	return err
}
