package goroutines

import (
	"os"
	"path/filepath"
	"strings"
	"testing"
)

// A statement is found wherever it stands, and nothing that only looks like one.
func TestStarted(t *testing.T) {
	const head = "package a\n\nfunc a(t *testing.T, go1 func(), x bool) {\n"
	for body, lines := range map[string][]int{
		"go a()":                               {4},
		"\tgo a()\n\tgo func() {}()":           {4, 5},
		"if x { go a() }":                      {4},
		"if x { a() } else { go a() }":         {4},
		"for range t { a(); go a() }":          {4},
		"again: go a()":                        {4},
		"func() { go a() }()":                  {4},
		"go\ta()":                              {4},
		"go func() { go a() }()":               {4, 4},
		"go (\na)()":                           {4},
		"switch { case x: go a() }":            {4},
		"select { case <-c: go a(); default:}": {4},
		"t.Parallel()":                         {4},
		"if x { t.Parallel() }":                {4},
		"b.RunParallel(nil)":                   {4},
		"go1()":                                nil,
		"// go a()":                            nil,
		"_ = `\n\tgo a()\n`":                   nil,
		"_ = \"if x { go a() }\"":              nil,
		"/*\ngo a()\n*/":                       nil,
		"a(t.Parallel, a)":                     nil,
	} {
		found, err := Started("a.go", head+body+"\n}\n")
		if err != nil || len(found) != len(lines) {
			t.Errorf("%q: %v %v", body, found, err)
			continue
		}
		for i, position := range found {
			if position.Line != lines[i] {
				t.Errorf("%q: %v, and line %d is due", body, position, lines[i])
			}
		}
	}
	if _, err := Started("a.go", head); err == nil {
		t.Error("a file that is cut off starts none")
	}
}

// No file of the packages that are tested without the race detector starts a goroutine, no test either, and on no system.
func TestPackagesWithoutTheRaceDetectorStartNone(t *testing.T) {
	const module = "../.."
	list, err := os.ReadFile(filepath.Join(module, "alone.txt"))
	if err != nil {
		t.Fatal(err)
	}
	for _, line := range strings.Split(strings.TrimSuffix(string(list), "\n"), "\n") {
		if strings.HasPrefix(line, "#") {
			continue
		}
		files, err := filepath.Glob(filepath.Join(module, line, "*.go"))
		if err != nil || len(files) == 0 || !strings.HasPrefix(line, "./") {
			t.Errorf("alone.txt: %q is no package: %v", line, err)
		}
		for _, file := range files {
			found, err := Started(file, nil)
			if err != nil {
				t.Error(err)
			}
			for _, position := range found {
				t.Errorf("%v: this wants the race detector: take %s out of go/alone.txt", position, line)
			}
		}
	}
}
