package svid_test

import (
	"os"
	"os/exec"
	"strings"
	"testing"
)

// Without cgo the build of the package, or of one that uses it, ends with one line that says what is missing.
func TestABuildWithoutCgo(t *testing.T) {
	for _, what := range []string{"./svid", "./cmd/svidd", "./..."} {
		build := exec.Command("go", "build", "-o", os.DevNull, what)
		build.Dir = ".."
		build.Env = append(os.Environ(), "CGO_ENABLED=0")
		said, err := build.CombinedOutput()
		lines := map[string]bool{}
		for _, line := range strings.Split(strings.TrimSpace(string(said)), "\n") {
			lines[line] = true // (for ./... there are two that are the same)
		}
		if err == nil || len(lines) != 1 || !strings.Contains(string(said), "build_it_with_CGO_ENABLED_1_and_a_C_compiler") {
			t.Errorf("%s: %v\n%s", what, err, said)
		}
	}
}
