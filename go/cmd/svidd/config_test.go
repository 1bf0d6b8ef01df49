package main

import (
	"os"
	"path/filepath"
	"strings"
	"testing"
)

// All that is wrong with a file of options is said at once, each with what is due: names that are none, with the nearest ones, and values of
// another type.
func TestAllThatIsWrongWithAFile(t *testing.T) {
	t.Parallel()
	folder := t.TempDir()
	for name, row := range map[string]struct {
		text string
		want []string
	}{
		"a.toml": {"audiens = [\"a\"]\nlongst = 60\nnothing-like-it = 1\naudience = 5\nreplicas = true\nrsa-bits = 2.5\nlog = [\"all\"]\nahead = false\nlisten = 9901\nbundle = [7]\nallow = []\n", []string{
			"ahead = false: it is to be a time, as \"1h\", or a whole number of seconds", "allow is an empty list", "audience = 5: it is to be text, in quotes",
			`no option is named "audiens": did you mean --audience?`, "bundle = 7: it is to be text, in quotes",
			"listen = 9901: it is to be text, in quotes", "log has one value, not a list", `no option is named "longst": did you mean --longest?`,
			`no option is named "nothing-like-it"`, "replicas = true: it is to be a whole number", "rsa-bits = 2.5: it is to be a whole number",
		}},
		"b.json": {`{"audience": 5, "longest": "soon", "wait": {}, "replicas": "3", "audience ": 1}`, []string{
			"audience = 5: it is to be text, in quotes", `no option is named "audience ": did you mean --audience?`, `longest = "soon": is no time`, "wait = {}: it is to be a time",
		}},
	} {
		name = filepath.Join(folder, name)
		must(t, os.WriteFile(name, []byte(row.text), 0o600))
		status, out, err := here("", "serve", "--check-config", "--config", name)
		lines := strings.Split(strings.TrimSuffix(err, "\n"), "\n")
		if status != 2 || out != "" || len(lines) != len(row.want) {
			t.Errorf("%s: %d %q, and %d lines:\n%s", name, status, out, len(lines), err)
			continue
		}
		for i, want := range row.want {
			if !strings.HasPrefix(lines[i], "svidd: "+name+": "+want) {
				t.Errorf("%q, and %q is due", lines[i], want)
			}
		}
	}
	good := filepath.Join(folder, "good.toml")
	must(t, os.WriteFile(good, []byte("audience = \"a\"\nlongest = 60\nwait = \"2s\"\nrsa-bits = \"4096\"\nreplicas = 1\nreplay = \"reuse\"\nbundle = \""+
		"example.org="+bundleFile(t, example)+"\"\n"), 0o600))
	if status, out, err := here("", "serve", "--check-config", "--config", good); status != 0 || out != "svidd: the options are good\n" {
		t.Errorf("a good file: %d %q %q", status, out, err)
	}
}
