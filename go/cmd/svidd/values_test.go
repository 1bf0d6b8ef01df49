package main

import (
	"os"
	"path/filepath"
	"strings"
	"testing"
	"time"
)

// A time is a time at each option, and in the file and the environment too.
func TestTimesOfOptions(t *testing.T) {
	for _, row := range []struct {
		text string
		want time.Duration
		bad  string
	}{
		{"1h", time.Hour, ""}, {"30s", 30 * time.Second, ""}, {"1h30m", 90 * time.Minute, ""}, {"250ms", 250 * time.Millisecond, ""},
		{"3600", time.Hour, ""}, {"0", 0, ""}, {"0s", 0, ""}, {"1.5h", 90 * time.Minute, ""},
		{"", 0, "is no time"}, {"1 h", 0, "is no time"}, {"an hour", 0, "is no time"}, {"-1s", 0, "is no time"}, {"-1", 0, "is no time"}, {"1d", 0, "is no time"},
		{"1.5", 0, "is no time"}, {"18446744073709551615", 0, "is too long"}, {"9223372037", 0, "is too long"}, {"18446744073709551616", 0, "is no time"},
	} {
		got, err := parseTime(row.text)
		if got != row.want || (err != nil) != (row.bad != "") || err != nil && !strings.Contains(err.Error(), row.bad) {
			t.Errorf("%q: %v, %v", row.text, got, err)
		}
	}
	bundle := bundleOption(bundleFile(t, example))
	config := filepath.Join(t.TempDir(), "svidd.toml")
	for _, row := range []struct {
		args   []string
		file   string
		status int
		want   string
	}{
		{[]string{"--longest=1h", "--ahead=10s", "--wait=3", "--summaries=1m", "--drain=5"}, "", 0, "good"},
		{nil, "longest = \"1h\"\nahead = 10\nwait = \"3s\"\nsummaries = 60\ndrain = 5\n", 0, "good"},
		{[]string{"--longest=500ms"}, "", 2, "--longest: \"500ms\" is no whole number of seconds"},
		{[]string{"--longest=soon"}, "", 2, "--longest: \"soon\" is no time: write it as 1h, 30s"},
		{[]string{"--wait=soon"}, "longest = 1", 2, "--wait: \"soon\" is no time: write it as 1h, 30s"},
		{nil, "longest = \"soon\"", 2, "longest = \"soon\": is no time: write it as 1h, 30s"},
		{[]string{"--longest=36500d"}, "", 2, "is no time"},
		{[]string{"--longest=876001h"}, "", 2, "--longest must be from 1 to 3153600000 seconds"},
	} {
		if err := os.WriteFile(config, []byte(row.file), 0o600); err != nil {
			t.Fatal(err)
		}
		args := append([]string{"serve", "--check-config", "--audience=a", "--replay=reuse", "--config=" + config, bundle}, row.args...)
		if status, out, err := here("", args...); status != row.status || !strings.Contains(out+err, row.want) || strings.Count(out+err, "\n") != 1 {
			t.Errorf("%q %q: %d %q %q", row.args, row.file, status, out, err)
		}
	}
	t.Setenv("SVIDD_LONGEST", "2h")
	if status, out, err := here("", "serve", "--check-config", "--audience=a", "--replay=reuse", bundle); status != 0 {
		t.Errorf("the environment: %d %q %q", status, out, err)
	}
	// A moment is none.
	if _, _, err := here("", "withdraw", "--admin=a", "--key="+strings.Repeat("0", 64), "--exp=1h"); err != "svidd: --exp: \"1h\" is no moment: write it as seconds since 1970\n" {
		t.Errorf("a moment: %q", err)
	}
}

// What is wrong with the words of a command line is one line, and the nearest option or command stands in it.
func TestAMistypedOption(t *testing.T) {
	t.Parallel()
	for _, row := range []struct {
		args []string
		want string
	}{
		{[]string{"serve", "--audiance", "a"}, "no option is named --audiance: did you mean --audience? 'svidd serve --help' lists them"},
		{[]string{"serve", "--longets=1"}, "no option is named --longets: did you mean --longest? 'svidd serve --help' lists them"},
		{[]string{"serve", "--work=a"}, "no option is named --work: did you mean --workload-api? 'svidd serve --help' lists them"},
		{[]string{"serve", "--nats_ca=a"}, "no option is named --nats_ca: did you mean --nats-ca? 'svidd serve --help' lists them"},
		{[]string{"serve", "--bundels=a"}, "no option is named --bundels: did you mean --bundles? 'svidd serve --help' lists them"},
		{[]string{"serve", "--workload-iapi=a"}, "no option is named --workload-iapi: did you mean --workload-api? 'svidd serve --help' lists them"},
		{[]string{"serve", "--workload-address=a"}, "no option is named --workload-address: did you mean --workload-api? 'svidd serve --help' lists them"},
		{[]string{"serve", "--flavour"}, "no option is named --flavour. 'svidd serve --help' lists them"},
		{[]string{"serve", "--audience"}, "--audience wants a value. 'svidd serve --help' says which"},
		{[]string{"serve", "--replicas=many"}, "--replicas: \"many\" parse error"},
		{[]string{"serve", "--check-config=maybe"}, "--check-config: \"maybe\" is neither true nor false"},
		{[]string{"serve", "---"}, "bad flag syntax: ---"},
		{[]string{"serve", "audience", "a"}, "serve takes no argument, and got \"audience\": did you mean --audience?"},
		{[]string{"verify", "--bundel=a"}, "no option is named --bundel: did you mean --bundle? 'svidd verify --help' lists them"},
		{[]string{"withdraw", "--amdin=a"}, "no option is named --amdin: did you mean --admin? 'svidd withdraw --help' lists them"},
		{[]string{"schema", "--roll=a"}, "no option is named --roll: did you mean --role? 'svidd schema --help' lists them"},
		{[]string{"check-state", t.TempDir(), "--message"}, "no option is named --message: did you mean --messages? 'svidd check-state --help' lists them"},
		{[]string{"sreve"}, "no command is named \"sreve\": did you mean serve?"},
		{[]string{"check"}, "no command is named \"check\": did you mean check-state?"},
	} {
		if status, out, err := here("", row.args...); status != 2 || out != "" || err != "svidd: "+row.want+"\n" {
			t.Errorf("%q: %d %q %q", row.args, status, out, err)
		}
	}
	config := filepath.Join(t.TempDir(), "svidd.toml")
	if err := os.WriteFile(config, []byte("audiences = [\"a\"]\n"), 0o600); err != nil {
		t.Fatal(err)
	}
	if _, _, err := here("", "serve", "--config", config); err != "svidd: "+config+": no option is named \"audiences\": did you mean --audience?\n" {
		t.Errorf("the file: %q", err)
	}
	// A command that is no word of anything gets the synopsis, and --help all options.
	if status, _, err := here("", "xyzzy"); status != 2 || !strings.Contains(err, "svidd serve") {
		t.Errorf("%d %q", status, err)
	}
	if status, out, err := here("", "serve", "--help"); status != 0 || !strings.Contains(out, "--audience NAME") || !strings.Contains(out, "--drain TIME") || err != "" {
		t.Errorf("--help: %d %q %q", status, out, err)
	}
}
