// Svidd is a sidecar that accepts and refuses SPIFFE JWT-SVIDs for a service.
//
//	svidd serve --audience ledger --bundle example.org=bundle.json --longest 3600 --state /var/lib/svidd
//
// answers GET /check with 200 for a bearer token that it accepts, and 401 for one
// that it refuses, so that nginx (auth_request) or Envoy (ext_authz) can ask it.
// docs/SIDECAR.md says the rest.
package main

import (
	"errors"
	"flag"
	"fmt"
	"io"
	"os"
	"regexp"
	"runtime"
	"sort"

	"svid.example/go/v3/internal/version"
	"svid.example/go/v3/svid"
)

// The exit statuses, which are those of the program svid.
const (
	exitYes     = 0
	exitRefused = 1 // a token was refused
	exitDamaged = 1 // a state folder is damaged
	exitFailed  = 2 // usage, a file, the network or memory
)

// commands by name. Each returns the exit status.
var commands = map[string]func(args []string, std stdio) int{
	"serve": serve, "verify": verify, "withdraw": withdraw, "report": report, "reload": reloadOf, "ready": ready,
	"check-state": checkState, "schema": schema, "dev": devServe, "mint": mint, "version": printVersion,
}

// stdio is what a command reads and writes.
type stdio struct {
	in       io.Reader
	out, err io.Writer
}

func main() {
	limitProcessors()
	os.Exit(run(os.Args[1:], stdio{os.Stdin, os.Stdout, os.Stderr}))
}

func run(args []string, std stdio) int {
	if len(args) == 0 {
		fmt.Fprint(std.err, usage)
		return exitFailed
	}
	switch args[0] {
	case "help", "--help", "-help", "-h":
		if len(args) == 1 {
			return show(std, usage)
		}
		args = []string{args[1], "--help"}
	case "--version", "-version":
		args = append([]string{"version"}, args[1:]...)
	}
	command := commands[args[0]]
	if command == nil {
		names := make([]string, 0, len(commands))
		for name := range commands {
			names = append(names, name)
		}
		sort.Strings(names)
		if near := nearest(args[0], names); near != "" {
			return fail(std, fmt.Errorf("no command is named %q: did you mean %s?", args[0], near))
		}
		fmt.Fprintf(std.err, "svidd: no command is named %.20q\n%s", args[0], usage)
		return exitFailed
	}
	return command(args[1:], std)
}

func printVersion(args []string, std stdio) int {
	f := flagsOf("version", func(*flag.FlagSet) {})
	if err := parseWords(f, args); err != nil {
		return fail(std, err)
	}
	if f.NArg() > 0 {
		return fail(std, fmt.Errorf("version takes no argument, and got %.20q", f.Arg(0)))
	}
	v := svid.Version()
	return show(std, fmt.Sprintf("svidd %s (libsvid %d.%d.%d, %s)\n", version.Number, v/10000, v/100%100, v%100, runtime.Version()))
}

// show prints what was asked for.
func show(std stdio, text string) int {
	if _, err := io.WriteString(std.out, text); err != nil {
		return fail(std, err)
	}
	return exitYes
}

// fail says on standard error what went wrong. Of a command line that asks for help it prints that.
func fail(std stdio, err error) int {
	var help *helpAsked
	if errors.As(err, &help) {
		return show(std, help.text())
	}
	var all problems
	if errors.As(err, &all) {
		return all.tell(std)
	}
	fmt.Fprintf(std.err, "svidd: %s\n", hideTokens(err.Error()))
	return exitFailed
}

// tokenText is a token (RFC 7515, section 3.1), whose header is a JSON object, as base64url: 20 bytes of it, and the rest.
var tokenText = regexp.MustCompile(`(e[wy][A-Za-z0-9_-]{18})[A-Za-z0-9_-]*\.[A-Za-z0-9_-]*\.[A-Za-z0-9_-]*`)

// hideTokens leaves 20 bytes of each token: one may stand where none is due, and who calls may keep what is printed.
func hideTokens(text string) string { return tokenText.ReplaceAllString(text, "$1..") }
