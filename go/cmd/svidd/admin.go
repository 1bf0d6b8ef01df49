package main

import (
	"bytes"
	"context"
	"encoding/json"
	"errors"
	"flag"
	"fmt"
	"io"
	"net"
	"net/http"
	"net/url"
	"os"
	"strconv"
	"strings"
	"syscall"
	"time"

	"svid.example/go/v3/guard"
	"svid.example/go/v3/internal/server"
	"svid.example/go/v3/svid"
)

// adminWait is how long the sidecar may take to answer on its admin socket.
const adminWait = time.Minute

// giveAdmin is what a command wants that asks a sidecar on its admin socket.
const giveAdmin = "--admin, the path that serve has as --admin, or --config, the file of serve that has it"

// addAdmin adds the options by which such a command finds the socket.
func addAdmin(f *flag.FlagSet, socket, config *string) {
	f.StringVar(socket, "admin", "", "")
	f.StringVar(config, "config", "", "")
}

// withdraw withdraws a token at a running sidecar, and in its group.
func withdraw(args []string, std stdio) int {
	var socket, config, key string
	var exp moment
	f := flagsOf("withdraw", func(f *flag.FlagSet) {
		addAdmin(f, &socket, &config)
		f.StringVar(&key, "key", "", "")
		f.Var(&exp, "exp", "")
	})
	if err := parse(f, &config, args); err != nil {
		return fail(std, err)
	}
	asked := server.Withdrawal{Token: f.Arg(0), Key: key, Exp: exp.value}
	if socket == "" || f.NArg() > 1 || (asked.Token == "") == (key == "") || (key != "") != exp.given {
		return fail(std, errors.New("withdraw wants "+giveAdmin+", and one of - (it reads the token from standard input), a TOKEN, or --key and --exp"))
	}
	if asked.Token == "-" {
		var err error
		if asked.Token, err = readToken(std); err != nil {
			return fail(std, err)
		}
		if asked.Token == "" {
			return fail(std, errNoToken)
		}
	}
	body, err := json.Marshal(asked)
	if err != nil {
		return fail(std, err)
	}
	answer, err := adminOf(socket).ask(http.MethodPost, "/withdraw", body)
	if err != nil {
		return fail(std, err)
	}
	var gone struct {
		Key     string
		Exp     uint64
		UsedBy  string `json:"used_by"`
		Warning string
	}
	if err := json.Unmarshal(answer, &gone); err != nil {
		return fail(std, err)
	}
	if gone.Warning != "" {
		fmt.Fprintf(std.err, "svidd: warning: %s\n", gone.Warning)
	}
	fmt.Fprintf(std.out, "withdrawn %s %d\n", gone.Key, gone.Exp)
	if gone.UsedBy != "" {
		fmt.Fprintf(std.out, "used by %s\n", gone.UsedBy)
	}
	return exitYes
}

// report prints the record of a running sidecar, as the program svid prints it.
func report(args []string, std stdio) int {
	var socket, config string
	var asJSON bool
	f := flagsOf("report", func(f *flag.FlagSet) {
		addAdmin(f, &socket, &config)
		f.BoolVar(&asJSON, "json", false, "")
	})
	if err := parse(f, &config, args); err != nil {
		return fail(std, err)
	}
	if f.NArg() > 0 {
		return fail(std, fmt.Errorf("report takes no argument, and got %.20q: give --admin, the path that serve has as --admin", f.Arg(0)))
	}
	if socket == "" {
		return fail(std, errors.New("report wants "+giveAdmin))
	}
	messages, err := adminOf(socket).ask(http.MethodGet, "/messages", nil)
	if err != nil {
		return fail(std, err)
	}
	text, err := svid.Report(messages)
	if err == nil && asJSON {
		text, err = reportInJSON(text)
	}
	if err != nil {
		return fail(std, err)
	}
	if _, err := io.WriteString(std.out, text); err != nil {
		return fail(std, err)
	}
	return exitYes
}

// reloadOf lets a running sidecar read its options and its bundles again, waits for that, and says what became of it.
func reloadOf(args []string, std stdio) int {
	var socket, config string
	f := flagsOf("reload", func(f *flag.FlagSet) { addAdmin(f, &socket, &config) })
	if err := parse(f, &config, args); err != nil {
		return fail(std, err)
	}
	if f.NArg() > 0 || socket == "" {
		return fail(std, errors.New("reload takes no argument, and wants "+giveAdmin))
	}
	answer, err := adminOf(socket).ask(http.MethodPost, "/reload", nil)
	if err != nil {
		return fail(std, err)
	}
	var done guard.Reloaded
	if err := json.Unmarshal(answer, &done); err != nil {
		return fail(std, err)
	}
	if len(done.Restart) > 0 {
		fmt.Fprintf(std.err, "svidd: warning: --%s counts only after a restart\n", strings.Join(done.Restart, ", --"))
	}
	said := "reloaded"
	if len(done.Changed) > 0 {
		said += ": other values of --" + strings.Join(done.Changed, ", --")
	}
	return show(std, said+"\n")
}

// ready says by its exit status whether a sidecar is ready: for a container's probe, which can't reach an address of
// loopback in another way.
func ready(args []string, std stdio) int {
	var at, config string
	f := flagsOf("ready", func(f *flag.FlagSet) {
		f.StringVar(&at, "listen", "", "")
		f.StringVar(&config, "config", "", "")
	})
	if err := parse(f, &config, args); err != nil {
		return fail(std, err)
	}
	if f.NArg() > 0 {
		return fail(std, fmt.Errorf("ready takes no argument, and got %.20q: give the address as --listen", f.Arg(0)))
	}
	var all problems
	if addressProblems(&all, "listen", at, optionOf("ready", "listen").initial); len(all) > 0 {
		return all.tell(std)
	}
	asked := peer{"tcp", at, "the address that serve has as --metrics, or as --listen where it has none"}
	if path := strings.TrimPrefix(at, "unix:"); path != at {
		asked.network, asked.address = "unix", path
	}
	text, err := asked.ask(http.MethodGet, "/readyz", nil)
	if err != nil {
		return fail(std, err)
	}
	fmt.Fprint(std.out, string(text))
	return exitYes
}

// A peer is a sidecar that a command asks.
type peer struct {
	network, address string
	give             string // what to give as its address, for errors
}

// adminOf is the sidecar of an admin socket.
func adminOf(socket string) peer { return peer{"unix", socket, "the path that serve has as --admin"} }

// ask makes a request, and returns the body of a good answer. Its errors say what was asked, and what to do.
func (p peer) ask(method, path string, body []byte) ([]byte, error) {
	if p.network == "unix" && len(p.address) > mostSocket {
		return nil, fmt.Errorf("%s is too long: the path of a unix socket has at most %d bytes. Give %s", p.address, mostSocket, p.give)
	}
	client := http.Client{Timeout: adminWait, Transport: &http.Transport{
		DialContext: func(ctx context.Context, _, _ string) (net.Conn, error) {
			return new(net.Dialer).DialContext(ctx, p.network, p.address)
		},
	}}
	request, err := http.NewRequest(method, "http://svidd"+path, bytes.NewReader(body))
	if err != nil {
		return nil, err
	}
	answer, err := client.Do(request)
	if err != nil {
		return nil, p.silent(err)
	}
	defer answer.Body.Close()
	text, err := io.ReadAll(answer.Body)
	if err != nil {
		return nil, p.silent(err)
	}
	if answer.StatusCode == http.StatusNotFound {
		return nil, fmt.Errorf("%s answers, and not to %s: give %s", p.address, path, p.give)
	}
	if answer.StatusCode != http.StatusOK {
		return nil, fmt.Errorf("the sidecar answers %d: %s", answer.StatusCode, strings.TrimSpace(string(text)))
	}
	return text, nil
}

// silent says why there is no answer, and what to do.
func (p peer) silent(err error) error {
	var asked *url.Error // (whose URL nobody gave)
	if errors.As(err, &asked) {
		err = asked.Err
	}
	info, _ := os.Stat(p.address)
	late, isLate := err.(net.Error)
	switch {
	case p.network == "unix" && (errors.Is(err, os.ErrNotExist) || errors.Is(err, syscall.ENOTDIR)):
		return fmt.Errorf("nothing is at %s: give %s, and see whether svidd runs", p.address, p.give)
	case p.network == "unix" && info != nil && info.Mode()&os.ModeSocket == 0:
		return fmt.Errorf("%s is no socket: give %s", p.address, p.give)
	case errors.Is(err, syscall.ECONNREFUSED):
		return fmt.Errorf("nobody listens on %s: give %s, and see whether svidd runs", p.address, p.give)
	case errors.Is(err, os.ErrPermission):
		return fmt.Errorf("%s: permission denied: run this as the user that svidd runs as", p.address)
	case isLate && late.Timeout():
		return fmt.Errorf("%s gave no answer within %v: see the log of svidd", p.address, adminWait)
	}
	return fmt.Errorf("%s does not answer as svidd does: %w. Give %s", p.address, err, p.give)
}

// reportInJSON is what a report says, as one JSON object.
func reportInJSON(text string) (string, error) {
	type use struct {
		Exp         uint64 `json:"exp"`
		Key         string `json:"key"`
		ValidatorID string `json:"validator_id"`
		At          uint64 `json:"at"`
		Withdrawn   bool   `json:"withdrawn,omitempty"`
	}
	type twice struct {
		Key  string `json:"key"`
		Uses int    `json:"uses"`
	}
	all := struct {
		Moment uint64  `json:"moment"`
		Uses   []use   `json:"uses"`
		Twice  []twice `json:"twice"`
	}{0, []use{}, []twice{}}
	var fault error
	number := func(text string) uint64 {
		n, err := strconv.ParseUint(text, 10, 64)
		if err != nil && fault == nil {
			fault = fmt.Errorf("the report has no number where one is due: %w", err)
		}
		return n
	}
	for _, line := range strings.Split(text, "\n") {
		switch words := strings.Fields(line); {
		case len(words) == 2 && words[0] == "moment":
			all.Moment = number(words[1])
		case len(words) == 2 && (words[0] == "uses" || words[0] == "twice"):
			// how many lines follow
		case len(words) == 2:
			all.Twice = append(all.Twice, twice{words[0], int(number(words[1]))})
		case len(words) >= 4:
			all.Uses = append(all.Uses, use{number(words[0]), words[1], words[2], number(words[3]), len(words) == 5})
		}
	}
	if fault != nil {
		return "", fault
	}
	out, err := json.Marshal(all)
	return string(out) + "\n", err
}
