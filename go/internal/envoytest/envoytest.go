// Package envoytest asks a server of Envoy's external authorization for a test: envoy.py, by the gRPC and protobuf of Debian's
// Python. What it starts ends with the test.
package envoytest

import (
	"bufio"
	_ "embed"
	"encoding/json"
	"io"
	"os/exec"
	"strings"
	"testing"
)

//go:embed envoy.py
var program string

// python is Debian's, which has the libraries that envoy.py wants.
const python = "/usr/bin/python3"

// A Client has one connection to a server.
type Client struct {
	in   io.WriteCloser
	out  *bufio.Reader
	said strings.Builder
}

// An Answer is a CheckResponse, or why the call failed.
type Answer struct {
	Status struct {
		Code    int
		Message string
	}
	Denied *struct {
		Status  struct{ Code int }
		Headers []Option
		Body    string
	} `json:"denied_response"`
	OK *struct {
		Headers []Option
		Remove  []string `json:"headers_to_remove"`
	} `json:"ok_response"`
	Failed, Why string // the code of gRPC, and its words
}

// An Option is a HeaderValueOption.
type Option struct {
	Header struct{ Key, Value string }
	Append int `json:"append_action"`
}

// Fields are header fields with what becomes of those of the client, as "x-spiffe-id: spiffe://.. (2)".
func Fields(options []Option) map[string]string {
	all := map[string]string{}
	for _, o := range options {
		all[o.Header.Key] += o.Header.Value + map[int]string{0: " appended", 1: " unless there", 2: ""}[o.Append]
	}
	return all
}

// Start starts a client of an address, such as unix:/path or 127.0.0.1:9903. It connects with its first call.
func Start(t testing.TB, address string) *Client {
	t.Helper()
	c := &Client{}
	run := exec.Command(python, "-c", program, address)
	run.Stderr = &c.said
	in, errIn := run.StdinPipe()
	out, errOut := run.StdoutPipe()
	if errIn != nil || errOut != nil {
		t.Fatal(errIn, errOut)
	}
	if err := run.Start(); err != nil {
		t.Fatal(err)
	}
	t.Cleanup(func() {
		_ = run.Process.Kill()
		_ = run.Wait()
	})
	c.in, c.out = in, bufio.NewReader(out)
	return c
}

// Check asks about a request with these header fields, name and value by turns, and with a body.
func (c *Client) Check(t testing.TB, body string, fields ...string) Answer {
	t.Helper()
	return c.ask(t, map[string]any{"body": body}, fields)
}

// CheckFrom asks about a request of a client with this address and this principal.
func (c *Client) CheckFrom(t testing.TB, peer, principal string, fields ...string) Answer {
	t.Helper()
	return c.ask(t, map[string]any{"peer": peer, "principal": principal}, fields)
}

func (c *Client) ask(t testing.TB, request map[string]any, fields []string) (a Answer) {
	t.Helper()
	headers := [][2]string{}
	for i := 0; i+1 < len(fields); i += 2 {
		headers = append(headers, [2]string{fields[i], fields[i+1]})
	}
	request["headers"] = headers
	if err := json.NewEncoder(c.in).Encode(request); err != nil {
		t.Fatal(err)
	}
	line, err := c.out.ReadBytes('\n')
	if err == nil {
		err = json.Unmarshal(line, &a)
	}
	if err != nil {
		t.Fatalf("envoy.py: %v: it wants python3-grpcio and python3-protobuf of Debian\n%s", err, &c.said)
	}
	return a
}
