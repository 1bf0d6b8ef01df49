package agenttest

import (
	"bytes"
	_ "embed"
	"encoding/json"
	"os/exec"
	"testing"
)

//go:embed ask.py
var asking string

// A Question is what a workload asks of a Workload API.
type Question struct {
	Call     string   `json:"call"` // FetchJWTSVID or FetchJWTBundles
	Audience []string `json:"audience,omitempty"`
	ID       string   `json:"id,omitempty"`
	Messages int      `json:"messages,omitempty"` // of FetchJWTBundles: how many are awaited
	Header   bool     `json:"header"`             // the one that the standard wants
}

// An Answer is what came.
type Answer struct {
	Code     string // of gRPC: OK
	Why      string
	Tokens   []struct{ ID, Token string }
	Messages []map[string]string
}

// Ask asks the Workload API at an address, as unix:/path, by gRPC's own client.
func Ask(t testing.TB, address string, asked Question) (said Answer) {
	t.Helper()
	text, err := json.Marshal(asked)
	if err != nil {
		t.Fatal(err)
	}
	run := exec.Command(python, "-c", asking, address)
	var fault bytes.Buffer
	run.Stdin, run.Stderr = bytes.NewReader(text), &fault
	out, err := run.Output()
	if err == nil {
		err = json.Unmarshal(out, &said)
	}
	if err != nil {
		t.Fatalf("ask.py: %v: it wants python3-grpcio and python3-protobuf of Debian\n%s", err, &fault)
	}
	return said
}
