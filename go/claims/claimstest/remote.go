package claimstest

import (
	"bufio"
	"context"
	"encoding/hex"
	"errors"
	"fmt"
	"io"
	"os"
	"os/exec"
	"strconv"
	"strings"
	"sync"
	"time"

	"svid.example/go/v3/claims"
	"svid.example/go/v3/internal/patience"
)

// clientEnv names the command that makes the calls of a client of another language. With it, the tests of this package are tests of that client.
const clientEnv = "SVID_STORE_CLIENT"

// OfOthers says whether the tests are those of a client of another language.
func OfOthers() bool { return os.Getenv(clientEnv) != "" }

// A client is a process that makes the calls of a client of another language: each call is a line, and so is each answer.
type client struct {
	mu    sync.Mutex
	in    io.Writer
	calls uint64
	open  map[string]chan []string
	ended error
}

var theClient struct {
	sync.Once
	it  *client
	err error
}

// startClient starts the process, which all tests share, and which ends with them.
func startClient() (*client, error) {
	theClient.Do(func() {
		words := strings.Fields(os.Getenv(clientEnv))
		run := exec.Command(words[0], words[1:]...)
		run.Stderr = os.Stderr
		in, err := run.StdinPipe()
		var out io.Reader
		if err == nil {
			out, err = run.StdoutPipe()
		}
		if err == nil {
			err = run.Start()
		}
		theClient.it, theClient.err = &client{in: in, open: make(map[string]chan []string)}, err
		if err == nil {
			go theClient.it.hear(out)
		}
	})
	return theClient.it, theClient.err
}

// hear takes the answers.
func (c *client) hear(out io.Reader) {
	lines := bufio.NewScanner(out)
	lines.Buffer(nil, 1<<22)
	for lines.Scan() {
		words := strings.Fields(lines.Text())
		if len(words) == 0 {
			continue
		}
		c.mu.Lock()
		if waits := c.open[words[0]]; waits != nil {
			waits <- words[1:]
		}
		c.mu.Unlock()
	}
	c.mu.Lock()
	defer c.mu.Unlock()
	c.ended = fmt.Errorf("the client has ended: %v", lines.Err())
	for _, waits := range c.open {
		close(waits)
	}
	c.open = nil
}

// call makes a call. It ends with ctx, whatever the client does.
func (c *client) call(ctx context.Context, words ...string) ([]string, error) {
	waits := make(chan []string, 1)
	c.mu.Lock()
	if c.ended != nil {
		c.mu.Unlock()
		return nil, c.ended
	}
	c.calls++
	number := strconv.FormatUint(c.calls, 10)
	c.open[number] = waits
	_, err := fmt.Fprintln(c.in, number, strings.Join(words, " "))
	c.mu.Unlock()
	defer func() {
		c.mu.Lock()
		delete(c.open, number)
		c.mu.Unlock()
	}()
	if err != nil {
		return nil, err
	}
	select {
	case answer := <-waits:
		return answer, nil
	case <-ctx.Done():
		return nil, ctx.Err()
	}
}

// faultOf is the error of a client's.
func (r *Remote) faultOf(name, digits string) error {
	text, err := hex.DecodeString(digits)
	if err != nil {
		return err
	}
	if name == "unfit" || name == "rights" {
		return claims.Unfitf("%s", text)
	}
	if known := r.Faults[name]; known != nil {
		return fmt.Errorf("%w (%s)", known, text)
	}
	return fmt.Errorf("%s: %s", name, text)
}

// A Remote is a store whose calls a client of another language makes.
type Remote struct {
	// Faults are the errors of a store's package that other languages have by a name.
	Faults map[string]error
	// Missing makes the store where there is none, as an administrator does: where a fault is that of the name missing.
	Missing func()
	client  *client
	name    string
}

var remotes struct {
	sync.Mutex
	count int
}

// NewRemote is a store of the client with these terms, this name, so many replicas and these addresses.
func NewRemote(o claims.Terms, name string, replicas int, more ...string) (*Remote, error) {
	c, err := startClient()
	if err != nil {
		return nil, err
	}
	remotes.Lock()
	remotes.count++
	r := &Remote{client: c, name: fmt.Sprint("store", remotes.count)}
	remotes.Unlock()
	if replicas < 1 {
		replicas = 1
	}
	words := []string{"new", r.name, name, text64(o.Lasts), text64(o.Margin), text64(o.Back), strconv.Itoa(replicas)}
	_, err = r.answer(context.Background(), append(words, more...)...)
	return r, err
}

func text64(n uint64) string { return strconv.FormatUint(n, 10) }

// answer is what the client answers.
func (r *Remote) answer(ctx context.Context, words ...string) ([]string, error) {
	answer, err := r.client.call(ctx, words...)
	if err == nil && len(answer) == 3 && answer[0] == "fault" {
		return nil, r.faultOf(answer[1], answer[2])
	}
	return answer, err
}

// call makes a call, for which it gives the client as long as ctx has.
func (r *Remote) call(ctx context.Context, name string, words ...string) ([]string, error) {
	wait := patience.Long
	if end, ok := ctx.Deadline(); ok && time.Until(end) < wait {
		wait = time.Until(end)
	}
	answer, err := r.answer(ctx, append([]string{name, r.name, fmt.Sprintf("%.3f", wait.Seconds())}, words...)...)
	r.make(err)
	return answer, err
}

// make makes the store, if that is what an error says.
func (r *Remote) make(err error) {
	if missing := r.Faults["missing"]; missing != nil && errors.Is(err, missing) {
		r.Missing()
	}
}

// Open is part of claims.Store.
func (r *Remote) Open(ctx context.Context) (claims.State, error) {
	var why error
	for {
		state, err := r.state(ctx, "open")
		var unfit *claims.Unfit
		if err == nil || errors.As(err, &unfit) || err.Error() == "closed" {
			return state, err
		}
		if why == nil || ctx.Err() == nil && !strings.HasPrefix(err.Error(), "silent") { // (else it says only that the time is over)
			why = err
		}
		select {
		case <-time.After(20 * time.Millisecond):
		case <-ctx.Done():
			return state, fmt.Errorf("%w: %v", ctx.Err(), why)
		}
	}
}

// State is part of claims.Store.
func (r *Remote) State(ctx context.Context) (claims.State, error) { return r.state(ctx, "state") }

func (r *Remote) state(ctx context.Context, name string) (is claims.State, err error) {
	answer, err := r.call(ctx, name)
	if err != nil {
		return is, err
	}
	if len(answer) != 3 {
		return is, fmt.Errorf("%q", answer)
	}
	is.Epoch = answer[0]
	if is.Deaf, err = strconv.ParseUint(answer[1], 10, 64); err == nil {
		is.Time, err = strconv.ParseUint(answer[2], 10, 64)
	}
	return is, err
}

// Put is part of claims.Store.
func (r *Remote) Put(ctx context.Context, these []claims.Claim, found []claims.Found) {
	words := make([]string, len(these))
	for i, c := range these {
		words[i] = fmt.Sprintf("%x:%x:%d", c.Key[:], c.Owner[:], c.Expires)
	}
	answer, err := r.call(ctx, "put", words...)
	if err == nil && len(answer) != len(these) {
		err = fmt.Errorf("%d answers to %d claims", len(answer), len(these))
	}
	for i := range found {
		if found[i].Err = err; err == nil {
			found[i] = r.foundOf(strings.Split(answer[i], ":"))
			r.make(found[i].Err)
		}
	}
}

func (r *Remote) foundOf(words []string) (f claims.Found) {
	if len(words) == 2 {
		return claims.Found{Err: r.faultOf(words[0], words[1])}
	}
	if len(words) != 3 {
		return claims.Found{Err: fmt.Errorf("%q", words)}
	}
	owner, err := hex.DecodeString(words[0])
	if f.Err = err; err == nil && copy(f.Owner[:], owner) != len(owner) {
		f.Err = errors.New("an owner of another length")
	}
	if f.Time, err = strconv.ParseUint(words[1], 10, 64); err != nil {
		f.Err = err
	}
	if f.Deaf, err = strconv.ParseUint(words[2], 10, 64); err != nil {
		f.Err = err
	}
	return f
}

// Withdraw is part of claims.Store.
func (r *Remote) Withdraw(ctx context.Context, w claims.Withdrawal) (owner claims.Owner, err error) {
	answer, err := r.call(ctx, "withdraw", hex.EncodeToString(w.Key[:]), text64(w.Expires))
	if err != nil {
		return owner, err
	}
	bytes, err := hex.DecodeString(answer[0])
	copy(owner[:], bytes)
	return owner, err
}

// Withdrawals is part of claims.Store.
func (r *Remote) Withdrawals(ctx context.Context, after string) (these []claims.Withdrawal, last string, err error) {
	answer, err := r.call(ctx, "withdrawals", "x"+hex.EncodeToString([]byte(after)))
	if err != nil {
		return nil, after, err
	}
	for _, word := range answer[1:] {
		key, expires, _ := strings.Cut(word, ":")
		var w claims.Withdrawal
		bytes, err := hex.DecodeString(key)
		if err == nil {
			copy(w.Key[:], bytes)
			w.Expires, err = strconv.ParseUint(expires, 10, 64)
		}
		if err != nil {
			return nil, after, err
		}
		these = append(these, w)
	}
	return these, answer[0], nil
}

// Close is part of claims.Store.
func (r *Remote) Close() error {
	_, err := r.answer(context.Background(), "close", r.name)
	return err
}
