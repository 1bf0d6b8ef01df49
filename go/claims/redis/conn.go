package redis

import (
	"context"
	"errors"
	"fmt"
	"net"
	"strconv"
	"strings"
	"sync"
	"time"

	"github.com/gomodule/redigo/redis"

	"svid.example/go/v3/internal/secured"
)

// errProtocol: what came is no answer of a server of Redis.
var errProtocol = errors.New("no answer of Redis")

// errReplica: the server is no primary.
var errReplica = errors.New("it is a replica, or does not say that it is a primary: name the primary, or all servers of the group")

// A wire lets the deadlines alone that redigo sets for each answer: those of a call count.
type wire struct{ net.Conn }

func (wire) SetReadDeadline(time.Time) error  { return nil }
func (wire) SetWriteDeadline(time.Time) error { return nil }

// A conn is a connection, for one call at a time. Close may come at any time.
type conn struct {
	redis.Conn
	raw     net.Conn
	address string
	node    string // the server's ID in a Cluster

	mu    sync.Mutex
	ctx   context.Context // of the call that is under way
	timer *time.Timer
}

// lookEvery is how late a call may see that its context has ended before its deadline. (A goroutine for each call would see it at once,
// and take more time of the processor than all else that stands before the socket.)
const lookEvery = 20 * time.Millisecond

// dial connects, and shows the password. It ends with ctx.
func (s *server) dial(ctx context.Context) (*conn, error) {
	password, err := s.secret()
	if err != nil {
		return nil, err
	}
	config, err := s.tls()
	if err != nil {
		return nil, err
	}
	var raw net.Conn
	if config == nil {
		raw, err = new(net.Dialer).DialContext(ctx, s.network, s.address)
	} else {
		raw, err = secured.Dial(ctx, s.network, s.address, config, mostWait)
	}
	if err != nil {
		return nil, err
	}
	c := &conn{Conn: redis.NewConn(wire{raw}, 0, 0), raw: raw, address: s.address}
	var first []command
	switch {
	case s.user != "" && password != "" && s.service == "":
		first = append(first, command{"AUTH", []any{s.user, password}})
	case password != "":
		first = append(first, command{"AUTH", []any{password}})
	}
	if s.db != "" && s.db != "0" && s.service == "" {
		first = append(first, command{"SELECT", []any{s.db}})
	}
	if len(first) > 0 {
		answers, err := c.do(ctx, first...)
		for i, answer := range answers {
			if fault, is := answer.(redis.Error); is && password != "" { // (a server that does not know AUTH says what it was given)
				answers[i] = redis.Error(strings.ReplaceAll(string(fault), password, "***"))
			}
		}
		if err == nil {
			err = firstFailure(answers)
		}
		if err != nil {
			c.Close()
			return nil, err
		}
	}
	return c, nil
}

// A command is a word and what stands behind it.
type command struct {
	word string
	args []any
}

// begin lets what follows on the connection end with ctx, until end.
func (c *conn) begin(ctx context.Context) error {
	if err := ctx.Err(); err != nil {
		return err
	}
	deadline, _ := ctx.Deadline()
	c.mu.Lock()
	defer c.mu.Unlock()
	if ctx.Done() != nil {
		c.ctx = ctx
		if c.timer == nil {
			c.timer = time.AfterFunc(lookEvery, c.look)
		} else {
			c.timer.Reset(lookEvery)
		}
	}
	return c.raw.SetDeadline(deadline)
}

// look ends the call that is under way if its context has ended.
func (c *conn) look() {
	c.mu.Lock()
	defer c.mu.Unlock()
	switch {
	case c.ctx == nil:
	case c.ctx.Err() != nil:
		c.raw.SetDeadline(time.Unix(1, 0))
	default:
		c.timer.Reset(lookEvery)
	}
}

func (c *conn) end() {
	c.mu.Lock()
	defer c.mu.Unlock()
	if c.ctx != nil {
		c.ctx = nil
		c.timer.Stop()
	}
}

// answers sends what is written, and reads this many answers: a redis.Error is one too. After an error the connection is of no use.
func (c *conn) answers(n int) ([]any, error) {
	if err := c.Flush(); err != nil {
		return nil, err
	}
	all := make([]any, n)
	for i := range all {
		answer, err := c.Receive()
		if fault, is := err.(redis.Error); is {
			answer = fault
		} else if err != nil {
			return nil, err
		}
		all[i] = answer
	}
	return all, nil
}

// do sends commands in one go, and returns an answer for each.
func (c *conn) do(ctx context.Context, commands ...command) ([]any, error) {
	defer c.end()
	if err := c.begin(ctx); err != nil {
		return nil, err
	}
	for _, one := range commands {
		if err := c.Send(one.word, one.args...); err != nil {
			return nil, err
		}
	}
	return c.answers(len(commands))
}

// firstFailure is the first answer that is an error.
func firstFailure(answers []any) error {
	for _, answer := range answers {
		if fault, is := answer.(redis.Error); is {
			return fmt.Errorf("the server answered: %w", fault)
		}
	}
	return nil
}

// cmd makes a command.
func cmd(word string, args ...any) command { return command{word, args} }

// textOf is a text of an answer; "" where there is none.
func textOf(answer any) string {
	switch answer := answer.(type) {
	case []byte:
		return string(answer)
	case string:
		return answer
	}
	return ""
}

// timeOf reads an answer to TIME.
func timeOf(answer any) (seconds uint64, milliseconds uint64, err error) {
	parts, _ := answer.([]any)
	if len(parts) != 2 {
		return 0, 0, errProtocol
	}
	s, err := strconv.ParseUint(textOf(parts[0]), 10, 53)
	if err != nil {
		return 0, 0, errProtocol
	}
	micros, err := strconv.ParseUint(textOf(parts[1]), 10, 20)
	if err != nil {
		return 0, 0, errProtocol
	}
	return s, s*1000 + micros/1000, nil
}

// field is the value of a line of an answer to INFO.
func field(info, name string) string {
	at := strings.Index(info, "\n"+name+":")
	if at < 0 {
		return ""
	}
	rest := info[at+len(name)+2:]
	if end := strings.IndexByte(rest, '\r'); end >= 0 {
		rest = rest[:end]
	}
	return rest
}

// A replication is what a server says of its replication: who it is.
type replication struct {
	run     string // names what it has written since it came up, or since it was a replica
	before  string // that of the primary whose replica it was; "" where it was none
	primary bool
}

func replicationOf(answer any) (r replication, err error) {
	text := textOf(answer)
	if text == "" {
		if err := firstFailure([]any{answer}); err != nil {
			return r, err
		}
		return r, errProtocol
	}
	r.run, r.before, r.primary = field(text, "master_replid"), field(text, "master_replid2"), field(text, "role") == "master"
	if strings.Trim(r.before, "0") == "" {
		r.before = ""
	}
	if r.run == "" || strings.ContainsAny(r.run, " ,") {
		return r, errProtocol
	}
	return r, nil
}
