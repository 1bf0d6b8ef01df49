package main

import (
	"bytes"
	"context"
	"errors"
	"net"
	"os"
	"sync"
	"sync/atomic"
	"syscall"
	"time"

	"svid.example/go/v3/internal/server"
	"svid.example/go/v3/svidhttp"
)

// mostUnanswered is how many bytes a client may send until something is written to it: headers of full length, the body that
// the HTTP server passes over after an answer, and what the transfer coding needs. Without this bound a request in chunks of
// one byte, each with an extension of a line, makes the HTTP server of Go 1.19 read a gigabyte (CVE-2023-39326).
const mostUnanswered = 4 * svidhttp.MaxHeader

var errUnanswered = errors.New("the client sends more than a request may have")

// A bounded listener accepts connections that end where a client sends too much before it is answered.
type bounded struct {
	net.Listener
	unwatched bool // The HTTP server does not watch its connections.
	text      bool // They speak HTTP/1.
}

func (l bounded) Accept() (net.Conn, error) {
	c, err := l.Listener.Accept()
	if errors.Is(err, syscall.ENOBUFS) || errors.Is(err, syscall.ENOMEM) {
		return nil, scarceMemory{err}
	}
	if err != nil {
		return nil, err
	}
	return &boundedConn{Conn: c, unwatched: l.unwatched, text: l.text, reads: deadline{set: c.SetReadDeadline}, writes: deadline{set: c.SetWriteDeadline}}, nil
}

// A scarceMemory error says that the system had no memory for a connection. To package net that is no temporary error, and so a server would end.
type scarceMemory struct{ error }

func (scarceMemory) Temporary() bool { return true }
func (scarceMemory) Timeout() bool   { return false }

type boundedConn struct {
	net.Conn
	unanswered    atomic.Int64 // bytes that were read since the last Write
	unwatched     bool         // The HTTP server does not watch whether the client leaves while it waits for an answer.
	text          bool         // The connection speaks HTTP/1.
	asterisks     asterisks    // of text
	reads, writes deadline
}

// Read reads what the client sends. While a handler runs, the HTTP server waits for one byte without a deadline, in a goroutine of its own,
// to see whether the client leaves, and ends that by a deadline long ago. All its other reads have a deadline. Where the connection is
// unwatched, nothing happens in this one, and a request costs a read and its wake-up less.
func (c *boundedConn) Read(b []byte) (int, error) {
	if c.unwatched && len(b) == 1 && c.reads.isOfWatch() {
		return 0, nil
	}
	for {
		if c.unanswered.Load() > mostUnanswered {
			return 0, errUnanswered
		}
		n, err := c.Conn.Read(b)
		c.unanswered.Add(int64(n))
		if c.text {
			c.asterisks.replace(b[:n])
		}
		if n > 0 || err == nil || !errors.Is(err, os.ErrDeadlineExceeded) || c.reads.isOver() {
			return n, err
		}
	}
}

// What a request for the server itself begins with (RFC 9110, section 9.3.7), and the same for a path.
const (
	optionsOfServer = "OPTIONS *"
	optionsOfPath   = '/'
)

// asterisks make OPTIONS * a request for the path / in what a client sends, so that a handler answers it as it does any other path. The HTTP server
// of Go 1.19 would answer 200 by itself, which here means that a token is good. (No other line of a request can begin so, since the name of a
// header field has no blank. A later Go has http.Server.DisableGeneralOptionsHandler.)
type asterisks struct {
	seen int // how many bytes of that the line has, which has no others; -1 where it has
}

// replace changes the next bytes.
func (a *asterisks) replace(text []byte) {
	for len(text) > 0 {
		if a.seen < 0 {
			end := bytes.IndexByte(text, '\n')
			if end < 0 {
				return
			}
			text, a.seen = text[end+1:], 0
			continue
		}
		switch b := text[0]; {
		case a.seen == 0 && (b == '\r' || b == '\n'): // The HTTP server passes over some of them in front of a request.
		case b != optionsOfServer[a.seen]:
			a.seen = -1
			continue // (it may be the end of the line)
		case a.seen == len(optionsOfServer)-1:
			text[0], a.seen = optionsOfPath, -1
		default:
			a.seen++
		}
		text = text[1:]
	}
}

func (c *boundedConn) Write(b []byte) (written int, err error) {
	c.unanswered.Store(0)
	for {
		n, err := c.Conn.Write(b[written:])
		written += n
		if err == nil || !errors.Is(err, os.ErrDeadlineExceeded) || c.writes.isOver() {
			return written, err
		}
	}
}

func (c *boundedConn) SetReadDeadline(t time.Time) error {
	if c.unwatched && t.Equal(longAgo) { // It ends the read in which nothing happens.
		c.reads.putOff(t)
		return nil
	}
	return c.reads.setTo(t)
}

func (c *boundedConn) SetWriteDeadline(t time.Time) error { return c.writes.setTo(t) }

// longAgo is the deadline by which the HTTP server ends a read.
var longAgo = time.Unix(1, 0)

func (c *boundedConn) SetDeadline(t time.Time) error {
	err := c.reads.setTo(t)
	if other := c.writes.setTo(t); err == nil {
		err = other
	}
	return err
}

// hasLeft says whether the client sends nothing more, as the HTTP server would find that it leaves, or the connection is broken.
func (c *boundedConn) hasLeft() bool {
	conn, ok := c.Conn.(syscall.Conn)
	if !ok {
		return false
	}
	raw, err := conn.SyscallConn()
	if err != nil {
		return true
	}
	left := false
	err = raw.Control(func(fd uintptr) {
		n, _, err := syscall.Recvfrom(int(fd), make([]byte, 1), syscall.MSG_PEEK|syscall.MSG_DONTWAIT)
		left = err == nil && n == 0 || err != nil && err != syscall.EAGAIN && err != syscall.EINTR
	})
	return left || err != nil
}

// withLeaving lets a handler ask whether the client of an unwatched connection has left.
func withLeaving(ctx context.Context, c net.Conn) context.Context {
	if it, ok := c.(*boundedConn); ok && it.unwatched {
		return server.WithLeaving(ctx, it.hasLeft)
	}
	return ctx
}

// CloseWrite ends the direction to the client, as the HTTP server wants to.
func (c *boundedConn) CloseWrite() error {
	if it, ok := c.Conn.(interface{ CloseWrite() error }); ok {
		return it.CloseWrite()
	}
	return nil
}

// A deadline of a connection is set several times a request, mostly to a later time than before, and each time the connection would set a
// timer. So it keeps the earliest one, and looks at the one that is due once that is over.
type deadline struct {
	set func(time.Time) error // of the connection

	mu   sync.Mutex
	due  time.Time // zero for never
	kept time.Time // the connection's: not after due; zero for never
}

func (d *deadline) setTo(t time.Time) error {
	d.mu.Lock()
	defer d.mu.Unlock()
	d.due = t
	if !d.kept.IsZero() && (t.IsZero() || !t.Before(d.kept)) {
		return nil
	}
	return d.keep()
}

// putOff is setTo, and leaves the connection its deadline.
func (d *deadline) putOff(t time.Time) {
	d.mu.Lock()
	defer d.mu.Unlock()
	d.due = t
}

// keep gives the connection the one that is due. The caller holds mu.
func (d *deadline) keep() error {
	err := d.set(d.due)
	if err == nil {
		d.kept = d.due
	}
	return err
}

// isOver says whether the one that is due is over, as the connection's is. If not, the connection gets it.
func (d *deadline) isOver() bool {
	d.mu.Lock()
	defer d.mu.Unlock()
	if !d.due.IsZero() && !time.Now().Before(d.due) {
		return true
	}
	return d.keep() != nil
}

// isOfWatch says whether it is one with which the HTTP server looks whether the client leaves.
func (d *deadline) isOfWatch() bool {
	d.mu.Lock()
	defer d.mu.Unlock()
	return d.due.IsZero() || d.due.Equal(longAgo)
}
