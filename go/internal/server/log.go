package server

import (
	"encoding/json"
	"errors"
	"io"
	"log"
	"net/netip"
	"strconv"
	"strings"
	"sync"
	"sync/atomic"
	"time"

	"svid.example/go/v3/internal/brief"
	"svid.example/go/v3/internal/jsontext"
	"svid.example/go/v3/svid"
)

// A Level is how much a Log writes.
type Level int

// The levels. Each writes what the one before it does.
const (
	Errors    Level = iota // what an operator must look at
	Decisions              // and a line for each judged token, and each start, end and reload
	All                    // and what the group says
)

// String is what a line of this level says of itself, as other programs name levels.
func (l Level) String() string { return [...]string{"error", "info", "debug"}[l] }

// A Log writes one JSON object a line. It never has a token in it, but its key.
// Its methods may be called by many goroutines at once; those of a nil Log do
// nothing.
type Log struct {
	level     atomic.Int32
	addresses atomic.Int32
	mu        sync.Mutex
	out       io.Writer
	room      []byte // for the line of a decision; guarded by mu
}

// NewLog returns a log that writes to out what the level has. Its callers wait for
// out: give it an Outlet where that may hang.
func NewLog(out io.Writer, level Level) *Log {
	l := &Log{out: out}
	l.SetLevel(level)
	return l
}

// SetLevel lets the log write what another level has, from now on.
func (l *Log) SetLevel(level Level) { l.level.Store(int32(level)) }

// Dropped is how many lines the log's Outlet has dropped. It is 0 where the log has
// none.
func (l *Log) Dropped() uint64 {
	if l == nil {
		return 0
	}
	outlet, _ := l.out.(*Outlet)
	return outlet.Dropped()
}

// Close lets the log's Outlet take no more lines, and waits until those that came are written, but at most as long as most. It does nothing
// where the log has no Outlet.
func (l *Log) Close(most time.Duration) {
	if l == nil {
		return
	}
	if outlet, ok := l.out.(*Outlet); ok {
		outlet.Close(most)
	}
}

// Error logs that something went wrong.
func (l *Log) Error(event string, err error, fields ...any) {
	l.write(Errors, event, append(fields[:len(fields):len(fields)], "error", err.Error()))
}

// Event logs something that happens a few times in a process's life. fields are
// names and values by turns.
func (l *Log) Event(event string, fields ...any) { l.write(Decisions, event, fields) }

// Detail logs something that only who looks for a fault wants to see.
func (l *Log) Detail(event string, fields ...any) { l.write(All, event, fields) }

// Standard returns a logger of package log whose lines are errors of this event.
func (l *Log) Standard(event string) *log.Logger { return log.New(standard{l, event}, "", 0) }

type standard struct {
	log   *Log
	event string
}

func (s standard) Write(line []byte) (int, error) {
	s.log.Error(s.event, errors.New(strings.TrimSpace(string(line))))
	return len(line), nil
}

// Writes says whether lines of this level are written.
func (l *Log) Writes(level Level) bool { return l != nil && level <= Level(l.level.Load()) }

// mostValue is how many bytes of a text stand in a line: it may be one of a server, or of whoever wrote to a group's store or log.
const mostValue = 4096

func (l *Log) write(level Level, event string, fields []any) {
	if !l.Writes(level) {
		return
	}
	line := map[string]any{"time": timestamp(time.Now()), "level": level.String(), "event": event}
	for i := 0; i+1 < len(fields); i += 2 {
		name, ok := fields[i].(string)
		if !ok {
			continue
		}
		value := fields[i+1]
		if err, ok := value.(error); ok {
			value = err.Error()
		}
		if text, ok := value.(string); ok {
			value = brief.Text(text, mostValue)
		}
		if value != nil {
			line[name] = value
		}
	}
	l.line(line)
}

// line writes a value as one line of JSON. A log that can't be written stops no request.
func (l *Log) line(value any) {
	text, err := json.Marshal(value)
	if err != nil {
		text, _ = json.Marshal(map[string]string{"level": Errors.String(), "event": "log", "error": err.Error()})
	}
	l.mu.Lock()
	defer l.mu.Unlock()
	_, _ = l.out.Write(append(jsontext.Printable(text), '\n'))
}

// Addresses say how lines of decisions have the addresses of clients and callers.
type Addresses int32

// The ways to have them.
const (
	Whole   Addresses = iota // as they are
	Network                  // 24 bits of an IPv4 address, and 48 bits of an IPv6 address: 192.0.2.0/24
	None                     // not at all
)

// SetAddresses lets lines have addresses so from now on.
func (l *Log) SetAddresses(how Addresses) {
	if l != nil {
		l.addresses.Store(int32(how))
	}
}

// address is a text as lines have it, if it is an address or a network. Any other text stays, such as the name of a certificate.
func (l *Log) address(text string) string {
	how := Addresses(l.addresses.Load())
	if how == Whole || text == "" {
		return text
	}
	of, _, _ := strings.Cut(text, "/") // (a network may be a caller)
	address, err := netip.ParseAddr(of)
	switch {
	case err != nil:
		return text
	case how == None:
		return ""
	}
	bits := 48
	if address.Unmap().Is4() {
		bits = 24
	}
	network, err := address.Unmap().Prefix(bits)
	if err != nil {
		return ""
	}
	return network.String()
}

// member is address as the value of a member of a line, which leaves it out where it is nil.
func (l *Log) member(text string) any {
	if l == nil {
		return nil
	}
	if shown := l.address(text); shown != "" {
		return shown
	}
	return nil
}

// reason is why a token could not be judged, as lines have it. A text that is no address may be several.
func (l *Log) reason(err error) string {
	var no *noAddress
	if Addresses(l.addresses.Load()) != Whole && errors.As(err, &no) {
		return no.withoutText()
	}
	return brief.Text(err.Error(), mostValue)
}

// decide writes the line of a decision, in the order of its fields. Those that are empty are left out, but for the first three,
// Request, ValidatorID and Micros.
func (l *Log) decide(d *decision) {
	l.mu.Lock()
	defer l.mu.Unlock()
	line := append(d.Time.UTC().AppendFormat(append(l.room[:0], `{"time":"`...), timeForm), '"')
	line = appendMember(line, "level", d.Level)
	line = appendMember(line, "event", d.Event)
	line = appendUnlessEmpty(line, "reason", d.Reason)
	line = appendUnlessEmpty(line, "says", d.Says)
	line = appendUnlessEmpty(line, "sub", d.Subject)
	line = appendUnlessEmpty(line, "aud", d.Aud)
	line = appendUnlessEmpty(line, "kid", d.KeyID)
	if d.Expires != 0 {
		line = strconv.AppendUint(append(line, `,"exp":`...), d.Expires, 10)
	}
	if d.Key != nil {
		line = appendDigits(line, "key", d.Key[:])
	}
	line = appendMember(line, "request", d.Request)
	line = appendUnlessEmpty(line, "client", l.address(d.Client))
	line = appendUnlessEmpty(line, "caller", l.address(d.Caller))
	line = appendDigits(line, "validator_id", d.ValidatorID[:])
	if d.UsedBy != (svid.ValidatorID{}) {
		line = appendDigits(line, "used_by", d.UsedBy[:])
	}
	if d.Claimed != nil {
		line = d.Claimed.append(append(line, `,"claimed":`...))
	}
	line = append(strconv.AppendInt(append(line, `,"us":`...), d.Micros, 10), '}', '\n')
	_, _ = l.out.Write(line)
	if l.room = line; cap(line) > mostRoom {
		l.room = nil
	}
}

// mostRoom is how many bytes a log keeps for the next line.
const mostRoom = 1 << 14

// appendMember adds a member behind others.
func appendMember(line []byte, name, text string) []byte {
	line = append(append(append(line, `,"`...), name...), `":`...)
	return jsontext.Append(line, text)
}

func appendUnlessEmpty(line []byte, name, text string) []byte {
	if text == "" {
		return line
	}
	return appendMember(line, name, text)
}

// appendDigits adds bytes as hexadecimal digits.
func appendDigits(line []byte, name string, bytes []byte) []byte {
	const digits = "0123456789abcdef"
	line = append(append(append(line, `,"`...), name...), `":"`...)
	for _, b := range bytes {
		line = append(line, digits[b>>4], digits[b&15])
	}
	return append(line, '"')
}

const timeForm = "2006-01-02T15:04:05.000000Z"

func timestamp(t time.Time) string { return t.UTC().Format(timeForm) }

// A decision is the line of one judged token.
type decision struct {
	Time        time.Time
	Level       string
	Event       string // accepted, refused or unavailable
	Reason      string
	Says        string // a refusal in words
	Subject     string
	Aud         string
	KeyID       string
	Expires     uint64
	Key         *svid.TokenKey
	Request     string
	Client      string // "" where a service asks by Engine.Check
	Caller      string // "" in other modes than bound and reuse
	ValidatorID svid.ValidatorID
	UsedBy      svid.ValidatorID // who has the token's claim, where it is another one's; else zeros
	Claimed     *unverified      // what a refused token says of itself
	Micros      int64
}
