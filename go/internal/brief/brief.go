// Package brief cuts what others say, as a server in its answer, before it stands in an error or in a line of a log, and says whether it is
// something new.
package brief

import (
	"fmt"
	"regexp"
	"time"
	"unicode/utf8"
)

// Most is how many bytes of an error stay.
const Most = 1024

// Text returns a text of at most so many bytes as it is. Of a longer one it returns the characters that these bytes hold, and the text's length.
func Text(text string, most int) string {
	if len(text) <= most {
		return text
	}
	end := most
	for end > 0 && most-end < utf8.UTFMax && !utf8.RuneStart(text[end]) {
		end--
	}
	if !utf8.RuneStart(text[end]) {
		end = most // (it is no UTF-8)
	}
	return fmt.Sprintf("%s... (%d bytes)", text[:end], len(text))
}

// Error returns an error whose text has at most Most bytes as it is, and nil for nil. Of another one it returns an error that says the beginning
// alone, and that wraps it.
func Error(err error) error {
	if err == nil {
		return nil
	}
	text := err.Error()
	if len(text) <= Most {
		return err
	}
	return &cut{Text(text, Most), err}
}

// Fields returns names and values by turns with each error as Error returns it, and leaves those that it is given as they are.
func Fields(fields []any) []any {
	all := append([]any(nil), fields...)
	for i, value := range all {
		if err, is := value.(error); is {
			all[i] = Error(err)
		}
	}
	return all
}

// drawn is what differs each time in errors that have the same reason: the port that this machine drew for a connection, and of a subject of NATS
// the name of an inbox, the key of a value, and which question of a feed it answers.
var drawn = regexp.MustCompile(`[^\s"]+:[0-9]+->|("(?:_INBOX|\$KV\.[^".]+\.[^".]+|\$JS\.FC\.[^".]+))\.[^"]*`)

// Cause is the text of an error, but for what differs each time.
func Cause(err error) string { return drawn.ReplaceAllString(err.Error(), "$1") }

const (
	// causeTime is after how long without a cause the next line about it is due.
	causeTime = time.Minute
	// mostCauses have lines in that time.
	mostCauses = 16
)

// Causes are those of errors that happen again and again, while nobody looks. One goroutine uses them at a time.
type Causes struct {
	last map[string]time.Time
}

// IsNew says whether to log an error that happens now: its cause was not there for a minute.
func (c *Causes) IsNew(now time.Time, err error) bool {
	for cause, at := range c.last {
		if now.Sub(at) >= causeTime {
			delete(c.last, cause)
		}
	}
	cause := Cause(err)
	_, is := c.last[cause]
	if !is && len(c.last) == mostCauses {
		return false
	}
	if c.last == nil {
		c.last = make(map[string]time.Time)
	}
	c.last[cause] = now
	return !is
}

// Forget lets each cause be new.
func (c *Causes) Forget() { c.last = nil }

type cut struct {
	text string
	err  error
}

func (c *cut) Error() string { return c.text }

func (c *cut) Unwrap() error { return c.err }
