// Package streams says whether a stream of NATS may lose what a group has there, by its settings.
package streams

import (
	"bytes"
	"encoding/json"
	"fmt"
	"sort"
	"strings"
	"time"
)

// A Config is each setting of a stream, by its name.
type Config map[string]json.RawMessage

// Number is a setting that is a number; 0 where it is none.
func (c Config) Number(name string) (n int64) {
	_ = json.Unmarshal(c[name], &n)
	return n
}

// A Setting is as it must be, or Due says what it must be.
type Setting struct {
	Due  string
	Good func(value json.RawMessage) bool
}

// Any is a setting that may have any value.
var Any = Setting{"", func(json.RawMessage) bool { return true }}

// Exactly is a setting that has one value. One that must be false need not be set.
func Exactly(due any) Setting {
	text, err := json.Marshal(due)
	return Setting{string(text), func(value json.RawMessage) bool {
		return err == nil && (bytes.Equal(value, text) || due == false && off[string(value)])
	}}
}

func number(due string, good func(int64) bool) Setting {
	return Setting{due, func(value json.RawMessage) bool {
		var n int64
		return json.Unmarshal(value, &n) == nil && good(n)
	}}
}

// Age is how long a message stays: for ever, or so long.
func Age(least time.Duration) Setting {
	return number(fmt.Sprintf("0 or at least %d (%v)", least, least), func(n int64) bool { return n == 0 || n >= int64(least) })
}

// MessageSize is how many bytes a message may have: any number, or so many.
func MessageSize(least int64) Setting {
	return number(fmt.Sprintf("-1 or at least %d", least), func(n int64) bool { return n == -1 || n >= least })
}

// Replicas is how many servers have each message.
func Replicas(least int) Setting {
	return number(fmt.Sprintf("at least %d", least), func(n int64) bool { return n >= int64(least) })
}

// free are the settings that may have any value: none of them makes a stream forget. (No message of a member has the id by which a server
// finds duplicates.)
var free = map[string]bool{"description": true, "metadata": true, "placement": true, "compression": true, "duplicate_window": true,
	"allow_direct": true}

// off are the values of a setting that is not set. All settings that are neither due nor free must be so, also those that only servers of
// the future know.
var off = map[string]bool{"": true, "false": true, "0": true, `""`: true, "null": true, "[]": true, "{}": true}

// fixed are the settings that no server changes once the stream is made.
var fixed = map[string]bool{"storage": true, "retention": true, "max_consumers": true, "mirror": true, "republish": true, "sealed": true,
	"template_owner": true, "first_seq": true}

// Wrong says which settings are not as they must be, what they are, and what they must be; "" where there is none. isFixed: no server changes one
// of them.
func (c Config) Wrong(due map[string]Setting) (wrong string, isFixed bool) {
	var all []string
	say := func(name, due string) {
		is := string(c[name])
		if is == "" {
			is = "missing"
		}
		all = append(all, fmt.Sprintf("%s is %s and must be %s", name, is, due))
		isFixed = isFixed || fixed[name]
	}
	for name, s := range due {
		if !free[name] && !s.Good(c[name]) {
			say(name, s.Due)
		}
	}
	for name, value := range c {
		if _, is := due[name]; !is && !free[name] && !off[string(value)] {
			say(name, "left out")
		}
	}
	sort.Strings(all)
	return strings.Join(all, ", "), isFixed
}
