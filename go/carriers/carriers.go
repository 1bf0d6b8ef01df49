// Package carriers carries values to the members of a group in mode once. A carrier is a log: its values have one order, and every
// member reads all of them in it, its own ones too. A carrier knows nothing of tokens.
//
// A Log is what a group shares, before it is joined: the Options of package jetstream (NATS) are one. A Group is a member's tie to it.
package carriers

import (
	"context"
	"time"
)

// A Kind says what a value is.
type Kind byte

// The kinds of values.
const (
	Uses   Kind = 'u' // uses and withdrawals that the record of a member has gained
	Claims Kind = 'c' // uses that svidd 2.0 claimed in mode strict: a member of mode once says that it is there
	Answer Kind = 'a' // a part of an answer to this member's summary, and no value of the log
)

// MostValue is how many bytes a value may have. 512 uses are 33 kB, or 42 kB as batches of one use.
const MostValue = 1 << 20

// A Value is what a Sink is given.
type Value struct {
	Kind     Kind
	Position uint64 // where it stands in the log: 1 for the first, and one more for each; 0 for an Answer
	Message  []byte // whole batches, if its sender is honest
	From     string // its key, or what else to log
}

// A Start is a log, as a member begins to read it.
type Start struct {
	Passed uint64 // the position of the last value in front of the first one that will come; 0 if all will come
	Ready  uint64 // of the last value that the log has; an earlier life of this member has read no value behind it
	Missed bool   // values are gone that may still live, and that this member has not read
}

// A Sink is what values are given to, in the order that they have in the log: a validator. Its methods are called by one
// goroutine at a time.
type Sink interface {
	// Begin comes before the first value of a log. It comes again where the values that come next don't stand after
	// those that came last: the values in between have expired, or it is another log, or one that has lost its last values.
	Begin(start Start)
	// Take returns nil if it took all values. Else it returns as many errors as there are values, and one that isn't nil
	// says that the value is put aside: the group counts it, logs where it is from and goes on. The log still has it.
	//
	// Positions rise. Where one is missing, someone removed the value, or the server lost it.
	Take(values []Value) []error
}

// A Group is a member's tie to the others. Its methods may be called from many goroutines at once.
//
// Its duties: it gives the sink the values of one log in their order, each one whole. A value whose Put has returned nil is
// there to stay until it has the age of the log, and is given to every member. A value that is missing is seen by its
// position, or Begin says so. Whoever can write to the log may put values into it, and no more: what stands there stays.
type Group interface {
	// Ready is closed once the sink was given every value that the log held when this member joined.
	Ready() <-chan struct{}
	// Put puts a value at the end of the log, and returns once it is stored. number is greater than 0, and another one in
	// each call. It tries until ctx ends. The error then says what the server said last; the value may be stored all the same,
	// also later, and it may be stored twice: the first one counts.
	Put(ctx context.Context, kind Kind, number uint64, message []byte) error
	// Stored returns a time by the server's clock that is not before the one when it stored a value that was Put.
	Stored(ctx context.Context, kind Kind, number uint64) (time.Time, error)
	// Taken returns how many values the sink took, and Aside how many it did not take.
	Taken() uint64
	Aside() uint64
	// Connected says whether the server is there at this moment.
	Connected() bool
	// Close ends what Join began, and lets go of the server. It returns when no Take is under way.
	Close() error
}

// A Log is that of a group, before it is joined. The Options of package jetstream are one.
type Log interface {
	// Join makes the log where it is not there, and begins to read it. It tries until ctx ends, so a server that comes up later is
	// waited for. A log that could lose a claim before its token expires is an error that says why, and what to do.
	Join(ctx context.Context, o Options, s Sink) (Group, error)
	// GroupName is the group's name, for people.
	GroupName() string
}

// A Repairer is a Group whose members bring back to each other what the server may have lost.
type Repairer interface {
	// Summaries lets this member send a summary of its record to another one, each time about so much later, and give the sink what
	// differs. answer answers the summary of another member, by messages of at most most bytes each.
	Summaries(every time.Duration, summary func() ([]byte, error), answer func(summary []byte, most int) ([][]byte, error))
}

// Options are those of a member.
type Options struct {
	// ValidatorID tells this member from every other one.
	ValidatorID [16]byte
	// Keep is how long the log keeps a value at least: the longest life of a token, and twice the bound for clocks, since
	// the member that accepted and the one that asks may both be off.
	Keep time.Duration
	// Log receives what an operator may want to know: an event, and names and values by turns. It may be nil, and is
	// called from several goroutines.
	Log func(event string, fields ...any)
}
