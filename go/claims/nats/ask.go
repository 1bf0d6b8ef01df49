package nats

import (
	"bytes"
	"context"
	"encoding/base64"
	"encoding/json"
	"errors"
	"fmt"
	"io"
	"strconv"
	"time"

	client "github.com/nats-io/nats.go"
)

var (
	errNone   = errors.New("there is no such message")
	errAway   = errors.New("the server is away")
	errLate   = errors.New("the server does not answer")
	errNobody = errors.New("no server has the stream at the moment")
	errOther  = errors.New("what came is no answer of the server")
	errStands = errors.New("something stands there already")
)

// failed is an error that says what was tried.
func failed(what string, err error) error { return fmt.Errorf("claims: %s: %w", what, err) }

// A slot is where the answer to a request goes.
type slot struct {
	index int
	to    chan<- answer
}

// give gives an answer to who asked. Who has no room for it asks again.
func (to slot) give(a answer) {
	select {
	case to.to <- a:
	default:
	}
}

// An answer of the server, or why there is none.
type answer struct {
	index int
	token string
	m     *client.Msg
	err   error
}

// A question is a request to the server.
type question struct {
	subject string
	data    []byte
	header  client.Header
}

// send sends a question. Its answer goes to the slot, unless forget comes first. Nobody can tell where: an answer that someone else lets
// the server send here would count as this one's.
func (s *Store) send(q question, to slot) (token string, err error) {
	var b [12]byte
	s.mu.Lock()
	if _, err := io.ReadFull(s.random, b[:]); err != nil {
		s.mu.Unlock()
		return "", err
	}
	token = base64.RawURLEncoding.EncodeToString(b[:])
	s.waiting[token] = to
	nc := s.conn
	s.mu.Unlock()
	if err := nc.PublishMsg(&client.Msg{Subject: q.subject, Reply: s.inbox + "." + token, Data: q.data, Header: q.header}); err != nil {
		s.forget(token)
		return "", err
	}
	return token, nil
}

// forget lets nobody wait for an answer any more.
func (s *Store) forget(token string) {
	s.mu.Lock()
	delete(s.waiting, token)
	s.mu.Unlock()
}

// hear is given each answer of the server.
func (s *Store) hear(m *client.Msg) {
	token := m.Subject[len(s.inbox)+1:]
	s.mu.Lock()
	to, is := s.waiting[token]
	delete(s.waiting, token)
	s.mu.Unlock()
	if is {
		to.give(answer{to.index, token, m, nil})
	}
}

// away lets nobody wait for a server that is away. What was sent to it may be stored.
func (s *Store) away(err error) {
	s.doubt()
	s.mu.Lock()
	all := s.waiting
	s.waiting = map[string]slot{}
	s.mu.Unlock()
	for token, to := range all {
		to.give(answer{to.index, token, nil, errAway})
	}
	if s.life.Err() == nil {
		s.log("broker lost", "why", err)
	}
}

// doubt says that it is unknown whether the server still has all.
func (s *Store) doubt() {
	s.unsteady.Add(1)
	s.doubts.Add(1)
}

// each asks n questions, up to mostUnderWay at a time. A question whose answer take can't use (again) is asked again, until ctx ends.
// What is not answered then keeps the error that take was given for it, or errLate. No question waits for the answer to another one.
func (s *Store) each(ctx context.Context, n int, ask func(i int) question, take func(i int, m *client.Msg, err error) (again bool)) {
	s.eachWithin(ctx, attemptWait, n, ask, take)
}

// eachWithin is each with another wait for the first answer. For later ones it waits twice as long each time.
func (s *Store) eachWithin(ctx context.Context, wait time.Duration, n int, ask func(i int) question, take func(i int, m *client.Msg, err error) (again bool)) {
	type state struct {
		token string
		due   time.Time
		wait  time.Duration
	}
	states := make([]state, n)
	answers := make(chan answer, 2*n) // (a question that is asked again may have two)
	open := make([]int, 0, n)         // to be asked, the last one first
	for i := n - 1; i >= 0; i-- {
		states[i].wait = wait
		open = append(open, i)
	}
	underWay, resting := 0, 0
	timer := time.NewTimer(wait / 4)
	defer timer.Stop()
	defer func() {
		for i := range states {
			if states[i].token != "" {
				s.forget(states[i].token)
			}
		}
	}()
	answered := func(i int, m *client.Msg, err error) {
		states[i] = state{wait: states[i].wait}
		if take(i, m, err) {
			states[i].due = time.Now().Add(againWait)
			if resting++; resting == 1 {
				timer.Reset(againWait) // (if it has gone off already, its look comes early)
			}
		}
	}
	for {
		for len(open) > 0 && underWay < mostUnderWay {
			i := open[len(open)-1]
			open = open[:len(open)-1]
			token, err := s.send(ask(i), slot{i, answers})
			if err != nil {
				answered(i, nil, errAway)
				continue
			}
			states[i].token, states[i].due = token, time.Now().Add(states[i].wait)
			underWay++
		}
		if underWay == 0 && resting == 0 {
			return
		}
		select {
		case a := <-answers:
			if states[a.index].token != a.token {
				continue // It was asked again.
			}
			underWay--
			answered(a.index, a.m, a.err)
		case now := <-timer.C:
			timer.Reset(wait / 4)
			for i := range states {
				if states[i].due.IsZero() || now.Before(states[i].due) {
					continue
				}
				if states[i].token == "" { // It has rested.
					states[i].due = time.Time{}
					resting--
					open = append(open, i)
					continue
				}
				s.forget(states[i].token)
				underWay--
				states[i].wait *= 2
				answered(i, nil, errLate)
			}
		case <-ctx.Done():
			for i := range states {
				if states[i].token != "" {
					take(i, nil, errLate)
				}
			}
			for _, i := range open {
				take(i, nil, errLate)
			}
			return
		}
	}
}

// one asks one question, until take can use its answer, for at most oneWait.
func (s *Store) one(ctx context.Context, q question, take func(m *client.Msg) error) (err error) {
	return s.oneOf(ctx, func() question { return q }, take)
}

// oneOf is one with a question of its own for each attempt.
func (s *Store) oneOf(ctx context.Context, ask func() question, take func(m *client.Msg) error) (err error) {
	ctx, cancel := context.WithTimeout(ctx, oneWait)
	defer cancel()
	begun := time.Now()
	s.eachWithin(ctx, attemptWait/4, 1, func(int) question { return ask() }, func(_ int, m *client.Msg, fault error) bool {
		if err = fault; err == nil {
			err = take(m)
		}
		if errors.Is(err, errNobody) && time.Since(begun) > attemptWait/4 {
			return false // The stream may be gone, and who asks finds that out.
		}
		return isAgain(err)
	})
	return err
}

// isAgain says whether the same question may get another answer soon.
func isAgain(err error) bool {
	var fault *client.APIError
	switch {
	case errors.Is(err, errLate), errors.Is(err, errAway), errors.Is(err, errNobody), errors.Is(err, errOther):
		return true
	case errors.As(err, &fault):
		return fault.Code == 503 && fault.ErrorCode != storeFailed && fault.ErrorCode != noRoom
	}
	return false
}

// reply returns what the server answered, or its error.
func reply(m *client.Msg) error {
	switch {
	case m.Reply != "": // It was stored, and delivered here.
		return errOther
	case len(m.Data) == 0 && m.Header.Get("Status") == "503":
		return errNobody
	}
	return nil
}

// What the server calls an error.
const (
	notEnabled           = 10076
	notEnabledForAccount = 10039
	noRoom               = 10023
	noMessage            = 10037
	nameInUse            = 10058
	noStream             = 10059
	overlaps             = 10065
	wrongLast            = 10071
	notClustered         = 10074
	storeFailed          = 10077
	stands               = "maximum messages per subject exceeded" // of a store that failed
)

// acknowledged returns the position at which a message was stored, or why it is not. errStands: the subject has a message.
func acknowledged(m *client.Msg, stream string) (position uint64, err error) {
	if err := reply(m); err != nil {
		return 0, err
	}
	if rest := bytes.TrimPrefix(m.Data, []byte(`{"stream":"`+stream+`", "seq":`)); len(rest) < len(m.Data) {
		if digits := bytes.TrimSuffix(rest, []byte("}")); len(digits) < len(rest) {
			if position, err = strconv.ParseUint(string(digits), 10, 64); err == nil && position > 0 {
				return position, nil
			}
		}
	}
	var ack struct {
		Stream   string           `json:"stream"`
		Position uint64           `json:"seq"`
		Error    *client.APIError `json:"error"`
	}
	if err := json.Unmarshal(m.Data, &ack); err != nil {
		return 0, errOther
	}
	if ack.Error != nil {
		if ack.Error.ErrorCode == storeFailed && ack.Error.Description == stands {
			return 0, errStands
		}
		return 0, ack.Error
	}
	if ack.Stream != stream || ack.Position == 0 {
		return 0, errOther
	}
	return ack.Position, nil
}

// A stored message.
type stored struct {
	Position uint64 `json:"seq"`
	Subject  string
	Data     []byte
	Time     time.Time
}

// getting is the question for a stored message, by a condition. The stream's leader answers. Where one server alone has the stream, it is
// asked in the manner that costs it less.
func (s *Store) getting(stream, by string, isAlone bool) question {
	if isAlone {
		return question{"$JS.API.DIRECT.GET." + stream, []byte(by), nil}
	}
	return question{"$JS.API.STREAM.MSG.GET." + stream, []byte(by), nil}
}

func bySequence(position uint64) string { return `{"seq":` + strconv.FormatUint(position, 10) + `}` }
func bySubject(subject string) string   { return `{"last_by_subj":"` + subject + `"}` }

// got reads the answer to that question. errNone: there is no such message.
func got(m *client.Msg) (is stored, err error) {
	if err := reply(m); err != nil {
		return is, err
	}
	if m.Header != nil {
		if m.Header.Get("Status") == "404" {
			return is, errNone
		}
		// (a message of a liar has headers of its own in front of the server's: the last ones count)
		is.Subject, is.Data = last(m.Header["Nats-Subject"]), m.Data
		if is.Position, err = strconv.ParseUint(last(m.Header["Nats-Sequence"]), 10, 64); err != nil {
			return is, errOther
		}
		if is.Time, err = time.Parse(time.RFC3339Nano, last(m.Header["Nats-Time-Stamp"])); err != nil {
			return is, errOther
		}
		return is, nil
	}
	var whole struct {
		Message *stored
		Error   *client.APIError
	}
	if err := json.Unmarshal(m.Data, &whole); err != nil {
		return is, errOther
	}
	if whole.Error != nil {
		if whole.Error.ErrorCode == noMessage {
			return is, errNone
		}
		return is, whole.Error
	}
	if whole.Message == nil {
		return is, errOther
	}
	return *whole.Message, nil
}

func last(all []string) string {
	if len(all) == 0 {
		return ""
	}
	return all[len(all)-1]
}
