package nats

import (
	"context"
	"encoding/json"
	"errors"
	"fmt"
	"time"

	client "github.com/nats-io/nats.go"

	"svid.example/go/v3/claims"
	"svid.example/go/v3/internal/pause"
	"svid.example/go/v3/internal/streams"
)

// A kind is one of the group's streams.
type kind int

const (
	ofClaims kind = iota
	ofWithdrawals
	ofEpochs
	ofClock
	kinds
)

// The end of a stream's name, the subjects of its messages, and how many bytes one may have.
var (
	endings  = [kinds]string{"", "-withdrawals", "-epochs", "-clock"}
	subjects = [kinds]string{"c.*", "w.*.*", "e.*", "t"}
	most     = [kinds]int64{64, 64, 1024, 16}
)

func (s *Store) stream(k kind) string { return "KV_" + s.o.Name + "-claims" + endings[k] }

// An info is what the server says about a stream.
type info struct {
	Config  streams.Config
	Created time.Time
	State   struct {
		First   uint64 `json:"first_seq"`
		Last    uint64 `json:"last_seq"`
		Deleted uint64 `json:"num_deleted"`
	}
	Cluster *struct{ Leader string }
}

// age is for how long claims and withdrawals stay that these terms have: one is put when its token may live for Lasts by a time that the
// member has read before, and the clock may have stepped back since.
func age(t claims.Terms) time.Duration { return seconds(plus(t.Lasts, t.Margin, t.Back)) }

// seconds is so many seconds, or the most that there are.
func seconds(n uint64) time.Duration {
	if n > uint64(1<<62)/uint64(time.Second) {
		return 1 << 62
	}
	return time.Duration(n) * time.Second
}

// due are the settings that a stream is made with.
func (s *Store) due(k kind) map[string]any {
	due := map[string]any{
		"name": s.stream(k), "subjects": []string{s.base + subjects[k]}, "storage": "file", "retention": "limits",
		"max_msgs_per_subject": 1, "max_msgs": -1, "max_bytes": -1, "max_consumers": -1, "max_age": int64(0), "max_msg_size": most[k],
		"num_replicas": s.o.Replicas, "discard": "new", "discard_new_per_subject": true, "deny_delete": true, "deny_purge": true,
		"allow_direct": true, "duplicate_window": int64(100 * time.Millisecond),
	}
	switch k {
	case ofClaims, ofWithdrawals:
		due["max_age"] = int64(age(s.o.Terms))
		if due["max_age"].(int64) < int64(time.Second) {
			due["max_age"] = int64(time.Second)
		}
	case ofClock:
		due["discard"], due["discard_new_per_subject"] = "old", false
	}
	return due
}

// fit is an *Unfit where a stream with these settings may lose what it has, or can't be written. It says which are wrong, what they are and
// what they must be.
func (s *Store) fit(k kind, c streams.Config, terms claims.Terms) error {
	due := map[string]streams.Setting{}
	for name, value := range s.due(k) {
		due[name] = streams.Exactly(value)
	}
	due["max_msg_size"], due["num_replicas"] = streams.MessageSize(most[k]), streams.Replicas(s.o.Replicas)
	switch k {
	case ofClaims, ofWithdrawals:
		due["max_age"] = streams.Age(age(terms))
	case ofClock:
		due["max_age"] = streams.Any
	}
	wrong, isFixed := c.Wrong(due)
	if wrong == "" {
		return nil
	}
	what := "change them (nats stream edit)"
	if isFixed {
		what = "stop the whole group for as long as a token may live, remove the stream (nats stream rm) and start the group again"
	}
	return claims.Unfitf("claims: the stream %s may lose claims: %s: %s; see docs/STORES.md, \"NATS\"", s.stream(k), wrong, what)
}

// api asks JetStream's API, and reads the answer into out.
func (s *Store) api(ctx context.Context, what string, in, out any) error {
	var request []byte
	if in != nil {
		var err error
		if request, err = json.Marshal(in); err != nil {
			return err
		}
	}
	return s.one(ctx, question{"$JS.API." + what, request, nil}, func(m *client.Msg) error {
		if err := refusal(m); err != nil {
			return err
		}
		if out == nil {
			return nil
		}
		if err := json.Unmarshal(m.Data, out); err != nil {
			return errOther
		}
		return nil
	})
}

// refusal is the error that the server answers, nil for none.
func refusal(m *client.Msg) error {
	if err := reply(m); err != nil {
		return err
	}
	var failed struct{ Error *client.APIError }
	if err := json.Unmarshal(m.Data, &failed); err != nil {
		return errOther
	}
	if failed.Error != nil {
		return failed.Error
	}
	return nil
}

func is(err error, code client.ErrorCode) bool {
	var fault *client.APIError
	return errors.As(err, &fault) && fault.ErrorCode == code
}

// infos asks for all streams as they are; nil for one that is not there.
func (s *Store) infos(ctx context.Context) (all [kinds]*info, err error) {
	for k := range all {
		i := new(info)
		err := s.api(ctx, "STREAM.INFO."+s.stream(kind(k)), nil, i)
		switch {
		case err == nil:
			all[k] = i
		case !is(err, noStream):
			return all, failed("ask for the stream "+s.stream(kind(k)), err)
		}
	}
	return all, nil
}

// make makes a stream. That two members do so at once is no error. While a server that is alone makes it for one, it says to the other that
// their subjects overlap.
//
// Each request has a description of its own. A cluster takes a second request before it has done the first one. If both are equal, the servers
// that run keep the time of the first one as that at which the stream was made, and a server that starts later takes that of the second one.
// If they differ, all servers take the second one's.
func (s *Store) make(ctx context.Context, k kind) error {
	link, err := newLink()
	if err != nil {
		return err
	}
	requests := 0
	request := func() question {
		requests++
		due := s.due(k)
		due["description"] = fmt.Sprintf("claims of svid's group %s, request %s-%d", s.o.Name, link, requests)
		data, _ := json.Marshal(due) // (of texts, numbers and booleans alone)
		return question{"$JS.API.STREAM.CREATE." + s.stream(k), data, nil}
	}
	for begun := time.Now(); ; {
		err := s.oneOf(ctx, request, refusal)
		if err == nil || is(err, nameInUse) {
			return nil
		}
		if is(err, overlaps) && time.Since(begun) < making {
			if !pause.For(ctx, againWait) {
				return ctx.Err()
			}
			continue
		}
		// What else a server says of a cluster that was just started, it takes back.
		for _, code := range []client.ErrorCode{overlaps, notClustered, notEnabled, notEnabledForAccount} {
			if is(err, code) {
				return claims.Unfitf("claims: the server does not make the stream %s: %v; see docs/STORES.md, \"NATS\"", s.stream(k), err)
			}
		}
		return failed("make the stream "+s.stream(k), err)
	}
}

// plus adds numbers, and ends at the greatest one.
func plus(all ...uint64) (sum uint64) {
	for _, n := range all {
		if sum+n < sum {
			return 1<<64 - 1
		}
		sum += n
	}
	return sum
}
