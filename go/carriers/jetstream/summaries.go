package jetstream

import (
	"errors"
	"math/rand"
	"strings"
	"time"

	"github.com/nats-io/nats.go"

	"svid.example/go/v3/internal/pause"
)

const (
	answerPause = 10 * time.Second // between two messages of an answer, before it counts as broken off
	answerLimit = time.Minute      // for a whole answer
	answerers   = "members"        // the queue group that answers: the broker gives a summary to one of them
	headroom    = 1 << 10          // of a message, for its subject and header
)

// Summaries lets this member repair its record and those of others, until Close: once it is ready and then about every
// so often, it sends what summary returns to another member, and gives the answer to the sink; and it answers the
// summaries of others by what answer returns: messages with what the other does not have, none longer than the broker
// carries. What gets lost comes the next time.
func (g *Group) Summaries(every time.Duration, summary func() ([]byte, error), answer func(summary []byte, most int) ([][]byte, error)) {
	subject := "svid." + g.options.Name + ".summary"
	g.linking.Lock()
	g.hear = func(nc *nats.Conn) {
		if _, err := nc.QueueSubscribe(subject, answerers, func(m *nats.Msg) { g.answer(m, answer) }); err != nil {
			g.log("no summaries", "why", err)
		}
	}
	g.hear(g.conn)
	g.linking.Unlock()
	g.tasks.Add(1)
	go func() {
		defer g.tasks.Done()
		select {
		case <-g.ready:
		case <-g.life.Done():
		}
		for g.life.Err() == nil {
			if err := g.repair(subject, summary); err != nil && g.life.Err() == nil {
				g.log("a summary has no answer", "why", err)
			}
			pause.For(g.life, every/2+time.Duration(rand.Int63n(int64(every)+1))) // Members do not ask all at once.
		}
	}()
}

// repair sends a summary to one other member, and takes its answer, at an inbox where members may publish. (To let them publish wherever
// they are asked to answer would let them publish anywhere.) It is no error that no other member is there.
func (g *Group) repair(subject string, summary func() ([]byte, error)) error {
	text, err := summary()
	if err != nil {
		return err
	}
	nc := g.connection()
	answers, err := nc.SubscribeSync(nats.InboxPrefix + "svid." + g.options.Name + ".answer." + strings.TrimPrefix(nats.NewInbox(), nats.InboxPrefix))
	if err != nil {
		return err
	}
	defer answers.Unsubscribe()
	if err := nc.PublishRequest(subject, answers.Subject, text); err != nil {
		return err
	}
	for end := time.Now().Add(answerLimit); time.Now().Before(end); {
		m, err := answers.NextMsg(answerPause)
		if errors.Is(err, nats.ErrNoResponders) {
			return nil
		}
		if err != nil {
			return err
		}
		if len(m.Data) == 0 {
			return nil
		}
		g.take([]Value{{Kind: Answer, Message: m.Data, From: "an answer"}})
	}
	return errors.New("it took too long")
}

// errNotInbox: a summary wants its answer elsewhere than a member does. Who asks could let another member delete the bucket, by the
// empty message at the end, if that may publish there.
var errNotInbox = errors.New("the summary wants its answer at a subject that is no inbox")

// answer answers the summary of another member; an empty message ends the answer.
func (g *Group) answer(m *nats.Msg, answer func([]byte, int) ([][]byte, error)) {
	parts, err := [][]byte(nil), errNotInbox
	if strings.HasPrefix(m.Reply, nats.InboxPrefix) {
		parts, err = answer(m.Data, int(g.connection().MaxPayload())-headroom)
	}
	if err != nil {
		if held, ok := g.asked.Speak(time.Now()); ok {
			g.log("a summary was not answered", "why", err, "bytes", len(m.Data), "unlogged", held)
		}
		return
	}
	for _, part := range append(parts, nil) {
		if err := m.Respond(part); err != nil {
			g.log("an answer was not sent", "why", err)
			return
		}
	}
}
