package jetstream

import (
	"context"
	"encoding/json"
	"errors"
	"fmt"
	"time"

	"github.com/nats-io/nats.go"

	"svid.example/go/v3/internal/brief"
	"svid.example/go/v3/internal/streams"
)

// The API of JetStream, as far as the client's own calls would leave out what matters: a setting that the client does not
// know, or a value whose header it takes for a mark of the broker.

// A streamInfo is what the broker says about the bucket's stream.
type streamInfo struct {
	Config  streams.Config
	Created time.Time
	State   struct {
		First uint64 `json:"first_seq"`
		Last  uint64 `json:"last_seq"`
	}
}

// A stored is a value as the broker has it.
type stored struct {
	Position uint64 `json:"seq"`
	Subject  string
	Data     []byte
	Time     time.Time
}

// errDelivered: what came is a value of some stream, which has a subject for its acknowledgement. A member may let the broker deliver values
// to the inboxes of others, and the client takes one for the answer to the one request that waits, whatever it is.
var errDelivered = errors.New("a value came in the place of the broker's answer")

// ask asks the API, waits so long, and reads the answer into out.
func (g *Group) ask(ctx context.Context, wait time.Duration, what string, in, out any) error {
	ctx, cancel := context.WithTimeout(ctx, wait)
	defer cancel()
	var request []byte
	if in != nil {
		var err error
		if request, err = json.Marshal(in); err != nil {
			return err
		}
	}
	m, err := g.connection().RequestWithContext(ctx, "$JS.API."+what, request)
	if err != nil {
		return err
	}
	if m.Reply != "" {
		return errDelivered
	}
	var failed struct{ Error *nats.APIError }
	if err := json.Unmarshal(m.Data, &failed); err != nil {
		return fmt.Errorf("an answer of the broker is no JSON: %w", err)
	}
	if failed.Error != nil {
		failed.Error.Description = brief.Text(failed.Error.Description, brief.Most)
		return failed.Error
	}
	return json.Unmarshal(m.Data, out)
}

// info asks for the bucket's stream as it is. The error is nats.ErrStreamNotFound where there is none.
func (g *Group) info(ctx context.Context, wait time.Duration) (info streamInfo, err error) {
	err = g.ask(ctx, wait, "STREAM.INFO."+g.stream, nil, &info)
	return info, err
}

// get asks for a stored value: by {"seq": position}, by {"last_by_subj": subject}, or, from a position on, by {"seq": position,
// "next_by_subj": subject}. The error is nats.ErrMsgNotFound where there is none.
func (g *Group) get(ctx context.Context, wait time.Duration, by map[string]any) (stored, error) {
	var answer struct{ Message stored }
	err := g.ask(ctx, wait, "STREAM.MSG.GET."+g.stream, by, &answer)
	return answer.Message, err
}
