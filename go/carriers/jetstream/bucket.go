package jetstream

import (
	"context"
	"encoding/json"
	"errors"
	"fmt"
	"time"

	"github.com/nats-io/nats.go"

	"svid.example/go/v3/carriers"
	"svid.example/go/v3/internal/streams"
)

// A bucket is what a member knows of the group's bucket when it begins to read it.
type bucket struct {
	created     time.Time
	first, last uint64        // the numbers of its first and last value; first is last+1 where it has none
	keeps       time.Duration // how long it keeps a value; 0 for ever
}

// settled is how often in a row a cluster of brokers must say the same of a new bucket. Members that start together may
// each ask for it, and the time at which it was made may then change after the first look.
const settled = 10

// mostValue is the length that each value of a member has room in: 512 uses are 33 kB, or 42 kB as batches of one use.
const mostValue = 64 << 10

// removing is how long a bucket that was there must be gone before it is made again: a server of NATS says that there is none before it has
// removed the files, and would then remove those of the new one.
const removing = time.Second

// openBucket makes the bucket where there has been none for that time, or opens the one that is there if it keeps what it is given. It
// tries until ctx ends.
func (g *Group) openBucket(ctx context.Context, without time.Duration) (b bucket, err error) {
	said, same, gone := "", 0, time.Time{}
	err = carriers.Persist(ctx, "group: open the bucket", func() (bool, error) {
		info, err := g.info(ctx, attemptWait)
		if errors.Is(err, nats.ErrStreamNotFound) {
			if gone.IsZero() {
				gone = time.Now()
			}
			if time.Since(gone) < without {
				return false, err
			}
			err = g.makeBucket()
			if err == nil {
				return false, nil
			}
		}
		if err != nil {
			g.logChange(&said, "bucket not opened", err)
			return false, err
		}
		if same++; !info.Created.Equal(b.created) {
			same = 1
		}
		b = bucketOf(info)
		isNew := g.options.Replicas > 1 && b.last == 0 && same < settled
		err = g.keeps(info.Config)
		return err != nil || !isNew, err
	})
	return b, err
}

// bucketOf reads what the broker says about a bucket.
func bucketOf(info streamInfo) bucket {
	b := bucket{created: info.Created, first: info.State.First, last: info.State.Last}
	if b.first == 0 || b.first > b.last {
		b.first = b.last + 1
	}
	_ = json.Unmarshal(info.Config["max_age"], &b.keeps)
	return b
}

// makeBucket makes the bucket. That two members do so at once is no error: both ask for the same one.
func (g *Group) makeBucket() error {
	_, err := g.jetStream().AddStream(&nats.StreamConfig{
		Name:                 g.stream,
		Description:          "uses and withdrawals of JWT-SVIDs",
		Subjects:             []string{g.subject + ">"},
		Retention:            nats.LimitsPolicy,
		MaxAge:               g.options.TTL,
		MaxMsgsPerSubject:    1,
		Discard:              nats.DiscardNew,
		DiscardNewPerSubject: true,
		DenyDelete:           true,
		DenyPurge:            true,
		Storage:              nats.FileStorage,
		Replicas:             g.options.Replicas,
	})
	if err != nil {
		return fmt.Errorf("make the bucket: %w", err)
	}
	return nil
}

// settings are those that must have a certain value, so that what is in the bucket stays there until it expires, whoever
// may publish to it.
func (g *Group) settings() map[string]streams.Setting {
	return map[string]streams.Setting{
		"name":                    streams.Exactly(g.stream),
		"subjects":                streams.Exactly([]string{g.subject + ">"}),
		"storage":                 streams.Exactly("file"),
		"retention":               streams.Exactly("limits"), // and not until it is read
		"discard":                 streams.Exactly("new"),
		"discard_new_per_subject": streams.Exactly(true), // A second value of a key is refused, and does not replace the first.
		"max_msgs_per_subject":    streams.Exactly(1),
		"max_msgs":                streams.Exactly(-1),
		"max_bytes":               streams.Exactly(-1), // NATS 2.9 drops the oldest values there, though it is to refuse new ones.
		"max_consumers":           streams.Exactly(-1),
		"deny_delete":             streams.Exactly(true),
		"deny_purge":              streams.Exactly(true),
		"allow_rollup_hdrs":       streams.Exactly(false),
		"max_age":                 streams.Age(g.options.TTL),
		"max_msg_size":            streams.MessageSize(mostValue),
		"num_replicas":            streams.Replicas(g.options.Replicas),
	}
}

// keeps is an error where a bucket with these settings may lose a value before its token has expired, or can't be written
// or read. It says which settings are wrong, what they are and what they must be.
func (g *Group) keeps(c streams.Config) error {
	wrong, isFixed := c.Wrong(g.settings())
	if wrong == "" {
		return nil
	}
	what := "change them (nats stream edit)"
	if isFixed {
		what = "stop the whole group, remove the stream (nats stream rm) and start the group again"
	}
	return fmt.Errorf("group: the bucket %s may lose values: of its stream %s %s: %s; see docs/SIDECAR-OPERATION.md, \"The bucket\"",
		g.options.Name, g.stream, wrong, what)
}
