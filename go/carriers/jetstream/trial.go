package jetstream

import (
	"context"
	"errors"
	"time"

	"github.com/nats-io/nats.go"
)

// Check connects once, and says why a member can't join the group's bucket, or why the broker does not answer as it is to. keep is as in
// carriers.Options. It changes nothing there.
func (o Options) Check(ctx context.Context, keep time.Duration) error {
	connect, err := o.Files.Connect()
	if err != nil {
		return err
	}
	o.Connect, o.TTL = append(connect, o.Connect...), keep
	if err := o.check(); err != nil {
		return err
	}
	g := &Group{options: o, stream: "KV_" + o.Name, subject: "$KV." + o.Name + "."}
	g.life, g.end = context.WithCancel(ctx)
	defer g.end()
	once, cancel := context.WithCancel(ctx)
	cancel() // So it is not tried again.
	if err := g.connect(once); err != nil {
		return err
	}
	defer g.Close()
	info, err := g.info(ctx, attemptWait)
	switch {
	case errors.Is(err, nats.ErrStreamNotFound):
		return nil // It is made.
	case err != nil:
		return err
	}
	return g.keeps(info.Config)
}
