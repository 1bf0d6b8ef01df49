package main

import (
	"context"
	"flag"
	"fmt"
	"strings"
	"time"

	"github.com/nats-io/nats.go"

	"svid.example/go/v3/carriers"
	"svid.example/go/v3/carriers/jetstream"
	"svid.example/go/v3/svid"
)

// A deaf sink takes nothing, so that a bucket can be made and filled without a record.
type deaf struct{}

func (deaf) Begin(carriers.Start)          {}
func (deaf) Take([]carriers.Value) []error { return nil }

// fill puts random uses into a group's bucket, each as a value of its own, as a sidecar does at a quiet time: of all
// buckets that has most values. Or it claims as many tokens in a group's store.
func fill(f *flag.FlagSet, args []string) error {
	urls := f.String("nats", "", "the addresses of a bucket's broker")
	store := f.String("store", "", "the addresses of a store")
	name := f.String("group", bucket, "whose")
	n := f.Int("uses", 1000, "how many")
	replicas := f.Int("replicas", 1, "of the bucket or the store")
	f.Parse(args)
	if *store != "" {
		return fillStore(*store, *name, *n, *replicas)
	}
	return fillBucket(*urls, *name, *n, *replicas)
}

func fillBucket(urls, name string, n, replicas int) error {
	ctx, cancel := context.WithTimeout(context.Background(), time.Minute)
	defer cancel()
	g, err := jetstream.Join(ctx, jetstream.Options{Servers: strings.Split(urls, ","), Name: name, TTL: (longest + 60) * time.Second, Replicas: replicas}, deaf{})
	if err != nil {
		return err
	}
	defer g.Close()
	nc, err := nats.Connect(urls)
	if err != nil {
		return err
	}
	defer nc.Close()
	js, err := nc.JetStream(nats.PublishAsyncMaxPending(4096))
	if err != nil {
		return err
	}
	for i, u := range randomUses(make([]svid.Use, n)) {
		message, err := u.Batch()
		if err != nil {
			return err
		}
		if _, err := js.PublishAsync(fmt.Sprintf("$KV.%s.u.%v.%d", name, u.ValidatorID, i+1), message, nats.StallWait(time.Minute)); err != nil {
			return err
		}
	}
	select {
	case <-js.PublishAsyncComplete():
		return nil
	case <-time.After(5 * time.Minute):
		return fmt.Errorf("the broker did not store %d uses in five minutes", n)
	}
}
