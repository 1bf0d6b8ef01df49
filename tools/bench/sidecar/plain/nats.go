package main

import (
	"errors"
	"time"

	"github.com/nats-io/nats.go"
)

// A bucket remembers tokens in NATS: a key each, which is there once it is created.
type bucket struct{ kv nats.KeyValue }

// newBucket makes the bucket where it is not there.
func newBucket(url string) (*bucket, error) {
	nc, err := nats.Connect(url)
	if err != nil {
		return nil, err
	}
	js, err := nc.JetStream()
	if err != nil {
		return nil, err
	}
	kv, err := js.CreateKeyValue(&nats.KeyValueConfig{Bucket: "used", TTL: 2 * time.Hour})
	return &bucket{kv}, err
}

// first creates a key that is not there, and says whether it did. It stays as long as all others of the bucket.
func (b *bucket) first(jti string, _ int64) (bool, error) {
	_, err := b.kv.Create(jti, []byte("1"))
	if errors.Is(err, nats.ErrKeyExists) {
		return false, nil
	}
	return err == nil, err
}
