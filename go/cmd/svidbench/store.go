package main

import (
	"context"
	"database/sql"
	"fmt"
	"os"
	"path/filepath"
	"strings"
	"sync"
	"sync/atomic"
	"time"

	redigo "github.com/gomodule/redigo/redis"
	client "github.com/nats-io/nats.go"

	"svid.example/go/v3/claims"
	"svid.example/go/v3/claims/nats"
	"svid.example/go/v3/claims/postgres"
	"svid.example/go/v3/claims/redis"
	"svid.example/go/v3/guard"
	"svid.example/go/v3/internal/broker"
	"svid.example/go/v3/svid"
)

// ahead is what svidd has where nothing is said of --ahead.
const ahead = 30

// A server is what a group shares: the broker of its bucket, or its store.
type server interface {
	Start() error
	Answers() bool
	Kill()
	Pid() int
}

// startServer starts one of these: nats, redis or postgres. url is where sidecars reach it.
func startServer(kind, dir string) (s server, url string, err error) {
	dir = filepath.Join(dir, kind)
	if err := os.Mkdir(dir, 0o700); err != nil {
		return nil, "", err
	}
	switch kind {
	case "nats":
		var b *broker.Server
		if b, err = broker.New(dir); err == nil {
			s, url = b, b.URL
		}
	case "redis":
		var r *broker.Redis
		if r, err = broker.NewRedis(dir); err == nil {
			s, url = r, r.URL
		}
	case "postgres":
		// (It runs as another user, who must reach its own folder.)
		if err = os.Chmod(filepath.Dir(dir), 0o711); err == nil {
			err = broker.Own(dir)
		}
		var p *broker.Postgres
		if err == nil {
			p, err = broker.NewPostgres(dir)
		}
		if err == nil {
			s, url = p, p.URL
		}
	default:
		err = fmt.Errorf("no store stands in %s: nats, redis or postgres", kind)
	}
	if err != nil {
		return nil, "", err
	}
	if err := s.Start(); err != nil {
		return nil, "", err
	}
	return s, url, await(kind, func() error {
		if !s.Answers() {
			return fmt.Errorf("no answer")
		}
		return nil
	})
}

// newStore is the store of a group at an address, with the terms of svidd's usual options. It is not open yet.
func newStore(url, name string, replicas int) (claims.Store, error) {
	terms, urls := guard.Terms(longest, ahead), strings.Split(url, ",")
	switch scheme, _, _ := strings.Cut(url, ":"); scheme {
	case "nats", "tls":
		return nats.New(nats.Options{Servers: urls, Name: name, Terms: terms, Replicas: replicas})
	case "postgres":
		return postgres.New(postgres.Options{URLs: urls, Name: name, Terms: terms, Replicas: replicas})
	}
	return redis.New(redis.Options{URLs: urls, Name: name, Terms: terms, Replicas: replicas})
}

// fillStore claims n tokens with random keys in a group's store.
func fillStore(url, name string, n, replicas int) error {
	ctx, cancel := context.WithTimeout(context.Background(), 10*time.Minute)
	defer cancel()
	s, err := newStore(url, name, replicas)
	if err != nil {
		return err
	}
	defer s.Close()
	if _, err := s.Open(ctx); err != nil {
		return err
	}
	uses := randomUses(make([]svid.Use, n))
	var life [16]byte
	mustRead(life[:])
	var next atomic.Int64
	const callers = 8
	failed := make(chan error, callers)
	var working sync.WaitGroup
	for i := 0; i < callers; i++ {
		working.Add(1)
		go func() {
			defer working.Done()
			for {
				last := int(next.Add(claims.MostClaims))
				first := last - claims.MostClaims
				if last > n {
					last = n
				}
				if first >= last {
					return
				}
				if err := claimAll(ctx, s, uses[first:last], life); err != nil {
					failed <- err
					return
				}
			}
		}()
	}
	working.Wait()
	select {
	case err := <-failed:
		return err
	default:
		return nil
	}
}

func claimAll(ctx context.Context, s claims.Store, uses []svid.Use, life [16]byte) error {
	these, found := make([]claims.Claim, len(uses)), make([]claims.Found, len(uses))
	for i, u := range uses {
		these[i] = claims.Claim{Key: u.Key, Expires: u.Expires, Owner: svid.OwnerOfLife(u.ValidatorID, life, u.Expires)}
	}
	s.Put(ctx, these, found)
	for i := range found {
		if found[i].Err != nil {
			return found[i].Err
		}
	}
	return nil
}

// held is how many values or entries there are in the group's bucket or store, and how many bytes they take there: of a disk, and over
// Redis of memory.
func (g *scaled) held() (values, bytes float64, err error) {
	switch s := g.server.(type) {
	case *broker.Redis:
		c, err := redigo.DialURL(s.URL)
		if err != nil {
			return 0, 0, err
		}
		defer c.Close()
		keys, err := redigo.Int64(c.Do("DBSIZE"))
		if err != nil {
			return 0, 0, err
		}
		said, err := redigo.String(c.Do("INFO", "memory"))
		if err != nil {
			return 0, 0, err
		}
		_, rest, _ := strings.Cut(said, "used_memory:")
		_, err = fmt.Sscan(rest, &bytes)
		return float64(keys), bytes, err
	case *broker.Postgres:
		db, err := sql.Open("postgres", g.url)
		if err != nil {
			return 0, 0, err
		}
		defer db.Close()
		err = db.QueryRow(fmt.Sprintf("SELECT count(*), pg_total_relation_size('%[1]s.claim') FROM %[1]s.claim", bucket)).Scan(&values, &bytes)
		return values, bytes, err
	}
	nc, err := client.Connect(g.url)
	if err != nil {
		return 0, 0, err
	}
	defer nc.Close()
	js, err := nc.JetStream()
	if err != nil {
		return 0, 0, err
	}
	stream := "KV_" + bucket
	if g.mode == "strict" {
		stream += "-claims"
	}
	info, err := js.StreamInfo(stream)
	if err != nil {
		return 0, 0, err
	}
	return float64(info.State.Msgs), float64(info.State.Bytes), nil
}
