package main

import (
	"context"
	"errors"
	"flag"
	"fmt"
	"strings"
	"time"

	"svid.example/go/v3/carriers"
	"svid.example/go/v3/carriers/jetstream"
	"svid.example/go/v3/claims"
	"svid.example/go/v3/claims/nats"
	"svid.example/go/v3/claims/postgres"
	"svid.example/go/v3/claims/redis"
	"svid.example/go/v3/guard"
	"svid.example/go/v3/internal/brief"
	"svid.example/go/v3/internal/server"
)

// A kind is what a group's store stands in.
type kind struct {
	name    string
	schemes []string // of its addresses: an error names the first two
	port    string   // of an address that has none
	store   func(o *options, said func(event string, fields ...any)) (claims.Store, error)
}

// kinds are those that there are. Another store is a row here.
var kinds = []kind{
	{"Redis", []string{"redis", "rediss", "redis+sentinel", "rediss+sentinel", "unix"}, "6379", inRedis},
	{"PostgreSQL", []string{"postgres", "postgresql"}, "5432", inPostgres},
	{"NATS", []string{"nats", "tls", "ws", "wss"}, "4222", inNATS},
}

func inRedis(o *options, _ func(event string, fields ...any)) (claims.Store, error) {
	return redis.New(redis.Options{URLs: o.stores, Name: o.group, Terms: o.terms(), Replicas: o.replicas})
}

func inPostgres(o *options, _ func(event string, fields ...any)) (claims.Store, error) {
	return postgres.New(postgres.Options{URLs: o.stores, Name: o.group, Terms: o.terms(), Replicas: o.replicas})
}

func inNATS(o *options, said func(event string, fields ...any)) (claims.Store, error) {
	connect, err := o.files.Connect()
	if err != nil {
		return nil, err
	}
	return nats.New(nats.Options{Servers: o.stores, Name: o.group, Terms: o.terms(), Replicas: o.replicas, Connect: connect, Log: said})
}

// ofScheme is the kind whose addresses begin so; its name is "" where there is none.
func ofScheme(scheme string) kind {
	for _, it := range kinds {
		for _, each := range it.schemes {
			if each == scheme {
				return it
			}
		}
	}
	return kind{}
}

// kindOf says what addresses stand for; its name is "" where there is none, or where one is of another kind than the first: wrong is its number
// then.
func kindOf(addresses []string) (found kind, wrong int) {
	for i, address := range addresses {
		scheme, _, _ := strings.Cut(address, "://")
		is := ofScheme(scheme)
		if is.name == "" || found.name != "" && is.name != found.name {
			return kind{}, i + 1
		}
		found = is
	}
	return found, 0
}

// beginnings are those of addresses of a store, for an error.
func beginnings() string {
	var all []string
	for _, it := range kinds {
		for _, scheme := range it.schemes[:min(2, len(it.schemes))] {
			all = append(all, scheme+"://")
		}
	}
	last := len(all) - 1
	return strings.Join(all[:last], ", ") + " or " + all[last]
}

// isGrouped says whether the sidecar tells others of its uses.
func (o *options) isGrouped() bool { return len(o.logs) > 0 || len(o.servers()) > 0 }

// groupProblems is what is wrong with --store, --group-log and --nats.
func (o *options) groupProblems(all *problems) {
	once := server.Mode(o.replay) == server.Once
	log, wrong := kindOf(o.logs)
	all.wrong(wrong > 0, "--group-log: address %d must begin with nats:// or tls://, as all others do", wrong)
	all.wrong(log.name != "" && log.name != "NATS", "--group-log: a log stands in NATS. Over %s tokens are claimed in a store: --replay strict --store", log.name)
	all.wrong(len(o.logs) > 0 && len(o.nats) > 0, "--group-log and --nats both say what carries the group: give one of them")
	all.wrong(!once && o.isGrouped(), "--group-log and --nats are for --replay once, whose sidecars tell each other of their uses: in %s give --store", o.replay)
	kind, wrong := kindOf(o.stores)
	all.wrong(wrong > 0, "--store: address %d must begin with %s, as all others do", wrong, beginnings())
	all.wrong(o.files != jetstream.Files{} && kind.name != "NATS" && !o.isGrouped(), "--nats-ca, --nats-cert, --nats-key and --nats-creds are for NATS: name the files in the address of --store")
	if _, err := o.files.Connect(); kind.name == "" || kind.name == "NATS" && err != nil {
		return // (what is wrong with the files was said)
	}
	if store, err := o.store(nil); err != nil {
		all.wrong(true, "--store: %v", err)
	} else {
		store.Close()
	}
}

// terms are those of the group's store.
func (o *options) terms() claims.Terms { return guard.Terms(o.longest.value, o.ahead.value) }

// store is the group's store, and nil where there is none.
func (o *options) store(said func(event string, fields ...any)) (claims.Store, error) {
	if kind, _ := kindOf(o.stores); kind.store != nil {
		return kind.store(o, said)
	}
	return nil, nil
}

// unreachedPause is between two looks why the group's store was not reached. Tests set it.
var unreachedPause = 3 * time.Second

// A reaching store says when it was reached: its Open tries again and again, and says nothing before that.
type reaching struct {
	claims.Store
	reached chan struct{}
}

// Open is part of claims.Store, and is called once.
func (r *reaching) Open(ctx context.Context) (claims.State, error) {
	defer close(r.reached)
	return r.Store.Open(ctx)
}

// sayWhyUnreached logs why the group's store was not reached, where that is so for seconds, and whenever it is something else.
func (s *sidecar) sayWhyUnreached(ctx context.Context, reached <-chan struct{}) {
	for said := new(brief.Causes); ; {
		select {
		case <-ctx.Done():
			return
		case <-reached:
			return
		case <-time.After(unreachedPause):
		}
		var faults, warnings problems
		s.storeProblems(&faults, &warnings)
		if all := append(faults, warnings...); len(all) > 0 && said.IsNew(time.Now(), all) {
			s.log.Error("store not reached", errors.New(hideTokens(all.Error())))
		}
	}
}

// groupLog is the log of a group of mode once, and nil where there is none.
func (o *options) groupLog() carriers.Log {
	if !o.isGrouped() {
		return nil
	}
	return jetstream.Options{Files: o.files, Servers: o.servers(), Name: o.group, Replicas: o.replicas}
}

// schema prints what makes a group's store in PostgreSQL.
func schema(args []string, std stdio) int {
	var o options
	var role string
	f := flagsOf("schema", func(f *flag.FlagSet) {
		f.StringVar(&o.group, "group", "", "")
		f.Var(&o.longest, "longest", "")
		f.Var(&o.ahead, "ahead", "")
		f.StringVar(&role, "role", "", "")
	})
	if err := parseWords(f, args); err != nil {
		return fail(std, err)
	}
	var all problems
	all.wrong(f.NArg() > 0, "schema takes no argument")
	all.wrong(!claims.ValidName(o.group), "--group %q can't name a group: use up to 64 letters, digits, - and _", o.group)
	all.wrong(!o.longest.given || o.longest.value == 0 || o.longest.value > mostLongest, "--longest must be from 1 to %d seconds", uint64(mostLongest))
	all.wrong(o.ahead.value > mostAhead, "--ahead must be at most %d seconds", uint64(mostAhead))
	if len(all) > 0 {
		return all.tell(std)
	}
	fmt.Fprint(std.out, postgres.Schema(o.group, o.terms(), role))
	return exitYes
}
