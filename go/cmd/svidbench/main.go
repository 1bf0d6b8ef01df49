// Svidbench makes what tools/bench/sidecar measures with, and measures what wrk can't: the group as it grows.
//
//	svidbench mint --tokens N --out DIR             DIR/bundle.json, and DIR/tokens, one a line; --algorithm RS256 for
//	                                                another than ES256, --keys N for a bundle of so many keys
//	svidbench record --uses N                       a record of N uses, on standard output
//	svidbench fill --nats URL --group NAME --uses N puts N uses into a group's bucket; --store URL claims N tokens in its store
//	svidbench scale --svidd FILE --members N        a group of N sidecars on this machine, as a row of a table; --mode strict
//	                                                --store KIND over a store in nats, redis or postgres
//	svidbench group --store KIND --members 3,30     groups of mode strict over a store, beside a plain peer: --svidd FILE for members
//	                                                that are processes, and else guards in this one
//	svidbench simulate                              what a bucket and a sidecar of mode once bear, to 1,000 sidecars
package main

import (
	"bufio"
	"crypto/ecdsa"
	"crypto/elliptic"
	"crypto/rand"
	"encoding/json"
	"flag"
	"fmt"
	"io"
	"os"
	"path/filepath"
	"runtime"
	"sort"
	"sync"
	"time"

	"svid.example/go/v3/internal/issuer"
	"svid.example/go/v3/svid"
)

const (
	domain   = "example.org"
	audience = "ledger"
	longest  = 7200 // seconds that a token lives at the most
)

var commands = map[string]func(*flag.FlagSet, []string) error{
	"mint": mint, "record": record, "fill": fill, "scale": scale, "group": group, "simulate": simulate,
}

func main() {
	if len(os.Args) < 2 || commands[os.Args[1]] == nil {
		fmt.Fprintln(os.Stderr, "usage: svidbench mint|record|fill|scale|group|simulate [option..]")
		os.Exit(2)
	}
	f := flag.NewFlagSet("svidbench "+os.Args[1], flag.ExitOnError)
	if err := commands[os.Args[1]](f, os.Args[2:]); err != nil {
		fmt.Fprintln(os.Stderr, "svidbench:", err)
		os.Exit(1)
	}
}

// mint makes tokens that live for an hour, each with a jti of its own.
func mint(f *flag.FlagSet, args []string) error {
	n := f.Int("tokens", 1000, "how many")
	out := f.String("out", ".", "the folder")
	algorithm := f.String("algorithm", "ES256", "what signs them")
	keys := f.Int("keys", 0, "how many keys the bundle has; 0 for one of each type and curve")
	f.Parse(args)
	i, err := issuer.New(domain)
	if err != nil {
		return err
	}
	bundle := []byte(i.JWKSet())
	if *keys > 0 {
		if bundle, err = bundleOf(i, *algorithm, *keys); err != nil {
			return err
		}
	}
	if err := os.WriteFile(filepath.Join(*out, "bundle.json"), bundle, 0o644); err != nil {
		return err
	}
	file, err := os.Create(filepath.Join(*out, "tokens"))
	if err != nil {
		return err
	}
	w := bufio.NewWriter(file)
	for _, token := range mintAll(i, *algorithm, *n, "token") {
		fmt.Fprintln(w, token)
	}
	if err := w.Flush(); err != nil {
		return err
	}
	return file.Close()
}

// bundleOf is a JWK set of the issuer's key for the algorithm, behind other keys, of P-256, which sign nothing.
func bundleOf(i *issuer.Issuer, algorithm string, keys int) ([]byte, error) {
	var own struct{ Keys []map[string]string }
	if err := json.Unmarshal(i.JWKSet(), &own); err != nil {
		return nil, err
	}
	var set struct {
		Keys []map[string]string `json:"keys"`
	}
	for len(set.Keys) < keys-1 {
		key, err := ecdsa.GenerateKey(elliptic.P256(), rand.Reader)
		if err != nil {
			return nil, err
		}
		set.Keys = append(set.Keys, issuer.ECKey(fmt.Sprintf("other-%d", len(set.Keys)), &key.PublicKey))
	}
	for _, key := range own.Keys {
		if key["kid"] == issuer.KeyID(algorithm) {
			set.Keys = append(set.Keys, key)
		}
	}
	return json.Marshal(set)
}

// mintAll makes n tokens on all processors.
func mintAll(i *issuer.Issuer, algorithm string, n int, name string) []string {
	tokens, exp := make([]string, n), time.Now().Unix()+longest/2
	var workers sync.WaitGroup
	step := runtime.NumCPU()
	for first := 0; first < step; first++ {
		workers.Add(1)
		go func(first int) {
			defer workers.Done()
			for k := first; k < n; k += step {
				tokens[k] = i.Token(algorithm, map[string]any{"sub": i.Subject("/billing/api"), "aud": audience, "exp": exp,
					"iat": exp - longest/2, "jti": fmt.Sprintf("%s-%d", name, k)})
			}
		}(first)
	}
	workers.Wait()
	return tokens
}

// record writes a record of uses with random keys that are live for an hour.
func record(f *flag.FlagSet, args []string) error {
	n := f.Int("uses", 1000, "how many")
	f.Parse(args)
	const most = 4096 // uses in a batch
	w := bufio.NewWriter(os.Stdout)
	for ; *n > 0; *n -= most {
		uses := make([]svid.Use, most)
		if *n < most {
			uses = uses[:*n]
		}
		if err := writeBatch(w, randomUses(uses)); err != nil {
			return err
		}
	}
	return w.Flush()
}

// randomUses gives uses random keys. All expire within an hour.
func randomUses(uses []svid.Use) []svid.Use {
	now := svid.Now()
	for i := range uses {
		u := &uses[i]
		mustRead(u.Key[:])
		u.At, u.Expires, u.ValidatorID = now, now+longest/2-uint64(u.Key[0]), svid.ValidatorID{1}
	}
	sort.Slice(uses, func(i, k int) bool {
		if uses[i].Expires != uses[k].Expires {
			return uses[i].Expires < uses[k].Expires
		}
		return string(uses[i].Key[:]) < string(uses[k].Key[:])
	})
	return uses
}

// writeBatch writes uses of one moment as batches.
func writeBatch(w io.Writer, uses []svid.Use) error {
	batches, err := svid.Batches(uses)
	if err != nil {
		return err
	}
	_, err = w.Write(batches)
	return err
}

func mustRead(b []byte) {
	if _, err := rand.Read(b); err != nil {
		panic(err)
	}
}
