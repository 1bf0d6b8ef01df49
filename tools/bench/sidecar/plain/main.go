// Plain is what a service writes today to accept a JWT-SVID once: Go's HTTP server, and SET NX in Redis, INSERT .. ON CONFLICT DO
// NOTHING in PostgreSQL, or kv.Create in NATS. Without the address of one of these it accepts a token as often as it comes, so it shows
// what a request costs that is verified, and nothing else. tools/bench/sidecar measures svidd beside it.
//
//	plain standard ADDRESS BUNDLE AUDIENCE [STORE]   verifies by the standard library, as little as will do
//	plain jose ADDRESS BUNDLE AUDIENCE [STORE]       verifies by go-jose, in the steps of go-spiffe
//
// STORE is HOST:PORT of a Redis, postgres://USER@HOST:PORT/DATABASE, or nats://HOST:PORT.
package main

import (
	"bufio"
	"errors"
	"fmt"
	"log"
	"net"
	"net/http"
	"os"
	"strings"
	"time"
)

func main() {
	if len(os.Args) != 5 && len(os.Args) != 6 {
		log.Fatal("usage: plain standard|jose ADDRESS BUNDLE AUDIENCE [STORE]")
	}
	bundle, err := os.ReadFile(os.Args[3])
	if err != nil {
		log.Fatal(err)
	}
	makers := map[string]func(bundle []byte, audience string) (verifier, error){"standard": newStandard, "jose": newJose}
	maker := makers[os.Args[1]]
	if maker == nil {
		log.Fatalf("%s is neither standard nor jose", os.Args[1])
	}
	s := &server{}
	if s.verifier, err = maker(bundle, os.Args[4]); err != nil {
		log.Fatal(err)
	}
	if len(os.Args) == 6 {
		if s.used, err = newStore(os.Args[5]); err != nil {
			log.Fatal(err)
		}
	}
	log.Fatal(http.ListenAndServe(os.Args[2], s))
}

// A verifier answers what an accepted token says.
type verifier interface {
	verify(token string) (claims, error)
}

// claims are those that the server needs.
type claims struct {
	Sub, Aud, Jti string
	Exp           int64
}

var errToken = errors.New("bad token")

type server struct {
	verifier
	used store // nil where no token is remembered
}

// A store remembers tokens. first says whether one comes for the first time, and keeps it for so many seconds.
type store interface {
	first(jti string, seconds int64) (bool, error)
}

func newStore(address string) (store, error) {
	if strings.HasPrefix(address, "postgres://") {
		return newTable(address)
	}
	if strings.HasPrefix(address, "nats://") {
		return newBucket(address)
	}
	return &pool{address: address, idle: make(chan *conn, 256)}, nil
}

func (s *server) ServeHTTP(w http.ResponseWriter, r *http.Request) {
	c, err := s.verify(strings.TrimPrefix(r.Header.Get("Authorization"), "Bearer "))
	if err != nil {
		http.Error(w, err.Error(), http.StatusUnauthorized)
		return
	}
	first := true
	if s.used != nil {
		first, err = s.used.first(c.Jti, c.Exp-time.Now().Unix())
	}
	switch {
	case err != nil:
		http.Error(w, err.Error(), http.StatusServiceUnavailable)
	case !first:
		http.Error(w, "replayed", http.StatusUnauthorized)
	default:
		w.Header().Set("X-Spiffe-Id", c.Sub)
	}
}

// A pool keeps connections to Redis that nobody uses at the moment.
type pool struct {
	address string
	idle    chan *conn
}

type conn struct {
	net.Conn
	in *bufio.Reader
}

// first sets a key that is not there, for so many seconds, and says whether it did.
func (p *pool) first(key string, seconds int64) (bool, error) {
	c, err := p.get()
	if err != nil {
		return false, err
	}
	words := []string{"SET", key, "1", "NX", "EX", fmt.Sprint(seconds)}
	var request strings.Builder
	fmt.Fprintf(&request, "*%d\r\n", len(words))
	for _, word := range words {
		fmt.Fprintf(&request, "$%d\r\n%s\r\n", len(word), word)
	}
	if _, err := c.Write([]byte(request.String())); err != nil {
		c.Close()
		return false, err
	}
	answer, err := c.in.ReadString('\n')
	if err != nil {
		c.Close()
		return false, err
	}
	select {
	case p.idle <- c:
	default:
		c.Close()
	}
	switch answer {
	case "+OK\r\n":
		return true, nil
	case "$-1\r\n":
		return false, nil
	}
	return false, errors.New(answer)
}

func (p *pool) get() (*conn, error) {
	select {
	case c := <-p.idle:
		return c, nil
	default:
		c, err := net.Dial("tcp", p.address)
		if err != nil {
			return nil, err
		}
		return &conn{c, bufio.NewReader(c)}, nil
	}
}
