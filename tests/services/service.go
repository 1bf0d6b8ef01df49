// Package main reads a token a line, and prints what becomes of it: service once FOLDER, or service MODE URL.
package main

import (
	"bufio"
	"context"
	"errors"
	"fmt"
	"log"
	"os"
	"strings"
	"time"

	"svid.example/go/v3/bundles"
	"svid.example/go/v3/claims/postgres"
	"svid.example/go/v3/claims/redis"
	"svid.example/go/v3/guard"
	"svid.example/go/v3/svid"
)

func main() {
	keys := []bundles.Spec{{Domain: "example.org", Source: "example.org.json"}}
	o := guard.Options{Audiences: []string{"ledger"}, Bundles: keys, Mode: guard.Mode(os.Args[1]), Wait: time.Minute}
	urls, terms, err := os.Args[2:], guard.Terms(3600, 30), error(nil)
	if o.Mode == guard.Once {
		o.State = os.Args[2]
	} else if strings.HasPrefix(urls[0], "postgres") {
		o.Store, err = postgres.New(postgres.Options{URLs: urls, Name: "svid", Terms: terms})
	} else {
		o.Store, err = redis.New(redis.Options{URLs: urls, Name: "svid", Terms: terms})
	}
	if err != nil {
		log.Fatal(err)
	}
	g, err := guard.Open(o)
	if err != nil {
		log.Fatal(err)
	}
	for tokens := bufio.NewScanner(os.Stdin); tokens.Scan(); {
		var why svid.Refusal
		if accepted, err := g.Check(context.Background(), tokens.Text()); err == nil {
			fmt.Println("accepted", accepted.ID)
		} else if errors.As(err, &why) {
			fmt.Println(why.String())
		} else {
			log.Print(err)
			fmt.Println("unavailable")
		}
	}
}
