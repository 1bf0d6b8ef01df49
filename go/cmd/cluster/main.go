// Cluster runs a group of three sidecars on one machine, over a cluster of three NATS servers, a Redis or a PostgreSQL, and
// behind nginx, and shows what the group promises: examples/cluster/run.
//
//	cluster --svidd FILE --nginx FOLDER [--store nats|redis|postgres] [SCENARIO..]
//
// Without a SCENARIO it shows the short ones. Over Redis and PostgreSQL there are those of mode strict alone. It prints a line for each
// step, and ends with status 1 at the first one that is not as it should be.
package main

import (
	"flag"
	"fmt"
	"os"
	"os/signal"
	"strings"
	"syscall"
	"time"
)

// A scenario is one thing to show.
type scenario struct {
	name string
	long bool // not among those that are shown where none is named
	nats bool // over NATS alone
	show func(*cluster) error
}

var scenarios = []scenario{
	{"strict", false, false, strict},
	{"once", false, true, once},
	{"liar", false, true, liar},
	{"split", false, false, split},
	{"strict-kills", true, false, strictKills},
	{"strict-restarts", true, false, strictRestarts},
	{"once-many", true, true, onceMany},
	{"kills", true, true, kills},
}

func main() {
	svidd := flag.String("svidd", "", "the program svidd")
	nginx := flag.String("nginx", "", "folder of nginx's configurations, with SIDECAR_1, NGINX and so on in the place of addresses")
	store := flag.String("store", "nats", "what the group's store stands in: nats, redis or postgres")
	flag.IntVar(&tokens, "tokens", tokens, "how many tokens the scenarios strict and once send to all sidecars at once")
	flag.IntVar(&manyTokens, "many", manyTokens, "the same for strict-kills and once-many")
	flag.IntVar(&rounds, "rounds", rounds, "how often the scenario kills kills a sidecar")
	flag.Parse()
	chosen, err := choose(flag.Args(), *store)
	if err == nil {
		err = run(chosen, *svidd, *nginx, *store)
	}
	if err != nil {
		fmt.Println("cluster: FAILED:", err)
		os.Exit(1)
	}
}

// choose finds the named scenarios: long ones by "long", all that are short where none is named.
func choose(names []string, store string) ([]scenario, error) {
	var chosen []scenario
	for _, s := range scenarios {
		if len(names) == 0 && !s.long && (store == "nats" || !s.nats) {
			chosen = append(chosen, s)
		}
	}
	for _, name := range names {
		before := len(chosen)
		for _, s := range scenarios {
			if (s.name == name || name == "long" && s.long) && (store == "nats" || !s.nats) {
				chosen = append(chosen, s)
			}
		}
		if len(chosen) == before {
			return nil, fmt.Errorf("no scenario over %s is named %s", store, name)
		}
	}
	return chosen, nil
}

// run starts the brokers once, and shows one scenario after the other. Nothing that it started outlives it, also where
// a signal ends it.
func run(chosen []scenario, svidd, nginx, store string) error {
	c, err := newCluster(svidd, nginx, store)
	if err != nil {
		return err
	}
	defer c.end()
	signals := make(chan os.Signal, 1)
	signal.Notify(signals, syscall.SIGINT, syscall.SIGTERM)
	done := make(chan error, 1)
	go func() {
		for _, s := range chosen {
			from := time.Now()
			c.name = s.name
			if err := s.show(c); err != nil {
				done <- fmt.Errorf("%s: %w%s", s.name, err, c.lastWords())
				return
			}
			c.stopSidecars()
			c.say("as it should be (%.1f s)", time.Since(from).Seconds())
		}
		done <- nil
	}()
	select {
	case err := <-done:
		return err
	case s := <-signals:
		return fmt.Errorf("ended by a signal: %v", s)
	}
}

// say prints a line of the scenario.
func (c *cluster) say(format string, values ...any) {
	fmt.Printf("cluster: %s: %s\n", c.name, fmt.Sprintf(format, values...))
}

// plural is a count with its noun.
func plural(n int, noun string) string {
	if n == 1 {
		return "1 " + noun
	}
	return fmt.Sprintf("%d %ss", n, strings.TrimSuffix(noun, "s"))
}
