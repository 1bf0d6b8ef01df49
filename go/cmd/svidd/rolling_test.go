package main

import (
	"fmt"
	"net/http"
	"os"
	"os/exec"
	"path/filepath"
	"strings"
	"sync"
	"testing"
	"time"

	"github.com/nats-io/nats.go"

	"svid.example/go/v3/internal/broker"
	"svid.example/go/v3/internal/natstest"
)

// Three NATS servers are restarted one after the other, as for an upgrade, while sidecars accept tokens. Each token is accepted
// once and at the first try, and no sidecar says that entries are lost. A server that is ended hands over what it leads. Behind one
// that is killed, requests wait for an election, which takes up to nine seconds.
func TestServersOfNATSAreRestarted(t *testing.T) {
	for name, end := range map[string]func(*testing.T, *broker.Server){
		"stopped": func(_ *testing.T, s *broker.Server) { s.Stop() },
		"lame duck": func(t *testing.T, s *broker.Server) {
			if out, err := exec.Command("nats-server", "--signal", fmt.Sprint("ldm=", s.Pid())).CombinedOutput(); err != nil {
				t.Errorf("%v %s", err, out)
			}
			s.Await()
		},
		"killed": func(_ *testing.T, s *broker.Server) { s.Kill() },
	} {
		end := end
		t.Run(name, func(t *testing.T) {
			t.Parallel()
			rolling(t, end)
		})
	}
}

func rolling(t *testing.T, end func(*testing.T, *broker.Server)) {
	config := filepath.Join(t.TempDir(), "nats.conf")
	if err := os.WriteFile(config, []byte("lame_duck_duration: 30s\nlame_duck_grace_period: 1s\n"), 0o600); err != nil {
		t.Fatal(err)
	}
	servers := natstest.Cluster(t, 3, "-c", config)
	all := several(t, 3, "strict", strings.Join(broker.URLs(servers), ","), "--replicas", "3", "--log", "decisions")
	js := stream(t, strings.Join(broker.URLs(servers), ","))
	stop := make(chan struct{})
	var mu sync.Mutex
	var asking sync.WaitGroup
	sent, worst := 0, time.Duration(0)
	wrong := map[string]int{}
	for i := 0; i < 6; i++ {
		asking.Add(1)
		go func(i int) {
			defer asking.Done()
			lines := make([]*line, len(all))
			for n, p := range all {
				lines[n] = &line{address: p.address}
				defer lines[n].close()
			}
			for n := 0; ; n++ {
				select {
				case <-stop:
					return
				case <-time.After(200 * time.Millisecond): // (a busy machine has no time for more)
				}
				one := token(t, fmt.Sprint("rolling", i, ".", n), time.Hour/2)
				from := time.Now()
				status, body := lines[(i+n)%len(all)].check(one)
				took := time.Since(from)
				again, _ := lines[(i+n+1)%len(all)].check(one)
				mu.Lock()
				if sent++; took > worst {
					worst = took
				}
				if status != http.StatusOK || again != http.StatusUnauthorized {
					wrong[fmt.Sprint(status, " ", again, " ", body)]++
				}
				mu.Unlock()
			}
		}(i)
	}
	for _, s := range servers {
		mu.Lock()
		before := sent
		mu.Unlock()
		all[0].await("some tokens", func() bool { mu.Lock(); defer mu.Unlock(); return sent > before+30 })
		end(t, s)
		time.Sleep(time.Second)
		if err := s.Start(); err != nil {
			t.Fatal(err)
		}
		all[0].await("all servers to have the store", func() bool { return isWhole(js) })
	}
	close(stop)
	asking.Wait()
	if len(wrong) > 0 {
		t.Errorf("of %d tokens: %v", sent, wrong)
	}
	t.Logf("%d tokens, each accepted at the first try, within %v at the most", sent, worst)
	for _, p := range all {
		text := p.log.String()
		if epochs := p.metric("svidd_store_epochs_total"); epochs != "0" {
			t.Errorf("%s epochs, and it said: %s", epochs, text)
		}
		if len(p.events("broker lost")) == 0 || len(p.events("broker found")) == 0 {
			t.Errorf("the log does not say that the server was away, and then there: %s", text)
		}
	}
}

// isWhole says whether all servers have the store as it is.
func isWhole(js nats.JetStreamContext) bool {
	for _, stream := range []string{"", "-withdrawals", "-epochs", "-clock"} {
		info, err := js.StreamInfo("KV_svid-claims" + stream)
		if err != nil || info.Cluster == nil || info.Cluster.Leader == "" || len(info.Cluster.Replicas) != 2 {
			return false
		}
		for _, peer := range info.Cluster.Replicas {
			if !peer.Current || peer.Offline {
				return false
			}
		}
	}
	return true
}
