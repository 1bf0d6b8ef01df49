package main

import (
	"bufio"
	"fmt"
	"io"
	"math/rand"
	"net"
	"net/http"
	"path/filepath"
	"sort"
	"strings"
	"sync"
	"sync/atomic"
	"testing"
	"time"

	"github.com/nats-io/nats.go"

	"svid.example/go/v3/internal/broker"
	"svid.example/go/v3/internal/natstest"
	"svid.example/go/v3/internal/patience"
	"svid.example/go/v3/svid"
)

// several starts n sidecars of a group: of mode once with a log in NATS, and else with a store.
func several(t *testing.T, n int, mode, urls string, more ...string) []*process {
	t.Helper()
	bundle := bundleOption(bundleFile(t, example))
	all := make([]*process, n)
	for i := range all {
		args := []string{bundle, "--replay", mode, "--log", "errors", "--admin", filepath.Join(t.TempDir(), "admin.sock")}
		if mode == "once" {
			args = append(args, "--nats", urls, "--state", filepath.Join(t.TempDir(), "state"))
		}
		for _, url := range strings.Split(urls, ",") {
			if mode != "once" {
				args = append(args, "--store", url)
			}
		}
		all[i] = start(t, append(args, more...)...)
	}
	return all
}

// storm sends each token to all sidecars at the same instant, many tokens at a time,
// and returns how many answered each 200, and how many did not judge it.
func storm(all []*process, tokens []string, atATime int) (accepted, unjudged []int32) {
	return stormCounted(all, tokens, atATime, new(int64))
}

// stormCounted is a storm that counts the tokens that it has begun to send.
func stormCounted(all []*process, tokens []string, atATime int, begun *int64) (accepted, unjudged []int32) {
	accepted, unjudged = make([]int32, len(tokens)), make([]int32, len(tokens))
	next := int64(-1)
	var workers sync.WaitGroup
	for w := 0; w < atATime; w++ {
		workers.Add(1)
		go func() {
			defer workers.Done()
			lines := make([]*line, len(all))
			for n, p := range all {
				lines[n] = &line{address: p.address}
				defer lines[n].close()
			}
			for i := atomic.AddInt64(&next, 1); i < int64(len(tokens)); i = atomic.AddInt64(&next, 1) {
				atomic.AddInt64(begun, 1)
				var asked sync.WaitGroup
				for _, l := range lines {
					asked.Add(1)
					go func(l *line) {
						defer asked.Done()
						switch status, _ := l.check(tokens[i]); status {
						case http.StatusOK:
							atomic.AddInt32(&accepted[i], 1)
						case http.StatusUnauthorized:
						default:
							atomic.AddInt32(&unjudged[i], 1)
						}
					}(l)
				}
				asked.Wait()
			}
		}()
	}
	workers.Wait()
	return accepted, unjudged
}

// A line is a connection to a sidecar, on which one request comes after the other. A storm has its own: for each request Go's client
// takes more time of the processor, under the race detector, than svidd does.
type line struct {
	address string
	conn    net.Conn
	answers *bufio.Reader
}

// check sends a token, and returns the answer. Its status is 0 where none came: then the next request has a new connection.
func (l *line) check(token string) (status int, body string) {
	if l.conn == nil {
		conn, err := net.Dial("tcp", l.address)
		if err != nil {
			return 0, err.Error()
		}
		l.conn, l.answers = conn, bufio.NewReader(conn)
	}
	_ = l.conn.SetDeadline(time.Now().Add(patience.Long))
	if _, err := io.WriteString(l.conn, "GET /check/a//b?c HTTP/1.1\r\nHost: "+l.address+"\r\nAuthorization: Bearer "+token+"\r\n\r\n"); err != nil {
		l.close()
		return 0, err.Error()
	}
	answer, err := http.ReadResponse(l.answers, nil)
	if err != nil {
		l.close()
		return 0, err.Error()
	}
	text, err := io.ReadAll(answer.Body)
	if err != nil || answer.Close {
		l.close()
	}
	return answer.StatusCode, string(text)
}

func (l *line) close() {
	if l.conn != nil {
		l.conn.Close()
		l.conn = nil
	}
}

func tokens(t *testing.T, name string, n int) []string {
	all := make([]string, n)
	for i := range all {
		all[i] = token(t, fmt.Sprint(name, i), 30*time.Minute)
	}
	return all
}

// count says how often each number is there: "1:998 2:2".
func count(numbers []int32) string {
	counts := make(map[int32]int)
	for _, n := range numbers {
		counts[n]++
	}
	var all []string
	for n, c := range counts {
		all = append(all, fmt.Sprintf("%d:%d", n, c))
	}
	sort.Strings(all)
	return strings.Join(all, " ")
}

// In mode strict each token that three sidecars get at once is accepted by exactly one.
func TestStrictAcceptsOnceInTheWholeGroup(t *testing.T) {
	t.Parallel()
	n := many()
	servers := natstest.Cluster(t, 3)
	all := several(t, 3, "strict", strings.Join(broker.URLs(servers), ","), "--replicas", "3")
	accepted, unjudged := storm(all, tokens(t, "strict", n), 16)
	if got := count(accepted); got != fmt.Sprintf("1:%d", n) {
		t.Errorf("accepted %s; unjudged %s", got, count(unjudged))
	}
	t.Logf("%d tokens to 3 sidecars at once: accepted %s, not judged %s", n, count(accepted), count(unjudged))
	// Each sidecar keeps its own uses alone.
	uses := 0
	for _, p := range all {
		p.await("the uses to be counted", func() bool { return p.metric("svidd_record_uses") == p.metric(`svidd_claims_total{outcome="won"}`) })
		var own int
		if _, err := fmt.Sscan(p.metric("svidd_record_uses"), &own); err != nil {
			t.Fatal(err)
		}
		uses += own
	}
	if uses != n {
		t.Errorf("the records have %d uses", uses)
	}
}

// In mode once a token may be accepted by each sidecar, and then every report says so.
func TestOnceReportsWhatTwoAccepted(t *testing.T) {
	t.Parallel()
	n := many()
	server := natstest.Start(t)
	all := several(t, 3, "once", server.URL)
	accepted, unjudged := storm(all, tokens(t, "once", n), 16)
	more, due := 0, 0 // tokens that several accepted, and how often each of these is to say so
	for i, a := range accepted {
		if a < 1 || unjudged[i] != 0 {
			t.Fatalf("token %d: %d accepted it, %d did not judge it", i, a, unjudged[i])
		}
		if a > 1 {
			more, due = more+1, due+int(a)
		}
	}
	text := equalRecords(t, all)
	if !strings.Contains(text, fmt.Sprintf("\ntwice %d\n", more)) {
		t.Errorf("%d tokens were accepted more than once, and the report says %s", more, text[strings.Index(text, "\ntwice ")+1:])
	}
	all[0].await("each sidecar to say which of its tokens another one accepted", func() bool {
		said := 0
		for _, p := range all {
			var own int
			if _, err := fmt.Sscan(p.metric("svidd_accepted_twice_total"), &own); err != nil {
				t.Fatal(err)
			}
			said += own
		}
		return said == due
	})
	lines := 0
	all[0].await("a line of the log for each of them", func() bool { // (no request waits for the log)
		lines = 0
		for _, p := range all {
			lines += len(p.events("accepted twice"))
		}
		return lines >= due
	})
	if lines != due {
		t.Errorf("%d lines of the log say so, and %d are due", lines, due)
	}
	t.Logf("%d tokens to 3 sidecars at once: accepted %s", n, count(accepted))
}

// equalRecords wants the sidecars to have the same uses soon, and returns the report of them.
func equalRecords(t *testing.T, all []*process) string {
	t.Helper()
	var first string
	all[0].await("equal records", func() bool {
		for i, p := range all {
			status, text, errors := here("", "report", "--admin", p.option("--admin"))
			if status != 0 {
				t.Fatalf("report: %s", errors)
			}
			uses := text[strings.IndexByte(text, '\n'):] // moments go with the clock
			if i == 0 {
				first = uses
			} else if uses != first {
				return false
			}
		}
		return true
	})
	return first
}

// option is the value of one of the process's options.
func (p *process) option(name string) string {
	for i, arg := range p.args {
		if arg == name {
			return p.args[i+1]
		}
	}
	return ""
}

// A withdrawal reaches the group, also a sidecar that starts later.
func TestAWithdrawalReachesTheGroup(t *testing.T) {
	t.Parallel()
	server := natstest.Start(t)
	all := several(t, 2, "reuse", server.URL)
	reused := token(t, "reused", lasting)
	all[1].want(reused, 200, "")
	if status, _, err := here("", "withdraw", "--admin", all[0].option("--admin"), reused); status != 0 {
		t.Fatalf("withdraw: %s", err)
	}
	all[1].await("the withdrawal", func() bool { status, _, _ := all[1].check(reused); return status == 401 })
	all[1].end()
	all[1].start()
	all[1].want(reused, 401, "Withdrawn")
}

// Without its broker a strict sidecar judges nothing; one of mode once goes on.
func TestTheBrokerIsAway(t *testing.T) {
	t.Parallel()
	server := natstest.Start(t)
	strict := several(t, 1, "strict", server.URL, "--wait", "8s")[0]
	once := several(t, 1, "once", server.URL)[0]
	var before string
	strict.await("a token that is accepted", func() bool { // (on a busy machine the first ones may wait for too long)
		before = token(t, fmt.Sprint("before", rand.Int()), lasting)
		status, _, _ := strict.check(before)
		return status == 200
	})
	server.Kill()
	status, header, body := strict.check(token(t, "away", lasting))
	if status != 503 || header.Get("Retry-After") == "" || !strings.Contains(body, "unavailable") {
		t.Errorf("strict: %d %v %q", status, header, body)
	}
	strict.want(before, 401, "Replayed")
	alone := token(t, "alone", lasting)
	once.want(alone, 200, "")
	once.want(alone, 401, "Replayed")
	if err := server.Start(); err != nil {
		t.Fatal(err)
	}
	strict.await("the broker again", func() bool {
		status, _, _ := strict.check(token(t, fmt.Sprint(rand.Int()), lasting))
		return status == 200
	})
}

// What others write to the bucket of mode once is put aside where it is no use of a token or too far ahead.
func TestAMemberThatLies(t *testing.T) {
	t.Parallel()
	server := natstest.Start(t)
	p := several(t, 1, "once", server.URL)[0]
	kv := bucket(t, server.URL)
	far := svid.Use{Key: svid.TokenKey{1}, Expires: ^uint64(0), At: ^uint64(0) - 1}
	for name, value := range map[string][]byte{"u.far": batchOf(far), "u.garbage": make([]byte, 900_000), "u.empty": {}} {
		if _, err := kv.Put(name, value); err != nil {
			t.Fatal(err)
		}
	}
	p.await("two values aside", func() bool { return p.metric("svidd_messages_aside_total") == "2" })
	p.want(token(t, "other", lasting), 200, "")
	if status, _, err := here("", "report", "--admin", p.option("--admin")); status != 0 {
		t.Error(err)
	}
}

// stream is JetStream, as an operator asks it.
func stream(t *testing.T, url string) nats.JetStreamContext {
	t.Helper()
	return natstest.JetStream(t, natstest.Connect(t, url))
}

// bucket is the group's bucket, as any member can write to it.
func bucket(t *testing.T, url string) nats.KeyValue {
	t.Helper()
	kv, err := stream(t, url).KeyValue("svid")
	if err != nil {
		t.Fatal(err)
	}
	return kv
}

// A store that lost its entries accepts no token that may have been used before, at any sidecar, also one that starts later. The others
// are accepted.
func TestAStoreThatIsEmptied(t *testing.T) {
	t.Parallel()
	server, url := stores["Redis"](t)
	redis := server.(*broker.Redis)
	first := members(t, 1, url)[0]
	used := token(t, "used", 30*time.Minute)
	first.want(used, 200, "")
	if _, err := redis.Do("FLUSHALL"); err != nil {
		t.Fatal(err)
	}
	first.await("the loss", func() bool { return first.metric("svidd_store_epochs_total") != "0" })
	later := prepare(t, nil, bundleOption(bundleFile(t, example)), "--replay", "strict", "--store", url, "--log", "errors")
	later.launch()
	later.await("the store", func() bool {
		_, why := later.get("/readyz")
		return strings.Contains(why, "no token is accepted that expires before")
	})
	first.want(used, 401, "Replayed") // by its own record
	later.want(used, 503, "EntriesLost")
	until := first.metric("svidd_store_deaf_until_timestamp_seconds")
	if got := later.metric("svidd_store_deaf_until_timestamp_seconds"); got != until || until == "0" {
		t.Errorf("one accepts nothing until %s, and the other until %s", until, got)
	}
	if lines := first.awaitEvents("epoch", 1); fmt.Sprintf("%.0f", lines[0]["until"]) != until {
		t.Errorf("the log says %v", lines)
	}
}

// A state folder in mode strict has what this sidecar accepted, so a token of an earlier life is refused though the store is gone.
func TestAStateFolderBesideAStore(t *testing.T) {
	t.Parallel()
	server, url := stores["Redis"](t)
	p := members(t, 1, url, "--state", filepath.Join(t.TempDir(), "state"))[0]
	one := token(t, "one", 30*time.Minute)
	p.want(one, 200, "")
	p.end()
	if _, err := server.(*broker.Redis).Do("FLUSHALL"); err != nil {
		t.Fatal(err)
	}
	p.start()
	p.want(one, 401, "Replayed")
	p.want(token(t, "two", 30*time.Minute), 200, "")
}

// The line of a token that another sidecar has says whose it is, and a withdrawal of it does too.
func TestWhoHasAToken(t *testing.T) {
	t.Parallel()
	_, url := stores["Redis"](t)
	all := members(t, 2, url, "--log", "decisions")
	one := token(t, "one", lasting)
	all[0].want(one, 200, "")
	all[1].want(one, 401, "Replayed")
	id := fmt.Sprint(all[0].awaitEvents("serving", 1)[0]["validator_id"])
	if lines := all[1].awaitEvents("refused", 1); len(lines) != 1 || lines[0]["used_by"] != id {
		t.Errorf("the log says %v, and %s has it", lines, id)
	}
	status, out, err := here(one, "withdraw", "--admin", all[1].option("--admin"), "-")
	if status != 0 || !strings.HasSuffix(out, "\nused by "+id+"\n") {
		t.Errorf("%d %q %q", status, out, err)
	}
}

// Whatever is killed, no token that was answered 200 is answered 200 again.
func TestKilledAtRandomMoments(t *testing.T) {
	t.Parallel()
	rounds := 8
	if testing.Short() {
		rounds = 3
	}
	t.Run("once", func(t *testing.T) {
		t.Parallel()
		p := start(t, bundleOption(bundleFile(t, example)), "--state", filepath.Join(t.TempDir(), "state"), "--log", "errors")
		killed(t, rounds, p, nil, nil)
	})
	t.Run("strict", func(t *testing.T) {
		t.Parallel()
		servers := natstest.Cluster(t, 3)
		all := several(t, 2, "strict", strings.Join(broker.URLs(servers), ","), "--replicas", "3", "--wait", "2s")
		killed(t, rounds, all[0], all[1:], servers)
	})
}

// killed sends tokens to a sidecar, and to others at the same time, kills it behind a random number of them and one of
// the brokers in every other round, starts them again, and sends all tokens again.
func killed(t *testing.T, rounds int, p *process, others []*process, brokers []*broker.Server) {
	total := 0
	everyone := append([]*process{p}, others...)
	for round := 0; round < rounds; round++ {
		all := tokens(t, fmt.Sprint("round", round, "-"), 150)
		var killing sync.WaitGroup
		var begun int64
		afterSome(&killing, &begun, func() { _ = p.run.Process.Kill() })
		var away *broker.Server
		if len(brokers) > 0 && round%2 == 1 {
			away = brokers[rand.Intn(len(brokers))]
			afterSome(&killing, &begun, away.Kill)
		}
		accepted, _ := stormCounted(everyone, all, 8, &begun)
		killing.Wait()
		p.kill()
		if away != nil {
			if err := away.Start(); err != nil {
				t.Fatal(err)
			}
		}
		p.start()
		again, _ := storm(everyone, all, 8)
		for i := range all {
			if accepted[i]+again[i] > 1 {
				t.Fatalf("round %d: token %d was answered 200 %d times", round, i, accepted[i]+again[i])
			}
			total += int(accepted[i])
		}
	}
	if total == 0 {
		t.Error("no token was accepted before the process was killed")
	}
	t.Logf("killed %d times; %d tokens were answered 200 before, and none of them after it", rounds, total)
}

// afterSome does something once a random number of tokens is on the way: 20 at the least, and up to 8 of these have no answer yet.
func afterSome(group *sync.WaitGroup, begun *int64, do func()) {
	group.Add(1)
	go func() {
		defer group.Done()
		for least := int64(20 + rand.Intn(100)); atomic.LoadInt64(begun) < least; {
			time.Sleep(time.Millisecond)
		}
		do()
	}()
}
