package redis

import (
	"context"
	"errors"
	"fmt"
	"strconv"
	"strings"
	"time"

	"github.com/gomodule/redigo/redis"

	"svid.example/go/v3/claims"
)

const leastVersion = 7

// settings are those of the server by which it keeps what it has answered.
var settings = map[string]string{"appendonly": "yes", "appendfsync": "always", "no-appendfsync-on-rewrite": "no", "maxmemory-policy": "noeviction"}

// check looks at the server's settings, at times. isKnown says that a member has found all of the run's entries on its disk before.
func (s *Store) check(ctx context.Context, c *conn, run string, isKnown bool) error {
	s.mu.Lock()
	was, there := s.checked[run]
	s.mu.Unlock()
	if there && time.Since(was.at) < checkEvery && was.settled {
		return nil
	}
	answers, err := c.do(ctx, cmd("INFO", "server"), cmd("INFO", "persistence"),
		cmd("CONFIG", "GET", "appendonly", "appendfsync", "no-appendfsync-on-rewrite", "maxmemory-policy"))
	if err != nil {
		return err
	}
	if err := firstFailure(answers[:2]); err != nil {
		return err
	}
	version := field(textOf(answers[0]), "redis_version")
	number, _, _ := strings.Cut(version, ".")
	if n, err := strconv.Atoi(number); err != nil || n < leastVersion {
		return claims.Unfitf("the server is of version %q, and the claims need Redis %d.0 or newer", version, leastVersion)
	}
	if !s.unchecked {
		err = wrongSettings(answers[2])
	}
	persistence := textOf(answers[1])
	settled := err == nil && (s.unchecked || field(persistence, "aof_rewrite_in_progress") == "0" && field(persistence, "aof_rewrite_scheduled") == "0" &&
		field(persistence, "aof_last_bgrewrite_status") == "ok")
	if err == nil && there && was.settled || err == nil && !there && isKnown {
		settled = true // (a rewrite of a file that has all is under way)
	}
	s.mu.Lock()
	defer s.mu.Unlock()
	if len(s.checked) > 64 { // (old runs)
		s.checked = make(map[string]checked)
	}
	s.checked[run] = checked{time.Now(), settled}
	if err == nil && !settled {
		err = errors.New("the server writes its first append-only file now, and would lose all if it ended meanwhile: wait until INFO persistence says " +
			"aof_rewrite_in_progress:0 and aof_last_bgrewrite_status:ok")
	}
	return err
}

// wrongSettings is nil for an answer to CONFIG GET by which the server keeps what it has answered.
func wrongSettings(answer any) error {
	is, _ := answer.([]any)
	if len(is) != 2*len(settings) {
		why := fmt.Sprintf("it tells %d of %d", len(is)/2, len(settings))
		if fault, failed := answer.(redis.Error); failed {
			why = string(fault)
		}
		return claims.Unfitf("the server does not tell its settings (CONFIG GET: %s): see that it has appendonly yes, appendfsync always, "+
			"no-appendfsync-on-rewrite no and maxmemory-policy noeviction, and write ?settings=unchecked after the address", why)
	}
	var wrong []string
	for i := 0; i+1 < len(is); i += 2 {
		name, value := textOf(is[i]), textOf(is[i+1])
		if due := settings[name]; value != due {
			wrong = append(wrong, fmt.Sprintf("%s is %s and must be %s", name, value, due))
		}
	}
	if len(wrong) > 0 {
		return claims.Unfitf("the server may lose claims: %s (set them in redis.conf)", strings.Join(wrong, ", "))
	}
	return nil
}
