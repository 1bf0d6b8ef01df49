package jetstream

import (
	"context"
	"encoding/json"
	"errors"
	"fmt"
	"os/exec"
	"strings"
	"sync/atomic"
	"testing"
	"time"

	"github.com/nats-io/nats.go"

	"svid.example/go/v3/internal/broker"
	"svid.example/go/v3/internal/natstest"
	"svid.example/go/v3/internal/patience"
	"svid.example/go/v3/internal/streams"
)

// oldBucket is the bucket as members made it once: a key-value bucket, whose values whoever may publish to it can remove.
var oldBucket = &nats.KeyValueConfig{Bucket: "test", Description: "uses and withdrawals of JWT-SVIDs", History: 1, TTL: time.Hour,
	Storage: nats.FileStorage}

// asDue are the changes by which CHANGELOG.md ("Upgrading") makes such a bucket one that members join.
func asDue(c *nats.StreamConfig) {
	c.AllowRollup, c.DenyPurge, c.DiscardNewPerSubject = false, true, true
}

// due are the settings of the bucket as members make it.
func due(name string) map[string]any {
	return map[string]any{"name": "KV_" + name, "subjects": []string{"$KV." + name + ".>"}, "retention": "limits", "storage": "file",
		"discard": "new", "discard_new_per_subject": true, "max_msgs_per_subject": 1, "max_age": time.Hour, "deny_delete": true,
		"deny_purge": true, "num_replicas": 1}
}

// A bucket that would lose values is not joined, and the error says by which setting, and what is due.
func TestJoinRefusesABucketThatForgets(t *testing.T) {
	t.Parallel()
	s := natstest.Start(t)
	a := join(t, options(1, s.URL))
	if _, err := natstest.JetStream(t, a.conn).AddStream(&nats.StreamConfig{Name: "source", Subjects: []string{"source"}}); err != nil {
		t.Fatal(err)
	}
	const edit, remake = "change them", "stop the whole group"
	without := func(names ...string) func(map[string]any) {
		return func(c map[string]any) {
			for _, name := range names {
				delete(c, name)
			}
		}
	}
	with := func(name string, value any) func(map[string]any) {
		return func(c map[string]any) { c[name] = value }
	}
	both := func(one, other func(map[string]any)) func(map[string]any) {
		return func(c map[string]any) { one(c); other(c) }
	}
	for name, row := range map[string]struct {
		change func(map[string]any)
		want   []string // of the error; none where the bucket is joined
	}{
		"good":            {without(), nil},
		"longer":          {with("max_age", 2*time.Hour), nil},
		"for-good":        {without("max_age"), nil},
		"described":       {with("description", "of someone else"), nil},
		"direct":          {with("allow_direct", true), nil},
		"ids":             {with("duplicate_window", time.Minute), nil},
		"roomy":           {with("max_msg_size", 64<<10), nil},
		"narrow":          {with("max_msg_size", 1000), []string{"max_msg_size is 1000 and must be -1 or at least 65536", edit}},
		"few":             {with("max_msgs", 5), []string{"max_msgs is 5 and must be -1", edit}},
		"full":            {with("max_bytes", 1<<20), []string{"max_bytes is 1048576 and must be -1", edit}},
		"shorter":         {with("max_age", time.Minute), []string{"max_age is 60000000000 and must be 0 or at least 3600000000000 (1h0m0s)", edit}},
		"drops":           {both(with("discard", "old"), without("discard_new_per_subject")), []string{`discard is "old" and must be "new"`, edit}},
		"replaces":        {without("discard_new_per_subject"), []string{"discard_new_per_subject is missing and must be true", edit}},
		"history":         {with("max_msgs_per_subject", 2), []string{"max_msgs_per_subject is 2 and must be 1", edit}},
		"memory":          {with("storage", "memory"), []string{`storage is "memory" and must be "file"`, remake}},
		"interest":        {with("retention", "interest"), []string{`retention is "interest" and must be "limits"`, remake}},
		"work":            {with("retention", "workqueue"), []string{`retention is "workqueue" and must be "limits"`, remake}},
		"deletes":         {without("deny_delete"), []string{"deny_delete is false and must be true", edit}},
		"purges":          {without("deny_purge"), []string{"deny_purge is false and must be true", edit}},
		"rolls-up":        {both(without("deny_purge"), with("allow_rollup_hdrs", true)), []string{"allow_rollup_hdrs is true and must be false", edit}},
		"consumers":       {with("max_consumers", 3), []string{"max_consumers is 3 and must be -1", remake}},
		"says-nothing":    {with("no_ack", true), []string{"no_ack is true and must be left out", edit}},
		"more":            {with("subjects", []string{"$KV.more.>", "else"}), []string{`subjects is ["$KV.more.\u003e","else"] and must be ["$KV.more.\u003e"]`, edit}},
		"less":            {with("subjects", []string{"$KV.less.u.>"}), []string{"subjects is", edit}},
		"says-more":       {with("republish", map[string]any{"src": "$KV.says-more.>", "dest": "heard.>"}), []string{"republish is {", "must be left out", remake}},
		"collects":        {with("sources", []any{map[string]any{"name": "source"}}), []string{"sources is [{", "must be left out", edit}},
		"mirrors":         {both(without("subjects", "discard_new_per_subject"), with("mirror", map[string]any{"name": "source"})), []string{"mirror is {", "must be left out", remake}},
		"several-at-once": {without("deny_delete", "deny_purge"), []string{"deny_delete is false and must be true, deny_purge is false and must be true", edit}},
		"fewer":           {without(), []string{"num_replicas is 1 and must be at least 3", edit}},
	} {
		c := due(name)
		row.change(c)
		if err := a.ask(patient(t), patience.Long, "STREAM.CREATE.KV_"+name, c, new(struct{})); err != nil {
			t.Fatal(name, err)
		}
		o := options(1, s.URL)
		if o.Name = name; name == "fewer" {
			o.Replicas = 3
		}
		wantJoin(t, o, row.want...)
	}
	sealed := due("sealed")
	if err := a.ask(patient(t), patience.Long, "STREAM.CREATE.KV_sealed", sealed, new(struct{})); err != nil {
		t.Fatal(err)
	}
	sealed["sealed"] = true
	if err := a.ask(patient(t), patience.Long, "STREAM.UPDATE.KV_sealed", sealed, new(struct{})); err != nil {
		t.Fatal(err)
	}
	o := options(1, s.URL)
	o.Name = "sealed"
	wantJoin(t, o, "sealed is true and must be left out", remake)
}

// wantJoin wants that a bucket is not joined, with this error, or is joined.
func wantJoin(t *testing.T, o Options, want ...string) {
	t.Helper()
	g, err := Join(patient(t), o, &sink{})
	if err == nil {
		g.Close()
	}
	if (err == nil) != (want == nil) || errors.Is(err, context.DeadlineExceeded) {
		t.Errorf("%s: %v", o.Name, err)
		return
	}
	for _, text := range append(want, "KV_"+o.Name) {
		if err != nil && !strings.Contains(err.Error(), text) {
			t.Errorf("%s: %v, want %q", o.Name, err, text)
		}
	}
}

// Of a setting that only servers of the future know, nobody can say that it forgets nothing. So it must be off.
func TestSettingsOfTheFuture(t *testing.T) {
	t.Parallel()
	g := Group{options: options(1), stream: "KV_test", subject: "$KV.test."}
	for text, good := range map[string]bool{
		`{}`:                          true,
		`{"allow_msg_ttl": false}`:    true,
		`{"allow_msg_ttl": true}`:     false,
		`{"subject_transform": null}`: true,
		`{"subject_transform": {"src": "$KV.test.>", "dest": "else.>"}}`: false,
		`{"first_seq": 0}`:                            true,
		`{"first_seq": 5}`:                            false,
		`{"subject_delete_marker_ttl": 1000000000}`:   false,
		`{"consumer_limits": {}}`:                     true,
		`{"consumer_limits": {"max_ack_pending": 1}}`: false,
		`{"compression": "s2", "metadata": {"a": "b"}, "placement": {"cluster": "c"}}`: true,
		`{"persist_mode": "async"}`: false,
	} {
		due := due("test")
		due["max_msgs"], due["max_bytes"], due["max_consumers"], due["max_msg_size"], due["allow_rollup_hdrs"] = -1, -1, -1, -1, false
		if err := json.Unmarshal([]byte(text), &due); err != nil {
			t.Fatal(err)
		}
		whole, err := json.Marshal(due)
		if err != nil {
			t.Fatal(err)
		}
		var c streams.Config
		if err := json.Unmarshal(whole, &c); err != nil {
			t.Fatal(err)
		}
		if err := g.keeps(c); (err == nil) != good {
			t.Errorf("%s: %v", text, err)
		}
	}
}

// Members that start together may each ask a cluster for the bucket, and one that was made first may be made again. The one that stays counts.
func TestABucketThatAClusterMakesTwice(t *testing.T) {
	t.Parallel()
	ports, err := broker.FreePorts(1)
	if err != nil {
		t.Fatal(err)
	}
	address := fmt.Sprintf("127.0.0.1:%d", ports[0])
	server := exec.Command("nats-server", "-a", "127.0.0.1", "-p", fmt.Sprint(ports[0])) // (without JetStream: the test answers)
	if err := server.Start(); err != nil {
		t.Fatal(err)
	}
	t.Cleanup(func() { server.Process.Kill(); server.Wait() })
	nc := natstest.Connect(t, "nats://"+address)
	g := &Group{conn: nc, stream: "KV_test", subject: "$KV.test.", options: options(1)}
	g.options.Replicas = 3
	first := time.Unix(1700000000, 0).UTC()
	second := first.Add(time.Second)
	var looks atomic.Int64
	config := due("test")
	config["max_msgs"], config["max_bytes"], config["max_consumers"], config["max_msg_size"], config["num_replicas"] = -1, -1, -1, -1, 3
	_, err = nc.Subscribe("$JS.API.STREAM.INFO.KV_test", func(m *nats.Msg) {
		made := first
		if looks.Add(1) >= settled {
			made = second
		}
		text, _ := json.Marshal(map[string]any{"config": config, "created": made, "state": map[string]any{}})
		_ = m.Respond(text)
	})
	if err != nil {
		t.Fatal(err)
	}
	b, err := g.openBucket(patient(t), 0)
	if err != nil || !b.created.Equal(second) || looks.Load() < 2*settled-1 {
		t.Errorf("after %d looks it was made at %v: %v", looks.Load(), b.created, err)
	}
}

// What is in front of the first value is gone: of an empty bucket that is all up to its last one.
func TestWhereABucketBegins(t *testing.T) {
	t.Parallel()
	for _, row := range []struct{ first, last, want uint64 }{{0, 0, 1}, {1, 0, 1}, {1, 7, 1}, {3, 7, 3}, {7, 7, 7}, {8, 7, 8}, {9, 7, 8}, {0, 7, 8}} {
		var info streamInfo
		info.State.First, info.State.Last = row.first, row.last
		if b := bucketOf(info); b.first != row.want || b.last != row.last {
			t.Errorf("%+v: from %d to %d", row, b.first, b.last)
		}
	}
}

// A bucket as members made it once is not joined, and what the error says makes it one that is, with all that is in it, also
// while members read it.
func TestAnOldBucketIsMended(t *testing.T) {
	t.Parallel()
	s := natstest.Start(t)
	by := operator{t, newLiar(t, s.URL).js}
	if _, err := by.js.CreateKeyValue(oldBucket); err != nil {
		t.Fatal(err)
	}
	kept := batch(key(1), [16]byte{1})
	if _, err := by.js.Publish("$KV.test.u.0123456789abcdef0123456789abcdef.1", kept); err != nil {
		t.Fatal(err)
	}
	wantJoin(t, options(2, s.URL), "allow_rollup_hdrs is true and must be false, deny_purge is false and must be true, "+
		"discard_new_per_subject is missing and must be true: change them (nats stream edit)", "docs/SIDECAR-OPERATION.md")
	by.edit(asDue)
	a := join(t, options(2, s.URL))
	wantValues(t, a, Value{Kind: Uses, Position: 1, Message: kept})
	awaitHeld(t, a, tell(t, a, 2))
	if err := newLiar(t, s.URL).put("u.0123456789abcdef0123456789abcdef.1", batchOf(), nil); err == nil {
		t.Error("a second value of a key is not refused")
	}
}

// Members tell the operator when the bucket that they read is changed. They go on, and see what is gone.
func TestABucketThatIsChanged(t *testing.T) {
	t.Parallel()
	s := natstest.Start(t)
	a := join(t, options(1, s.URL))
	awaitHeld(t, a, tell(t, a, 1))
	operator{t, natstest.JetStream(t, a.conn)}.edit(func(c *nats.StreamConfig) { c.MaxBytes = 1 << 20 })
	natstest.Await(t, "a line about it", func() bool { return a.logged("max_bytes is 1048576 and must be -1") })
	awaitHeld(t, a, tell(t, a, 2))
}
