package main

import (
	"bytes"
	"encoding/json"
	"fmt"
	"net/http"
	"net/url"
	"os"
	"os/exec"
	"path/filepath"
	"regexp"
	"strings"
	"testing"

	"svid.example/go/v3/internal/broker"
	"svid.example/go/v3/internal/natstest"
)

// ruleFile is deploy/prometheus/rules.yaml.
type ruleFile struct {
	Groups []struct {
		Rules []struct {
			Alert, Record, Expr string
			Labels, Annotations map[string]string
		}
	}
}

// The rules of deploy/prometheus are good, and each alert is tested: it fires where it is due, for that sidecar alone, and not before.
func TestRulesOfPrometheus(t *testing.T) {
	t.Parallel()
	for _, args := range [][]string{
		{"check", "rules", "rules.yaml"}, {"check", "config", "prometheus.yaml"}, {"test", "rules", "rules_test.yaml"},
	} {
		c := exec.Command("promtool", args...)
		c.Dir = "../../deploy/prometheus"
		if said, err := c.CombinedOutput(); err != nil {
			t.Errorf("promtool %v: %v (it is in Debian's prometheus)\n%s", args, err, said)
		}
	}
	var rules ruleFile
	readYAML(t, "prometheus/rules.yaml", &rules)
	var tests struct {
		Tests []struct {
			Alerts []struct {
				Alertname string
				Due       []any `json:"exp_alerts"`
			} `json:"alert_rule_test"`
		}
	}
	readYAML(t, "prometheus/rules_test.yaml", &tests)
	quiet, fires := map[string]bool{}, map[string]bool{}
	for _, one := range tests.Tests {
		for _, a := range one.Alerts {
			if len(a.Due) == 0 {
				quiet[a.Alertname] = true
			} else {
				fires[a.Alertname] = true
			}
		}
	}
	for _, rule := range rules.Groups[0].Rules {
		if rule.Alert == "" {
			continue
		}
		if !quiet[rule.Alert] || !fires[rule.Alert] {
			t.Errorf("%s has no test in which it fires, and one in which it does not", rule.Alert)
		}
		if rule.Annotations["summary"] == "" || rule.Annotations["action"] == "" || rule.Labels["severity"] != "page" && rule.Labels["severity"] != "ticket" {
			t.Errorf("%s: %v %v", rule.Alert, rule.Labels, rule.Annotations)
		}
	}
}

// A prometheus is a running one.
type prometheus struct {
	*process // the sidecar that it scrapes
	at       string
}

// startPrometheus starts one with the files of deploy/prometheus, which scrapes this sidecar often.
func startPrometheus(t *testing.T, p *process, metrics string) *prometheus {
	t.Helper()
	folder := t.TempDir()
	for _, name := range []string{"prometheus.yaml", "rules.yaml"} {
		text, err := os.ReadFile(filepath.Join("../../deploy/prometheus", name))
		if err != nil {
			t.Fatal(err)
		}
		text = bytes.ReplaceAll(text, []byte("127.0.0.1:9902"), []byte(metrics))
		text = regexp.MustCompile(`(scrape|evaluation)_interval: 15s`).ReplaceAll(text, []byte("${1}_interval: 200ms"))
		if err := os.WriteFile(filepath.Join(folder, name), text, 0o600); err != nil {
			t.Fatal(err)
		}
	}
	it := &prometheus{p, freeAddress(t)}
	var said lines
	run := exec.Command("prometheus", "--config.file="+filepath.Join(folder, "prometheus.yaml"), "--storage.tsdb.path="+filepath.Join(folder, "data"),
		"--web.listen-address="+it.at, "--log.level=warn")
	run.Dir, run.Stdout, run.Stderr = folder, &said, &said
	if err := run.Start(); err != nil {
		t.Fatalf("%v: install Debian's prometheus", err)
	}
	t.Cleanup(func() {
		_ = run.Process.Kill()
		_ = run.Wait()
		if t.Failed() {
			t.Logf("prometheus: %s", &said)
		}
	})
	it.await("the first scrapes", func() bool { return len(it.query(`count_over_time(up{job="svidd"}[1m]) > 3`)) > 0 })
	return it
}

// api asks the API of Prometheus. It tells whether the answer is a good one.
func (p *prometheus) api(path string, into any) error {
	answer, err := http.Get("http://" + p.at + "/api/v1/" + path)
	if err != nil {
		return err
	}
	defer answer.Body.Close()
	var text struct {
		Status, Error string
		Data          json.RawMessage
	}
	if err := json.NewDecoder(answer.Body).Decode(&text); err != nil {
		return err
	}
	if text.Status != "success" {
		return fmt.Errorf("%s: %s", text.Status, text.Error)
	}
	return json.Unmarshal(text.Data, into)
}

// query returns the samples of an expression now, or nil without an answer.
func (p *prometheus) query(expr string) []any {
	var data struct{ Result []any }
	if err := p.api("query?query="+url.QueryEscape(expr), &data); err != nil {
		return nil
	}
	return data.Result
}

// alerts are those that are pending or fire.
func (p *prometheus) alerts() map[string]bool {
	var data struct {
		Alerts []struct{ Labels map[string]string }
	}
	all := map[string]bool{}
	if err := p.api("alerts", &data); err == nil {
		for _, a := range data.Alerts {
			all[a.Labels["alertname"]] = true
		}
	}
	return all
}

// dashboard is deploy/grafana/svidd.json.
type dashboard struct {
	Templating struct {
		List []struct{ Name, Type, Query string }
	}
	Panels []struct {
		Title, Type, Description string
		Targets                  []struct{ Expr string }
	}
}

// A Prometheus scrapes a sidecar, by the files of deploy/prometheus: each rule can be evaluated, and the alerts of a good sidecar are
// none. Each query of the dashboard has an answer, and each metric of the sidecar is in the dashboard.
func TestPrometheusAndTheDashboard(t *testing.T) {
	t.Parallel()
	server := natstest.Start(t)
	store, url := stores["Redis"](t)
	metrics, state := freeAddress(t), filepath.Join(t.TempDir(), "state")
	p := start(t, bundleOption(bundleFile(t, example)), "--replay", "once", "--nats", server.URL, "--store", url, "--state", state, "--metrics", metrics)
	prom := startPrometheus(t, p, metrics)
	one := token(t, "one", lasting)
	p.want(one, 200, "")
	p.want(one, 401, "Replayed")

	text, err := os.ReadFile("../../deploy/grafana/svidd.json")
	if err != nil {
		t.Fatal(err)
	}
	var board dashboard
	if err := json.Unmarshal(text, &board); err != nil {
		t.Fatal(err)
	}
	values := strings.NewReplacer("$job", "svidd", "$instance", ".*", "$__rate_interval", "10s")
	queries := 0
	for _, panel := range board.Panels {
		if panel.Title == "" || panel.Description == "" || len(panel.Targets) == 0 {
			t.Errorf("a panel without a title, a description or a query: %+v", panel)
		}
		for _, target := range panel.Targets {
			queries++
			expr := values.Replace(target.Expr)
			if strings.Contains(expr, "$") {
				t.Errorf("%s: a variable that Grafana does not know here: %s", panel.Title, expr)
			}
			prom.await("an answer to "+expr, func() bool { return len(prom.query(expr)) > 0 })
		}
	}
	for _, variable := range board.Templating.List {
		if inside := strings.TrimSuffix(strings.TrimPrefix(variable.Query, "label_values("), ")"); variable.Type == "query" {
			series, label, _ := cutLast(inside, ", ")
			if got := prom.query(values.Replace("count by (" + label + ") (" + series + ")")); len(got) != 1 {
				t.Errorf("the variable %s has the values %v", variable.Name, got)
			}
		}
	}
	_, _, page := p.at(metrics, "/metrics", "")
	for _, found := range regexp.MustCompile(`(?m)^# TYPE (\S+) `).FindAllStringSubmatch(page, -1) {
		if !bytes.Contains(text, []byte(found[1])) {
			t.Errorf("the dashboard does not have %s", found[1])
		}
	}
	t.Logf("%d queries of %d panels", queries, len(board.Panels))

	var rules struct {
		Groups []struct {
			Rules []struct{ Name, Health, LastError string }
		}
	}
	evaluated := func() (bad string) {
		if err := prom.api("rules", &rules); err != nil || len(rules.Groups) == 0 {
			return fmt.Sprint("no rules: ", err)
		}
		for _, r := range rules.Groups[0].Rules {
			if r.Health != "ok" {
				bad += r.Name + " " + r.Health + " " + r.LastError + "\n"
			}
		}
		return bad
	}
	prom.await("each rule to be evaluated", func() bool { return evaluated() == "" })
	// Each metric of a rule is one that the sidecar has.
	var file ruleFile
	readYAML(t, "prometheus/rules.yaml", &file)
	for _, rule := range file.Groups[0].Rules {
		for _, name := range regexp.MustCompile(`\bsvidd[_:][a-z0-9_:]+`).FindAllString(rule.Expr, -1) {
			prom.await("the metric "+name+" of "+rule.Alert+rule.Record, func() bool { return len(prom.query(name)) > 0 })
		}
	}
	// (One token of two is a replay here. While the machine has no time for it, a sidecar is down, and for minutes after that it was slow.)
	prom.await("no alert of a good sidecar but that of replays", func() bool {
		alerts := prom.alerts()
		delete(alerts, "SviddReplays")
		delete(alerts, "SviddSlow")
		return len(alerts) == 0
	})
	// The store is emptied. It goes away, and then the broker, the state folder and the sidecar.
	if _, err := store.(*broker.Redis).Do("FLUSHALL"); err != nil {
		t.Fatal(err)
	}
	prom.await("the alert of entries that were lost", func() bool { return prom.alerts()["SviddEntriesLost"] })
	store.Kill()
	prom.await("the alert of a store that is away", func() bool { return prom.alerts()["SviddStoreAway"] })
	server.Kill()
	prom.await("the alert of a broker that is away", func() bool { return prom.alerts()["SviddBrokerAway"] })
	if prom.alerts()["SviddNotReady"] {
		t.Error("a sidecar of mode once is not ready without others")
	}
	if err := os.Rename(state, state+".moved"); err != nil {
		t.Fatal(err)
	}
	prom.await("the alert of a sidecar that is not ready", func() bool { return prom.alerts()["SviddNotReady"] })
	p.kill()
	prom.await("the alert of a sidecar that is gone", func() bool { return prom.alerts()["SviddDown"] })
}

// cutLast cuts a text at the last separator.
func cutLast(text, separator string) (before, after string, found bool) {
	if i := strings.LastIndex(text, separator); i >= 0 {
		return text[:i], text[i+len(separator):], true
	}
	return text, "", false
}
