package main

import (
	"bytes"
	"encoding/json"
	"fmt"
	"os"
	"os/exec"
	"path/filepath"
	"reflect"
	"regexp"
	"strings"
	"testing"
)

// TestTenServices makes the manifests of a cluster with ten services of all modes, each by a copy of deploy/kubernetes/ledger of at most twenty lines, over
// each kind of store: each object has a name of its own, each reference leads to an object, each selector to the service's own pods, and each sidecar
// starts with the options that it gets.
func TestTenServices(t *testing.T) {
	folder := filepath.Join(t.TempDir(), "kubernetes")
	if said, err := exec.Command("cp", "-r", "../../deploy/kubernetes", folder).CombinedOutput(); err != nil {
		t.Fatalf("%v: %s", err, said)
	}
	pattern, err := os.ReadFile(filepath.Join(folder, "ledger/kustomization.yaml"))
	must(t, err)
	if lines := bytes.Count(pattern, []byte("\n")); lines > 20 {
		t.Errorf("a service takes %d lines", lines)
	}
	modes := []string{"reuse", "bound", "strict"}
	urls := map[string]string{"redis": "redis://svidd:a@127.0.0.1:1", "nats": "nats://svidd:a@127.0.0.1:1", "postgres": "postgres://svidd:a@127.0.0.1:1/svid?sslmode=disable"}
	services := map[string]string{} // and their modes
	bases := "bases:\n"
	for i := 0; i < 10; i++ {
		name, mode := fmt.Sprint("service", i), modes[i%3]
		services[name] = mode
		text := strings.ReplaceAll(strings.ReplaceAll(string(pattern), "ledger", name), "../strict", "../"+mode)
		must(t, os.MkdirAll(filepath.Join(folder, name), 0o755))
		must(t, os.WriteFile(filepath.Join(folder, name, "kustomization.yaml"), []byte(text), 0o600))
		bases += "  - ../" + name + "\n"
	}
	for store, url := range urls {
		all := filepath.Join(folder, "all-"+store)
		must(t, os.MkdirAll(all, 0o755))
		must(t, os.WriteFile(filepath.Join(all, "kustomization.yaml"), []byte(bases+"  - ../"+store+"\n  - ../monitoring\n"), 0o600))
		rendered := rendered(t, all)
		fleetIsWhole(t, store, rendered, len(services))
		var options = map[string]bool{}
		for name, mode := range services {
			one := find(t, rendered, "Deployment", name+"-service")
			if got := one.container(t, "service").Image; got != "registry.example.org/"+name+":1" {
				t.Errorf("%s: the image %s", name, got)
			}
			for _, kind := range []string{"Service", "ServiceAccount", "PodDisruptionBudget", "NetworkPolicy"} {
				find(t, rendered, kind, name+"-service")
			}
			sidecar := one.container(t, "svidd")
			args := []string{"SVIDD_STORE=" + url, "SVIDD_REPLICAS=" + find(t, rendered, "ConfigMap", "svidd-group").Data["replicas"]}
			values := find(t, rendered, "ConfigMap", name+"-svidd").Data
			for option, value := range values {
				args = append(args, option+"="+value)
				options[option] = true
			}
			if values["SVIDD_AUDIENCE"] != name || values["SVIDD_REPLAY"] != mode || values["SVIDD_LONGEST"] != "1h" {
				t.Errorf("%s: %v", name, values)
			}
			check := command(append(sidecar.Args, "--check-config")...)
			check.Env = append(check.Env, args...)
			for i, arg := range check.Args {
				check.Args[i] = strings.Replace(arg, "/run/svidd", t.TempDir(), 1)
			}
			var said bytes.Buffer
			check.Stderr = &said
			if out, err := check.Output(); err != nil || string(out) != "svidd: the options are good\n" {
				t.Errorf("%s over %s: --check-config: %v %s%s", name, store, err, out, &said)
			}
		}
		if !options["SVIDD_CALLER"] {
			t.Error("mode bound names no caller")
		}
	}
}

// fleetIsWhole looks at all objects of a cluster with so many services together.
func fleetIsWhole(t *testing.T, store string, all []*manifest, services int) {
	t.Helper()
	names, pods := map[string]bool{}, map[string]map[string]any{}
	for _, m := range all {
		if name := m.Kind + "/" + m.Metadata.Name; names[name] {
			t.Errorf("%s: there are two of %s", store, name)
		} else {
			names[name] = true
		}
		if labels := member(m.raw, "spec", "template", "metadata", "labels"); labels != nil {
			pods[m.Metadata.Name] = labels.(map[string]any)
		}
	}
	selects := func(m *manifest, labels any) (found []string) {
		for name, has := range pods {
			isOne := true
			for label, value := range labels.(map[string]any) {
				isOne = isOne && reflect.DeepEqual(has[label], value)
			}
			if isOne {
				found = append(found, name)
			}
		}
		return found
	}
	for _, m := range all {
		for _, path := range [][]string{{"spec", "selector"}, {"spec", "selector", "matchLabels"}, {"spec", "podSelector", "matchLabels"}} {
			labels := member(m.raw, path...)
			if labels == nil || m.Kind != "Service" && len(path) == 2 || m.Kind == "PodMonitor" || m.Kind == "ClusterSPIFFEID" {
				continue
			}
			if found := selects(m, labels); len(found) != 1 || found[0] != m.Metadata.Name {
				t.Errorf("%s: the %s %s selects %v", store, m.Kind, m.Metadata.Name, found)
			}
		}
		if (m.Kind == "PodMonitor" || m.Kind == "ClusterSPIFFEID") && len(selects(m, firstOf(member(m.raw, "spec", "selector", "matchLabels"), member(m.raw, "spec", "podSelector", "matchLabels")))) != services {
			t.Errorf("%s: the %s does not select each service", store, m.Kind)
		}
		if m.Kind == "NetworkPolicy" && (m.Metadata.Name == "redis" || m.Metadata.Name == "nats") {
			from := m.raw["spec"].(map[string]any)["ingress"].([]any)[0].(map[string]any)["from"].([]any)[0]
			if found := selects(m, member(from.(map[string]any), "podSelector", "matchLabels")); len(found) != services {
				t.Errorf("%s: its policy lets in %v", store, found)
			}
		}
		text, err := json.Marshal(m.raw)
		must(t, err)
		for _, kind := range []string{"configMapRef", "configMapKeyRef", "configMap"} {
			for _, ref := range regexp.MustCompile(`"`+kind+`":\{[^}]*"name":"([^"]*)"`).FindAllSubmatch(text, -1) {
				if !names["ConfigMap/"+string(ref[1])] {
					t.Errorf("%s: %s %s names the ConfigMap %s, which is not there", store, m.Kind, m.Metadata.Name, ref[1])
				}
			}
		}
		if account := member(m.raw, "spec", "template", "spec", "serviceAccountName"); account != nil && !names["ServiceAccount/"+account.(string)] {
			t.Errorf("%s: %s: there is no ServiceAccount %v", store, m.Metadata.Name, account)
		}
	}
	for _, server := range []string{"nats", "redis"} {
		if names["StatefulSet/"+server] && !names["PodDisruptionBudget/"+server] {
			t.Errorf("%s has no budget", server)
		}
	}
}

// member is a member of an object, by the names on the way to it; nil where it is not there.
func member(of any, path ...string) any {
	for _, name := range path {
		object, _ := of.(map[string]any)
		if object == nil {
			return nil
		}
		of = object[name]
	}
	return of
}

// firstOf is the first value that is there.
func firstOf(values ...any) any {
	for _, v := range values {
		if v != nil {
			return v
		}
	}
	return map[string]any{"none": true}
}

// The line of deploy/kubernetes/README.md makes a PrometheusRule with the very groups of deploy/prometheus/rules.yaml.
func TestPrometheusRuleOfTheReadme(t *testing.T) {
	text, err := os.ReadFile("../../deploy/kubernetes/README.md")
	must(t, err)
	line := regexp.MustCompile("(?s)```\n(\\{ echo [^`]*?\\}) \\| kubectl apply -f -\n```").FindSubmatch(text)
	if line == nil {
		t.Fatal("deploy/kubernetes/README.md has no such line")
	}
	make := exec.Command("sh", "-c", string(line[1]))
	make.Dir = "../../.."
	rule, err := make.Output()
	must(t, err)
	asJSON := exec.Command(python, "-c", "import json, sys, yaml; json.dump(yaml.safe_load(sys.stdin), sys.stdout)")
	asJSON.Stdin = bytes.NewReader(rule)
	out, err := asJSON.Output()
	must(t, err)
	var made struct {
		APIVersion, Kind string
		Metadata         struct{ Name string }
		Spec             any
	}
	must(t, json.Unmarshal(out, &made))
	var rules any
	readYAML(t, "prometheus/rules.yaml", &rules)
	if made.APIVersion != "monitoring.coreos.com/v1" || made.Kind != "PrometheusRule" || made.Metadata.Name != "svidd" || !reflect.DeepEqual(made.Spec, rules) {
		t.Errorf("it is %s %s %s, and its groups are others", made.APIVersion, made.Kind, made.Metadata.Name)
	}
}
