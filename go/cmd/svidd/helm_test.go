package main

import (
	"bytes"
	"crypto/sha256"
	"encoding/json"
	"errors"
	"fmt"
	"os"
	"os/exec"
	"path/filepath"
	"reflect"
	"regexp"
	"sort"
	"strings"
	"testing"
	"text/template"
)

const chartFolder = "../../deploy/helm"

// chartFunctions are those that the chart calls, as Helm has them: its own and Sprig's (Debian has no Helm).
var chartFunctions = template.FuncMap{
	"default": func(other, given any) any {
		if is, _ := template.IsTrue(given); is {
			return given
		}
		return other
	},
	"dict": func(pairs ...any) map[string]any {
		made := map[string]any{}
		for i := 0; i+1 < len(pairs); i += 2 {
			made[pairs[i].(string)] = pairs[i+1]
		}
		return made
	},
	"fail":   func(why string) (string, error) { return "", errors.New(why) },
	"hasKey": func(of map[string]any, name string) bool { _, has := of[name]; return has },
	"merge": func(to map[string]any, others ...map[string]any) map[string]any {
		for _, other := range others {
			for name, value := range other {
				if _, has := to[name]; !has {
					to[name] = value
				}
			}
		}
		return to
	},
	"nindent": func(width int, text string) string {
		return "\n" + strings.Repeat(" ", width) + strings.ReplaceAll(text, "\n", "\n"+strings.Repeat(" ", width))
	},
	"quote":     func(of any) string { return fmt.Sprintf("%q", fmt.Sprint(of)) },
	"sha256sum": func(text string) string { return fmt.Sprintf("%x", sha256.Sum256([]byte(text))) },
	"toYaml": func(of map[string]any) (string, error) {
		var lines []string
		for name, value := range of {
			text, err := json.Marshal(value)
			if err != nil {
				return "", err
			}
			lines = append(lines, name+": "+string(text))
		}
		sort.Strings(lines)
		return strings.Join(lines, "\n"), nil
	},
}

// chart is what Helm makes of the chart for a release of this name, with these values.
func chart(t *testing.T, release string, values map[string]any) ([]*manifest, error) {
	t.Helper()
	given := map[string]any{}
	readYAML(t, "helm/values.yaml", &given)
	for name, value := range values {
		if _, has := given[name]; !has {
			t.Fatalf("values.yaml has no %s", name)
		}
		given[name] = value
	}
	const base = "svidd/templates"
	all := template.New(base)
	all.Funcs(chartFunctions).Funcs(template.FuncMap{"include": func(name string, data any) (string, error) {
		var text strings.Builder
		err := all.ExecuteTemplate(&text, name, data)
		return text.String(), err
	}})
	files, err := filepath.Glob(chartFolder + "/templates/*")
	must(t, err)
	for _, file := range files {
		text, err := os.ReadFile(file)
		must(t, err)
		if _, err := all.New(base + "/" + filepath.Base(file)).Parse(string(text)); err != nil {
			t.Fatal(err)
		}
	}
	var text bytes.Buffer
	for _, file := range files {
		data := map[string]any{"Values": given, "Release": map[string]any{"Name": release, "Namespace": "default"}, "Template": map[string]any{"BasePath": base}}
		text.WriteString("---\n")
		if err := all.ExecuteTemplate(&text, base+"/"+filepath.Base(file), data); err != nil {
			return nil, err
		}
		text.WriteString("\n")
	}
	return parsed(t, text.Bytes()), nil
}

// byName are objects by their kinds and names, as JSON. The digests are left out by which a change of a file makes new pods: kustomize has them in the
// names of ConfigMaps, and the chart in an annotation.
func byName(t *testing.T, all []*manifest) map[string]string {
	t.Helper()
	objects := map[string]string{}
	for _, m := range all {
		for _, of := range []any{member(m.raw, "metadata"), member(m.raw, "spec", "template", "metadata")} {
			about, _ := of.(map[string]any)
			annotations, _ := about["annotations"].(map[string]any)
			delete(annotations, "checksum/config")
			if len(annotations) == 0 { // (older kustomize writes an empty object)
				delete(about, "annotations")
			}
		}
		text, err := json.MarshalIndent(m.raw, "", " ")
		must(t, err)
		for _, other := range all {
			if name := other.Metadata.Name; other.Kind == "ConfigMap" {
				text = bytes.ReplaceAll(text, []byte(`"`+name+`"`), []byte(`"`+regexp.MustCompile("-[a-z0-9]{10}$").ReplaceAllString(name, "")+`"`))
			}
		}
		var named struct{ Metadata struct{ Name string } }
		must(t, json.Unmarshal(text, &named))
		objects[m.Kind+"/"+named.Metadata.Name] = string(text)
	}
	return objects
}

// wantSame wants the chart to make the very objects that kustomize makes.
func wantSame(t *testing.T, what string, chart, overlay []*manifest) {
	t.Helper()
	got, due := byName(t, chart), byName(t, overlay)
	for name, want := range due {
		if got[name] != want {
			t.Errorf("%s: %s is\n%s\nand due is\n%s", what, name, got[name], want)
		}
	}
	if len(got) != len(due) {
		t.Errorf("%s: there are %d objects, and due are %d", what, len(got), len(due))
	}
}

// The chart makes the objects that the overlays make: a service in each mode, and each store, by one release or by two.
func TestChartIsTheOverlays(t *testing.T) {
	t.Parallel()
	if said, err := exec.Command(python, "../../../tools/chart", "--check").CombinedOutput(); err != nil {
		t.Errorf("%v: %s", err, said)
	}
	folder := filepath.Join(t.TempDir(), "kubernetes")
	if said, err := exec.Command("cp", "-r", "../../deploy/kubernetes", folder).CombinedOutput(); err != nil {
		t.Fatalf("%v: %s", err, said)
	}
	ledger, err := os.ReadFile(filepath.Join(folder, "ledger/kustomization.yaml"))
	must(t, err)
	image := map[string]any{"service": "registry.example.org/ledger:1"}
	overlays := map[string][]*manifest{}
	for _, store := range []string{"redis", "nats", "postgres"} {
		overlays[store] = rendered(t, filepath.Join(folder, store))
		made, err := chart(t, "store", map[string]any{"store": store})
		must(t, err)
		wantSame(t, store, made, overlays[store])
	}
	for _, mode := range []string{"reuse", "bound", "strict"} {
		must(t, os.WriteFile(filepath.Join(folder, "ledger/kustomization.yaml"), bytes.ReplaceAll(ledger, []byte("../strict"), []byte("../"+mode)), 0o600))
		overlay := rendered(t, filepath.Join(folder, "ledger"))
		made, err := chart(t, "ledger", map[string]any{"mode": mode, "images": image})
		must(t, err)
		wantSame(t, mode, made, overlay)
		for store, of := range overlays {
			made, err := chart(t, "ledger", map[string]any{"mode": mode, "images": image, "store": store})
			must(t, err)
			wantSame(t, mode+" over "+store, made, append(of[:len(of):len(of)], overlay...))
		}
	}
}

// A value changes what it names: an option reaches the sidecar and makes new pods, and the service's container gets its own members.
func TestValuesOfTheChart(t *testing.T) {
	t.Parallel()
	plain, err := chart(t, "ledger", map[string]any{"mode": "bound"})
	must(t, err)
	made, err := chart(t, "ledger", map[string]any{"mode": "bound", "replicas": 5, "options": map[string]any{"SVIDD_LONGEST": "2h", "SVIDD_AUDIENCE": "books"},
		"container": map[string]any{"env": []any{map[string]any{"name": "PORT", "value": "8081"}}}})
	must(t, err)
	want := map[string]string{"SVIDD_LONGEST": "2h", "SVIDD_AUDIENCE": "books", "SVIDD_WAIT": "10s", "SVIDD_REPLAY": "bound", "SVIDD_CALLER": "address:X-Real-Ip"}
	if got := find(t, made, "ConfigMap", "ledger-svidd").Data; !reflect.DeepEqual(got, want) {
		t.Errorf("the options are %v", got)
	}
	pods := find(t, made, "Deployment", "ledger-service")
	if env := pods.container(t, "service").Env; pods.Spec.Replicas != 5 || len(env) != 1 || env[0].Name != "PORT" || env[0].Value != "8081" {
		t.Errorf("%d replicas, and the service has %+v", pods.Spec.Replicas, env)
	}
	digest := func(all []*manifest) any {
		return member(find(t, all, "Deployment", "ledger-service").raw, "spec", "template", "metadata", "annotations", "checksum/config")
	}
	if digest(made) == nil || digest(made) == digest(plain) {
		t.Errorf("other options make no new pods: %v and %v", digest(made), digest(plain))
	}
	if none, err := chart(t, "none", nil); err != nil || len(none) != 0 {
		t.Errorf("without values: %d objects, %v", len(none), err)
	}
	for name, value := range map[string]string{"mode": "once", "store": "kafka"} {
		if _, err := chart(t, "ledger", map[string]any{name: value}); err == nil || !strings.Contains(err.Error(), name+" is to be ") {
			t.Errorf("%s %s: %v", name, value, err)
		}
	}
	// Its alerts are those of deploy/prometheus, and what it watches are the pods of the chart.
	watched, err := chart(t, "store", map[string]any{"monitoring": true, "store": "redis"})
	must(t, err)
	var rules any
	readYAML(t, "prometheus/rules.yaml", &rules)
	if !reflect.DeepEqual(find(t, watched, "PrometheusRule", "svidd").raw["spec"], rules) {
		t.Error("the alerts are others than those of rules.yaml")
	}
	if id := find(t, watched, "ClusterSPIFFEID", "svidd-default"); member(id.raw, "spec", "spiffeIDTemplate") !=
		"spiffe://{{ .TrustDomain }}/ns/{{ .PodMeta.Namespace }}/sa/{{ .PodSpec.ServiceAccountName }}" {
		t.Errorf("the ID is %v", id.raw)
	}
	fleetIsWhole(t, "redis", append(watched[:len(watched):len(watched)], made...), 1)
}

// What `helm lint` looks at: the chart names itself, its version is that of this project, and each value that a template reads is in values.yaml, and the
// other way round.
func TestChartIsWhole(t *testing.T) {
	var about struct{ APIVersion, Name, Version, AppVersion, Type string }
	readYAML(t, "helm/Chart.yaml", &about)
	number, err := os.ReadFile("../../../VERSION")
	must(t, err)
	if v := strings.TrimSpace(string(number)); about.APIVersion != "v2" || about.Name != "svidd" || about.Version != v || about.AppVersion != v || about.Type != "application" {
		t.Errorf("Chart.yaml says %+v", about)
	}
	var values map[string]any
	readYAML(t, "helm/values.yaml", &values)
	files, err := filepath.Glob(chartFolder + "/templates/*.yaml")
	must(t, err)
	read := map[string]bool{}
	for _, file := range files {
		text, err := os.ReadFile(file)
		must(t, err)
		for _, name := range regexp.MustCompile(`\.Values\.(\w+)`).FindAllSubmatch(text, -1) {
			read[string(name[1])] = true
			if _, has := values[string(name[1])]; !has {
				t.Errorf("%s reads %s, which values.yaml does not have", file, name[1])
			}
		}
	}
	if len(read) != len(values) {
		t.Errorf("the templates read %v of %v", read, values)
	}
}
