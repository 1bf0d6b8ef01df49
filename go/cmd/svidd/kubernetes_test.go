package main

import (
	"bytes"
	"encoding/json"
	"errors"
	"fmt"
	"os"
	"os/exec"
	"path/filepath"
	"reflect"
	"regexp"
	"strconv"
	"strings"
	"testing"
	"time"

	"github.com/nats-io/nats.go"

	"svid.example/go/v3/internal/patience"
)

// A manifest is an object of Kubernetes, as far as the tests look into it.
type manifest struct {
	Kind     string
	Metadata struct{ Name string }
	Data     map[string]string
	Spec     struct {
		Replicas int
		Selector json.RawMessage
		Template struct {
			Metadata struct{ Labels map[string]string }
			Spec     podSpec
		}
		Ports []struct {
			Name       string
			Port       int
			TargetPort any
		}
		MaxUnavailable any
		Strategy       struct {
			RollingUpdate struct{ MaxUnavailable, MaxSurge any }
		}
	}
	raw map[string]any
}

type podSpec struct {
	Containers          []container
	Volumes             []volume
	Grace               int `json:"terminationGracePeriodSeconds"`
	HostNetwork         bool
	EnableServiceLinks  *bool
	AutomountToken      *bool `json:"automountServiceAccountToken"`
	SecurityContext     struct{ RunAsNonRoot bool }
	SharesProcessSpaces bool `json:"shareProcessNamespace"`
}

type volume struct {
	Name      string
	HostPath  any
	CSI       *struct{ Driver string }
	ConfigMap *struct{ Name string }
	EmptyDir  any
}

type container struct {
	Name, Image   string
	Command, Args []string
	Env           []struct {
		Name      string
		Value     string
		ValueFrom struct {
			SecretKeyRef, ConfigMapKeyRef *struct{ Name, Key string }
			FieldRef                      *struct{ FieldPath string }
		}
	}
	Ports []struct {
		Name          string
		ContainerPort int
	}
	Mounts []struct {
		Name, MountPath string
		ReadOnly        bool
	} `json:"volumeMounts"`
	EnvFrom []struct {
		ConfigMapRef struct{ Name string }
	}
	Resources struct{ Limits struct{ Memory string } }
	Lifecycle struct {
		PreStop struct {
			Exec  struct{ Command []string }
			Sleep struct{ Seconds int }
		}
	}
	StartupProbe, ReadinessProbe, LivenessProbe *probe
	SecurityContext                             struct {
		RunAsUser                int
		ReadOnlyRootFilesystem   bool
		AllowPrivilegeEscalation *bool
		Privileged               bool
		Capabilities             struct{ Drop, Add []string }
	}
}

type probe struct {
	HTTPGet *struct {
		Path string
		Port any
	}
	TCPSocket *struct{ Port any }
}

// port is the number of a port that a probe names.
func (c *container) port(of any) int {
	if n, ok := of.(float64); ok {
		return int(n)
	}
	for _, p := range c.Ports {
		if p.Name == of {
			return p.ContainerPort
		}
	}
	return 0
}

// all are its probes.
func (c *container) probes() (all []*probe) {
	for _, p := range []*probe{c.StartupProbe, c.ReadinessProbe, c.LivenessProbe} {
		if p != nil {
			all = append(all, p)
		}
	}
	return all
}

// at is the number of a probe's port.
func (p *probe) at(c *container) int {
	if p.HTTPGet != nil {
		return c.port(p.HTTPGet.Port)
	}
	return c.port(p.TCPSocket.Port)
}

// manifests are what kubectl makes of some folders of deploy/kubernetes.
func manifests(t *testing.T, overlays ...string) (all []*manifest) {
	t.Helper()
	for _, overlay := range overlays {
		all = append(all, rendered(t, "../../deploy/kubernetes/"+overlay)...)
	}
	return all
}

// rendered is what kubectl makes of a folder.
func rendered(t *testing.T, folder string) []*manifest {
	t.Helper()
	var said bytes.Buffer
	c := exec.Command("kubectl", "kustomize", folder)
	c.Stderr = &said
	text, err := c.Output()
	if err != nil {
		t.Fatalf("kubectl kustomize: %v (it is in Debian's kubernetes-client)\n%s", err, &said)
	}
	return parsed(t, text)
}

// parsed are the objects of a text of YAML.
func parsed(t *testing.T, text []byte) (all []*manifest) {
	t.Helper()
	var said bytes.Buffer
	c := exec.Command(python, "-c", "import json, sys, yaml; json.dump([it for it in yaml.safe_load_all(sys.stdin) if it], sys.stdout)")
	c.Stdin, c.Stderr = bytes.NewReader(text), &said
	text, err := c.Output()
	if err != nil {
		t.Fatalf("%v: %s", err, &said)
	}
	var raw []map[string]any
	if err := json.Unmarshal(text, &all); err != nil {
		t.Fatal(err)
	}
	if err := json.Unmarshal(text, &raw); err != nil {
		t.Fatal(err)
	}
	for i, m := range all {
		m.raw = raw[i]
	}
	return all
}

// find is the object of this kind and name; one that kustomize has named by its content begins with the name.
func find(t *testing.T, all []*manifest, kind, name string) *manifest {
	t.Helper()
	for _, m := range all {
		if m.Kind == kind && (m.Metadata.Name == name || kind == "ConfigMap" && regexp.MustCompile("^"+name+"-[a-z0-9]{10}$").MatchString(m.Metadata.Name)) {
			return m
		}
	}
	t.Fatalf("there is no %s %s", kind, name)
	return nil
}

// container is the one of this name.
func (m *manifest) container(t *testing.T, name string) *container {
	t.Helper()
	for i := range m.Spec.Template.Spec.Containers {
		if c := &m.Spec.Template.Spec.Containers[i]; c.Name == name {
			return c
		}
	}
	t.Fatalf("%s has no container %s", m.Metadata.Name, name)
	return nil
}

// lost is a member of a value that another one does not have, as a path; "" where it has all.
func lost(path string, of, in any) string {
	switch v := of.(type) {
	case map[string]any:
		other, _ := in.(map[string]any)
		for name, member := range v {
			if it := lost(path+"."+name, member, other[name]); it != "" {
				return it
			}
		}
		return ""
	case []any:
		other, _ := in.([]any)
		if len(other) != len(v) {
			return path
		}
		for i := range v {
			if it := lost(fmt.Sprintf("%s[%d]", path, i), v[i], other[i]); it != "" {
				return it
			}
		}
		return ""
	}
	if !reflect.DeepEqual(of, in) {
		return fmt.Sprintf("%s: %v is %v", path, of, in)
	}
	return ""
}

// What kubectl knows of the members of a workload is all that the manifests have. Each container has no right that it does not need.
func TestKubernetesManifests(t *testing.T) {
	for _, overlay := range []string{"nats", "redis"} {
		all := manifests(t, overlay, "ledger")
		for _, m := range all {
			if m.Kind != "Deployment" && m.Kind != "StatefulSet" {
				continue
			}
			// (With --local it reads the object by its types, changes it here, and asks no server. A member that it does not know is lost.)
			text, err := json.Marshal(m.raw)
			if err != nil {
				t.Fatal(err)
			}
			c := exec.Command("kubectl", "set", "serviceaccount", "--local", "-f", "-", "-o", "json", "ledger-service")
			c.Stdin = bytes.NewReader(text)
			read, err := c.Output()
			if err != nil {
				t.Fatalf("%s: kubectl: %v", m.Metadata.Name, err)
			}
			var known any
			if err := json.Unmarshal(read, &known); err != nil {
				t.Fatal(err)
			}
			// (the kubectl of Debian 12 is older than what is named there)
			if it := lost("", m.raw, known); it != "" && !strings.HasSuffix(it, ".lifecycle.preStop.sleep") && !strings.Contains(it, ".lifecycle.preStop.sleep.") {
				t.Errorf("%s %s: kubectl does not know %s", overlay, m.Metadata.Name, it)
			}
			pod := &m.Spec.Template.Spec
			if !pod.SecurityContext.RunAsNonRoot || pod.HostNetwork || pod.SharesProcessSpaces || pod.AutomountToken == nil || *pod.AutomountToken ||
				pod.EnableServiceLinks == nil || *pod.EnableServiceLinks {
				t.Errorf("%s: the pod has rights that it does not need: %+v", m.Metadata.Name, pod)
			}
			for _, v := range pod.Volumes {
				if v.HostPath != nil {
					t.Errorf("%s: the volume %s is of the machine", m.Metadata.Name, v.Name)
				}
				if v.ConfigMap != nil {
					find(t, all, "ConfigMap", v.ConfigMap.Name[:strings.LastIndex(v.ConfigMap.Name, "-")])
				}
			}
			for i := range pod.Containers {
				c := &pod.Containers[i]
				s := c.SecurityContext
				if !s.ReadOnlyRootFilesystem || s.AllowPrivilegeEscalation == nil || *s.AllowPrivilegeEscalation || s.Privileged || s.RunAsUser != imageUser ||
					fmt.Sprint(s.Capabilities.Drop) != "[ALL]" || len(s.Capabilities.Add) > 0 {
					t.Errorf("%s %s: %+v", m.Metadata.Name, c.Name, s)
				}
				for _, p := range c.probes() {
					if p.at(c) == 0 {
						t.Errorf("%s %s: a probe asks a port that is not there: %+v", m.Metadata.Name, c.Name, p)
					}
				}
			}
		}
		// Each Service leads to a port that a container of its pods has.
		for _, s := range all {
			if s.Kind != "Service" {
				continue
			}
			for _, p := range s.Spec.Ports {
				found := false
				for _, m := range all {
					for i := range m.Spec.Template.Spec.Containers {
						found = found || m.Metadata.Name == s.Metadata.Name && m.Spec.Template.Spec.Containers[i].port(p.TargetPort) > 0
					}
				}
				if !found {
					t.Errorf("%s: the Service %s leads nowhere by %v", overlay, s.Metadata.Name, p)
				}
			}
		}
		ledger := find(t, all, "Deployment", "ledger-service")
		sidecar := ledger.container(t, "svidd")
		for _, p := range sidecar.probes() {
			if p.at(sidecar) != 9902 {
				t.Errorf("a probe of the sidecar does not ask the port of metrics: %+v", p)
			}
		}
		if sidecar.LivenessProbe.HTTPGet.Path != "/healthz" || sidecar.ReadinessProbe.HTTPGet.Path != "/readyz" {
			t.Error("the paths of the probes are others")
		}
		times(t, ledger, find(t, all, "ConfigMap", "ledger-nginx").Data["nginx.conf"])
		if u := ledger.Spec.Strategy.RollingUpdate; fmt.Sprint(u.MaxUnavailable, u.MaxSurge) != "0 1" {
			t.Errorf("a rolling update: %+v", u)
		}
		if b := find(t, all, "PodDisruptionBudget", "ledger-service"); fmt.Sprint(b.Spec.MaxUnavailable) != "1" {
			t.Errorf("the budget: %v", b.Spec.MaxUnavailable)
		}
		// The options are those of svidd, and the configurations those of the other programs.
		t.Setenv("SVIDD_STORE", map[string]string{"nats": "nats://svidd:a@nats-0.nats:4222,nats://svidd:a@nats-1.nats:4222", "redis": "redis://svidd:a@redis:6379"}[overlay])
		t.Setenv("SVIDD_REPLICAS", find(t, all, "ConfigMap", "svidd-group").Data["replicas"])
		for name, value := range find(t, all, "ConfigMap", "ledger-svidd").Data {
			t.Setenv(name, value)
		}
		var args []string
		for _, arg := range sidecar.Args {
			args = append(args, strings.Replace(arg, "/run/svidd", t.TempDir(), 1))
		}
		if status, out, err := here("", append(args, "--check-config")...); status != 0 || out != "svidd: the options are good\n" {
			t.Errorf("%s: --check-config: %d %q %q", overlay, status, out, err)
		}
	}
	all := manifests(t, "redis")
	// A store answers that it is full before the kernel ends it: Redis also while a child of it has as much, and NATS by its disk.
	var limit, most int
	fmt.Sscanf(find(t, all, "StatefulSet", "redis").container(t, "redis").Resources.Limits.Memory, "%dGi", &limit)
	conf := find(t, all, "ConfigMap", "redis").Data["redis.conf"]
	fmt.Sscanf(conf[strings.LastIndex(conf, "\nmaxmemory ")+1:], "maxmemory %dgb", &most)
	if most == 0 || 2*most > limit {
		t.Errorf("the container of Redis may have %d GiB, and Redis takes %d, and its child as many (0: any)", limit, most)
	}
	all = manifests(t, "nats")
	servers := find(t, all, "StatefulSet", "nats")
	const ofDisk, ofMemory = 181, 460 // bytes of an entry (docs/SIZING.md)
	limit, most = 0, 0
	fmt.Sscanf(servers.container(t, "nats").Resources.Limits.Memory, "%dGi", &limit)
	conf = find(t, all, "ConfigMap", "nats").Data["nats.conf"]
	fmt.Sscanf(conf[strings.LastIndex(conf, "max_file_store"):], "max_file_store: %dGB", &most)
	if most == 0 || most*ofMemory > limit*ofDisk {
		t.Errorf("the container of NATS may have %d GiB, and entries of %d GiB of disk take more (0: any)", limit, most)
	}
	if stop := servers.container(t, "nats").Lifecycle.PreStop.Exec.Command; len(stop) != 3 || !strings.HasPrefix(stop[2], "nats-server --signal ldm=/run/nats/nats.pid && sleep ") {
		t.Errorf("a NATS server that is to end: %q", stop)
	}
	if b := find(t, all, "PodDisruptionBudget", "nats"); fmt.Sprint(b.Spec.MaxUnavailable) != "1" || servers.Spec.Replicas != 3 {
		t.Errorf("the budget of the NATS servers: %v of %d", b.Spec.MaxUnavailable, servers.Spec.Replicas)
	}
}

// times wants a pod that ends to answer what comes: the sidecar outlives the proxy, and the kubelet waits for both.
func times(t *testing.T, ledger *manifest, nginx string) {
	t.Helper()
	var drain time.Duration
	for _, arg := range ledger.container(t, "svidd").Args {
		if text := strings.TrimPrefix(arg, "--drain="); text != arg {
			drain, _ = time.ParseDuration(text)
		}
	}
	wait := func(name string) time.Duration {
		words := ledger.container(t, name).Lifecycle.PreStop.Exec.Command
		if seconds := ledger.container(t, name).Lifecycle.PreStop.Sleep.Seconds; seconds > 0 && len(words) == 0 {
			return time.Duration(seconds) * time.Second
		}
		seconds, err := strconv.Atoi(words[len(words)-1])
		if err != nil || words[0] != "sleep" {
			t.Fatalf("%s: %q", name, words)
		}
		return time.Duration(seconds) * time.Second
	}
	found := regexp.MustCompile(`worker_shutdown_timeout (\d+)s;`).FindStringSubmatch(nginx)
	if found == nil {
		t.Fatal("nginx has no worker_shutdown_timeout")
	}
	last, _ := strconv.Atoi(found[1])
	proxy := wait("nginx") + time.Duration(last)*time.Second
	if drain <= proxy || wait("service") < proxy {
		t.Errorf("the proxy ends after %v, and the sidecar after %v, and the service after %v", proxy, drain, wait("service"))
	}
	if all := drain + drainWait + endWait; time.Duration(ledger.Spec.Template.Spec.Grace)*time.Second <= all {
		t.Errorf("the kubelet waits for %d s, and the sidecar takes %v", ledger.Spec.Template.Spec.Grace, all)
	}
}

// The NATS server of the manifests starts with any password that can be written into an address, and a member that shows it may connect:
// also with one that nats-server would read as a number, a time or a variable if it stood without quotes.
func TestPasswordsOfKubernetesOverNATS(t *testing.T) {
	t.Parallel()
	all := manifests(t, "nats")
	set := find(t, all, "StatefulSet", "nats")
	for _, password := range []string{"secret", numeric, "12345678901234567890123456789012", "12k", "true", "2024-01-01T00:00:00Z", "$NAME", `a"b\u0041 c`} {
		folder, client := t.TempDir(), freeAddress(t)
		config := strings.NewReplacer("0.0.0.0:4222", client, "0.0.0.0:8222", freeAddress(t), "0.0.0.0:6222", freeAddress(t), "/run/nats", folder, "/data", folder).
			Replace(find(t, all, "ConfigMap", "nats").Data["nats.conf"])
		file := filepath.Join(folder, "nats.conf")
		if err := os.WriteFile(file, []byte(config), 0o600); err != nil {
			t.Fatal(err)
		}
		p := &kubePod{cluster: &cluster{t: t, all: all, secrets: map[string]string{"svidd-group/password": password}}, name: "nats-0", of: set}
		server := exec.Command("nats-server", "-c", file, "-l", filepath.Join(folder, "log"))
		server.Env = append(os.Environ(), p.environment(set.container(t, "nats"))...)
		var said bytes.Buffer
		server.Stderr = &said
		if err := server.Start(); err != nil {
			t.Fatal(err)
		}
		ended := make(chan struct{})
		go func() { _ = server.Wait(); close(ended) }()
		// (A server that is not there yet, and one that has given up the wait for the password of a busy machine, are asked again.)
		connect := func(password string) (err error) {
			for look, late := patience.Looks(), time.Now().Add(patience.Long); time.Now().Before(late); look() {
				var c *nats.Conn
				if c, err = nats.Connect("nats://"+client, nats.UserInfo("svidd", password), nats.Timeout(patience.Long)); err == nil {
					c.Close()
				}
				if err == nil || errors.Is(err, nats.ErrAuthorization) {
					return err
				}
				select {
				case <-ended:
					return err
				default:
				}
			}
			return err
		}
		good, other := connect(password), connect(password+"x")
		_ = server.Process.Kill()
		<-ended
		if good != nil {
			t.Errorf("%q: %v: %s", password, good, &said)
		} else if !errors.Is(other, nats.ErrAuthorization) {
			t.Errorf("another password than %q: %v", password, other)
		}
	}
}
