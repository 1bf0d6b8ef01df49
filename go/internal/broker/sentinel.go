package broker

import (
	"context"
	"fmt"
	"net"
	"os"
	"os/exec"
	"path/filepath"
	"time"

	"svid.example/go/v3/internal/patience"
)

// NewSentinel returns a Sentinel that does not run yet, with what it keeps in dir, which must be there. It watches the primary at an
// address by a name. Once Notice was called, it lets a replica take over two seconds after the primary's end, if quorum Sentinels agree.
func NewSentinel(dir, name, primary string, quorum int) (*Redis, error) {
	ports, err := FreePorts(1)
	if err != nil {
		return nil, err
	}
	host, port, err := net.SplitHostPort(primary)
	if err != nil {
		return nil, err
	}
	file := filepath.Join(dir, "sentinel.conf")
	text := fmt.Sprintf("bind 127.0.0.1\nport %d\ndir %s\nlogfile %s\nsentinel monitor %s %s %s %d\nsentinel down-after-milliseconds %s %d\n"+
		"sentinel failover-timeout %s 2000\n", ports[0], dir, filepath.Join(dir, "log"), name, host, port, quorum, name, time.Hour.Milliseconds(), name)
	if err := os.WriteFile(file, []byte(text), 0o600); err != nil {
		return nil, err
	}
	address := fmt.Sprintf("127.0.0.1:%d", ports[0])
	return &Redis{URL: "redis+sentinel://" + address + "?service=" + name, Address: address, Dir: dir, args: []string{file, "--sentinel"}}, nil
}

// Notice lets a Sentinel notice soon that its primary has ended. Until then one that is slow, on a busy machine, is no reason for a takeover.
func (s *Redis) Notice(name string) error {
	_, err := s.Do("SENTINEL", "SET", name, "down-after-milliseconds", "2000")
	return err
}

// NewRedisCluster returns servers that do not run yet, one for each folder. They form a Cluster once all run, by CreateCluster.
func NewRedisCluster(dirs []string, more ...string) (all []*Redis, err error) {
	for _, dir := range dirs {
		ports, err := FreePorts(1)
		if err != nil {
			return nil, err
		}
		s, err := NewRedis(dir, append([]string{"--cluster-enabled", "yes", "--cluster-port", fmt.Sprint(ports[0]), "--cluster-config-file", filepath.Join(dir, "nodes.conf"),
			"--cluster-node-timeout", "3000", "--cluster-require-full-coverage", "no", "--cluster-replica-validity-factor", "0"}, more...)...)
		if err != nil {
			return nil, err
		}
		all = append(all, s)
	}
	return all, nil
}

// CreateCluster lets servers that run form a Cluster, each primary with so many replicas.
func CreateCluster(servers []*Redis, replicas int) error {
	args := []string{"--cluster", "create"}
	for _, s := range servers {
		args = append(args, s.Address)
	}
	ctx, cancel := context.WithTimeout(context.Background(), patience.Long) // (it waits until all servers know each other)
	defer cancel()
	out, err := exec.CommandContext(ctx, "redis-cli", append(args, "--cluster-replicas", fmt.Sprint(replicas), "--cluster-yes")...).CombinedOutput()
	if err != nil {
		return fmt.Errorf("broker: redis-cli --cluster create: %w: %s", err, out)
	}
	return nil
}
