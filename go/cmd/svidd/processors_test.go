package main

import (
	"os"
	"testing"
)

// What limits the processors of a control group, and of those above it.
func TestProcessorsOfAControlGroup(t *testing.T) {
	for _, row := range []struct {
		what  string
		files map[string]string
		want  int
	}{
		{"no file", nil, 0},
		{"no limit", map[string]string{"/proc/self/cgroup": "0::/\n", "/sys/fs/cgroup/cpu.max": "max 100000\n"}, 0},
		{"a tenth", map[string]string{"/proc/self/cgroup": "0::/\n", "/sys/fs/cgroup/cpu.max": "10000 100000\n"}, 1},
		{"one and a half", map[string]string{"/proc/self/cgroup": "0::/\n", "/sys/fs/cgroup/cpu.max": "150000 100000\n"}, 2},
		{"the group above", map[string]string{"/proc/self/cgroup": "0::/pod/one\n", "/sys/fs/cgroup/pod/one/cpu.max": "max 100000\n",
			"/sys/fs/cgroup/pod/cpu.max": "300000 100000\n"}, 3},
		{"the least of both", map[string]string{"/proc/self/cgroup": "0::/pod/one\n", "/sys/fs/cgroup/pod/one/cpu.max": "200000 100000\n",
			"/sys/fs/cgroup/pod/cpu.max": "300000 100000\n"}, 2},
		{"version 1", map[string]string{"/proc/self/cgroup": "5:memory:/\n4:cpu,cpuacct:/a\n", "/sys/fs/cgroup/cpu/a/cpu.cfs_quota_us": "250000\n",
			"/sys/fs/cgroup/cpu/a/cpu.cfs_period_us": "100000\n"}, 3},
		{"version 1, and the group of another controller", map[string]string{"/proc/self/cgroup": "6:cpuset:/b\n5:cpuacct:/b\n4:cpu:/a\n",
			"/sys/fs/cgroup/cpu/a/cpu.cfs_quota_us": "250000\n", "/sys/fs/cgroup/cpu/a/cpu.cfs_period_us": "100000\n",
			"/sys/fs/cgroup/cpu/b/cpu.cfs_quota_us": "100000\n", "/sys/fs/cgroup/cpu/b/cpu.cfs_period_us": "100000\n"}, 3},
		{"version 1 without a limit", map[string]string{"/proc/self/cgroup": "4:cpu,cpuacct:/\n", "/sys/fs/cgroup/cpu/cpu.cfs_quota_us": "-1\n",
			"/sys/fs/cgroup/cpu/cpu.cfs_period_us": "100000\n"}, 0},
		{"garbage", map[string]string{"/proc/self/cgroup": "0\n0::\nx:y", "/sys/fs/cgroup/cpu.max": "1 0\n"}, 0},
	} {
		got := processorsOf(func(name string) ([]byte, error) {
			text, is := row.files[name]
			if !is {
				return nil, os.ErrNotExist
			}
			return []byte(text), nil
		})
		if got != row.want {
			t.Errorf("%s: %d, want %d", row.what, got, row.want)
		}
	}
}
