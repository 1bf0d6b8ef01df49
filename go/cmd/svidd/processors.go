package main

import (
	"os"
	"path"
	"runtime"
	"strconv"
	"strings"
)

// limitProcessors lets no more threads run Go code at once than the control group of the process has processors, rounded up, unless
// GOMAXPROCS says how many. Go 1.19 counts the machine's: in a small container its threads would wait for each other.
func limitProcessors() {
	if os.Getenv("GOMAXPROCS") != "" {
		return
	}
	if n := processorsOf(os.ReadFile); n > 0 && n < runtime.GOMAXPROCS(0) {
		runtime.GOMAXPROCS(n)
	}
}

// processorsOf is how many processors the control group may use, and those above it, rounded up; 0 where nothing limits that.
func processorsOf(read func(name string) ([]byte, error)) (least int) {
	groups, err := read("/proc/self/cgroup")
	if err != nil {
		return 0
	}
	for _, line := range strings.Split(string(groups), "\n") {
		words := strings.SplitN(line, ":", 3)
		if len(words) != 3 {
			continue
		}
		folder, files := "", []string(nil)
		switch {
		case words[0] == "0": // version 2
			folder, files = "/sys/fs/cgroup", []string{"cpu.max"}
		case strings.Contains(","+words[1]+",", ",cpu,"):
			folder, files = "/sys/fs/cgroup/cpu", []string{"cpu.cfs_quota_us", "cpu.cfs_period_us"}
		default:
			continue
		}
		for group := path.Clean("/" + words[2]); ; group = path.Dir(group) {
			text := ""
			for _, name := range files {
				part, err := read(path.Join(folder, group, name))
				if err != nil {
					text = ""
					break
				}
				text += string(part) + " "
			}
			if n := quota(text); n > 0 && (least == 0 || n < least) {
				least = n
			}
			if group == "/" {
				break
			}
		}
	}
	return least
}

// quota is how many processors a text of two numbers stands for, such as "150000 100000", rounded up; 0 for any other text.
func quota(text string) int {
	words := strings.Fields(text)
	if len(words) != 2 {
		return 0
	}
	time, err1 := strconv.ParseInt(words[0], 10, 64)
	period, err2 := strconv.ParseInt(words[1], 10, 64)
	if err1 != nil || err2 != nil || time <= 0 || period <= 0 || time/period >= 1<<20 {
		return 0
	}
	return int((time + period - 1) / period)
}
