package main

import (
	"fmt"
	"os"
	"path/filepath"
	"strconv"
	"strings"
	"testing"

	"svid.example/go/v3/internal/patience"
)

// Strangers whose bundles take much memory to read hold up nobody: the others are ready, and svidd stays well below the 512 MiB that its
// pod has. It takes some 215 MB, and 310 under the race detector. (Without bounds four bundles of objects alone take 870 MB.)
func TestTheMemoryOfStrangersBundles(t *testing.T) {
	t.Parallel()
	sized := func(one string, most int) string {
		objects := strings.TrimSuffix(strings.Repeat(one+",", most), ",")
		return `{"keys":[` + objects + strings.Repeat(",0", (1<<20-len(objects)-11)/2) + `]}`
	}
	folder := t.TempDir()
	for i := 0; i < 4; i++ {
		for kind, text := range map[string]string{"refused": sized(`{"":0}`, 149_000), "borne": sized(`{"":0}`, 32_000), "lists": sized(`[0]`, 32_000)} {
			if err := os.WriteFile(filepath.Join(folder, fmt.Sprintf("%s%d.json", kind, i)), []byte(text), 0o600); err != nil {
				t.Fatal(err)
			}
		}
	}
	p := prepare(t, nil, "--replay", "reuse", "--longest", "1h", "--audience", "ledger", bundleOption(bundleFile(t, example)), "--bundles", folder)
	p.launch()
	p.awaitFor(4*patience.Long, "ready", p.isReady) // (it reads 12 MiB with a race detector: on a busy machine that takes minutes)
	p.want(token(t, "a", lasting), 200, "")
	p.await("that the heaviest are passed over", func() bool { return strings.Contains(p.log.String(), "bundle passed over") })
	pid, err := p.pid()
	if err != nil {
		t.Fatal(err)
	}
	status, err := os.ReadFile(fmt.Sprintf("/proc/%d/status", pid))
	if err != nil {
		t.Fatal(err)
	}
	_, peak, _ := strings.Cut(string(status), "VmHWM:")
	kib, err := strconv.Atoi(strings.Fields(peak)[0])
	if err != nil {
		t.Fatal(err)
	}
	t.Logf("%d KiB at the most", kib)
	if kib > 400<<10 {
		t.Errorf("svidd took %d KiB", kib)
	}
}
