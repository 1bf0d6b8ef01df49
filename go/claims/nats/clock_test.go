package nats

import (
	"bytes"
	"debug/elf"
	"encoding/binary"
	"fmt"
	"os"
	"runtime"
	"strings"
	"testing"

	"svid.example/go/v3/claims"
	"svid.example/go/v3/claims/claimstest"
)

// shift sets the clock of a process, which is a program of Go, to so many seconds past the machine's. Such a program reads the clock by the
// kernel's code in its memory, which is its own copy once it is written to: from then on it asks the kernel, and adds the seconds.
func shift(t *testing.T, pid int, seconds int32) {
	t.Helper()
	if runtime.GOARCH != "amd64" {
		t.Skip("the code for the clock is that of x86-64")
	}
	maps, err := os.ReadFile(fmt.Sprintf("/proc/%d/maps", pid))
	if err != nil {
		t.Fatal(err)
	}
	var from, to int64
	for _, line := range strings.Split(string(maps), "\n") {
		if strings.HasSuffix(line, "[vdso]") {
			fmt.Sscanf(line, "%x-%x", &from, &to)
		}
	}
	memory, err := os.OpenFile(fmt.Sprintf("/proc/%d/mem", pid), os.O_RDWR, 0)
	if err != nil {
		t.Fatal(err)
	}
	defer memory.Close()
	image := make([]byte, to-from)
	if _, err := memory.ReadAt(image, from); err != nil {
		t.Fatal(err)
	}
	file, err := elf.NewFile(bytes.NewReader(image))
	if err != nil {
		t.Fatal(err)
	}
	symbols, err := file.DynamicSymbols()
	if err != nil {
		t.Fatal(err)
	}
	code := []byte{
		0xb8, 228, 0, 0, 0, // mov eax, clock_gettime
		0x0f, 0x05, // syscall
		0x85, 0xff, // test edi, edi: is it the time of day?
		0x75, 0x07, // jne to ret
		0x48, 0x81, 0x06, 0, 0, 0, 0, // add qword [rsi], seconds
		0xc3, // ret
	}
	binary.LittleEndian.PutUint32(code[14:], uint32(seconds))
	for _, symbol := range symbols {
		if symbol.Name == "__vdso_clock_gettime" {
			if _, err := memory.WriteAt(code, from+int64(symbol.Value)); err != nil {
				t.Fatal(err)
			}
			return
		}
	}
	t.Fatal("no clock_gettime")
}

// The store's time is the server's. Where it steps back by more than the terms allow, the epoch ends; and where it jumps ahead, no claim is
// kept that would have left too early.
func TestTheServersClock(t *testing.T) {
	t.Parallel()
	m := newMachine(t)
	shift(t, m.Pid(), 5000)
	o := claimstest.Options{Name: "clock", Terms: claimstest.Usual}
	a, b := open(t, m, o), open(t, m, o)
	from := claimstest.Now()
	before := claimstest.State(t, a)
	if to := claimstest.Now(); before.Time+1 < from+5000 || before.Time > to+5000 {
		t.Fatalf("the server's clock is at %d, from %d to %d by this machine's", before.Time, from, to)
	}
	claim := func(expires uint64) claims.Claim {
		return claims.Claim{Key: claimstest.Key(), Owner: claimstest.Own(1), Expires: expires}
	}
	if f := claimstest.Put(t, a, claim(before.Time+300))[0]; f.Time < before.Time || f.Time > before.Time+100 {
		t.Errorf("%+v at %d", f, before.Time)
	}
	shift(t, m.Pid(), 4950) // (less than the step back of the terms)
	if is := claimstest.State(t, a); is.Epoch != before.Epoch || is.Deaf != 0 {
		t.Errorf("%+v, and before %+v", is, before)
	}
	claimstest.Put(t, b, claim(before.Time+300))
	shift(t, m.Pid(), 0)
	f := claimstest.Put(t, a, claim(claimstest.Now()+3000))[0]
	if f.Deaf < before.Time+claimstest.Usual.Lasts {
		t.Errorf("after the step back: %+v, and before %+v", f, before)
	}
	haveEnded(t, m, o, before, a, b)
	shift(t, m.Pid(), 10_000)
	if is := claimstest.State(t, a); is.Time < claimstest.Now()+9000 {
		t.Errorf("%+v", is)
	}
	if f := claimstest.Put(t, b, claim(claimstest.Now()+3000))[0]; f.Time < claimstest.Now()+9000 {
		t.Errorf("%+v", f)
	}
}
