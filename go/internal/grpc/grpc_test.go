package grpc

import (
	"bytes"
	"errors"
	"io"
	"runtime"
	"strings"
	"testing"
	"testing/iotest"
)

// head says that so many bytes follow.
func head(compressed byte, n uint32) []byte {
	return []byte{compressed, byte(n >> 24), byte(n >> 16), byte(n >> 8), byte(n)}
}

// A message is read whole, once it was begun, and an end within one is no end of the stream.
func TestMessagesOfAStream(t *testing.T) {
	stream := bytes.NewReader(append(Frame([]byte("one")), Frame(nil)...))
	for _, want := range []string{"one", ""} {
		begun := 0
		if got, err := Read(stream, 3, func() { begun++ }); err != nil || string(got) != want || begun != 1 {
			t.Errorf("%q %v, begun %d times", got, err, begun)
		}
	}
	if _, err := Read(stream, 3, func() { t.Error("begun after the end") }); err != io.EOF {
		t.Errorf("at the end: %v", err)
	}
	for text, want := range map[string]error{
		string(head(0, 3)[:1]):      io.ErrUnexpectedEOF,
		string(head(0, 3)[:4]):      io.ErrUnexpectedEOF,
		string(head(0, 3)):          io.ErrUnexpectedEOF,
		string(head(0, 3)) + "on":   io.ErrUnexpectedEOF,
		string(head(1, 3)) + "one":  ErrCompressed,
		string(head(0, 4)) + "four": TooLarge(4),
	} {
		if got, err := Read(strings.NewReader(text), 3, func() {}); !errors.Is(err, want) || want != ErrCompressed && err == io.EOF {
			t.Errorf("%q: %q %v, want %v", text, got, err, want)
		}
	}
}

// A call has one message, and nothing stands behind it.
func TestTheMessageOfACall(t *testing.T) {
	for text, want := range map[string]*Fault{
		string(Frame([]byte("one"))):       nil,
		string(Frame([]byte("one"))) + "x": ErrNotWhole,
		string(Frame([]byte("four"))):      ErrTooLarge,
		string(head(1, 3)) + "one":         ErrCompressed,
		"":                                 ErrNotWhole,
		string(head(0, 3)) + "on":          ErrNotWhole,
	} {
		if got, fault := ReadOne(strings.NewReader(text), 3); fault != want || want == nil && string(got) != "one" {
			t.Errorf("%q: %q %v, want %v", text, got, fault, want)
		}
	}
}

// A call that breaks off after its message is an error: nobody waits for the answer.
func TestACallThatIsBrokenOff(t *testing.T) {
	call := io.MultiReader(bytes.NewReader(Frame([]byte("one"))), iotest.ErrReader(errors.New("the stream was reset")))
	if got, fault := ReadOne(call, 3); fault != ErrNotWhole {
		t.Errorf("%q %v", got, fault)
	}
}

// Memory comes as the bytes do: who says that much follows, and sends little, takes little.
func TestAMessageThatDoesNotComeTakesNoMemory(t *testing.T) {
	const most, calls = 16 << 20, 20
	var before, after runtime.MemStats
	runtime.ReadMemStats(&before)
	for i := 0; i < calls; i++ {
		if _, err := Read(bytes.NewReader(append(head(0, most), "little"...)), most, func() {}); err != io.ErrUnexpectedEOF {
			t.Fatal(err)
		}
	}
	runtime.ReadMemStats(&after)
	if taken := (after.TotalAlloc - before.TotalAlloc) / calls; taken > most/100 {
		t.Errorf("a call that sends some bytes takes %d", taken)
	}
}
