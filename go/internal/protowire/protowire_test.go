package protowire

import (
	"bytes"
	"math/rand"
	"testing"

	google "google.golang.org/protobuf/encoding/protowire"
)

// same reads a text by both packages, whole, and fails where they differ.
func same(t *testing.T, b []byte) {
	t.Helper()
	number, kind, n := ConsumeTag(b)
	itsNumber, itsKind, its := google.ConsumeTag(b)
	if (n < 0) != (its < 0) || n >= 0 && (n != its || int64(number) != int64(itsNumber) || int(kind) != int(itsKind)) {
		t.Fatalf("%x: a tag of %d bytes, and not of %d", b, n, its)
	}
	for kind := Type(0); kind < 8; kind++ {
		n, its := ConsumeFieldValue(1, kind, b), google.ConsumeFieldValue(1, google.Type(kind), b)
		if (n < 0) != (its < 0) || n >= 0 && n != its {
			t.Fatalf("%x: a value of type %d of %d bytes, and not of %d", b, kind, n, its)
		}
		if n < 0 && ParseError(n).Error() == "" || ParseError(len(b)) != nil {
			t.Fatalf("%x: no word for %d", b, n)
		}
	}
	value, n := ConsumeBytes(b)
	itsValue, its := google.ConsumeBytes(b)
	if (n < 0) != (its < 0) || n >= 0 && (n != its || !bytes.Equal(value, itsValue)) {
		t.Fatalf("%x: %x, and not %x", b, value, itsValue)
	}
}

// What is read is what Google's package reads, of texts that are mostly fields, cut anywhere.
func TestReadsAsGooglesPackageDoes(t *testing.T) {
	random := rand.New(rand.NewSource(1))
	for i := 0; i < 200_000; i++ {
		var b []byte
		for n := random.Intn(5); n > 0; n-- {
			switch random.Intn(5) {
			case 0:
				b = append(b, byte(random.Intn(256)))
			case 1:
				b = AppendVarint(b, random.Uint64()>>random.Intn(64))
			case 2:
				b = AppendBytes(AppendTag(b, Number(1+random.Intn(3)), BytesType), make([]byte, random.Intn(4)))
			default:
				b = AppendTag(b, Number(1+random.Intn(2)), Type(random.Intn(8)))
			}
		}
		same(t, b[:len(b)-random.Intn(len(b)+1)])
		same(t, b)
	}
	for _, b := range [][]byte{bytes.Repeat([]byte{0xff}, 9), append(bytes.Repeat([]byte{0xff}, 9), 1), append(bytes.Repeat([]byte{0xff}, 9), 2),
		bytes.Repeat([]byte{0x80}, 11), AppendVarint(nil, 1<<34), AppendVarint(nil, 1<<34-8), AppendVarint(nil, 7), append(bytes.Repeat([]byte{1<<3 | 3}, 11000), bytes.Repeat([]byte{1<<3 | 4}, 11001)...),
		append(bytes.Repeat([]byte{1<<3 | 3}, 9000), bytes.Repeat([]byte{1<<3 | 4}, 9001)...)} {
		same(t, b)
	}
}

// What is written is what Google's package writes.
func TestWritesAsGooglesPackageDoes(t *testing.T) {
	for _, v := range []uint64{0, 1, 127, 128, 1<<32 - 1, 1 << 63, 1<<64 - 1} {
		if got, want := AppendVarint(nil, v), google.AppendVarint(nil, v); !bytes.Equal(got, want) {
			t.Errorf("%d: %x, and not %x", v, got, want)
		}
	}
	for _, number := range []Number{1, 15, 16, 1<<29 - 1} {
		for kind := Type(0); kind < 6; kind++ {
			if got, want := AppendTag(nil, number, kind), google.AppendTag(nil, google.Number(number), google.Type(kind)); !bytes.Equal(got, want) {
				t.Errorf("%d %d: %x, and not %x", number, kind, got, want)
			}
		}
	}
	for _, n := range []int{0, 1, 127, 128, 1000} {
		if got, want := AppendBytes([]byte{9}, make([]byte, n)), google.AppendBytes([]byte{9}, make([]byte, n)); !bytes.Equal(got, want) {
			t.Errorf("%d: %x, and not %x", n, got, want)
		}
	}
}

// The same for whatever the fuzzer makes up.
func FuzzReadsAsGooglesPackageDoes(f *testing.F) {
	f.Add([]byte{9<<3 | 3, 9<<3 | 4})
	f.Fuzz(func(t *testing.T, b []byte) { same(t, b) })
}
