// Package protowire reads and writes the fields of protobuf messages, as Google's package of this name does, whose names it has: so a
// service that takes a guard needs no other module. Its test holds it to that package. (Each and AppendField are its own.)
package protowire

import (
	"encoding/binary"
	"errors"
	"math"
)

// A Number is that of a field.
type Number int32

// A Type says how the value of a field is written.
type Type int8

// The types.
const (
	VarintType     Type = 0
	Fixed64Type    Type = 1
	BytesType      Type = 2
	StartGroupType Type = 3
	EndGroupType   Type = 4
	Fixed32Type    Type = 5
)

// mostDepth is how many groups may stand within each other.
const mostDepth = 10000

// What is wrong with a message, as a length.
const (
	truncated = -1 - iota
	badNumber
	tooGreat
	badType
	badEnd
	tooDeep
)

var faults = map[int]string{
	truncated: "unexpected EOF", badNumber: "invalid field number", tooGreat: "variable length integer overflow",
	badType: "cannot parse reserved wire type", badEnd: "mismatching end group marker", tooDeep: "too many groups within each other",
}

// ParseError returns what a negative length means, and nil for any other one.
func ParseError(n int) error {
	if n >= 0 {
		return nil
	}
	return errors.New(faults[n])
}

// ConsumeTag reads the number and type of a field. It returns how many bytes these take; it is negative where none stand there.
func ConsumeTag(b []byte) (Number, Type, int) {
	tag, n := varint(b)
	if n < 0 {
		return 0, 0, n
	}
	if number := tag >> 3; number == 0 || number > math.MaxInt32 {
		return 0, 0, badNumber
	}
	return Number(tag >> 3), Type(tag & 7), n
}

// ConsumeFieldValue returns how many bytes the value of a field takes, and a negative length where it is none.
func ConsumeFieldValue(number Number, kind Type, b []byte) int {
	return within(number, kind, b, mostDepth)
}

func within(number Number, kind Type, b []byte, depth int) int {
	switch kind {
	case VarintType:
		_, n := varint(b)
		return n
	case Fixed64Type:
		return fixed(b, 8)
	case Fixed32Type:
		return fixed(b, 4)
	case BytesType:
		_, n := ConsumeBytes(b)
		return n
	case StartGroupType:
		return group(number, b, depth)
	case EndGroupType:
		return badEnd
	}
	return badType
}

// group is the length of a group, its end included.
func group(number Number, b []byte, depth int) int {
	if depth < 0 {
		return tooDeep
	}
	for read := 0; ; {
		inner, kind, n := ConsumeTag(b[read:])
		if n < 0 {
			return n
		}
		read += n
		if kind == EndGroupType && inner == number {
			return read
		}
		if n = within(inner, kind, b[read:], depth-1); n < 0 {
			return n
		}
		read += n
	}
}

func fixed(b []byte, length int) int {
	if len(b) < length {
		return truncated
	}
	return length
}

// ConsumeBytes reads a value that is bytes, text or a message, and how many bytes it takes with its length.
func ConsumeBytes(b []byte) ([]byte, int) {
	length, n := varint(b)
	if n < 0 {
		return nil, n
	}
	if length > uint64(len(b)-n) {
		return nil, truncated
	}
	return b[n:][:length], n + int(length)
}

func varint(b []byte) (uint64, int) {
	v, n := binary.Uvarint(b)
	switch {
	case n == 0:
		return 0, truncated
	case n < 0:
		return 0, tooGreat
	}
	return v, n
}

// AppendTag writes the number and type of a field.
func AppendTag(b []byte, number Number, kind Type) []byte {
	return AppendVarint(b, uint64(number)<<3|uint64(kind))
}

// AppendVarint writes a number.
func AppendVarint(b []byte, v uint64) []byte { return binary.AppendUvarint(b, v) }

// AppendBytes writes bytes behind their length.
func AppendBytes(b, value []byte) []byte {
	return append(AppendVarint(b, uint64(len(value))), value...)
}

// Each calls do with each field of a message. The value is nil where it is not bytes, text or a message.
func Each(message []byte, do func(number Number, kind Type, value []byte) error) error {
	for len(message) > 0 {
		number, kind, n := ConsumeTag(message)
		if n < 0 {
			return ParseError(n)
		}
		message = message[n:]
		if n = ConsumeFieldValue(number, kind, message); n < 0 {
			return ParseError(n)
		}
		var value []byte
		if kind == BytesType {
			value, _ = ConsumeBytes(message)
		}
		if err := do(number, kind, value); err != nil {
			return err
		}
		message = message[n:]
	}
	return nil
}

// AppendField writes a field that is bytes, text or a message.
func AppendField(b []byte, number Number, value []byte) []byte {
	return AppendBytes(AppendTag(b, number, BytesType), value)
}
