// Package grpc has what gRPC puts around messages of protobuf, for a client and a server of HTTP/2: frames and codes.
package grpc

import (
	"encoding/binary"
	"errors"
	"fmt"
	"io"
)

// The codes with which a call ends.
const (
	OK                = 0
	InvalidArgument   = 3
	PermissionDenied  = 7
	ResourceExhausted = 8
	Unimplemented     = 12
	Unavailable       = 14
	Unauthenticated   = 16
)

// A Fault ends a call.
type Fault struct {
	Code int
	Why  string
}

func (f *Fault) Error() string { return f.Why }

// What ReadOne refuses.
var (
	ErrCompressed = &Fault{Unimplemented, "the message is compressed"}
	ErrTooLarge   = &Fault{ResourceExhausted, "the message is too long"}
	ErrNotWhole   = &Fault{InvalidArgument, "the call has not one whole message"}
)

// A TooLarge is the length of a message that has more bytes than it may.
type TooLarge uint32

func (n TooLarge) Error() string { return fmt.Sprintf("the message has %d bytes", uint32(n)) }

// frameHead is the length of the head of each message: whether it is compressed, and its length.
const frameHead = 5

// Frame returns a message as gRPC sends it.
func Frame(message []byte) []byte {
	frame := make([]byte, frameHead, frameHead+len(message))
	binary.BigEndian.PutUint32(frame[1:], uint32(len(message)))
	return append(frame, message...)
}

// Read reads one message of a stream, and calls begun at its first byte. io.EOF: there is none any more. Other errors are ErrCompressed,
// a TooLarge where the message has more than most bytes, io.ErrUnexpectedEOF where the stream ends within it, and those of the stream.
func Read(stream io.Reader, most int, begun func()) ([]byte, error) {
	var head [frameHead]byte
	if _, err := io.ReadFull(stream, head[:1]); err != nil {
		return nil, err
	}
	begun()
	if _, err := io.ReadFull(stream, head[1:]); err != nil {
		return nil, cut(err)
	}
	n := binary.BigEndian.Uint32(head[1:])
	switch {
	case head[0] != 0:
		return nil, ErrCompressed
	case n > uint32(most):
		return nil, TooLarge(n)
	}
	message, err := io.ReadAll(io.LimitReader(stream, int64(n))) // Memory comes as the bytes do, and not as the head says.
	if err == nil && len(message) < int(n) {
		err = io.ErrUnexpectedEOF
	}
	return message, err
}

// cut is the error of a stream that ends within a message.
func cut(err error) error {
	if err == io.EOF {
		return io.ErrUnexpectedEOF
	}
	return err
}

// ReadOne reads the one message of a call, of at most so many bytes.
func ReadOne(call io.Reader, most int) ([]byte, *Fault) {
	message, err := Read(call, most, func() {})
	var long TooLarge
	switch {
	case errors.Is(err, ErrCompressed):
		return nil, ErrCompressed
	case errors.As(err, &long):
		return nil, ErrTooLarge
	case err != nil:
		return nil, ErrNotWhole
	}
	if n, err := io.ReadFull(call, make([]byte, 1)); n > 0 || !errors.Is(err, io.EOF) {
		return nil, ErrNotWhole // Something stands behind it, or the call was ended.
	}
	return message, nil
}
