package postgres

import (
	"database/sql/driver"
	"encoding/binary"

	"svid.example/go/v3/claims"
)

// What a server takes and answers, as bytes.

const (
	ofBytes = 17 // bytea
	ofInt8  = 20 // bigint
)

// array begins an array of n values.
func array(of uint32, n int, size int) []byte {
	to := make([]byte, 20, 20+n*(4+size))
	binary.BigEndian.PutUint32(to, 1)
	binary.BigEndian.PutUint32(to[8:], of)
	binary.BigEndian.PutUint32(to[12:], uint32(n))
	binary.BigEndian.PutUint32(to[16:], 1)
	if n == 0 {
		binary.BigEndian.PutUint32(to, 0)
		return to[:12]
	}
	return to
}

func appendBytes(to, value []byte) []byte {
	var length [4]byte
	binary.BigEndian.PutUint32(length[:], uint32(len(value)))
	return append(append(to, length[:]...), value...)
}

func appendInt8(to []byte, value int64) []byte {
	var bytes [8]byte
	binary.BigEndian.PutUint64(bytes[:], uint64(value))
	return appendBytes(to, bytes[:])
}

// arrays are the arguments of put.
func arrays(these []claims.Claim) (keys, owners, ends []byte) {
	keys, owners, ends = array(ofBytes, len(these), 32), array(ofBytes, len(these), 32), array(ofInt8, len(these), 8)
	for i := range these {
		keys = appendBytes(keys, these[i].Key[:])
		owners = appendBytes(owners, these[i].Owner[:])
		ends = appendInt8(ends, time64(these[i].Expires))
	}
	return keys, owners, ends
}

// time64 is a time as SQL has it: one that is too late stays too late.
func time64(t uint64) int64 {
	if t > latest {
		t = latest
	}
	return int64(t)
}

// latest is a time that is too late for each store, and far from any limit.
const latest = 1 << 62

// An answer is what put answers.
type answer struct {
	status byte
	time   uint64
	deaf   uint64
	epoch  string
	rest   []byte
}

const (
	counts    = 0
	answerLen = 1 + 8 + 8 + 16
	cellLen   = 1 + 32

	cellStored = 3
)

// stored says whether the call stored the claim with a number, where it is there.
func (a *answer) stored(n int) bool { return len(a.rest) == 0 || a.rest[n*cellLen] == cellStored }

// answered reads an answer.
func answered(rows [][]driver.Value) (a answer, ok bool) {
	if len(rows) != 1 || len(rows[0]) != 1 {
		return a, false
	}
	bytes, _ := rows[0][0].([]byte)
	if len(bytes) < answerLen {
		return a, false
	}
	return answer{status: bytes[0], time: binary.BigEndian.Uint64(bytes[1:]), deaf: binary.BigEndian.Uint64(bytes[9:17]),
		epoch: uuid(bytes[17:33]), rest: bytes[answerLen:]}, true
}

const digits = "0123456789abcdef"

// uuid is 16 bytes as the server prints them.
func uuid(bytes []byte) string {
	to := make([]byte, 0, 36)
	for i, b := range bytes {
		if i == 4 || i == 6 || i == 8 || i == 10 {
			to = append(to, '-')
		}
		to = append(to, digits[b>>4], digits[b&15])
	}
	return string(to)
}

func number(v driver.Value) uint64 {
	n, _ := v.(int64)
	if n < 0 {
		return 0
	}
	return uint64(n)
}

func text(v driver.Value) string {
	switch v := v.(type) {
	case string:
		return v
	case []byte:
		return string(v)
	}
	return ""
}
