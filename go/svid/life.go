package svid

import (
	"crypto/rand"
	"fmt"
)

// A Life tells one life of a validator, from a start of its process to its end, from every other one. It is random.
type Life [16]byte

// NewLife draws one. The error says that the system has no random bytes.
func NewLife() (l Life, err error) {
	if _, err = rand.Read(l[:]); err != nil {
		return l, fmt.Errorf("a life of a validator: %w", err)
	}
	return l, nil
}
