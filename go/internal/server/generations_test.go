package server

import "testing"

// A value that is dropped is gone from both generations.
func TestADroppedValueIsGone(t *testing.T) {
	var g hashed[int]
	for hash := uint64(0); hash <= mostInGeneration; hash++ {
		g.add(hash, int(hash))
	}
	for _, hash := range []uint64{mostInGeneration, 1} {
		if value, ok := g.get(hash); !ok || value != int(hash) { // (it is in both now, if it is old)
			t.Errorf("the value of %d is %d", hash, value)
		}
		g.drop(hash)
		if value, ok := g.get(hash); ok {
			t.Errorf("%d has %d", hash, value)
		}
	}
	if value, ok := g.get(2); !ok || value != 2 {
		t.Errorf("the value of another hash is %d", value)
	}
}
