package memory_test

import (
	"sync"
	"testing"

	"svid.example/go/v3/claims"
	"svid.example/go/v3/claims/claimstest"
	"svid.example/go/v3/claims/memory"
)

// A server has one store for each group.
type server struct {
	mu     sync.Mutex
	stores map[string]*memory.Store
}

func (s *server) Store(t testing.TB, o claimstest.Options) claims.Store {
	s.mu.Lock()
	defer s.mu.Unlock()
	if s.stores[o.Name] == nil {
		s.stores[o.Name] = &memory.Store{Terms: o.Terms}
	}
	return s.stores[o.Name]
}

func (s *server) Empty(t testing.TB, name string) {
	s.mu.Lock()
	defer s.mu.Unlock()
	s.stores[name].Lose(nil)
}

// It has no terms but the first ones, refuses no token that lives for too long, and answers though it was closed.
func TestStore(t *testing.T) {
	claimstest.Run(t, &server{stores: make(map[string]*memory.Store)}, "Terms", "TooLong", "Closed")
}
