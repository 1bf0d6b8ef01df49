package server

// mostInGeneration is how many values a generation of hashes has: 3.2 MB of known tokens, and 0.7 of hashes alone.
const mostInGeneration = 1 << 15

// generations keeps values by keys. There are two generations, so that dropping the old ones takes one step.
type generations[K comparable, V any] struct{ young, old map[K]V }

// find finds the value of a key. isOld says that it goes with the next turn, unless it is put again.
func (g *generations[K, V]) find(key K) (value V, isOld, is bool) {
	if value, is = g.young[key]; is {
		return value, false, true
	}
	value, is = g.old[key]
	return value, is, is
}

func (g *generations[K, V]) put(key K, value V) {
	if g.young == nil {
		g.young = make(map[K]V)
	}
	g.young[key] = value
}

// turn begins the next generation. The old values go.
func (g *generations[K, V]) turn() { g.young, g.old = nil, g.young }

func (g *generations[K, V]) drop(key K) {
	delete(g.young, key)
	delete(g.old, key)
}

// hashed keeps values by hashes. A value that nobody asks for goes with its generation, once the next one is full.
type hashed[V any] struct{ generations[uint64, V] }

func (h *hashed[V]) get(hash uint64) (value V, ok bool) {
	value, isOld, ok := h.find(hash)
	if isOld {
		h.add(hash, value) // It stays for another generation.
	}
	return value, ok
}

func (h *hashed[V]) add(hash uint64, value V) {
	if len(h.young) == mostInGeneration {
		h.turn()
	}
	h.put(hash, value)
}
