package server

import (
	"crypto/sha512"
	"hash/maphash"
	"sync"

	"svid.example/go/v3/claims"
	"svid.example/go/v3/svid"
)

// verified keeps which key made the signature of a token, for modes reuse and bound, where a token comes again and again: it need not be
// verified each time. What is kept is no verdict. The validator judges the token each time, and counts a key only if it has it
// at that moment. So a kept key counts only while its bundles do. A token is known by a digest of all of it, so its key is of no
// use for another token.
//
// A token is known from its second acceptance on. So one that comes once is not digested, and no known one makes room for it. Those that come often
// are held open too, and then the token that comes is compared with the one that is held.
type verified struct {
	seed maphash.Seed // of the hashes, which only say where to look

	mu      sync.Mutex
	epoch   uint64 // counts the bundles that there were
	keys    []*svid.Key
	numbers map[*svid.Key]int32
	once    hashed[struct{}]   // hashes of tokens that were accepted
	known   hashed[knownToken] // of those that were accepted again
	held    heldTokens         // of these, those that the library keeps open
}

// A knownToken is one that was accepted more than once. (It has no pointers, so that nobody looks through all of them for garbage.)
type knownToken struct {
	digest tokenDigest
	key    int32 // the number of the key that made the signature
}

// A tokenDigest is that of a whole token, by SHA-512/256 (FIPS 180-4).
type tokenDigest [sha512.Size256]byte

func digestOf(token string) tokenDigest {
	var room [1 << 10]byte // A token of a usual length asks for no memory.
	return sha512.Sum512_256(append(room[:0], token...))
}

// recalled is what is kept of a token when it comes.
type recalled struct {
	hash  uint64
	epoch uint64
	again bool      // it was accepted before, or another one of its hash
	key   *svid.Key // that made its signature; nil if it is not known

	held   *heldToken // to be used for the token, and let go behind that; nil where it came once, or is too long
	isHeld bool       // others may use it too: it is read, and by that key
}

func newVerified() *verified { return &verified{seed: maphash.MakeSeed()} }

// recall returns what is kept of a token.
func (v *verified) recall(token string) recalled {
	had := recalled{hash: maphash.String(v.seed, token)}
	digest := v.look(&had)
	if had.held != nil && had.held.token.Text() == token {
		had.key, had.isHeld = had.held.key, true
		return had
	}
	had.held.letGo()
	if had.held = nil; had.again {
		had.held = newHeld(had.hash, token)
	}
	if had.key != nil && digestOf(token) != digest {
		had.key = nil
	}
	return had
}

// look finds what is kept of a hash, and returns the digest of the token that had.key is of. Whoever calls it lets go what is held of the hash.
func (v *verified) look(had *recalled) tokenDigest {
	v.mu.Lock()
	defer v.mu.Unlock()
	had.epoch, had.held = v.epoch, v.held.get(had.hash)
	one, ok := v.known.get(had.hash)
	if ok {
		had.key, had.again = v.keys[one.key], true
	} else {
		_, had.again = v.once.get(had.hash)
	}
	return one.digest
}

// keep keeps the key that made the signature of a token, which was accepted with this use, unless the bundles were renewed since recall.
func (v *verified) keep(had recalled, token string, key *svid.Key, use svid.Use) {
	isKnown := had.key == key
	if isKnown && (had.isHeld || had.held == nil) {
		return
	}
	var digest tokenDigest
	if had.again && !isKnown {
		digest = digestOf(token)
	}
	v.mu.Lock()
	defer v.mu.Unlock()
	if had.epoch != v.epoch {
		return
	}
	if !had.again {
		v.once.add(had.hash, struct{}{})
		return
	}
	if !isKnown {
		v.known.add(had.hash, knownToken{digest, v.number(key)})
	}
	if had.held != nil && !had.isHeld {
		had.held.key, had.held.claim = key, claims.Claim{Key: use.Key, Expires: use.Expires}
		v.held.add(had.held).letGo()
	}
}

// forget forgets the key of a token.
func (v *verified) forget(had recalled) {
	v.mu.Lock()
	defer v.mu.Unlock()
	v.known.drop(had.hash)
	v.held.drop(had.hash).letGo()
}

// clear forgets all keys, since the bundles are other ones. A token that came not long ago is known again from its next acceptance on.
func (v *verified) clear() {
	v.mu.Lock()
	held := v.held
	v.epoch++
	v.keys, v.numbers, v.known, v.held = nil, nil, hashed[knownToken]{}, heldTokens{}
	v.mu.Unlock()
	held.letGo()
}

// number is that of a key. The caller holds mu.
func (v *verified) number(key *svid.Key) int32 {
	number, ok := v.numbers[key]
	if !ok {
		number = int32(len(v.keys))
		v.keys = append(v.keys, key)
		if v.numbers == nil {
			v.numbers = make(map[*svid.Key]int32)
		}
		v.numbers[key] = number
	}
	return number
}
