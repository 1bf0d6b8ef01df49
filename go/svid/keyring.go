package svid

/*
#include "svid.h"

// The handles come as the addresses of their first fields: so Go does not look for its pointers in them.
static uint32_t ask_token(uint64_t *v, uint64_t *t, uint8_t *out, size_t out_len, svid_told *told) {
    return svid_validator_ask_token((svid_validator *)v, (svid_token *)t, SVID_MOST_CANDIDATES, out, out_len, told);
}
static uint32_t exchange(uint64_t *v, uint64_t *b, svid_told *told) {
    return svid_validator_renew_by((svid_validator *)v, (svid_bundles *)b, told);
}
static uint32_t question(uint64_t *b, _GoString_ token, size_t number, svid_question *asked, svid_told *told) {
    return svid_bundles_question((svid_bundles *)b, (const uint8_t *)_GoStringPtr(token), _GoStringLen(token), number, asked, told);
}
static uint32_t judge_alone(svid_bundles *b, const svid_setting *setting, const uint8_t *own, size_t own_len, const size_t *lens, size_t lens_len,
                            const svid_question *yes, size_t yes_len, _GoString_ token, uint8_t *out, size_t out_len, svid_use *used, svid_told *told) {
    return svid_bundles_judge(b, setting, own, own_len, lens, lens_len, yes, yes_len,
                              (const uint8_t *)_GoStringPtr(token), _GoStringLen(token), out, out_len, used, told);
}
*/
import "C"

import (
	"encoding/binary"
	"errors"
	"strings"
	"sync"
	"unsafe"
)

// A Question asks whether one key made the signature of one token. It is a
// SHA-256 digest over the key, the algorithm, the signed bytes and the
// signature, so an answer can't be taken for that of another token or key.
type Question [32]byte

// A Candidate is a key that may have signed a token.
type Candidate struct {
	Question  Question
	Algorithm string // as the token's header names it: "ES256"
	Key       *Key
}

// A Keyring has trust bundles, finds the keys that may have signed a token, and
// verifies signatures. It shares no lock with a Validator (Renew takes that of both), and its methods may
// be called by many goroutines at once. Each key is parsed once.
type Keyring struct {
	rsaBits int          // at most so many has an RSA key
	mu      sync.RWMutex // held for reading while an asker of bundles is in use
	closed  bool
	askers  chan *asker
	keys    *keyCache
}

// KeyringOptions say which keys a keyring has.
type KeyringOptions struct {
	// Bundles are the trust bundles: a JSON object from trust domain names to JWK
	// sets, as JoinBundles makes it.
	Bundles []byte
	// RSABits is how many bits an RSA key may have, from 2,048 to 16,384. A longer key
	// verifies nothing. It bounds what a token of a stranger costs. 0 is UsualRSABits.
	RSABits int
}

// An asker lists candidate keys. There is one for each processor, since a handle
// serves one call at a time.
type asker struct {
	handle C.svid_validator // It has the trust bundles, and its record stays empty.
	lent   C.svid_bundles   // It has none, but between two calls of exchange.
	told   C.svid_told
	rows   []byte
}

// NewKeyring returns a keyring of trust bundles: a JSON object from trust domain
// names to JWK sets. Errors: ErrBundles, a *BundleError, ErrNoMemory.
func NewKeyring(bundles []byte) (*Keyring, error) {
	return OpenKeyring(KeyringOptions{Bundles: bundles})
}

// OpenKeyring is NewKeyring with options. Its errors are those, and ErrRSABits.
func OpenKeyring(o KeyringOptions) (*Keyring, error) {
	bits, err := o.rsaBits()
	if err != nil {
		return nil, err
	}
	askers, err := openAskers(o.Bundles)
	if err != nil {
		return nil, err
	}
	return &Keyring{rsaBits: bits, askers: askers, keys: newKeyCache(bits)}, nil
}

func (o KeyringOptions) rsaBits() (int, error) {
	switch {
	case o.RSABits == 0:
		return UsualRSABits, nil
	case o.RSABits < leastRSABits || o.RSABits > mostRSABits:
		return 0, ErrRSABits
	}
	return o.RSABits, nil
}

func openAskers(bundles []byte) (chan *asker, error) {
	askers := make(chan *asker, handles(bundles))
	for len(askers) < cap(askers) {
		a := &asker{rows: make([]byte, 4096)}
		if err := a.open(bundles); err != nil {
			closeAskers(askers)
			return nil, err
		}
		askers <- a
	}
	return askers, nil
}

func (a *asker) open(bundles []byte) error {
	var terms C.svid_terms
	status := C.svid_validator_open(&a.handle, &terms, nil, 0, start(bundles), C.size_t(len(bundles)), &a.told)
	if err := failure(status, &a.told); err != nil {
		return err
	}
	status = C.svid_bundles_open(&a.lent, start(noBundles), C.size_t(len(noBundles)), &a.told)
	if err := failure(status, &a.told); err != nil {
		a.close()
		return err
	}
	return nil
}

// noBundles are trust bundles of no trust domain.
var noBundles = []byte("{}")

func (a *asker) close() {
	C.svid_validator_close(&a.handle)
	C.svid_bundles_close(&a.lent)
}

// closeAskers closes every asker; none may be in use.
func closeAskers(askers chan *asker) {
	for n := len(askers); n > 0; n-- {
		a := <-askers
		a.close()
		askers <- a
	}
}

// SetBundles replaces the trust bundles, which are read before the lock is taken.
// On an error the old bundles stay. A service that has a Validator too calls its
// Renew.
func (k *Keyring) SetBundles(bundles []byte) error {
	askers, err := openAskers(bundles)
	if err != nil {
		return err
	}
	defer func() { closeAskers(askers) }()
	k.mu.Lock()
	defer k.mu.Unlock()
	if k.closed {
		return ErrClosed
	}
	askers = k.replace(askers)
	return nil
}

// replace puts other handles in the place of the old ones, which are not in use then. The caller holds the lock.
func (k *Keyring) replace(askers chan *asker) (old chan *asker) {
	old, k.askers, k.keys = k.askers, askers, newKeyCache(k.rsaBits)
	return old
}

// Close frees what the library holds. Later calls answer ErrClosed.
func (k *Keyring) Close() {
	k.mu.Lock()
	defer k.mu.Unlock()
	closeAskers(k.askers)
	k.closed = true
}

// MaxCandidates is how many keys are tried for a token. A token that names no kid,
// or one that many keys have, may be signed by any of them, and each one that is
// tried costs a hash of the token and a verification. All adapters have the same
// number (docs/FORMATS.md).
const MaxCandidates = C.SVID_MOST_CANDIDATES

// Candidates returns the keys that may have signed the token: those of the
// subject's trust domain, of the algorithm's type, and of the header's kid where
// it has one. They are in the order of the bundle, and at most MaxCandidates. The
// error is a Refusal, TooLong to Jti, UnknownDomain or NoKey, if the token is
// refused whatever its signature is.
func (k *Keyring) Candidates(token string) ([]Candidate, error) {
	k.mu.RLock()
	defer k.mu.RUnlock()
	if k.closed { // (A token that is refused by itself asks no handle.)
		return nil, ErrClosed
	}
	a := <-k.askers
	defer func() { k.askers <- a }()
	return a.candidates(token, k.keys)
}

// ask reads the token, appends the keys that may have signed it to room, and gives s its signature. It returns the cache of the bundles that
// the keys are of.
func (k *Keyring) ask(room []maker, s *signing, t *Token) (makers []maker, keys *keyCache, err error) {
	k.mu.RLock()
	defer k.mu.RUnlock()
	if k.closed { // (A token that is refused by itself asks no handle.)
		return nil, nil, ErrClosed
	}
	a := <-k.askers
	defer func() { k.askers <- a }()
	if err := t.read(&a.told); err != nil {
		return nil, nil, err
	}
	makers, err = a.makers(room, s, t, k.keys)
	return makers, k.keys, err
}

// has says whether the bundles are still those of keys.
func (k *Keyring) has(keys *keyCache) bool {
	k.mu.RLock()
	defer k.mu.RUnlock()
	return k.keys == keys
}

// question returns the question of the candidate with this number, unless the bundles are no more those of keys.
func (k *Keyring) question(token string, number int, keys *keyCache) (asked Question, same bool, err error) {
	k.mu.RLock()
	defer k.mu.RUnlock()
	if k.keys != keys {
		return asked, false, nil
	}
	a := <-k.askers
	defer func() { k.askers <- a }()
	asked, err = questionOf(&a.handle, &a.lent, token, number, &a.told)
	return asked, true, err
}

// candidates returns the candidates with their questions.
func (a *asker) candidates(token string, keys *keyCache) (all []Candidate, err error) {
	t := NewToken(token)
	defer t.Close()
	if err := t.read(&a.told); err != nil {
		return nil, err
	}
	makers, err := a.makers(nil, new(signing), &t, keys)
	if err != nil {
		return nil, err
	}
	for number, m := range makers {
		asked, err := questionOf(&a.handle, &a.lent, token, number, &a.told)
		if err != nil {
			return nil, err
		}
		all = append(all, Candidate{asked, m.algorithm, m.key})
	}
	return all, nil
}

// A maker is a key that may have made a signature, by the algorithm of this name.
type maker struct {
	algorithm string
	key       *Key
}

// makers appends the keys that may have signed a token to room, and gives s its signature, and what that is made over.
func (a *asker) makers(room []maker, s *signing, t *Token, keys *keyCache) ([]maker, error) {
	rows, err := askToken(&a.handle, t, &a.rows, &a.told)
	if err != nil {
		return nil, err
	}
	s.text = t.text[:binary.BigEndian.Uint32(rows)]
	signature, rows := field(rows[4:])
	s.signature = append(s.signature[:0], signature...)
	for len(rows) > 0 {
		var m maker
		m.algorithm, m.key, rows = keys.row(rows)
		room = append(room, m)
	}
	return room, nil
}

// askToken returns what the library says of a token that was read and its keys, in room, which is made longer where it is too short. It is good
// until the next call with this room.
func askToken(v *C.svid_validator, t *Token, room *[]byte, told *C.svid_told) ([]byte, error) {
	for {
		status := C.ask_token(&v.word, &t.handle.word, start(*room), C.size_t(len(*room)), told)
		if status == C.SVID_TOO_SHORT {
			*room = make([]byte, told.len)
			continue
		}
		if err := failure(status, told); err != nil {
			return nil, err
		}
		return (*room)[:told.len], nil
	}
}

// questionOf returns the question of the candidate with this number, by the bundles of a validator, which it lends to a handle that has none.
func questionOf(v *C.svid_validator, lent *C.svid_bundles, token string, number int, told *C.svid_told) (asked Question, err error) {
	if err := exchange(v, lent, told); err != nil {
		return asked, err
	}
	defer func() { _ = exchange(v, lent, told) }()
	status := C.question(&lent.word, token, C.size_t(number), (*C.svid_question)(unsafe.Pointer(&asked)), told)
	return asked, failure(status, told)
}

// findBy lets the token have the key whose question is among yes, if that is one of those that are tried for it.
func (v *Validator) findBy(t *Token, yes []Question) error {
	if len(yes) == 0 {
		return nil
	}
	if err := t.Read(); err != nil {
		return unlessRefused(err)
	}
	v.mu.Lock()
	defer v.mu.Unlock()
	rows, err := askToken(&v.handle, t, &v.rows, &v.told)
	if err != nil {
		return unlessRefused(err)
	}
	if v.lent.word == 0 {
		status := C.svid_bundles_open(&v.lent, start(noBundles), C.size_t(len(noBundles)), &v.told)
		if err := failure(status, &v.told); err != nil {
			return err
		}
	}
	s := signing{text: t.text[:binary.BigEndian.Uint32(rows)]}
	s.signature, rows = field(rows[4:])
	for number := 0; len(rows) > 0; number++ {
		var key []byte
		_, rows = field(rows) // (the algorithm)
		key, rows = field(rows)
		asked, err := questionOf(&v.handle, &v.lent, t.text, number, &v.told)
		if err != nil {
			return err
		}
		if isAmong(asked, yes) {
			t.found = s.found(&Key{text: string(key)})
			return nil
		}
	}
	return nil
}

// unlessRefused is the error, and nil for a refusal: a check says which refusal is the first.
func unlessRefused(err error) error {
	var refusal Refusal
	if errors.As(err, &refusal) {
		return nil
	}
	return err
}

func isAmong(asked Question, yes []Question) bool {
	for _, one := range yes {
		if one == asked {
			return true
		}
	}
	return false
}

// field cuts a text with its length before it from the rows.
func field(rows []byte) (text, rest []byte) {
	n := binary.BigEndian.Uint32(rows)
	return rows[4 : 4+n], rows[4+n:]
}

// Verify verifies the token's signature with each of its Candidates until one made
// it, and returns that key's question for Validator.Check. It returns no question
// and no error if none of them made the signature: the validator then refuses the
// token as BadSignature, or for what comes before that. The error is that of
// Candidates, or ErrNoMemory.
//
// VerifyToken hashes no question, and so takes less time.
func (k *Keyring) Verify(token string) ([]Question, error) {
	r := trials.Get().(*trial)
	defer r.end()
	r.token.text = token
	for {
		made, err := k.tried(r, &r.token)
		if err != nil || made.by == nil {
			return nil, err
		}
		asked, same, err := k.question(token, made.number, made.keys)
		if err != nil {
			return nil, err
		}
		if same {
			return []Question{asked}, nil
		}
	}
}

// VerifyToken verifies the token's signature with each of its Candidates until one
// made it, and returns that key, which the token keeps for Validator.CheckToken. It
// returns no key and no error if none of them made the signature. The error is that
// of Candidates, or ErrNoMemory.
func (k *Keyring) VerifyToken(t *Token) (*Key, error) {
	made, err := k.verifyToken(t)
	return made.by, err
}

func (k *Keyring) verifyToken(t *Token) (made, error) {
	r := trials.Get().(*trial)
	defer r.end()
	for {
		made, err := k.tried(r, t)
		if err != nil || made.by == nil || k.has(made.keys) {
			t.found = r.signing.found(made.by)
			return made, err
		}
	}
}

// A trial is room to try the keys of one token.
type trial struct {
	makers  [MaxCandidates]maker
	signing signing
	token   Token // of Verify
}

var trials = sync.Pool{New: func() any { return new(trial) }}

// end lets the next token have the room. What it has of this one is not kept.
func (r *trial) end() {
	r.token.Close()
	r.makers, r.signing, r.token = [MaxCandidates]maker{}, signing{signature: r.signing.signature[:0]}, Token{}
	trials.Put(r)
}

// made is what became of a trial: which key made the signature, nil for none, its number among the candidates, and the cache of the bundles that
// it is of.
type made struct {
	by     *Key
	number int
	keys   *keyCache
}

// tried verifies the signature with each candidate. It is to be called again if the bundles were replaced meanwhile.
func (k *Keyring) tried(r *trial, t *Token) (made, error) {
	makers, keys, err := k.ask(r.makers[:0], &r.signing, t)
	if err != nil {
		return made{}, err
	}
	number, err := findMaker(makers, &r.signing)
	if err != nil || number < 0 {
		return made{}, err
	}
	return made{makers[number].key, number, keys}, nil
}

// exchange lends the bundles of a validator to lent, or takes them back. It reads nothing, and takes no memory.
func exchange(v *C.svid_validator, lent *C.svid_bundles, told *C.svid_told) error {
	return failure(C.exchange(&v.word, &lent.word, told), told)
}

// A Judgment is what Keyring.Judge goes by.
type Judgment struct {
	Audiences   []string    // of the service, as in Options
	Longest     uint64      // how many seconds past now a token may expire; NoLimit for any
	ValidatorID ValidatorID // of the use that it returns
}

// Judge answers what a validator with an empty record would judge the token at now: no record is asked, so a
// token is never Withdrawn or Replayed. yes are the questions of Verify. It takes no lock of a Validator.
//
// The error is a Refusal if the token is refused, and else ErrAudience, ErrNoMemory or ErrClosed.
func (k *Keyring) Judge(by Judgment, now uint64, token string, yes []Question) (Accepted, error) {
	if _, err := audienceLines(by.Audiences); err != nil {
		return Accepted{}, err
	}
	own, lens := []byte(strings.Join(by.Audiences, "")), make([]C.size_t, len(by.Audiences))
	for i, a := range by.Audiences {
		lens[i] = C.size_t(len(a))
	}
	setting := C.svid_setting{moment: C.uint64_t(now), longest: C.uint64_t(by.Longest)}
	*(*ValidatorID)(unsafe.Pointer(&setting.validator_id)) = by.ValidatorID
	id := make([]byte, C.SVID_ID_ROOM)
	var used C.svid_use
	k.mu.RLock()
	defer k.mu.RUnlock()
	a := <-k.askers
	defer func() { k.askers <- a }()
	if err := exchange(&a.handle, &a.lent, &a.told); err != nil {
		return Accepted{}, err
	}
	defer func() { _ = exchange(&a.handle, &a.lent, &a.told) }() // (both handles are open)
	status := C.judge_alone(&a.lent, &setting, start(own), C.size_t(len(own)), first(lens), C.size_t(len(lens)),
		(*C.svid_question)(unsafe.Pointer(first(yes))), C.size_t(len(yes)), token, start(id), C.size_t(len(id)), &used, &a.told)
	if err := failure(status, &a.told); err != nil {
		return Accepted{}, err
	}
	return Accepted{ID: string(id[:a.told.len]), Use: useOf(&used, false)}, nil
}

// findMaker is the index of the first key that made the signature, or -1. ErrNoMemory: no key is known to have
// made it, and one may have.
func findMaker(makers []maker, s *signing) (index int, err error) {
	for i, m := range makers {
		switch verdict := m.key.verify(m.algorithm, s); {
		case verdict == nil:
			return i, nil
		case errors.Is(verdict, ErrNoMemory):
			err = verdict
		}
	}
	return -1, err
}

// A keyCache has each key of the bundles parsed once, by its JSON text: a kid is
// not unique. It holds no more keys than the bundles do.
type keyCache struct {
	rsaBits int // at most so many has an RSA key
	mu      sync.RWMutex
	keys    map[string]*Key
}

func newKeyCache(rsaBits int) *keyCache {
	return &keyCache{rsaBits: rsaBits, keys: make(map[string]*Key)}
}

// row reads an algorithm and a key, and returns the rows behind them.
func (c *keyCache) row(rows []byte) (algorithm string, key *Key, rest []byte) {
	name, rows := field(rows)
	text, rest := field(rows)
	return algorithmName(name), c.get(text), rest
}

func (c *keyCache) get(text []byte) *Key {
	c.mu.RLock()
	key := c.keys[string(text)]
	c.mu.RUnlock()
	if key != nil {
		return key
	}
	key = parseKey(text, c.rsaBits)
	if errors.Is(key.fault, ErrNoMemory) {
		return key // The next token may find memory.
	}
	c.mu.Lock()
	defer c.mu.Unlock()
	c.keys[key.text] = key
	return key
}
