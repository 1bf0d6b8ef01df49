package svid

/*
#include "svid.h"

// Handles come as the addresses of their first fields: so Go does not look for its pointers in them.
_Static_assert(offsetof(svid_token, word) == 0 && offsetof(svid_validator, word) == 0, "a handle begins with its word");
static uint32_t read_token(uint64_t *t, _GoString_ token, svid_told *told) {
    return svid_token_open((svid_token *)t, (const uint8_t *)_GoStringPtr(token), _GoStringLen(token), told);
}
static uint32_t check_token(uint64_t *v, uint64_t now, _GoString_ key, _GoString_ input, const uint8_t *signature, size_t signature_len,
                            uint64_t *t, uint8_t *out, size_t out_len, svid_use *used, svid_told *told) {
    return svid_validator_check_token((svid_validator *)v, now, (const uint8_t *)_GoStringPtr(key), _GoStringLen(key),
                                      (const uint8_t *)_GoStringPtr(input), _GoStringLen(input), signature, signature_len,
                                      (svid_token *)t, out, out_len, used, told);
}
static uint32_t judge_token(uint64_t *v, uint64_t now, _GoString_ key, _GoString_ input, const uint8_t *signature, size_t signature_len,
                            uint64_t *t, uint8_t *out, size_t out_len, svid_use *used, svid_told *told) {
    return svid_validator_judge_token((svid_validator *)v, now, (const uint8_t *)_GoStringPtr(key), _GoStringLen(key),
                                      (const uint8_t *)_GoStringPtr(input), _GoStringLen(input), signature, signature_len,
                                      (svid_token *)t, out, out_len, used, told);
}
static uint32_t token_signature(_GoString_ token, svid_signed *over, uint8_t *out, size_t out_len, svid_told *told) {
    return svid_token_signature((const uint8_t *)_GoStringPtr(token), _GoStringLen(token), over, out, out_len, told);
}
static void close_token(uint64_t *t) { svid_token_close((svid_token *)t); }
*/
import "C"

import "errors"

// A Token is a token that the library reads once, for Keyring.VerifyToken and
// then Validator.CheckToken or JudgeToken. (Keyring.Verify and Validator.Check
// each read their token.) Give it to one goroutine at a time, do not copy it once
// it was given to a call, and Close it.
type Token struct {
	text   string
	found  finding
	handle C.svid_token
	isRead bool   // The handle is open.
	id     string // The SPIFFE ID, once the token was accepted.
}

// A finding of a verifier: the key made this signature over this text. The library
// compares all three with the token that it checks, so a finding of another token is
// no answer.
type finding struct {
	by        *Key // nil where no key is known to have made the signature
	text      string
	signature []byte // nil where VerifiedBy named the key
}

// found is the finding that this key made the signature, or that none did.
func (s *signing) found(by *Key) finding {
	if by == nil {
		return finding{}
	}
	return finding{by, s.text, append([]byte(nil), s.signature...)}
}

// key is the JSON of the key, and empty where there is none.
func (f *finding) key() string {
	if f.by == nil {
		return ""
	}
	return f.by.text
}

// NewToken returns a token of this text. Nothing reads it yet.
func NewToken(text string) Token { return Token{text: text} }

// Text returns the token as it came.
func (t *Token) Text() string { return t.text }

// VerifiedBy says that this key made the token's signature, as Keyring.VerifyToken
// found for the same text before. The validator accepts the token only if it has
// that key at the moment. nil says that no key is known to have made it. It is you
// who answers for that: what VerifyToken finds is compared with the token, but a key
// alone says nothing of a token.
func (t *Token) VerifiedBy(key *Key) {
	if t.found.by != key {
		t.found = finding{by: key}
	}
}

// Close frees what the library has read of the token. A later call reads it again.
func (t *Token) Close() {
	if t.isRead {
		C.close_token(&t.handle.word)
		t.isRead = false
	}
}

// Read reads the token, unless that was done before. Else the first call that needs it does: so Read is for who will hold a lock over
// that. The error is a Refusal, TooLong to Jti, or ErrNoMemory.
func (t *Token) Read() error { return t.read(new(C.svid_told)) }

// read does that, and told has what the library says of a fault.
func (t *Token) read(told *C.svid_told) error {
	if t.isRead {
		return nil
	}
	err := failure(C.read_token(&t.handle.word, t.text, told), told)
	t.isRead = err == nil
	return err
}

// complete takes what the key of VerifiedBy signed from the token, which can be read. The error is ErrNoMemory.
func (t *Token) complete() error {
	if t.found.by == nil || t.found.signature != nil {
		return nil
	}
	var over C.svid_signed
	var told C.svid_told
	room := make([]byte, len(t.text))
	if err := failure(C.token_signature(t.text, &over, start(room), C.size_t(len(room)), &told), &told); err != nil {
		return err
	}
	t.found.text, t.found.signature = t.text[:over.len], room[:told.len]
	return nil
}

// prepare reads the token, and takes what the key of VerifiedBy signed from it. One that can't be read shows the validator the time, too.
func (v *Validator) prepare(now uint64, t *Token) error {
	err := t.Read()
	var refusal Refusal
	if errors.As(err, &refusal) {
		if err := v.Tick(now); err != nil {
			return err
		}
	}
	if err != nil {
		return err
	}
	return t.complete()
}

// CheckToken is Check of a token by the key that Keyring.VerifyToken has found. It
// does not read the token again, and hashes it for no key.
func (v *Validator) CheckToken(now uint64, t *Token) (Accepted, error) {
	if err := v.prepare(now, t); err != nil {
		return Accepted{}, err
	}
	v.mu.Lock()
	defer v.mu.Unlock()
	f := &t.found
	status := C.check_token(&v.handle.word, C.uint64_t(now), f.key(), f.text, start(f.signature), C.size_t(len(f.signature)), &t.handle.word, start(v.id[:]), C.size_t(len(v.id)), &v.used, &v.told)
	return v.accepted(status, t)
}

// JudgeToken is Judge of a token by the key that Keyring.VerifyToken has found. It
// does not read the token again, and hashes it for no key.
func (v *Validator) JudgeToken(now uint64, t *Token) (Accepted, error) {
	if err := v.prepare(now, t); err != nil {
		return Accepted{}, err
	}
	v.mu.Lock()
	defer v.mu.Unlock()
	f := &t.found
	status := C.judge_token(&v.handle.word, C.uint64_t(now), f.key(), f.text, start(f.signature), C.size_t(len(f.signature)), &t.handle.word, start(v.id[:]), C.size_t(len(v.id)), &v.used, &v.told)
	return v.accepted(status, t)
}
