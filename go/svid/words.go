package svid

// #include "svid.h"
import "C"

import (
	"strings"
	"sync"
)

// The words that the library has for a status.
type words struct {
	name     string // as docs/FORMATS.md has it: "NoKey"
	sentence string // what is wrong, as a sentence, and what to do
	says     string // what is wrong, as a part of a sentence
	advice   string // what to do, as a part of a sentence; "" where there is nothing to do
}

// known has the words of each status that was asked for.
var known sync.Map

// wordsOf asks the library for the words of a status, once.
func wordsOf(status C.uint32_t) words {
	if found, ok := known.Load(status); ok {
		return found.(words)
	}
	name, _ := written(func(out *C.uint8_t, room C.size_t, told *C.svid_told) C.uint32_t {
		return C.svid_status_name(status, out, room, told)
	})
	text, before := written(func(out *C.uint8_t, room C.size_t, told *C.svid_told) C.uint32_t {
		return C.svid_status_sentence(status, out, room, told)
	})
	found := words{short(name), text, clause(text[:before]), clause(strings.TrimPrefix(text[before:], " "))}
	known.Store(status, found)
	return found
}

// written is a text of the library, and how much of it is no advice.
func written(write func(out *C.uint8_t, room C.size_t, told *C.svid_told) C.uint32_t) (string, int) {
	var told C.svid_told
	out := make([]byte, 64)
	for write(start(out), C.size_t(len(out)), &told) != C.SVID_OK {
		out = make([]byte, told.len) // (it had no room)
	}
	return string(out[:told.len]), int(told.more)
}

// clause is a sentence as a part of another one: without a capital, and without a period.
func clause(sentence string) string {
	if sentence == "" {
		return ""
	}
	return strings.ToLower(sentence[:1]) + strings.TrimSuffix(sentence[1:], ".")
}

// whole says what is wrong, and what to do.
func (w words) whole() string {
	if w.advice == "" {
		return w.says
	}
	return w.says + ": " + w.advice
}

// short is the name of a status as docs/FORMATS.md has it: "NoKey" for "SVID_NO_KEY".
func short(name string) string {
	var found strings.Builder
	for _, word := range strings.Split(strings.TrimPrefix(name, "SVID_"), "_") {
		found.WriteString(word[:1] + strings.ToLower(word[1:]))
	}
	return found.String()
}
