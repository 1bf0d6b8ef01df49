package bundles

import (
	"bytes"
	"encoding/json"
	"fmt"
	"sort"
)

// To read a bundle takes up to a kilobyte of memory for each object and list in it, however short these are: a hundred times
// the bundle's length. So a bundle may have only so many brackets, and all bundles together have a weight at the most. No bracket is
// looked at in its place: those inside of texts count too.
const (
	mostBrackets  = 1 << 15 // of one bundle. A key has 1 to 2 of them
	bracketWeight = 32      // bytes as which a bracket counts beside its own
	mostTogether  = 4 << 20 // the weight of all bundles that count
)

var (
	errBrackets = fmt.Errorf("it has more than %d of the brackets { and [", mostBrackets)
	errNoRoom   = fmt.Errorf("with it, all bundles together have more than %d bytes, where each { and [ counts as %d more: the heaviest are skipped",
		mostTogether, bracketWeight)
)

// brackets is how many objects and lists a text may begin.
func brackets(text []byte) int {
	return bytes.Count(text, []byte("{")) + bytes.Count(text, []byte("["))
}

// weight is what a bundle counts for among all bundles.
func weight(text []byte) int { return len(text) + bracketWeight*brackets(text) }

// bearable is an error where a bundle is too long, or takes too much memory to read.
func bearable(text []byte) error {
	switch {
	case len(text) > mostDocument:
		return errTooLong
	case brackets(text) > mostBrackets:
		return errBrackets
	}
	return nil
}

// fitting returns the bundles that count: the lightest ones, as many as there is room for. So a bundle that weighs no more than
// the whole room divided by the number of bundles always counts, whatever the others are. It logs the others, once. The caller
// holds mu.
func (w *Watcher) fitting() map[string]json.RawMessage {
	names := make([]string, 0, len(w.held))
	for name := range w.held {
		names = append(names, name)
	}
	sort.Slice(names, func(i, j int) bool {
		a, b := w.held[names[i]].weight, w.held[names[j]].weight
		return a < b || a == b && names[i] < names[j]
	})
	all, room := make(map[string]json.RawMessage, len(names)), mostTogether
	for _, name := range names {
		b := w.held[name]
		before := b.isOver
		if b.isOver = b.weight > room; b.isOver {
			room = 0 // (the next one weighs as much, or more)
		} else {
			room -= b.weight
			all[name] = b.document
		}
		switch {
		case b.isOver && !before:
			w.log("bundle passed over", "domain", name, "source", b.source, "why", errNoRoom)
		case !b.isOver && before:
			w.log("bundle counts again", "domain", name, "source", b.source)
		}
	}
	return all
}
