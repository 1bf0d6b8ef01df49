package redis

import (
	"crypto/rand"
	"encoding/hex"
	"fmt"
	"math"
	"strconv"
	"strings"

	"svid.example/go/v3/claims"
	"svid.example/go/v3/svid"
)

const (
	idLength    = 32  // hexadecimal digits
	mostRecord  = 767 // the last byte that is read of a record
	mostBefores = 8   // epochs before that a record names
	none        = "-" // stands for a field without a value
)

// A record says what epoch a shard is in. It is the value of the shard's key epoch: these fields, with blanks between them, the ID
// first. It changes by a comparison with the whole record of before.
type record struct {
	id     string // 32 hexadecimal digits
	deaf   uint64
	began  uint64 // seconds, by the store's time
	terms  claims.Terms
	run    string // the server's run that has all of the epoch's entries
	node   string // the server's ID in a Cluster
	next   string // a later run, whose entries members compare with what they know
	until  uint64 // and they have until then, in milliseconds
	settle uint64 // nothing is put before, in milliseconds
	list   uint64 // the number of the list that takes withdrawals
	since  uint64 // when that was begun, in seconds
	before []string
}

// newID names an epoch.
func newID() (string, error) {
	var id [idLength / 2]byte
	if _, err := rand.Read(id[:]); err != nil {
		return "", err
	}
	return hex.EncodeToString(id[:]), nil
}

// isID says whether a text is one of newID: another one could have bytes that stand for something else in a position, or on a terminal.
func isID(text string) bool {
	_, err := hex.DecodeString(text)
	return err == nil && len(text) == idLength
}

func or(text, otherwise string) string {
	if text == "" {
		return otherwise
	}
	return text
}

// text is the record as it is stored.
func (r *record) text() string {
	return fmt.Sprintf("%s svid1 %d %d %d %d %d %s %s %s %d %d %d %d %s", r.id, r.deaf, r.began, r.terms.Lasts, r.terms.Margin, r.terms.Back, or(r.run, none),
		or(r.node, none), or(r.next, none), r.until, r.settle, r.list, r.since, or(strings.Join(r.before, ","), none))
}

// readRecord reads a text that is stored.
func readRecord(text string) (r record, ok bool) {
	fields := strings.Split(text, " ")
	if len(fields) != 15 || !isID(fields[0]) || fields[1] != "svid1" || len(text) > mostRecord {
		return r, false
	}
	r.id = fields[0]
	for i, to := range map[int]*uint64{2: &r.deaf, 3: &r.began, 4: &r.terms.Lasts, 5: &r.terms.Margin, 6: &r.terms.Back, 10: &r.until, 11: &r.settle, 12: &r.list, 13: &r.since} {
		n, err := strconv.ParseUint(fields[i], 10, 64)
		if err != nil {
			return r, false
		}
		*to = n
	}
	for i, to := range map[int]*string{7: &r.run, 8: &r.node, 9: &r.next} {
		if fields[i] != none {
			*to = fields[i]
		}
	}
	if fields[14] != none {
		r.before = strings.Split(fields[14], ",")
	}
	return r, true
}

// follows says whether the record's epoch came after another one.
func (r *record) follows(id string) bool {
	for _, one := range r.before {
		if one == id {
			return true
		}
	}
	return false
}

// successor is the record of the next epoch, which begins at a time. at is the greatest time that was seen of the store.
func (r *record) successor(at, began uint64, who replication, node string, others ...string) (record, error) {
	id, err := newID()
	if err != nil {
		return record{}, err
	}
	next := *r
	next.id, next.began, next.run, next.node, next.next, next.until, next.settle = id, began, who.run, node, "", 0, 0
	next.deaf = svid.DeafAfter(plus(at, r.terms.Back), r.terms.Lasts, r.deaf)
	next.before = nil
	for _, one := range append(append([]string{r.id}, others...), r.before...) {
		if one != "" && len(next.before) < mostBefores && !next.follows(one) {
			next.before = append(next.before, one)
		}
	}
	return next, nil
}

// plus is a sum, and the greatest number where that is more.
func plus(a, b uint64) uint64 {
	if a > math.MaxUint64-b {
		return math.MaxUint64
	}
	return a + b
}
