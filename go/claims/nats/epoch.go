package nats

import (
	"crypto/rand"
	"crypto/sha256"
	"encoding/hex"
	"encoding/json"
	"time"

	"svid.example/go/v3/claims"
	"svid.example/go/v3/svid"
)

// first is the link that the first record of a store follows.
const first = "first"

// A record says which epoch the store has, from the record on. It follows the one before it, whose link names its subject: so two members
// that end an epoch at once agree on one.
type record struct {
	Link        string `json:"link"`   // 16 random bytes, as hex
	Epoch       string `json:"epoch"`  // the same as before, if nothing was lost
	Before      string `json:"before"` // the epoch before this one; "" for the first
	Deaf        uint64 `json:"deaf"`
	Began       int64  `json:"began"` // the store's time when it was written, in nanoseconds since 1970
	Lasts       uint64 `json:"lasts"`
	Margin      uint64 `json:"margin"`
	Back        uint64 `json:"back"`
	Run         string `json:"run"`         // the server's process, or the streams' leader: another one may have lost something
	Claims      int64  `json:"claims"`      // when their stream was made, in nanoseconds since 1970; 0 while the store is new, and answers nobody
	Withdrawals int64  `json:"withdrawals"` // the same
	Deleted     uint64 `json:"deleted"`     // messages between the first claim and the last one that are gone
	Gone        uint64 `json:"gone"`        // the same of withdrawals

	// Where the stream of claims began when the epoch did, and that of withdrawals. The epoch is deaf to what was before that.
	First           uint64 `json:"first"`
	FirstWithdrawal uint64 `json:"first_withdrawal"`
}

// known is what a member knows of the store.
type known struct {
	record
	raw      []byte    // the record as it stands
	position uint64    // of it
	read     uint64    // position of the last message of the epochs' stream that was read
	made     time.Time // when that stream was made
	isAlone  bool      // one server alone has the streams
	age      time.Duration
}

func newLink() (string, error) {
	var b [16]byte
	if _, err := rand.Read(b[:]); err != nil {
		return "", err
	}
	return hex.EncodeToString(b[:]), nil
}

func isLink(text string) bool {
	b, err := hex.DecodeString(text)
	return err == nil && len(b) == 16
}

func (k *known) terms() claims.Terms {
	return claims.Terms{Lasts: k.Lasts, Margin: k.Margin, Back: k.Back}
}

// deafAt is until when tokens may expire that were claimed before that time of the store.
func (k *known) deafAt(at int64) uint64 {
	return svid.DeafAfter(plus(uint64(at)/uint64(time.Second), 1), plus(k.Lasts, k.Back), k.Deaf)
}

// follow reads the next message of the epochs' stream, and says whether it is the record that follows the known one. What a member has
// written that lies may end the epoch; it neither makes a store less deaf than before nor changes its margin, nor lets it forget when its
// streams were made.
func (k *known) follow(base string, m stored) bool {
	k.read = m.Position
	link := k.Link
	if link == "" {
		link = first
	}
	if m.Subject != base+"e."+link {
		return false
	}
	var r record
	if json.Unmarshal(m.Data, &r) != nil || !isLink(r.Link) || !isLink(r.Epoch) || r.Link == k.Link {
		sum := sha256.Sum256(m.Data)
		r = k.record
		r.Link = hex.EncodeToString(sum[:16])
		r.Epoch, r.Before, r.Deaf = r.Link, k.Epoch, k.deafAt(m.Time.UnixNano())
	}
	if k.Link != "" {
		if r.Lasts < k.Lasts {
			r.Lasts = k.Lasts
		}
		r.Margin, r.Back = k.Margin, k.Back
		if r.Claims == 0 {
			r.Claims, r.Withdrawals = k.Claims, k.Withdrawals
		}
	}
	if m.Time.UnixNano() > r.Began {
		r.Began = m.Time.UnixNano()
	}
	if r.Deaf < k.Deaf {
		r.Deaf = k.Deaf
	}
	k.record, k.raw, k.position = r, append([]byte(nil), m.Data...), m.Position
	return true
}
