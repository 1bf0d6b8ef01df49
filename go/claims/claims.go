// Package claims keeps one claim for each token in a store that a group shares. The first claim of a token counts, so no other
// member of the group accepts that token.
//
// A Store is the part that each server needs: package redis has one for Redis, package postgres for PostgreSQL, package nats for
// NATS JetStream, and package memory one for tests. A store knows nothing of tokens: what an answer of it means for a token is
// for the proved library to say (svid.Claim).
package claims

import (
	"context"
	"errors"
	"fmt"

	"svid.example/go/v3/svid"
)

// An Owner says whose a claim is. The library makes it, of a member's life or of a caller, and of the token's expiry.
type Owner = svid.Owner

// Withdrawn is the owner of a withdrawal.
var Withdrawn Owner

// A Claim is an entry to put under a key that has none.
type Claim struct {
	Key     svid.TokenKey
	Owner   Owner
	Expires uint64 // when the token expires, in seconds since 1970
}

// A Found is what a store answers to a claim.
type Found struct {
	Owner Owner  // of the entry that is there after the put: the claim's own, or an earlier one's
	Time  uint64 // the store's time, read at the decision or after it
	Deaf  uint64 // of tokens that expire by then it is unknown whether an earlier epoch had a claim: none is accepted
	Err   error  // why it is unknown what is there: the same claim may be put again, and finds its own entry if it was stored
}

// A Withdrawal is a token that nobody accepts any more.
type Withdrawal struct {
	Key     svid.TokenKey
	Expires uint64
}

// A State says what a store is at the moment. Times are in seconds since 1970, by the store's clock.
type State struct {
	Epoch string // names one history of the store in which nothing was lost
	Deaf  uint64 // as in Found; the greatest one of all shards
	Time  uint64
}

// Terms are what the members of a group agree on. The store keeps those of who made it.
//
// The first member that opens the store writes its terms there. A member whose Lasts is greater raises that of the store, one whose
// Lasts is less takes the store's. A member whose Margin is greater than the store's gets an *Unfit.
type Terms struct {
	Lasts  uint64 // seconds past the store's time that a token may live which is claimed: for longer ones nobody answers
	Margin uint64 // seconds past its token's expiry that an entry stays
	Back   uint64 // seconds that the store's clock may step back in an epoch, also by a failover; a part of Margin
}

// A Store keeps, for each key, the first entry that was put there. Its methods may be called from many goroutines at once, and
// end soon after ctx does.
//
// Its duties:
//   - Put is put-if-absent, atomic for each key. What stands under a key stays, until its expiry plus the margin has passed by the
//     store's clock. Nobody removes an entry before.
//   - Found.Time is read at the decision or after it.
//   - Where an entry was lost, or may have been, the epoch ends: whatever is answered after that has a Deaf that no claim of an
//     earlier epoch passes (Terms.Lasts after its end). Every member sees that, also one that starts later. No lost entry comes back.
//   - What a member has written may have any length: no call reads more than 32 bytes of an entry.
type Store interface {
	// Open connects, makes what is missing, and agrees on the terms. It tries until ctx ends. An *Unfit says that the server may
	// lose entries, or that this member can't use it, and what to do.
	Open(ctx context.Context) (State, error)
	// Put puts all claims, each under a key of its own, and sets found[i] for each. len(found) is len(these).
	Put(ctx context.Context, these []Claim, found []Found)
	// Withdraw puts a withdrawal where nothing stands under the key, and lets every member hear of it by Withdrawals. The owner that
	// it returns is Withdrawn, or the one whose claim stands there already: then the token was used. The error is nil once both are
	// there to stay; else the same call may be made again.
	Withdraw(ctx context.Context, w Withdrawal) (Owner, error)
	// Withdrawals returns the withdrawals that came after a position, and the position up to which it has read. The first position is "".
	// A position that the store does not know reads all again. It returns at most MostWithdrawals, and fewer where others have written what is
	// none: the caller asks again until the position stays.
	Withdrawals(ctx context.Context, after string) (these []Withdrawal, last string, err error)
	// State asks what the store is now. It also does what is due: it removes entries that are over where the server doesn't, and
	// ends the epoch where a loss shows.
	State(ctx context.Context) (State, error)
	// Close lets go of the server.
	Close() error
}

// MostWithdrawals is how many withdrawals one call returns.
const MostWithdrawals = 1000

// MostClaims is how many claims share a Put.
const MostClaims = 256

// ErrEpoch: the epoch ended while the claim was on its way. To be put again.
var ErrEpoch = errors.New("the store's epoch ended meanwhile")

// An Unfit says why a store is of no use to this member, and what to do.
type Unfit struct{ Why string }

func (u *Unfit) Error() string { return u.Why }

// Unfitf returns an *Unfit.
func Unfitf(text string, values ...any) error { return &Unfit{fmt.Sprintf(text, values...)} }

// ValidName says whether a group can have this name: letters, digits, - and _ alone, and at most 64 of them.
func ValidName(name string) bool {
	for _, c := range []byte(name) {
		if !(c >= 'a' && c <= 'z' || c >= 'A' && c <= 'Z' || c >= '0' && c <= '9' || c == '-' || c == '_') {
			return false
		}
	}
	return name != "" && len(name) <= 64
}
