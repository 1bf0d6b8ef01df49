package svid

// #include "svid.h"
import "C"

import "fmt"

// Unready is why a member judges no token (UnreadyEnded to UnreadyGroupUnread), or why no tokens are to be sent to it. It is an error, so that
// errors.As finds the reason.
type Unready uint32

// lists:begin unready (written by tools/lists from lists/statuses.toml)

// The reasons, in the order in which a member looks for them.
const (
	UnreadyEnded             Unready = C.SVID_ENDED              // the member has ended
	UnreadyNoBundle          Unready = C.SVID_NO_BUNDLE          // there is no trust bundle
	UnreadyLoading           Unready = C.SVID_LOADING            // the state folder is being read
	UnreadyStoreUnreached    Unready = C.SVID_STORE_UNREACHED    // the group's store was not reached yet
	UnreadyWithdrawalsUnread Unready = C.SVID_WITHDRAWALS_UNREAD // the store's withdrawals are being read
	UnreadyBrokerUnreached   Unready = C.SVID_BROKER_UNREACHED   // the group's broker was not reached yet
	UnreadyGroupUnread       Unready = C.SVID_GROUP_UNREAD       // what the group had is being read
	UnreadyDraining          Unready = C.SVID_DRAINING           // the member is to end soon
	UnreadyJumped            Unready = C.SVID_JUMPED             // the clock went ahead too far at once
	UnreadyKeepsNothing      Unready = C.SVID_KEEPS_NOTHING      // the state folder takes no acceptance
	UnreadyStoreAway         Unready = C.SVID_STORE_AWAY         // the group's store does not answer, so no token can be claimed
	UnreadyDeaf              Unready = C.SVID_DEAF               // the store has lost entries, so no token is accepted that lives as long as it may
)

// lists:end

// String returns the reason's name, as "Draining".
func (u Unready) String() string {
	if u.isOne() {
		return wordsOf(C.uint32_t(u)).name
	}
	return fmt.Sprintf("Unready(%d)", uint32(u))
}

// Error says what is so, and what to do.
func (u Unready) Error() string { return "svid: " + u.Words() }

// Words say the same without the name of the package: "there is no trust bundle".
func (u Unready) Words() string {
	if u.isOne() {
		return wordsOf(C.uint32_t(u)).whole()
	}
	return "no reason has this number"
}

// isOne says whether a reason has this number.
func (u Unready) isOne() bool { return u >= UnreadyEnded && u <= UnreadyDeaf }
