package server

import (
	"errors"
	"sort"
	"strings"

	"svid.example/go/v3/svid"
)

// Two sidecars of mode once may accept one token before they hear of each other. Each of the two says so, once for each token: when it takes the
// message that tells of the other's use. Whether two uses are of one token the library's report says.

// errTwice: another sidecar of the group accepted a token that this one accepted too.
var errTwice = errors.New("two sidecars of the group accepted this token, since neither had heard of the other: it may be stolen, or its client sent it twice")

// ownUses are this sidecar's acceptances, until they have expired, or others take their room.
type ownUses struct {
	generations[svid.TokenKey, ownUse]
	turned uint64 // when the young one began, in seconds since 1970
}

// An ownUse is what is not the same of all of them.
type ownUse struct{ expires, at uint64 }

// mostOwn is how many there are in a generation.
const mostOwn = 1 << 16

// add takes note of an acceptance. No token lives for longer than longest.
func (o *ownUses) add(now, longest uint64, use svid.Use) {
	if len(o.young) >= mostOwn || now > o.turned+longest {
		o.turn()
		o.turned = now
	}
	o.put(use.Key, ownUse{use.Expires, use.At})
}

// noteOwn takes note of an acceptance as it is judged: another's may come while this one is on its way to the disk.
func (m *Machine) noteOwn(use svid.Use) {
	if m.Mode == Once && m.Grouped {
		m.own.add(m.now.Wall, m.Longest, use)
	}
}

// lookTwice looks at a message that the record took.
func (m *Machine) lookTwice(message []byte) {
	if len(m.own.young)+len(m.own.old) == 0 {
		return
	}
	uses, err := svid.Uses(message)
	if err != nil {
		m.Log.Error("report", err)
		return
	}
	for _, use := range uses {
		if own, _, is := m.own.find(use.Key); is && use.ValidatorID != m.ValidatorID {
			m.sayTwice(svid.Use{Key: use.Key, Expires: own.expires, At: own.at, ValidatorID: m.ValidatorID}, use)
		}
	}
}

// sayTwice says that a token was accepted twice, if it was by the library's report (docs/FORMATS.md, "Texts of the program").
func (m *Machine) sayTwice(own, other svid.Use) {
	report := ""
	messages, err := svid.Batches([]svid.Use{own, other})
	if err == nil {
		report, err = svid.Report(messages)
	}
	if err != nil {
		m.Log.Error("report", err)
	}
	if _, keys, _ := strings.Cut(report, "\ntwice "); !strings.Contains(keys, own.Key.String()) {
		return
	}
	m.own.drop(own.Key)
	m.metrics.AcceptedTwice.Add(1)
	ids := []string{own.ValidatorID.String(), other.ValidatorID.String()}
	sort.Strings(ids)
	m.Log.Error("accepted twice", errTwice, "key", own.Key.String(), "validator_ids", strings.Join(ids, " "))
}
