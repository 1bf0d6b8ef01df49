package journal

import (
	"errors"
	"os"

	"svid.example/go/v3/svid"
)

// A Report is what a state folder holds.
type Report struct {
	ValidatorID svid.ValidatorID
	HasID       bool      // the folder has a validator ID
	Log         svid.Mark // where the validator was in its log, as the last payload says that bears it
	InLog       bool      // one does
	Files       []*File   // the snapshot, if there is one, and the journals by rising number
	// Fault is why a start would refuse the folder: the first damage (svid.ErrDamaged), another format (*svid.FormatError), or a
	// validator ID that is missing.
	Fault error
}

// mostTries is how often a folder is read whose files go meanwhile.
const mostTries = 10

// Check reads a state folder and changes nothing. A process may have the folder open: what it was writing at that moment
// counts as torn.
func Check(dir string) (*Report, error) {
	return check(&folder{dir: dir}, dir)
}

func check(sys system, dir string) (*Report, error) {
	before := ""
	for try := 1; ; try++ {
		found, err := readAll(sys, nil)
		if try < mostTries && errors.Is(err, os.ErrNotExist) {
			continue // A journal went after the listing: a snapshot has taken its place.
		}
		if err != nil {
			return nil, err
		}
		r := &Report{ValidatorID: found.id, HasID: found.hasID, Log: found.mark, InLog: found.isMarked, Files: found.files, Fault: found.fault(dir)}
		// A file that grows while it is read can look damaged. Damage stays where it is.
		if try == mostTries || !errors.Is(r.Fault, svid.ErrDamaged) || r.Fault.Error() == before {
			return r, nil
		}
		before = r.Fault.Error()
	}
}
