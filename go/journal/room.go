package journal

import (
	"context"
	"errors"
	"fmt"
)

// leastRoom is how many bytes of room a journal must have, or find on the disk, for what is appended next: some hundred uses.
const leastRoom = 16 << 10

// Room returns nil if the folder takes what is appended next: nothing has ended it, it is still at its path with the validator's ID, and
// the disk has room for some hundred uses.
// It puts zeros after the journal where that has less room, so what it finds stays there for the next Append.
//
// It waits as Append does: until the disk has answered to the writes before it, or ctx ends. Its error is what Append would
// return, or says that there is no file descriptor or memory to read the ID.
func (j *Journal) Room(ctx context.Context) error {
	c, err := j.join(&commit{room: true})
	if err != nil {
		return err
	}
	select {
	case <-c.done:
		return c.full
	case <-ctx.Done():
		return fmt.Errorf("journal: the disk did not answer in time: %w", ctx.Err())
	}
}

// makeRoom is Room. The caller holds write.
func (j *Journal) makeRoom() error {
	switch {
	case j.broken != nil:
		return j.broken
	case j.old:
		return errOld
	}
	switch err := j.sys.there(&j.id); {
	case errors.Is(err, ErrMoved):
		return j.end(err)
	case err != nil:
		return err
	}
	_, at := j.core.Growing()
	if j.room-at >= j.least {
		return nil
	}
	n, err := j.file.WriteAt(make([]byte, j.least+int64(j.growth)), at)
	if end := at + int64(n); end > j.room {
		j.room = end
	}
	if j.room-at >= j.least {
		return nil
	}
	return fmt.Errorf("journal: %w", err)
}
