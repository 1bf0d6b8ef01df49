// Package patience says how long a test waits for what must come.
package patience

import (
	"fmt"
	"os"
	"strconv"
	"time"
)

// variable, in the environment, says it in seconds. go/wrong/run sets it, since there most events that a test waits for never come.
const variable = "SVID_TEST_PATIENCE"

// Long is three minutes where nobody says anything else: a busy machine may be slow.
var Long = long(os.Getenv(variable))

func long(said string) time.Duration {
	if said == "" {
		return 3 * time.Minute
	}
	seconds, err := strconv.ParseUint(said, 10, 16)
	if err != nil {
		panic(fmt.Sprintf("%s is %q, and not a number of seconds", variable, said))
	}
	return time.Duration(seconds) * time.Second
}

// Looks returns the pauses between one look and the next at something that a test awaits. They are short at first, and the looks at what takes
// long cost little.
func Looks() (pause func()) {
	next := 4 * time.Millisecond
	return func() {
		time.Sleep(next)
		if next < 100*time.Millisecond {
			next += next / 4
		}
	}
}
