package postgres

import (
	"bufio"
	"fmt"
	"os"
	"strings"
	"testing"

	"svid.example/go/v3/claims/claimstest"
)

// serverEnv lets TestAServerOfAnotherLanguage do what its input says.
const serverEnv = "SVID_STORE_SERVER"

// TestAServerOfAnotherLanguage is a server for the tests of a client of another language. It prints the server's address, and then does what each line of
// its input says, and answers a line: `schema GROUP`, `kill`, `start`, `pause`, `resume`, or SQL.
func TestAServerOfAnotherLanguage(t *testing.T) {
	if os.Getenv(serverEnv) == "" {
		return // (nobody asks)
	}
	s := start(t)
	fmt.Println(s.URL)
	do := map[string]func(){
		"kill": s.Postgres.Kill, "start": func() { s.start(t) }, "pause": s.Postgres.Pause, "resume": s.Postgres.Resume,
	}
	for lines := bufio.NewScanner(os.Stdin); lines.Scan(); {
		what := lines.Text()
		if group := strings.TrimPrefix(what, "schema "); group != what {
			what = Schema(group, claimstest.Usual, "")
		}
		if act := do[what]; act != nil {
			act()
			fmt.Println("done")
		} else if err := s.Do(what); err != nil {
			fmt.Printf("%q\n", err)
		} else {
			fmt.Println("done")
		}
	}
}
