package postgres

import (
	"context"
	"database/sql"
	"errors"
	"testing"
	"time"

	"github.com/lib/pq"

	"svid.example/go/v3/claims"
	"svid.example/go/v3/claims/claimstest"
	"svid.example/go/v3/internal/logtest"
	"svid.example/go/v3/internal/patience"
)

// A member that claims a token and does not commit that holds up nobody who claims another one, also in a call that has both.
func TestAClaimThatIsNotCommitted(t *testing.T) {
	t.Parallel()
	s := start(t)
	a := open(t, Options{URLs: []string{s.URL}, Name: "svid"})
	held := claim(1)
	connect, err := pq.NewConnector(s.URL)
	if err != nil {
		t.Fatal(err)
	}
	liar := sql.OpenDB(connect)
	defer liar.Close()
	begun, err := liar.Begin()
	if err != nil {
		t.Fatal(err)
	}
	defer begun.Rollback()
	if _, err := begun.Exec(`SELECT svid.put($1::bytea, $2::bytea, $3::bigint)`, held.Key[:], held.Owner[:], int64(held.Expires)); err != nil {
		t.Fatal(err)
	}
	these := []claims.Claim{held}
	for i := 0; i < 255; i++ {
		these = append(these, claim(2))
	}
	wait := 4 * time.Second
	logtest.Await(t, "the others", func() bool {
		found := claimstest.Try(a, wait, these...)
		wait *= 2 // (a busy machine may be slow)
		if found[0].Err == nil {
			t.Fatalf("%+v", found[0])
		}
		failed := 0
		for _, f := range found[1:] {
			if f.Err != nil {
				failed++
			}
		}
		if failed > 0 {
			t.Logf("%d of %d others fail: %v", failed, len(found)-1, found[1].Err)
		}
		return failed == 0
	})
	if !claimstest.OfOthers() { // (a client of another language may put it again within its call)
		// Its own call is not held up either: so many may be under way.
		if f := claimstest.Try(a, patience.Long, held)[0]; !errors.Is(f.Err, errHeld) {
			t.Errorf("%+v", f)
		}
		patient, cancel := context.WithTimeout(context.Background(), patience.Long)
		defer cancel()
		if _, err := a.Withdraw(patient, claims.Withdrawal{Key: held.Key, Expires: held.Expires}); !errors.Is(err, errHeld) {
			t.Errorf("a withdrawal: %v", err)
		}
	}
	begun.Rollback()
	mine(t, a, held)
}

// A context that ends just as its answer comes ends no later call on that connection.
func TestAContextThatEndsWithItsAnswer(t *testing.T) {
	t.Parallel()
	s := start(t)
	patient, cancel := context.WithTimeout(context.Background(), patience.Long)
	defer cancel()
	c, err := dial(patient, s.URL)
	if err != nil {
		t.Fatal(err)
	}
	defer c.close()
	for n := 0; n < 500; n++ {
		ctx, cancel := context.WithCancel(context.Background())
		end, err := c.within(ctx)
		if err != nil {
			t.Fatal(err)
		}
		cancel()
		end()
		if _, err := c.query(context.Background(), "SELECT 1"); err != nil {
			t.Fatalf("call %d: %v", n, err)
		}
	}
}
