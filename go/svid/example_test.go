package svid_test

import (
	"errors"
	"fmt"
	"log"
	"time"

	"svid.example/go/v3/svid"
)

// A service checks a token: the keyring verifies the signature, and the
// validator accepts the token once.
func Example() {
	bundles := example.Bundles() // {"example.org":{"keys":[..]}}
	keyring, err := svid.NewKeyring(bundles)
	if err != nil {
		log.Fatal(err)
	}
	defer keyring.Close()
	id, err := svid.NewValidatorID()
	if err != nil {
		log.Fatal(err)
	}
	validator, err := svid.Open(svid.Options{
		Audiences: []string{"ledger"}, Bundles: bundles,
		Longest: 3600, Ahead: 10, Step: 86400, ValidatorID: id,
	})
	if err != nil {
		log.Fatal(err)
	}
	defer validator.Close()

	now := uint64(1767225600) // svid.Now() in a service
	token := example.Token("ES256", map[string]any{
		"sub": "spiffe://example.org/web", "aud": "ledger", "exp": now + 300,
	})
	for i := 0; i < 2; i++ {
		accepted, err := validator.Accept(keyring, now, token)
		switch {
		case err == nil:
			fmt.Println(accepted.ID, accepted.Use.Expires)
		case errors.Is(err, svid.Replayed):
			fmt.Println("used before")
		default:
			fmt.Println(err)
		}
	}
	// Output:
	// spiffe://example.org/web 1767225900
	// used before
}

// The keys of a SPIFFE Workload API, or of go-spiffe's package jwtbundle, name no use.
func ExampleJoinBundles() {
	bundles, err := svid.JoinBundles(map[string][]byte{
		"spiffe://example.org": []byte(`{"keys":[{"kty":"EC","kid":"a","crv":"P-256","x":"..","y":".."}]}`),
	})
	if err != nil {
		log.Fatal(err)
	}
	fmt.Printf("%s\n", bundles)
	// Output: {"example.org":{"keys":[{"crv":"P-256","kid":"a","kty":"EC","use":"jwt-svid","x":"..","y":".."}]}}
}

// Two validators share their record: what one accepted, the other refuses.
func ExampleValidator_Take() {
	here, err := svid.Open(options(1))
	if err != nil {
		log.Fatal(err)
	}
	defer here.Close()
	there, err := svid.Open(options(2))
	if err != nil {
		log.Fatal(err)
	}
	defer there.Close()
	keyring, err := svid.NewKeyring(example.Bundles())
	if err != nil {
		log.Fatal(err)
	}
	defer keyring.Close()

	token := example.Token("RS256", claims("example"))
	yes, err := keyring.Verify(token)
	if err != nil {
		log.Fatal(err)
	}
	accepted, err := here.Check(moment, token, yes)
	if err != nil {
		log.Fatal(err)
	}
	message, err := accepted.Use.Batch() // to be sent by any broker, file or socket
	if err != nil {
		log.Fatal(err)
	}
	if err := there.Take(moment, message); err != nil {
		log.Fatal(err)
	}
	_, err = there.Check(moment, token, yes)
	fmt.Println(err)
	// Output: svid: token refused: Replayed
}

// A token is withdrawn before it expires, by the key that an acceptance gave.
func ExampleValidator_Withdraw() {
	validator, err := svid.Open(options(1))
	if err != nil {
		log.Fatal(err)
	}
	defer validator.Close()
	keyring, err := svid.NewKeyring(example.Bundles())
	if err != nil {
		log.Fatal(err)
	}
	defer keyring.Close()

	token := example.Token("PS256", claims("example"))
	yes, err := keyring.Verify(token)
	if err != nil {
		log.Fatal(err)
	}
	judged, err := validator.Judge(moment, token, yes)
	if err != nil {
		log.Fatal(err)
	}
	if _, err := validator.Withdraw(moment, judged.Use.Key, judged.Use.Expires); err != nil {
		log.Fatal(err)
	}
	_, err = validator.Check(moment, token, yes)
	fmt.Println(errors.Is(err, svid.Withdrawn))
	// Output: true
}

// A service that keeps what it accepts on a disk asks a member what to do for each request.
func ExampleValidator_OpenMember() {
	keyring, err := svid.NewKeyring(example.Bundles())
	if err != nil {
		log.Fatal(err)
	}
	defer keyring.Close()
	validator, err := svid.Open(svid.Options{Audiences: []string{"ledger"}, Bundles: example.Bundles(), Longest: 3600, Ahead: 10})
	if err != nil {
		log.Fatal(err)
	}
	defer validator.Close()
	life, err := svid.NewLife()
	if err != nil {
		log.Fatal(err)
	}
	if err := validator.OpenMember(svid.MemberTerms{Mode: svid.MemberOnce, Disk: true, Wait: 5 * time.Second, Life: life}); err != nil {
		log.Fatal(err)
	}
	// The record of the disk is read, and there is neither a store nor a broker.
	if err := validator.Know(svid.Known{Bundled: true, Loaded: true, Opened: true, Heard: true, Joined: true, CaughtUp: true}); err != nil {
		log.Fatal(err)
	}

	now, began := uint64(1767225600), time.Now()
	token := svid.NewToken(example.Token("ES256", map[string]any{"sub": "spiffe://example.org/web", "aud": "ledger", "exp": now + 300}))
	defer token.Close()
	for i := 0; i < 2; i++ {
		deed, err := validator.Come(time.Since(began))
		if err != nil {
			log.Fatal(err)
		}
		if _, err := keyring.VerifyToken(&token); err != nil {
			log.Fatal(err)
		}
		_, deed, err = validator.JudgeRequest(now, time.Since(began), deed.Number, &token)
		if deed.Kind == svid.DeedAppend {
			fmt.Println("to the disk:", deed.Used.Expires)
			deed, err = validator.Wrote(time.Since(began), deed.Number, true)
		}
		if deed.Kind == svid.DeedAnswer {
			fmt.Println("answer:", deed.Err)
		} else if err != nil {
			log.Fatal(err)
		}
	}
	// Output:
	// to the disk: 1767225900
	// answer: <nil>
	// answer: svid: token refused: Replayed
}
