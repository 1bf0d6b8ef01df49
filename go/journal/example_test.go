package journal_test

import (
	"context"
	"fmt"
	"log"
	"os"
	"path/filepath"

	"svid.example/go/v3/journal"
	"svid.example/go/v3/svid"
)

// A use is on the disk once AppendUses returns, and a later process finds it there.
func ExampleJournal() {
	folder, err := os.MkdirTemp("", "example")
	if err != nil {
		log.Fatal(err)
	}
	defer os.RemoveAll(folder)
	state := filepath.Join(folder, "state")

	// run opens the folder, reads what it has, and keeps one use more.
	run := func(use svid.Use) {
		j, err := journal.Open(state)
		if err != nil {
			log.Fatal(err)
		}
		defer j.Close()
		found := 0
		take := func(messages []byte) error { // a service gives them to its validator: svid.Validator.Take
			uses, err := svid.Uses(messages)
			found += len(uses)
			return err
		}
		if err := j.Load(take); err != nil {
			log.Fatal(err)
		}
		use.ValidatorID = j.ValidatorID()
		if err := j.AppendUses(context.Background(), use); err != nil {
			log.Fatal(err)
		}
		fmt.Println("found", found)
	}
	run(svid.Use{Key: svid.TokenKey{1}, Expires: 1767225900, At: 1767225600})
	run(svid.Use{Key: svid.TokenKey{2}, Expires: 1767225900, At: 1767225601})
	// Output:
	// found 0
	// found 1
}
