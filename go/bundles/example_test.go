package bundles_test

import (
	"context"
	"encoding/json"
	"fmt"
	"log"
	"os"
	"path/filepath"

	"svid.example/go/v3/bundles"
	"svid.example/go/v3/internal/issuer"
)

// The bundles of a folder, whose files are called as their trust domains.
func ExampleWatch() {
	folder, err := os.MkdirTemp("", "example")
	if err != nil {
		log.Fatal(err)
	}
	defer os.RemoveAll(folder)
	spire, err := issuer.New("example.org")
	if err != nil {
		log.Fatal(err)
	}
	if err := os.WriteFile(filepath.Join(folder, "example.org.json"), spire.JWKSet(), 0o600); err != nil {
		log.Fatal(err)
	}
	ctx, cancel := context.WithCancel(context.Background())
	defer cancel()
	renew := func(domains map[string]json.RawMessage) error { // a service gives them to its validator: svid.Validator.Renew
		for domain := range domains {
			fmt.Println(domain)
		}
		return nil
	}
	if _, err := bundles.Watch(ctx, []bundles.Spec{bundles.Folder(folder)}, renew, bundles.Options{}); err != nil {
		log.Fatal(err)
	}
	// Output: example.org
}
