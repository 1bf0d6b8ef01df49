package bundles

import (
	"context"
	"errors"
	"fmt"
	"net/url"
	"strings"
	"time"

	"svid.example/go/v3/svid"
)

// A Spec says where bundles come from: one trust domain's from a file or an https address, or those of many from a folder
// or a Workload API.
type Spec struct {
	// Domain is the trust domain's name. It is empty for a folder and a Workload API, which name theirs.
	Domain string
	// Source is a file, an https address, a folder, or the address of a Workload API.
	Source string
	// ID is the SPIFFE ID of the server of an https address: it must show an X.509-SVID of that (profile https_spiffe). Without one,
	// it must show a certificate for its name (https_web).
	ID string
	// Authorities is the file of those that vouch for that server. Without an ID: certificates as PEM, or "" for those of
	// Options.Roots. With an ID: a trust bundle of the ID's trust domain; where that is Domain, it counts until the first bundle has
	// come from the server, and where it is another one, "" stands for its last good bundle here.
	Authorities string

	api    bool // Source is a Workload API's
	client API  // which asks it
}

// An API asks a SPIFFE Workload API. Package workload has one: its Address.
type API interface {
	// WatchBundles calls give with the bundles of all trust domains, by their names, each time with all that are valid from then
	// on. It returns when ctx ends, or with what is wrong. The limit is how long the server may take for the first ones.
	WatchBundles(ctx context.Context, limit time.Duration, give func(bundles map[string][]byte)) error
	// IsForGood says whether such an error means that the call is not to be made again.
	IsForGood(err error) bool
}

// Parse reads what stands after --bundle: example.org=FILE or example.org=https://HOST/PATH.
func Parse(text string) (Spec, error) {
	domain, source, found := strings.Cut(text, "=")
	if !found || domain == "" || source == "" {
		return Spec{}, fmt.Errorf("bundles: %q: name the one trust domain whose bundle it is: write DOMAIN=FILE or DOMAIN=https://..", text)
	}
	s := Spec{Domain: domain, Source: source}
	return s, s.check()
}

// Folder is the spec of a folder, whose file example.org.json is the bundle of example.org.
func Folder(dir string) Spec { return Spec{Source: dir} }

// WorkloadAPI is the spec of a Workload API. The address, like unix:///run/spire/agent.sock, is for the log.
func WorkloadAPI(address string, client API) Spec {
	return Spec{Source: address, api: true, client: client}
}

// ParseSpecs reads sources that Parse reads, and a folder, which may be "". Others are added to them.
func ParseSpecs(named []string, folder string, others ...Spec) ([]Spec, error) {
	var specs []Spec
	for _, text := range named {
		s, err := Parse(text)
		if err != nil {
			return nil, err
		}
		specs = append(specs, s)
	}
	if folder != "" {
		specs = append(specs, Folder(folder))
	}
	specs = append(specs, others...)
	return specs, checkAll(specs)
}

func (s Spec) check() error {
	if s.api {
		if s.client == nil {
			return fmt.Errorf("bundles: nothing asks the Workload API at %q", s.Source)
		}
		return nil
	}
	if s.isFolder() {
		return nil
	}
	if err := checkDomain(s.Domain); err != nil {
		return err
	}
	if strings.HasPrefix(s.Source, "http://") {
		return fmt.Errorf("bundles: %s: a bundle comes over https, not over http", s.Domain)
	}
	if !s.isAddress() {
		return nil
	}
	u, err := url.Parse(s.Source)
	switch {
	case err == nil && u.Host != "" && u.User == nil:
		return nil
	case strings.Contains(s.Source, "@"): // (an error with the address would have the password)
		return fmt.Errorf("bundles: %s: an address of a bundle has no name of a user, and no password: write https://HOST/PATH", s.Domain)
	}
	return fmt.Errorf("bundles: %s: %q is no address as https://HOST/PATH", s.Domain, s.Source)
}

// IsRemote says whether the source answers over a socket, so that its bundles come later than Watch returns.
func (s Spec) IsRemote() bool { return s.api || s.isAddress() }

func (s Spec) isFolder() bool  { return s.Domain == "" && !s.api }
func (s Spec) isAddress() bool { return !s.isFolder() && strings.HasPrefix(s.Source, "https://") }

// checkDomain is an error where a name is not a trust domain's (SPIFFE-ID, section 2.1).
func checkDomain(name string) error {
	_, path, err := svid.ParseID("spiffe://" + name)
	switch {
	case errors.Is(err, svid.ErrNoMemory):
		return err
	case err != nil || path != "":
		return fmt.Errorf("bundles: %q is no trust domain's name: write 1 to 255 letters of a to z, digits, '.', '-' and '_'", name)
	}
	return nil
}

// checkAll is an error where a spec is bad, or two are for one trust domain, or two sources that name their domains are given.
func checkAll(specs []Spec) error {
	seen := map[string]bool{}
	for _, s := range specs {
		if err := s.check(); err != nil {
			return err
		}
		if err := s.checkEndpoint(); err != nil {
			return err
		}
		if seen[s.Domain] && s.Domain == "" {
			return errors.New("bundles: give one folder, or one Workload API")
		}
		if seen[s.Domain] {
			return fmt.Errorf("bundles: %s is given twice", s.Domain)
		}
		seen[s.Domain] = true
	}
	return nil
}
