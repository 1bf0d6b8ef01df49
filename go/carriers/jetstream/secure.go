package jetstream

import (
	"crypto/tls"
	"errors"
	"fmt"
	"net"
	"time"

	"github.com/nats-io/nats.go"
	"github.com/nats-io/nkeys"

	"svid.example/go/v3/internal/regular"
	"svid.example/go/v3/internal/secured"
)

const (
	dialWait = 2 * time.Second // for a connection to one server
	mostFile = 1 << 20         // bytes of a file of credentials
)

// Files are what a member shows to the broker, and by what it knows the broker. Each is read again for each connection, so
// that certificates and authorities may be renewed while the member runs. A pipe, or what else is no regular file, is an
// error, and nobody waits for it. "" for none.
type Files struct {
	CA        string // authorities of the servers' certificates, as PEM; the system's without
	Cert, Key string // the member's own certificate with what leads to its authority, and its key, as PEM
	Creds     string // a user's JWT and its seed, as the tool nsc writes them
}

// Connect returns the options of a connection that uses the files. An error says which one can't be used.
func (f Files) Connect() ([]nats.Option, error) {
	var options []nats.Option
	if (f.Cert == "") != (f.Key == "") {
		return nil, errors.New("a certificate and its key are only of use together")
	}
	if f.CA != "" || f.Cert != "" {
		d := &dialer{files: f, config: &tls.Config{MinVersion: tls.VersionTLS12}}
		if err := d.read(); err != nil {
			return nil, err
		}
		options = append(options, nats.Secure(d.config), nats.SetCustomDialer(d))
	}
	if f.Creds != "" {
		c := credentials(f.Creds)
		if _, err := c.jwt(); err != nil {
			return nil, err
		}
		options = append(options, nats.UserJWT(c.jwt, c.sign))
	}
	return options, nil
}

// credentials are a file of credentials, by its name.
type credentials string

func (c credentials) read() ([]byte, error) { return regular.Read(string(c), mostFile) }

// jwt is the user's JWT.
func (c credentials) jwt() (string, error) {
	text, err := c.read()
	if err != nil {
		return "", err
	}
	defer wipe(text)
	return nkeys.ParseDecoratedJWT(text)
}

// sign signs what a server asks for. The seed is in memory only meanwhile.
func (c credentials) sign(nonce []byte) ([]byte, error) {
	text, err := c.read()
	if err != nil {
		return nil, err
	}
	defer wipe(text)
	pair, err := nkeys.ParseDecoratedNKey(text)
	if err != nil {
		return nil, fmt.Errorf("%s: %w", string(c), err)
	}
	defer pair.Wipe()
	return pair.Sign(nonce)
}

func wipe(secret []byte) {
	for i := range secret {
		secret[i] = 0
	}
}

// A dialer reads the files before each connection. The client dials and copies the configuration in one goroutine at a
// time, one after the other.
type dialer struct {
	files  Files
	config *tls.Config
}

// Dial connects to one server.
func (d *dialer) Dial(network, address string) (net.Conn, error) {
	if err := d.read(); err != nil {
		return nil, err
	}
	return net.DialTimeout(network, address, dialWait)
}

func (d *dialer) read() error {
	return secured.Read(d.config, d.files.CA, d.files.Cert, d.files.Key)
}
