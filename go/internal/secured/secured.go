// Package secured connects by TLS to servers that have not yet shown who they are.
package secured

import (
	"context"
	"crypto/tls"
	"crypto/x509"
	"fmt"
	"net"
	"time"

	"svid.example/go/v3/internal/regular"
)

const mostFile = 1 << 20 // bytes of a file

// Dial connects, and waits at most as long as most for the server to show who it is. What that shows is read before anything is known of it, and
// by a key of an unknown algorithm or of DSA it lets package crypto/x509 panic (CVE-2024-24783, CVE-2025-58188): that is an error here, and ends no
// process.
func Dial(ctx context.Context, network, address string, config *tls.Config, most time.Duration) (conn net.Conn, err error) {
	host, _, err := net.SplitHostPort(address)
	if err != nil {
		return nil, err
	}
	raw, err := new(net.Dialer).DialContext(ctx, network, address)
	if err != nil {
		return nil, err
	}
	defer func() {
		if fault := recover(); fault != nil {
			err = fmt.Errorf("its certificates can't be judged: %v", fault)
		}
		if err != nil {
			conn = nil
			raw.Close()
		}
	}()
	if config = config.Clone(); config.ServerName == "" {
		config.ServerName = host
	}
	ctx, cancel := context.WithTimeout(ctx, most)
	defer cancel()
	client := tls.Client(raw, config)
	return client, client.HandshakeContext(ctx)
}

// Read reads files of PEM: the authorities of servers, and the own certificate with its key; "" for none.
func Read(config *tls.Config, ca, cert, key string) error {
	if ca != "" {
		text, err := regular.Read(ca, mostFile)
		if err != nil {
			return err
		}
		config.RootCAs = x509.NewCertPool()
		if !config.RootCAs.AppendCertsFromPEM(text) {
			return fmt.Errorf("%s: no certificate in it", ca)
		}
	}
	if cert == "" {
		return nil
	}
	shown, err := regular.Read(cert, mostFile)
	if err != nil {
		return err
	}
	secret, err := regular.Read(key, mostFile)
	if err != nil {
		return err
	}
	own, err := tls.X509KeyPair(shown, secret)
	for i := range secret {
		secret[i] = 0
	}
	if err != nil {
		return fmt.Errorf("%s, %s: %w", cert, key, err)
	}
	config.Certificates = []tls.Certificate{own}
	return nil
}
