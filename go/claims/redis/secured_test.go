package redis

import (
	"bytes"
	"context"
	"crypto/ecdsa"
	"crypto/elliptic"
	"crypto/rand"
	"crypto/tls"
	"crypto/x509"
	"crypto/x509/pkix"
	"math/big"
	"net"
	"strings"
	"testing"
	"time"

	"svid.example/go/v3/internal/patience"
)

// Nobody who answers in the place of a server ends the process by a certificate of a key of an unknown algorithm.
func TestAKeyOfAnUnknownAlgorithm(t *testing.T) {
	key, err := ecdsa.GenerateKey(elliptic.P256(), rand.Reader)
	if err != nil {
		t.Fatal(err)
	}
	template := &x509.Certificate{SerialNumber: big.NewInt(1), Subject: pkix.Name{CommonName: "of all"}, DNSNames: []string{"localhost"},
		NotBefore: time.Now().Add(-time.Hour), NotAfter: time.Now().Add(time.Hour)}
	leaf, err := x509.CreateCertificate(rand.Reader, template, template, &key.PublicKey, key)
	if err != nil {
		t.Fatal(err)
	}
	usual := []byte{6, 7, 0x2a, 0x86, 0x48, 0xce, 0x3d, 2, 1} // the object identifier of keys of elliptic curves
	above := bytes.Replace(leaf, usual, append(append([]byte(nil), usual[:8]...), 99), 1)
	listener, err := tls.Listen("tcp", "localhost:0", &tls.Config{Certificates: []tls.Certificate{{Certificate: [][]byte{leaf, above}, PrivateKey: key}}})
	if err != nil {
		t.Fatal(err)
	}
	defer listener.Close()
	go func() {
		for c, err := listener.Accept(); err == nil; c, err = listener.Accept() {
			_ = c.(*tls.Conn).Handshake()
			c.Close()
		}
	}()
	_, port, err := net.SplitHostPort(listener.Addr().String())
	if err != nil {
		t.Fatal(err)
	}
	ctx, cancel := context.WithTimeout(context.Background(), patience.Long)
	defer cancel()
	s := &server{network: "tcp", address: "localhost:" + port, secure: true}
	if c, err := s.dial(ctx); c != nil || err == nil || !strings.Contains(err.Error(), "certificates can't be judged") {
		t.Error(c, err)
	}
}
