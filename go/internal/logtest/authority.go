package logtest

import (
	"crypto/ecdsa"
	"crypto/elliptic"
	"crypto/rand"
	"crypto/x509"
	"crypto/x509/pkix"
	"encoding/pem"
	"fmt"
	"math/big"
	"net"
	"net/url"
	"os"
	"path/filepath"
	"testing"
	"time"
)

// Certificate writes an authority's certificate into a folder as ca.pem, and a certificate by it for 127.0.0.1, and for these SPIFFE
// IDs, and its key as cert.pem and key.pem. It returns their names.
func Certificate(t testing.TB, dir string, ids ...string) (ca, cert, key string) {
	t.Helper()
	template := func(n int64) *x509.Certificate {
		return &x509.Certificate{SerialNumber: big.NewInt(n), Subject: pkix.Name{CommonName: fmt.Sprint("of a test ", n)}, NotBefore: time.Now().Add(-time.Minute), NotAfter: time.Now().Add(time.Hour)}
	}
	root := template(1)
	root.IsCA, root.KeyUsage, root.BasicConstraintsValid = true, x509.KeyUsageCertSign, true
	own := template(2)
	own.IPAddresses, own.KeyUsage = []net.IP{net.IPv4(127, 0, 0, 1)}, x509.KeyUsageDigitalSignature
	own.ExtKeyUsage = []x509.ExtKeyUsage{x509.ExtKeyUsageClientAuth, x509.ExtKeyUsageServerAuth}
	for _, id := range ids {
		u, err := url.Parse(id)
		if err != nil {
			t.Fatal(err)
		}
		own.URIs = append(own.URIs, u)
	}
	var keys [2]*ecdsa.PrivateKey
	var der [2][]byte
	for i, c := range []*x509.Certificate{root, own} {
		var err error
		if keys[i], err = ecdsa.GenerateKey(elliptic.P256(), rand.Reader); err == nil {
			der[i], err = x509.CreateCertificate(rand.Reader, c, root, &keys[i].PublicKey, keys[0])
		}
		if err != nil {
			t.Fatal(err)
		}
	}
	secret, err := x509.MarshalECPrivateKey(keys[1])
	if err != nil {
		t.Fatal(err)
	}
	ca, cert, key = filepath.Join(dir, "ca.pem"), filepath.Join(dir, "cert.pem"), filepath.Join(dir, "key.pem")
	for name, block := range map[string]*pem.Block{ca: {Type: "CERTIFICATE", Bytes: der[0]}, cert: {Type: "CERTIFICATE", Bytes: der[1]},
		key: {Type: "EC PRIVATE KEY", Bytes: secret}} {
		if err := os.WriteFile(name, pem.EncodeToMemory(block), 0o600); err != nil {
			t.Fatal(err)
		}
	}
	return ca, cert, key
}
