package jetstream

import (
	"crypto/ecdsa"
	"crypto/elliptic"
	"crypto/rand"
	"crypto/tls"
	"crypto/x509"
	"encoding/base64"
	"encoding/json"
	"encoding/pem"
	"errors"
	"fmt"
	"math/big"
	"net"
	"net/url"
	"os"
	"os/exec"
	"path/filepath"
	"strings"
	"syscall"
	"testing"
	"time"

	"github.com/nats-io/nats.go"
	"github.com/nats-io/nkeys"

	"svid.example/go/v3/claims"
	claimstore "svid.example/go/v3/claims/nats"
	"svid.example/go/v3/internal/broker"
	"svid.example/go/v3/internal/natstest"
	"svid.example/go/v3/internal/patience"
)

// An authority makes certificates.
type authority struct {
	t    *testing.T
	cert *x509.Certificate
	key  *ecdsa.PrivateKey
}

func newAuthority(t *testing.T) *authority {
	a := &authority{t: t, cert: &x509.Certificate{IsCA: true, KeyUsage: x509.KeyUsageCertSign, BasicConstraintsValid: true}}
	a.cert, a.key = a.make(a.cert, nil)
	return a
}

// make makes a certificate by this authority, or by itself where it has none.
func (a *authority) make(c *x509.Certificate, by *authority) (*x509.Certificate, *ecdsa.PrivateKey) {
	a.t.Helper()
	c.SerialNumber, c.NotBefore, c.NotAfter = big.NewInt(time.Now().UnixNano()), time.Now().Add(-time.Minute), time.Now().Add(time.Hour)
	key, err := ecdsa.GenerateKey(elliptic.P256(), rand.Reader)
	if err != nil {
		a.t.Fatal(err)
	}
	parent, signer := c, key
	if by != nil {
		parent, signer = by.cert, by.key
	}
	der, err := x509.CreateCertificate(rand.Reader, c, parent, &key.PublicKey, signer)
	if err != nil {
		a.t.Fatal(err)
	}
	made, err := x509.ParseCertificate(der)
	if err != nil {
		a.t.Fatal(err)
	}
	return made, key
}

// write writes a new certificate of this SPIFFE ID for 127.0.0.1, its key, and the authority's own certificate.
func (a *authority) write(dir, name, id string) Files {
	a.t.Helper()
	uri, err := url.Parse(id)
	if err != nil {
		a.t.Fatal(err)
	}
	cert, key := a.make(&x509.Certificate{URIs: []*url.URL{uri}, IPAddresses: []net.IP{net.IPv4(127, 0, 0, 1)}, KeyUsage: x509.KeyUsageDigitalSignature,
		ExtKeyUsage: []x509.ExtKeyUsage{x509.ExtKeyUsageClientAuth, x509.ExtKeyUsageServerAuth}}, a)
	secret, err := x509.MarshalECPrivateKey(key)
	if err != nil {
		a.t.Fatal(err)
	}
	f := Files{CA: filepath.Join(dir, "bundle.pem"), Cert: filepath.Join(dir, name+".pem"), Key: filepath.Join(dir, name+"_key.pem")}
	for file, block := range map[string]*pem.Block{
		f.CA: {Type: "CERTIFICATE", Bytes: a.cert.Raw}, f.Cert: {Type: "CERTIFICATE", Bytes: cert.Raw}, f.Key: {Type: "EC PRIVATE KEY", Bytes: secret},
	} {
		if err := os.WriteFile(file, pem.EncodeToMemory(block), 0o600); err != nil {
			a.t.Fatal(err)
		}
	}
	return f
}

// startDeployed starts one server by deploy/nats.conf, and returns its address.
func startDeployed(t *testing.T, dir string) string {
	t.Helper()
	ports, err := broker.FreePorts(2)
	if err != nil {
		t.Fatal(err)
	}
	text, err := os.ReadFile("../../deploy/nats.conf")
	if err != nil {
		t.Fatal(err)
	}
	config := string(text)
	begin, end := strings.Index(config, "cluster {"), strings.Index(config, "\ntls {")
	config = config[:begin] + config[end:] // one server alone
	client, _ := url.Parse("nats://127.0.0.1:0")
	client.Host = net.JoinHostPort("127.0.0.1", big.NewInt(int64(ports[0])).String())
	config = strings.NewReplacer("0.0.0.0:4222", client.Host, "/var/lib/nats", filepath.Join(dir, "store"), "/etc/nats", dir).Replace(config)
	file := filepath.Join(dir, "nats.conf")
	if err := os.WriteFile(file, []byte(config), 0o600); err != nil {
		t.Fatal(err)
	}
	server := exec.Command("nats-server", "-c", file, "-l", filepath.Join(dir, "log"))
	if err := server.Start(); err != nil {
		t.Fatal(err)
	}
	t.Cleanup(func() { server.Process.Kill(); server.Wait() })
	natstest.Await(t, "the server's port", func() bool {
		c, err := net.Dial("tcp", client.Host)
		if err == nil {
			c.Close()
		}
		return err == nil
	})
	return client.String()
}

// withFiles is options of a member with these files.
func withFiles(t *testing.T, id byte, url string, f Files) Options {
	t.Helper()
	o := options(id, url)
	o.Name = "svid"
	var err error
	if o.Connect, err = f.Connect(); err != nil {
		t.Fatal(err)
	}
	return o
}

// With the permissions of deploy/nats.conf a member can do all that it must, and remove nothing; nobody else can do anything.
func TestTheServersOfDeploy(t *testing.T) {
	t.Parallel()
	dir := t.TempDir()
	ca := newAuthority(t)
	ca.write(dir, "server", "spiffe://example.org/nats")
	own := ca.write(dir, "svidd", "spiffe://example.org/svidd")
	server := startDeployed(t, dir)
	a, b := join(t, withFiles(t, 1, server, own)), join(t, withFiles(t, 2, server, own))
	awaitHeld(t, b, tell(t, a, 1))
	if err := b.Put(patient(t), Claims, 1, batch(key(2), b.id)); err != nil {
		t.Fatal(err)
	}
	awaitHeld(t, a, batch(key(2), b.id))
	awaitHeld(t, b, tell(t, b, 3))
	lost := batch(key(4), a.id)
	a.Summaries(time.Hour, func() ([]byte, error) { return []byte("of a"), nil }, func([]byte, int) ([][]byte, error) { return [][]byte{lost}, nil })
	b.Summaries(50*time.Millisecond, func() ([]byte, error) { return []byte("of b"), nil }, func([]byte, int) ([][]byte, error) { return [][]byte{batchOf()}, nil })
	awaitHeld(t, b, lost)
	c := join(t, withFiles(t, 3, server, own))
	if c.Taken() != 3 {
		t.Errorf("a member that comes anew reads %d values", c.Taken())
	}
	// What a member may not do, it does not get by a summary that wants its answer there: neither does another one answer, with an empty
	// message at the end, nor does who is asked get the right to publish there.
	before, err := b.info(patient(t), patience.Long)
	if err != nil {
		t.Fatal(err)
	}
	liar := natstest.Connect(t, server, mustConnect(t, own)...)
	asked, err := liar.SubscribeSync("svid.svid.summary")
	if err == nil {
		err = liar.FlushTimeout(patience.Long)
	}
	if err != nil {
		t.Fatal(err)
	}
	for _, reply := range []string{"$JS.API.STREAM.DELETE.KV_svid", "$JS.API.STREAM.PURGE.KV_svid", "$KV.svid.u.liar.1", "svid.svid.summary"} {
		if err := b.conn.PublishRequest("svid.svid.summary", reply, []byte("of a liar")); err != nil {
			t.Fatal(err)
		}
		natstest.Await(t, "an answer of a, which answers one summary after the other", func() bool {
			err := b.repair("svid.svid.summary", func() ([]byte, error) { return []byte("of b"), nil })
			if err != nil {
				t.Log(err)
			}
			return err == nil
		})
		for { // (b asks others too, at times)
			m, err := asked.NextMsg(patience.Long)
			if err != nil {
				t.Fatal(err)
			}
			if m.Reply == reply {
				break
			}
		}
		if reply[0] == '$' && reply[1] == 'J' {
			if err := liar.Publish(reply, nil); err != nil {
				t.Fatal(err)
			}
		}
		if err := liar.FlushTimeout(patience.Long); err != nil {
			t.Fatal(err)
		}
		if after, err := b.info(patient(t), patience.Long); err != nil || !after.Created.Equal(before.Created) || after.State != before.State {
			t.Fatalf("an answer to %s: the bucket is %+v, and was %+v: %v", reply, after.State, before.State, err)
		}
	}
	for what, header := range map[string]nats.Header{"all": {"Nats-Rollup": {"all"}}, "a key": {"Nats-Rollup": {"sub"}}, "nothing": {}} {
		lie := &nats.Msg{Subject: "$KV.svid." + a.keyOf(Uses, 1), Header: header, Data: batchOf()}
		if _, err := natstest.JetStream(t, a.conn).PublishMsg(lie); err == nil {
			t.Errorf("a value that replaces %s is stored", what)
		}
	}
	d := join(t, withFiles(t, 4, server, own))
	if d.Taken() != 3 {
		t.Errorf("a member that comes after a liar reads %d values", d.Taken())
	}
	for _, forbidden := range []string{"$JS.API.STREAM.DELETE.KV_svid", "$JS.API.STREAM.PURGE.KV_svid", "$JS.API.STREAM.MSG.DELETE.KV_svid",
		"$JS.API.STREAM.DELETE.KV_svid-claims", "$JS.API.STREAM.PURGE.KV_svid-claims", "$JS.API.STREAM.MSG.DELETE.KV_svid-claims-epochs",
		"$JS.API.STREAM.UPDATE.KV_svid-claims-withdrawals", "$JS.API.STREAM.UPDATE.KV_svid", "$JS.API.STREAM.RESTORE.KV_svid", "$JS.API.STREAM.CREATE.KV_other",
		"$JS.API.CONSUMER.DELETE.KV_svid.x", "$JS.API.CONSUMER.INFO.KV_svid.x", "$JS.API.CONSUMER.DURABLE.CREATE.KV_svid.x", "$KV.other.a", "svid.other.summary"} {
		if err := a.conn.Publish(forbidden, nil); err != nil {
			t.Fatal(err)
		}
		natstest.Await(t, "a violation", func() bool {
			return a.logged(`Permissions Violation for Publish to "`+forbidden) || a.logged(`permissions violation for publish to "`+strings.ToLower(forbidden))
		})
	}
	for _, m := range []*member{b, c, d} {
		if m.logged("iolation") {
			t.Error(m.said())
		}
	}
	openStore(t, server, own)
	for what, f := range map[string]Files{
		"no certificate": {CA: own.CA}, "another ID": ca.write(dir, "other", "spiffe://example.org/other"),
	} {
		if nc, err := nats.Connect(server, append(mustConnect(t, f), nats.MaxReconnects(0))...); err == nil {
			nc.Close()
			t.Errorf("%s: connected", what)
		}
	}
	stranger := newAuthority(t).write(t.TempDir(), "svidd", "spiffe://example.org/svidd")
	if nc, err := nats.Connect(server, mustConnect(t, stranger)...); err == nil {
		nc.Close()
		t.Error("a member connected to servers of authorities that it does not know")
	}
}

// openStore does in the group's store what its members do there.
func openStore(t *testing.T, server string, own Files) {
	t.Helper()
	var mine claims.Owner
	for i := range mine {
		mine[i] = byte(i + 1)
	}
	for i, due := range []claims.Owner{mine, mine, claims.Withdrawn} {
		s, err := claimstore.New(claimstore.Options{Servers: []string{server}, Name: "svid", Connect: mustConnect(t, own),
			Terms: claims.Terms{Lasts: 3600, Margin: 120, Back: 60}})
		if err != nil {
			t.Fatal(err)
		}
		if _, err := s.Open(patient(t)); err != nil {
			t.Fatal(err)
		}
		one := claims.Claim{Key: key(10 + i/2), Owner: mine, Expires: uint64(time.Now().Unix()) + 600}
		if i == 2 {
			if _, err := s.Withdraw(patient(t), claims.Withdrawal{Key: one.Key, Expires: one.Expires}); err != nil {
				t.Fatal(err)
			}
			if these, _, err := s.Withdrawals(patient(t), ""); err != nil || len(these) != 1 {
				t.Errorf("withdrawals: %v %v", these, err)
			}
		}
		found := make([]claims.Found, 1)
		if s.Put(patient(t), []claims.Claim{one}, found); found[0].Err != nil || found[0].Owner != due {
			t.Errorf("claim %d: %+v", i, found[0])
		}
		if _, err := s.State(patient(t)); err != nil {
			t.Error(err)
		}
		s.Close()
	}
}

func mustConnect(t *testing.T, f Files) []nats.Option {
	t.Helper()
	options, err := f.Connect()
	if err != nil {
		t.Fatal(err)
	}
	return options
}

// Authorities and certificates that are renewed on the disk are used for the next connection.
func TestCertificatesAreReadAnew(t *testing.T) {
	t.Parallel()
	dir := t.TempDir()
	before := newAuthority(t)
	before.write(dir, "server", "spiffe://example.org/nats")
	files := before.write(dir, "svidd", "spiffe://example.org/svidd")
	options := mustConnect(t, files)
	after := newAuthority(t)
	after.write(dir, "server", "spiffe://example.org/nats")
	after.write(dir, "svidd", "spiffe://example.org/svidd")
	server := startDeployed(t, dir)
	natstest.Connect(t, server, options...)
}

// A member speaks TLS 1.2 and later with the broker, and nothing older.
func TestOldTLSIsRefused(t *testing.T) {
	t.Parallel()
	dir := t.TempDir()
	files := newAuthority(t).write(dir, "svidd", "spiffe://example.org/svidd")
	var o nats.Options
	for _, option := range mustConnect(t, files) {
		if err := option(&o); err != nil {
			t.Fatal(err)
		}
	}
	pair, err := tls.LoadX509KeyPair(files.Cert, files.Key)
	if err != nil {
		t.Fatal(err)
	}
	config := o.TLSConfig.Clone()
	config.ServerName = "127.0.0.1"
	for version, good := range map[uint16]bool{tls.VersionTLS10: false, tls.VersionTLS11: false, tls.VersionTLS12: true, tls.VersionTLS13: true} {
		here, there := net.Pipe()
		server := tls.Server(there, &tls.Config{Certificates: []tls.Certificate{pair}, MinVersion: tls.VersionTLS10, MaxVersion: version})
		go func() { _ = server.Handshake(); there.Close() }()
		err := tls.Client(here, config).Handshake()
		here.Close()
		if (err == nil) != good {
			t.Errorf("version %x: %v", version, err)
		}
	}
	if config.MinVersion != tls.VersionTLS12 {
		t.Errorf("the least version is %x", config.MinVersion)
	}
}

func TestFilesThatCannotBeUsed(t *testing.T) {
	t.Parallel()
	dir := t.TempDir()
	empty := filepath.Join(dir, "empty")
	if err := os.WriteFile(empty, nil, 0o600); err != nil {
		t.Fatal(err)
	}
	for _, f := range []Files{{Cert: empty}, {Key: empty}, {CA: empty}, {Cert: empty, Key: empty}} {
		if _, err := f.Connect(); err == nil {
			t.Errorf("%+v", f)
		}
	}
	for _, f := range []Files{{CA: filepath.Join(dir, "none")}, {Creds: filepath.Join(dir, "none")}} {
		if _, err := f.Connect(); !errors.Is(err, os.ErrNotExist) {
			t.Errorf("%+v: %v", f, err)
		}
	}
}

// kinds are names of things that are no regular files.
func kinds(t *testing.T, dir string) map[string]string {
	t.Helper()
	in := func(name string) string { return filepath.Join(dir, name) }
	socket, err := net.Listen("unix", in("socket"))
	if err != nil {
		t.Fatal(err)
	}
	t.Cleanup(func() { socket.Close() })
	for _, err := range []error{syscall.Mkfifo(in("pipe"), 0o600), os.Symlink(in("pipe"), in("link")), os.Mkdir(in("folder"), 0o700)} {
		if err != nil {
			t.Fatal(err)
		}
	}
	return map[string]string{"a pipe": in("pipe"), "a link to a pipe": in("link"), "a socket": in("socket"), "a folder": in("folder"), "a device": "/dev/zero"}
}

// wantNoFile wants an error of a call, soon, that says which name is no regular file.
func wantNoFile(t *testing.T, what, name string, call func() error) {
	t.Helper()
	done := make(chan error, 1)
	go func() { done <- call() }()
	select {
	case err := <-done:
		if err == nil || !strings.Contains(err.Error(), name+" is no regular file") {
			t.Errorf("%s: %v", what, err)
		}
	case <-time.After(patience.Long):
		t.Fatalf("%s: it waits", what)
	}
}

// Only regular files are read, at the start and before each connection.
func TestWhatIsNoRegularFile(t *testing.T) {
	t.Parallel()
	dir := t.TempDir()
	good := newAuthority(t).write(dir, "svidd", "spiffe://example.org/svidd")
	good.Creds = filepath.Join(dir, "creds")
	pair, err := nkeys.CreateUser()
	if err != nil {
		t.Fatal(err)
	}
	seed, err := pair.Seed()
	if err != nil {
		t.Fatal(err)
	}
	if err := os.WriteFile(good.Creds, decorated("a.b.c", seed), 0o600); err != nil {
		t.Fatal(err)
	}
	l, err := net.Listen("tcp", "127.0.0.1:0")
	if err != nil {
		t.Fatal(err)
	}
	defer l.Close()
	for kind, name := range kinds(t, dir) {
		for which, of := range map[string]func(*Files) *string{
			"CA": func(f *Files) *string { return &f.CA }, "Cert": func(f *Files) *string { return &f.Cert },
			"Key": func(f *Files) *string { return &f.Key }, "Creds": func(f *Files) *string { return &f.Creds },
		} {
			bad := good
			*of(&bad) = name
			wantNoFile(t, which+", "+kind+", at the start", name, func() error { _, err := bad.Connect(); return err })

			// It comes into the place of a good file later.
			later := good
			*of(&later) = filepath.Join(t.TempDir(), "file")
			if err := os.Symlink(*of(&good), *of(&later)); err != nil {
				t.Fatal(err)
			}
			var o nats.Options
			for _, option := range mustConnect(t, later) {
				if err := option(&o); err != nil {
					t.Fatal(err)
				}
			}
			dial := func() error {
				c, err := o.CustomDialer.Dial("tcp", l.Addr().String())
				if err == nil {
					c.Close()
				}
				return err
			}
			user := func() error { _, err := o.UserJWT(); return err }
			sign := func() error { _, err := o.SignatureCB([]byte("nonce")); return err }
			for _, call := range []func() error{dial, user, sign} {
				if err := call(); err != nil {
					t.Fatal(err)
				}
			}
			if err := os.Remove(*of(&later)); err != nil {
				t.Fatal(err)
			}
			if err := os.Symlink(name, *of(&later)); err != nil {
				t.Fatal(err)
			}
			if which != "Creds" {
				wantNoFile(t, which+", "+kind+", before a connection", *of(&later), dial)
				continue
			}
			wantNoFile(t, which+", "+kind+", as it says who it is", *of(&later), user)
			wantNoFile(t, which+", "+kind+", as it signs", *of(&later), sign)
		}
	}
}

// decorated is a file of credentials, as nsc writes it.
func decorated(jwt string, seed []byte) []byte {
	return []byte("-----BEGIN NATS USER JWT-----\n" + jwt + "\n------END NATS USER JWT------\n\n" +
		"************************* IMPORTANT *************************\nNKEY Seed printed below can be used to sign and prove identity.\n\n" +
		"-----BEGIN USER NKEY SEED-----\n" + string(seed) + "\n------END USER NKEY SEED------\n")
}

// signed is a JWT of NATS, version 2: by is the key of who signs, and of that of whom it speaks.
func signed(t *testing.T, by, of nkeys.KeyPair, says map[string]any) string {
	t.Helper()
	issuer, errIssuer := by.PublicKey()
	subject, errSubject := of.PublicKey()
	says["version"] = 2
	claims, err := json.Marshal(map[string]any{"jti": subject, "iat": time.Now().Unix(), "iss": issuer, "sub": subject, "name": says["type"], "nats": says})
	if errIssuer != nil || errSubject != nil || err != nil {
		t.Fatal(errIssuer, errSubject, err)
	}
	text := base64.RawURLEncoding.EncodeToString([]byte(`{"typ":"JWT","alg":"ed25519-nkey"}`)) + "." + base64.RawURLEncoding.EncodeToString(claims)
	signature, err := by.Sign([]byte(text))
	if err != nil {
		t.Fatal(err)
	}
	return text + "." + base64.RawURLEncoding.EncodeToString(signature)
}

// A server that knows users by credentials lets a member in that has them, reads them again for each connection, and lets nobody in
// by those of another user's key.
func TestCredentials(t *testing.T) {
	t.Parallel()
	var pairs []nkeys.KeyPair
	for _, make := range []func() (nkeys.KeyPair, error){nkeys.CreateOperator, nkeys.CreateAccount, nkeys.CreateUser, nkeys.CreateUser} {
		pair, err := make()
		if err != nil {
			t.Fatal(err)
		}
		pairs = append(pairs, pair)
	}
	operator, account, user, other := pairs[0], pairs[1], pairs[2], pairs[3]
	accountKey, err := account.PublicKey()
	if err != nil {
		t.Fatal(err)
	}
	ports, err := broker.FreePorts(1)
	if err != nil {
		t.Fatal(err)
	}
	none := map[string]any{}
	dir, address := t.TempDir(), fmt.Sprintf("127.0.0.1:%d", ports[0])
	config := fmt.Sprintf("listen: %q\noperator: %s\nresolver: MEMORY\nresolver_preload: {\n  %s: %s\n}\n", address,
		signed(t, operator, operator, map[string]any{"type": "operator"}), accountKey,
		signed(t, operator, account, map[string]any{"type": "account", "default_permissions": map[string]any{"pub": none, "sub": none},
			"limits": map[string]any{"subs": -1, "data": -1, "payload": -1, "imports": -1, "exports": -1, "wildcards": true, "conn": -1, "leaf": -1}}))
	if err := os.WriteFile(filepath.Join(dir, "nats.conf"), []byte(config), 0o600); err != nil {
		t.Fatal(err)
	}
	server := exec.Command("nats-server", "-c", filepath.Join(dir, "nats.conf"), "-l", filepath.Join(dir, "log"))
	if err := server.Start(); err != nil {
		t.Fatal(err)
	}
	t.Cleanup(func() { server.Process.Kill(); server.Wait() })
	natstest.Await(t, "the server's port", func() bool {
		c, err := net.Dial("tcp", address)
		if err == nil {
			c.Close()
		}
		return err == nil
	})

	jwt := signed(t, account, user, map[string]any{"type": "user", "pub": none, "sub": none, "subs": -1, "data": -1, "payload": -1})
	files := Files{Creds: filepath.Join(dir, "creds")}
	write := func(of nkeys.KeyPair) {
		t.Helper()
		seed, err := of.Seed()
		if err != nil {
			t.Fatal(err)
		}
		if err := os.WriteFile(files.Creds, decorated(jwt, seed), 0o600); err != nil {
			t.Fatal(err)
		}
	}
	write(user)
	options := append(mustConnect(t, files), nats.MaxReconnects(0))
	for round, want := range []bool{true, false, true} {
		write(map[bool]nkeys.KeyPair{true: user, false: other}[want])
		natstest.Await(t, fmt.Sprint("round ", round), func() bool {
			nc, err := nats.Connect("nats://"+address, options...)
			if err == nil {
				nc.Close()
			}
			if err != nil && !errors.Is(err, nats.ErrAuthorization) { // (a busy machine is late)
				t.Log(err)
				return false
			}
			if (err == nil) != want {
				t.Errorf("round %d: %v", round, err)
			}
			return true
		})
	}
	if err := os.WriteFile(files.Creds, []byte(jwt), 0o600); err != nil {
		t.Fatal(err)
	}
	natstest.Await(t, "an error that names the file without a seed", func() bool { // (a busy machine is late)
		_, err := nats.Connect("nats://"+address, options...)
		if err == nil {
			t.Fatal("it is let in without a seed")
		}
		return strings.Contains(err.Error(), files.Creds)
	})
}
