package main

import (
	"context"
	"encoding/json"
	"errors"
	"fmt"
	"net"
	"net/url"
	"os"
	"path/filepath"
	"strings"
	"sync"
	"syscall"
	"time"

	"svid.example/go/v3/bundles"
	"svid.example/go/v3/carriers/jetstream"
	"svid.example/go/v3/guard"
	"svid.example/go/v3/journal"
)

// bundleProblems reads the trust bundles that are files, and says what is wrong with them. faults say which can't be used,
// and warnings which can accept no token. (What answers over a socket may be away, and come later.)
func (o *options) bundleProblems() (faults, warnings problems) {
	specs, err := o.specs()
	if err != nil {
		return problems{err.Error()}, nil
	}
	var files []bundles.Spec
	for _, s := range specs {
		if !s.IsRemote() {
			files = append(files, s)
		}
		err := s.CheckAuthorities()
		faults.wrong(err != nil, "--bundle-ca: the authorities of the server of %s can't be used: %v", s.Source, err)
	}
	read, usable := 0, 0
	ctx, cancel := context.WithCancel(context.Background())
	defer cancel()
	_, err = bundles.Watch(ctx, files, func(domains map[string]json.RawMessage) error {
		read, usable = len(domains), 0
		for _, bundle := range domains {
			keys, _ := bundles.Usable(bundle, guard.Unusable(o.rsaBits))
			usable += keys
		}
		return nil
	}, bundles.Options{
		Check: guard.CheckBundle, Unusable: guard.Unusable(o.rsaBits),
		Log: func(event string, fields ...any) {
			faults.wrong(event == "bundle not read", "the trust bundle can't be used: %v", unread(fields))
			warnings.wrong(event == "bundle has no key" || event == "bundle has a private key", "%v", unread(fields))
			over := passedOver(event, fields)
			warnings.wrong(over != nil, "%v", over)
		},
	})
	faults.wrong(err != nil, "%v", err)
	faults.wrong(len(faults) == 0 && read == 0 && len(files) == len(specs), "%s has no file DOMAIN.json, so no token can be accepted", o.bundleFolder)
	faults.wrong(len(faults) == 0 && read > 0 && usable == 0 && len(files) == len(specs), "no key of a trust bundle can be used, so no token can be accepted")
	return faults, warnings
}

// localProblems is what is wrong on this machine: with the folders of the record and of sockets, and with the addresses to answer on.
func (o *options) localProblems() (faults problems) {
	if o.state != "" {
		err := stateFault(filepath.Clean(o.state))
		faults.wrong(err != nil, "--state: %v", err)
	}
	for _, it := range [][2]string{{"listen", o.listen}, {"envoy", o.envoy}, {"metrics", o.metrics}, {"admin", "unix:" + o.admin}} {
		path := strings.TrimPrefix(it[1], "unix:")
		if path == it[1] {
			err := portFault(it[1])
			faults.wrong(err != nil, "--%s: %v", it[0], err)
		}
		if path == it[1] || path == "" {
			continue
		}
		err := usable(filepath.Dir(path))
		if info, missing := os.Lstat(path); err == nil && missing == nil && info.Mode()&os.ModeSocket == 0 {
			err = fmt.Errorf("%s is there, and is no socket: remove it, or give another path", path)
		}
		faults.wrong(err != nil, "--%s: %v", it[0], err)
	}
	return faults
}

// portFault says why no process of this user can answer at HOST:PORT. That somebody does is none: it may be the svidd that these options are to
// change. It takes the port of UDP in the place of TCP's for a moment, where nobody connects, and no svidd starts meanwhile in vain.
func portFault(address string) error {
	if address == "" {
		return nil
	}
	at, err := net.ResolveTCPAddr("tcp", address)
	if err != nil {
		return err
	}
	c, err := net.ListenUDP("udp", &net.UDPAddr{IP: at.IP, Port: at.Port, Zone: at.Zone})
	switch {
	case err == nil:
		c.Close()
	case !errors.Is(err, syscall.EADDRINUSE):
		return fmt.Errorf("this user can't listen at %s: %w", at, errors.Unwrap(err))
	}
	return nil
}

// stateFault says why no sidecar can start with a state folder. A folder that is not there is made at the start.
func stateFault(dir string) error {
	info, err := os.Stat(dir)
	switch {
	case errors.Is(err, os.ErrNotExist):
		return usable(filepath.Dir(dir))
	case err != nil:
		return err
	case !info.IsDir():
		return fmt.Errorf("%s is no folder", dir)
	}
	if err := usable(dir); err != nil {
		return err
	}
	found, err := journal.Check(dir)
	if err == nil {
		err = found.Fault
	}
	return err
}

// usable says why this process can't make files in a folder.
func usable(dir string) error {
	if err := folderFault(dir); err != nil {
		return err
	}
	const write, search = 2, 1 // W_OK, X_OK
	if err := syscall.Access(dir, write|search); err != nil {
		return fmt.Errorf("this user can't make files in %s: %w", dir, err)
	}
	return nil
}

// serverWait is how long --check-config waits for a server of the group.
const serverWait = 2 * time.Second

// serverProblems asks the servers of the group. warnings say which gave no answer, since one may come later. faults say why a store, or a log, that
// answers is of no use to this sidecar: what a start would find out.
func (o *options) serverProblems() (faults, warnings problems) {
	o.storeProblems(&faults, &warnings)
	if log, ok := o.groupLog().(jetstream.Options); ok {
		o.ask("--group-log", o.servers(), func(ctx context.Context) error {
			return log.Check(ctx, guard.Keep(o.longest.value, o.ahead.value))
		}, &faults, &warnings)
	}
	return faults, warnings
}

// storeProblems asks the server of the group's store, over a connection of its own.
func (o *options) storeProblems(faults, warnings *problems) {
	store, err := o.store(nil)
	if err != nil || store == nil {
		return
	}
	defer store.Close()
	if is, can := store.(interface{ Check(context.Context) error }); can {
		o.ask("--store", o.stores, is.Check, faults, warnings)
	}
}

// ask checks the servers at some addresses.
func (o *options) ask(option string, addresses []string, check func(context.Context) error, faults, warnings *problems) {
	away, isAny := reachable(addresses)
	if *warnings = append(*warnings, away...); !isAny {
		return
	}
	ctx, cancel := context.WithTimeout(context.Background(), serverWait)
	defer cancel()
	from := time.Now()
	err := check(ctx)
	isLate := time.Since(from) > serverWait*9/10 // It may answer a start, which waits for it.
	warnings.wrong(err != nil && isLate, "%s: no good answer within %v, as of a server that hangs, or speaks no TLS where the address asks for it: %v", option, serverWait, err)
	faults.wrong(err != nil && !isLate, "%s: %v", option, err)
}

// reachable says which of some addresses nothing answers at, and whether anything may answer at one of them.
func reachable(addresses []string) (warnings problems, reached bool) {
	faults := make([]error, len(addresses))
	at := make([]string, len(addresses))
	ctx, cancel := context.WithTimeout(context.Background(), serverWait)
	defer cancel()
	var all sync.WaitGroup
	for i, address := range addresses {
		if !strings.Contains(address, "://") {
			address = "nats://" + address
		}
		u, err := url.Parse(address)
		if err != nil || u.Hostname() == "" || strings.Contains(u.Host, ",") {
			continue // such as a socket of PostgreSQL
		}
		port := u.Port()
		if port == "" {
			port = ofScheme(u.Scheme).port
		}
		at[i] = net.JoinHostPort(u.Hostname(), port) // (without a password)
		all.Add(1)
		go func(i int) {
			defer all.Done()
			var dialer net.Dialer
			c, err := dialer.DialContext(ctx, "tcp", at[i])
			if faults[i] = err; err == nil {
				c.Close()
			}
		}(i)
	}
	all.Wait()
	for i, err := range faults {
		warnings.wrong(err != nil, "nothing answers at %s, a server of the group: %v", at[i], err)
		reached = reached || err == nil
	}
	return warnings, reached
}
