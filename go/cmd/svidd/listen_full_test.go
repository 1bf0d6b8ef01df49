package main

import (
	"context"
	"errors"
	"io"
	"net"
	"net/http"
	"os"
	"path/filepath"
	"syscall"
	"testing"
	"time"

	"svid.example/go/v3/internal/patience"
)

// An impatient server ends no request by itself.
type impatient struct{ *http.Server }

func (impatient) Shutdown(context.Context) error { return context.DeadlineExceeded }

// A request that does not end in time loses its connection at the end of the sidecar.
func TestARequestThatDoesNotEnd(t *testing.T) {
	l, err := net.Listen("tcp", "127.0.0.1:0")
	must(t, err)
	begun, goOn := make(chan struct{}), make(chan struct{})
	defer close(goOn)
	server := &http.Server{Handler: http.HandlerFunc(func(http.ResponseWriter, *http.Request) { close(begun); <-goOn })}
	go server.Serve(l)
	c, err := net.Dial("tcp", l.Addr().String())
	must(t, err)
	defer c.Close()
	_, err = io.WriteString(c, "GET / HTTP/1.1\r\nHost: svidd\r\n\r\n")
	must(t, err)
	<-begun
	new(sidecar).shutdown([]served{{"listen", impatient{server}, l}})
	must(t, c.SetReadDeadline(time.Now().Add(patience.Long)))
	if n, err := c.Read(make([]byte, 1)); err == nil || errors.Is(err, os.ErrDeadlineExceeded) {
		t.Errorf("%d bytes, %v", n, err)
	}
}

// A socket is another process's as long as that has it, though it takes no connection: it may be stopped, or have too many that wait.
func TestASocketOfAProcessThatTakesNothing(t *testing.T) {
	path := filepath.Join(t.TempDir(), "socket")
	fd, err := syscall.Socket(syscall.AF_UNIX, syscall.SOCK_STREAM, 0)
	if err != nil {
		t.Fatal(err)
	}
	defer syscall.Close(fd)
	if err := syscall.Bind(fd, &syscall.SockaddrUnix{Name: path}); err != nil {
		t.Fatal(err)
	}
	if err := syscall.Listen(fd, 0); err != nil {
		t.Fatal(err)
	}
	for {
		c, err := net.Dial("unix", path)
		if err != nil {
			break // No more of them wait.
		}
		defer c.Close()
	}
	before, err := os.Stat(path)
	if err != nil {
		t.Fatal(err)
	}
	l, err := bind("unix:"+path, private)
	if err == nil {
		l.Close()
		t.Fatal("it was taken away from that process")
	}
	if after, err := os.Stat(path); err != nil || !os.SameFile(before, after) {
		t.Errorf("it is another one: %v", err)
	}
}
