package logtest

import (
	"bytes"
	"io"
	"net"
	"sync"
	"testing"
	"time"
)

// A Proxy stands between a member and its server. It can lose or hold an answer, cut what is sent, make all come late, or let nobody through.
type Proxy struct {
	Address string // where it listens
	to      string
	mu      sync.Mutex
	shut    bool
	marker  []byte // once it was sent to the server, what that sends next on this connection is lost
	lost    bool
	held    chan struct{} // it is not lost, but comes once this ends
	isCut   bool          // and what is sent from the marker on waits too
	delay   time.Duration // of each answer
	conns   map[net.Conn]bool
}

// NewProxy listens, and connects each client to an address.
func NewProxy(t testing.TB, to string) *Proxy {
	t.Helper()
	l, err := net.Listen("tcp", "127.0.0.1:0")
	if err != nil {
		t.Fatal(err)
	}
	p := &Proxy{Address: l.Addr().String(), to: to, conns: make(map[net.Conn]bool)}
	t.Cleanup(func() { l.Close(); p.Shut(true) })
	go func() {
		for {
			c, err := l.Accept()
			if err != nil {
				return
			}
			go p.serve(c)
		}
	}()
	return p
}

// Shut lets nobody through from now on, and ends all connections; or lets all through again.
func (p *Proxy) Shut(shut bool) {
	p.mu.Lock()
	defer p.mu.Unlock()
	p.shut = shut
	for c := range p.conns {
		if shut {
			c.Close()
		}
	}
}

// Delay lets each answer come so much later.
func (p *Proxy) Delay(delay time.Duration) {
	p.mu.Lock()
	defer p.mu.Unlock()
	p.delay = delay
}

// Lose lets the answer to the next message be lost that has this text.
func (p *Proxy) Lose(marker []byte) {
	p.mu.Lock()
	defer p.mu.Unlock()
	p.marker, p.lost, p.held, p.isCut = marker, false, nil, false
}

// Hold lets the answer to the next message wait that has this text, and all that comes after it on this connection, until release.
func (p *Proxy) Hold(t testing.TB, marker []byte) (release func()) {
	p.mu.Lock()
	defer p.mu.Unlock()
	held := make(chan struct{})
	var once sync.Once
	release = func() { once.Do(func() { close(held) }) }
	t.Cleanup(release)
	p.marker, p.lost, p.held, p.isCut = marker, false, held, false
	return release
}

// Cut lets the next message that has this text reach the server up to there, and the rest wait until release.
func (p *Proxy) Cut(t testing.TB, marker []byte) (release func()) {
	release = p.Hold(t, marker)
	p.mu.Lock()
	defer p.mu.Unlock()
	p.isCut = true
	return release
}

// HasLost says whether that was.
func (p *Proxy) HasLost() bool {
	p.mu.Lock()
	defer p.mu.Unlock()
	return p.lost
}

func (p *Proxy) serve(c net.Conn) {
	defer c.Close()
	s, err := net.Dial("tcp", p.to)
	if err != nil {
		return
	}
	defer s.Close()
	p.mu.Lock()
	if p.shut {
		p.mu.Unlock()
		return
	}
	p.conns[c], p.conns[s] = true, true
	p.mu.Unlock()
	defer func() { p.mu.Lock(); delete(p.conns, c); delete(p.conns, s); p.mu.Unlock() }()
	armed := make(chan struct{})
	var held chan struct{} // once it is armed
	go func() {
		defer s.Close()
		var last []byte
		buffer := make([]byte, 64<<10)
		for isArmed := false; ; {
			n, err := c.Read(buffer)
			last = append(last, buffer[:n]...)
			sent := 0
			p.mu.Lock()
			if !isArmed && !p.lost && p.marker != nil && bytes.Contains(last, p.marker) {
				held = p.held
				if p.isCut {
					sent = n - (len(last) - bytes.Index(last, p.marker))
				}
				close(armed)
				isArmed, p.lost = true, true
			}
			p.mu.Unlock()
			if sent > 0 {
				if _, err := s.Write(buffer[:sent]); err != nil {
					return
				}
				<-held
			}
			if len(last) > 1<<20 {
				last = append([]byte(nil), last[len(last)-1<<10:]...)
			}
			if _, err := s.Write(buffer[sent:n]); err != nil {
				return
			}
			if err != nil {
				return
			}
		}
	}()
	buffer := make([]byte, 64<<10)
	for {
		n, err := s.Read(buffer)
		p.mu.Lock()
		delay := p.delay
		p.mu.Unlock()
		time.Sleep(delay)
		select {
		case <-armed:
			if held == nil {
				return // The answer is lost.
			}
			<-held
		default:
		}
		if _, err := c.Write(buffer[:n]); err != nil {
			return
		}
		if err != nil {
			if err != io.EOF {
				return
			}
			return
		}
	}
}
