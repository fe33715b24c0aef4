package tests

import (
	"net"
	"sync"
	"testing"
)

// proxy forwards bytes between csid-etcd and a member of etcd. It can pause, or drop clients'
// bytes.
type proxy struct {
	listener net.Listener
	member   string
	mutex    sync.Mutex
	changed  *sync.Cond
	// If set, no bytes are forwarded.
	isPaused bool
	// If set, bytes from clients are dropped.
	dropsClient bool
	conns       []net.Conn
}

func newProxy(t *testing.T, member string) *proxy {
	t.Helper()
	listener, err := net.Listen("tcp", "127.0.0.1:0")
	if err != nil {
		t.Fatal(err)
	}
	p := &proxy{listener: listener, member: member}
	p.changed = sync.NewCond(&p.mutex)
	t.Cleanup(func() {
		listener.Close()
		p.set(func() { p.isPaused = false })
		p.cut()
	})
	go p.run()
	return p
}

func (p *proxy) address() string { return p.listener.Addr().String() }

func (p *proxy) run() {
	for {
		client, err := p.listener.Accept()
		if err != nil {
			return
		}
		server, err := net.Dial("tcp", p.member)
		if err != nil {
			client.Close()
			continue
		}
		p.set(func() { p.conns = append(p.conns, client, server) })
		go p.hand(client, server, true)
		go p.hand(server, client, false)
	}
}

// hand forwards bytes in one direction. They wait while the proxy is paused, and are dropped if
// dropsClient is set and they come from a client.
func (p *proxy) hand(from, to net.Conn, isOfClient bool) {
	var waiting [][]byte
	isOver := false
	go func() {
		defer to.Close()
		for {
			p.mutex.Lock()
			for !isOver && (p.isPaused || len(waiting) == 0) {
				p.changed.Wait()
			}
			parts := waiting
			waiting = nil
			p.mutex.Unlock()
			for _, part := range parts {
				to.Write(part)
			}
			if len(parts) == 0 {
				return
			}
		}
	}()
	for {
		part := make([]byte, 1<<16)
		size, err := from.Read(part)
		p.set(func() {
			if err != nil {
				isOver = true
			} else if !p.dropsClient || !isOfClient {
				waiting = append(waiting, part[:size])
			}
		})
		if err != nil {
			from.Close()
			return
		}
	}
}

func (p *proxy) set(change func()) {
	p.mutex.Lock()
	defer p.mutex.Unlock()
	change()
	p.changed.Broadcast()
}

func (p *proxy) pause()  { p.set(func() { p.isPaused = true }) }
func (p *proxy) resume() { p.set(func() { p.isPaused, p.dropsClient = false, false }) }

// cut closes all connections.
func (p *proxy) cut() {
	p.mutex.Lock()
	defer p.mutex.Unlock()
	for _, conn := range p.conns {
		conn.Close()
	}
	p.conns = nil
}
