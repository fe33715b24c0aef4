package main

import (
	"container/list"
	"context"
	"net"
	"sync"
	"time"

	"google.golang.org/grpc/peer"
)

// The greatest numbers of open connections: on the socket for the orchestrator, on the control
// socket, and at --metrics.
const (
	maxClients  = 256
	maxControls = 16
	maxWatchers = 64
)

// A connection must be without a call for quietTime before it can be closed for another one: a new
// client needs a moment to send its first call. roomPause is the pause between two attempts to make
// room for a connection.
const (
	quietTime = 100 * time.Millisecond
	roomPause = 10 * time.Millisecond
)

// limitedListener accepts connections, and keeps at most limit of them open. To make room for a new
// one, it closes the connection that has had no call for the longest time. While each open
// connection has a call, or has been without one for less than quietTime, the new connection waits.
type limitedListener struct {
	net.Listener
	limit int
	// Called for each connection that was closed for another one.
	report func()
	closed chan struct{}
	close  sync.Once
	// The mutex guards the fields below, which the connections use too.
	mutex sync.Mutex
	open  int
	// The open connections without a call, the longest idle one first.
	quiet *list.List
}

func limitListener(listener net.Listener, limit int, report func()) *limitedListener {
	return &limitedListener{Listener: listener, limit: limit, report: report, closed: make(chan struct{}),
		quiet: list.New()}
}

// Accept returns the next connection, a *clientConn, as soon as there is room for it.
func (l *limitedListener) Accept() (net.Conn, error) {
	client, err := l.take()
	if err != nil {
		return nil, err
	}
	return client, nil
}

// take waits for a connection, and then for room for it. If the listener is closed in the meantime,
// it closes the connection and returns net.ErrClosed.
func (l *limitedListener) take() (*clientConn, error) {
	conn, err := l.Listener.Accept()
	if err != nil {
		return nil, err
	}
	client := &clientConn{Conn: conn, listener: l}
	for !l.admit(client) {
		select {
		case <-l.closed:
			conn.Close()
			return nil, net.ErrClosed
		case <-time.After(roomPause):
		}
	}
	return client, nil
}

// Close closes the listener. A connection that waits for room is closed too.
func (l *limitedListener) Close() error {
	l.close.Do(func() { close(l.closed) })
	return l.Listener.Close()
}

// admit counts a connection as open if there is room for it, and reports whether there was. To make
// room, it closes a connection without a call.
func (l *limitedListener) admit(client *clientConn) bool {
	l.mutex.Lock()
	defer l.mutex.Unlock()
	if l.open == l.limit && !l.closeQuiet() {
		return false
	}
	l.open++
	client.joinQuiet()
	return true
}

// closeQuiet closes the connection that has had no call for the longest time, if this time is at
// least quietTime. It reports whether it closed a connection.
func (l *limitedListener) closeQuiet() bool {
	first := l.quiet.Front()
	if first == nil {
		return false
	}
	client := first.Value.(*clientConn)
	if time.Since(client.since) < quietTime {
		return false
	}
	client.Conn.Close()
	client.release()
	l.report()
	return true
}

// clientConn is the connection of a client. On a nil connection the methods begin and end do
// nothing.
type clientConn struct {
	net.Conn
	listener *limitedListener
	// The number of running calls of this connection. If it is 0, place is the connection's element
	// in the list of quiet connections, and since is the time at which it became quiet.
	calls      int
	place      *list.Element
	since      time.Time
	isReleased bool
}

// begin records that a call of the connection has been received completely, and end that it was
// answered.
func (c *clientConn) begin() {
	if c == nil {
		return
	}
	c.listener.mutex.Lock()
	defer c.listener.mutex.Unlock()
	c.calls++
	c.leaveQuiet()
}

func (c *clientConn) end() {
	if c == nil {
		return
	}
	c.listener.mutex.Lock()
	defer c.listener.mutex.Unlock()
	if c.calls--; c.calls == 0 && !c.isReleased {
		c.joinQuiet()
	}
}

// joinQuiet adds a connection to the end of the list of quiet connections, and leaveQuiet removes
// it from the list.
func (c *clientConn) joinQuiet() {
	c.since = time.Now()
	c.place = c.listener.quiet.PushBack(c)
}

func (c *clientConn) leaveQuiet() {
	if c.place != nil {
		c.listener.quiet.Remove(c.place)
		c.place = nil
	}
}

// Close closes the connection, which makes room for another one. It may be called more than once.
func (c *clientConn) Close() error {
	err := c.Conn.Close()
	c.listener.mutex.Lock()
	defer c.listener.mutex.Unlock()
	c.release()
	return err
}

func (c *clientConn) release() {
	if !c.isReleased {
		c.isReleased = true
		c.listener.open--
		c.leaveQuiet()
	}
}

// RemoteAddr returns the address of the client. clientOf gets the connection from it.
func (c *clientConn) RemoteAddr() net.Addr { return clientAddr{c.Conn.RemoteAddr(), c} }

type clientAddr struct {
	net.Addr
	client *clientConn
}

// clientOf returns the connection over which a gRPC call came, or nil if it is not a clientConn.
func clientOf(ctx context.Context) *clientConn {
	if from, is := peer.FromContext(ctx); is {
		if address, is := from.Addr.(clientAddr); is {
			return address.client
		}
	}
	return nil
}

// grpcListener accepts connections for the gRPC server, as grpcConn.
type grpcListener struct{ *limitedListener }

func (l grpcListener) Accept() (net.Conn, error) {
	client, err := l.take()
	if err != nil {
		return nil, err
	}
	return grpcConn{client}, nil
}

// grpcConn is a gRPC connection whose writes return no error. A write that fails closes the
// connection instead, so gRPC's reader sees the end of the connection. grpc-go 1.33 writes in a
// separate goroutine. If this goroutine ended first while 50 replies to PING or SETTINGS were due,
// the reader would wait for hours and keep about 100 KiB.
type grpcConn struct{ *clientConn }

func (c grpcConn) Write(bytes []byte) (int, error) {
	if _, err := c.clientConn.Write(bytes); err != nil {
		c.Close()
	}
	return len(bytes), nil
}
