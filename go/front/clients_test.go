package main

import (
	"bytes"
	"errors"
	"io"
	"net"
	"sync/atomic"
	"testing"
	"time"
)

// open returns the number of open connections of a listener.
func open(l *limitedListener) int {
	l.mutex.Lock()
	defer l.mutex.Unlock()
	return l.open
}

// limited returns a listener with a limit of open connections, the path of its socket, and the
// number of connections that it has closed for others.
func limited(t *testing.T, limit int) (*limitedListener, string, *int32) {
	t.Helper()
	listener, path := listening(t)
	var closed int32
	l := limitListener(listener, limit, func() { atomic.AddInt32(&closed, 1) })
	t.Cleanup(func() { l.Close() })
	return l, path, &closed
}

// joins makes a connection to a limited listener, and returns both of its ends.
func joins(t *testing.T, l *limitedListener, path string) (peer net.Conn, client *clientConn) {
	t.Helper()
	peer = dial(t, path)
	client, err := l.take()
	if err != nil {
		t.Fatal(err)
	}
	return peer, client
}

// isClosed reports whether the listener has closed a connection. It writes a byte at the listener's
// end, which peer reads if the connection is open.
func isClosed(t *testing.T, peer net.Conn, client *clientConn) bool {
	t.Helper()
	client.Conn.Write([]byte{7})
	var next [1]byte
	_, err := io.ReadFull(peer, next[:])
	if err != nil && err != io.EOF {
		t.Error(err)
	}
	return err != nil
}

// At the limit, a new connection closes the connection that has had no call for the longest time,
// unless another connection has ended.
func TestConnectionThatMakesRoom(t *testing.T) {
	rows := map[string]struct {
		act    func(clients []*clientConn)
		gone   int
		closed int32
	}{
		"none had a call":            {func([]*clientConn) {}, 0, 1},
		"the first has a call":       {func(c []*clientConn) { c[0].begin() }, 1, 1},
		"the first had a call":       {func(c []*clientConn) { c[0].begin(); c[0].end() }, 1, 1},
		"the first has one of two":   {func(c []*clientConn) { c[0].begin(); c[0].begin(); c[0].end() }, 1, 1},
		"the last alone has no call": {func(c []*clientConn) { c[0].begin(); c[1].begin() }, 2, 1},
		"the second has gone":        {func(c []*clientConn) { c[1].Close(); c[1].Close() }, 1, 0},
	}
	for name, row := range rows {
		t.Run(name, func(t *testing.T) {
			const limit = 3
			l, path, closed := limited(t, limit)
			var peers []net.Conn
			var clients []*clientConn
			for i := 0; i < limit; i++ {
				peer, client := joins(t, l, path)
				peers, clients = append(peers, peer), append(clients, client)
			}
			row.act(clients)
			joins(t, l, path)
			for i, client := range clients {
				if got := isClosed(t, peers[i], client); got != (i == row.gone) {
					t.Errorf("connection %d is closed: %v", i, got)
				}
			}
			if got := atomic.LoadInt32(closed); got != row.closed || open(l) != limit {
				t.Errorf("%d were closed for others, %d are open", got, open(l))
			}
		})
	}
}

// If each connection has a call, or had one just before, a new connection waits for room.
func TestConnectionThatWaitsForRoom(t *testing.T) {
	l, path, _ := limited(t, 1)
	_, client := joins(t, l, path)
	client.begin()
	dial(t, path)
	taken := make(chan error, 1)
	go func() {
		_, err := l.take()
		taken <- err
	}()
	select {
	case <-taken:
		t.Fatal("two connections are open")
	case <-time.After(2 * quietTime):
	}
	begin := time.Now()
	client.end()
	if err := <-taken; err != nil || time.Since(begin) < quietTime {
		t.Errorf("%v, after %v", err, time.Since(begin))
	}
	if open(l) != 1 {
		t.Errorf("%d connections are open", open(l))
	}
}

// Closing a listener ends the wait of a connection for room.
func TestEndWhileAConnectionWaitsForRoom(t *testing.T) {
	l, path, _ := limited(t, 1)
	_, client := joins(t, l, path)
	client.begin()
	waits := dial(t, path)
	taken := make(chan error, 1)
	go func() {
		_, err := l.Accept()
		taken <- err
	}()
	time.Sleep(2 * roomPause)
	l.Close()
	select {
	case err := <-taken:
		if !errors.Is(err, net.ErrClosed) {
			t.Error(err)
		}
	case <-time.After(10 * time.Second):
		t.Fatal("it waits")
	}
	if _, err := waits.Read(make([]byte, 1)); err != io.EOF {
		t.Errorf("the connection that waited: %v", err)
	}
}

// If a write of gRPC fails, it closes the connection, and returns no error.
func TestWriteThatFails(t *testing.T) {
	l, path, _ := limited(t, 1)
	peer := dial(t, path)
	conn, err := grpcListener{l}.Accept()
	if err != nil {
		t.Fatal(err)
	}
	if count, err := conn.Write([]byte("ab")); count != 2 || err != nil {
		t.Errorf("%d, %v", count, err)
	}
	got := make([]byte, 2)
	if _, err := io.ReadFull(peer, got); err != nil || !bytes.Equal(got, []byte("ab")) {
		t.Errorf("%q, %v", got, err)
	}
	peer.Close()
	if count, err := conn.Write([]byte("cde")); count != 3 || err != nil || open(l) != 0 {
		t.Errorf("%d, %v, %d are open", count, err, open(l))
	}
}
