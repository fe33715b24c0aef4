package main

import (
	"net"
	"path/filepath"
	"syscall"
	"testing"

	"fomaheti/fixtures"
)

var fromHex = fixtures.FromHex

// listening returns a listener for a csid, and the path of its socket.
func listening(t *testing.T) (net.Listener, string) {
	t.Helper()
	path := filepath.Join(t.TempDir(), "csid.sock")
	listener, err := net.Listen("unix", path)
	if err != nil {
		t.Fatal(err)
	}
	t.Cleanup(func() { listener.Close() })
	return listener, path
}

// awaitBytes waits until at least count bytes have come that are not read yet, and leaves them
// unread.
func awaitBytes(conn net.Conn, count int) {
	raw, err := conn.(*net.UnixConn).SyscallConn()
	if err != nil {
		return
	}
	raw.Read(func(file uintptr) bool {
		size, _, err := syscall.Recvfrom(int(file), make([]byte, count), syscall.MSG_PEEK|syscall.MSG_DONTWAIT)
		return size >= count || err != nil && err != syscall.EAGAIN
	})
}
