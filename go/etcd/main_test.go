package main

import (
	"io"
	"net"
	"os"
	"path/filepath"
	"syscall"
	"testing"
	"time"

	"fomaheti/sockets"
)

// If the socket can accept no connection any more, the program ends with the status for a socket
// that could not be made.
func TestSocketThatFails(t *testing.T) {
	folder := t.TempDir()
	socket, err := sockets.Listen(filepath.Join(folder, "log.sock"))
	if err != nil {
		t.Fatal(err)
	}
	defer socket.Close()
	// Another file takes over the descriptor of the socket: no connection can be accepted from it,
	// and the program has not closed it.
	null, err := os.Open(os.DevNull)
	if err != nil {
		t.Fatal(err)
	}
	defer null.Close()
	raw, err := socket.SyscallConn()
	if err == nil {
		err = raw.Control(func(file uintptr) {
			if err := syscall.Dup3(int(null.Fd()), int(file), 0); err != nil {
				t.Error(err)
			}
		})
	}
	if err != nil {
		t.Fatal(err)
	}
	// An etcd that accepts connections and answers nothing.
	silent, err := net.Listen("tcp", "127.0.0.1:0")
	if err != nil {
		t.Fatal(err)
	}
	defer silent.Close()
	opts := options{name: "a", endpoints: []string{silent.Addr().String()}, timeout: 200 * time.Millisecond, lease: 2,
		id: "me"}
	exitStatus := make(chan int, 1)
	go func() {
		exitStatus <- serve(opts, socket, &revisions{olderSeen: make(chan struct{}, 1)}, make(chan os.Signal),
			&logger{out: io.Discard})
	}()
	select {
	case status := <-exitStatus:
		if status != 7 {
			t.Errorf("got status %d, want 7", status)
		}
	case <-time.After(20 * time.Second):
		t.Error("the program did not end")
	}
}
