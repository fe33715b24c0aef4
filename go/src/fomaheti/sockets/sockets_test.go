package sockets

import (
	"bytes"
	"log"
	"net"
	"os"
	"path/filepath"
	"strconv"
	"syscall"
	"testing"
	"time"
)

// patience limits each wait of a test.
const patience = 10 * time.Second

// holdFolder locks the folder of a file, as another process with read access can.
func holdFolder(t *testing.T, path string) *os.File {
	t.Helper()
	folder, err := openFolder(path)
	if err != nil {
		t.Fatal(err)
	}
	t.Cleanup(func() { folder.Close() })
	if err := syscall.Flock(int(folder.Fd()), syscall.LOCK_SH|syscall.LOCK_NB); err != nil {
		t.Fatal(err)
	}
	return folder
}

// within checks that act returns within a limit.
func within(t *testing.T, limit time.Duration, what string, act func()) {
	t.Helper()
	done := make(chan struct{})
	go func() {
		defer close(done)
		act()
	}()
	select {
	case <-done:
	case <-time.After(limit):
		t.Fatalf("%s: not within %v", what, limit)
	}
}

// logged returns the buffer that package log writes to during the test.
func logged(t *testing.T) *bytes.Buffer {
	t.Helper()
	lines, flags, before := &bytes.Buffer{}, log.Flags(), log.Writer()
	log.SetFlags(0)
	log.SetOutput(lines)
	t.Cleanup(func() {
		log.SetFlags(flags)
		log.SetOutput(before)
	})
	return lines
}

// Listen waits for the lock on the folder. So if two processes start together, the second looks at
// the socket only after the first has made it.
func TestListenWaitsForTheFolder(t *testing.T) {
	lines := logged(t)
	path := filepath.Join(t.TempDir(), "csi.sock")
	folder := holdFolder(t, path)
	made := make(chan *Socket, 1)
	go func() {
		listener, err := Listen(path)
		if err != nil {
			t.Error(err)
		}
		made <- listener
	}()
	select {
	case <-made:
		t.Fatal("the folder is locked, and a socket was made")
	case <-time.After(50 * time.Millisecond):
	}
	folder.Close()
	if listener := <-made; listener != nil {
		listener.Close()
	}
	if lines.Len() > 0 {
		t.Errorf("logged %q", lines)
	}
}

// If another process keeps the folder locked, the socket is made after a second, and a line reports
// that the lock is missing.
func TestStartInAFolderThatStaysLocked(t *testing.T) {
	lines := logged(t)
	path := filepath.Join(t.TempDir(), "csi.sock")
	holdFolder(t, path)
	begin := time.Now()
	within(t, patience, "a start", func() {
		socket, err := Listen(path)
		if err != nil {
			t.Error(err)
			return
		}
		socket.Close()
	})
	if took := time.Since(begin); took < time.Second {
		t.Errorf("it waited for %v", took)
	}
	want := filepath.Dir(path) +
		": another process keeps this folder locked, and a socket is made there without the lock\n"
	if lines.String() != want {
		t.Errorf("logged %q", lines)
	}
}

// If another process has locked the folder, Close removes the file of its socket at once. If
// another socket has replaced this file, the other socket stays.
func TestEndInAFolderThatIsLocked(t *testing.T) {
	for _, isOther := range []bool{false, true} {
		path := filepath.Join(t.TempDir(), "csi.sock")
		socket, err := Listen(path)
		if err != nil {
			t.Fatal(err)
		}
		if isOther {
			os.Remove(path)
			other, err := Listen(path)
			if err != nil {
				t.Fatal(err)
			}
			defer other.Close()
		}
		holdFolder(t, path)
		within(t, patience, "an end", func() { socket.Close() })
		if _, err := os.Lstat(path); (err == nil) != isOther {
			t.Errorf("another's socket %v: %v", isOther, err)
		}
	}
}

// A socket stays unless a connection to it is refused: here a datagram socket in use.
func TestSocketOfAnotherKindStays(t *testing.T) {
	path := filepath.Join(t.TempDir(), "csi.sock")
	other, err := net.ListenUnixgram("unixgram", &net.UnixAddr{Name: path, Net: "unixgram"})
	if err != nil {
		t.Fatal(err)
	}
	defer other.Close()
	before, err := os.Lstat(path)
	if err != nil {
		t.Fatal(err)
	}
	if socket, err := Listen(path); err == nil {
		socket.Close()
		t.Error("a socket was made in its place")
	}
	if after, err := os.Lstat(path); err != nil || !os.SameFile(before, after) {
		t.Errorf("%v, %v", after, err)
	}
}

// The socket of a program that listens stays, even if its queue is full, so that nothing answers on
// it at the moment.
func TestSocketWithAFullQueue(t *testing.T) {
	path := filepath.Join(t.TempDir(), "node.sock")
	file, err := syscall.Socket(syscall.AF_UNIX, syscall.SOCK_STREAM, 0)
	if err != nil {
		t.Fatal(err)
	}
	defer syscall.Close(file)
	if err := syscall.Bind(file, &syscall.SockaddrUnix{Name: path}); err != nil {
		t.Fatal(err)
	}
	if err := syscall.Listen(file, 0); err != nil {
		t.Fatal(err)
	}
	for conn, err := net.Dial("unix", path); err == nil; conn, err = net.Dial("unix", path) {
		defer conn.Close()
	}
	before, err := os.Lstat(path)
	if err != nil {
		t.Fatal(err)
	}
	if listener, err := Listen(path); err == nil {
		listener.Close()
		t.Error("it listens")
	}
	if after, err := os.Lstat(path); err != nil || !os.SameFile(before, after) {
		t.Errorf("the socket was replaced: %v", err)
	}
}

// Close removes the socket's own file, and no file that replaced it. A second Close changes
// nothing.
func TestFileOfTheSocket(t *testing.T) {
	path := filepath.Join(t.TempDir(), "csi.sock")
	rows := map[string]func() *Socket{
		"its own": func() *Socket { return nil },
		"none":    func() *Socket { os.Remove(path); return nil },
		"another's": func() *Socket {
			os.Remove(path)
			other, err := Listen(path)
			if err != nil {
				t.Fatal(err)
			}
			return other
		},
	}
	for name, meanwhile := range rows {
		socket, err := Listen(path)
		if err != nil {
			t.Fatal(err)
		}
		other := meanwhile()
		socket.Close()
		socket.Close()
		if _, err := os.Lstat(path); (err == nil) != (other != nil) {
			t.Errorf("%s: %v", name, err)
		}
		if other != nil {
			other.Close()
		}
	}
}

// The mode allows only the owner, or the owner and a group, also with a umask that allows more.
// ListenForGroup restores the umask. It refuses an unknown group and makes no socket.
func TestSocketForGroup(t *testing.T) {
	before := syscall.Umask(0o002)
	defer syscall.Umask(before)
	for group, want := range map[string]os.FileMode{"": 0o600, strconv.Itoa(os.Getgid()): 0o660} {
		path := filepath.Join(t.TempDir(), "control.sock")
		socket, err := ListenForGroup(path, group)
		if err != nil {
			t.Fatal(err)
		}
		file, err := os.Lstat(path)
		if err != nil || file.Mode().Perm() != want || file.Sys().(*syscall.Stat_t).Gid != uint32(os.Getgid()) {
			t.Errorf("group %q: %v, %v", group, file, err)
		}
		socket.Close()
	}
	if now := syscall.Umask(0o002); now != 0o002 {
		t.Errorf("the umask is %o", now)
	}
	path := filepath.Join(t.TempDir(), "control.sock")
	if _, err := ListenForGroup(path, "no group has this name"); err == nil {
		t.Error("a group that is not there was taken")
	}
	if _, err := os.Lstat(path); !os.IsNotExist(err) {
		t.Errorf("a socket was made: %v", err)
	}
}
