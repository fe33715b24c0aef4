// Package sockets makes the Unix socket of a program and removes its file at the end.
package sockets

import (
	"errors"
	"fmt"
	"log"
	"net"
	"os"
	"os/user"
	"path/filepath"
	"strconv"
	"sync"
	"syscall"
	"time"
)

// A starting program waits at most lockTime for the lock on the folder of its socket, and tries
// again every lockPause. Another starting program holds the lock only for a moment.
const (
	lockTime  = time.Second
	lockPause = 10 * time.Millisecond
)

// Socket is a listening Unix socket. Close removes its file, unless another process has replaced
// this file.
type Socket struct {
	*net.UnixListener
	path  string
	file  os.FileInfo
	close sync.Once
}

// ListenForGroup makes a socket. If group is empty, only the owner of the socket may connect (mode
// 0600). Otherwise group is the name or number of a group that may connect too (mode 0660).
func ListenForGroup(path, group string) (*Socket, error) {
	number, err := groupNumber(group)
	if err != nil {
		return nil, err
	}
	// With this umask the socket has mode 0600 from the start. If the mode were changed after
	// Listen, other users could connect before the change.
	before := syscall.Umask(0o177)
	socket, err := Listen(path)
	syscall.Umask(before)
	if err != nil || group == "" {
		return socket, err
	}
	if err = os.Lchown(path, -1, number); err == nil {
		err = os.Chmod(path, 0o660)
	}
	if err != nil {
		socket.Close()
		return nil, err
	}
	return socket, nil
}

// groupNumber returns the number of a group that is given by its name or number. For an empty text
// it returns 0, which is not used.
func groupNumber(group string) (int, error) {
	if group == "" {
		return 0, nil
	}
	if number, err := strconv.ParseUint(group, 10, 31); err == nil {
		return int(number), nil
	}
	found, err := user.LookupGroup(group)
	if err != nil {
		return 0, err
	}
	return strconv.Atoi(found.Gid)
}

// Listen makes a socket. It replaces the socket of an earlier process if no process listens on it
// now. Any other file with this path stays, and Listen fails. Every user who can read the folder
// can lock it: if another process keeps the lock for lockTime, Listen logs a line and makes the
// socket without the lock.
func Listen(path string) (*Socket, error) {
	folder, err := openFolder(path)
	if err != nil {
		return nil, err
	}
	defer folder.Close()
	if isLocked, err := lockSoon(folder); err != nil {
		return nil, err
	} else if !isLocked {
		log.Printf("%s: another process keeps this folder locked, and a socket is made there without the lock",
			folder.Name())
	}
	if err := removeDeadSocket(path); err != nil {
		return nil, err
	}
	listener, err := net.ListenUnix("unix", &net.UnixAddr{Name: path, Net: "unix"})
	if err != nil {
		return nil, err
	}
	listener.SetUnlinkOnClose(false)
	file, err := os.Lstat(path)
	if err != nil {
		listener.Close()
		return nil, err
	}
	return &Socket{UnixListener: listener, path: path, file: file}, nil
}

// Close closes the socket and removes its file. A second call does nothing.
func (s *Socket) Close() (err error) {
	s.close.Do(func() {
		s.remove()
		err = s.UnixListener.Close()
	})
	return err
}

// remove removes the file of the socket, unless it was replaced. It compares device and inode
// before the listener is closed: until then no other file gets this inode. It tries the lock once
// and does not wait for it: until the listener is closed, no starting process replaces this socket.
func (s *Socket) remove() {
	folder, err := openFolder(s.path)
	if err != nil {
		return
	}
	defer folder.Close()
	lock(folder)
	if file, err := os.Lstat(s.path); err == nil && os.SameFile(file, s.file) {
		os.Remove(s.path)
	}
}

// openFolder opens the folder of a file. A lock on the folder ends when the result is closed.
func openFolder(path string) (*os.File, error) {
	return os.Open(filepath.Dir(path))
}

// lockSoon locks a folder, so that if two processes start together, neither removes the socket that
// the other has just made. If another process keeps the lock for lockTime, isLocked is false and
// err is nil.
func lockSoon(folder *os.File) (isLocked bool, err error) {
	for end := time.Now().Add(lockTime); ; time.Sleep(lockPause) {
		err := lock(folder)
		if err == nil {
			return true, nil
		}
		if !errors.Is(err, syscall.EWOULDBLOCK) {
			return false, fmt.Errorf("locking %s: %w", folder.Name(), err)
		}
		if time.Now().After(end) {
			return false, nil
		}
	}
}

// lock locks a folder. It fails with EWOULDBLOCK if another process has the lock.
func lock(folder *os.File) error {
	return syscall.Flock(int(folder.Fd()), syscall.LOCK_EX|syscall.LOCK_NB)
}

func removeDeadSocket(path string) error {
	file, err := os.Lstat(path)
	if errors.Is(err, os.ErrNotExist) {
		return nil
	}
	if err != nil {
		return err
	}
	if file.Mode()&os.ModeSocket == 0 {
		return fmt.Errorf("%s: a file exists there that is no socket", path)
	}
	conn, err := net.Dial("unix", path)
	if err == nil {
		conn.Close()
		return fmt.Errorf("%s: somebody answers on it already", path)
	}
	if !errors.Is(err, syscall.ECONNREFUSED) {
		return fmt.Errorf("a socket exists there, and nothing is known of it: %w", err)
	}
	return os.Remove(path)
}
