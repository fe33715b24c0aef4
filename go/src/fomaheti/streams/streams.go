// Package streams keeps the descriptors of standard input, output and error. A program imports it
// for this effect. Where one of them is closed at the start, the next file or connection would take
// its descriptor, and the lines of the log would go into a client's connection.
package streams

import "syscall"

func init() {
	for descriptor := 0; descriptor <= 2; descriptor++ {
		var stat syscall.Stat_t
		if syscall.Fstat(descriptor, &stat) == syscall.EBADF {
			hold(descriptor)
		}
	}
}

// hold opens /dev/null at a closed descriptor, the lowest one that is free. As on a closed one, a
// read of standard input and a write to the others fail.
func hold(descriptor int) {
	mode := syscall.O_RDONLY
	if descriptor == 0 {
		mode = syscall.O_WRONLY
	}
	// Without /dev/null the descriptor stays closed.
	_, _ = syscall.Open("/dev/null", mode, 0)
}
