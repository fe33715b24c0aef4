package main

import (
	"errors"
	"fmt"
	"io"
	"net"
	"sync/atomic"
	"syscall"
	"time"

	"fomaheti/frames"
)

// The greatest number of calls on their way over a connection, and the greatest total length of
// their frames in bytes. A longer frame is sent alone.
const (
	maxSent      = 16
	maxSentBytes = 64 << 10
)

// A message of at most this many bytes is copied into the buffer, so that one write sends the
// frames of several calls. A longer message is written without a copy.
const maxCopiedBytes = 4 << 10

// errUnanswered is the error if csid closes the connection before a reply begins. csid logs the
// reason on its own standard error.
var errUnanswered = errors.New("the connection was closed unanswered: see the log of csid")

// Two of the reasons why the front itself closes a connection. errUnasked: csid sent a byte while
// no call was on its way. errSpoiled: csid refused a change with status 13, and makes no more
// changes over the connection.
var (
	errUnasked = errors.New("a reply came to no call")
	errSpoiled = errors.New("a change was refused")
)

// connection is a connection to csid, which answers calls in the order in which they were sent. One
// goroutine reads the replies and closes the connection. The mutex of the backend guards all fields
// except replies and sentCount.
type connection struct {
	socket  *net.UnixConn
	raw     syscall.RawConn
	replies *frames.Replies
	// The calls on their way, in the order in which they were sent, and the total length of their
	// frames in bytes. sentCount is the number of these calls; the goroutine that reads uses it
	// without the mutex.
	sent      []*call
	sentBytes int
	sentCount atomic.Int32
	// Calls that are sent again over the next connection, in the order in which they were sent
	// first.
	again []*call
	// The unwritten bytes of the calls on their way: buffer from the index written on, and then
	// message, which is a message that is too long to be copied. While isWriting is true, a
	// goroutine writes these bytes and no further call is sent.
	buffer    []byte
	written   int
	message   []byte
	isWriting bool
	// The time from which csid could work on the first call on its way: the time at which this call
	// was sent, or at which the reply to the call before it came.
	begun time.Time
	// The timer that ends the connection. It runs if the caller of the first call on its way has
	// given the call up.
	late *time.Timer
	// hasSent is true if a call was sent, and hasServed if a reply came. isSpoiled is true if csid
	// makes no more changes, after a status 13. isBroken is true if nothing more can be written.
	hasSent, hasServed, isSpoiled, isBroken bool
	// The reason why the front ended the connection. It is nil if the front did not, or if the
	// error of reading shows the reason.
	why error
	// Closed after the connection has ended.
	closed chan struct{}
}

// connect connects to the socket of csid. It never waits: if the queue of csid's socket is full, it
// fails.
func connect(path string) (*connection, error) {
	socket, err := net.DialUnix("unix", nil, &net.UnixAddr{Name: path, Net: "unix"})
	if err != nil {
		return nil, err
	}
	raw, err := socket.SyscallConn()
	if err != nil {
		socket.Close()
		return nil, err
	}
	return &connection{socket: socket, raw: raw, replies: frames.NewReplies(socket), closed: make(chan struct{})}, nil
}

// next reads the next reply. If a byte comes while no call is on its way, it returns errUnasked.
func (c *connection) next() (frames.Reply, error) {
	if err := c.replies.Await(); err != nil {
		return frames.Reply{}, err
	}
	if c.sentCount.Load() == 0 {
		return frames.Reply{}, errUnasked
	}
	return c.replies.Next()
}

// end shuts the connection down, after which the goroutine that reads closes it. The first reason
// that is not nil is kept. Bytes that csid wrote before can still be read. The next write of csid
// fails, so csid looks at no further call.
func (c *connection) end(why error) {
	c.isBroken = true
	if c.why == nil {
		c.why = why
	}
	c.raw.Control(func(file uintptr) { syscall.Shutdown(int(file), syscall.SHUT_RDWR) })
}

// isOpen reports whether a call can be sent: the connection works, csid still makes changes over
// it, and no goroutine writes the rest of a frame.
func (c *connection) isOpen() bool { return !c.isSpoiled && !c.isBroken && !c.isWriting }

// hasRoom reports whether a call can be sent after the calls on their way. Before the first reply
// of a connection it returns false, since csid may close each connection without a reply.
func (c *connection) hasRoom(one *call) bool {
	return c.isOpen() && c.hasServed && len(c.sent) < maxSent && c.sentBytes+one.size <= maxSentBytes
}

// add puts a call after the calls on their way, and its frame after the unwritten bytes. A message
// of more than maxCopiedBytes is not copied into the buffer.
func (c *connection) add(one *call) {
	if len(c.sent) == 0 {
		c.begun = time.Now()
	}
	one.stage = isSent
	c.hasSent = true
	c.sent = append(c.sent, one)
	c.sentBytes += one.size
	c.sentCount.Store(int32(len(c.sent)))
	c.buffer = frames.AppendRequestHead(c.buffer, one.path, len(one.message))
	if len(one.message) <= maxCopiedBytes {
		c.buffer = append(c.buffer, one.message...)
	} else {
		c.message = one.message
	}
}

// takeFirst removes the first call on its way, whose reply has come, and returns it.
func (c *connection) takeFirst() *call {
	one := c.sent[0]
	copy(c.sent, c.sent[1:])
	c.dropLast(one.size)
	c.stopLate()
	return one
}

// takeBack removes the last call on its way and returns it. None of its bytes may have been
// written.
func (c *connection) takeBack() *call {
	one := c.last()
	c.dropLast(one.size)
	c.buffer = c.buffer[:len(c.buffer)-(one.size-len(c.message))]
	c.message = nil
	return one
}

// dropLast makes the list of calls on their way one shorter, after a call with a frame of this size
// was removed.
func (c *connection) dropLast(size int) {
	last := len(c.sent) - 1
	c.sent[last] = nil
	c.sent = c.sent[:last]
	c.sentBytes -= size
	c.sentCount.Store(int32(last))
}

// last returns the last call on its way, or nil.
func (c *connection) last() *call {
	if len(c.sent) == 0 {
		return nil
	}
	return c.sent[len(c.sent)-1]
}

// isUnwritten reports whether a call is the last one on its way and no byte of its frame was
// written. It returns false for nil.
func (c *connection) isUnwritten(one *call) bool {
	return one != nil && one == c.last() && c.unwritten() >= one.size
}

// unwritten returns the number of bytes of the calls on their way that are not written yet.
func (c *connection) unwritten() int { return len(c.buffer) - c.written + len(c.message) }

func (c *connection) stopLate() {
	if c.late != nil {
		c.late.Stop()
		c.late = nil
	}
}

// write writes as many bytes as the socket takes without waiting. It returns true if everything is
// written, or if writing failed and the connection was ended. Otherwise it must be called again
// when the socket takes more.
func (c *connection) write(file uintptr) bool {
	for c.unwritten() > 0 {
		isBuffer, part := true, c.buffer[c.written:]
		if len(part) == 0 {
			isBuffer, part = false, c.message
		}
		count, err := syscall.Write(int(file), part)
		switch {
		case err == syscall.EINTR:
		case err == syscall.EAGAIN:
			return false
		case frames.IsClosing(err):
			// The goroutine that reads gets an error too, which shows the reason.
			c.end(nil)
			return true
		case err != nil:
			c.end(fmt.Errorf("sending the call: %w", err))
			return true
		case isBuffer:
			c.written += count
		default:
			c.message = part[count:]
		}
	}
	c.buffer, c.written, c.message = c.buffer[:0], 0, nil
	return true
}

// isUndone reports whether csid cannot have carried out a call on its way, after reading a reply
// failed with err. place is the number of calls on their way before this call. It returns false if
// err does not mean that csid closed the connection. csid writes each reply before it looks at the
// next call, so it can have carried out only the first call. If the first call is the only one,
// csid has not carried it out either if a part of it was not written, or if the socket was reset: a
// socket is reset if its peer closes it before reading all bytes.
func (c *connection) isUndone(place int, err error) bool {
	if !frames.IsClosing(err) && err != io.ErrUnexpectedEOF {
		return false
	}
	if place > 0 {
		return true
	}
	return len(c.sent) == 1 && (c.unwritten() > 0 || errors.Is(err, syscall.ECONNRESET))
}

// reason returns why calls have no reply, after reading a reply failed with err: the reason for
// which the front ended the connection, or errUnanswered if csid closed it, or otherwise err.
func (c *connection) reason(err error) error {
	switch {
	case c.why != nil:
		return c.why
	case frames.IsClosing(err):
		return errUnanswered
	default:
		return fmt.Errorf("reading the reply: %w", err)
	}
}
