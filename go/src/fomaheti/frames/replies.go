// Package frames encodes and decodes the envelope of docs/PROTOCOL.md: calls and replies as frames.
package frames

import (
	"bufio"
	"encoding/binary"
	"errors"
	"fmt"
	"io"
	"syscall"

	"google.golang.org/grpc/codes"
)

// The limits of a frame in bytes (docs/PROTOCOL.md, "Envelope").
const (
	MaxPathBytes    = 128
	MaxMessageBytes = 1 << 20
	MaxTextBytes    = 1024
	MaxBodyBytes    = 4 << 20
)

// Reply is the answer to one call. With the code OK it has no text, and with any other code no
// body.
type Reply struct {
	Code codes.Code
	Text string
	Body []byte
}

// Malformed is the error for a reply that breaks a rule of the envelope. Its value names the part
// of the reply, such as "text length".
type Malformed string

// Error returns "malformed reply: bad " and the part that breaks the rule.
func (part Malformed) Error() string { return "malformed reply: bad " + string(part) }

// IsPath reports whether a frame can have the path: it has 1 to MaxPathBytes bytes, each from 0x21
// to 0x7E.
func IsPath(path string) bool {
	for i := 0; i < len(path); i++ {
		if path[i] < 0x21 || path[i] > 0x7e {
			return false
		}
	}
	return 0 < len(path) && len(path) <= MaxPathBytes
}

// RequestHeadBytes returns the number of bytes that AppendRequestHead appends.
func RequestHeadBytes(path string) int { return 2 + len(path) + 1 + 4 }

// AppendRequestHead appends the frame of a call up to its message. The caller appends the message,
// which must have messageBytes bytes.
func AppendRequestHead(frame []byte, path string, messageBytes int) []byte {
	frame = append(frame, byte(len(path)>>8), byte(len(path)))
	frame = append(frame, path...)
	frame = append(frame, 0)
	return append(frame, byte(messageBytes>>24), byte(messageBytes>>16), byte(messageBytes>>8), byte(messageBytes))
}

// isStatus reports whether the code is one of the ten that docs/PROTOCOL.md allows as the status of
// a reply.
func isStatus(code codes.Code) bool {
	switch code {
	case codes.OK, codes.InvalidArgument, codes.NotFound, codes.AlreadyExists, codes.ResourceExhausted,
		codes.FailedPrecondition, codes.Aborted, codes.OutOfRange, codes.Unimplemented, codes.Internal:
		return true
	}
	return false
}

// Replies reads replies from a stream. It keeps the part of a reply that has come, so Next can
// continue after a deadline.
type Replies struct {
	in *bufio.Reader
	// The reply whose body is being read, and the number of bytes of the body that were read. body
	// is nil between two replies.
	code codes.Code
	text string
	body []byte
	read int
}

// NewReplies returns a reader of the replies in a stream. It may read ahead; Buffered counts the
// bytes that it has read ahead.
func NewReplies(in io.Reader) *Replies {
	// This buffer can be small: bufio reads the rest of a longer body from the stream directly into
	// the body.
	return &Replies{in: bufio.NewReaderSize(in, 4<<10)}
}

// Buffered returns the number of bytes that were received after the last reply that Next returned.
// Call it only between two replies.
func (r *Replies) Buffered() int { return r.in.Buffered() }

// Await waits for the first byte of the next reply, and leaves it unread. Call it only between two
// replies.
func (r *Replies) Await() error {
	_, err := r.in.Peek(1)
	return err
}

// Next reads the next reply. It reports a malformed reply as soon as the fault arrives. After a
// read that failed by its deadline, another call of Next continues.
func (r *Replies) Next() (Reply, error) {
	if r.body == nil {
		if err := r.readHead(); err != nil {
			return Reply{}, r.inside(err)
		}
	}
	for r.read < len(r.body) {
		count, err := r.in.Read(r.body[r.read:])
		r.read += count
		if err != nil && r.read < len(r.body) {
			return Reply{}, inside(err)
		}
	}
	reply := Reply{r.code, r.text, r.body}
	r.body = nil
	return reply, nil
}

// readHead reads a reply up to its body. It takes no byte out of the buffer before all have
// arrived, so that it can be called again after a deadline.
func (r *Replies) readHead() error {
	code, err := r.peekStatus()
	if err != nil {
		return err
	}
	textBytes, err := r.peekTextLength(code)
	if err != nil {
		return err
	}
	text, err := r.peekText(textBytes)
	if err != nil {
		return err
	}
	bodyBytes, err := r.peekBodyLength(code, textBytes)
	if err != nil {
		return err
	}
	r.code, r.text, r.body, r.read = code, text, make([]byte, bodyBytes), 0
	_, err = r.in.Discard(1 + 2 + textBytes + 1 + 4)
	return err
}

func (r *Replies) peekStatus() (codes.Code, error) {
	head, err := r.in.Peek(1)
	if err != nil {
		return 0, err
	}
	code := codes.Code(head[0])
	if !isStatus(code) {
		return 0, Malformed(fmt.Sprintf("status %d", head[0]))
	}
	return code, nil
}

func (r *Replies) peekTextLength(code codes.Code) (int, error) {
	head, err := r.in.Peek(3)
	if err != nil {
		return 0, err
	}
	size := int(binary.BigEndian.Uint16(head[1:]))
	if size > MaxTextBytes || (code == codes.OK && size != 0) {
		return 0, Malformed("text length")
	}
	return size, nil
}

// peekText returns a copy of the text. The next Peek may move the bytes of the buffer.
func (r *Replies) peekText(size int) (string, error) {
	head, err := r.in.Peek(3 + size)
	if err != nil {
		return "", err
	}
	for _, character := range head[3:] {
		if !isShown(character) {
			return "", Malformed("text")
		}
	}
	return string(head[3:]), nil
}

func (r *Replies) peekBodyLength(code codes.Code, textBytes int) (int, error) {
	head, err := r.in.Peek(3 + textBytes + 1)
	if err != nil {
		return 0, err
	}
	if head[3+textBytes] != 0 {
		return 0, Malformed("flag")
	}
	if head, err = r.in.Peek(3 + textBytes + 1 + 4); err != nil {
		return 0, err
	}
	size := binary.BigEndian.Uint32(head[3+textBytes+1:])
	if size > MaxBodyBytes || (code != codes.OK && size != 0) {
		return 0, Malformed("body length")
	}
	return int(size), nil
}

// inside returns the error of Next for an error in the head of a reply. If no byte of the reply has
// come, this is the same error, such as io.EOF. If the peer closed the connection after the first
// byte, it is io.ErrUnexpectedEOF. Other errors are unchanged.
func (r *Replies) inside(err error) error {
	if r.in.Buffered() == 0 {
		return err
	}
	return inside(err)
}

func inside(err error) error {
	if IsClosing(err) {
		return io.ErrUnexpectedEOF
	}
	return err
}

// IsClosing reports whether the error of a read or a write means that the peer closed the
// connection. A read fails with io.EOF, or with a reset if the peer left bytes unread. A write
// fails with a broken pipe or a reset.
func IsClosing(err error) bool {
	return err == io.EOF || errors.Is(err, syscall.ECONNRESET) || errors.Is(err, syscall.EPIPE)
}
