package frames

import (
	"bufio"
	"encoding/binary"
	"fmt"
	"io"
)

// Request is one call: the path of its method, and its message as bytes.
type Request struct {
	Path    string
	Message []byte
}

// Fault is the first fault in a stream of calls. Place is its offset from the start of the stream,
// in bytes. Nothing after a fault can be read as a call.
type Fault struct {
	Reason string
	Place  int64
}

// Error returns the text of the reply to a fault, such as "bad flag at byte 12".
func (f Fault) Error() string { return fmt.Sprintf("%s at byte %d", f.Reason, f.Place) }

// Requests reads calls from a stream, and counts the bytes of the stream for the place of a Fault.
type Requests struct {
	in *bufio.Reader
	// The number of bytes of the stream that take and path have read.
	read int64
}

// NewRequests returns a reader of the calls in a stream. It may read more bytes of the stream than
// the calls that Next has returned.
func NewRequests(in io.Reader) *Requests { return &Requests{in: bufio.NewReader(in)} }

// Next reads the next call. It returns io.EOF if the stream ends before the first byte of a call,
// and a Fault if the stream ends inside a call. It returns any Fault as soon as the fault arrives,
// without another read. Other errors of the stream are returned unchanged.
func (r *Requests) Next() (Request, error) {
	begin := r.read
	length, err := r.take(2)
	if err == io.EOF && r.read == begin {
		return Request{}, io.EOF
	}
	if err != nil {
		return Request{}, r.within(err)
	}
	size := binary.BigEndian.Uint16(length)
	if size == 0 || size > MaxPathBytes {
		return Request{}, Fault{"bad path length", begin}
	}
	path, err := r.path(int(size))
	if err != nil {
		return Request{}, r.within(err)
	}
	message, err := r.message()
	if err != nil {
		return Request{}, r.within(err)
	}
	return Request{path, message}, nil
}

func (r *Requests) path(size int) (string, error) {
	path := make([]byte, size)
	for i := range path {
		character, err := r.in.ReadByte()
		if err != nil {
			return "", err
		}
		r.read++
		if !isShown(character) || character == ' ' {
			return "", Fault{"bad path", r.read - 1}
		}
		path[i] = character
	}
	return string(path), nil
}

func (r *Requests) message() ([]byte, error) {
	flag, err := r.take(1)
	if err != nil {
		return nil, err
	}
	if flag[0] != 0 {
		return nil, Fault{"bad flag", r.read - 1}
	}
	length, err := r.take(4)
	if err != nil {
		return nil, err
	}
	size := binary.BigEndian.Uint32(length)
	if size > MaxMessageBytes {
		return nil, Fault{"message too long", r.read - 4}
	}
	return r.take(int(size))
}

// take reads size bytes. Also if the stream ends before, it adds the bytes that came to `read`.
func (r *Requests) take(size int) ([]byte, error) {
	taken := make([]byte, size)
	length, err := io.ReadFull(r.in, taken)
	r.read += int64(length)
	return taken, err
}

// within returns the error of Next for an error of a read inside a call. An end of the stream is a
// Fault there. Other errors are unchanged.
func (r *Requests) within(err error) error {
	if err == io.EOF || err == io.ErrUnexpectedEOF {
		return Fault{"end of input", r.read}
	}
	return err
}

// isShown reports whether the text of a reply may have the character: printable ASCII or a space.
func isShown(character byte) bool { return 0x20 <= character && character <= 0x7e }

// Append appends a reply as a frame. It checks nothing: use Text to make a text that is allowed in
// a frame.
func (answer Reply) Append(frame []byte) []byte {
	frame = append(frame, byte(answer.Code), byte(len(answer.Text)>>8), byte(len(answer.Text)))
	frame = append(frame, answer.Text...)
	frame = append(frame, 0)
	size := len(answer.Body)
	frame = append(frame, byte(size>>24), byte(size>>16), byte(size>>8), byte(size))
	return append(frame, answer.Body...)
}

// Text makes a text that a reply may have. It replaces each byte outside 0x20 to 0x7E by \x and two
// hexadecimal digits, and cuts the result after MaxTextBytes bytes.
func Text(said string) string {
	var shown []byte
	for i := 0; i < len(said); i++ {
		if isShown(said[i]) {
			shown = append(shown, said[i])
		} else {
			shown = append(shown, fmt.Sprintf("\\x%02x", said[i])...)
		}
	}
	if len(shown) > MaxTextBytes {
		shown = shown[:MaxTextBytes]
	}
	return string(shown)
}
