package frames

import (
	"bytes"
	"fmt"
	"io"
	"os"
	"strings"
	"testing"

	"google.golang.org/grpc/codes"

	"fomaheti/fixtures"
)

var fromHex = fixtures.FromHex

// AppendRequestHead writes the head of the example of docs/PROTOCOL.md, and heads for longer
// messages, up to the longest.
func TestRequestHead(t *testing.T) {
	rows := []struct {
		path   string
		length int
		want   string
	}{
		{"/csi.v1.Identity/Probe", 0, "0016 2f6373692e76312e4964656e746974792f50726f6265 00 00000000"},
		{"/a/b", 258, "0004 2f612f62 00 00000102"},
		{"/a/b", 1048576, "0004 2f612f62 00 00100000"},
	}
	for _, row := range rows {
		if got := AppendRequestHead(nil, row.path, row.length); !bytes.Equal(got, fromHex(t, row.want)) {
			t.Errorf("%s, %d bytes: %x", row.path, row.length, got)
		}
		if got, want := RequestHeadBytes(row.path), len(fromHex(t, row.want)); got != want {
			t.Errorf("%s: %d bytes, wanted %d", row.path, got, want)
		}
	}
}

// Await leaves the reply unread, also if it is called twice. At the end of the stream it returns
// io.EOF.
func TestAwait(t *testing.T) {
	replies := NewReplies(bytes.NewReader(fromHex(t, "05 0000 00 00000000")))
	for i := 0; i < 2; i++ {
		if err := replies.Await(); err != nil {
			t.Error(err)
		}
	}
	if got, err := replies.Next(); err != nil || got.Code != codes.NotFound {
		t.Errorf("%v, %v", got, err)
	}
	if err := replies.Await(); err != io.EOF {
		t.Errorf("at the end: %v", err)
	}
}

func TestPath(t *testing.T) {
	rows := []struct {
		path string
		want bool
	}{
		{"", false}, {"!", true}, {"~", true}, {"/a/b", true}, {"/a /b", false}, {"/a/\x7f", false}, {"/a/\t", false},
		{"/a/\x80", false},
		{strings.Repeat("a", 128), true}, {strings.Repeat("a", 129), false},
	}
	for _, row := range rows {
		if IsPath(row.path) != row.want {
			t.Errorf("%q: not %v", row.path, row.want)
		}
	}
}

func TestGoodReply(t *testing.T) {
	rows := []struct {
		bytes string
		want  Reply
	}{
		{"00 0000 00 00000004 0a020801", Reply{codes.OK, "", []byte{0x0a, 2, 8, 1}}},
		{"00 0000 00 00000000", Reply{codes.OK, "", []byte{}}},
		{"05 0004 20217d7e 00 00000000", Reply{codes.NotFound, " !}~", []byte{}}},
		{"0d 0000 00 00000000", Reply{codes.Internal, "", []byte{}}},
	}
	for _, row := range rows {
		got, err := NewReplies(bytes.NewReader(fromHex(t, row.bytes))).Next()
		if err != nil || got.Code != row.want.Code || got.Text != row.want.Text ||
			!bytes.Equal(got.Body, row.want.Body) {
			t.Errorf("%s: %v, %v", row.bytes, got, err)
		}
	}
}

// Each fault is reported although no byte follows it: otherwise a csid that is silent after the
// fault would delay the call.
func TestMalformedReply(t *testing.T) {
	rows := []struct{ bytes, want string }{
		{"01", "status 1"}, {"02", "status 2"}, {"04", "status 4"}, {"07", "status 7"}, {"0e", "status 14"},
		{"10", "status 16"}, {"ff", "status 255"},
		{"00 0001", "text length"}, {"03 0401", "text length"}, {"03 ffff", "text length"},
		{"03 0001 1f", "text"}, {"03 0001 7f", "text"},
		{"00 0000 01", "flag"}, {"03 0001 41 80", "flag"},
		{"03 0000 00 00000001", "body length"}, {"00 0000 00 00400001", "body length"},
		{"00 0000 00 ffffffff", "body length"},
	}
	for _, row := range rows {
		silent, other := io.Pipe()
		go other.Write(fromHex(t, row.bytes))
		if _, err := NewReplies(silent).Next(); err != Malformed(row.want) {
			t.Errorf("%s: %v", row.bytes, err)
		}
	}
}

// If the stream ends inside a reply, the error is io.ErrUnexpectedEOF. Before the first byte of a
// reply it is io.EOF.
func TestReplyCutShort(t *testing.T) {
	for _, whole := range []string{"00 0000 00 00000004 0a020801", "05 0002 4142 00 00000000"} {
		all := fromHex(t, whole)
		for length := range all {
			want := io.ErrUnexpectedEOF
			if length == 0 {
				want = io.EOF
			}
			if _, err := NewReplies(bytes.NewReader(all[:length])).Next(); err != want {
				t.Errorf("%s, %d bytes: %v", whole, length, err)
			}
		}
	}
}

// interrupted is a reader that returns one byte per read, and an expired deadline before each byte
// and before the end.
type interrupted struct {
	bytes []byte
	isDue bool
}

func (r *interrupted) Read(into []byte) (int, error) {
	if r.isDue = !r.isDue; r.isDue {
		return 0, os.ErrDeadlineExceeded
	}
	if len(r.bytes) == 0 {
		return 0, io.EOF
	}
	into[0], r.bytes = r.bytes[0], r.bytes[1:]
	return 1, nil
}

// A reply is read completely although a deadline interrupts Next before each byte. Then the next
// reply is read.
func TestInterruptedReply(t *testing.T) {
	const whole = "00 0000 00 00000004 0a020801 05 0002 4142 00 00000000 00 0000 00 00000000"
	replies := NewReplies(&interrupted{bytes: fromHex(t, whole)})
	next := func() (reply Reply, stops int, err error) {
		for reply, err = replies.Next(); err == os.ErrDeadlineExceeded; reply, err = replies.Next() {
			stops++
		}
		return reply, stops, err
	}
	for _, want := range []struct {
		reply Reply
		bytes int
	}{{Reply{codes.OK, "", []byte{0x0a, 2, 8, 1}}, 12}, {Reply{codes.NotFound, "AB", nil}, 10},
		{Reply{codes.OK, "", nil}, 8}} {
		got, stops, err := next()
		if err != nil || got.Code != want.reply.Code || got.Text != want.reply.Text ||
			!bytes.Equal(got.Body, want.reply.Body) || stops != want.bytes {
			t.Errorf("%v, %v, stopped %d times, wanted %v", got, err, stops, want)
		}
	}
	if _, _, err := next(); err != io.EOF {
		t.Errorf("the end: %v", err)
	}
}

// Each refusal of a stream has its own text, even if the buffer ends within the refusal. The texts
// have many lengths, so the buffer ends at each byte of some refusal.
func TestTextsAcrossTheBuffer(t *testing.T) {
	const count = 5000
	var stream []byte
	text := func(i int) string { return fmt.Sprintf("%0*d", 20+i%31, i) }
	for i := 0; i < count; i++ {
		stream = Reply{codes.NotFound, text(i), nil}.Append(stream)
	}
	replies := NewReplies(bytes.NewReader(stream))
	for i := 0; i < count; i++ {
		if got, err := replies.Next(); err != nil || got.Text != text(i) {
			t.Fatalf("%v, %v, wanted %s", got, err, text(i))
		}
	}
}

// A reply with the longest text and a reply with the longest body are read, even if both arrive
// together.
func TestGreatestReply(t *testing.T) {
	body := bytes.Repeat([]byte{7}, MaxBodyBytes)
	refusal := Reply{codes.Internal, strings.Repeat("a", MaxTextBytes), nil}
	replies := NewReplies(bytes.NewReader(Reply{codes.OK, "", body}.Append(refusal.Append(nil))))
	if got, err := replies.Next(); err != nil || got.Text != refusal.Text || replies.Buffered() == 0 {
		t.Errorf("%v, %v, and then %d bytes", got, err, replies.Buffered())
	}
	if got, err := replies.Next(); err != nil || !bytes.Equal(got.Body, body) || replies.Buffered() != 0 {
		t.Errorf("a body of %d bytes, %v, and then %d", len(got.Body), err, replies.Buffered())
	}
}
