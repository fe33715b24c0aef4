package frames

import (
	"bytes"
	"io"
	"strings"
	"testing"

	"google.golang.org/grpc/codes"
)

// Calls are read from one piece, and byte by byte. If the stream ends after a complete call, Next
// returns io.EOF.
func TestGoodRequests(t *testing.T) {
	stream := fromHex(t, "0016 2f6373692e76312e4964656e746974792f50726f6265 00 00000000 0001 21 00 00000002 0a00")
	for _, in := range []io.Reader{bytes.NewReader(stream), slowReader{bytes.NewReader(stream)}} {
		requests := NewRequests(in)
		for _, want := range []Request{{"/csi.v1.Identity/Probe", nil}, {"!", []byte{0x0a, 0}}} {
			got, err := requests.Next()
			if err != nil || got.Path != want.Path || !bytes.Equal(got.Message, want.Message) {
				t.Errorf("%v, %v, wanted %v", got, err, want)
			}
		}
		if _, err := requests.Next(); err != io.EOF {
			t.Errorf("the end: %v", err)
		}
	}
}

// A call with the longest path and the longest message is read. The place of a fault after it
// counts all bytes of the call.
func TestGreatestRequest(t *testing.T) {
	want := Request{strings.Repeat("~", 128), make([]byte, 1048576)}
	frame := append(AppendRequestHead(nil, want.Path, len(want.Message)), want.Message...)
	requests := NewRequests(bytes.NewReader(append(frame, 0, 0)))
	got, err := requests.Next()
	if err != nil || got.Path != want.Path || !bytes.Equal(got.Message, want.Message) {
		t.Errorf("%.10s, %d bytes, %v", got.Path, len(got.Message), err)
	}
	if _, err := requests.Next(); err != (Fault{"bad path length", 2 + 128 + 1 + 4 + 1048576}) {
		t.Errorf("the fault after it: %v", err)
	}
}

// slowReader returns one byte per read.
type slowReader struct{ io.Reader }

func (r slowReader) Read(into []byte) (int, error) { return r.Reader.Read(into[:1]) }

// Each fault has the place that docs/PROTOCOL.md names, also after a complete call, and is reported
// although no byte follows it.
func TestFaults(t *testing.T) {
	const call = "0001 21 00 00000000"
	rows := []struct{ bytes, want string }{
		{"0000", "bad path length at byte 0"}, {"0081", "bad path length at byte 0"},
		{call + "ffff", "bad path length at byte 8"},
		{"0002 2120", "bad path at byte 3"}, {"0002 7f", "bad path at byte 2"},
		{call + "0001 80", "bad path at byte 10"},
		{"0001 21 01", "bad flag at byte 3"}, {call + "0001 21 80", "bad flag at byte 11"},
		{"0001 21 00 00100001", "message too long at byte 4"}, {"0001 21 00 ffffffff", "message too long at byte 4"},
	}
	for _, row := range rows {
		silent, other := io.Pipe()
		go other.Write(fromHex(t, row.bytes))
		requests := NewRequests(silent)
		_, err := requests.Next()
		if strings.HasPrefix(row.bytes, call) {
			_, err = requests.Next()
		}
		if err == nil || err.Error() != row.want {
			t.Errorf("%s: %v, wanted %s", row.bytes, err, row.want)
		}
	}
}

// An end inside a call is a fault at the length of the input.
func TestEndOfInput(t *testing.T) {
	whole := fromHex(t, "0002 2121 00 00000003 010203")
	for length := 1; length < len(whole); length++ {
		_, err := NewRequests(bytes.NewReader(whole[:length])).Next()
		if want := (Fault{"end of input", int64(length)}); err != want {
			t.Errorf("%d bytes: %v", length, err)
		}
	}
}

// Append writes replies as docs/PROTOCOL.md wants them, up to the longest text and the longest
// body.
func TestReplyWritten(t *testing.T) {
	rows := []struct {
		reply Reply
		want  string
	}{
		{Reply{codes.OK, "", []byte{0x0a, 2, 8, 1}}, "00 0000 00 00000004 0a020801"},
		{Reply{codes.FailedPrecondition, " !}~", nil}, "09 0004 20217d7e 00 00000000"},
		{Reply{codes.OK, "", make([]byte, 258)}, "00 0000 00 00000102" + strings.Repeat("00", 258)},
		{Reply{codes.OK, "", make([]byte, 4194304)}, "00 0000 00 00400000" + strings.Repeat("00", 4194304)},
		{Reply{codes.Internal, strings.Repeat("a", 1024), nil}, "0d 0400" + strings.Repeat("61", 1024) + "00 00000000"},
	}
	for _, row := range rows {
		if got := row.reply.Append(nil); !bytes.Equal(got, fromHex(t, row.want)) {
			t.Errorf("%.40x, wanted %.80s", got, row.want)
		}
	}
}

func TestText(t *testing.T) {
	rows := []struct{ said, want string }{
		{"", ""}, {" a~", " a~"}, {"a\nb\x7f", `a\x0ab\x7f`}, {"é", `\xc3\xa9`},
		{strings.Repeat("a", 1024), strings.Repeat("a", 1024)},
		{strings.Repeat("a", 1025), strings.Repeat("a", 1024)},
	}
	for _, row := range rows {
		if got := Text(row.said); got != row.want {
			t.Errorf("%q: %q", row.said, got)
		}
	}
}
