package tests

import (
	"strings"
	"testing"

	"google.golang.org/grpc/codes"

	"./processes"
)

// text is the longest text of a reply.
var text = strings.Repeat(" ~", 512)

// Every status except 13, and replies with the longest text or body, come back unchanged.
func TestEveryReplyComesBack(t *testing.T) {
	t.Parallel()
	rows := []struct {
		reply []byte
		want  answer
	}{
		{okFrame("0a020801"), ok("0a020801")},
		{okFrame(""), ok("")},
		{okFrame(strings.Repeat("ff", 4194304)), ok(strings.Repeat("ff", 4194304))},
		{refusalFrame(3, "name is missing"), refused(codes.InvalidArgument, "name is missing")},
		{refusalFrame(5, "volume not found"), refused(codes.NotFound, "volume not found")},
		{refusalFrame(6, "100% \"a\" \\ b"), refused(codes.AlreadyExists, "100% \"a\" \\ b")},
		{refusalFrame(8, "no room in the topology"), refused(codes.ResourceExhausted, "no room in the topology")},
		{refusalFrame(9, "volume is in use"), refused(codes.FailedPrecondition, "volume is in use")},
		{refusalFrame(10, "bad starting token"), refused(codes.Aborted, "bad starting token")},
		{refusalFrame(11, "capacity is out of range"), refused(codes.OutOfRange, "capacity is out of range")},
		{refusalFrame(12, ""), refused(codes.Unimplemented, "")},
		{refusalFrame(11, text), refused(codes.OutOfRange, text)},
	}
	var steps []step
	for _, row := range rows {
		steps = append(steps, step{write: row.reply})
	}
	csid, front := behindFront(t, steps...)
	for _, row := range rows {
		if got := front.call(t, "/a/b", "0102"); got != row.want {
			t.Errorf("%.80v, wanted %.80v", got, row.want)
		}
	}
	if calls, ends := csid.seen(); len(calls) != len(rows) || ends != 0 || calls[0] != "/a/b 0102" {
		t.Errorf("csid saw %d calls %q and %d ends", len(calls), calls[0], ends)
	}
}

// After status 13 the next call has a new connection, since csid makes no more changes over the old
// one. Three texts of status 13 become UNAVAILABLE, so that the caller repeats the call. Other
// texts stay INTERNAL.
func TestRefusedChange(t *testing.T) {
	t.Parallel()
	rows := []struct {
		text string
		code codes.Code
	}{
		{"out of memory", codes.Unavailable},
		{"store refused", codes.Unavailable},
		{"store is down", codes.Unavailable},
		{"store is down ", codes.Internal},
		{text, codes.Internal},
		{"", codes.Internal},
	}
	var steps []step
	for _, row := range rows {
		steps = append(steps, step{write: refusalFrame(13, row.text)})
	}
	csid, front := behindFront(t, steps...)
	for i, row := range rows {
		front.wantReply(t, "/a/b", "", refused(row.code, row.text))
		csid.waitEnds(t, i+1)
	}
	front.wantReply(t, probe, "", ok(ready))
	if _, ends := csid.seen(); ends != len(rows) {
		t.Errorf("%d connections ended", ends)
	}
}

// losesOneCall makes a call that is lost because of a step of csid. It checks that csid gets the
// call once, and the next call over another connection.
func losesOneCall(t *testing.T, does step) {
	t.Helper()
	csid, front := behindFront(t, does)
	front.isLost(t, "/a/b", "01")
	csid.waitEnds(t, 1)
	csid.wantCalls(t, "/a/b 01")
	front.wantReply(t, probe, "", ok(ready))
	csid.wantCalls(t, "/a/b 01", probe+" ")
}

// eachLosesOneCall calls losesOneCall with each of these replies. If closes is true, csid closes
// the connection after the reply.
func eachLosesOneCall(t *testing.T, replies map[string][]byte, closes bool) {
	t.Helper()
	for name, reply := range replies {
		name, does := name, step{write: reply, close: closes}
		t.Run(name, func(t *testing.T) {
			t.Parallel()
			losesOneCall(t, does)
		})
	}
}

// After a malformed or incomplete reply the outcome is open. The connection ends, and the next call
// has a new one.
func TestMalformedReplies(t *testing.T) {
	t.Parallel()
	rows := map[string][]byte{
		"no status of the table":           fromHex(t, "01"),
		"UNAVAILABLE, which csid never is": fromHex(t, "0e 0000 00 00000000"),
		"a text beside an OK":              fromHex(t, "00 0001 41 00 00000000"),
		"a text of 1025 bytes":             refusalFrame(3, strings.Repeat("a", 1025)),
		"a text with a control character":  fromHex(t, "03 0001 1f"),
		"a flag":                           fromHex(t, "00 0000 01 00000000"),
		"a body beside a refusal":          fromHex(t, "03 0000 00 00000001 41"),
		"a body of more than 4 MiB":        fromHex(t, "00 0000 00 00400001"),
	}
	eachLosesOneCall(t, rows, false)
}

// If a connection ends during a call, the outcome is open, and the front does not send the call
// again.
func TestConnectionThatBreaks(t *testing.T) {
	t.Parallel()
	rows := map[string][]byte{
		"before the reply": nil,
		"in the text":      fromHex(t, "05 0004 41"),
		"before the flag":  fromHex(t, "00 0000"),
		"in the body":      fromHex(t, "00 0000 00 00000004 0a02"),
		"before the body":  fromHex(t, "00 0000 00 00000004"),
		"after the status": fromHex(t, "00"),
	}
	eachLosesOneCall(t, rows, true)
}

// If csid closes the connection without a reply, the error says so, even if csid read nothing of
// the call.
func TestUnansweredCall(t *testing.T) {
	t.Parallel()
	unanswered := refused(codes.Unavailable, "csid: the connection was closed unanswered: see the log of csid")
	csid, front := behindFront(t, step{close: true})
	front.wantReply(t, "/a/b", "", unanswered)
	csid.waitEnds(t, 1)
	front.wantReply(t, probe, "", ok(ready))
	closing := (&fake{closes: true}).start(t)
	front = newClient(t, processes.StartFront(t, closing.socket).Socket)
	for _, size := range []int{0, 1048576} {
		if got := front.send(soon(t, processes.Patience), "/a/b", make([]byte, size)); got != unanswered {
			t.Errorf("%v, wanted %v", got, unanswered)
		}
	}
}

// A second reply after a good one is not the reply to the next call.
func TestReplyThatNobodyAskedFor(t *testing.T) {
	t.Parallel()
	csid, front := behindFront(t, step{write: append(okFrame("01"), okFrame("02")...)})
	front.wantReply(t, "/a/b", "", ok("01"))
	front.wantReply(t, probe, "", ok(ready))
	csid.waitEnds(t, 1)
}

// If csid closes a connection between two calls, no call is lost.
func TestConnectionThatEndsBetweenCalls(t *testing.T) {
	t.Parallel()
	csid, front := behindFront(t, step{write: okFrame("01"), close: true}, step{write: okFrame("02"), close: true})
	front.wantReply(t, "/a/b", "", ok("01"))
	csid.waitEnds(t, 1)
	front.wantReply(t, "/a/c", "", ok("02"))
	csid.waitEnds(t, 2)
	front.wantReply(t, probe, "", ok(ready))
	csid.wantCalls(t, "/a/b ", "/a/c ", probe+" ")
}
