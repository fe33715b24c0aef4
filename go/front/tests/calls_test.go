package tests

import (
	"context"
	"net"
	"strings"
	"testing"
	"time"

	"google.golang.org/grpc"
	"google.golang.org/grpc/codes"
	"google.golang.org/grpc/encoding/gzip"

	"./processes"
)

// behindSlow starts a front for a fake csid that answers its first call when the channel is closed.
func behindSlow(t *testing.T) (*fake, *processes.Process, chan struct{}) {
	t.Helper()
	let := make(chan struct{})
	csid := startFake(t, step{wait: let, write: okFrame("01")})
	return csid, processes.StartFront(t, csid.socket), let
}

// A deadline ends a call that csid does not answer. The next call goes over the same connection,
// and does not get the late reply.
func TestDeadline(t *testing.T) {
	t.Parallel()
	csid, process, let := behindSlow(t)
	front := newClient(t, process.Socket)
	begin := time.Now()
	if got := front.send(soon(t, 200*time.Millisecond), "/a/b", nil); got.code != codes.DeadlineExceeded {
		t.Errorf("%v, wanted DEADLINE_EXCEEDED", got)
	}
	if spent := time.Since(begin); spent > 10*time.Second {
		t.Errorf("it took %v", spent)
	}
	processes.Eventually(t, "the call in the log", func() bool { return gaveUp(process, "/a/b") })
	csid.dropsLate(t, front, let)
}

// dropsLate lets csid send the reply to a call that was given up, while the next call waits. It
// checks that the next call gets its own reply.
func (f *fake) dropsLate(t *testing.T, front *client, let chan struct{}) {
	t.Helper()
	calls, _ := f.seen()
	time.AfterFunc(100*time.Millisecond, func() { close(let) })
	front.wantReply(t, probe, "", ok(ready))
	f.wantCalls(t, append(calls, probe+" ")...)
	if _, ends := f.seen(); ends != 0 {
		t.Errorf("%d connections ended", ends)
	}
}

// gaveUp reports whether the front logged that a call ended by its deadline or its caller. A client
// whose deadline is over cancels its call, which the front may see before its own clock reaches the
// deadline.
func gaveUp(front *processes.Process, path string) bool {
	log := front.Log.String()
	return strings.Contains(log, "front: "+path+" 4 ") || strings.Contains(log, "front: "+path+" 1 ")
}

// A cancelled call ends like a call whose deadline has passed.
func TestCancelledCall(t *testing.T) {
	t.Parallel()
	let := make(chan struct{})
	csid, front := behindFront(t, step{wait: let, write: okFrame("01")})
	ctx, cancel := context.WithCancel(context.Background())
	go func() {
		csid.called(t, 1)
		cancel()
	}()
	if got := front.send(ctx, "/a/b", nil); got.code != codes.Canceled {
		t.Errorf("%v, wanted CANCELLED", got)
	}
	csid.dropsLate(t, front, let)
}

// A call whose client closes its connection ends like a cancelled call.
func TestClientThatGoesAway(t *testing.T) {
	t.Parallel()
	csid, process, let := behindSlow(t)
	leaving := newClient(t, process.Socket)
	go func() {
		csid.called(t, 1)
		leaving.Close()
	}()
	leaving.send(context.Background(), "/a/b", nil)
	csid.dropsLate(t, newClient(t, process.Socket), let)
}

// A late reply that is malformed, incomplete, followed by further bytes, or of status 13 ends the
// connection. The next call goes over a new connection.
func TestLateReplyThatIsWrong(t *testing.T) {
	t.Parallel()
	rows := map[string]step{
		"malformed":           {write: fromHex(t, "01")},
		"no reply":            {close: true},
		"a part of a reply":   {write: fromHex(t, "00 0000"), close: true},
		"more than one reply": {write: append(okFrame("01"), okFrame("02")...)},
		"status 13":           {write: refusalFrame(13, "store refused")},
	}
	for name, does := range rows {
		name, does := name, does
		t.Run(name, func(t *testing.T) {
			t.Parallel()
			let := make(chan struct{})
			does.wait = let
			csid, front := behindFront(t, step{write: okFrame("")}, does)
			front.wantReply(t, "/a/b", "", ok(""))
			if got := front.send(soon(t, 100*time.Millisecond), "/a/c", nil); got.code != codes.DeadlineExceeded {
				t.Errorf("%v, wanted DEADLINE_EXCEEDED", got)
			}
			close(let)
			front.wantReply(t, probe, "", ok(ready))
			csid.waitEnds(t, 1)
			csid.wantCalls(t, "/a/b ", "/a/c ", probe+" ")
		})
	}
}

// If a late reply does not come within the time of --late, the next call has a new connection.
func TestLateReplyThatNeverComes(t *testing.T) {
	t.Parallel()
	csid := startFake(t, step{write: okFrame("")}, step{mute: true})
	front := newClient(t, processes.StartFront(t, csid.socket, "--late", "500ms", "--grace", "1h").Socket)
	front.wantReply(t, "/a/b", "", ok(""))
	for call := 0; call < 3; call++ {
		if got := front.send(soon(t, 100*time.Millisecond), "/a/c", nil); got.code != codes.DeadlineExceeded {
			t.Errorf("%v, wanted DEADLINE_EXCEEDED", got)
		}
	}
	front.wantReply(t, probe, "", ok(ready))
	csid.waitEnds(t, 1)
	csid.wantCalls(t, "/a/b ", "/a/c ", probe+" ")
}

// If all callers give up, csid gets only one of their calls, and keeps its connection. The next
// call is served when csid goes on.
func TestCallersThatAllGiveUp(t *testing.T) {
	t.Parallel()
	let := make(chan struct{})
	csid, front := behindFront(t, step{wait: let, write: okFrame("01")})
	processes.Together(50, func(int) {
		for round := 0; round < 3; round++ {
			if got := front.send(soon(t, 200*time.Millisecond), "/a/b", nil); got.code != codes.DeadlineExceeded {
				t.Errorf("%v, wanted DEADLINE_EXCEEDED", got)
			}
		}
	})
	csid.wantCalls(t, "/a/b ")
	csid.dropsLate(t, front, let)
}

// A client that speaks no HTTP/2, or sends nothing, does not disturb other clients.
func TestClientThatSpeaksNothing(t *testing.T) {
	t.Parallel()
	csid := startFake(t)
	process := processes.StartFront(t, csid.socket)
	for _, said := range []string{"", "PRI * HT", "GET / HTTP/1.1\r\n\r\n", "PRI * HTTP/2.0\r\n\r\nSM\r\n\r\n",
		strings.Repeat("\xff", 100)} {
		conn, err := net.Dial("unix", process.Socket)
		if err != nil {
			t.Fatal(err)
		}
		defer conn.Close()
		conn.Write([]byte(said))
	}
	newClient(t, process.Socket).wantReply(t, probe, "", ok(ready))
}

// If a call is given up when half of its frame is written, the rest of the frame is written before
// the next call.
func TestHalfFrame(t *testing.T) {
	t.Parallel()
	listening := make(chan struct{})
	csid := (&fake{deaf: listening}).start(t)
	process := processes.StartFront(t, csid.socket)
	front := newClient(t, process.Socket)
	if got := front.send(soon(t, 300*time.Millisecond), "/a/b",
		make([]byte, 1048576)); got.code != codes.DeadlineExceeded {
		t.Errorf("%v, wanted DEADLINE_EXCEEDED", got)
	}
	processes.Eventually(t, "the call in the log", func() bool { return gaveUp(process, "/a/b") })
	close(listening)
	front.wantReply(t, probe, "", ok(ready))
	csid.wantCalls(t, "/a/b "+strings.Repeat("00", 1048576), probe+" ")
	if _, ends := csid.seen(); ends != 0 {
		t.Errorf("%d connections ended", ends)
	}
}

// A call that waits for other calls ends at its deadline, or when its caller gives up. csid never
// sees it.
func TestWaitingForTheTurn(t *testing.T) {
	t.Parallel()
	first := runCall(t, "/a/first")
	csid, process, front := first.csid, first.process, first.front
	if got := front.send(soon(t, 100*time.Millisecond), "/a/deadline", nil); got.code != codes.DeadlineExceeded {
		t.Errorf("%v, wanted DEADLINE_EXCEEDED", got)
	}
	ctx, cancel := context.WithCancel(context.Background())
	time.AfterFunc(100*time.Millisecond, cancel)
	if got := front.send(ctx, "/a/cancel", nil); got.code != codes.Canceled {
		t.Errorf("%v, wanted CANCELLED", got)
	}
	processes.Eventually(t, "both in the log",
		func() bool { return gaveUp(process, "/a/deadline") && gaveUp(process, "/a/cancel") })
	first.ends(t)
	front.wantReply(t, probe, "", ok(ready))
	csid.wantCalls(t, "/a/first ", probe+" ")
	if _, ends := csid.seen(); ends != 0 {
		t.Errorf("%d connections ended", ends)
	}
}

// The front refuses a path or a message that no frame can have. csid never sees the call, and its
// connection stays.
func TestWhatNoFrameCanHave(t *testing.T) {
	t.Parallel()
	csid, front := behindFront(t)
	longest := "/a/" + strings.Repeat("b", 125)
	unknown := refused(codes.Unimplemented, "unknown method")
	for _, path := range []string{longest + "b", "/a/ b", "/a /b", "/a/b ", "/a/\tb", "/a/\x80", "/\xff/b", "/" +
		strings.Repeat("a/", 5000)} {
		front.wantReply(t, path, "", unknown)
	}
	// HTTP/2 or gRPC refuses these paths before the front checks them.
	for _, path := range []string{"/a/\x7f", "/a/\x00", "/a/\n", "/a"} {
		if got := front.call(t, path, ""); got.code == codes.OK {
			t.Errorf("%q: %v", path, got)
		}
	}
	for _, size := range []int{1048577, 1048578, 4194304, 5000000} {
		if got := front.send(soon(t, processes.Patience), "/a/b",
			make([]byte, size)); got.code != codes.ResourceExhausted {
			t.Errorf("a message of %d bytes: %v", size, got)
		}
	}
	csid.wantCalls(t)
	front.wantReply(t, longest, strings.Repeat("00", 1048576), ok(ready))
	csid.wantCalls(t, longest+" "+strings.Repeat("00", 1048576))
}

// gRPC refuses a compressed message, so no message can grow when it is read.
func TestCompressedMessage(t *testing.T) {
	t.Parallel()
	csid, front := behindFront(t)
	var body []byte
	if err := front.Invoke(soon(t, processes.Patience), "/a/b", make([]byte, 1000), &body,
		grpc.UseCompressor(gzip.Name)); grpc.Code(err) != codes.Unimplemented {
		t.Errorf("%v, wanted UNIMPLEMENTED", err)
	}
	csid.wantCalls(t)
}

// A call without a message or with two messages is refused, and csid does not see it.
func TestOneMessageACall(t *testing.T) {
	t.Parallel()
	csid, front := behindFront(t)
	for count := 0; count <= 2; count++ {
		stream, err := front.NewStream(soon(t, processes.Patience), &grpc.StreamDesc{ClientStreams: true}, "/a/b")
		if err != nil {
			t.Fatal(err)
		}
		for sent := 0; sent < count; sent++ {
			stream.SendMsg([]byte{1})
		}
		stream.CloseSend()
		var body []byte
		err = stream.RecvMsg(&body)
		if want := map[int]codes.Code{0: codes.Unimplemented, 1: codes.OK,
			2: codes.Unimplemented}[count]; grpc.Code(err) != want {
			t.Errorf("%d messages: %v, wanted %v", count, err, want)
		}
	}
	csid.wantCalls(t, "/a/b 01")
}

// Each call that is refused or lost has one line, with its path, code, text and milliseconds, and
// never its message. Calls with OK have no line.
func TestLog(t *testing.T) {
	t.Parallel()
	csid := startFake(t, step{write: okFrame("")}, step{write: refusalFrame(9, "volume is in use")}, step{close: true})
	process := processes.StartFront(t, csid.socket)
	front := newClient(t, process.Socket)
	secret := "2a070a0168120270772a" // any bytes: the front does not read messages
	front.call(t, "/a/done", secret)
	front.call(t, "/a/refused", secret)
	front.call(t, "/a/lost", secret)
	front.call(t, "/a/no path", secret)
	processes.Eventually(t, "three lines", func() bool { return strings.Count(process.Log.String(), "\n") >= 3 })
	lines := strings.SplitAfter(process.Log.String(), "\n")
	want := []string{`front: /a/refused 9 "volume is in use" `,
		`front: /a/lost 14 "csid: the connection was closed unanswered: see the log of csid" `,
		`front: "/a/no path" 12 "unknown method" `, ""}
	if len(lines) != len(want) {
		t.Fatalf("logged: %q", lines)
	}
	for i, line := range lines {
		if !strings.HasPrefix(line, want[i]) || (line != "" && !strings.HasSuffix(line, " ms\n")) {
			t.Errorf("logged %q, wanted %q", line, want[i])
		}
	}
}
