package tests

import (
	"bytes"
	"context"
	"fmt"
	"net"
	"strings"
	"sync/atomic"
	"testing"
	"time"

	"golang.org/x/net/http2"
	"golang.org/x/net/http2/hpack"
	"google.golang.org/grpc"
	"google.golang.org/grpc/codes"
	"google.golang.org/grpc/metadata"
	"google.golang.org/grpc/status"

	"./processes"
)

// A call is refused at once if its message and the waiting messages exceed the limit. A call with
// an empty message is never refused. When an earlier call ends, there is room again.
func TestMessagesThatWait(t *testing.T) {
	t.Parallel()
	first, second := make(chan struct{}), make(chan struct{})
	csid := startFake(t, step{wait: first, write: okFrame("01")}, step{wait: second, write: okFrame("02")})
	front := newClient(t, processes.StartFront(t, csid.socket, "--waiting", "1").Socket)
	replies := make(chan answer)
	go func() { replies <- front.send(soon(t, processes.Patience), "/a/b", make([]byte, 1048576)) }()
	csid.called(t, 1)
	full := refused(codes.Unavailable, "the messages of all calls that wait would have more than 1048576 bytes")
	for _, size := range []int{1, 1048576} {
		if got := front.send(soon(t, processes.Patience), "/a/full", make([]byte, size)); got != full {
			t.Errorf("%v, wanted %v", got, full)
		}
	}
	go func() { replies <- front.send(soon(t, processes.Patience), "/a/empty", nil) }()
	close(first)
	if got := <-replies; got != ok("01") {
		t.Errorf("%v", got)
	}
	csid.called(t, 2)
	go func() { replies <- front.send(soon(t, processes.Patience), "/a/room", make([]byte, 1048576)) }()
	close(second)
	for i, one := 0, map[answer]bool{ok("02"): true, ok(ready): true}; i < 2; i++ {
		if got := <-replies; !one[got] {
			t.Errorf("%v", got)
		}
	}
}

// The room of a message is free again after its call was refused, lost or given up.
func TestRoomBehindCallsThatFail(t *testing.T) {
	t.Parallel()
	let := make(chan struct{})
	csid := startFake(t, step{write: refusalFrame(9, "volume is in use")}, step{close: true},
		step{wait: let, write: okFrame("01")})
	process := processes.StartFront(t, csid.socket, "--waiting", "1")
	front := newClient(t, process.Socket)
	message := make([]byte, 1048576)
	for _, code := range []codes.Code{codes.FailedPrecondition, codes.Unavailable} {
		if got := front.send(soon(t, processes.Patience), "/a/b", message); got.code != code ||
			strings.Contains(got.text, "all calls that wait") {
			t.Errorf("%v, wanted %v", got, code)
		}
	}
	ctx, cancel := context.WithCancel(context.Background())
	go func() {
		csid.called(t, 3)
		cancel()
	}()
	if got := front.send(ctx, "/a/b", message); got.code != codes.Canceled {
		t.Errorf("%v, wanted CANCELLED", got)
	}
	processes.Eventually(t, "the call in the log", func() bool { return gaveUp(process, "/a/b") })
	close(let)
	if got := front.send(soon(t, processes.Patience), "/a/b", message); got != ok(ready) {
		t.Errorf("%v", got)
	}
}

// Many clients with many long messages take no more memory than the limit and the buffers of gRPC.
// Calls with room are served. The others are refused: for want of room, or because their messages
// came too slowly on a busy machine.
func TestManyGreatMessages(t *testing.T) {
	t.Parallel()
	const clients, calls, room = 8, 256, 64
	let := make(chan struct{})
	csid := startFake(t, step{write: okFrame("")}, step{wait: let, write: okFrame("01")})
	process := processes.StartFront(t, csid.socket)
	newClient(t, process.Socket).wantReply(t, "/a/first", "", ok(""))
	message := make([]byte, 1048576)
	var full, late, served int32
	over := make(chan struct{})
	go func() {
		defer close(over)
		processes.Together(clients, func(int) {
			front := newClient(t, process.Socket)
			processes.Together(calls, func(int) {
				got := front.send(context.Background(), "/a/b", message)
				switch {
				case strings.Contains(got.text, "all calls that wait"):
					atomic.AddInt32(&full, 1)
				case strings.Contains(got.text, "did not come in time"):
					atomic.AddInt32(&late, 1)
				case got == ok("01") || got == ok(ready):
					atomic.AddInt32(&served, 1)
				default:
					t.Errorf("%v", got)
				}
			})
		})
	}()
	processes.GoesOn(t, "calls that are refused", clients*calls-room,
		func() int { return int(atomic.LoadInt32(&full) + atomic.LoadInt32(&late)) })
	taken := process.ResidentBytes(t)
	if taken > 512<<20 {
		t.Errorf("the front takes %d MiB", taken>>20)
	}
	close(let)
	<-over
	if full == 0 || served != room {
		t.Errorf("%d calls were served, %d had no room, %d came too slowly", served, full, late)
	}
	t.Logf("%d MiB, %d calls came too slowly", taken>>20, late)
}

// Callers that never send their messages, as many as a client can have, delay other callers only
// for a while, and take no room. If no other call waits, such a caller is served when it sends its
// message.
func TestMessagesThatNeverCome(t *testing.T) {
	t.Parallel()
	const calls, places = 256, 16
	csid := startFake(t)
	process := processes.StartFront(t, csid.socket)
	silent := newClient(t, process.Socket)
	begins := func(count int) (streams []grpc.ClientStream) {
		for call := 0; call < count; call++ {
			stream, err := silent.NewStream(soon(t, 3*processes.Patience), &grpc.StreamDesc{ClientStreams: true},
				"/a/silent")
			if err != nil {
				t.Fatal(err)
			}
			if err := stream.SendMsg([]byte{1}); err != nil {
				t.Fatal(err)
			}
			streams = append(streams, stream)
		}
		time.Sleep(200 * time.Millisecond)
		return streams
	}
	streams := begins(calls)
	begin := time.Now()
	newClient(t, process.Socket).wantReply(t, probe, "", ok(ready))
	if spent := time.Since(begin); spent < 200*time.Millisecond || spent > 5*time.Second {
		t.Errorf("served after %v", spent)
	}
	ends := func(streams []grpc.ClientStream) (served int) {
		for _, stream := range streams {
			var body []byte
			stream.CloseSend()
			if err := stream.RecvMsg(&body); err == nil {
				served++
			} else if status.Code(err) != codes.Unavailable ||
				!strings.Contains(err.Error(), "the message did not come in time, and other calls wait") {
				t.Error(err)
			}
		}
		return served
	}
	if served := ends(streams); served >= calls {
		t.Errorf("%d were served, and none made room", served)
	}
	if served := ends(begins(places)); served != places {
		t.Errorf("%d of those that nobody waits after were served", served)
	}
}

// silentClient makes calls that send no message. When one of them ends, it makes a new one.
type silentClient struct {
	front *client
	// The number of calls that have begun, and the number of calls that the front has ended.
	begun, ended int32
}

func (c *silentClient) call(ctx context.Context) {
	for ctx.Err() == nil {
		stream, err := c.front.NewStream(ctx, &grpc.StreamDesc{ClientStreams: true}, "/a/silent")
		if err != nil {
			return
		}
		atomic.AddInt32(&c.begun, 1)
		stream.RecvMsg(&[]byte{})
		atomic.AddInt32(&c.ended, 1)
	}
}

// Calls that send no message make room for a call of another client. This call waits neither for
// the end of all of the silent calls nor for the calls that replace them.
func TestCallsWithoutAMessageThatComeAgain(t *testing.T) {
	t.Parallel()
	const clients, calls, probes = 4, 250, 3
	process := processes.StartFront(t, startFake(t).socket)
	front := newClient(t, process.Socket)
	ctx, cancel := context.WithCancel(context.Background())
	defer cancel()
	var silent [clients]*silentClient
	for i := range silent {
		one := &silentClient{front: newClient(t, process.Socket)}
		for call := 0; call < calls; call++ {
			go one.call(ctx)
		}
		processes.Eventually(t, "calls", func() bool { return atomic.LoadInt32(&one.begun) >= calls })
		silent[i] = one
	}
	ended := func() (count int32) {
		for _, one := range silent {
			count += atomic.LoadInt32(&one.ended)
		}
		return count
	}
	before := ended()
	for i := 0; i < probes; i++ {
		front.wantReply(t, probe, "", ok(ready))
	}
	// Each probe needs one place, and after each second without a message 16 calls give up their
	// places. If places went to calls in the order of their arrival, a probe would wait for a
	// thousand calls.
	if count := ended() - before; count >= clients*calls {
		t.Errorf("%d calls ended before %d probes were answered", count, probes)
	}
}

// Calls announce a long message, send a part of it and end, again and again. The front keeps no
// room for the parts that do not come.
func TestMessagesThatAreAnnounced(t *testing.T) {
	t.Parallel()
	const turns, clients, calls = 2, 4, 256
	csid := startFake(t)
	process := processes.StartFront(t, csid.socket)
	for turn := 0; turn < turns; turn++ {
		var conns []net.Conn
		for client := 0; client < clients; client++ {
			conn, framer := speak(t, process.Socket)
			conns = append(conns, conn)
			for call := uint32(0); call < calls; call++ {
				writeCall(framer, 2*call+1, 0)
				framer.WriteData(2*call+1, false, []byte{0, 0, 0x10, 0, 0, 1})
			}
		}
		newClient(t, process.Socket).wantReply(t, probe, "", ok(ready))
		for _, conn := range conns {
			conn.Close()
		}
	}
	// The memory depends on when Go collects its garbage. With room for each announced message, the
	// memory would be above this limit.
	if taken := process.ResidentBytes(t); taken > 384<<20 {
		t.Errorf("the front takes %d MiB", taken>>20)
	}
}

// A call whose headers are too long ends before csid sees it. A call with shorter headers is
// served.
func TestHeadersThatAreTooLong(t *testing.T) {
	t.Parallel()
	csid := startFake(t)
	front := newClient(t, processes.StartFront(t, csid.socket).Socket)
	with := func(size int) context.Context {
		return metadata.AppendToOutgoingContext(soon(t, processes.Patience), "n", strings.Repeat("v", size))
	}
	if got := front.send(with(15000), "/a/short", nil); got != ok(ready) {
		t.Errorf("%v", got)
	}
	if got := front.send(with(17000), "/a/long", nil); got.code != codes.Internal {
		t.Errorf("%v", got)
	}
	front.wantReply(t, "/a/then", "", ok(ready))
	csid.wantCalls(t, "/a/short ", "/a/then ")
}

// When a client connects, the front sends its limits: the number of calls, the window for a
// message, and the length of headers.
func TestBoundsOfAClient(t *testing.T) {
	t.Parallel()
	conn, framer := speak(t, processes.StartFront(t, startFake(t).socket).Socket)
	defer conn.Close()
	frame, err := framer.ReadFrame()
	settings, is := frame.(*http2.SettingsFrame)
	if err != nil || !is {
		t.Fatalf("%v, %v", frame, err)
	}
	for setting, want := range map[http2.SettingID]uint32{
		http2.SettingMaxConcurrentStreams: 256, http2.SettingInitialWindowSize: 64 << 10,
		http2.SettingMaxHeaderListSize: 16 << 10,
	} {
		if got, is := settings.Value(setting); !is || got != want {
			t.Errorf("%v is %d, wanted %d", setting, got, want)
		}
	}
}

// Calls with very long headers, which no gRPC client sends, take little memory, and csid does not
// see them.
func TestManyLongHeaders(t *testing.T) {
	t.Parallel()
	const calls, fields = 50, 4000
	csid := startFake(t)
	process := processes.StartFront(t, csid.socket)
	conn, framer := speak(t, process.Socket)
	defer conn.Close()
	for call := 0; call < calls; call++ {
		writeCall(framer, uint32(2*call+1), fields)
	}
	newClient(t, process.Socket).wantReply(t, probe, "", ok(ready))
	if taken := process.ResidentBytes(t); taken > 128<<20 {
		t.Errorf("the front takes %d MiB", taken>>20)
	}
	csid.wantCalls(t, probe+" ")
}

// speak makes a connection, begins HTTP/2 on it, and returns it with a framer.
func speak(t *testing.T, socket string) (net.Conn, *http2.Framer) {
	t.Helper()
	conn, err := net.Dial("unix", socket)
	if err != nil {
		t.Fatal(err)
	}
	conn.SetDeadline(time.Now().Add(3 * processes.Patience))
	if _, err := conn.Write([]byte(http2.ClientPreface)); err != nil {
		t.Fatal(err)
	}
	framer := http2.NewFramer(conn, conn)
	framer.WriteSettings()
	return conn, framer
}

// writeCall writes the headers of a call, with a number of further fields of 1,000 bytes each.
func writeCall(framer *http2.Framer, stream uint32, fields int) {
	var block bytes.Buffer
	encoder := hpack.NewEncoder(&block)
	write := func(name, value string) {
		encoder.WriteField(hpack.HeaderField{Name: name, Value: value, Sensitive: true})
	}
	for _, field := range [][2]string{{":method", "POST"}, {":scheme", "http"}, {":path", "/a/long"},
		{":authority", "csi"}, {"te", "trailers"}, {"content-type", "application/grpc"}} {
		write(field[0], field[1])
	}
	for i := 0; i < fields; i++ {
		write(fmt.Sprintf("n%d", i), strings.Repeat("v", 1000))
	}
	framer.WriteHeaders(http2.HeadersFrameParam{StreamID: stream, BlockFragment: block.Next(1 << 14),
		EndHeaders: fields == 0})
	for block.Len() > 0 {
		part := block.Next(1 << 14)
		framer.WriteContinuation(stream, block.Len() == 0, part)
	}
}
