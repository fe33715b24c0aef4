package main

import (
	"bytes"
	"context"
	"io"
	"net"
	"os"
	"path/filepath"
	"strings"
	"sync"
	"sync/atomic"
	"testing"
	"time"

	"github.com/prometheus/client_golang/prometheus/testutil"
	"google.golang.org/grpc/codes"
	"google.golang.org/grpc/status"

	"fomaheti/frames"
)

// written collects the lines of a log.
type written struct {
	mutex sync.Mutex
	text  bytes.Buffer
}

func (w *written) Write(line []byte) (int, error) {
	w.mutex.Lock()
	defer w.mutex.Unlock()
	return w.text.Write(line)
}

func (w *written) String() string {
	w.mutex.Lock()
	defer w.mutex.Unlock()
	return w.text.String()
}

// controlled starts a control socket for the csid at this path. It also returns the path of the
// control socket, and the log.
func controlled(t *testing.T, csid string) (*control, string, *written) {
	t.Helper()
	opts := options{csid: csid, late: time.Minute, waiting: 1, control: filepath.Join(t.TempDir(), "control.sock")}
	log := &written{}
	c, err := startControl(newHandler(opts, newLogger(log, textLines)), opts)
	if err != nil {
		t.Fatal(err)
	}
	t.Cleanup(c.close)
	return c, opts.control, log
}

func dial(t *testing.T, path string) *net.UnixConn {
	t.Helper()
	conn, err := net.DialUnix("unix", nil, &net.UnixAddr{Name: path, Net: "unix"})
	if err != nil {
		t.Fatal(err)
	}
	conn.SetDeadline(time.Now().Add(10 * time.Second))
	t.Cleanup(func() { conn.Close() })
	return conn
}

const shortFrame = "0004 2f612f62 00 00000000"

// Two calls over one connection are answered with the bytes of csid, even if the peer sends both at
// once and then closes its sending half. Each refused call is logged.
func TestControlCalls(t *testing.T) {
	path, _ := csid(t, answering(fromHex(t, "09 0002 4142 00 00000000")))
	c, socket, log := controlled(t, path)
	conn := dial(t, socket)
	conn.Write(fromHex(t, shortFrame+shortFrame))
	conn.CloseWrite()
	got, err := io.ReadAll(conn)
	if want := fromHex(t, "09 0002 4142 00 00000000 09 0002 4142 00 00000000"); err != nil || !bytes.Equal(got, want) {
		t.Errorf("%x, %v", got, err)
	}
	if lines := strings.Count(log.String(), "front: control /a/b 9 \"AB\" "); lines != 2 {
		t.Errorf("logged %q", log)
	}
	if waiting := testutil.ToFloat64(c.handler.metrics.waiting); waiting != 0 {
		t.Errorf("%v calls wait", waiting)
	}
}

// The front answers GetConfiguration without csid, and does not log the call. Other calls go to
// csid.
func TestConfigurationOverControl(t *testing.T) {
	path, _ := csid(t, answering(notFound))
	c, socket, log := controlled(t, path)
	asks := frames.AppendRequestHead(nil, "/fomaheti.v1.Front/GetConfiguration", 0)
	ask := func() []byte {
		conn := dial(t, socket)
		conn.Write(append(append([]byte{}, asks...), fromHex(t, shortFrame)...))
		conn.CloseWrite()
		got, err := io.ReadAll(conn)
		if err != nil || !bytes.HasSuffix(got, notFound) {
			t.Errorf("%x, %v", got, err)
		}
		return bytes.TrimSuffix(got, notFound)
	}
	// Status 12, a text of 25 bytes, and no body.
	if got, want := ask(), string(fromHex(t, "0c 0019"))+"the front has no --config"+
		string(fromHex(t, "00 00000000")); string(got) != want {
		t.Errorf("without a configuration: %q", got)
	}
	c.configuration = room
	if got := string(ask()); !strings.HasPrefix(got, "\x00\x00\x00\x00") || !strings.HasSuffix(got,
		`{"id":"n3","maxVolumes":4}]}`) {
		t.Errorf("%q", got)
	}
	if lines := strings.Count(log.String(), "\n"); lines != 2 || strings.Contains(log.String(), "Configuration") {
		t.Errorf("logged %q", log)
	}
}

// A connection that has ended makes room for another one.
func TestManyControlConnections(t *testing.T) {
	path, _ := csid(t, answering(notFound))
	_, socket, _ := controlled(t, path)
	for i := 0; i < 2*maxControls; i++ {
		conn := dial(t, socket)
		conn.Write(fromHex(t, shortFrame))
		conn.CloseWrite()
		if got, err := io.ReadAll(conn); err != nil || !bytes.Equal(got, notFound) {
			t.Fatalf("connection %d: %x, %v", i, got, err)
		}
	}
}

// A peer without a complete call is closed to make room for another peer. A peer whose call runs
// stays.
func TestSilentControlPeers(t *testing.T) {
	path, let := holding(t)
	c, socket, _ := controlled(t, path)
	runs := dial(t, socket)
	runs.Write(fromHex(t, shortFrame))
	underWay(t, c.handler.backend, 1)
	var silent []net.Conn
	for i := 0; i < maxControls; i++ {
		conn := dial(t, socket)
		conn.Write(fromHex(t, shortFrame)[:i%2])
		silent = append(silent, conn)
	}
	// The first silent peer was closed for the last one. It sees a reset if its byte was not read.
	if got, err := io.ReadAll(silent[0]); err != nil && !frames.IsClosing(err) || len(got) > 0 {
		t.Errorf("%x, %v", got, err)
	}
	close(let)
	runs.CloseWrite()
	if got, err := io.ReadAll(runs); err != nil || !bytes.Equal(got, notFound) {
		t.Errorf("%x, %v", got, err)
	}
}

// A malformed frame is refused as csid refuses it, and csid sees nothing of it.
func TestMalformedControlCall(t *testing.T) {
	path, connections := csid(t, answering(notFound))
	_, socket, log := controlled(t, path)
	for bytes, text := range map[string]string{
		"0000": "bad path length at byte 0", "0004 2f612f20": "bad path at byte 5",
		"0004 2f612f62 01":          "bad flag at byte 6",
		"0004 2f612f62 00 00100001": "message too long at byte 7", "0004 2f61": "end of input at byte 4",
	} {
		conn := dial(t, socket)
		conn.Write(fromHex(t, bytes))
		conn.CloseWrite()
		want := string(frames.Reply{Code: 3, Text: text}.Append(nil))
		if got, err := io.ReadAll(conn); err != nil || string(got) != want {
			t.Errorf("%s: %q, %v, wanted %q", bytes, got, err, want)
		}
		if !strings.Contains(log.String(), "front: control "+text+"\n") {
			t.Errorf("logged %q", log)
		}
	}
	if *connections != 0 {
		t.Errorf("%d connections to csid", *connections)
	}
}

// A call to which csid gives no reply gets no reply from the front.
func TestUnansweredControlCall(t *testing.T) {
	path, _ := csid(t, func(net.Conn) {})
	_, socket, log := controlled(t, path)
	conn := dial(t, socket)
	conn.Write(fromHex(t, shortFrame))
	if got, err := io.ReadAll(conn); err != nil || len(got) > 0 {
		t.Errorf("%x, %v", got, err)
	}
	if want := `front: control /a/b 14 "csid: the connection was closed unanswered: see the log ` +
		`of csid" `; !strings.HasPrefix(log.String(), want) {
		t.Errorf("logged %q", log)
	}
}

// If the peer closes its connection while its call waits, the call is not sent. If the peer closes
// only its sending half, the call is sent.
func TestControlPeerThatGoes(t *testing.T) {
	paths := make(chan string, 9)
	path, _ := csid(t, func(conn net.Conn) {
		for requests := frames.NewRequests(conn); ; {
			request, err := requests.Next()
			if err != nil {
				return
			}
			paths <- request.Path
			conn.Write(notFound)
		}
	})
	c, socket, log := controlled(t, path)
	letGo := hold(c.handler.backend)
	gone, waiting := dial(t, socket), dial(t, socket)
	gone.Write(fromHex(t, "0005 2f676f6e65 00 00000000"))
	gone.Close()
	waiting.Write(fromHex(t, shortFrame))
	waiting.CloseWrite()
	for begin := time.Now(); !strings.Contains(log.String(), "front: control /gone 1 "); time.Sleep(time.Millisecond) {
		if time.Since(begin) > 10*time.Second {
			t.Fatalf("logged %q", log)
		}
	}
	letGo()
	if got, err := io.ReadAll(waiting); err != nil || !bytes.Equal(got, notFound) {
		t.Errorf("%x, %v", got, err)
	}
	if first := <-paths; first != "/a/b" || len(paths) > 0 {
		t.Errorf("csid got %s, and %d more", first, len(paths))
	}
}

// Calls of the control socket and of gRPC can be on their way together. If the connection ends, the
// first of them gets no reply, and the second gets its reply over the next connection.
func TestControlCallOnTheWay(t *testing.T) {
	for _, isControlFirst := range []bool{true, false} {
		path, connections := concurrentCsid(t, func(conn net.Conn, number int32) {
			for isCalled(conn) {
				if number == 1 {
					conn.Write(notFound)
					isCalled(conn)
					awaitBytes(conn, shortCall)
					break
				}
				conn.Write(notFound)
			}
			conn.Close()
		})
		c, socket, _ := controlled(t, path)
		b := c.handler.backend
		b.setPromptTime(time.Hour)
		wantReply(t, b, codes.NotFound)
		conn, errs := dial(t, socket), make(chan error, 1)
		begins := []func(){
			func() { conn.Write(fromHex(t, shortFrame)); conn.CloseWrite() },
			func() {
				go func() {
					_, err := c.handler.ask(soon(t), "/a/b", nil)
					errs <- err
				}()
			},
		}
		want, wantCode := notFound, codes.Unavailable
		if isControlFirst {
			want, wantCode = nil, codes.NotFound
		} else {
			begins[0], begins[1] = begins[1], begins[0]
		}
		begins[0]()
		underWay(t, b, 1)
		begins[1]()
		if got, err := io.ReadAll(conn); err != nil || !bytes.Equal(got, want) {
			t.Errorf("control first %v: %x, %v", isControlFirst, got, err)
		}
		if err := <-errs; status.Code(err) != wantCode {
			t.Errorf("control first %v: of gRPC: %v", isControlFirst, err)
		}
		if made := atomic.LoadInt32(connections); made != 2 {
			t.Errorf("%d connections", made)
		}
	}
}

// holding starts a csid that answers its first call when the channel is closed.
func holding(t *testing.T) (string, chan struct{}) {
	t.Helper()
	let := make(chan struct{})
	path, _ := csid(t, func(conn net.Conn) {
		if isCalled(conn) {
			<-let
			conn.Write(notFound)
		}
		isCalled(conn)
	})
	return path, let
}

// After stop a running call is answered, and an incomplete call is not.
func TestEndOfControl(t *testing.T) {
	path, let := holding(t)
	c, socket, _ := controlled(t, path)
	runs, idle := dial(t, socket), dial(t, socket)
	runs.Write(fromHex(t, shortFrame+shortFrame))
	idle.Write([]byte{0})
	underWay(t, c.handler.backend, 1)
	awaits(t, "two connections", func() bool { return open(c.listener) == 2 })
	c.stop()
	// The connection is reset if its byte was not read.
	if got, err := io.ReadAll(idle); err != nil && !frames.IsClosing(err) || len(got) > 0 {
		t.Errorf("of a part of a call: %x, %v", got, err)
	}
	close(let)
	if got, err := io.ReadAll(runs); err != nil && !frames.IsClosing(err) || !bytes.Equal(got, notFound) {
		t.Errorf("of two calls, of which one runs: %x, %v", got, err)
	}
	c.wait()
	if _, err := os.Lstat(socket); !os.IsNotExist(err) {
		t.Errorf("the socket: %v", err)
	}
}

// At its end the front does not wait for a peer that keeps its connection after its reply. A
// connection that is accepted after stop is closed without a reply.
func TestControlConnectionsAtTheEnd(t *testing.T) {
	path, let := holding(t)
	c, socket, _ := controlled(t, path)
	runs := dial(t, socket)
	runs.Write(fromHex(t, shortFrame))
	underWay(t, c.handler.backend, 1)
	c.stop()
	close(let)
	if got, err := io.ReadAll(runs); err != nil || !bytes.Equal(got, notFound) {
		t.Errorf("%x, %v", got, err)
	}
	c.wait()
	c, socket, _ = controlled(t, path)
	c.mutex.Lock()
	c.isEnded = true
	c.mutex.Unlock()
	late := dial(t, socket)
	late.Write(fromHex(t, shortFrame))
	if got, err := io.ReadAll(late); err != nil && !frames.IsClosing(err) || len(got) > 0 {
		t.Errorf("of a connection that came at the end: %x, %v", got, err)
	}
	c.wait()
}

func TestPeerThatIsGone(t *testing.T) {
	listener, path := listening(t)
	own := dial(t, path)
	other, err := listener.Accept()
	if err != nil {
		t.Fatal(err)
	}
	if isGone(own) {
		t.Error("it is there")
	}
	other.(*net.UnixConn).CloseWrite()
	if isGone(own) {
		t.Error("it reads still")
	}
	other.Close()
	if !isGone(own) {
		t.Error("it has gone")
	}
	ctx, cancel := context.WithCancel(context.Background())
	cancelGone(ctx, cancel, own)
	if ctx.Err() == nil {
		t.Error("nothing was cancelled")
	}
}

// The front does not make a call whose peer closes its connection before the front takes it, as a
// csictl that waits for room and is interrupted.
func TestCallOfAPeerThatIsGone(t *testing.T) {
	calls := int32(0)
	path, _ := csid(t, func(conn net.Conn) {
		for isCalled(conn) {
			atomic.AddInt32(&calls, 1)
			conn.Write(notFound)
		}
	})
	c, socket, log := controlled(t, path)
	// No connection is taken while the mutex is locked.
	c.listener.mutex.Lock()
	peer := dial(t, socket)
	peer.Write(fromHex(t, shortFrame))
	peer.Close()
	c.listener.mutex.Unlock()
	awaits(t, "a line", func() bool { return log.String() != "" })
	if line := log.String(); !strings.HasPrefix(line, `front: control /a/b 1 "context canceled" `) {
		t.Errorf("said %q", line)
	}
	if made := atomic.LoadInt32(&calls); made > 0 {
		t.Errorf("%d calls of csid", made)
	}
}
