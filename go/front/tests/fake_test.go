package tests

import (
	"context"
	"encoding/binary"
	"encoding/hex"
	"io"
	"net"
	"path/filepath"
	"strings"
	"sync"
	"testing"

	"./processes"
)

// step has the reaction of a fake csid to one frame that it has read.
type step struct {
	// The fake csid first waits until this is closed, if it is not nil.
	wait <-chan struct{}
	// Writes these bytes to the front, unless mute is true. They need not be a well-formed reply.
	write []byte
	// Then closes the connection.
	close bool
	// Or answers nothing, and reads on until the front closes the connection.
	mute bool
}

// fake plays a csid. It serves one connection at a time, and takes a step for each frame. After the
// last step it answers each call with the body of a Probe that is ready.
type fake struct {
	// The path of its socket. If it is empty, the socket is in a new folder.
	socket string
	mutex  sync.Mutex
	steps  []step
	// The messages of the frames that were read, in hexadecimal, after their paths.
	calls []string
	// The number of connections that have ended, the number of bytes of an incomplete frame at the
	// end of the last one, and the error of a write of a reply.
	ends  int
	rest  int
	error error
	// Nothing is read from a connection until this channel is closed, if it is not nil.
	deaf <-chan struct{}
	// If set, each connection is closed before anything is read.
	closes bool
}

func startFake(t *testing.T, steps ...step) *fake {
	t.Helper()
	return (&fake{steps: steps}).start(t)
}

// behindFront starts a fake csid with these steps and a front for it. It returns the fake csid and
// a client of the front.
func behindFront(t *testing.T, steps ...step) (*fake, *client) {
	t.Helper()
	csid := startFake(t, steps...)
	return csid, newClient(t, processes.StartFront(t, csid.socket).Socket)
}

// running is a call that csid has read. csid answers it when the channel let is closed.
type running struct {
	csid    *fake
	process *processes.Process
	front   *client
	let     chan struct{}
	reply   chan answer
}

func runCall(t *testing.T, path string) *running {
	t.Helper()
	call := &running{let: make(chan struct{}), reply: make(chan answer)}
	call.csid = startFake(t, step{wait: call.let, write: okFrame("01")})
	call.process = processes.StartFront(t, call.csid.socket)
	call.front = newClient(t, call.process.Socket)
	go func() { call.reply <- call.front.send(context.Background(), path, nil) }()
	call.csid.called(t, 1)
	return call
}

// ends lets csid answer, and checks the reply to the call.
func (r *running) ends(t *testing.T) {
	t.Helper()
	close(r.let)
	if got := <-r.reply; got != ok("01") {
		t.Errorf("the call that ran: %v", got)
	}
}

func (f *fake) start(t *testing.T) *fake {
	t.Helper()
	if f.socket == "" {
		f.socket = filepath.Join(processes.Folder(t), "csid.sock")
	}
	listener, err := net.Listen("unix", f.socket)
	if err != nil {
		t.Fatal(err)
	}
	t.Cleanup(func() { listener.Close() })
	go func() {
		for {
			conn, err := listener.Accept()
			if err != nil {
				return
			}
			f.serve(conn)
		}
	}()
	return f
}

func (f *fake) serve(conn net.Conn) {
	if f.deaf != nil {
		<-f.deaf
	}
	rest := 0
	for !f.closes {
		call, size, err := readFrame(conn)
		if err != nil {
			rest = size
			break
		}
		if !f.answer(conn, call) {
			break
		}
	}
	conn.Close()
	f.mutex.Lock()
	defer f.mutex.Unlock()
	f.ends++
	f.rest = rest
}

// answer takes the next step for a call. If no step is left, it writes a reply with OK. It reports
// whether the connection goes on.
func (f *fake) answer(conn net.Conn, call string) bool {
	f.mutex.Lock()
	f.calls = append(f.calls, call)
	next := step{write: okFrame(ready)}
	if len(f.steps) > 0 {
		next, f.steps = f.steps[0], f.steps[1:]
	}
	f.mutex.Unlock()
	if next.wait != nil {
		<-next.wait
	}
	if next.mute {
		io.Copy(io.Discard, conn)
		return false
	}
	if _, err := conn.Write(next.write); err != nil {
		f.mutex.Lock()
		defer f.mutex.Unlock()
		f.error = err
	}
	return !next.close
}

// readFrame reads one frame. call is the path, a space and the message in hexadecimal. size is the
// number of bytes that came, also after an error.
func readFrame(in io.Reader) (call string, size int, err error) {
	head := make([]byte, 2)
	if size, err = io.ReadFull(in, head); err != nil {
		return "", size, err
	}
	path := make([]byte, int(binary.BigEndian.Uint16(head))+5)
	count, err := io.ReadFull(in, path)
	if size += count; err != nil {
		return "", size, err
	}
	message := make([]byte, binary.BigEndian.Uint32(path[len(path)-4:]))
	count, err = io.ReadFull(in, message)
	return string(path[:len(path)-5]) + " " + hex.EncodeToString(message), size + count, err
}

// seen returns the calls that were read, as readFrame returns them, and the number of connections
// that have ended.
func (f *fake) seen() (calls []string, ends int) {
	f.mutex.Lock()
	defer f.mutex.Unlock()
	return append([]string(nil), f.calls...), f.ends
}

// messagesOf returns the messages of the calls of a method, in hexadecimal.
func (f *fake) messagesOf(path string) (messages []string) {
	calls, _ := f.seen()
	for _, call := range calls {
		if strings.HasPrefix(call, path+" ") {
			messages = append(messages, strings.TrimPrefix(call, path+" "))
		}
	}
	return messages
}

func (f *fake) wantCalls(t *testing.T, want ...string) {
	t.Helper()
	if calls, _ := f.seen(); strings.Join(calls, ", ") != strings.Join(want, ", ") {
		t.Errorf("csid saw %.300q, wanted %.300q", calls, want)
	}
}

// waitEnds waits until at least count connections have ended.
func (f *fake) waitEnds(t *testing.T, count int) {
	t.Helper()
	processes.Eventually(t, "the end of a connection to csid", func() bool {
		_, ends := f.seen()
		return ends >= count
	})
}

// called waits until at least count calls were read.
func (f *fake) called(t *testing.T, count int) {
	t.Helper()
	processes.Eventually(t, "a call at csid", func() bool {
		calls, _ := f.seen()
		return len(calls) >= count
	})
}

// okFrame and refusalFrame return replies as frames (docs/PROTOCOL.md, "Envelope").
func okFrame(body string) []byte {
	all, err := hex.DecodeString(strings.ReplaceAll(body, " ", ""))
	if err != nil {
		panic(err)
	}
	return append(binary.BigEndian.AppendUint32([]byte{0, 0, 0, 0}, uint32(len(all))), all...)
}

func refusalFrame(code byte, text string) []byte {
	frame := binary.BigEndian.AppendUint16([]byte{code}, uint16(len(text)))
	return append(append(frame, text...), 0, 0, 0, 0, 0)
}
