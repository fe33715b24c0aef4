package main

import (
	"bufio"
	"context"
	"errors"
	"io"
	"net"
	"os"
	"sync"
	"sync/atomic"
	"testing"
	"time"

	"google.golang.org/grpc/codes"

	"fomaheti/frames"
)

// The length in bytes of the frame of a call to /a/b without a message.
const shortCall = 2 + 4 + 1 + 4

var notFound = []byte{5, 0, 0, 0, 0, 0, 0, 0}

// csid plays a csid. It serves connections one after the other with the function serve. It returns
// the path of its socket and the number of its connections.
func csid(t *testing.T, serve func(net.Conn)) (path string, connections *int32) {
	t.Helper()
	listener, path := listening(t)
	connections = new(int32)
	go func() {
		for {
			conn, err := listener.Accept()
			if err != nil {
				return
			}
			atomic.AddInt32(connections, 1)
			serve(conn)
			conn.Close()
		}
	}()
	return path, connections
}

func isCalled(conn net.Conn) bool {
	_, err := io.ReadFull(conn, make([]byte, shortCall))
	return err == nil
}

func wantReply(t *testing.T, b *backend, code codes.Code) {
	t.Helper()
	ctx, cancel := context.WithTimeout(context.Background(), 10*time.Second)
	defer cancel()
	if got, err := b.call(ctx, "/a/b", nil); err != nil || got.Code != code {
		t.Fatalf("%v, %v", got, err)
	}
}

// A call that csid leaves unread, because it closes an idle connection, is sent again. A call that
// csid has read may have been carried out, and is not sent again.
func TestUnreadCallIsSentAnew(t *testing.T) {
	reads := int32(0)
	path, connections := csid(t, func(conn net.Conn) {
		if isCalled(conn) {
			conn.Write(notFound)
		}
		awaitBytes(conn, shortCall)
		io.ReadFull(conn, make([]byte, atomic.LoadInt32(&reads)))
	})
	b := newBackend(path, time.Minute)
	for round := 0; round < 3; round++ {
		wantReply(t, b, codes.NotFound)
	}
	if made := atomic.LoadInt32(connections); made != 3 {
		t.Errorf("%d connections for 3 calls", made)
	}
	atomic.StoreInt32(&reads, shortCall)
	if got, err := b.call(soon(t), "/a/b", nil); err != errUnanswered {
		t.Errorf("a call that was read: %v, %v", got, err)
	}
}

// The late reply to a call that was given up is not the reply to the next call, even if it comes in
// parts. The connection stays open.
func TestLateReply(t *testing.T) {
	gone := make(chan struct{}, 1)
	path, connections := csid(t, func(conn net.Conn) {
		in := bufio.NewReader(conn)
		for {
			if _, err := io.ReadFull(in, make([]byte, shortCall)); err != nil {
				return
			}
			conn.Write(notFound[:2])
			<-gone
			conn.Write(notFound[2:])
			if _, err := io.ReadFull(in, make([]byte, shortCall)); err != nil {
				return
			}
			conn.Write([]byte{3, 0, 0, 0, 0, 0, 0, 0})
		}
	})
	b := newBackend(path, time.Minute)
	for round := 0; round < 3; round++ {
		ctx, cancel := context.WithTimeout(context.Background(), 20*time.Millisecond)
		if got, err := b.call(ctx, "/a/b", nil); err != context.DeadlineExceeded {
			t.Errorf("%v, %v", got, err)
		}
		cancel()
		time.AfterFunc(20*time.Millisecond, func() { gone <- struct{}{} })
		wantReply(t, b, codes.InvalidArgument)
	}
	if made := atomic.LoadInt32(connections); made != 1 {
		t.Errorf("%d connections", made)
	}
}

// If csid closes each connection, the front makes few connections, also for many calls. Each failed
// connection ends all waiting calls, so each call waits for one connection at most.
func TestFewConnections(t *testing.T) {
	path, connections := csid(t, func(net.Conn) {})
	b := newBackend(path, time.Minute)
	var told, most int64
	begin := time.Now()
	ended := make(chan struct{})
	for caller := 0; caller < 50; caller++ {
		go func() {
			defer func() { ended <- struct{}{} }()
			for time.Since(begin) < 2*time.Second {
				arrival := time.Now()
				if _, err := b.call(context.Background(), "/a/b", nil); err != errUnanswered {
					t.Errorf("%v", err)
				}
				atomic.AddInt64(&told, 1)
				for spent := int64(time.Since(arrival)); spent > atomic.LoadInt64(&most); {
					atomic.StoreInt64(&most, spent)
				}
			}
		}()
	}
	for caller := 0; caller < 50; caller++ {
		<-ended
	}
	// Connections begin at 0, 0.2, 0.6, 1.4 and 2.4 seconds.
	if made := atomic.LoadInt32(connections); made < 3 || made > 6 {
		t.Errorf("%d connections", made)
	}
	if told < 150 || time.Duration(most) > greatestPause+time.Second {
		t.Errorf("%d calls were told, the last one after %v", told, time.Duration(most))
	}
	t.Logf("%d connections, %d calls", atomic.LoadInt32(connections), told)
}

// With too many callers for csid, callers with short deadlines get at least half as many replies as
// patient callers.
func TestShortDeadlines(t *testing.T) {
	path, connections := csid(t, func(conn net.Conn) {
		for isCalled(conn) {
			time.Sleep(2 * time.Millisecond)
			conn.Write(notFound)
		}
	})
	b := newBackend(path, time.Minute)
	rate := func(deadline time.Duration) (served int32) {
		begin := time.Now()
		var all sync.WaitGroup
		for caller := 0; caller < 32; caller++ {
			all.Add(1)
			go func() {
				defer all.Done()
				for time.Since(begin) < time.Second {
					ctx, cancel := context.WithTimeout(context.Background(), deadline)
					if _, err := b.call(ctx, "/a/b", nil); err == nil {
						atomic.AddInt32(&served, 1)
					}
					cancel()
				}
			}()
		}
		all.Wait()
		return served
	}
	// Another program can slow down either measurement, so the test has three tries.
	patient, hasty := int32(0), int32(0)
	for try := 0; try < 3 && (try == 0 || hasty < patient/2); try++ {
		patient, hasty = rate(time.Minute), rate(12*time.Millisecond)
	}
	if hasty < patient/2 {
		t.Errorf("%d calls of hasty callers, %d of patient ones", hasty, patient)
	}
	if made := atomic.LoadInt32(connections); made != 1 {
		t.Errorf("%d connections", made)
	}
	t.Logf("%d calls of hasty callers, %d of patient ones", hasty, patient)
}

// kept returns the connection of a backend, or nil if it has none.
func kept(b *backend) *connection {
	b.mutex.Lock()
	defer b.mutex.Unlock()
	return b.kept
}

// count returns how many calls of a backend wait, and how many are on their way.
func count(b *backend) (waiting, sent int) {
	b.mutex.Lock()
	defer b.mutex.Unlock()
	if b.kept != nil {
		sent = len(b.kept.sent)
	}
	return b.waiting.Len(), sent
}

// awaits waits until isSo returns true, for at most 10 seconds.
func awaits(t *testing.T, what string, isSo func() bool) {
	t.Helper()
	for begin := time.Now(); !isSo(); time.Sleep(time.Millisecond) {
		if time.Since(begin) > 10*time.Second {
			t.Fatalf("%s: not within 10 seconds", what)
		}
	}
}

// underWay waits until this number of calls of a backend are on their way.
func underWay(t *testing.T, b *backend, calls int) {
	t.Helper()
	awaits(t, "calls on their way", func() bool { _, sent := count(b); return sent == calls })
}

// hold keeps a backend without a connection from connecting, so that its calls wait, until letGo is
// called.
func hold(b *backend) (letGo func()) {
	b.mutex.Lock()
	defer b.mutex.Unlock()
	b.isConnecting = true
	return func() {
		b.mutex.Lock()
		defer b.mutex.Unlock()
		b.isConnecting = false
		b.send()
	}
}

// If a call cannot be written to an old connection, it is sent over a new one.
func TestUnsentCallIsSentAnew(t *testing.T) {
	path, _ := csid(t, func(conn net.Conn) {
		if isCalled(conn) {
			conn.Write(notFound)
		}
		isCalled(conn)
	})
	b := newBackend(path, time.Minute)
	for round := 0; round < 3; round++ {
		wantReply(t, b, codes.NotFound)
		if conn := kept(b); conn != nil {
			conn.socket.CloseWrite()
		}
	}
}

// A call whose context has ended makes no connection, even if the context ends in the pause before
// a connection.
func TestEndedContext(t *testing.T) {
	path, connections := csid(t, answering(notFound))
	b := newBackend(path, time.Minute)
	ctx, cancel := context.WithCancel(context.Background())
	cancel()
	if _, err := b.call(ctx, "/a/b", nil); err != context.Canceled {
		t.Errorf("%v", err)
	}
	b.pace.begins()
	ctx, cancel = context.WithTimeout(context.Background(), leastPause/10)
	defer cancel()
	if _, err := b.call(ctx, "/a/b", nil); err != context.DeadlineExceeded {
		t.Errorf("in the pause: %v", err)
	}
	awaits(t, "the pause is over", func() bool { b.mutex.Lock(); defer b.mutex.Unlock(); return !b.isConnecting })
	if made := atomic.LoadInt32(connections); made != 0 || kept(b) != nil {
		t.Errorf("%d connections", made)
	}
}

// A call whose context has ended is not sent over an open connection.
func TestEndedContextOverAConnection(t *testing.T) {
	path, _ := csid(t, answering(notFound))
	b := newBackend(path, time.Minute)
	wantReply(t, b, codes.NotFound)
	ctx, cancel := context.WithCancel(context.Background())
	cancel()
	before := b.life.shown
	if _, err := b.call(ctx, "/a/b", nil); err != context.Canceled {
		t.Errorf("%v", err)
	}
	if waiting, sent := count(b); waiting != 0 || sent != 0 || b.life.shown != before {
		t.Errorf("%d wait, %d are on their way, and a reply came: %v", waiting, sent, b.life.shown != before)
	}
}

// If no reply to a call that was given up comes within the time of --late, the connection ends, and
// a call that waits gets an error that says so. A later call gets a new connection.
func TestLateReplyThatNeverComes(t *testing.T) {
	isSilent := true
	path, connections := csid(t, func(conn net.Conn) {
		for isCalled(conn) {
			if !isSilent {
				conn.Write(notFound)
			}
		}
		isSilent = false
	})
	b := newBackend(path, 100*time.Millisecond)
	ctx, cancel := context.WithTimeout(context.Background(), 20*time.Millisecond)
	defer cancel()
	b.call(ctx, "/a/b", nil)
	if _, err := b.call(context.Background(), "/a/b", nil); err == nil ||
		err.Error() != "an earlier call was given up, and no reply to it came within 100ms" {
		t.Errorf("a call that came before: %v", err)
	}
	wantReply(t, b, codes.NotFound)
	if made := atomic.LoadInt32(connections); made != 2 {
		t.Errorf("%d connections", made)
	}
}

// The time of --late also applies if csid reads nothing of the call that was given up.
func TestCallThatIsNeverRead(t *testing.T) {
	listener, path := listening(t)
	unread := make(chan net.Conn, 1)
	ctx, cancel := context.WithCancel(context.Background())
	go func() {
		for {
			conn, err := listener.Accept()
			if err != nil {
				return
			}
			select {
			case unread <- conn:
				awaitBytes(conn, 1)
				cancel()
			default:
				go answering(notFound)(conn)
			}
		}
	}()
	b := newBackend(path, 100*time.Millisecond)
	if _, err := b.call(ctx, "/a/b", make([]byte, frames.MaxMessageBytes)); err != context.Canceled {
		t.Errorf("%v", err)
	}
	awaits(t, "its connection is closed", func() bool { return kept(b) == nil })
	wantReply(t, b, codes.NotFound)
	(<-unread).Close()
}

// stuff writes to a connection until its socket takes no more.
func stuff(conn *connection) {
	conn.socket.SetWriteDeadline(time.Now().Add(50 * time.Millisecond))
	for _, err := conn.socket.Write([]byte{0}); err == nil; _, err = conn.socket.Write([]byte{0}) {
	}
	conn.socket.SetWriteDeadline(time.Time{})
}

// If no byte of a call was sent, the call leaves nothing on the connection when it is given up. The
// next call is sent as soon as the socket takes it.
func TestCallThatIsNeverSent(t *testing.T) {
	let := make(chan struct{})
	path, _ := csid(t, func(conn net.Conn) {
		in := bufio.NewReader(conn)
		io.ReadFull(in, make([]byte, shortCall))
		conn.Write(notFound)
		<-let
		for padding := []byte{0, 0}; padding[1] == 0; padding, _ = in.Peek(2) {
			in.Discard(1)
		}
		io.ReadFull(in, make([]byte, shortCall))
		conn.Write(notFound)
	})
	b := newBackend(path, time.Minute)
	wantReply(t, b, codes.NotFound)
	stuff(kept(b))
	for round := 0; round < 2; round++ {
		ctx, cancel := context.WithTimeout(context.Background(), 50*time.Millisecond)
		if _, err := b.call(ctx, "/a/b", nil); err != context.DeadlineExceeded {
			t.Errorf("%v", err)
		}
		cancel()
	}
	if waiting, sent := count(b); waiting != 0 || sent != 0 || kept(b).unwritten() != 0 {
		t.Errorf("%d calls wait, %d are on their way", waiting, sent)
	}
	close(let)
	wantReply(t, b, codes.NotFound)
}

// The pause doubles after each connection that cannot be made. The waiting calls end with the error
// of this connection.
func TestConnectionsThatCannotBeMade(t *testing.T) {
	_, path := listening(t)
	b := newBackend(path+".absent", time.Minute)
	for _, want := range []time.Duration{200 * time.Millisecond, 400 * time.Millisecond} {
		if _, err := b.call(soon(t), "/a/b", nil); !errors.Is(err, os.ErrNotExist) || b.pace.pause != want {
			t.Errorf("%v, and a pause of %v", err, b.pace.pause)
		}
	}
}

// A late reply is a sign of life of csid, like any other reply.
func TestLateReplyIsASignOfLife(t *testing.T) {
	gone := make(chan struct{})
	ctx, cancel := context.WithCancel(context.Background())
	path, _ := csid(t, func(conn net.Conn) {
		if isCalled(conn) {
			cancel()
			<-gone
			conn.Write(notFound)
		}
		isCalled(conn)
	})
	b := newBackend(path, time.Minute)
	if _, err := b.call(ctx, "/a/b", nil); err != context.Canceled {
		t.Errorf("%v", err)
	}
	before := b.life.silence()
	close(gone)
	underWay(t, b, 0)
	if b.life.silence() >= before {
		t.Error("csid did not show that it lives")
	}
}

// If no other call waits, a call is sent even if its reply is not likely to come before its
// deadline.
func TestLoneCallWithAShortDeadline(t *testing.T) {
	path, _ := csid(t, answering(notFound))
	b := newBackend(path, time.Minute)
	b.usual = time.Hour
	wantReply(t, b, codes.NotFound)
}

// After a failure and then a reply the pause is the least one again.
func TestReplyAfterAFailure(t *testing.T) {
	path, _ := csid(t, answering([]byte{13, 0, 0, 0, 0, 0, 0, 0}))
	b := newBackend(path, time.Minute)
	b.fail(errUnanswered)
	wantReply(t, b, codes.Internal)
	if b.pace.pause != leastPause {
		t.Errorf("a pause of %v", b.pace.pause)
	}
}

// If a connection ends after it gave a reply, only the call on its way is lost. The waiting calls
// are sent over a new connection, without a longer pause.
func TestConnectionThatEndsAfterAReply(t *testing.T) {
	let := make(chan struct{})
	path, _ := csid(t, func(conn net.Conn) {
		if isCalled(conn) {
			conn.Write(notFound)
		}
		isCalled(conn)
		<-let
	})
	b := newBackend(path, time.Minute)
	b.promptTime = 0
	wantReply(t, b, codes.NotFound)
	errs := make(chan error)
	go func() {
		_, err := b.call(soon(t), "/a/b", nil)
		errs <- err
	}()
	underWay(t, b, 1)
	go func() {
		_, err := b.call(soon(t), "/a/b", nil)
		errs <- err
	}()
	awaits(t, "a call waits", func() bool { waiting, _ := count(b); return waiting == 1 })
	close(let)
	if first, second := <-errs, <-errs; first != errUnanswered || second != nil {
		t.Errorf("the call that was on its way: %v, the one that waited: %v", first, second)
	}
	if b.pace.pause != leastPause {
		t.Errorf("a pause of %v", b.pace.pause)
	}
}

// After status 13 the next call goes over another connection.
func TestRefusedChange(t *testing.T) {
	path, connections := csid(t, func(conn net.Conn) {
		if isCalled(conn) {
			conn.Write([]byte{13, 0, 0, 0, 0, 0, 0, 0})
		}
		isCalled(conn)
	})
	b := newBackend(path, time.Minute)
	for round := int32(1); round <= 3; round++ {
		wantReply(t, b, codes.Internal)
		awaits(t, "the connection is closed", func() bool { return kept(b) == nil })
		if made := atomic.LoadInt32(connections); made != round {
			t.Errorf("%d connections", made)
		}
	}
}

// The pause doubles after a failure, up to the greatest pause. After a reply it is the least pause.
// A pause counts from the beginning of a connection.
func TestPauses(t *testing.T) {
	p := pace{pause: leastPause}
	if got := p.left(); got > 0 {
		t.Errorf("before the first connection: %v", got)
	}
	for _, want := range []time.Duration{200, 400, 800, 1000, 1000} {
		if p.failed(); p.pause != want*time.Millisecond {
			t.Errorf("%v, wanted %d ms", p.pause, want)
		}
	}
	p.begins()
	if got := p.left(); got > time.Second || got < 900*time.Millisecond {
		t.Errorf("after a connection that failed: %v", got)
	}
	if p.served(); p.left() > leastPause {
		t.Errorf("after a reply: %v", p.left())
	}
}
