package main

import (
	"bytes"
	"context"
	"errors"
	"fmt"
	"io"
	"net"
	"net/http"
	"net/http/httptest"
	"os"
	"path/filepath"
	"strings"
	"sync"
	"sync/atomic"
	"syscall"
	"testing"
	"time"

	"google.golang.org/grpc/codes"
	"google.golang.org/grpc/status"

	"fomaheti/frames"
)

// While replies come, a Probe may wait longer than the limit. When no reply has come for the limit,
// watch returns. If the machine is too slow for a limit, the test doubles the limit.
func TestWatchOverABusyCsid(t *testing.T) {
	for limit := 600 * time.Millisecond; ; limit *= 2 {
		err := watchABusyCsid(t, limit)
		if err == nil {
			return
		}
		if limit > 10*time.Second {
			t.Fatal(err)
		}
		t.Logf("a limit of %v: %v", limit, err)
	}
}

func watchABusyCsid(t *testing.T, limit time.Duration) error {
	// A Probe is sent between two replies, and the calls before it take longer than the limit.
	took, callers := 2*limit/5, 8
	var isSilent atomic.Bool
	path, _ := csid(t, func(conn net.Conn) {
		for isCalled(conn) && !isSilent.Load() {
			time.Sleep(took)
			conn.Write(notFound)
		}
		isCalled(conn)
	})
	h := inFront(path)
	h.backend.life.shows()
	over := make(chan error, 1)
	go func() { over <- h.watch(limit) }()
	ctx, cancel := context.WithCancel(context.Background())
	defer cancel()
	select {
	case err := <-over:
		return fmt.Errorf("it is over while replies come: %v", err)
	case <-longWait(ctx, h.backend, callers, 2*limit):
	}
	begin := time.Now()
	isSilent.Store(true)
	err := <-over
	if want := fmt.Sprintf("nothing was answered by csid for %v: context deadline exceeded", limit); err == nil ||
		err.Error() != want {
		return fmt.Errorf("%v, wanted %s", err, want)
	}
	if spent := time.Since(begin); spent < limit-took || spent > 4*limit {
		return fmt.Errorf("it was over after %v", spent)
	}
	return nil
}

// longWait lets a number of callers make calls until the context ends. The channel is closed when
// one call has taken longer than length.
func longWait(ctx context.Context, b *backend, callers int, length time.Duration) <-chan struct{} {
	waited := make(chan struct{})
	var once sync.Once
	for caller := 0; caller < callers; caller++ {
		go func() {
			for ctx.Err() == nil {
				begin := time.Now()
				b.call(ctx, "/a/b", nil)
				if time.Since(begin) > length {
					once.Do(func() { close(waited) })
				}
			}
		}()
	}
	return waited
}

// Each reply is a sign of life, even a refusal. A connection that csid closes without a reply is no
// sign of life.
func TestWatchOverClosedConnections(t *testing.T) {
	const limit = 300 * time.Millisecond
	refusals := int32(0)
	path, connections := csid(t, func(conn net.Conn) {
		for atomic.AddInt32(&refusals, 1) < 8 && answerOnce(conn, notFound) {
		}
	})
	h := inFront(path)
	h.backend.life.shows()
	begin := time.Now()
	err := h.watch(limit)
	if want := "nothing was answered by csid for 300ms: the connection was closed unanswered: see the " +
		"log of csid"; err == nil || err.Error() != want {
		t.Errorf("%v, wanted %s", err, want)
	}
	// Seven Probes get a reply, each a third of the limit after the one before. Then no Probe gets
	// a reply.
	if spent, least := time.Since(begin), 7*limit/3+limit; spent < least || spent > 2*least {
		t.Errorf("it was over after %v", spent)
	}
	if made := atomic.LoadInt32(connections); made < 2 || made > 4 {
		t.Errorf("%d connections", made)
	}
}

// A front that hung itself, and so got no reply for longer than the limit, sends a Probe before it
// decides that csid hangs.
func TestWatchAfterAStandstill(t *testing.T) {
	const limit = time.Minute
	h := replying(t, "00 0000 00 00000000")
	over := make(chan error, 1)
	go func() { over <- h.watch(limit) }()
	for h.backend.life.silence() > limit {
		select {
		case err := <-over:
			t.Fatal(err)
		case <-time.After(time.Millisecond):
		}
	}
}

// If csid is silent, watch returns when the rest of the limit is over, and does not wait longer for
// its Probe.
func TestTimeOfAProbe(t *testing.T) {
	const limit, left = 5 * time.Second, 500 * time.Millisecond
	path, _ := csid(t, func(conn net.Conn) { io.Copy(io.Discard, conn) })
	h := inFront(path)
	begin := time.Now()
	h.backend.life.shown = begin.Add(left - limit)
	if err := h.watch(limit); err == nil || time.Since(begin) < left || time.Since(begin) > limit-left {
		t.Errorf("%v after %v", err, time.Since(begin))
	}
}

// While the front waits, it sends one Probe a second, even if each is answered at once.
func TestPauseWhileItWaits(t *testing.T) {
	opts := int32(0)
	ctx, cancel := context.WithCancel(context.Background())
	path, _ := csid(t, func(conn net.Conn) {
		for answerOnce(conn, fromHex(t, "00 0000 00 00000004 0a020800")) {
			if atomic.AddInt32(&opts, 1) == 1 {
				time.AfterFunc(200*time.Millisecond, cancel)
			}
		}
	})
	begin := time.Now()
	inFront(path).await(ctx)
	if got, most := atomic.LoadInt32(&opts), 1+int32(time.Since(begin)/time.Second); got > most {
		t.Errorf("asked %d times within %v", got, time.Since(begin))
	}
}

// answerOnce reads a Probe and answers it. It returns false if the connection has ended.
func answerOnce(conn net.Conn, reply []byte) bool {
	head := make([]byte, 2+len(probe)+1+4)
	for got := 0; got < len(head); {
		count, err := conn.Read(head[got:])
		if err != nil {
			return false
		}
		got += count
	}
	conn.Write(reply)
	return true
}

// /livez reports that csid hangs only if csid takes connections and gives no reply. It answers OK
// if csid closes connections, is not there, or answered just before. Without --standby there is no
// /livez.
func TestLiveness(t *testing.T) {
	closing, _ := csid(t, func(net.Conn) {})
	still := func(conn net.Conn) { conn.Read(make([]byte, 1)); time.Sleep(time.Second) }
	mute, _ := csid(t, still)
	busy, _ := csid(t, still)
	rows := []struct {
		name, path string
		standsBy   bool
		status     int
		text       string
	}{
		{"closing", closing, true, http.StatusOK, "ok\n"},
		{"absent", closing + ".absent", true, http.StatusOK, "ok\n"},
		{"mute", mute, true, http.StatusServiceUnavailable, "csid hangs\n"},
		{"busy", busy, true, http.StatusOK, "ok\n"},
		{"without --standby", closing, false, http.StatusNotFound, "404 page not found\n"},
	}
	for _, row := range rows {
		ctx, cancel := context.WithTimeout(context.Background(), 100*time.Millisecond)
		answer, h := httptest.NewRecorder(), inFront(row.path)
		h.standsBy = row.standsBy
		if row.path == busy {
			h.backend.life.shows()
		}
		newMonitor(h, nil, nil).ServeHTTP(answer, httptest.NewRequest("GET", "/livez", nil).WithContext(ctx))
		cancel()
		if answer.Code != row.status || answer.Body.String() != row.text {
			t.Errorf("%s: %d, %q", row.name, answer.Code, answer.Body)
		}
	}
}

// While the front waits, refusals of its own calls are not logged, since it has logged why it
// waits. Afterwards each refusal is logged.
func TestLinesWhileItWaits(t *testing.T) {
	path, _ := csid(t, func(net.Conn) {})
	var said strings.Builder
	h := newHandler(options{csid: path, late: time.Minute, waiting: 1}, newLogger(&said, textLines))
	h.isWaiting.Store(true)
	h.isReady(soon(t))
	if said.Len() > 0 {
		t.Errorf("said %q", said.String())
	}
	h.isWaiting.Store(false)
	h.isReady(soon(t))
	if want := `front: /csi.v1.Identity/Probe 14 "csid: the connection was closed unanswered: see the log ` +
		`of csid" `; !strings.HasPrefix(said.String(), want) {
		t.Errorf("said %q", said.String())
	}
}

// A front that is asked to end while it waits for csid first answers the running calls of its
// control socket.
func TestEndWhileItWaits(t *testing.T) {
	called, isAnswered := make(chan struct{}), make(chan struct{})
	path, _ := csid(t, func(conn net.Conn) {
		requests := frames.NewRequests(conn)
		for request, err := requests.Next(); err == nil; request, err = requests.Next() {
			if request.Path == "/a/b" {
				close(called)
				<-isAnswered
			}
			conn.Write(notFound)
		}
	})
	opts := options{csid: path, late: time.Minute, waiting: 1, standby: time.Minute, grace: 10 * time.Second,
		control: filepath.Join(t.TempDir(), "control.sock")}
	log := newLogger(io.Discard, textLines)
	h := newHandler(opts, log)
	c, err := startControl(h, opts)
	if err != nil {
		t.Fatal(err)
	}
	t.Cleanup(c.close)
	f := &front{opts: opts, log: log, handler: h, control: c, stop: make(chan os.Signal, 2)}
	ended := make(chan int, 1)
	go func() { ended <- f.standBy() }()
	conn := dial(t, opts.control)
	conn.Write(fromHex(t, shortFrame))
	<-called
	f.stop <- syscall.SIGTERM
	select {
	case status := <-ended:
		t.Fatalf("it ended with status %d while a call ran", status)
	case <-time.After(100 * time.Millisecond):
	}
	close(isAnswered)
	if got, err := io.ReadAll(conn); err != nil || !bytes.Equal(got, notFound) {
		t.Errorf("%x, %v", got, err)
	}
	if status := <-ended; status != exitOK {
		t.Errorf("status %d", status)
	}
}

// A call is known to be lost for a late reply by the type of its error, not by its text, which csid
// or a system call could have too.
func TestErrorsOfLateReplies(t *testing.T) {
	late := lateReply(time.Minute)
	for name, row := range map[string]struct {
		reason error
		isLate bool
	}{
		"late":               {late, true},
		"late, in another":   {fmt.Errorf("reading: %w", late), true},
		"text of a late one": {errors.New(late.Error()), false},
		"unanswered":         {errUnanswered, false},
	} {
		t.Run(name, func(t *testing.T) {
			err := refusal(context.Background(), csidName, row.reason)
			if got := errors.As(err, new(lateReply)); got != row.isLate {
				t.Errorf("late: %v", got)
			}
			want := status.New(codes.Unavailable, "csid: "+row.reason.Error())
			if got := status.Convert(err); got.Code() != want.Code() || got.Message() != want.Message() {
				t.Errorf("got %v, wanted %v", got, want)
			}
		})
	}
}

// /livez also reports that csid hangs if the front closes the connection for a late reply while the
// Probe waits.
func TestLivenessAfterALateReply(t *testing.T) {
	mute, _ := csid(t, func(conn net.Conn) { io.Copy(io.Discard, conn) })
	h := newHandler(options{csid: mute, late: 100 * time.Millisecond, waiting: 1, standby: time.Minute},
		newLogger(io.Discard, textLines))
	first, cancel := context.WithTimeout(context.Background(), 20*time.Millisecond)
	defer cancel()
	h.backend.call(first, "/a/b", nil)
	if status, text := asks(h, "/livez", time.Second); status != http.StatusServiceUnavailable {
		t.Errorf("%d, %q", status, text)
	}
}
