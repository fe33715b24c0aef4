package main

import (
	"context"
	"errors"
	"io"
	"net"
	"syscall"
	"testing"
	"time"

	pb "go.etcd.io/etcd/etcdserver/etcdserverpb"
	"google.golang.org/grpc/codes"

	"fomaheti/frames"
)

// A csid that does not read its reply delays the next connection only for a moment.
func TestReplyNotTaken(t *testing.T) {
	state := &leadership{}
	state.set(nil, refuse("waiting"))
	s := &server{state: state, logf: t.Logf}
	call := frames.AppendRequestHead(nil, leadPath, 0)
	connect := func() net.Conn {
		own, other := net.Pipe()
		t.Cleanup(func() { own.Close() })
		s.take(other)
		if _, err := own.Write(call); err != nil {
			t.Fatal(err)
		}
		return own
	}
	first := connect()
	// One byte of the reply is read. The rest keeps the server writing.
	if _, err := first.Read(make([]byte, 1)); err != nil {
		t.Fatal(err)
	}
	start := time.Now()
	second := connect()
	second.SetReadDeadline(start.Add(replyTime))
	reply, err := frames.NewReplies(second).Next()
	if took := time.Since(start); err != nil || reply.Text != "waiting" || took > replyTime/2 {
		t.Errorf("got %v, error %v after %v, want waiting within %v", reply, err, took, replyTime/2)
	}
}

// If several connections wait for the end of a call of an earlier connection, only the newest one
// is answered.
func TestReplacedWhileItWaits(t *testing.T) {
	state := &leadership{}
	state.set(nil, refuse("waiting"))
	s := &server{state: state, logf: t.Logf}
	var all [3]net.Conn
	for i := range all {
		own, other := net.Pipe()
		defer own.Close()
		own.SetDeadline(time.Now().Add(replyTime))
		all[i] = own
		s.take(other)
		if _, err := own.Write(frames.AppendRequestHead(nil, leadPath, 0)); err != nil {
			t.Fatal(err)
		}
		if i == 0 {
			// One byte of the reply is read. The rest keeps the server writing while the others
			// arrive.
			if _, err := own.Read(make([]byte, 1)); err != nil {
				t.Fatal(err)
			}
		}
	}
	go io.Copy(io.Discard, all[0])
	if reply, err := frames.NewReplies(all[1]).Next(); err != io.EOF {
		t.Errorf("the one before the newest: got %v, error %v, want %v", reply, err, io.EOF)
	}
	if reply, err := frames.NewReplies(all[2]).Next(); err != nil || reply.Text != "waiting" {
		t.Errorf("the newest: got %v, error %v, want waiting", reply, err)
	}
}

// A reply that starts after a newer connection has arrived delays the newer connection only for a
// moment.
func TestReplyAfterReplacement(t *testing.T) {
	own, other := net.Pipe()
	defer own.Close()
	c := &connection{Conn: other, replaced: make(chan struct{})}
	c.replace()
	start := time.Now()
	if err, took := c.reply(frames.Reply{Text: "a"}), time.Since(start); err == nil || took > replyTime/2 {
		t.Errorf("got error %v after %v, want one within %v", err, took, replyTime/2)
	}
}

// A term that has ended, or whose lease has expired unnoticed, answers nothing. Before that it
// answers.
func TestTermOver(t *testing.T) {
	ctx, cancel := context.WithCancel(context.Background())
	term := &term{client: startServer(t, &lockServer{looks: []look{{0, 5, nil}}}, 1), revisions: &revisions{},
		timeout: 5 * time.Second, key: "k", created: 5, lease: &lease{expiry: sinceBoot() + time.Hour}, ctx: ctx,
		end: cancel}
	state := &leadership{}
	state.set(term, refusal{})
	s := &server{state: state, logf: t.Logf}
	ask := func() (frames.Reply, error) { return s.handle(&connection{}, frames.Request{Path: leadPath}) }
	if reply, err := ask(); err != nil || reply.Code != codes.OK {
		t.Errorf("it leads: got %v, error %v, want OK", reply, err)
	}
	term.lease.expiry = sinceBoot()
	if reply, err := ask(); err != errOver {
		t.Errorf("its lease is over: got %v, error %v, want %v", reply, err, errOver)
	}
	term.lease.expiry = sinceBoot() + time.Hour
	term.end()
	if reply, err := ask(); err != errOver {
		t.Errorf("it was ended: got %v, error %v, want %v", reply, err, errOver)
	}
}

// failingListener is a listener whose Accept fails with the next one of its failures.
type failingListener struct {
	net.Listener
	failures []error
}

func (l *failingListener) Accept() (net.Conn, error) {
	failure := l.failures[0]
	l.failures = l.failures[1:]
	return nil, failure
}

// If the process has no file left for a connection, the connection is accepted later. Any other
// failure is returned.
func TestAccept(t *testing.T) {
	full := &net.OpError{Op: "accept", Err: syscall.EMFILE}
	cases := []struct {
		name     string
		failures []error
		want     string
	}{
		{"no files, then closed", []error{full, full, net.ErrClosed}, ""},
		{"closed", []error{&net.OpError{Op: "accept", Err: net.ErrClosed}}, ""},
		{"no files, then another failure", []error{full, errors.New("any")}, "taking connections: any"},
	}
	for _, c := range cases {
		t.Run(c.name, func(t *testing.T) {
			listener := &failingListener{failures: c.failures}
			if err := (&server{}).accept(listener); errorText(err) != c.want || len(listener.failures) > 0 {
				t.Errorf("got error %v, %d failures left, want %q and none", err, len(listener.failures), c.want)
			}
		})
	}
}

// blockingServer is an etcd whose second read waits for release. It sends this read and each change
// to events.
type blockingServer struct {
	rowServer
	release chan struct{}
	events  chan string
}

func (s *blockingServer) Range(ctx context.Context, request *pb.RangeRequest) (*pb.RangeResponse, error) {
	read, err := s.rowServer.Range(ctx, request)
	if len(s.revisions) == 2 {
		s.events <- "a reading"
		<-s.release
	}
	return read, err
}

func (s *blockingServer) Txn(ctx context.Context, request *pb.TxnRequest) (*pb.TxnResponse, error) {
	if request.Success[0].GetRequestDeleteRange() != nil {
		s.events <- "a change"
	}
	return s.rowServer.Txn(ctx, request)
}

// connect connects to the server and returns csid's end of the connection.
func connect(t *testing.T, s *server) net.Conn {
	t.Helper()
	own, other := net.Pipe()
	t.Cleanup(func() { own.Close() })
	s.take(other)
	return own
}

func call(conn net.Conn, path string, message []byte) (frames.Reply, error) {
	conn.SetDeadline(time.Now().Add(20 * time.Second))
	if _, err := conn.Write(append(frames.AppendRequestHead(nil, path, len(message)), message...)); err != nil {
		return frames.Reply{}, err
	}
	return frames.NewReplies(conn).Next()
}

// A change waits for rows that are read ahead, even for another connection: the calls of a term are
// served one at a time.
func TestReadAhead(t *testing.T) {
	for _, c := range []struct {
		name      string
		isAnother bool
	}{{"same connection", false}, {"another connection", true}} {
		t.Run(c.name, func(t *testing.T) {
			etcd := &blockingServer{rowServer: rowServer{rows: map[string]string{}}, release: make(chan struct{}),
				events: make(chan string, 9)}
			for n := uint64(1); n <= 4; n++ {
				etcd.rows[sampleKeys.volume(n)] = string(sized(t, n, 1<<20).encoded())
			}
			ctx, cancel := context.WithCancel(context.Background())
			t.Cleanup(cancel)
			term := &term{client: startServer(t, etcd, 1), keys: sampleKeys,
				lease:     &lease{expiry: sinceBoot() + time.Hour},
				revisions: &revisions{}, timeout: time.Minute, ctx: ctx, end: cancel, key: "k"}
			s := &server{state: &leadership{term: term}, logf: t.Logf}
			conn := connect(t, s)
			if reply, err := call(conn, readPath, nil); err != nil || reply.Code != codes.OK {
				t.Fatalf("got %v, error %v, want OK", reply, err)
			}
			if event := <-etcd.events; event != "a reading" {
				t.Fatalf("got %s, want a reading", event)
			}
			if c.isAnother {
				conn = connect(t, s)
			}
			done := make(chan error, 1)
			go func() {
				reply, err := call(conn, commitPath, fromHex(t, "2205 0807 12016e"))
				if err == nil && reply.Code != codes.OK {
					err = errors.New(reply.Text)
				}
				done <- err
			}()
			select {
			case event := <-etcd.events:
				t.Errorf("got %s while rows were read", event)
			case <-time.After(50 * time.Millisecond):
			}
			close(etcd.release)
			if err := <-done; err != nil {
				t.Errorf("got error %v", err)
			}
		})
	}
}

// A connection that was accepted just before the end, and arrives after it, is closed, and no call
// of it is answered: nobody would wait for its change before the lock is released.
func TestConnectionAfterTheEnd(t *testing.T) {
	s := &server{state: &leadership{refusal: refuse("waiting")}, logf: t.Logf}
	s.end()
	own := connect(t, s)
	if reply, err := call(own, leadPath, nil); err == nil {
		t.Errorf("got %v, want a closed connection", reply)
	}
}
