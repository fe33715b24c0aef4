package main

import (
	"context"
	"errors"
	"net"
	"os"
	"path/filepath"
	"strings"
	"testing"
	"time"

	"go.etcd.io/etcd/clientv3"
	"go.etcd.io/etcd/etcdserver/api/v3rpc/rpctypes"
	pb "go.etcd.io/etcd/etcdserver/etcdserverpb"
	"google.golang.org/grpc"
	"google.golang.org/grpc/codes"
	"google.golang.org/grpc/metadata"
	"google.golang.org/grpc/status"
)

// A line names the members that caused an error: the members that refused, the members that were
// unreachable, or all members if none answered. It names none for an error that does not come from
// etcd.
func TestMembersOf(t *testing.T) {
	m := newMembers(options{endpoints: []string{"a:1", "b:2", "c:3"}}, t.Logf)
	m.refused["b:2"] = "etcdserver: permission denied"
	silence := status.Error(codes.Unavailable, "transport is closing")
	cases := []struct {
		name      string
		unreached map[string]string
		err       error
		want      string
	}{
		{"nothing", nil, nil, ""},
		{"refused", nil, rpctypes.ErrPermissionDenied, " (b:2)"},
		{"refused, within a text", nil, errors.New("volumes/1: etcdserver: permission denied; nothing was written"),
			" (b:2)"},
		{"refused, while others cannot be reached", map[string]string{"a:1": "no"}, rpctypes.ErrPermissionDenied,
			" (b:2)"},
		{"not of etcd", map[string]string{"a:1": "no"}, errKeyGone, ""},
		{"silence", nil, context.DeadlineExceeded, " (a:1; b:2; c:3)"},
		{"silence of an open outcome", nil, unknownOutcome{silence}, " (a:1; b:2; c:3)"},
		{"some cannot be reached", map[string]string{"a:1": "no", "c:3": "its certificate"}, context.DeadlineExceeded,
			" (a:1: no; c:3: its certificate)"},
		{"the lease is over", map[string]string{"c:3": "no"}, errLeaseOver, " (c:3: no)"},
	}
	for _, c := range cases {
		t.Run(c.name, func(t *testing.T) {
			m.unreached = c.unreached
			if got := m.membersOf(c.err); got != c.want {
				t.Errorf("got %q, want %q", got, c.want)
			}
		})
	}
}

// A line names a member that refuses connections. The line is repeated after the reason has
// changed. After an answer of the member the next line has no reason.
func TestUnreachedMember(t *testing.T) {
	listener, err := net.Listen("tcp", "127.0.0.1:0")
	if err != nil {
		t.Fatal(err)
	}
	address := listener.Addr().String()
	listener.Close()
	m := newMembers(options{endpoints: []string{address}}, t.Logf)
	if _, err := m.dial(context.Background(), address); err == nil {
		t.Fatal("somebody answers")
	}
	var lines []string
	c := &candidate{members: m, state: &leadership{},
		logf: func(_ string, args ...interface{}) { lines = append(lines, args[0].(string)) }}
	c.reportWaiting(context.DeadlineExceeded)
	c.reportWaiting(context.DeadlineExceeded)
	ctx, cancel := context.WithCancel(context.Background())
	m.noteUnreached(ctx, address, errors.New("another reason"))
	cancel()
	m.noteUnreached(ctx, address, errors.New("given up"))
	c.reportWaiting(context.DeadlineExceeded)
	delete(m.unreached, address)
	c.reportWaiting(context.DeadlineExceeded)
	const silent = "no lock: context deadline exceeded ("
	want := silent + address + ": connect: connection refused)\n" + silent + address + ": another reason)\n" + silent +
		address + ")"
	if got := strings.Join(lines, "\n"); got != want {
		t.Errorf("%s\nwanted\n%s", got, want)
	}
}

// failsAt is an invoker: the member at an address answers with an error.
func failsAt(address net.Addr, err error) grpc.UnaryInvoker {
	return func(_ context.Context, _ string, _, _ interface{}, _ *grpc.ClientConn, options ...grpc.CallOption) error {
		options[len(options)-1].(grpc.PeerCallOption).PeerAddr.Addr = address
		return err
	}
}

// A call that this program cancels does not replace the error that a member returned before.
func TestCanceledCallIsNotNoted(t *testing.T) {
	address := &net.TCPAddr{IP: net.IPv4(127, 0, 0, 1), Port: 2379}
	m := newMembers(options{endpoints: []string{address.String()}}, t.Logf)
	ctx, cancel := context.WithCancel(context.Background())
	m.recordAnswer(ctx, "/a/b", nil, nil, nil, failsAt(address, rpctypes.ErrGRPCAuthFailed))
	cancel()
	m.recordAnswer(ctx, "/a/b", nil, nil, nil, failsAt(address, status.Error(codes.Canceled, "context canceled")))
	if got, want := m.membersOf(rpctypes.ErrAuthFailed), " (127.0.0.1:2379)"; got != want {
		t.Errorf("got %q, want %q", got, want)
	}
}

// A call fails if the member that answers is of another cluster than the others, or than before. A
// member that cannot be reached does not count, and an answer without a cluster says nothing.
func TestMembersOfTwoClusters(t *testing.T) {
	of := func(id uint64) interface{} { return &pb.RangeResponse{Header: &pb.ResponseHeader{ClusterId: id}} }
	const two = "the members are of two clusters: a:1 of a, b:2 of b"
	cases := []struct {
		name string
		// The answers before the last one, and the last one. Reply nil stands for a member that
		// cannot be reached.
		before []answerOf
		last   answerOf
		want   string
	}{
		{"the first answer", nil, answerOf{"a:1", of(10)}, ""},
		{"one cluster", []answerOf{{"a:1", of(10)}, {"b:2", of(10)}}, answerOf{"c:3", of(10)}, ""},
		{"two clusters", []answerOf{{"a:1", of(10)}}, answerOf{"b:2", of(11)}, two},
		{"two clusters, again", []answerOf{{"a:1", of(10)}, {"b:2", of(11)}}, answerOf{"b:2", of(11)}, two},
		{"the other one of two", []answerOf{{"a:1", of(11)}, {"b:2", of(11)}, {"b:2", nil}},
			answerOf{"a:1", of(10)}, "a:1 was of cluster b, and is of cluster a"},
		{"a changed cluster, again", []answerOf{{"a:1", of(11)}, {"a:1", of(10)}}, answerOf{"a:1", of(10)}, ""},
		{"another one is gone", []answerOf{{"a:1", of(10)}, {"b:2", of(11)}, {"b:2", nil}},
			answerOf{"a:1", of(10)}, ""},
		{"no cluster", []answerOf{{"a:1", of(10)}}, answerOf{"b:2", of(0)}, ""},
		{"no header", []answerOf{{"a:1", of(10)}}, answerOf{"b:2", &pb.RangeResponse{}}, ""},
		{"no answer of etcd", []answerOf{{"a:1", of(10)}}, answerOf{"b:2", "x"}, ""},
	}
	for _, c := range cases {
		t.Run(c.name, func(t *testing.T) {
			m := newMembers(options{endpoints: []string{"a:1", "b:2", "c:3"}}, t.Logf)
			for _, one := range c.before {
				one.noteIn(m)
			}
			if got := errorText(c.last.noteIn(m)); got != c.want {
				t.Errorf("got %q, want %q", got, c.want)
			}
		})
	}
}

// answerOf is an answer of the member at an endpoint.
type answerOf struct {
	to    string
	reply interface{}
}

func (a answerOf) noteIn(m *members) error {
	if a.reply == nil {
		m.noteUnreached(context.Background(), a.to, errors.New("no"))
		return nil
	}
	return m.noteCluster(a.to, a.reply)
}

// tokenServer is an etcd that accepts only its newest token.
type tokenServer struct {
	failingServer
	pb.AuthServer
	issued []string
}

func (s *tokenServer) Authenticate(ctx context.Context, request *pb.AuthenticateRequest) (
	*pb.AuthenticateResponse, error) {
	if md, _ := metadata.FromIncomingContext(ctx); len(md.Get("token")) > 0 {
		return nil, rpctypes.ErrGRPCInvalidAuthToken
	}
	if request.Name != "csid" || request.Password != "secret" {
		return nil, rpctypes.ErrGRPCAuthFailed
	}
	s.issued = append(s.issued, "token"+strings.Repeat("+", len(s.issued)))
	return &pb.AuthenticateResponse{Header: &pb.ResponseHeader{}, Token: s.issued[len(s.issued)-1]}, nil
}

func (s *tokenServer) Txn(ctx context.Context, request *pb.TxnRequest) (*pb.TxnResponse, error) {
	md, _ := metadata.FromIncomingContext(ctx)
	if tokens := md.Get("token"); len(tokens) != 1 || tokens[0] != s.issued[len(s.issued)-1] {
		return nil, rpctypes.ErrGRPCInvalidAuthToken
	}
	return s.failingServer.Txn(ctx, request)
}

// A user gets a token when the client is made, and another one if etcd no longer knows this token.
// Then the transaction is made once. A wrong password is an error of connect.
func TestLogin(t *testing.T) {
	server := &tokenServer{}
	password := filepath.Join(t.TempDir(), "password")
	if err := os.WriteFile(password, []byte("wrong\n"), 0o600); err != nil {
		t.Fatal(err)
	}
	issued := options{endpoints: []string{serveEtcd(t, server)}, timeout: 5 * time.Second, user: "csid",
		passwordFile: password}
	if _, err := newMembers(issued, t.Logf).connect(); err != rpctypes.ErrAuthFailed {
		t.Fatalf("wrong password: got error %v, want %v", err, rpctypes.ErrAuthFailed)
	}
	issued.passwordFile, issued.password = "", "secret"
	client, err := newMembers(issued, t.Logf).connect()
	if err != nil {
		t.Fatal(err)
	}
	defer client.Close()
	for i := 1; i <= 2; i++ {
		ctx, cancel := context.WithTimeout(context.Background(), 5*time.Second)
		_, err := client.Txn(withSendOnce(ctx)).Then(clientv3.OpPut("a", "b")).Commit()
		cancel()
		if err != nil || int(server.requests) != i || len(server.issued) != i {
			t.Errorf("got error %v, %d transactions, %d tokens, want %d of each", err, server.requests,
				len(server.issued), i)
		}
		// As after a restart of etcd.
		server.issued[len(server.issued)-1] = "forgotten"
	}
}
