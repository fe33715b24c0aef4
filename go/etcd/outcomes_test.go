package main

import (
	"context"
	"errors"
	"fmt"
	"net"
	"sync/atomic"
	"testing"
	"time"

	"go.etcd.io/etcd/clientv3"
	"go.etcd.io/etcd/etcdserver/api/v3rpc/rpctypes"
	pb "go.etcd.io/etcd/etcdserver/etcdserverpb"
	"go.uber.org/zap"
	"google.golang.org/grpc"
	"google.golang.org/grpc/codes"
	"google.golang.org/grpc/status"
)

// The errors of the first two codes prove that a transaction was not made. The errors below
// codes.OK prove nothing.
func TestNotMade(t *testing.T) {
	exhausted := func(text string) error { return status.Error(codes.ResourceExhausted, text) }
	cases := map[codes.Code][]error{
		codes.ResourceExhausted: {
			rpctypes.ErrGRPCRequestTooLarge,
			exhausted("trying to send message larger than max (5 vs. 4)"),
			exhausted("grpc: received message larger than max (5 vs. 4)"),
		},
		codes.Internal: {
			rpctypes.ErrGRPCRequestTooManyRequests, rpctypes.ErrGRPCDuplicateKey, rpctypes.ErrGRPCEmptyKey,
			rpctypes.ErrGRPCTooManyOps, rpctypes.ErrGRPCPermissionDenied, rpctypes.ErrGRPCInvalidAuthToken,
			rpctypes.ErrGRPCUserEmpty, rpctypes.ErrGRPCAuthOldRevision, rpctypes.ErrGRPCAuthFailed,
			rpctypes.ErrGRPCNoLeader,
		},
		// These prove nothing.
		codes.OK: {
			nil, errors.New("any"), context.DeadlineExceeded, context.Canceled,
			rpctypes.ErrGRPCNoSpace, rpctypes.ErrGRPCTimeout, rpctypes.ErrGRPCTimeoutDueToLeaderFail,
			rpctypes.ErrGRPCTimeoutDueToConnectionLost, rpctypes.ErrGRPCLeaderChanged, rpctypes.ErrGRPCStopped,
			rpctypes.ErrGRPCNotLeader, rpctypes.ErrGRPCUnhealthy, rpctypes.ErrGRPCCorrupt, rpctypes.ErrGRPCNotCapable,
			status.Error(codes.Unavailable, "transport is closing"),
			status.Error(codes.Unknown, "raft proposal dropped"),
			exhausted("any"), status.Error(codes.Canceled, "any"), status.Error(codes.Internal, "any"),
		},
	}
	for want, errs := range cases {
		for _, err := range errs {
			t.Run(fmt.Sprint(err), func(t *testing.T) {
				got, ok := notMade(rpctypes.Error(err))
				if ok != (want != codes.OK) || got.code != want {
					t.Errorf("got %v, certain: %v, want %v", got.code, ok, want)
				}
			})
		}
	}
}

// failingServer is an etcd that counts transactions. It answers each with the next one of errors,
// and after the last one with OK.
type failingServer struct {
	pb.KVServer
	errors   []error
	requests int32
}

func (s *failingServer) Txn(_ context.Context, request *pb.TxnRequest) (*pb.TxnResponse, error) {
	requests := int(atomic.AddInt32(&s.requests, 1))
	if requests <= len(s.errors) {
		return nil, s.errors[requests-1]
	}
	return &pb.TxnResponse{Header: &pb.ResponseHeader{Revision: 200}, Succeeded: true,
		Responses: responses(request.Success)}, nil
}

// start starts the server and returns a client of it.
func (s *failingServer) start(t *testing.T, options ...grpc.DialOption) *clientv3.Client {
	t.Helper()
	return startServer(t, s, 1, options...)
}

// serveEtcd starts a server of etcd's services and returns its address.
func serveEtcd(t *testing.T, kv pb.KVServer) (address string) {
	t.Helper()
	listener, err := net.Listen("tcp", "127.0.0.1:0")
	if err != nil {
		t.Fatal(err)
	}
	server := grpc.NewServer()
	pb.RegisterKVServer(server, kv)
	if lender, ok := kv.(pb.LeaseServer); ok {
		pb.RegisterLeaseServer(server, lender)
	}
	if guard, ok := kv.(pb.AuthServer); ok {
		pb.RegisterAuthServer(server, guard)
	}
	if teller, ok := kv.(pb.WatchServer); ok {
		pb.RegisterWatchServer(server, teller)
	}
	go server.Serve(listener)
	t.Cleanup(server.Stop)
	return listener.Addr().String()
}

// startServer starts a server, and returns a client. The client has as many endpoints as members
// says, and each is this server.
func startServer(t *testing.T, kv pb.KVServer, members int, options ...grpc.DialOption) *clientv3.Client {
	t.Helper()
	address := serveEtcd(t, kv)
	var endpoints []string
	for i := 0; i < members; i++ {
		endpoints = append(endpoints, address)
	}
	options = append(options, grpc.WithChainStreamInterceptor(checkStream))
	client, err := clientv3.New(clientv3.Config{Endpoints: endpoints, DialOptions: options,
		LogConfig: &zap.Config{Level: zap.NewAtomicLevelAt(zap.FatalLevel), Encoding: "json"}})
	if err != nil {
		t.Fatal(err)
	}
	t.Cleanup(func() { client.Close() })
	return client
}

// The program's own client sends a transaction to etcd once, unless etcd refused its token. etcd's
// client alone sends it again if the server answers that it was canceled or that its deadline is
// over.
func TestSentOnce(t *testing.T) {
	cases := []struct {
		name     string
		err      error
		isOnce   bool
		requests int32
	}{
		{"canceled, etcd's client alone", status.Error(codes.Canceled, "any"), false, 2},
		{"late, etcd's client alone", status.Error(codes.DeadlineExceeded, "any"), false, 2},
		{"canceled", status.Error(codes.Canceled, "any"), true, 1},
		{"late", status.Error(codes.DeadlineExceeded, "any"), true, 1},
		{"unavailable", status.Error(codes.Unavailable, "etcdserver: leader changed"), true, 1},
		{"old token", rpctypes.ErrGRPCAuthOldRevision, true, 2},
		{"unknown token", rpctypes.ErrGRPCInvalidAuthToken, true, 2},
	}
	for _, c := range cases {
		t.Run(c.name, func(t *testing.T) {
			server := &failingServer{errors: []error{c.err}}
			opts := options{endpoints: []string{serveEtcd(t, server)}, timeout: 5 * time.Second}
			client, err := newMembers(opts, t.Logf).connect()
			if err != nil {
				t.Fatal(err)
			}
			t.Cleanup(func() { client.Close() })
			ctx, cancel := context.WithTimeout(context.Background(), 5*time.Second)
			defer cancel()
			if c.isOnce {
				ctx = withSendOnce(ctx)
			}
			_, err = client.Txn(ctx).Then(clientv3.OpPut("a", "b")).Commit()
			if got := atomic.LoadInt32(&server.requests); got != c.requests || (err == nil) != (c.requests == 2) {
				t.Errorf("got %d requests, error %v, want %d requests", got, err, c.requests)
			}
			if err == nil {
				return
			}
			if reason, ok := notMade(err); ok {
				t.Errorf("got the certain refusal %v, want an unknown outcome", reason)
			}
		})
	}
}
