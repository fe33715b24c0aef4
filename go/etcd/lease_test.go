package main

import (
	"context"
	"fmt"
	"os"
	"os/exec"
	"reflect"
	"testing"
	"time"

	"go.etcd.io/etcd/clientv3"
	"go.etcd.io/etcd/etcdserver/api/v3rpc/rpctypes"
	pb "go.etcd.io/etcd/etcdserver/etcdserverpb"
	"google.golang.org/grpc/codes"
	"google.golang.org/grpc/status"
)

// leaseServer is an etcd that grants a lease and renews it, and records revoked leases and deleted
// keys.
type leaseServer struct {
	pb.KVServer
	pb.LeaseServer
	// The length of the lease in seconds, and the delay of each answer.
	length int64
	delay  time.Duration
	// requests receives the time of each request on the clock of sinceBoot. answered is the number
	// of answers on each stream; further requests get none.
	requests chan time.Duration
	answered int
	// Errors of revocations by lease, and the revoked leases.
	revokeErrors map[int64]error
	revoked      []int64
	// Errors of deletions by key, and the deleted keys.
	deleteErrors map[string]error
	deleted      []string
}

func (s *leaseServer) LeaseRevoke(_ context.Context, request *pb.LeaseRevokeRequest) (*pb.LeaseRevokeResponse, error) {
	if err := s.revokeErrors[request.ID]; err != nil {
		return nil, err
	}
	s.revoked = append(s.revoked, request.ID)
	return &pb.LeaseRevokeResponse{Header: &pb.ResponseHeader{}}, nil
}

func (s *leaseServer) DeleteRange(_ context.Context, request *pb.DeleteRangeRequest) (*pb.DeleteRangeResponse, error) {
	if err := s.deleteErrors[string(request.Key)]; err != nil {
		return nil, err
	}
	s.deleted = append(s.deleted, string(request.Key))
	return &pb.DeleteRangeResponse{Header: &pb.ResponseHeader{}}, nil
}

func (s *leaseServer) LeaseGrant(context.Context, *pb.LeaseGrantRequest) (*pb.LeaseGrantResponse, error) {
	s.requests <- sinceBoot()
	time.Sleep(s.delay)
	return &pb.LeaseGrantResponse{Header: &pb.ResponseHeader{Revision: 7}, ID: 1, TTL: s.length}, nil
}

func (s *leaseServer) LeaseKeepAlive(stream pb.Lease_LeaseKeepAliveServer) error {
	for answered := 0; ; answered++ {
		request, err := stream.Recv()
		if err != nil {
			return err
		}
		s.requests <- sinceBoot()
		time.Sleep(s.delay)
		if answered < s.answered {
			if err := stream.Send(&pb.LeaseKeepAliveResponse{ID: request.ID, TTL: s.length}); err != nil {
				return err
			}
		}
	}
}

// The length of a lease counts from the moment at which the request for it, or for its renewal, was
// sent. A delayed answer does not make it longer.
func TestLeaseCounts(t *testing.T) {
	server := &leaseServer{length: 600, delay: 50 * time.Millisecond, requests: make(chan time.Duration, 99),
		answered: 1}
	client := startServer(t, server, 1)
	l, revision, err := grantLease(context.Background(), client, 600)
	if err != nil || revision != 7 || l.length != 600*time.Second || !l.isAlive() {
		t.Fatalf("got %+v, revision %d, error %v, want a lease of 600 s at revision 7", l, revision, err)
	}
	if latest := <-server.requests + l.length; l.expiry > latest {
		t.Errorf("the lease counts from %v after the request", l.expiry-latest)
	}
	l.expiry = sinceBoot() + time.Minute
	ctx, cancel := context.WithCancel(context.Background())
	done := make(chan error, 1)
	go func() { done <- l.keepAlive(ctx) }()
	latest := <-server.requests + l.length
	for end := time.Now().Add(10 * time.Second); l.remaining() <= time.Minute; time.Sleep(time.Millisecond) {
		if time.Now().After(end) {
			t.Fatal("the lease was not renewed")
		}
	}
	cancel()
	<-done
	if l.expiry > latest {
		t.Errorf("the renewed lease counts from %v after the request", l.expiry-latest)
	}
}

// The clock of leases is the time since the boot, which goes on while the machine sleeps. A time
// namespace shifts this clock and no other.
func TestClock(t *testing.T) {
	const isWithin, moved = "CLOCK_IS_MOVED", 100000 * time.Second
	if os.Getenv(isWithin) != "" {
		fmt.Println(int64(sinceBoot()))
		return
	}
	command := exec.Command("unshare", "--time", "--boottime", "100000", "--fork", os.Args[0], "-test.run",
		"^TestClock$")
	command.Env = append(os.Environ(), isWithin+"=1")
	begin := sinceBoot()
	output, err := command.Output()
	if err != nil {
		t.Skipf("left out: no namespace of clocks: %v", err)
	}
	var within int64
	if _, err := fmt.Sscan(string(output), &within); err != nil {
		t.Fatalf("%v: %s", err, output)
	}
	if apart := time.Duration(within) - begin; apart < moved || apart > moved+time.Minute {
		t.Errorf("got clocks %v apart, want %v", apart, moved)
	}
}

// A lease that ends while timers stop, as during a sleep of the machine, is over at the next look
// at the clock.
func TestLeaseOverAfterSleep(t *testing.T) {
	l := &lease{length: time.Hour, expiry: sinceBoot() + time.Hour}
	done := make(chan error, 1)
	go func() { done <- l.waitExpired(context.Background()) }()
	select {
	case err := <-done:
		t.Fatalf("the wait ended: %v", err)
	case <-time.After(50 * time.Millisecond):
	}
	l.extend(sinceBoot() - l.length)
	select {
	case err := <-done:
		if err != errLeaseOver {
			t.Errorf("got error %v, want %v", err, errLeaseOver)
		}
	case <-time.After(5 * time.Second):
		t.Error("the clock was not read again")
	}
}

// A lease is renewed four times in its length: the next request comes a quarter of the length after
// the last answer.
func TestRenewedInTime(t *testing.T) {
	const length = 6 * time.Second
	server := &leaseServer{length: 600, requests: make(chan time.Duration, 99), answered: 99}
	l := &lease{client: startServer(t, server, 1), length: length, expiry: sinceBoot()}
	ctx, cancel := context.WithCancel(context.Background())
	done := make(chan error, 1)
	go func() { done <- l.renew(ctx) }()
	first := <-server.requests
	if took := <-server.requests - first; took < length/5 || took > length/2 {
		t.Errorf("got the next request after %v, want about %v", took, length/4)
	}
	cancel()
	<-done
}

// A lease is over when etcd no longer knows it, or when no answer has kept it in time.
func TestLeaseOver(t *testing.T) {
	cases := []struct {
		name   string
		server *leaseServer
		left   time.Duration
	}{
		{"not known", &leaseServer{length: 0, answered: 1}, time.Minute},
		{"not answered", &leaseServer{length: 60}, 50 * time.Millisecond},
	}
	for _, c := range cases {
		t.Run(c.name, func(t *testing.T) {
			c.server.requests = make(chan time.Duration, 99)
			ctx, cancel := context.WithTimeout(context.Background(), 10*time.Second)
			defer cancel()
			client := startServer(t, c.server, 1)
			l := &lease{client: client, length: time.Minute, expiry: sinceBoot() + c.left}
			if err := l.keepAlive(ctx); err != errLeaseOver {
				t.Errorf("got error %v, want %v", err, errLeaseOver)
			}
		})
	}
}

// A stream with a late answer is given up for another one, even after earlier answers.
func TestLateLease(t *testing.T) {
	for _, answered := range []int{0, 1} {
		t.Run(fmt.Sprintf("after %d answers", answered), func(t *testing.T) {
			server := &leaseServer{length: 1, requests: make(chan time.Duration, 99), answered: answered}
			l := &lease{client: startServer(t, server, 1), length: 80 * time.Millisecond, expiry: sinceBoot()}
			ctx, cancel := context.WithCancel(context.Background())
			done := make(chan error, 1)
			go func() { done <- l.renew(ctx) }()
			// A stream carries the answered requests and one request that is not answered.
			for i := 0; i < answered+2; i++ {
				select {
				case <-server.requests:
				case <-time.After(10 * time.Second):
					t.Fatalf("got %d requests, want %d", i, answered+2)
				}
			}
			cancel()
			<-done
		})
	}
}

// If etcd could not revoke a lease or delete its key, both are tried again the next time. A lease
// that etcd does not know has ended.
func TestReleaseLeases(t *testing.T) {
	failure := status.Error(codes.Internal, "any")
	locks := sampleKeys.locks()
	server := &leaseServer{revokeErrors: map[int64]error{1: failure, 3: rpctypes.ErrGRPCLeaseNotFound},
		deleteErrors: map[string]error{locks + "1a": failure}}
	client := startServer(t, server, 1)
	c := &candidate{opts: options{timeout: 5 * time.Second}, keys: sampleKeys, leases: []clientv3.LeaseID{1, 2, 3, 26}}
	check := func(left []clientv3.LeaseID, revoked []int64, deleted []string) {
		t.Helper()
		c.releaseLeases(client)
		if !reflect.DeepEqual(c.leases, left) || !reflect.DeepEqual(server.revoked, revoked) ||
			!reflect.DeepEqual(server.deleted, deleted) {
			t.Errorf("got %v left, %v revoked, %q deleted, want %v, %v, %q",
				c.leases, server.revoked, server.deleted, left, revoked, deleted)
		}
	}
	deleted := []string{locks + "1", locks + "2", locks + "3"}
	check([]clientv3.LeaseID{1, 26}, []int64{2}, deleted)
	server.revokeErrors, server.deleteErrors = nil, nil
	check(nil, []int64{2, 1, 26}, append(deleted, locks+"1", locks+"1a"))
}
