package tests

import (
	"context"
	"math/rand"
	"net"
	"reflect"
	"strings"
	"sync"
	"testing"
	"time"

	pb "go.etcd.io/etcd/etcdserver/etcdserverpb"
	"google.golang.org/grpc"

	"./clusters"
)

// corruptingProxy is a proxy of a member of etcd. While isCorrupting is true, it removes parts of
// answers.
type corruptingProxy struct {
	pb.KVServer
	pb.LeaseServer
	pb.WatchServer
	member       *grpc.ClientConn
	mutex        sync.Mutex
	random       *rand.Rand
	isCorrupting bool
	corrupted    int
}

// newCorruptingProxy starts a proxy and returns its address.
func newCorruptingProxy(t *testing.T, member string) (*corruptingProxy, string) {
	t.Helper()
	conn, err := grpc.Dial(member, grpc.WithInsecure())
	if err != nil {
		t.Fatal(err)
	}
	listener, err := net.Listen("tcp", "127.0.0.1:0")
	if err != nil {
		t.Fatal(err)
	}
	l := &corruptingProxy{member: conn, random: rand.New(rand.NewSource(7))}
	server := grpc.NewServer()
	pb.RegisterKVServer(server, l)
	pb.RegisterLeaseServer(server, l)
	pb.RegisterWatchServer(server, l)
	go server.Serve(listener)
	t.Cleanup(func() {
		server.Stop()
		conn.Close()
	})
	return l, listener.Addr().String()
}

// set starts or stops the corruption, and returns the number of answers that were corrupted so far.
func (l *corruptingProxy) set(isCorrupting bool) int {
	l.mutex.Lock()
	defer l.mutex.Unlock()
	l.isCorrupting = isCorrupting
	return l.corrupted
}

// corrupt removes a part of about every second answer.
func (l *corruptingProxy) corrupt(answer interface{}) {
	l.mutex.Lock()
	defer l.mutex.Unlock()
	if l.isCorrupting && l.random.Intn(2) == 0 {
		l.corrupted++
		l.removePart(reflect.ValueOf(answer))
	}
}

// removePart sets a random field of the answer, or of one of its parts, to its zero value. It may
// find no such field, and then changes nothing.
func (l *corruptingProxy) removePart(part reflect.Value) {
	for part.Kind() == reflect.Ptr || part.Kind() == reflect.Interface {
		if part.IsNil() {
			return
		}
		part = part.Elem()
	}
	switch {
	case part.Kind() == reflect.Slice && part.Len() > 0 && part.Type().Elem().Kind() == reflect.Ptr:
		l.removePart(part.Index(l.random.Intn(part.Len())))
	case part.Kind() == reflect.Struct:
		field := part.Field(l.random.Intn(part.NumField()))
		if l.random.Intn(2) == 0 && field.Kind() != reflect.Struct {
			field.Set(reflect.Zero(field.Type()))
		} else {
			l.removePart(field)
		}
	}
}

func (l *corruptingProxy) Range(ctx context.Context, request *pb.RangeRequest) (*pb.RangeResponse, error) {
	answer, err := pb.NewKVClient(l.member).Range(ctx, request)
	l.corrupt(answer)
	return answer, err
}

func (l *corruptingProxy) Txn(ctx context.Context, request *pb.TxnRequest) (*pb.TxnResponse, error) {
	answer, err := pb.NewKVClient(l.member).Txn(ctx, request)
	l.corrupt(answer)
	return answer, err
}

func (l *corruptingProxy) DeleteRange(ctx context.Context, request *pb.DeleteRangeRequest) (
	*pb.DeleteRangeResponse, error) {
	answer, err := pb.NewKVClient(l.member).DeleteRange(ctx, request)
	l.corrupt(answer)
	return answer, err
}

func (l *corruptingProxy) LeaseGrant(ctx context.Context, request *pb.LeaseGrantRequest) (
	*pb.LeaseGrantResponse, error) {
	answer, err := pb.NewLeaseClient(l.member).LeaseGrant(ctx, request)
	l.corrupt(answer)
	return answer, err
}

func (l *corruptingProxy) LeaseRevoke(ctx context.Context, request *pb.LeaseRevokeRequest) (
	*pb.LeaseRevokeResponse, error) {
	answer, err := pb.NewLeaseClient(l.member).LeaseRevoke(ctx, request)
	l.corrupt(answer)
	return answer, err
}

func (l *corruptingProxy) LeaseKeepAlive(stream pb.Lease_LeaseKeepAliveServer) error {
	member, err := pb.NewLeaseClient(l.member).LeaseKeepAlive(stream.Context())
	for err == nil {
		var request *pb.LeaseKeepAliveRequest
		if request, err = stream.Recv(); err == nil {
			err = member.Send(request)
		}
		var answer *pb.LeaseKeepAliveResponse
		if err == nil {
			answer, err = member.Recv()
		}
		if err == nil {
			l.corrupt(answer)
			err = stream.Send(answer)
		}
	}
	return err
}

func (l *corruptingProxy) Watch(stream pb.Watch_WatchServer) error {
	member, err := pb.NewWatchClient(l.member).Watch(stream.Context())
	if err != nil {
		return err
	}
	go func() {
		for request, err := stream.Recv(); err == nil; request, err = stream.Recv() {
			member.Send(request)
		}
	}()
	for {
		answer, err := member.Recv()
		if err != nil {
			return err
		}
		l.corrupt(answer)
		if err := stream.Send(answer); err != nil {
			return err
		}
	}
}

// While etcd's answers lack parts, a program refuses calls or closes connections, and keeps
// running. Afterwards it leads and makes changes.
func TestCorruptedAnswers(t *testing.T) {
	t.Parallel()
	cluster := clusters.Start(t, 1)
	relay, address := newCorruptingProxy(t, cluster.Members[0].Address)
	p := start(t, address, "--lease", "2", "--timeout", "500ms").waitLeading(t)
	p.dial(t).wantReply(t, makePath, "", 0, "")
	relay.set(true)
	for end := time.Now().Add(15 * time.Second); time.Now().Before(end); time.Sleep(10 * time.Millisecond) {
		l, err := dial(p.Socket)
		if err != nil {
			t.Fatalf("got no connection: %v: %s", err, p.Log)
		}
		l.call(readPath, nil)
		l.call(commitPath, attach(1, "n", false))
		l.call(commitPath, setMutable(1, ""))
		l.call(leadPath, nil)
		l.Close()
	}
	if corrupted := relay.set(false); corrupted < 50 {
		t.Errorf("got %d corrupted answers, want 50 or more", corrupted)
	}
	p.waitConfirmsLead(t)
	p.dial(t).mustCommit(t, addVolume(1, "a"))
	if log := p.Log.String(); strings.Contains(log, "panic") || hasEnded(p.Process) ||
		!strings.Contains(log, "etcd's answer is malformed: ") {
		t.Errorf("ended: %v, want a program that reports malformed answers: %s", hasEnded(p.Process), log)
	}
}
