package main

import (
	"context"
	"sync/atomic"
	"testing"
	"time"

	pb "go.etcd.io/etcd/etcdserver/etcdserverpb"
	"go.etcd.io/etcd/mvcc/mvccpb"
)

// olderServer is an etcd at revision 100 whose only candidate holds the lock. released receives a
// value if the key of the lock is deleted.
type olderServer struct {
	leaseServer
	released chan struct{}
}

func (s *olderServer) Txn(_ context.Context, request *pb.TxnRequest) (*pb.TxnResponse, error) {
	return &pb.TxnResponse{Header: &pb.ResponseHeader{Revision: 100}, Succeeded: true,
		Responses: responses(request.Success)}, nil
}

func (s *olderServer) Range(context.Context, *pb.RangeRequest) (*pb.RangeResponse, error) {
	key := &mvccpb.KeyValue{Key: []byte(sampleKeys.lock(1)), CreateRevision: 5, ModRevision: 6}
	return &pb.RangeResponse{Header: &pb.ResponseHeader{Revision: 100}, Kvs: []*mvccpb.KeyValue{key}}, nil
}

func (s *olderServer) DeleteRange(context.Context, *pb.DeleteRangeRequest) (*pb.DeleteRangeResponse, error) {
	s.released <- struct{}{}
	return &pb.DeleteRangeResponse{Header: &pb.ResponseHeader{}}, nil
}

// If a call sees an older snapshot, this program leads no more, but keeps the lock: a waiting
// program would serve the older rows, as it does not know the later ones.
func TestOlderKeepsTheLock(t *testing.T) {
	server := &olderServer{leaseServer{length: 60, answered: 99, requests: make(chan time.Duration, 99)},
		make(chan struct{}, 9)}
	opts := options{name: sampleKeys.name, endpoints: []string{serveEtcd(t, server)}, timeout: 5 * time.Second,
		lease: 60, id: "me"}
	state, drops := &leadership{}, int32(0)
	c := &candidate{opts: opts, members: newMembers(opts, t.Logf), keys: sampleKeys, revisions: &revisions{},
		state: state, logf: t.Logf, drop: func() { atomic.AddInt32(&drops, 1) }}
	ctx, cancel := context.WithCancel(context.Background())
	ended := make(chan struct{})
	go func() { c.run(ctx); close(ended) }()
	defer func() { cancel(); <-ended }()
	leading, _ := state.current()
	for begin := time.Now(); leading == nil && time.Since(begin) < 20*time.Second; time.Sleep(10 * time.Millisecond) {
		leading, _ = state.current()
	}
	c.revisions.record(110)
	if err := leading.confirmLead(leading.ctx); err == nil || !leading.isOver() {
		t.Errorf("got error %v, over %v, want a refusal and the end of the term", err, leading.isOver())
	}
	select {
	case <-server.released:
		t.Error("the lock was released")
	case <-time.After(3 * leadingPause):
	}
	if got, reason := state.current(); got != nil || reason != olderRefusal(110, 100) || atomic.LoadInt32(&drops) == 0 {
		t.Errorf("got term %v, refusal %v, %d drops", got, reason, drops)
	}
}
