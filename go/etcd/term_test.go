package main

import (
	"context"
	"errors"
	"fmt"
	"reflect"
	"sync"
	"testing"
	"time"

	"go.etcd.io/etcd/clientv3"
	"go.etcd.io/etcd/etcdserver/api/v3rpc/rpctypes"
	pb "go.etcd.io/etcd/etcdserver/etcdserverpb"
	"go.etcd.io/etcd/mvcc/mvccpb"
	"google.golang.org/grpc"
	"google.golang.org/grpc/codes"
	"google.golang.org/grpc/metadata"
	"google.golang.org/grpc/status"
)

// scriptedServer is an etcd that answers each transaction with the next one of answers, and each
// read with one key.
type scriptedServer struct {
	pb.KVServer
	mutex    sync.Mutex
	answers  []answer
	requests int
	// The revision of the key in reads, or the error of reads.
	put    int64
	unread error
	// The comparison of each transaction with the key of the lock.
	compared []string
}

// answer is the answer to a transaction: an error, or succeeded, which is true if all comparisons
// held, with the revision and the rows of the reads.
type answer struct {
	err       error
	succeeded bool
	revision  int64
	read      []*mvccpb.KeyValue
}

func (s *scriptedServer) Txn(_ context.Context, request *pb.TxnRequest) (*pb.TxnResponse, error) {
	s.mutex.Lock()
	defer s.mutex.Unlock()
	compared := "nothing"
	if len(request.Compare) > 0 && string(request.Compare[0].Key) == "k" &&
		request.Compare[0].Result == pb.Compare_EQUAL {
		switch revision := request.Compare[0].TargetUnion.(type) {
		case *pb.Compare_CreateRevision:
			compared = fmt.Sprint("made at ", revision.CreateRevision)
		case *pb.Compare_ModRevision:
			compared = fmt.Sprint("put at ", revision.ModRevision)
		}
	}
	s.compared = append(s.compared, compared)
	next := s.answers[s.requests]
	s.requests++
	if next.err != nil {
		return nil, next.err
	}
	done := &pb.TxnResponse{Header: &pb.ResponseHeader{Revision: next.revision}, Succeeded: next.succeeded}
	for _, found := range next.read {
		read := &pb.RangeResponse{}
		if found != nil {
			read.Kvs = append(read.Kvs, found)
		}
		done.Responses = append(done.Responses,
			&pb.ResponseOp{Response: &pb.ResponseOp_ResponseRange{ResponseRange: read}})
	}
	return done, nil
}

func (s *scriptedServer) Range(context.Context, *pb.RangeRequest) (*pb.RangeResponse, error) {
	if s.unread != nil {
		return nil, s.unread
	}
	return &pb.RangeResponse{Header: &pb.ResponseHeader{Revision: 200},
		Kvs: []*mvccpb.KeyValue{{Key: []byte("a"), ModRevision: s.put}}}, nil
}

// newTerm returns a term whose key of the lock was created at revision 10.
func (s *scriptedServer) newTerm(t *testing.T) *term {
	t.Helper()
	client := startServer(t, s, 2, grpc.WithChainUnaryInterceptor(sendOnce))
	ctx, cancel := context.WithCancel(context.Background())
	t.Cleanup(cancel)
	return &term{client: client, keys: sampleKeys, lease: &lease{}, revisions: &revisions{}, timeout: 5 * time.Second,
		ctx: ctx, end: cancel,
		key: "k", created: 10, put: 10, seen: 100}
}

// For each answer of etcd, a change has the wanted outcome. The answer also decides if a fence must
// come before the next change, and if the term ends.
func TestOutcomes(t *testing.T) {
	held := &mvccpb.KeyValue{Key: []byte("k"), CreateRevision: 10, ModRevision: 10}
	madeAgain := &mvccpb.KeyValue{Key: []byte("k"), CreateRevision: 11, ModRevision: 11}
	putAgain := &mvccpb.KeyValue{Key: []byte("k"), CreateRevision: 10, ModRevision: 11}
	made := answer{succeeded: true, revision: 101}
	failure := func(read ...*mvccpb.KeyValue) []answer { return []answer{{revision: 101, read: read}} }
	const keyGone = "this program does not lead any more: its key of the lock is gone"
	cases := []struct {
		name       string
		answers    []answer
		put        int64
		code       codes.Code
		text       string
		needsFence bool
		isOver     bool
	}{
		{"made", []answer{made}, 0, codes.OK, "", false, false},
		{"failed comparison", failure(held, nil, nil), 0, 9, "volumes/00000000000000000007 is not there", false, false},
		{"failed comparison without a trace", failure(held, held, nil), 0, 9, "a comparison failed", false, false},
		{"no key of the lock", failure(nil, nil, nil), 0, 9, keyGone, false, true},
		{"another key of the lock", failure(madeAgain, nil, nil), 0, 9, keyGone, false, true},
		{"key that was put again", failure(putAgain, nil, nil), 0, 9, "the key of the lock was put again", true, false},
		{"no space, and not made", errorAnswers(rpctypes.ErrGRPCNoSpace), 99, codes.ResourceExhausted,
			"etcdserver: mvcc: database space exceeded", false, false},
		{"no space, and made", errorAnswers(rpctypes.ErrGRPCNoSpace), 101, codes.Unknown, "", false, false},
		{"denied", errorAnswers(rpctypes.ErrGRPCPermissionDenied), 0, codes.Internal,
			"etcdserver: permission denied", false, false},
		{"too large", errorAnswers(rpctypes.ErrGRPCRequestTooLarge), 0, codes.ResourceExhausted,
			"etcdserver: request is too large", false, false},
		{"no leader, then made", append(errorAnswers(rpctypes.ErrGRPCNoLeader), made), 0, codes.OK, "", false, false},
		{"no leader at all", errorAnswers(rpctypes.ErrGRPCNoLeader, rpctypes.ErrGRPCNoLeader), 0, codes.Internal,
			"etcdserver: no leader", false, false},
		{"no leader, then unknown", errorAnswers(rpctypes.ErrGRPCNoLeader, rpctypes.ErrGRPCLeaderChanged), 0,
			codes.Unknown, "", true, false},
		{"another leader", errorAnswers(rpctypes.ErrGRPCLeaderChanged), 0, codes.Unknown, "", true, false},
		{"late", errorAnswers(rpctypes.ErrGRPCTimeout), 0, codes.Unknown, "", true, false},
		{"canceled", errorAnswers(status.Error(codes.Canceled, "any")), 0, codes.Unknown, "", true, false},
		{"any other", errorAnswers(errors.New("any")), 0, codes.Unknown, "", true, false},
	}
	for _, c := range cases {
		t.Run(c.name, func(t *testing.T) {
			server := &scriptedServer{answers: c.answers, put: c.put}
			term := server.newTerm(t)
			err := term.commit(context.Background(), &attach{attachment{7, "n", nil, false}})
			if code, text := outcome(err); code != c.code || text != c.text {
				t.Errorf("got %v %q, error %v, want %v %q", code, text, err, c.code, c.text)
			}
			if isOver := term.ctx.Err() != nil; term.needsFence != c.needsFence || isOver != c.isOver {
				t.Errorf("got needsFence %v, over %v, want %v, %v", term.needsFence, isOver, c.needsFence, c.isOver)
			}
			if server.requests != len(c.answers) {
				t.Errorf("got %d requests, want %d", server.requests, len(c.answers))
			}
		})
	}
}

// errorAnswers returns one answer for each error.
func errorAnswers(errs ...error) (answers []answer) {
	for _, err := range errs {
		answers = append(answers, answer{err: err})
	}
	return answers
}

// outcome returns the code and text of a refusal, OK without an error, and Unknown for any other
// error.
func outcome(err error) (codes.Code, string) {
	var refused refusal
	if errors.As(err, &refused) {
		return refused.code, refused.text
	}
	if err != nil {
		return codes.Unknown, ""
	}
	return codes.OK, ""
}

// If etcd answers that it has no space, a change is refused only if a read shows that the key of
// the change is not newer than revision 100, the greatest revision seen before. A deleted key
// leaves no trace that would show if the change was made.
func TestNoSpaceOutcome(t *testing.T) {
	puts, deletes := &attach{attachment{7, "n", nil, false}}, &detach{7, "n"}
	cases := []struct {
		name      string
		change    change
		put       int64
		unread    error
		isRefused bool
	}{
		{"older", puts, 99, nil, true},
		{"the greatest one seen", puts, 100, nil, true},
		{"newer", puts, 101, nil, false},
		{"deleted", deletes, 99, nil, false},
		{"error of the read that would refuse a change", puts, 0, rpctypes.ErrGRPCPermissionDenied, false},
		{"any other error of the read", puts, 0, rpctypes.ErrGRPCLeaderChanged, false},
	}
	for _, c := range cases {
		t.Run(c.name, func(t *testing.T) {
			server := &scriptedServer{answers: []answer{{err: rpctypes.ErrGRPCNoSpace}}, put: c.put, unread: c.unread}
			err := server.newTerm(t).commit(context.Background(), c.change)
			want := codes.Unknown
			if c.isRefused {
				want = codes.ResourceExhausted
			}
			if got, _ := outcome(err); got != want {
				t.Errorf("got %v, error %v, want %v", got, err, want)
			}
		})
	}
}

// After an unknown outcome the key of the lock is put again before the next read or change, which
// then compares the new revision.
func TestFence(t *testing.T) {
	server := &scriptedServer{answers: []answer{{err: rpctypes.ErrGRPCTimeout}, {err: rpctypes.ErrGRPCTimeout},
		{err: rpctypes.ErrGRPCNoSpace}, {succeeded: true, revision: 150}, {succeeded: true, revision: 151}}}
	term := server.newTerm(t)
	change := &detach{7, "n"}
	for i, want := range []string{
		"it is not known whether it was made: etcdserver: request timed out",
		"it is not known whether it was made: etcdserver: request timed out",
		"etcdserver: mvcc: database space exceeded",
	} {
		if err := term.commit(context.Background(), change); err == nil || err.Error() != want || !term.needsFence {
			t.Errorf("change %d: got error %v, needsFence %v, want %s and a fence", i, err, term.needsFence, want)
		}
	}
	if err := term.commit(context.Background(), change); err != nil || term.needsFence || term.put != 150 ||
		term.revisions.least() != 151 {
		t.Errorf("got error %v, needsFence %v, put at %d, answered %d, want none, false, 150, 151",
			err, term.needsFence, term.put, term.revisions.least())
	}
	want := []string{"put at 10", "made at 10", "made at 10", "made at 10", "put at 150"}
	if !reflect.DeepEqual(server.compared, want) {
		t.Errorf("got the comparisons %q, want %q", server.compared, want)
	}
	lost := &scriptedServer{answers: []answer{{err: rpctypes.ErrGRPCTimeout}, {succeeded: false, revision: 150}}}
	term = lost.newTerm(t)
	term.commit(context.Background(), change)
	if err := term.commit(context.Background(), change); err == nil ||
		err.Error() != "this program does not lead any more: its key of the lock is gone" || term.ctx.Err() == nil {
		t.Errorf("without the key: got error %v, term %v", err, term.ctx.Err())
	}
}

// After a revision below the revision of an earlier answer the term answers nothing more, but does
// not end, as its end would release the lock. A change with this revision gets no OK.
func TestOlder(t *testing.T) {
	server := &scriptedServer{answers: []answer{{succeeded: true, revision: 110}, {succeeded: true, revision: 109}}}
	term := server.newTerm(t)
	change := &detach{7, "n"}
	if err := term.commit(context.Background(), change); err != nil {
		t.Fatal(err)
	}
	err := term.commit(context.Background(), change)
	if code, _ := outcome(err); code != codes.Unknown || !term.revisions.isOlder() || term.ctx.Err() != nil {
		t.Errorf("got error %v, term %v, want an unknown outcome and a term that has not ended", err, term.ctx.Err())
	}
}

// A walk starts with a locked read, after a fence if one is due: so it does not read the changes of
// another leading program.
func TestWalkStartsLocked(t *testing.T) {
	server := &scriptedServer{answers: []answer{{err: rpctypes.ErrGRPCTimeout}, {succeeded: true, revision: 150},
		{revision: 151, read: []*mvccpb.KeyValue{nil}}}}
	term := server.newTerm(t)
	term.commit(context.Background(), &detach{7, "n"})
	if _, _, err := newWalk(context.Background(), term); err == nil ||
		err.Error() != "this program does not lead any more: its key of the lock is gone" || term.ctx.Err() == nil {
		t.Errorf("without the key: got error %v, term %v", err, term.ctx.Err())
	}
	if want := []string{"put at 10", "made at 10", "put at 150"}; !reflect.DeepEqual(server.compared, want) {
		t.Errorf("got the comparisons %q, want %q", server.compared, want)
	}
}

// racingServer is an etcd at revision 200. Another answer, of revision 300, arrives before each of
// its answers.
type racingServer struct {
	pb.KVServer
	revisions *revisions
}

func (s *racingServer) Range(context.Context, *pb.RangeRequest) (*pb.RangeResponse, error) {
	s.revisions.record(300)
	return &pb.RangeResponse{Header: &pb.ResponseHeader{Revision: 200}}, nil
}

func (s *racingServer) Txn(context.Context, *pb.TxnRequest) (*pb.TxnResponse, error) {
	s.revisions.record(300)
	return &pb.TxnResponse{Header: &pb.ResponseHeader{Revision: 200}, Succeeded: true}, nil
}

// An answer may be older than another answer that arrived after the request was sent. Such an
// answer does not mean an older snapshot: reads of the lock run at the same time as calls.
func TestSentBefore(t *testing.T) {
	ctx := context.Background()
	cases := map[string]func(t *term) error{
		"queue": func(t *term) error {
			queue, err := t.queue()
			if err == nil {
				err = t.revisions.check(queue.least, queue.revision)
			}
			return err
		},
		"read":        func(t *term) error { _, err := t.get(ctx, "a"); return err },
		"locked read": func(t *term) error { _, err := t.lockedRead(ctx); return err },
		"change":      func(t *term) error { return t.commit(ctx, &detach{7, "n"}) },
		"fence":       func(t *term) error { t.needsFence = true; return t.fence(ctx) },
	}
	server := &racingServer{}
	client := startServer(t, server, 1)
	for name, request := range cases {
		t.Run(name, func(t *testing.T) {
			server.revisions = &revisions{}
			if err := request(newPlainTerm(client, server.revisions)); err != nil {
				t.Errorf("got error %v", err)
			}
		})
	}
}

// newPlainTerm returns a term over a client. The term leads with the key k.
func newPlainTerm(client *clientv3.Client, revisions *revisions) *term {
	return &term{client: client, keys: sampleKeys, lease: &lease{client: client, length: time.Minute},
		revisions: revisions, timeout: 5 * time.Second, ctx: context.Background(), end: func() {}, key: "k"}
}

// leaderServer is an etcd that counts requests. waiting is the number of requests that a member
// without a leader would not refuse at once.
type leaderServer struct {
	pb.KVServer
	pb.LeaseServer
	requests, waiting int
}

func (s *leaderServer) count(ctx context.Context) *pb.ResponseHeader {
	s.requests++
	md, _ := metadata.FromIncomingContext(ctx)
	if !reflect.DeepEqual(md.Get("hasleader"), []string{"true"}) {
		s.waiting++
	}
	return &pb.ResponseHeader{Revision: 200}
}

func (s *leaderServer) Range(ctx context.Context, _ *pb.RangeRequest) (*pb.RangeResponse, error) {
	return &pb.RangeResponse{Header: s.count(ctx)}, nil
}

func (s *leaderServer) Txn(ctx context.Context, _ *pb.TxnRequest) (*pb.TxnResponse, error) {
	return &pb.TxnResponse{Header: s.count(ctx), Succeeded: true}, nil
}

func (s *leaderServer) LeaseKeepAlive(stream pb.Lease_LeaseKeepAliveServer) error {
	s.count(stream.Context())
	if _, err := stream.Recv(); err != nil {
		return err
	}
	return stream.Send(&pb.LeaseKeepAliveResponse{})
}

// Each request asks a member without a leader to refuse it at once, so that another member can be
// asked.
func TestRefusedWithoutLeader(t *testing.T) {
	ctx := context.Background()
	cases := map[string]func(t *term) error{
		"key of the lock": func(t *term) error { return t.putKey() },
		"queue":           func(t *term) error { _, err := t.queue(); return err },
		"read":            func(t *term) error { _, err := t.get(ctx, "a"); return err },
		"locked read":     func(t *term) error { _, err := t.lockedRead(ctx); return err },
		"change":          func(t *term) error { return t.commit(ctx, &detach{7, "n"}) },
		"fence":           func(t *term) error { t.needsFence = true; return t.fence(ctx) },
		"import": func(t *term) error {
			return (&importer{client: t.client, keys: t.keys, timeout: t.timeout}).write([]importLine{{"a", nil}})
		},
		"export": func(t *term) error {
			_, err := (&snapshot{client: t.client, timeout: t.timeout}).get("a")
			return err
		},
		"renewal of a lease": func(t *term) error {
			if err := t.lease.renewStream(ctx); err != errLeaseOver {
				return err
			}
			return nil
		},
	}
	server := &leaderServer{}
	client := startServer(t, server, 1)
	for name, request := range cases {
		t.Run(name, func(t *testing.T) {
			server.requests, server.waiting = 0, 0
			if err := request(newPlainTerm(client, &revisions{})); err != nil {
				t.Errorf("got error %v", err)
			}
			if server.requests == 0 || server.waiting > 0 {
				t.Errorf("got %d requests, %d of them not refused at once, want some and none",
					server.requests, server.waiting)
			}
		})
	}
}

// All attempts of a request together take no longer than its timeout. Only a request that took too
// long is repeated.
func TestRetry(t *testing.T) {
	cases := []struct {
		name           string
		members, count int
		err            error
	}{
		{"one member, late", 1, 1, context.DeadlineExceeded},
		{"two members, late", 2, 3, context.DeadlineExceeded},
		{"two members, another error", 2, 1, rpctypes.ErrLeaderChanged},
		{"two members, an answer", 2, 1, nil},
	}
	for _, c := range cases {
		t.Run(c.name, func(t *testing.T) {
			client := startServer(t, &failingServer{}, c.members)
			var all time.Duration
			count := 0
			err := retry(context.Background(), client, time.Minute, func(ctx context.Context) error {
				deadline, _ := ctx.Deadline()
				all += time.Until(deadline)
				count++
				return c.err
			})
			if err != c.err || count != c.count || all > time.Minute {
				t.Errorf("got error %v after %d attempts within %v, want %v after %d within a minute",
					err, count, all, c.err, c.count)
			}
		})
	}
}

// lockServer is an etcd that answers each read of the key of the lock with the next one of looks,
// and repeats the last one. It sends the scripted responses to watches.
type lockServer struct {
	pb.KVServer
	pb.WatchServer
	looks    []look
	requests int
	// The start revision of each watch, and the responses to each watch. Further watches get none.
	starts  chan int64
	watches [][]*pb.WatchResponse
	mutex   sync.Mutex
}

func (s *lockServer) Range(context.Context, *pb.RangeRequest) (*pb.RangeResponse, error) {
	seen := s.looks[len(s.looks)-1]
	if s.requests < len(s.looks) {
		seen = s.looks[s.requests]
	}
	s.requests++
	if seen.err != nil {
		return nil, seen.err
	}
	read := &pb.RangeResponse{Header: &pb.ResponseHeader{Revision: 100}}
	if seen.own != 0 {
		read.Kvs = append(read.Kvs, &mvccpb.KeyValue{Key: []byte("k"), CreateRevision: seen.own})
	}
	return read, nil
}

func (s *lockServer) Watch(stream pb.Watch_WatchServer) error {
	request, err := stream.Recv()
	if err != nil {
		return err
	}
	s.mutex.Lock()
	var reports []*pb.WatchResponse
	if len(s.watches) > 0 {
		reports, s.watches = append([]*pb.WatchResponse{{Created: true}}, s.watches[0]...), s.watches[1:]
	}
	s.mutex.Unlock()
	s.starts <- request.GetCreateRequest().StartRevision
	for _, report := range reports {
		sent := *report
		sent.Header = &pb.ResponseHeader{Revision: 100}
		if err := stream.Send(&sent); err != nil {
			return err
		}
	}
	<-stream.Context().Done()
	return nil
}

// confirmLead asks etcd each time. If etcd does not answer, confirmLead asks again, for as long as
// a request may take.
func TestConfirmLead(t *testing.T) {
	failed := status.Error(codes.Internal, "any")
	const (
		silent  = "etcd does not say whether this program leads: "
		keyGone = "this program does not lead any more: its key of the lock is gone"
	)
	cases := []struct {
		name     string
		looks    []look
		least    int64
		want     string
		isOver   bool
		requests int
	}{
		{"the key is there", []look{{0, 10, nil}}, 100, "", false, 1},
		{"it is gone", []look{{0, 0, nil}}, 100, keyGone, true, 1},
		{"it was made again", []look{{0, 11, nil}}, 100, keyGone, true, 1},
		{"no answer at first", []look{{0, 0, failed}, {0, 0, failed}, {0, 10, nil}}, 100, "", false, 3},
		{"no answer, then gone", []look{{0, 0, failed}, {0, 0, nil}}, 100, keyGone, true, 2},
		{"no answer", []look{{0, 0, failed}}, 100, silent + failed.Error(), false, 0},
		{"refused", []look{{0, 0, rpctypes.ErrGRPCPermissionDenied}}, 100, silent +
			rpctypes.ErrPermissionDenied.Error(),
			false, 0},
		{"an older snapshot", []look{{0, 10, nil}}, 101, silent + olderRefusal(101, 100).Error(), true, 1},
	}
	for _, c := range cases {
		c := c
		t.Run(c.name, func(t *testing.T) {
			t.Parallel()
			server := &lockServer{looks: c.looks}
			ctx, cancel := context.WithCancel(context.Background())
			defer cancel()
			term := &term{client: startServer(t, server, 1), revisions: &revisions{greatest: c.least},
				timeout: time.Second,
				lease:   &lease{expiry: sinceBoot() + time.Hour}, ctx: ctx, end: cancel, key: "k", created: 10,
				gone: make(chan struct{}, 1)}
			start := time.Now()
			err := term.confirmLead(ctx)
			took := time.Since(start)
			if errorText(err) != c.want || err != nil && err.(refusal).code != codes.FailedPrecondition {
				t.Errorf("got error %v, want %q", err, c.want)
			}
			isSilent := c.requests == 0
			if isSilent != (took > 900*time.Millisecond) || took > 3*time.Second {
				t.Errorf("took %v, want about a second: %v", took, isSilent)
			}
			if !isSilent && server.requests != c.requests {
				t.Errorf("got %d requests, want %d", server.requests, c.requests)
			}
			if got := term.isOver(); got != c.isOver {
				t.Errorf("got over %v, want %v", got, c.isOver)
			}
		})
	}
}

// watchCase has the reports of etcd to the watches of a term, the revisions from which the watches
// must start, and isOver, which is true if the term must end.
type watchCase struct {
	name    string
	watches [][]*pb.WatchResponse
	starts  []int64
	isOver  bool
}

func watchCases() []watchCase {
	event := func(kind mvccpb.Event_EventType, made, put int64) *mvccpb.Event {
		return &mvccpb.Event{Type: kind, Kv: &mvccpb.KeyValue{Key: []byte("k"), CreateRevision: made, ModRevision: put,
			Lease: 7}}
	}
	withoutLease := event(mvccpb.PUT, 10, 60)
	withoutLease.Kv.Lease = 0
	reports := func(events ...*mvccpb.Event) *pb.WatchResponse { return &pb.WatchResponse{Events: events} }
	watch := func(responses ...*pb.WatchResponse) []*pb.WatchResponse { return responses }
	canceled := &pb.WatchResponse{Canceled: true, CancelReason: "any"}
	compacted := &pb.WatchResponse{Canceled: true, CompactRevision: 70}
	const put, gone = mvccpb.PUT, mvccpb.DELETE
	deleted := reports(event(gone, 0, 60))
	return []watchCase{
		{"deleted", [][]*pb.WatchResponse{watch(deleted)}, []int64{51}, true},
		{"put without its lease", [][]*pb.WatchResponse{watch(reports(withoutLease))}, []int64{51}, true},
		{"made again", [][]*pb.WatchResponse{watch(reports(event(put, 60, 60)))}, []int64{51}, true},
		{"put again, then deleted", [][]*pb.WatchResponse{
			watch(reports(event(put, 10, 60)), reports(event(put, 10, 61), event(gone, 0, 62)))}, []int64{51}, true},
		{"put again, then the watch ended", [][]*pb.WatchResponse{watch(reports(event(put, 10, 60)), canceled)},
			[]int64{51, 61}, false},
		{"ended", [][]*pb.WatchResponse{watch(canceled), watch(canceled)}, []int64{51, 51, 51}, false},
		{"compacted", [][]*pb.WatchResponse{watch(compacted)}, []int64{51, 71}, false},
		{"an event without a key, then deleted", [][]*pb.WatchResponse{
			watch(reports(&mvccpb.Event{Type: gone})), watch(deleted)}, []int64{51, 51}, true},
		{"created twice, then deleted", [][]*pb.WatchResponse{watch(&pb.WatchResponse{Created: true}, deleted)},
			[]int64{51}, true},
		{"canceled twice", [][]*pb.WatchResponse{watch(canceled, canceled)}, []int64{51, 51}, false},
		{"ended, then deleted", [][]*pb.WatchResponse{watch(canceled), watch(deleted)}, []int64{51, 51}, true},
	}
}

// A term ends, with its reason, as soon as a watch reports that the key of the lock is gone or was
// made again. After a put of the same key, as by a fence, the term goes on. A watch that etcd ends
// starts again after the last revision that it saw.
func TestWatch(t *testing.T) {
	for _, c := range watchCases() {
		c := c
		t.Run(c.name, func(t *testing.T) {
			t.Parallel()
			server := &lockServer{watches: c.watches, starts: make(chan int64, 9)}
			ctx, cancel := context.WithCancel(context.Background())
			defer cancel()
			term := &term{client: startServer(t, server, 1), lease: &lease{id: 7}, ctx: ctx, end: cancel, key: "k",
				created: 10, gone: make(chan struct{}, 1)}
			done := make(chan struct{})
			go func() {
				defer close(done)
				term.watch(50)
			}()
			server.wantStarts(t, c.starts)
			want := errKeyGone
			if c.isOver {
				<-ctx.Done()
			} else {
				want = context.Canceled
				select {
				case <-ctx.Done():
					t.Error("the term has ended")
				case <-time.After(50 * time.Millisecond):
				}
				cancel()
			}
			<-done
			if got := term.endReason(); got != want {
				t.Errorf("got the end %v, want %v", got, want)
			}
		})
	}
}

// wantStarts checks the revisions from which watches start.
func (s *lockServer) wantStarts(t *testing.T, want []int64) {
	t.Helper()
	for i, start := range want {
		select {
		case got := <-s.starts:
			if got != start {
				t.Errorf("watch %d: got the start %d, want %d", i, got, start)
			}
		case <-time.After(10 * time.Second):
			t.Fatalf("watch %d does not start", i)
		}
	}
}
