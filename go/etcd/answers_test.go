package main

import (
	"context"
	"io"
	"strings"
	"testing"
	"time"

	"go.etcd.io/etcd/etcdserver/api/v3rpc/rpctypes"
	pb "go.etcd.io/etcd/etcdserver/etcdserverpb"
	"go.etcd.io/etcd/mvcc/mvccpb"
)

// responses returns a response of the right kind for each operation. A read finds its first key.
func responses(operations []*pb.RequestOp) (all []*pb.ResponseOp) {
	for _, operation := range operations {
		response := &pb.ResponseOp{}
		switch request := operation.Request.(type) {
		case *pb.RequestOp_RequestRange:
			read := &pb.RangeResponse{Kvs: []*mvccpb.KeyValue{{Key: request.RequestRange.Key, CreateRevision: 10,
				ModRevision: 10}}}
			response.Response = &pb.ResponseOp_ResponseRange{ResponseRange: read}
		case *pb.RequestOp_RequestPut:
			response.Response = &pb.ResponseOp_ResponsePut{ResponsePut: &pb.PutResponse{}}
		case *pb.RequestOp_RequestDeleteRange:
			response.Response = &pb.ResponseOp_ResponseDeleteRange{ResponseDeleteRange: &pb.DeleteRangeResponse{}}
		}
		all = append(all, response)
	}
	return all
}

// partialServer is an etcd that calls remove with each of its complete answers before it sends the
// answer.
type partialServer struct {
	pb.KVServer
	pb.LeaseServer
	// isRefused is set if each comparison fails, and isFull if etcd has no space.
	isRefused, isFull bool
	remove            func(reply interface{})
}

func (s *partialServer) Range(_ context.Context, request *pb.RangeRequest) (*pb.RangeResponse, error) {
	reply := &pb.RangeResponse{Header: &pb.ResponseHeader{Revision: 100},
		Kvs: []*mvccpb.KeyValue{{Key: request.Key, CreateRevision: 10, ModRevision: 10}}}
	s.remove(reply)
	return reply, nil
}

func (s *partialServer) Txn(_ context.Context, request *pb.TxnRequest) (*pb.TxnResponse, error) {
	if s.isFull {
		return nil, rpctypes.ErrGRPCNoSpace
	}
	operations := request.Success
	if s.isRefused {
		operations = request.Failure
	}
	reply := &pb.TxnResponse{Header: &pb.ResponseHeader{Revision: 100}, Succeeded: !s.isRefused,
		Responses: responses(operations)}
	s.remove(reply)
	return reply, nil
}

func (s *partialServer) LeaseGrant(context.Context, *pb.LeaseGrantRequest) (*pb.LeaseGrantResponse, error) {
	reply := &pb.LeaseGrantResponse{Header: &pb.ResponseHeader{Revision: 100}, ID: 7, TTL: 10}
	s.remove(reply)
	return reply, nil
}

// Functions that remove or change a part of an answer.
func noHeader(reply interface{}) {
	switch reply := reply.(type) {
	case *pb.RangeResponse:
		reply.Header = nil
	case *pb.TxnResponse:
		reply.Header = nil
	case *pb.LeaseGrantResponse:
		reply.Header = nil
	}
}

func noRevision(reply interface{}) {
	if reply, ok := reply.(*pb.RangeResponse); ok {
		reply.Header.Revision = 0
	}
}

func noRowRevision(reply interface{}) {
	if reply, ok := reply.(*pb.RangeResponse); ok {
		reply.Kvs[0].CreateRevision = 0
	}
}

func noID(reply interface{}) { reply.(*pb.LeaseGrantResponse).ID = 0 }

func noLength(reply interface{}) { reply.(*pb.LeaseGrantResponse).TTL = 0 }

func noResponses(reply interface{}) {
	if reply, ok := reply.(*pb.TxnResponse); ok {
		reply.Responses = nil
	}
}

func oneLess(reply interface{}) {
	if reply, ok := reply.(*pb.TxnResponse); ok {
		reply.Responses = reply.Responses[1:]
	}
}

func emptyResponse(reply interface{}) {
	if reply, ok := reply.(*pb.TxnResponse); ok {
		reply.Responses[len(reply.Responses)-1] = &pb.ResponseOp{}
	}
}

func anotherKind(reply interface{}) {
	if reply, ok := reply.(*pb.TxnResponse); ok {
		reply.Responses[0] = &pb.ResponseOp{Response: &pb.ResponseOp_ResponseTxn{ResponseTxn: &pb.TxnResponse{}}}
	}
}

func moreAfterNone(reply interface{}) {
	if reply, ok := reply.(*pb.RangeResponse); ok {
		reply.Kvs, reply.More = nil, true
	}
}

func anotherRow(reply interface{}) {
	if reply, ok := reply.(*pb.RangeResponse); ok {
		reply.Kvs[0].Key = []byte("of nobody")
	}
}

// Functions that each make a request of the program to etcd, and return the error of reading the
// answer.
var (
	askLease      = func(t *term) error { _, _, err := grantLease(t.ctx, t.client, 10); return err }
	askQueue      = func(t *term) error { _, err := t.queue(); return err }
	askLead       = func(t *term) error { return t.confirmLead(t.ctx) }
	askKey        = func(t *term) error { _, err := t.get(t.ctx, "a"); return err }
	commitAttach  = func(t *term) error { return t.commit(t.ctx, &attach{attachment{7, "n", nil, false}}) }
	commitMutable = func(t *term) error { return t.commit(t.ctx, &setMutable{7, nil}) }
	askFence      = func(t *term) error { t.needsFence = true; return t.fence(t.ctx) }
	beginWalk     = func(t *term) error { _, _, err := newWalk(t.ctx, t); return err }
	askPage       = func(t *term) error {
		_, _, err := (&walk{term: t, from: t.keys.volumes(), limit: 1}).appendRows(t.ctx, nil)
		return err
	}
	importRow = func(t *term) error {
		return (&importer{client: t.client, keys: t.keys, timeout: t.timeout}).write([]importLine{{"a", nil}})
	}
	lookBeforeImport = func(t *term) error {
		return (&importer{client: t.client, keys: t.keys, timeout: t.timeout}).checkEmpty()
	}
	exportRows = func(t *term) error {
		return (&snapshot{client: t.client, timeout: t.timeout}).forEach(t.keys, func(tableRow) error { return nil })
	}
	beginExport = func(t *term) error {
		_, err := (&snapshot{client: t.client, timeout: t.timeout}).readMeta(t.keys)
		return err
	}
	makeFirstRow = func(t *term) error {
		return makeNew(newMembers(options{endpoints: t.client.Endpoints(), timeout: t.timeout, name: "x"}, nil),
			io.Discard)
	}
)

// Parts of the texts of errors for malformed answers.
const (
	wantRevision = "has no revision"
	wantCount    = "responses to"
	wantKind     = "is missing, or is one to another operation"
	wantRows     = "more rows follow none"
	wantOther    = `the row "of nobody" was not asked for`
)

// Servers on which each comparison holds, each comparison fails, or etcd has no space.
var wholeServer, refusingServer, fullServer = partialServer{}, partialServer{isRefused: true},
	partialServer{isFull: true}

var malformedCases = []struct {
	name   string
	server partialServer
	call   func(t *term) error
	remove func(reply interface{})
	want   string
}{
	{"a lease without a header", wholeServer, askLease, noHeader, wantRevision},
	{"a lease without an id", wholeServer, askLease, noID, wantRevision},
	{"a lease without a length", wholeServer, askLease, noLength, wantRevision},
	{"a reading without a revision", wholeServer, askKey, noRevision, wantRevision},
	{"the own key without its revision", wholeServer, askLead, noRowRevision, wantRevision},
	{"the queue without a header", wholeServer, askQueue, noHeader, wantRevision},
	{"the queue with another row", wholeServer, askQueue, anotherRow, wantOther},
	{"the own key without a header", wholeServer, askLead, noHeader, wantRevision},
	{"a reading without a header", wholeServer, askKey, noHeader, wantRevision},
	{"a reading of another row", wholeServer, askKey, anotherRow, wantOther},
	{"a change that was made, without a header", wholeServer, commitAttach, noHeader, wantRevision},
	{"a change that was made, without responses", wholeServer, commitAttach, noResponses, wantCount},
	{"a change that was made, of another kind", wholeServer, commitAttach, anotherKind, wantKind},
	{"a change that was refused, without a header", refusingServer, commitAttach, noHeader, wantRevision},
	{"a change that was refused, without responses", refusingServer, commitAttach, noResponses, wantCount},
	{"a change that was refused, without one", refusingServer, commitAttach, oneLess, wantCount},
	{"a change that was refused, with an empty one", refusingServer, commitAttach, emptyResponse, wantKind},
	{"a change that was refused, of another kind", refusingServer, commitAttach, anotherKind, wantKind},
	{"the row of a change without a header", wholeServer, commitMutable, noHeader, wantRevision},
	{"a reading after no space, without a header", fullServer, commitAttach, noHeader, wantRevision},
	{"a fence without a header", wholeServer, askFence, noHeader, wantRevision},
	{"a fence without a response", wholeServer, askFence, noResponses, wantCount},
	{"a walk without a header", wholeServer, beginWalk, noHeader, wantRevision},
	{"a walk without responses", wholeServer, beginWalk, noResponses, wantCount},
	{"a walk without the last one", wholeServer, beginWalk, oneLess, wantCount},
	{"a walk with an empty one", wholeServer, beginWalk, emptyResponse, wantKind},
	{"a walk of another kind", wholeServer, beginWalk, anotherKind, wantKind},
	{"a walk that is refused, without responses", refusingServer, beginWalk, noResponses, wantCount},
	{"a page without a header", wholeServer, askPage, noHeader, wantRevision},
	{"a page of no rows that is not the last", wholeServer, askPage, moreAfterNone, wantRows},
	{"a page of another row", wholeServer, askPage, anotherRow, wantOther},
	{"an import that looks, without a header", wholeServer, lookBeforeImport, noHeader, wantRevision},
	{"an import without a header", wholeServer, importRow, noHeader, wantRevision},
	{"an import that is refused, without responses", refusingServer, importRow, noResponses, wantCount},
	{"an import that is refused, with an empty one", refusingServer, importRow, emptyResponse, wantKind},
	{"an import that is refused, of another kind", refusingServer, importRow, anotherKind, wantKind},
	{"an export without a header", wholeServer, beginExport, noHeader, wantRevision},
	{"an export of no rows that is not at its end", wholeServer, exportRows, moreAfterNone, wantRows},
	{"a first row without a header", wholeServer, makeFirstRow, noHeader, wantRevision},
	{"a first row that is there, without a response", refusingServer, makeFirstRow, noResponses, wantCount},
	{"a first row that is there, of another kind", refusingServer, makeFirstRow, anotherKind, wantKind},
}

// An answer with a missing or a wrong part is refused by each of its readers.
func TestMalformedAnswers(t *testing.T) {
	for _, c := range malformedCases {
		c := c
		t.Run(c.name, func(t *testing.T) {
			server := c.server
			server.remove = c.remove
			err := c.call(server.newTerm(t))
			if err == nil || !strings.Contains(err.Error(), "etcd's answer is malformed: ") ||
				!strings.Contains(err.Error(), c.want) {
				t.Errorf("got error %v, want %q", err, c.want)
			}
		})
	}
}

// newTerm returns a term over the program's own client.
func (s *partialServer) newTerm(t *testing.T) *term {
	t.Helper()
	client, err := newMembers(options{endpoints: []string{serveEtcd(t, s)}, timeout: 5 * time.Second}, t.Logf).connect()
	if err != nil {
		t.Fatal(err)
	}
	t.Cleanup(func() { client.Close() })
	ctx, cancel := context.WithCancel(context.Background())
	t.Cleanup(cancel)
	return &term{client: client, keys: sampleKeys, lease: &lease{id: 7, expiry: sinceBoot() + time.Hour},
		revisions: &revisions{}, timeout: time.Second,
		ctx: ctx, end: cancel, key: "k", created: 10, put: 10, gone: make(chan struct{}, 1)}
}

// After a malformed answer the outcome of a change is unknown, and a fence comes before the next
// change.
func TestMalformedAnswerIsOpen(t *testing.T) {
	server := &partialServer{remove: noHeader}
	term := server.newTerm(t)
	if _, ok := commitAttach(term).(unknownOutcome); !ok || !term.needsFence {
		t.Errorf("got needsFence %v, want an unknown outcome and a fence", term.needsFence)
	}
}
