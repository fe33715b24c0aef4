package main

import (
	"context"
	"fmt"

	pb "go.etcd.io/etcd/etcdserver/etcdserverpb"
	"go.etcd.io/etcd/mvcc/mvccpb"
	"google.golang.org/grpc"
)

// Interceptors check each answer of etcd once, so that the rest of the program need not check for a
// missing revision, row or response. etcd always sends these, so an answer without them comes from
// something else. Such an answer says nothing about a change, so the outcome of the change is
// unknown. A missing revision must not count as an older snapshot, which would end service.

// malformed is the error for a malformed answer of etcd. Its text says what is missing or wrong.
type malformed string

// Error returns "etcd's answer is malformed: " and the part that is missing or wrong.
func (m malformed) Error() string { return "etcd's answer is malformed: " + string(m) }

// checkUnary is an interceptor for calls with one request and one answer. If the answer is
// malformed, the call fails with the error of checkAnswer.
func checkUnary(ctx context.Context, method string, request, reply interface{}, conn *grpc.ClientConn,
	invoke grpc.UnaryInvoker, options ...grpc.CallOption) error {
	if err := invoke(ctx, method, request, reply, conn, options...); err != nil {
		return err
	}
	return checkAnswer(request, reply)
}

// checkStream is an interceptor for streams. It returns a checkedStream, so the first malformed
// answer is an error of RecvMsg.
func checkStream(ctx context.Context, description *grpc.StreamDesc, conn *grpc.ClientConn, method string,
	open grpc.Streamer, options ...grpc.CallOption) (grpc.ClientStream, error) {
	stream, err := open(ctx, description, conn, method, options...)
	if err != nil {
		return nil, err
	}
	return checkedStream{stream}, nil
}

// checkedStream is a stream whose RecvMsg refuses malformed answers.
type checkedStream struct{ grpc.ClientStream }

// RecvMsg receives the next answer of the stream into reply. If the answer is malformed, it returns
// the error of checkAnswer.
func (s checkedStream) RecvMsg(reply interface{}) error {
	if err := s.ClientStream.RecvMsg(reply); err != nil {
		return err
	}
	return checkAnswer(nil, reply)
}

// checkAnswer refuses an answer without a part that this program reads, or with a part that does
// not fit the request. For streams request is nil.
func checkAnswer(request, reply interface{}) error {
	switch answer := reply.(type) {
	case *pb.RangeResponse:
		if answer.Header.GetRevision() <= 0 {
			return malformed("a reading has no revision")
		}
		return checkRows(request.(*pb.RangeRequest), answer)
	case *pb.TxnResponse:
		if answer.Header.GetRevision() <= 0 {
			return malformed("a transaction has no revision")
		}
		return checkTransaction(request.(*pb.TxnRequest), answer)
	case *pb.LeaseGrantResponse:
		// Lease 0 means no lease: a key with it would never expire.
		if answer.Header.GetRevision() <= 0 || answer.ID == 0 || answer.TTL <= 0 {
			return malformed("a lease has no revision, no id or no length")
		}
	case *pb.WatchResponse:
		for _, event := range answer.Events {
			if event.Kv == nil {
				return malformed("an event has no key")
			}
		}
	}
	return nil
}

// checkRows refuses rows outside the request, more rows than its limit, rows without a revision,
// and an empty page that is not the last one.
func checkRows(request *pb.RangeRequest, answer *pb.RangeResponse) error {
	if answer.More && len(answer.Kvs) == 0 {
		return malformed("more rows follow none")
	}
	if request.Limit > 0 && int64(len(answer.Kvs)) > request.Limit {
		return malformed(fmt.Sprintf("%d rows, and %d were asked for", len(answer.Kvs), request.Limit))
	}
	for _, row := range answer.Kvs {
		if !isRequested(request, row) {
			return malformed(fmt.Sprintf("the row %q was not asked for", row.Key))
		}
		if row.CreateRevision <= 0 || row.ModRevision <= 0 {
			return malformed(fmt.Sprintf("the row %q has no revision", row.Key))
		}
	}
	return nil
}

// isRequested reports whether the request covers the row: by its key, or by a range that excludes
// its end.
func isRequested(request *pb.RangeRequest, row *mvccpb.KeyValue) bool {
	key, begin, end := string(row.Key), string(request.Key), string(request.RangeEnd)
	if end == "" {
		return key == begin
	}
	return key >= begin && key < end
}

// checkTransaction refuses an answer unless it has one response of the right kind for each
// operation that etcd made. It also checks the rows of each read.
func checkTransaction(request *pb.TxnRequest, answer *pb.TxnResponse) error {
	operations := request.Failure
	if answer.Succeeded {
		operations = request.Success
	}
	if len(answer.Responses) != len(operations) {
		return malformed(fmt.Sprintf("%d responses to %d operations", len(answer.Responses), len(operations)))
	}
	for i, response := range answer.Responses {
		if !isOfKind(operations[i], response) {
			return malformed(fmt.Sprintf("response %d is missing, or is one to another operation", i+1))
		}
		if read := response.GetResponseRange(); read != nil {
			if err := checkRows(operations[i].GetRequestRange(), read); err != nil {
				return err
			}
		}
	}
	return nil
}

// isOfKind reports whether the response exists and answers this kind of operation.
func isOfKind(operation *pb.RequestOp, response *pb.ResponseOp) bool {
	switch operation.Request.(type) {
	case *pb.RequestOp_RequestRange:
		return response.GetResponseRange() != nil
	case *pb.RequestOp_RequestPut:
		return response.GetResponsePut() != nil
	case *pb.RequestOp_RequestDeleteRange:
		return response.GetResponseDeleteRange() != nil
	}
	return false
}
