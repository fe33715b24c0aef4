package main

import (
	"context"
	"fmt"
	"strings"

	"go.etcd.io/etcd/etcdserver/api/v3rpc/rpctypes"
	"google.golang.org/grpc"
	"google.golang.org/grpc/codes"
	"google.golang.org/grpc/status"

	"fomaheti/frames"
)

// refusal is an error that csid gets as a reply with this code and text: the change was not made
// and never will be.
type refusal struct {
	code codes.Code
	text string
}

// Error returns the text of the reply.
func (r refusal) Error() string { return r.text }

// refuse returns a refusal with FAILED_PRECONDITION, for example if a comparison failed or this
// program does not lead.
func refuse(format string, args ...interface{}) refusal {
	return refusal{codes.FailedPrecondition, frames.Text(fmt.Sprintf(format, args...))}
}

// unknownOutcome is an error after which a change may have been made, or may still be made. The
// call gets no reply.
type unknownOutcome struct{ err error }

// Error returns "it is not known whether it was made: " and the reason.
func (o unknownOutcome) Error() string {
	return "it is not known whether it was made: " + o.err.Error()
}

// certainRefusals are the errors with which etcd answers only transactions that it has not made.
// etcd returns them before it proposes the transaction to its members, or instead of making it.
// ErrNoSpace is missing: a member also returns it for a transaction that it made, if others used up
// the space after the proposal (quotaApplierV3 of etcd 3.4 and later).
var certainRefusals = map[error]codes.Code{
	rpctypes.ErrRequestTooLarge:  codes.ResourceExhausted,
	rpctypes.ErrTooManyRequests:  codes.Internal,
	rpctypes.ErrEmptyKey:         codes.Internal,
	rpctypes.ErrTooManyOps:       codes.Internal,
	rpctypes.ErrDuplicateKey:     codes.Internal,
	rpctypes.ErrNoLeader:         codes.Internal,
	rpctypes.ErrAuthFailed:       codes.Internal,
	rpctypes.ErrUserEmpty:        codes.Internal,
	rpctypes.ErrInvalidAuthToken: codes.Internal,
	rpctypes.ErrAuthOldRevision:  codes.Internal,
	rpctypes.ErrPermissionDenied: codes.Internal,
}

// gRPC's texts for a message that is too long for this client to send, or for the server to
// receive. In both cases the server has not looked at the message.
const (
	tooLongToSend = "trying to send message larger than max"
	tooLongToTake = "grpc: received message larger than max"
)

// notMade returns the refusal for an error that proves that the transaction was not made. Any other
// error proves nothing: a deadline, a lost connection, a new leader, or an error of a later etcd.
func notMade(err error) (refusal, bool) {
	if code, ok := certainRefusals[err]; ok {
		return refusal{code, frames.Text(err.Error())}, true
	}
	rpcStatus := status.Convert(err)
	if rpcStatus.Code() == codes.ResourceExhausted &&
		(strings.Contains(rpcStatus.Message(), tooLongToSend) || strings.Contains(rpcStatus.Message(), tooLongToTake)) {
		return refusal{codes.ResourceExhausted, frames.Text(rpcStatus.Message())}, true
	}
	return refusal{}, false
}

// A transaction is sent once. etcd's client would send it again in two cases. In the first case the
// error says "there is no connection available"; then the transaction was not sent. In the second
// case a server answers, before the client's own deadline, that the deadline of the call is over or
// that the call was canceled. The client then sends the transaction again, even if its policy
// forbids that: for such errors retry_interceptor.go of clientv3 3.4 does not ask isSafeRetry. etcd
// may have made the first transaction, and the second one would fail by a comparison. gRPC itself
// sends again only calls that no server has processed: calls without a connection, and calls that a
// server refused as unprocessed.

// attempt is the result of the last attempt to send a transaction; err is nil before the first
// attempt. It lives in the call's context.
type attempt struct{ err error }

type attemptKey struct{}

func withSendOnce(ctx context.Context) context.Context {
	return context.WithValue(ctx, attemptKey{}, &attempt{})
}

// sendOnce is an interceptor below the retries of etcd's client. It lets a transaction through a
// second time only if etcd refused the token of the first attempt. By then login has a new token.
func sendOnce(ctx context.Context, method string, request, reply interface{}, conn *grpc.ClientConn,
	invoke grpc.UnaryInvoker, options ...grpc.CallOption) error {
	last, isOnce := ctx.Value(attemptKey{}).(*attempt)
	if !isOnce {
		return invoke(ctx, method, request, reply, conn, options...)
	}
	if last.err != nil && !isTokenError(last.err) {
		return status.Error(codes.Unknown, "it was not sent again: "+status.Convert(last.err).Message())
	}
	last.err = invoke(ctx, method, request, reply, conn, options...)
	return last.err
}

// isTokenError reports whether etcd refused the token of a call. Such a call was not carried out.
func isTokenError(err error) bool {
	switch rpctypes.Error(err) {
	case rpctypes.ErrUserEmpty, rpctypes.ErrInvalidAuthToken, rpctypes.ErrAuthOldRevision:
		return true
	}
	return false
}
