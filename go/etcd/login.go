package main

import (
	"context"
	"strings"
	"sync"

	"go.etcd.io/etcd/etcdserver/api/v3rpc/rpctypes"
	pb "go.etcd.io/etcd/etcdserver/etcdserverpb"
	"google.golang.org/grpc"
)

// etcd's authentication service and the method that returns tokens.
const (
	authService      = "/etcdserverpb.Auth"
	authenticatePath = authService + "/Authenticate"
)

// login holds the token that identifies the user to etcd and adds it to each call. etcd's own
// client does this too. But it opens another connection for each token, and verifies this
// connection with the certificates that it read at its start.
type login struct {
	user, password string
	mutex          sync.Mutex
	token          string
}

// GetRequestMetadata returns the token as metadata of a call, or nothing if there is no token. A
// request for a new token gets no token: etcd refuses that request if the old token is no longer
// valid.
func (l *login) GetRequestMetadata(_ context.Context, services ...string) (map[string]string, error) {
	l.mutex.Lock()
	defer l.mutex.Unlock()
	if l.token == "" || len(services) == 1 && strings.HasSuffix(services[0], authService) {
		return nil, nil
	}
	return map[string]string{rpctypes.TokenFieldNameGRPC: l.token}, nil
}

// RequireTransportSecurity returns false: an etcd without TLS may have users.
func (l *login) RequireTransportSecurity() bool { return false }

// renew gets a new token. Without --user, or if authentication is disabled in etcd, no token is
// needed, and renew succeeds.
func (l *login) renew(ctx context.Context, conn *grpc.ClientConn) error {
	if l.user == "" {
		return nil
	}
	request := &pb.AuthenticateRequest{Name: l.user, Password: l.password}
	response, err := pb.NewAuthClient(conn).Authenticate(ctx, request, grpc.WaitForReady(true))
	switch {
	case err == nil:
		l.set(response.Token)
	case rpctypes.Error(err) == rpctypes.ErrAuthNotEnabled:
	case ctx.Err() != nil:
		return ctx.Err()
	default:
		return err
	}
	return nil
}

func (l *login) set(token string) {
	l.mutex.Lock()
	defer l.mutex.Unlock()
	l.token = token
}

// unary is an interceptor. If etcd refuses the token of a call, it renews the token and sends the
// call once more.
func (l *login) unary(ctx context.Context, method string, request, reply interface{}, conn *grpc.ClientConn,
	invoke grpc.UnaryInvoker, options ...grpc.CallOption) error {
	err := invoke(ctx, method, request, reply, conn, options...)
	if err == nil || l.user == "" || method == authenticatePath || !isTokenError(err) {
		return err
	}
	if err := l.renew(ctx, conn); err != nil {
		return err
	}
	return invoke(ctx, method, request, reply, conn, options...)
}

// stream is an interceptor that gets a new token before it opens a stream, since the token of an
// earlier call may have expired.
func (l *login) stream(ctx context.Context, description *grpc.StreamDesc, conn *grpc.ClientConn, method string,
	open grpc.Streamer, options ...grpc.CallOption) (grpc.ClientStream, error) {
	if err := l.renew(ctx, conn); err != nil {
		return nil, err
	}
	return open(ctx, description, conn, method, options...)
}
