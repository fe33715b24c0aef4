// Package tests runs the built front as a process, with the built csid, or with a fake csid that
// breaks the rules.
package tests

import (
	"context"
	"encoding/hex"
	"net"
	"strings"
	"testing"
	"time"

	"google.golang.org/grpc"
	"google.golang.org/grpc/codes"
	"google.golang.org/grpc/status"

	"./processes"
	"fomaheti/fixtures"
)

const (
	identity   = "/csi.v1.Identity/"
	controller = "/csi.v1.Controller/"
	probe      = identity + "Probe"
	ready      = "0a020801"
)

// bytesCodec passes messages on unchanged, as bytes. A client calls Name, and a server calls
// String.
type bytesCodec struct{}

func (bytesCodec) Marshal(v interface{}) ([]byte, error)      { return v.([]byte), nil }
func (bytesCodec) Unmarshal(data []byte, v interface{}) error { *v.(*[]byte) = data; return nil }
func (bytesCodec) Name() string                               { return "proto" }
func (bytesCodec) String() string                             { return "bytes" }

// answer is the result of a call: OK and the body in hexadecimal, or another code and a text.
type answer struct {
	code codes.Code
	text string
	body string
}

func ok(body string) answer { return answer{codes.OK, "", strings.ReplaceAll(body, " ", "")} }

func refused(code codes.Code, text string) answer { return answer{code, text, ""} }

// client is a gRPC connection to a front, as an orchestrator's sidecar has it.
type client struct{ *grpc.ClientConn }

func newClient(t *testing.T, socket string) *client {
	t.Helper()
	ctx, cancel := context.WithTimeout(context.Background(), processes.Patience)
	defer cancel()
	dial := func(ctx context.Context, _ string) (net.Conn, error) {
		return (&net.Dialer{}).DialContext(ctx, "unix", socket)
	}
	conn, err := grpc.DialContext(ctx, "passthrough:///csi", grpc.WithInsecure(), grpc.WithBlock(),
		grpc.WithContextDialer(dial),
		grpc.WithDefaultCallOptions(grpc.ForceCodec(bytesCodec{})))
	if err != nil {
		t.Fatal(err)
	}
	t.Cleanup(func() { conn.Close() })
	return &client{conn}
}

// send makes a call with a message as bytes. The context can end the call.
func (c *client) send(ctx context.Context, path string, message []byte) answer {
	var body []byte
	if err := c.Invoke(ctx, path, message, &body); err != nil {
		why := status.Convert(err)
		return refused(why.Code(), why.Message())
	}
	return ok(hexOf(body))
}

func hexOf(body []byte) string { return hex.EncodeToString(body) }

// call makes a call with a message in hexadecimal. Its deadline is processes.Patience.
func (c *client) call(t *testing.T, path, message string) answer {
	t.Helper()
	ctx, cancel := context.WithTimeout(context.Background(), processes.Patience)
	defer cancel()
	return c.send(ctx, path, fromHex(t, message))
}

// wantReply makes a call, and checks that its answer is want.
func (c *client) wantReply(t *testing.T, path, message string, want answer) {
	t.Helper()
	if got := c.call(t, path, message); got != want {
		t.Errorf("%s %.80s: %v, wanted %v", path, message, got, want)
	}
}

// isLost makes a call, and checks that the answer is UNAVAILABLE because of csid: the outcome is
// open, and an orchestrator must repeat the call.
func (c *client) isLost(t *testing.T, path, message string) {
	t.Helper()
	if got := c.call(t, path, message); got.code != codes.Unavailable || !strings.HasPrefix(got.text, "csid: ") {
		t.Errorf("%s: %v, wanted UNAVAILABLE", path, got)
	}
}

var fromHex = fixtures.FromHex

// soon returns a context that ends after this length of time.
func soon(t *testing.T, length time.Duration) context.Context {
	t.Helper()
	ctx, cancel := context.WithTimeout(context.Background(), length)
	t.Cleanup(cancel)
	return ctx
}
