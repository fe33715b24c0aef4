package main

import (
	"context"
	"net"

	"google.golang.org/grpc"
	"google.golang.org/grpc/codes"
	"google.golang.org/grpc/status"

	"fomaheti/frames"
)

// maxNodeCalls is the greatest number of calls of the Node service that run at once. Their messages
// take at most 64 MiB, which is also the default limit for messages that wait for csid. One
// connection of a client can have four times as many calls (maxWaitingCalls). So if the plugin
// hangs, three quarters of these calls are left for csid.
const maxNodeCalls = 64

// maxNodeProbes is the greatest number of Probes that the plugin gets at once. Probes do not count
// in maxNodeCalls, so that a plugin with many volumes to mount still answers them.
const maxNodeProbes = 16

// maxStatusBytes is the greatest size of the headers of a reply, which include the text and the
// details of its status.
const maxStatusBytes = 64 << 10

var (
	errNodeBusy   = status.Errorf(codes.Unavailable, "node plugin: %d calls run already", maxNodeCalls)
	errNodeProbed = status.Errorf(codes.Unavailable, "node plugin: %d Probes run already", maxNodeProbes)
)

// nodePlugin is the client of the node plugin, which answers the Node service on another socket.
// Each call has a new connection, as a kubelet's calls have. Such calls are few, and take longer
// than connecting. So no call is sent over a connection to a plugin that has ended.
type nodePlugin struct {
	path          string
	calls, probes slots
}

func newNodePlugin(path string) *nodePlugin {
	return &nodePlugin{path: path, calls: make(slots, maxNodeCalls), probes: make(slots, maxNodeProbes)}
}

// call sends a call of the Node service to the plugin. It returns the body of the reply, or the
// status of the plugin unchanged. If maxNodeCalls run already, it returns errNodeBusy and sends
// nothing.
func (n *nodePlugin) call(ctx context.Context, path string, message []byte) ([]byte, error) {
	if !n.calls.take() {
		return nil, errNodeBusy
	}
	defer n.calls.giveBack()
	return n.invoke(ctx, path, message)
}

// probe sends Probe to the plugin. If maxNodeProbes run already, it returns errNodeProbed and sends
// nothing.
func (n *nodePlugin) probe(ctx context.Context, message []byte) ([]byte, error) {
	if !n.probes.take() {
		return nil, errNodeProbed
	}
	defer n.probes.giveBack()
	return n.invoke(ctx, probe, message)
}

// invoke makes a call over a new connection. It never sends the call twice, since after UNAVAILABLE
// the plugin may have carried it out.
func (n *nodePlugin) invoke(ctx context.Context, path string, message []byte) ([]byte, error) {
	conn, err := n.connect(ctx)
	if err != nil {
		return nil, refusal(ctx, nodePluginName, err)
	}
	defer conn.Close()
	var body []byte
	err = conn.Invoke(ctx, path, &message, &body)
	return body, err
}

// connect makes a connection, and waits at most questionTime until the plugin speaks HTTP/2. It
// fail at once if the socket is missing or has no listener.
func (n *nodePlugin) connect(ctx context.Context) (*grpc.ClientConn, error) {
	ctx, cancel := context.WithTimeout(ctx, questionTime)
	defer cancel()
	dial := func(ctx context.Context, _ string) (net.Conn, error) {
		return (&net.Dialer{}).DialContext(ctx, "unix", n.path)
	}
	// The target is also the authority, which is "localhost" over a Unix socket.
	return grpc.DialContext(ctx, "passthrough:///localhost",
		grpc.WithInsecure(),
		grpc.WithContextDialer(dial),
		grpc.WithBlock(),
		grpc.WithReturnConnectionError(),
		grpc.FailOnNonTempDialError(true),
		grpc.WithMaxHeaderListSize(maxStatusBytes),
		grpc.WithDefaultCallOptions(grpc.ForceCodec(bytesCodec{}), grpc.MaxCallRecvMsgSize(frames.MaxBodyBytes)))
}

// slots limits how many calls run at once. A running call holds one of its places.
type slots chan struct{}

// take takes a place if one is free, and reports whether one was.
func (s slots) take() bool {
	select {
	case s <- struct{}{}:
		return true
	default:
		return false
	}
}

func (s slots) giveBack() { <-s }
