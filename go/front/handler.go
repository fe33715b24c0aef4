package main

import (
	"context"
	"strconv"
	"strings"
	"sync/atomic"
	"time"

	"google.golang.org/grpc"
	"google.golang.org/grpc/codes"
	"google.golang.org/grpc/keepalive"
	"google.golang.org/grpc/status"

	"fomaheti/frames"
)

// greetingTime is the time that a client may take to begin HTTP/2 on a new connection. A client
// that has not begun delays a graceful end for at most this time.
const greetingTime = 5 * time.Second

// maxWaitingCalls is the greatest number of calls that run at once over one connection of a client.
const maxWaitingCalls = 256

// The flow-control windows of gRPC in bytes, for one call and for all calls of one connection: the
// client may send this many bytes before the front reads them. Since both are set, gRPC does not
// enlarge them.
const (
	callWindow   = 64 << 10
	clientWindow = 1 << 20
)

// callWorkers is the number of goroutines that are kept for calls. They save the time in which a
// new goroutine grows its stack. While all of them have calls, a further call gets a new goroutine.
const callWorkers = 32

// maxHeaderBytes is the greatest size of the headers of one call: their names, their values, and 32
// bytes for each header (RFC 9113, section 6.5.2). A call keeps its headers in memory until it
// ends.
const maxHeaderBytes = 16 << 10

// anyPings lets clients send PING at any time. With a limit, grpc-go 1.33 would end its writer
// before its reader after too many PINGs (see grpcConn). A MinTime of 0 would mean five minutes.
var anyPings = keepalive.EnforcementPolicy{MinTime: -1, PermitWithoutStream: true}

// bytesCodec passes messages on unchanged, as bytes. The client of a node plugin calls Name, and
// the server calls String.
type bytesCodec struct{}

func (bytesCodec) Marshal(v interface{}) ([]byte, error)      { return *v.(*[]byte), nil }
func (bytesCodec) Unmarshal(data []byte, v interface{}) error { *v.(*[]byte) = data; return nil }
func (bytesCodec) String() string                             { return "bytes" }
func (bytesCodec) Name() string                               { return "proto" }

// The names of the two programs that answer calls, for the texts of refusals.
const (
	csidName       = "csid"
	nodePluginName = "node plugin"
)

// handler answers calls of every unary method with the replies of csid, with three exceptions. If
// there is a node plugin, it answers the Node service, and Probe asks csid and the plugin. With
// --health, the front answers Check of the health service.
type handler struct {
	backend *backend
	// The client of the node plugin, which answers the Node service; nil without --node.
	node     *nodePlugin
	messages *messages
	metrics  *metrics
	log      *logger
	// The number of calls of clients that run, over gRPC and over the control socket.
	running atomic.Int32
	// Holds a value for each health check over HTTP that runs.
	checks chan struct{}
	// hasHealth is true if the health service of gRPC is answered, and logChanges if each change is
	// logged.
	hasHealth  bool
	logChanges bool
	// standsBy is true if the front has --standby, and isWaiting while the front waits for csid.
	// While it waits, it does not log refusals of the calls that it makes itself, since it has
	// logged why it waits.
	standsBy  bool
	isWaiting atomic.Bool
}

func newHandler(opts options, log *logger) *handler {
	h := &handler{
		backend: newBackend(opts.csid, opts.late), messages: newMessages(opts.waiting << 20), metrics: newMetrics(),
		log:    log,
		checks: make(chan struct{}, maxHealthChecks), hasHealth: opts.health, logChanges: opts.logChanges,
		standsBy: opts.standby > 0,
	}
	h.isWaiting.Store(h.standsBy)
	if opts.node != "" {
		h.node = newNodePlugin(opts.node)
		h.metrics.begin(nodeMethods)
	}
	return h
}

func newServer(h *handler) *grpc.Server {
	return grpc.NewServer(
		grpc.CustomCodec(bytesCodec{}),
		grpc.UnknownServiceHandler(h.handle),
		grpc.MaxRecvMsgSize(frames.MaxMessageBytes),
		grpc.MaxConcurrentStreams(maxWaitingCalls),
		grpc.InitialWindowSize(callWindow),
		grpc.InitialConnWindowSize(clientWindow),
		grpc.MaxHeaderListSize(maxHeaderBytes),
		grpc.ConnectionTimeout(greetingTime),
		grpc.NumStreamWorkers(callWorkers),
		grpc.KeepaliveEnforcementPolicy(anyPings),
	)
}

// handle answers one call of a client, counts it, and logs it if it was refused or is a change to
// be logged.
func (h *handler) handle(_ interface{}, stream grpc.ServerStream) error {
	h.running.Add(1)
	defer h.running.Add(-1)
	begin := time.Now()
	path, _ := grpc.MethodFromServerStream(stream)
	logged, err := h.answer(path, stream)
	h.record("", path, logged, status.Convert(err), time.Since(begin))
	return err
}

// isIdle reports whether no call of a client runs.
func (h *handler) isIdle() bool { return h.running.Load() == 0 }

// record counts a call, and logs it if it was refused or if logged is not nil. socket is the name
// of the socket, and is empty for gRPC.
func (h *handler) record(socket, path string, logged *change, why *status.Status, took time.Duration) {
	h.metrics.observe(path, why.Code(), took)
	if why.Code() != codes.OK {
		h.log.logRefusal(socket, path, logged, why, took)
	} else if logged != nil {
		h.log.logChange(socket, path, logged, took)
	}
}

// answer answers a call of a client. It also returns the change that the call asks for, or nil if
// no change is to be logged.
func (h *handler) answer(path string, stream grpc.ServerStream) (*change, error) {
	if !frames.IsPath(path) {
		return nil, status.Error(codes.Unimplemented, "unknown method")
	}
	if h.node != nil && strings.HasPrefix(path, nodeService) {
		return nil, h.answerByNode(path, stream)
	}
	message, err := h.messages.receive(stream)
	if err != nil {
		return nil, err
	}
	defer h.messages.giveBack(message)
	client := clientOf(stream.Context())
	client.begin()
	defer client.end()
	h.metrics.waiting.Inc()
	removal := h.removalOf(stream.Context(), path, message)
	body, err := h.respond(stream.Context(), path, message)
	h.metrics.waiting.Dec()
	logged := removal.made(h.loggedChange(path, message, body), status.Code(err))
	if err != nil {
		return logged, err
	}
	return logged, stream.SendMsg(&body)
}

// answerByNode answers a call of the Node service. Its message does not count in the limit of
// --waiting. maxNodeCalls bounds such messages instead, so a plugin that hangs takes no room from
// the calls of csid.
func (h *handler) answerByNode(path string, stream grpc.ServerStream) error {
	message, err := h.messages.read(stream)
	if err != nil {
		return err
	}
	client := clientOf(stream.Context())
	client.begin()
	defer client.end()
	body, err := h.node.call(stream.Context(), path, message)
	if err != nil {
		return err
	}
	return stream.SendMsg(&body)
}

// loggedChange returns the change that a call asks for. It returns nil without --log-changes, and
// for a method that changes no volumes.
func (h *handler) loggedChange(path string, message, body []byte) *change {
	if !h.logChanges {
		return nil
	}
	return changeOf(path, message, body)
}

func (h *handler) respond(ctx context.Context, path string, message []byte) ([]byte, error) {
	if h.hasHealth && path == healthCheck {
		return h.checkHealth(ctx, message)
	}
	if h.node != nil && path == probe {
		return h.probeBoth(ctx, message)
	}
	return h.ask(ctx, path, message)
}

// ask sends a call to csid and returns the body of the reply. If csid refuses the call or gives no
// reply, ask returns the gRPC error for the orchestrator, which is UNAVAILABLE if isOpen is true of
// the reply.
func (h *handler) ask(ctx context.Context, path string, message []byte) ([]byte, error) {
	answer, err := h.reply(ctx, path, message)
	if err != nil {
		return nil, refusal(ctx, csidName, err)
	}
	if isOpen(answer) {
		return nil, status.Error(codes.Unavailable, answer.Text)
	}
	if answer.Code != codes.OK {
		return nil, status.Error(answer.Code, answer.Text)
	}
	return answer.Body, nil
}

// reply sends a call to csid and returns its reply unchanged. It counts a reply with one of the
// openReasons.
func (h *handler) reply(ctx context.Context, path string, message []byte) (frames.Reply, error) {
	answer, err := h.backend.call(ctx, path, message)
	if err == nil && isOpen(answer) {
		h.metrics.refusals.WithLabelValues(answer.Text).Inc()
	}
	return answer, err
}

// isOpen reports whether a reply has one of the openReasons.
func isOpen(answer frames.Reply) bool {
	return answer.Code == codes.Internal && openReasons[answer.Text]
}

// downReason is the text of status 13 for each change after csid refused an earlier change of the
// same connection with status 13. A call with this reply changed nothing.
const downReason = "store is down"

// isDown reports whether csid did not make a call because its store was down.
func isDown(answer frames.Reply) bool {
	return answer.Code == codes.Internal && answer.Text == downReason
}

// openReasons are the texts of status 13 for which an orchestrator gets UNAVAILABLE, and so repeats
// the call. Except after downReason, the change may have been made or not. Sidecars take INTERNAL
// as final, and would believe that no change was made.
var openReasons = map[string]bool{"out of memory": true, "store refused": true, downReason: true}

// refusal returns the gRPC error for a call without a reply: the error of the context if it has
// ended, and otherwise UNAVAILABLE with the name who and err. From these codes an orchestrator
// knows that the call may have been carried out or not, so it repeats the call.
func refusal(ctx context.Context, who string, err error) error {
	if ended := ended(ctx); ended != nil {
		return status.FromContextError(ended).Err()
	}
	return noReplyError{status.Newf(codes.Unavailable, "%s: %v", who, err), err}
}

// noReplyError is the gRPC error for a call without a reply, with its reason.
type noReplyError struct {
	status *status.Status
	reason error
}

// Error returns the text of the gRPC error, GRPCStatus its status, and Unwrap the reason.
func (e noReplyError) Error() string              { return e.status.Err().Error() }
func (e noReplyError) GRPCStatus() *status.Status { return e.status }
func (e noReplyError) Unwrap() error              { return e.reason }

// shownPath returns a path as one word of a log line. A path that no frame can have is quoted,
// after it was cut to frames.MaxPathBytes bytes.
func shownPath(path string) string {
	if frames.IsPath(path) {
		return path
	}
	if len(path) > frames.MaxPathBytes {
		path = path[:frames.MaxPathBytes]
	}
	return strconv.QuoteToASCII(path)
}
