package main

import (
	"context"
	"errors"
	"fmt"
	"net"
	"sync"
	"syscall"
	"time"

	"google.golang.org/grpc/codes"
	"google.golang.org/grpc/status"

	"fomaheti/frames"
	"fomaheti/sockets"
)

// The time limits of the control socket: for the peer to send its next call completely, and for the
// peer to take a reply.
const (
	nextCallTime = time.Minute
	takeTime     = 10 * time.Second
)

// The pause after a failure to accept a connection.
const acceptPause = time.Second

// The time between two checks that a peer still waits for its reply.
const peerLookTime = 100 * time.Millisecond

// viaControl is the name of the control socket in log lines.
const viaControl = "control"

// control answers calls in the envelope of docs/PROTOCOL.md over a Unix socket, as csid does. With
// it, users of csictl need not wait until the front closes its connection to csid. Each connection
// has one call at a time, which waits like a gRPC call.
type control struct {
	handler *handler
	// The answer to getConfiguration; nil without --config.
	configuration *configuration
	listener      *limitedListener
	served        sync.WaitGroup
	mutex         sync.Mutex
	conns         map[*clientConn]bool
	isEnded       bool
}

// startControl begins to serve the control socket. It returns nil without --control.
func startControl(h *handler, opts options) (*control, error) {
	if opts.control == "" {
		return nil, nil
	}
	socket, err := sockets.ListenForGroup(opts.control, opts.controlGroup)
	if err != nil {
		return nil, fmt.Errorf("--control: %w", err)
	}
	listener := limitListener(socket, maxControls, h.log.closedFor(viaControl, "--control", maxControls))
	c := &control{handler: h, configuration: opts.configuration, listener: listener, conns: map[*clientConn]bool{}}
	go c.serve()
	return c, nil
}

// serve serves connections until the socket is closed.
func (c *control) serve() {
	for {
		conn, err := c.listener.take()
		if errors.Is(err, net.ErrClosed) {
			return
		}
		if err != nil {
			// For example, the process may have no free file descriptor.
			fmt.Fprintf(saying{c.handler.log, viaControl}, "taking a connection of --control: %v", err)
			time.Sleep(acceptPause)
		} else if !c.add(conn) {
			conn.Close()
		} else {
			go c.serveOne(conn)
		}
	}
}

func (c *control) serveOne(conn *clientConn) {
	c.answerAll(conn)
	conn.Close()
	c.remove(conn)
}

func (c *control) add(conn *clientConn) bool {
	c.mutex.Lock()
	defer c.mutex.Unlock()
	if !c.isEnded {
		c.conns[conn] = true
		c.served.Add(1)
	}
	return !c.isEnded
}

func (c *control) remove(conn *clientConn) {
	c.mutex.Lock()
	defer c.mutex.Unlock()
	delete(c.conns, conn)
	c.served.Done()
}

// close closes and removes the socket. It does nothing if c is nil.
func (c *control) close() {
	if c != nil {
		c.listener.Close()
	}
}

// stop closes the control socket, and ends its connections without a running call. A running call
// goes on, and its connection ends after it. If c is nil, stop does nothing.
func (c *control) stop() {
	if c == nil {
		return
	}
	c.close()
	c.mutex.Lock()
	defer c.mutex.Unlock()
	c.isEnded = true
	for conn := range c.conns {
		conn.SetReadDeadline(time.Unix(0, 1))
	}
}

// wait waits until all connections of the control socket have ended. After stop each of them ends
// when its call has ended.
func (c *control) wait() {
	if c != nil {
		c.served.Wait()
	}
}

// answerAll answers the calls of a connection, one after the other, until the connection ends or a
// call gets no reply. The front itself answers a malformed frame, with the reply that csid would
// give, and ends the connection.
func (c *control) answerAll(conn *clientConn) {
	requests := frames.NewRequests(conn)
	for c.awaits(conn) {
		request, err := requests.Next()
		var fault frames.Fault
		if errors.As(err, &fault) {
			c.handler.log.malformed(viaControl, fault)
			c.reply(conn, frames.Reply{Code: codes.InvalidArgument, Text: fault.Error()})
		}
		if err != nil {
			return
		}
		if !c.carriesOut(conn, request) {
			return
		}
	}
}

// carriesOut answers one call. It returns false if the call gets no reply, or if its reply cannot
// be written.
func (c *control) carriesOut(conn *clientConn, request frames.Request) bool {
	conn.begin()
	defer conn.end()
	c.handler.running.Add(1)
	defer c.handler.running.Add(-1)
	if request.Path == getConfiguration {
		return c.reply(conn, c.configuration.reply()) == nil
	}
	answer, err := c.answer(conn, request)
	return err == nil && c.reply(conn, answer) == nil
}

// awaits sets the time limit for the next call. It returns false if the front takes no further
// calls, or if the connection is closed.
func (c *control) awaits(conn *clientConn) bool {
	c.mutex.Lock()
	defer c.mutex.Unlock()
	return !c.isEnded && conn.SetReadDeadline(time.Now().Add(nextCallTime)) == nil
}

func (c *control) reply(conn *clientConn, answer frames.Reply) error {
	conn.SetWriteDeadline(time.Now().Add(takeTime))
	_, err := conn.Write(answer.Append(nil))
	return err
}

// answer sends a call to csid and counts it. It logs the call if it was refused or is a change to
// be logged. If csid gives no reply, answer returns an error, and the caller gets no reply either.
func (c *control) answer(conn *clientConn, request frames.Request) (frames.Reply, error) {
	begin := time.Now()
	ctx, cancel := context.WithCancel(context.Background())
	defer cancel()
	peer := conn.Conn.(*net.UnixConn)
	if isGone(peer) {
		// The call may have waited for a long time until the connection had room.
		cancel()
	}
	go cancelGone(ctx, cancel, peer)
	c.handler.metrics.waiting.Inc()
	removal := c.handler.removalOf(ctx, request.Path, request.Message)
	answer, err := c.handler.reply(ctx, request.Path, request.Message)
	c.handler.metrics.waiting.Dec()
	why := status.New(answer.Code, answer.Text)
	if err != nil {
		why = status.Convert(refusal(ctx, csidName, err))
	}
	logged := removal.made(c.handler.loggedChange(request.Path, request.Message, answer.Body), why.Code())
	if logged != nil {
		logged.sender = senderOf(peer)
	}
	c.handler.record(viaControl, request.Path, logged, why, time.Since(begin))
	return answer, err
}

// senderOf returns the ids of the process at the other end of a connection, by SO_PEERCRED
// (unix(7)); nil if the system does not name them.
func senderOf(conn *net.UnixConn) *sender {
	raw, err := conn.SyscallConn()
	if err != nil {
		return nil
	}
	var credentials *syscall.Ucred
	if raw.Control(func(file uintptr) {
		credentials, err = syscall.GetsockoptUcred(int(file), syscall.SOL_SOCKET, syscall.SO_PEERCRED)
	}) != nil || err != nil {
		return nil
	}
	return &sender{credentials.Uid, credentials.Pid}
}

// cancelGone checks every peerLookTime if the peer has closed its connection. If so, it cancels the
// context and returns. A peer that has closed only its sending half still waits for the reply.
func cancelGone(ctx context.Context, cancel func(), conn *net.UnixConn) {
	looks := time.NewTicker(peerLookTime)
	defer looks.Stop()
	for {
		select {
		case <-ctx.Done():
			return
		case <-looks.C:
			if isGone(conn) {
				cancel()
				return
			}
		}
	}
}

// isGone reports whether a peer has closed its end of a connection: then sending zero bytes fails.
// It also returns true if the front has closed the connection.
func isGone(conn *net.UnixConn) bool {
	raw, err := conn.SyscallConn()
	if err != nil {
		return true
	}
	gone := false
	err = raw.Control(func(file uintptr) {
		_, err := syscall.SendmsgN(int(file), nil, nil, nil, syscall.MSG_DONTWAIT|syscall.MSG_NOSIGNAL)
		gone = err == syscall.EPIPE
	})
	return err != nil || gone
}
