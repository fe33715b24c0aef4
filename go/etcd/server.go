package main

import (
	"context"
	"errors"
	"fmt"
	"net"
	"sync"
	"time"

	"google.golang.org/grpc/codes"

	"fomaheti/frames"
)

// The time that csid may take to read a reply: replyTime, or replacedTime if a newer connection
// waits.
const (
	replyTime    = 10 * time.Second
	replacedTime = time.Second
)

// server answers the calls of csid, one at a time. It serves only the newest connection.
type server struct {
	state   *leadership
	members *members
	// If set, Make is refused: --existing wants rows that exist already.
	requireRows bool
	logf        func(format string, args ...interface{})
	mutex       sync.Mutex
	newest      *connection
	// Set at the end of the program: further connections are closed.
	isEnding bool
}

// connection is a connection from csid, with the walk that reads the rows for it.
type connection struct {
	net.Conn
	// replaced is closed when a newer connection arrives or the program ends. done is closed when
	// no call of this connection runs any more.
	replaced chan struct{}
	done     chan struct{}
	once     sync.Once
	walk     *walk
}

// take makes conn the newest connection. The connection before it ends after its running call.
// After end, take closes conn.
func (s *server) take(conn net.Conn) {
	c := &connection{Conn: conn, replaced: make(chan struct{}), done: make(chan struct{})}
	s.mutex.Lock()
	if s.isEnding {
		s.mutex.Unlock()
		conn.Close()
		return
	}
	before := s.newest
	s.newest = c
	s.mutex.Unlock()
	before.replace()
	go func() {
		defer close(c.done)
		s.serve(c, before)
		c.Close()
		c.walk.waitAhead()
	}()
}

// replace makes a connection end after its running call, and does not wait for this. It does
// nothing for nil, or if it was called before.
func (c *connection) replace() {
	if c == nil {
		return
	}
	c.once.Do(func() {
		close(c.replaced)
		c.SetReadDeadline(time.Now())
		c.SetWriteDeadline(time.Now().Add(replacedTime))
	})
}

func (c *connection) isReplaced() bool {
	select {
	case <-c.replaced:
		return true
	default:
		return false
	}
}

// wait waits until no call of the connection runs any more. It returns at once for nil.
func (c *connection) wait() {
	if c != nil {
		<-c.done
	}
}

// serve answers calls until the connection ends. Before its first call, it waits for the last call
// of the connection before.
func (s *server) serve(c, before *connection) {
	requests := frames.NewRequests(c)
	for {
		request, err := requests.Next()
		before.wait()
		if c.isReplaced() {
			return
		}
		var fault frames.Fault
		if errors.As(err, &fault) {
			c.reply(frames.Reply{Code: codes.InvalidArgument, Text: fault.Error()})
		}
		if err != nil {
			return
		}
		reply, err := s.handle(c, request)
		if err != nil {
			s.logf("%s: %s", request.Path, frames.Text(err.Error()+s.members.membersOf(err)))
			return
		}
		if err := c.reply(reply); err != nil {
			return
		}
	}
}

func (c *connection) reply(r frames.Reply) error {
	c.SetWriteDeadline(time.Now().Add(replyTime))
	if c.isReplaced() {
		c.SetWriteDeadline(time.Now().Add(replacedTime))
	}
	_, err := c.Write(r.Append(nil))
	return err
}

// handle answers a call. After an error the connection is closed without a reply.
func (s *server) handle(c *connection, request frames.Request) (frames.Reply, error) {
	if !isPath(request.Path) {
		return refusalReply(refusal{codes.Unimplemented, "unknown method"}), nil
	}
	term, reason := s.state.current()
	if term == nil {
		return refusalReply(reason), nil
	}
	// The term must not be used while a page is read ahead.
	c.walk.waitAhead()
	if term.isOver() {
		return frames.Reply{}, errOver
	}
	body, err := s.dispatch(c, term, request)
	if term.isOver() {
		return frames.Reply{}, errOver
	}
	if errors.As(err, &reason) {
		s.logf("%s %d %q%s", request.Path, reason.code, reason.text, frames.Text(s.members.membersOf(reason)))
		return refusalReply(reason), nil
	}
	return frames.Reply{Body: body}, err
}

var errNoRows = refuse("there are no rows, and none are made")

func refusalReply(reason refusal) frames.Reply {
	return frames.Reply{Code: reason.code, Text: reason.text}
}

func isPath(path string) bool {
	return path == readPath || path == makePath || path == commitPath || path == leadPath
}

// dispatch carries out a call of one of the four paths in a term, and returns the body of its
// reply.
func (s *server) dispatch(c *connection, t *term, request frames.Request) ([]byte, error) {
	switch request.Path {
	case readPath:
		return c.read(t.ctx, t, request.Message)
	case leadPath:
		if err := readInto(request.Message, nil); err != nil {
			return nil, err
		}
		return nil, t.confirmLead(t.ctx)
	case makePath:
		if err := readInto(request.Message, nil); err != nil {
			return nil, err
		}
		if s.requireRows {
			return nil, errNoRows
		}
		return nil, t.commit(t.ctx, makeMeta{})
	default:
		requested, err := readChange(request.Message)
		if err != nil {
			return nil, err
		}
		return nil, t.commit(t.ctx, requested)
	}
}

// read returns a page of rows. Without a token it starts a new walk; with one it continues the walk
// of this connection.
func (c *connection) read(ctx context.Context, t *term, message []byte) (page []byte, err error) {
	token, err := readToken(message)
	if err != nil {
		return nil, err
	}
	switch {
	case len(token) == 0:
		if c.walk, page, err = newWalk(ctx, t); err == nil {
			page, err = c.walk.first(ctx, page)
		}
	case c.walk.isNext(token) && c.walk.term == t:
		page, err = c.walk.next(ctx)
	default:
		err = errToken
	}
	if err != nil {
		return nil, err
	}
	t.revisions.record(c.walk.revision)
	return page, nil
}

// drop closes the newest connection at once, even during a call. If there is no connection, it does
// nothing.
func (s *server) drop() {
	s.mutex.Lock()
	defer s.mutex.Unlock()
	if s.newest != nil {
		s.newest.Close()
	}
}

// end closes the newest connection after its running call, and each later connection at once:
// accept may have taken one off the listener before the listener was closed.
func (s *server) end() {
	s.mutex.Lock()
	s.isEnding = true
	last := s.newest
	s.mutex.Unlock()
	last.replace()
	last.wait()
}

// accept serves connections until the listener is closed, and then returns nil. It returns any
// other error of the listener that is not temporary.
func (s *server) accept(listener net.Listener) error {
	for {
		conn, err := listener.Accept()
		if errors.Is(err, net.ErrClosed) {
			return nil
		}
		var failure net.Error
		if errors.As(err, &failure) && failure.Temporary() {
			time.Sleep(50 * time.Millisecond)
			continue
		}
		if err != nil {
			return fmt.Errorf("taking connections: %w", err)
		}
		s.take(conn)
	}
}
