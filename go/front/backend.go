package main

import (
	"container/list"
	"context"
	"errors"
	"fmt"
	"sync"
	"time"

	"github.com/prometheus/client_golang/prometheus"
	"google.golang.org/grpc/codes"

	"fomaheti/frames"
)

// promptTime is the longest time that a sent call should wait in csid for the calls before it. A
// call that would wait longer is sent later, so that its caller can still give it up.
const promptTime = 2 * time.Millisecond

// While enoughSent calls or more are on their way, a new call waits for the next reply. Then one
// write sends all calls that came in the meantime, while csid works on a call that was sent before.
const enoughSent = 2

// backend sends calls to csid over one connection, since csid serves one connection at a time.
type backend struct {
	path string
	// The time that csid may take for the reply to a call after its caller has given the call up.
	late time.Duration
	// Guards the fields from here to usual.
	mutex sync.Mutex
	// The calls that are not sent yet, in the order in which they will be sent.
	waiting list.List
	// The connection to csid, or nil.
	kept         *connection
	isConnecting bool
	// isStopped is true if no further call is sent, since the front ends.
	isStopped  bool
	pace       pace
	promptTime time.Duration
	// The moving average of the time that csid takes for a call.
	usual time.Duration
	// The time of the last reply.
	life life
	// Connections that were made, and attempts that failed.
	connections prometheus.Counter
	failures    prometheus.Counter
}

func newBackend(path string, late time.Duration) *backend {
	return &backend{
		path:        path,
		late:        late,
		pace:        pace{pause: leastPause},
		promptTime:  promptTime,
		connections: newCounter("connections_total", "Connections to csid that were made."),
		failures:    newCounter("connection_failures_total", "Attempts at a connection to csid that failed."),
	}
}

// stage says how far a call has come.
type stage int

const (
	// The call waits to be sent.
	isWaiting stage = iota
	// The call is sent or being sent, and has no reply yet.
	isSent
	// csid refused the call since the store of csid was down. The call will be sent again over the
	// next connection.
	isRefused
	// The call has its outcome, or its caller has given it up.
	isOver
)

// call is one call to csid, of a client or of the front itself, from its beginning until it has its
// outcome.
type call struct {
	ctx     context.Context
	path    string
	message []byte
	// The length of its frame in bytes.
	size  int
	stage stage
	// Its element in the list of waiting calls, while it waits.
	place *list.Element
	// hasYielded is true if the call lets no other call go first any more: it did so before, or it
	// is sent again. isRepeated is true if it is sent again, which happens at most once.
	hasYielded, isRepeated bool
	// Receives the outcome. The channel has room for it, so sending never waits for the caller.
	done chan outcome
}

// outcome is the reply to a call, or the reason why the call has no reply.
type outcome struct {
	answer frames.Reply
	err    error
}

// finish gives a call its outcome, unless its caller gave it up.
func (c *call) finish(answer frames.Reply, err error) {
	if c.stage != isOver {
		c.stage = isOver
		c.done <- outcome{answer, err}
	}
}

// isHasty reports whether the deadline of a call is likely to pass before its reply comes. The
// estimate is that csid takes the usual time for this call and for each of the calls before it. A
// call without a deadline is not hasty.
func (c *call) isHasty(before int, usual time.Duration) bool {
	deadline, isLimited := c.ctx.Deadline()
	return isLimited && time.Until(deadline) <= time.Duration(before+1)*usual
}

// ended returns why a caller no longer waits, or nil if it still waits. A deadline that has passed
// counts, even if the context does not report it yet.
func ended(ctx context.Context) error {
	if err := ctx.Err(); err != nil {
		return err
	}
	if deadline, isLimited := ctx.Deadline(); isLimited && !time.Now().Before(deadline) {
		return context.DeadlineExceeded
	}
	return nil
}

// call sends a call to csid and returns its reply. It never sends a call again that csid may have
// carried out. After an error, csid has carried out the call or not, so the caller should repeat
// it.
func (b *backend) call(ctx context.Context, path string, message []byte) (frames.Reply, error) {
	if err := ended(ctx); err != nil {
		return frames.Reply{}, err
	}
	size := frames.RequestHeadBytes(path) + len(message)
	c := &call{ctx: ctx, path: path, message: message, size: size, done: make(chan outcome, 1)}
	b.begin(c)
	select {
	case got := <-c.done:
		return got.answer, got.err
	case <-ctx.Done():
	}
	if b.giveUp(c) {
		return frames.Reply{}, ended(ctx)
	}
	got := <-c.done
	return got.answer, got.err
}

// errStopped is the error of a call after stop.
var errStopped = errors.New("the front ends")

// stop sends no further call, and waits at most for limit until csid has answered the calls on
// their way. csid logs a failed read for a connection that is closed before its replies are read.
func (b *backend) stop(limit time.Duration) {
	b.mutex.Lock()
	b.isStopped = true
	conn := b.kept
	if conn != nil && len(conn.sent) == 0 {
		conn.end(nil)
	}
	b.mutex.Unlock()
	if conn == nil {
		return
	}
	select {
	case <-conn.closed:
	case <-time.After(limit):
	}
}

// begin sends a call at once, or adds it to the calls that wait. A call waits if other calls wait,
// if enoughSent calls are on their way, if there is no connection, or if mayBeSent returns false.
// After stop a call ends at once.
func (b *backend) begin(c *call) {
	b.mutex.Lock()
	defer b.mutex.Unlock()
	if b.isStopped {
		c.finish(frames.Reply{}, errStopped)
		return
	}
	if b.kept != nil && b.waiting.Len() == 0 && len(b.kept.sent) < enoughSent && b.mayBeSent(c) {
		b.kept.add(c)
		b.write(b.kept)
		return
	}
	c.place = b.waiting.PushBack(c)
	if b.kept == nil {
		b.send()
	}
}

// mayBeSent reports whether a call may be sent now over the connection. If other calls are on their
// way, the connection must also have room for it, and csid should begin with it within promptTime.
func (b *backend) mayBeSent(c *call) bool {
	conn := b.kept
	if len(conn.sent) == 0 {
		return conn.isOpen()
	}
	return conn.hasRoom(c) && time.Since(conn.begun)+time.Duration(len(conn.sent))*b.usual < b.promptTime
}

// giveUp forgets a call whose caller no longer waits. It returns false if the call already has its
// outcome, and does nothing then. A call that waits is never sent. A call on its way is taken back
// if it is the last one and none of its bytes are written. Otherwise all of it is sent and its
// reply is dropped, so that the connection can be used for further calls. If it is the first call
// on its way, limit bounds the wait for this reply.
func (b *backend) giveUp(c *call) bool {
	b.mutex.Lock()
	defer b.mutex.Unlock()
	switch c.stage {
	case isOver:
		return false
	case isWaiting:
		b.waiting.Remove(c.place)
	case isSent:
		if conn := b.kept; conn.isUnwritten(c) {
			conn.takeBack()
		} else if conn.sent[0] == c {
			b.limit(conn)
		}
	}
	c.stage, c.message = isOver, nil
	return true
}

// limit starts the timer that ends a connection if no reply to the first call on its way comes
// within b.late. The caller has given this call up.
func (b *backend) limit(conn *connection) {
	first := conn.sent[0]
	conn.late = time.AfterFunc(b.late, func() {
		b.mutex.Lock()
		defer b.mutex.Unlock()
		if len(conn.sent) > 0 && conn.sent[0] == first {
			conn.end(lateReply(b.late))
		}
	})
}

// lateReply is the reason why limit ends a connection. Its value is the time limit.
type lateReply time.Duration

// Error returns a text with the time limit.
func (limit lateReply) Error() string {
	return fmt.Sprintf("an earlier call was given up, and no reply to it came within %v", time.Duration(limit))
}

// send sends as many of the waiting calls as may be sent now. If calls wait and there is no
// connection, it begins to connect. After stop it sends nothing.
func (b *backend) send() {
	if b.isStopped {
		return
	}
	for b.kept != nil && b.load(b.kept) {
		b.write(b.kept)
	}
	if b.kept == nil && b.waiting.Len() > 0 && !b.isConnecting {
		b.isConnecting = true
		time.AfterFunc(b.pace.left(), b.connect)
	}
}

// load moves waiting calls to the calls on their way, and reports whether it moved any. It stops at
// a call that may not be sent now, and after a call whose message is too long to be copied. A call
// whose context has ended is dropped. A call whose deadline is likely to pass before its reply
// moves to the end of the waiting calls, once. Without this rule most calls of too many callers
// would be given up after they were sent.
func (b *backend) load(conn *connection) (any bool) {
	for b.waiting.Len() > 0 && conn.message == nil {
		c := b.waiting.Front().Value.(*call)
		if why := ended(c.ctx); why != nil {
			b.waiting.Remove(c.place)
			c.finish(frames.Reply{}, why)
			continue
		}
		if !b.mayBeSent(c) {
			break
		}
		if !c.hasYielded && b.waiting.Len() > 1 && c.isHasty(len(conn.sent), b.usual) {
			c.hasYielded = true
			b.waiting.MoveToBack(c.place)
			continue
		}
		b.waiting.Remove(c.place)
		conn.add(c)
		any = true
	}
	return any
}

// write writes the frames of the calls on their way. If the socket does not take all bytes, which
// happens with long messages, a goroutine writes the rest of the frame that was interrupted. The
// calls after this frame wait again. If the write fails, each call without a written byte waits
// again.
func (b *backend) write(conn *connection) {
	isDone := true
	err := conn.raw.Write(func(file uintptr) bool {
		isDone = conn.write(file)
		return true
	})
	if err != nil {
		// The connection is closed already. The goroutine that reads will call lose with the
		// reason.
		conn.end(nil)
	}
	for conn.isUnwritten(conn.last()) && (conn.isBroken || conn.unwritten() > conn.last().size) {
		b.putBack(conn.takeBack())
	}
	if !isDone && !conn.isBroken {
		conn.isWriting = true
		go b.writeRest(conn)
	}
}

// writeRest writes the remaining bytes as the socket takes them, and then sends the calls that
// wait.
func (b *backend) writeRest(conn *connection) {
	conn.raw.Write(func(file uintptr) bool {
		b.mutex.Lock()
		defer b.mutex.Unlock()
		return b.kept != conn || conn.write(file)
	})
	b.mutex.Lock()
	defer b.mutex.Unlock()
	conn.isWriting = false
	if b.kept == conn {
		b.send()
	}
}

// putBack puts a call before all calls that wait, unless its caller has given it up.
func (b *backend) putBack(c *call) {
	if c.stage != isOver {
		c.stage = isWaiting
		c.place = b.waiting.PushFront(c)
	}
}

// connect makes a connection if a call still waits for one, and sends the waiting calls. If it
// cannot make the connection, all waiting calls end with the reason.
func (b *backend) connect() {
	b.mutex.Lock()
	defer b.mutex.Unlock()
	b.isConnecting = false
	b.dropEnded()
	if b.waiting.Len() == 0 || b.isStopped {
		return
	}
	b.pace.begins()
	conn, err := connect(b.path)
	if err != nil {
		b.failures.Inc()
		b.fail(err)
		return
	}
	b.connections.Inc()
	b.kept = conn
	go b.read(conn)
	b.send()
}

// dropEnded ends each waiting call whose context has ended, with the reason of this end.
func (b *backend) dropEnded() {
	for place := b.waiting.Front(); place != nil; {
		c := place.Value.(*call)
		place = place.Next()
		if why := ended(c.ctx); why != nil {
			b.waiting.Remove(c.place)
			c.finish(frames.Reply{}, why)
		}
	}
}

// fail ends all waiting calls with the reason why a connection could not be made, or why it ended
// without any reply. If these calls stayed, each of them would cause another attempt to connect.
func (b *backend) fail(why error) {
	b.pace.failed()
	for b.waiting.Len() > 0 {
		b.waiting.Remove(b.waiting.Front()).(*call).finish(frames.Reply{}, why)
	}
}

// read reads the replies of a connection and gives them to their calls. When the connection ends,
// read closes it.
func (b *backend) read(conn *connection) {
	defer close(conn.closed)
	for {
		answer, err := conn.next()
		if err == nil {
			err = b.answered(conn, answer)
		}
		if err != nil {
			conn.socket.Close()
			b.lose(conn, err)
			return
		}
	}
}

// answered gives a reply to the first call on its way. It keeps a call whose reply is downReason
// after an earlier status 13 of this connection: the call is sent again over the next connection,
// once. If answered returns an error, the connection must be closed. Waiting calls are sent after
// the last of the replies that came together.
func (b *backend) answered(conn *connection, answer frames.Reply) error {
	b.mutex.Lock()
	defer b.mutex.Unlock()
	if len(conn.sent) == 0 {
		return errUnasked
	}
	c := conn.takeFirst()
	b.served(conn)
	if conn.isSpoiled && isDown(answer) && c.stage != isOver && !c.isRepeated {
		c.stage = isRefused
		conn.again = append(conn.again, c)
	} else {
		c.finish(answer, nil)
	}
	// After status 13 csid refuses each further change over the connection.
	conn.isSpoiled = conn.isSpoiled || answer.Code == codes.Internal
	isLast := conn.replies.Buffered() == 0
	switch {
	case len(conn.sent) == 0 && conn.isSpoiled:
		return errSpoiled
	case len(conn.sent) == 0 && !isLast:
		return errUnasked
	case len(conn.sent) == 0 && b.isStopped:
		return errStopped
	case len(conn.sent) > 0 && conn.sent[0].stage == isOver:
		b.limit(conn)
	}
	if isLast {
		b.send()
	}
	return nil
}

// served records that a reply came, and how long csid took for it.
func (b *backend) served(conn *connection) {
	now := time.Now()
	b.usual += (now.Sub(conn.begun) - b.usual) / 8
	conn.begun = now
	conn.hasServed = true
	b.life.shows()
	b.pace.served()
}

// lose forgets a closed connection, after reading a reply failed with err. Calls that csid cannot
// have carried out are sent again over the next connection, each once, before the calls that wait.
// The other calls of the connection end with an error. If calls were sent over the connection and
// none got a reply, all of them and all waiting calls end with an error.
func (b *backend) lose(conn *connection, err error) {
	b.mutex.Lock()
	defer b.mutex.Unlock()
	b.kept = nil
	conn.stopLate()
	why := conn.reason(err)
	for place, c := range conn.sent {
		if conn.hasServed && !c.isRepeated && conn.isUndone(place, err) {
			conn.again = append(conn.again, c)
		} else {
			c.finish(frames.Reply{}, why)
		}
	}
	conn.sent = nil
	for i := len(conn.again) - 1; i >= 0; i-- {
		conn.again[i].isRepeated, conn.again[i].hasYielded = true, true
		b.putBack(conn.again[i])
	}
	if conn.hasSent && !conn.hasServed {
		b.fail(why)
	}
	b.send()
}
