package main

import (
	"context"
	"encoding/binary"
	"errors"
	"fmt"
	"io"
	"math/rand"
	"net"
	"os"
	"sync"
	"sync/atomic"
	"testing"
	"time"

	"google.golang.org/grpc/codes"

	"fomaheti/frames"
)

// The lengths in bytes of the frame of a numbered call, and of its reply.
const (
	numberedCall  = shortCall + 4
	numberedReply = 8 + 4
)

// table has the changes that a csid made, as the numbers of their calls, in the order in which it
// made them.
type table struct {
	mutex sync.Mutex
	made  []uint32
}

func (t *table) add(number uint32) {
	t.mutex.Lock()
	defer t.mutex.Unlock()
	t.made = append(t.made, number)
}

func (t *table) rows() []uint32 {
	t.mutex.Lock()
	defer t.mutex.Unlock()
	return append([]uint32(nil), t.made...)
}

// counts returns how often each number is in a table.
func (t *table) counts() map[uint32]int {
	counts := map[uint32]int{}
	for _, number := range t.rows() {
		counts[number]++
	}
	return counts
}

// numbered returns the message of the call with this number. The body of its reply is the same.
func numbered(number uint32) []byte { return binary.BigEndian.AppendUint32(nil, number) }

func okReply(number uint32) []byte { return frames.Reply{Body: numbered(number)}.Append(nil) }

func refusing(text string) []byte {
	return frames.Reply{Code: codes.Internal, Text: text}.Append(nil)
}

func (b *backend) setPromptTime(most time.Duration) {
	b.mutex.Lock()
	defer b.mutex.Unlock()
	b.promptTime = most
}

// takeCall reads a call of any length to /a/b, and returns its number.
func takeCall(conn net.Conn) (uint32, error) {
	head := make([]byte, shortCall)
	if _, err := io.ReadFull(conn, head); err != nil {
		return 0, err
	}
	message := make([]byte, binary.BigEndian.Uint32(head[shortCall-4:]))
	if _, err := io.ReadFull(conn, message); err != nil {
		return 0, err
	}
	return binary.BigEndian.Uint32(message), nil
}

// serves makes the change of each call, and answers it, until the connection ends.
func serves(conn net.Conn, made *table) {
	for {
		number, err := takeCall(conn)
		if err != nil {
			return
		}
		made.add(number)
		conn.Write(okReply(number))
	}
}

// result is the outcome of a numbered call.
type result struct {
	number uint32
	got    frames.Reply
	err    error
}

// caller makes numbered calls, and collects their outcomes.
type caller struct {
	b       *backend
	results chan result
}

func newCaller(b *backend) *caller { return &caller{b, make(chan result, 100)} }

// begins makes a call, and waits until the call waits to be sent or is on its way.
func (c *caller) begins(t *testing.T, ctx context.Context, number uint32) {
	t.Helper()
	waiting, sent := count(c.b)
	go func() {
		got, err := c.b.call(ctx, "/a/b", numbered(number))
		c.results <- result{number, got, err}
	}()
	awaits(t, "a call begins", func() bool {
		nowWaiting, nowSent := count(c.b)
		return nowWaiting+nowSent > waiting+sent
	})
}

// all waits for the outcomes of this many calls, and returns them by number.
func (c *caller) all(t *testing.T, calls int) map[uint32]result {
	t.Helper()
	all := map[uint32]result{}
	for i := 0; i < calls; i++ {
		select {
		case one := <-c.results:
			if _, is := all[one.number]; is {
				t.Errorf("call %d was answered twice", one.number)
			}
			all[one.number] = one
		case <-time.After(20 * time.Second):
			t.Fatalf("%d of %d calls were answered", len(all), calls)
		}
	}
	return all
}

// served waits for the outcomes of this many calls, and checks that each is the call's own reply.
func (c *caller) served(t *testing.T, calls int) {
	t.Helper()
	for number, got := range c.all(t, calls) {
		if got.err != nil || string(got.got.Body) != string(numbered(number)) {
			t.Errorf("call %d: %v", number, got)
		}
	}
}

// onTheirWay is a backend whose first connection has served call 0 and has the calls from 1 on
// their way. conn is the other end of this connection. Further connections are served with the
// function later of sendsBefore.
type onTheirWay struct {
	*caller
	conn        net.Conn
	made        *table
	connections *int32
}

// sends returns a backend with count calls on their way. contexts maps the numbers of some of these
// calls to their contexts.
func sends(t *testing.T, count int, contexts map[uint32]context.Context) *onTheirWay {
	t.Helper()
	return sendsBefore(t, count, contexts, serves)
}

// sendsBefore is like sends, but serves further connections with later.
func sendsBefore(t *testing.T, count int, contexts map[uint32]context.Context,
	later func(net.Conn, *table)) *onTheirWay {
	t.Helper()
	s := &onTheirWay{made: &table{}}
	first := make(chan net.Conn)
	var path string
	path, s.connections = concurrentCsid(t, func(conn net.Conn, number int32) {
		if number == 1 {
			first <- conn
			return
		}
		later(conn, s.made)
		conn.Close()
	})
	b := newBackend(path, time.Minute)
	b.setPromptTime(time.Hour)
	s.caller = newCaller(b)
	s.begins(t, context.Background(), 0)
	s.conn = <-first
	for number := uint32(1); number <= uint32(count); number++ {
		ctx := contexts[number]
		if ctx == nil {
			ctx = context.Background()
		}
		s.begins(t, ctx, number)
	}
	takeCall(s.conn)
	s.conn.Write(okReply(0))
	s.all(t, 1)
	underWay(t, b, count)
	return s
}

// concurrentCsid plays a csid that serves several connections at once. serve gets each connection
// with its number, from 1 on.
func concurrentCsid(t *testing.T, serve func(net.Conn, int32)) (path string, connections *int32) {
	t.Helper()
	listener, path := listening(t)
	connections = new(int32)
	go func() {
		for {
			conn, err := listener.Accept()
			if err != nil {
				return
			}
			t.Cleanup(func() { conn.Close() })
			go serve(conn, atomic.AddInt32(connections, 1))
		}
	}()
	return path, connections
}

// ending is a way in which a csid ends a connection. It reads some bytes of the calls, makes the
// changes of all complete calls, and answers them. The last complete call may be answered in part
// or not at all.
type ending struct {
	calls, reads  int
	isUnanswered  bool
	writesOfReply int
}

func (e ending) String() string {
	if e.isUnanswered {
		return fmt.Sprintf("%d calls, %d bytes read, the last whole one has %d bytes of its reply", e.calls, e.reads,
			e.writesOfReply)
	}
	return fmt.Sprintf("%d calls, %d bytes read, each whole one answered", e.calls, e.reads)
}

// ends reads and answers the calls of the first connection as e says, and closes the connection.
func (e ending) ends(s *onTheirWay) {
	awaitBytes(s.conn, e.calls*numberedCall)
	stream := make([]byte, e.reads)
	io.ReadFull(s.conn, stream)
	for whole := 1; whole*numberedCall <= e.reads; whole++ {
		number := binary.BigEndian.Uint32(stream[whole*numberedCall-4:])
		s.made.add(number)
		reply := okReply(number)
		if e.isUnanswered && (whole+1)*numberedCall > e.reads {
			reply = reply[:e.writesOfReply]
		}
		s.conn.Write(reply)
	}
	s.conn.Close()
}

// lost returns the number of the call that gets an error, or 0 if each call gets its reply. It is
// the first call without a complete reply. If this call is the only one, and csid did not read all
// of it, it is sent again instead, and lost returns 0.
func (e ending) lost() uint32 {
	whole := e.reads / numberedCall
	switch {
	case e.isUnanswered:
		return uint32(whole)
	case whole == e.calls:
		return 0
	case whole == e.calls-1:
		return 0
	default:
		return uint32(whole + 1)
	}
}

// endings returns all endings for a number of calls: after each byte of the calls, and after each
// byte of each reply.
func endings(calls int) (all []ending) {
	for reads := 0; reads <= calls*numberedCall; reads++ {
		all = append(all, ending{calls: calls, reads: reads})
		if reads > 0 && reads%numberedCall == 0 {
			for part := 0; part < numberedReply; part++ {
				all = append(all, ending{calls, reads, true, part})
			}
		}
	}
	return all
}

// check checks that each call but the lost one had its own reply, and that its change was made
// once, in the order of the calls. The lost call must have an error, and its change may be missing.
func (e ending) check(t *testing.T, s *onTheirWay) {
	t.Helper()
	results, counts := s.all(t, e.calls), s.made.counts()
	for number := uint32(1); number <= uint32(e.calls); number++ {
		got, made := results[number], counts[number]
		if number == e.lost() {
			if got.err == nil || made > 1 {
				t.Errorf("%v: the call in doubt: %v, made %d times", e, got, made)
			}
		} else if got.err != nil || string(got.got.Body) != string(numbered(number)) || made != 1 {
			t.Errorf("%v: call %d: %v, made %d times", e, number, got, made)
		}
	}
	rows := s.made.rows()
	for i := 1; i < len(rows); i++ {
		if rows[i] <= rows[i-1] {
			t.Errorf("%v: made in the order %v", e, rows)
			break
		}
	}
}

// However csid ends a connection, at most one call fails: the first one whose reply had not come.
// The front sends the calls after it again, and no change is made twice.
func TestConnectionThatEnds(t *testing.T) {
	for _, calls := range []int{1, 2, 16} {
		calls := calls
		t.Run(fmt.Sprint(calls, " on their way"), func(t *testing.T) {
			all := endings(calls)
			next := make(chan ending)
			var workers sync.WaitGroup
			for worker := 0; worker < 32; worker++ {
				workers.Add(1)
				go func() {
					defer workers.Done()
					for e := range next {
						s := sends(t, calls, nil)
						e.ends(s)
						e.check(t, s)
						s.conn.Close()
					}
				}()
			}
			for _, e := range all {
				next <- e
			}
			close(next)
			workers.Wait()
			t.Logf("%d endings", len(all))
		})
	}
}

// After a refused change, csid answers further changes that its store is down. These calls are sent
// again, in the order in which they were sent first, and before a newer call. All other calls have
// their replies.
func TestCallsAfterARefusedChange(t *testing.T) {
	for _, c := range []refusedChange{
		{"the first", 1, false, 0},
		{"in the middle", 8, false, 0},
		{"the last", 16, false, 0},
		{"before a call without a change", 8, true, 0},
		{"and the connection ends", 8, false, 1},
		{"and the connection ends later", 8, false, 5},
	} {
		t.Run(c.name, func(t *testing.T) {
			s := sends(t, 16, nil)
			s.b.setPromptTime(0)
			s.begins(t, context.Background(), 17)
			c.answer(t, s)
			c.check(t, s)
			if made := s.made.rows(); made[len(made)-1] != 17 {
				t.Errorf("the newer call was made before others: %v", made)
			}
		})
	}
}

// refusedChange describes a csid that refuses one of 16 calls: the call with the number refused.
// readsNext is true if the call after it changes nothing. ends is the number of further replies
// after which csid ends the connection. If ends is 0, the front ends the connection.
type refusedChange struct {
	name      string
	refused   uint32
	readsNext bool
	ends      int
}

// reads reports whether the call with this number changes nothing, and so is answered OK although
// the store is down.
func (c refusedChange) reads(number uint32) bool {
	return c.readsNext && number == c.refused+1
}

// answer answers the 16 calls as csid does, until csid ends the connection.
func (c refusedChange) answer(t *testing.T, s *onTheirWay) {
	for number := uint32(1); number <= 16; number++ {
		if got, err := takeCall(s.conn); err != nil || got != number {
			t.Fatalf("call %d: %d, %v", number, got, err)
		}
		switch {
		case number < c.refused:
			s.made.add(number)
			s.conn.Write(okReply(number))
		case number == c.refused:
			s.conn.Write(refusing("store refused"))
		case c.reads(number):
			s.conn.Write(okReply(number))
		default:
			s.conn.Write(refusing("store is down"))
		}
		if c.ends > 0 && int(number) == int(c.refused)+c.ends {
			s.conn.Close()
			return
		}
	}
}

// check checks the result of each of the 17 calls, and how often its change was made.
func (c refusedChange) check(t *testing.T, s *onTheirWay) {
	results, counts := s.all(t, 17), s.made.counts()
	for number := uint32(1); number <= 17; number++ {
		got, want := results[number], 1
		if c.reads(number) {
			want = 0
		}
		switch {
		case number == c.refused:
			if got.got.Code != codes.Internal || got.got.Text != "store refused" || counts[number] != 0 {
				t.Errorf("the refused call: %v", got)
			}
		case c.ends > 0 && int(number) == int(c.refused)+c.ends+1:
			if got.err == nil || counts[number] > 1 {
				t.Errorf("call %d, in doubt: %v, made %d times", number, got, counts[number])
			}
		case got.err != nil || got.got.Code != codes.OK || counts[number] != want:
			t.Errorf("call %d: %v, made %d times", number, got, counts[number])
		}
	}
}

// A call is sent again once at most. If it is refused again, this is its reply. If it is lost
// again, it has an error.
func TestCallIsSentAgainOnce(t *testing.T) {
	rows := []struct {
		name string
		// The replies of csid to the third and the fourth call over the second connection, before
		// it closes this connection; nil for no reply. want checks the outcome of the fourth call.
		third, fourth []byte
		want          func(result) bool
	}{
		{"refused again", refusing("store refused"), refusing("store is down"), func(got result) bool {
			return got.err == nil && got.got.Code == codes.Internal && got.got.Text == "store is down"
		}},
		{"lost again", nil, nil, func(got result) bool { return got.err == errUnanswered }},
	}
	for _, row := range rows {
		t.Run(row.name, func(t *testing.T) {
			s := sendsBefore(t, 4, nil, func(conn net.Conn, _ *table) {
				takeCall(conn)
				conn.Write(okReply(2))
				takeCall(conn)
				awaitBytes(conn, numberedCall)
				conn.Write(row.third)
				if row.fourth != nil {
					takeCall(conn)
					conn.Write(row.fourth)
				}
			})
			takeCall(s.conn)
			s.conn.Write(refusing("store refused"))
			for call := 2; call <= 4; call++ {
				takeCall(s.conn)
				s.conn.Write(refusing("store is down"))
			}
			results := s.all(t, 4)
			if got := results[2]; got.err != nil || got.got.Code != codes.OK {
				t.Errorf("the second call: %v", got)
			}
			if got := results[4]; !row.want(got) {
				t.Errorf("the fourth call: %v", got)
			}
			if made := atomic.LoadInt32(s.connections); made != 2 {
				t.Errorf("%d connections", made)
			}
		})
	}
}

// Each reply goes to its own call, even if the first reply takes long. The connection stays open.
func TestSlowReplyBeforeFastOnes(t *testing.T) {
	s := sends(t, 16, nil)
	time.Sleep(100 * time.Millisecond)
	serveOn(s, 16)
	s.served(t, 16)
	if made := atomic.LoadInt32(s.connections); made != 1 {
		t.Errorf("%d connections", made)
	}
}

// serveOn serves a number of calls over the first connection.
func serveOn(s *onTheirWay, calls int) {
	for call := 0; call < calls; call++ {
		number, err := takeCall(s.conn)
		if err != nil {
			return
		}
		s.made.add(number)
		s.conn.Write(okReply(number))
	}
}

// givesUp returns contexts for calls of these numbers, and a function that ends all of them.
func givesUp(t *testing.T, numbers ...uint32) (contexts map[uint32]context.Context, giveUp func()) {
	contexts = map[uint32]context.Context{}
	var cancels []func()
	for _, number := range numbers {
		ctx, cancel := context.WithCancel(context.Background())
		contexts[number], cancels = ctx, append(cancels, cancel)
	}
	return contexts, func() {
		for _, cancel := range cancels {
			cancel()
		}
	}
}

// A caller that gives up while its call is on its way gets its error at once. The reply is dropped
// when it comes. The other calls get their replies over the same connection.
func TestCallersThatGiveUpOnTheWay(t *testing.T) {
	for _, gone := range [][]uint32{{1}, {5}, {16}, {1, 2, 3, 16}} {
		contexts, giveUp := givesUp(t, gone...)
		s := sends(t, 16, contexts)
		giveUp()
		for number, got := range s.all(t, len(gone)) {
			if got.err != context.Canceled || contexts[number] == nil {
				t.Errorf("%v gave up: call %d: %v", gone, number, got)
			}
		}
		serveOn(s, 16)
		for number, got := range s.all(t, 16-len(gone)) {
			if got.err != nil || string(got.got.Body) != string(numbered(number)) {
				t.Errorf("%v gave up: call %d: %v", gone, number, got)
			}
		}
		if made := atomic.LoadInt32(s.connections); made != 1 || len(s.made.rows()) != 16 {
			t.Errorf("%v gave up: %d connections, made %v", gone, made, s.made.rows())
		}
	}
}

// A deadline that passes while a call is on its way ends the call at once.
func TestDeadlineOnTheWay(t *testing.T) {
	ctx, cancel := context.WithTimeout(context.Background(), 300*time.Millisecond)
	defer cancel()
	s := sends(t, 16, map[uint32]context.Context{7: ctx})
	got := s.all(t, 1)
	if got[7].err != context.DeadlineExceeded {
		t.Errorf("%v", got)
	}
	serveOn(s, 16)
	s.all(t, 15)
}

// A call whose caller gave up is not sent again, also if csid left the call unread or answered that
// its store is down.
func TestCallerThatGaveUpIsNotSentAgain(t *testing.T) {
	contexts, giveUp := givesUp(t, 2, 5)
	s := sends(t, 6, contexts)
	takeCall(s.conn)
	s.conn.Write(refusing("store refused"))
	takeCall(s.conn)
	s.conn.Write(refusing("store is down"))
	awaits(t, "the second call waits for a connection", func() bool {
		s.b.mutex.Lock()
		defer s.b.mutex.Unlock()
		return len(s.b.kept.again) == 1
	})
	giveUp()
	s.all(t, 3)
	s.conn.Close()
	for number, got := range s.all(t, 3) {
		if (got.err == nil) != (number != 3) {
			t.Errorf("call %d: %v", number, got)
		}
	}
	if made := fmt.Sprint(s.made.rows()); made != "[4 6]" {
		t.Errorf("made %s", made)
	}
}

// If the greatest number of calls is on their way, or the most bytes of frames, further calls wait.
func TestLimitsOfCallsOnTheirWay(t *testing.T) {
	rows := []struct {
		name        string
		bytes, sent int
	}{
		{"calls", 0, 16},
		{"bytes", 20<<10 - shortCall, 3},
		{"one call of as many bytes as all may have", maxSentBytes - shortCall, 1},
		{"calls that are longer", maxSentBytes, 1},
		{"the longest", frames.MaxMessageBytes, 1},
	}
	for _, row := range rows {
		t.Run(row.name, func(t *testing.T) {
			let, ended := make(chan struct{}), make(chan struct{})
			path, _ := concurrentCsid(t, func(conn net.Conn, _ int32) {
				for requests, isFirst := frames.NewRequests(conn), true; ; isFirst = false {
					if _, err := requests.Next(); err != nil {
						close(ended)
						return
					}
					if !isFirst {
						<-let
					}
					conn.Write(notFound)
				}
			})
			b := newBackend(path, time.Minute)
			b.promptTime = time.Hour
			wantReply(t, b, codes.NotFound)
			var all sync.WaitGroup
			for call := 0; call < 20; call++ {
				all.Add(1)
				go func() {
					defer all.Done()
					if got, err := b.call(context.Background(), "/a/b", make([]byte, row.bytes)); err != nil ||
						got.Code != codes.NotFound {
						t.Errorf("%v, %v", got, err)
					}
				}()
			}
			awaits(t, "20 calls", func() bool { waiting, sent := count(b); return waiting+sent == 20 })
			// After a reply the other calls are sent.
			let <- struct{}{}
			awaits(t, "calls go out", func() bool {
				waiting, sent := count(b)
				return waiting+sent == 19 && sent == row.sent
			})
			close(let)
			all.Wait()
		})
	}
}

// A new connection has one call on its way until its first reply, since csid may close each
// connection without a reply.
func TestNewConnectionHasOneCall(t *testing.T) {
	let := make(chan struct{})
	path, _ := concurrentCsid(t, func(conn net.Conn, _ int32) {
		<-let
		serves(conn, &table{})
	})
	b := newBackend(path, time.Minute)
	b.promptTime = time.Hour
	c := newCaller(b)
	letGo := hold(b)
	for number := uint32(1); number <= 5; number++ {
		c.begins(t, context.Background(), number)
	}
	letGo()
	underWay(t, b, 1)
	if waiting, _ := count(b); waiting != 4 {
		t.Errorf("%d calls wait", waiting)
	}
	close(let)
	c.all(t, 5)
}

// If csid usually takes promptTime for a call, one call at a time is on its way.
func TestSlowCsidHasOneCall(t *testing.T) {
	let := make(chan struct{})
	path, _ := concurrentCsid(t, func(conn net.Conn, _ int32) {
		for {
			number, err := takeCall(conn)
			if err != nil {
				return
			}
			if number > 0 {
				<-let
			}
			conn.Write(okReply(number))
		}
	})
	b := newBackend(path, time.Minute)
	c := newCaller(b)
	if got, err := b.call(soon(t), "/a/b", numbered(0)); err != nil {
		t.Fatalf("%v, %v", got, err)
	}
	b.usual = b.promptTime
	for number := uint32(1); number <= 5; number++ {
		c.begins(t, context.Background(), number)
	}
	if waiting, sent := count(b); waiting != 4 || sent != 1 {
		t.Errorf("%d calls wait, %d are on their way", waiting, sent)
	}
	close(let)
	c.all(t, 5)
}

// A reply to no call and a malformed reply end a connection. After a malformed reply it is unknown
// what csid did, so no call is sent again.
func TestRepliesThatEndAConnection(t *testing.T) {
	rows := []struct {
		name, sends string
		calls       int
		want        string
	}{
		{"a reply to no call", "05 0000 00 00000000", 0, ""},
		{"a byte of one", "05", 0, ""},
		{"one reply too many", "05 0000 00 00000000 05 0000 00 00000000", 1, ""},
		{"a malformed reply", "04", 1, "reading the reply: malformed reply: bad status 4"},
		{"a malformed reply, and three calls", "04", 3, "reading the reply: malformed reply: bad status 4"},
	}
	for _, row := range rows {
		t.Run(row.name, func(t *testing.T) {
			s := sends(t, row.calls, nil)
			s.conn.Write(fromHex(t, row.sends))
			for number, got := range s.all(t, row.calls) {
				if row.want == "" && got.err != nil || row.want != "" &&
					(got.err == nil || got.err.Error() != row.want) {
					t.Errorf("call %d: %v", number, got)
				}
			}
			awaits(t, "the connection is closed", func() bool { return kept(s.b) == nil })
			s.begins(t, context.Background(), 99)
			if got := s.all(t, 1)[99]; got.err != nil {
				t.Errorf("the next call: %v", got)
			}
			if made := atomic.LoadInt32(s.connections); made != 2 {
				t.Errorf("%d connections", made)
			}
		})
	}
}

// If the first call was given up and its reply is late, the connection ends. The calls after it are
// sent again, except the calls that were given up.
func TestLateReplyBeforeOtherCalls(t *testing.T) {
	contexts, giveUp := givesUp(t, 1, 3)
	s := sends(t, 4, contexts)
	s.b.late = 50 * time.Millisecond
	giveUp()
	s.all(t, 2)
	// csid's next write fails after the end of the connection, so csid looks at no further call.
	awaits(t, "the connection is closed", func() bool {
		return kept(s.b) != nil && kept(s.b).socket != nil && atomic.LoadInt32(s.connections) == 2
	})
	s.served(t, 2)
	if made := fmt.Sprint(s.made.rows()); made != "[2 4]" {
		t.Errorf("made %s", made)
	}
	takeCall(s.conn)
	if _, err := s.conn.Write(okReply(1)); err == nil {
		t.Error("csid can write the late reply, and would look at the next call")
	}
}

// When the front ends a connection, it still reads the replies that csid wrote before. So the first
// call without a reply gets the error, and the calls after it are sent again.
func TestRepliesBeforeTheFrontEndsAConnection(t *testing.T) {
	for replies := uint32(0); replies < 4; replies++ {
		s, why := sends(t, 4, nil), errors.New("the front ends it")
		for call := 1; call <= 4; call++ {
			takeCall(s.conn)
		}
		s.b.mutex.Lock()
		for number := uint32(1); number <= replies; number++ {
			s.conn.Write(okReply(number))
		}
		s.b.kept.end(why)
		s.b.mutex.Unlock()
		for number, got := range s.all(t, 4) {
			if number == replies+1 {
				if got.err != why {
					t.Errorf("%d replies: the call in doubt: %v", replies, got)
				}
			} else if got.err != nil || string(got.got.Body) != string(numbered(number)) {
				t.Errorf("%d replies: call %d: %v", replies, number, got)
			}
		}
		if made, want := fmt.Sprint(s.made.rows()), []string{"[2 3 4]", "[3 4]", "[4]", "[]"}[replies]; made != want {
			t.Errorf("%d replies: sent again %s, wanted %s", replies, made, want)
		}
	}
}

// A call that was given up is not late while an earlier call has no reply and its caller waits.
func TestGivenUpAfterAPatientCaller(t *testing.T) {
	contexts, giveUp := givesUp(t, 2)
	s := sends(t, 3, contexts)
	s.b.late = 50 * time.Millisecond
	giveUp()
	s.all(t, 1)
	time.Sleep(200 * time.Millisecond)
	serveOn(s, 3)
	s.served(t, 2)
	if made := atomic.LoadInt32(s.connections); made != 1 {
		t.Errorf("%d connections", made)
	}
}

// When a call that was given up becomes the first call without a reply, its reply must come within
// the time of --late. Otherwise the connection ends.
func TestGivenUpAfterACallThatIsAnswered(t *testing.T) {
	contexts, giveUp := givesUp(t, 2)
	s := sends(t, 3, contexts)
	s.b.late = 50 * time.Millisecond
	giveUp()
	s.all(t, 1)
	serveOn(s, 1)
	s.served(t, 2)
	if made := fmt.Sprint(s.made.rows()); made != "[1 3]" {
		t.Errorf("made %s", made)
	}
}

// endsAtRandom starts a csid, and returns the path of its socket. The csid serves one connection at
// a time, and ends each at a random point: between two calls, within a call, before, within or
// after a reply, or after it refused a change.
func endsAtRandom(t *testing.T, made *table, seed int64) string {
	t.Helper()
	source := rand.New(rand.NewSource(seed))
	path, _ := csid(t, func(conn net.Conn) {
		isDown := false
		for calls := source.Intn(60); ; calls-- {
			if calls == 0 && source.Intn(2) == 0 {
				conn.Read(make([]byte, source.Intn(2*numberedCall)))
				return
			}
			number, err := takeCall(conn)
			if err != nil {
				return
			}
			switch {
			case isDown:
				conn.Write(refusing("store is down"))
				continue
			case calls <= 0 && source.Intn(3) == 0:
				conn.Write(refusing("store refused"))
				isDown = true
				continue
			}
			made.add(number)
			if calls <= 0 {
				conn.Write(okReply(number)[:source.Intn(numberedReply+1)])
				return
			}
			if source.Intn(200) == 0 {
				time.Sleep(time.Duration(source.Intn(4)) * time.Millisecond)
			}
			// Like csid, it looks at no further call after a reply that cannot be written.
			if _, err := conn.Write(okReply(number)); err != nil {
				return
			}
		}
	})
	return path
}

// The time for which calls are made while connections end at random. FRONT_STRESS sets another
// time.
var stressTime = func() time.Duration {
	if set, err := time.ParseDuration(os.Getenv("FRONT_STRESS")); err == nil {
		return set
	}
	return 4 * time.Second
}()

// tally counts calls by outcome: served with OK, given up (gone), and refused or lost.
type tally struct{ served, refused, gone atomic.Int32 }

// callsAtRandom makes calls one after the other until the time until, with rising numbers. It gives
// up some of them, and some have long messages. It stores the numbers of the calls that were
// answered OK.
func callsAtRandom(t *testing.T, b *backend, caller uint32, until time.Time, answered *sync.Map, counts *tally) {
	source := rand.New(rand.NewSource(int64(caller) + until.UnixNano()))
	for number := caller << 20; time.Now().Before(until); {
		number++
		message := numbered(number)
		if source.Intn(50) == 0 {
			message = append(message, make([]byte, source.Intn(500_000))...)
		}
		ctx, cancel := context.WithTimeout(context.Background(),
			time.Duration(source.Int63n(int64(200*time.Millisecond))))
		if source.Intn(4) == 0 {
			time.AfterFunc(time.Duration(source.Int63n(int64(time.Millisecond))), cancel)
		}
		got, err := b.call(ctx, "/a/b", message)
		switch {
		case err == nil && got.Code == codes.OK:
			if string(got.Body) != string(numbered(number)) {
				t.Errorf("call %x: %x", number, got.Body)
			}
			answered.Store(number, true)
			counts.served.Add(1)
		case ctx.Err() != nil:
			counts.gone.Add(1)
		default:
			counts.refused.Add(1)
		}
		cancel()
	}
}

// areOnce checks that each answered change was made once, that no change was made twice, and that
// the changes of each caller were made in the order of their numbers.
func (t *table) areOnce(test *testing.T, answered *sync.Map) {
	last, made := map[uint32]uint32{}, map[uint32]bool{}
	for _, number := range t.rows() {
		if number <= last[number>>20] {
			test.Errorf("call %x was made after %x", number, last[number>>20])
		}
		last[number>>20], made[number] = number, true
	}
	answered.Range(func(number, _ interface{}) bool {
		if !made[number.(uint32)] {
			test.Errorf("call %x was answered, and not made", number)
		}
		return true
	})
}

// With many callers, and connections that end at random places, an answered change is made once,
// and any other change at most once. The changes of one caller are made in the order of its calls,
// including the calls that it gave up.
func TestManyCallersOverConnectionsThatEnd(t *testing.T) {
	seed, until := time.Now().UnixNano(), time.Now().Add(stressTime)
	t.Logf("seed %d", seed)
	var counts tally
	var fronts sync.WaitGroup
	for front := int64(0); front < 16; front++ {
		fronts.Add(1)
		go func(front int64) {
			defer fronts.Done()
			made, answered := &table{}, &sync.Map{}
			b := newBackend(endsAtRandom(t, made, seed+front), 20*time.Millisecond)
			var callers sync.WaitGroup
			for caller := uint32(0); caller < 20; caller++ {
				callers.Add(1)
				go func(caller uint32) {
					defer callers.Done()
					callsAtRandom(t, b, caller, until, answered, &counts)
				}(caller)
			}
			callers.Wait()
			made.areOnce(t, answered)
			awaits(t, "nothing is left", func() bool { waiting, sent := count(b); return waiting+sent == 0 })
		}(front)
	}
	fronts.Wait()
	t.Logf("%d calls were served, %d refused, %d given up", counts.served.Load(), counts.refused.Load(),
		counts.gone.Load())
	if counts.served.Load() == 0 || counts.refused.Load() == 0 || counts.gone.Load() == 0 {
		t.Error("not each outcome was there")
	}
}
