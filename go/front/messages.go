package main

import (
	"io"
	"runtime"
	"sync"
	"time"

	"google.golang.org/grpc"
	"google.golang.org/grpc/codes"
	"google.golang.org/grpc/status"
)

// lookTime is the time between two checks of a message that has not come.
const lookTime = 50 * time.Millisecond

// errLate is the error of a call whose message came too slowly while other calls waited. The part
// of the message that was received is dropped: otherwise slow messages could use memory without
// bound.
var errLate = status.Error(codes.Unavailable, "the message did not come in time, and other calls wait")

// messages bounds the total size of the messages of all calls that wait to be sent or wait for
// their replies. Its limit is in bytes.
type messages struct {
	places *places
	idle   chan *receiver
	limit  int
	mutex  sync.Mutex
	bytes  int
}

func newMessages(limit int) *messages {
	return &messages{places: newPlaces(), idle: make(chan *receiver, maxReceived), limit: limit}
}

// read waits for a place, and then receives the message of a call. It fails with errLate if the
// message is late.
func (m *messages) read(stream grpc.ServerStream) ([]byte, error) {
	client := clientOf(stream.Context())
	if err := m.places.take(stream.Context(), client); err != nil {
		return nil, err
	}
	defer m.places.giveBack(client)
	return m.inTime(func() ([]byte, error) { return onlyMessage(stream) })
}

// receive receives the message of a call, and counts its bytes until giveBack is called. If the
// limit has no room for the message, it fails with UNAVAILABLE.
func (m *messages) receive(stream grpc.ServerStream) ([]byte, error) {
	message, err := m.read(stream)
	if err != nil {
		return nil, err
	}
	if !m.take(len(message)) {
		return nil, status.Errorf(codes.Unavailable,
			"the messages of all calls that wait would have more than %d bytes", m.limit)
	}
	return message, nil
}

// take counts a message of this length, and returns false if there is no room for it. There is
// always room for an empty message, such as the message of Probe.
func (m *messages) take(bytes int) bool {
	m.mutex.Lock()
	defer m.mutex.Unlock()
	if bytes > m.limit-m.bytes {
		return false
	}
	m.bytes += bytes
	return true
}

func (m *messages) giveBack(message []byte) {
	m.mutex.Lock()
	defer m.mutex.Unlock()
	m.bytes -= len(message)
}

// receiver receives messages in a separate goroutine, one after the other. A new goroutine for each
// message would have to grow its stack each time.
type receiver struct {
	next    chan func() ([]byte, error)
	done    chan struct{}
	message []byte
	err     error
}

func newReceiver() *receiver {
	r := &receiver{next: make(chan func() ([]byte, error), 1), done: make(chan struct{}, 1)}
	go r.run()
	return r
}

func (r *receiver) run() {
	for receive := range r.next {
		r.message, r.err = receive()
		r.done <- struct{}{}
	}
}

// receiver returns an idle receiver, or a new one if none is idle.
func (m *messages) receiver() *receiver {
	select {
	case r := <-m.idle:
		return r
	default:
		return newReceiver()
	}
}

// keep keeps a receiver for a later message, or ends it if maxReceived idle receivers are kept
// already.
func (m *messages) keep(r *receiver) {
	r.message, r.err = nil, nil
	select {
	case m.idle <- r:
	default:
		close(r.next)
	}
}

// inTime returns the message, or the error of receiving it, or errLate if the message is late.
// Receiving a late message goes on until the call ends, and its receiver is not used again.
func (m *messages) inTime(receive func() ([]byte, error)) ([]byte, error) {
	begin, r := time.Now(), m.receiver()
	r.next <- receive
	if !r.isDone() && !m.awaits(r, begin) {
		close(r.next)
		return nil, errLate
	}
	m.places.messageCame()
	message, err := r.message, r.err
	m.keep(r)
	return message, err
}

// isDone lets the receiver run first, and then reports whether it has the message or an error. Most
// messages come together with the headers of their calls.
func (r *receiver) isDone() bool {
	runtime.Gosched()
	select {
	case <-r.done:
		return true
	default:
		return false
	}
}

// awaits waits until a receiver has its message or an error. It returns false as soon as it finds
// the message late.
func (m *messages) awaits(r *receiver, begin time.Time) bool {
	looks := time.NewTicker(lookTime)
	defer looks.Stop()
	for {
		select {
		case <-r.done:
			return true
		case <-looks.C:
			if m.places.isLate(begin) {
				return false
			}
		}
	}
}

// onlyMessage receives the message of a call, and refuses a call that has no message or a second
// one. RecvMsg refuses a message that is too long, before it reads the message.
func onlyMessage(stream grpc.ServerStream) ([]byte, error) {
	var message, second []byte
	if err := stream.RecvMsg(&message); err == io.EOF {
		return nil, status.Error(codes.Unimplemented, "a call without a message")
	} else if err != nil {
		return nil, err
	}
	if err := stream.RecvMsg(&second); err == nil {
		return nil, status.Error(codes.Unimplemented, "a call with more than one message")
	} else if err != io.EOF {
		return nil, err
	}
	return message, nil
}
