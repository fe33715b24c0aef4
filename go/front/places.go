package main

import (
	"container/list"
	"context"
	"sync"
	"time"

	"google.golang.org/grpc/status"
)

// maxReceived is the greatest number of messages that are received at once. The limit of --waiting
// cannot count these messages: the length of a message is known only when all of it has come.
const maxReceived = 16

// The times after which a message is late that the front is receiving, while a call waits for a
// place. Each message is late after placeTime. If the next place will go to a connection without
// any place, a message is late after shareTime. If no message came for stillTime, all messages that
// are being received are late, since their clients hang.
const (
	placeTime = 5 * time.Second
	shareTime = time.Second
	stillTime = time.Second
)

// places limits how many messages are received at once: a call holds a place while its message is
// received. A free place goes to the connection with the fewest places, and there to the call that
// has waited the longest. So no connection keeps the others out, even with any number of calls.
type places struct {
	mutex  sync.Mutex
	free   int
	shares map[*clientConn]*share
	// The number of calls that wait for a place, and the number of calls that have begun to wait
	// since the start of the front. stillSince is the time at which the last message came, or at
	// which the calls began to wait, if that was later.
	waiting    int
	numbers    uint64
	stillSince time.Time
}

// share has the number of places that a connection holds, and its calls that wait for a place.
type share struct {
	held  int
	queue list.List
}

// turn is a call that waits for a place. number is its position among all calls that have begun to
// wait, from 1 on. The channel ready is closed when the call gets its place.
type turn struct {
	number uint64
	ready  chan struct{}
}

func newPlaces() *places {
	return &places{free: maxReceived, shares: map[*clientConn]*share{}}
}

// take waits until a call of the connection gets a place. It fails if the context ends first.
func (p *places) take(ctx context.Context, client *clientConn) error {
	waits := p.begin(client)
	if waits == nil {
		return nil
	}
	select {
	case <-waits.Value.(*turn).ready:
		return nil
	case <-ctx.Done():
		p.leave(client, waits)
		return status.FromContextError(ctx.Err()).Err()
	}
}

// begin takes a free place and returns nil. If no place is free, it returns the element of the call
// in the queue of its connection.
func (p *places) begin(client *clientConn) *list.Element {
	p.mutex.Lock()
	defer p.mutex.Unlock()
	own := p.shares[client]
	if own == nil {
		own = &share{}
		p.shares[client] = own
	}
	if p.free > 0 {
		p.free--
		own.held++
		return nil
	}
	if p.waiting == 0 {
		p.stillSince = time.Now()
	}
	p.waiting++
	p.numbers++
	return own.queue.PushBack(&turn{p.numbers, make(chan struct{})})
}

// leave ends the waiting of a call. If the call got a place in the meantime, the place is given
// back.
func (p *places) leave(client *clientConn, waits *list.Element) {
	p.mutex.Lock()
	defer p.mutex.Unlock()
	select {
	case <-waits.Value.(*turn).ready:
		p.shares[client].held--
		p.handOn()
	default:
		p.shares[client].queue.Remove(waits)
		p.waiting--
	}
	p.forget(client)
}

// giveBack takes a place from a connection, and gives it to the next waiting call, if there is one.
func (p *places) giveBack(client *clientConn) {
	p.mutex.Lock()
	defer p.mutex.Unlock()
	p.shares[client].held--
	p.handOn()
	p.forget(client)
}

// handOn gives a place to the next waiting call. If no call waits, the place becomes free.
func (p *places) handOn() {
	if p.waiting == 0 {
		p.free++
		return
	}
	next := p.next()
	p.waiting--
	next.held++
	close(next.queue.Remove(next.queue.Front()).(*turn).ready)
}

// next returns the share whose first waiting call gets the next place. At least one call must wait.
func (p *places) next() (next *share) {
	for _, one := range p.shares {
		if one.queue.Len() > 0 && (next == nil || one.isBefore(next)) {
			next = one
		}
	}
	return next
}

// isBefore reports whether the first waiting call of a share gets a place before the first waiting
// call of another share.
func (s *share) isBefore(other *share) bool {
	if s.held != other.held {
		return s.held < other.held
	}
	return s.first() < other.first()
}

func (s *share) first() uint64 { return s.queue.Front().Value.(*turn).number }

// forget drops the share of a connection if the connection has no place and none of its calls waits
// for one.
func (p *places) forget(client *clientConn) {
	if own := p.shares[client]; own.held == 0 && own.queue.Len() == 0 {
		delete(p.shares, client)
	}
}

// messageCame records that a message was received.
func (p *places) messageCame() {
	p.mutex.Lock()
	defer p.mutex.Unlock()
	p.stillSince = time.Now()
}

// isLate reports whether a message that has not come is late. begin is the time at which the front
// began to receive it. No message is late while no call waits for a place.
func (p *places) isLate(begin time.Time) bool {
	p.mutex.Lock()
	defer p.mutex.Unlock()
	if p.waiting == 0 {
		return false
	}
	took := time.Since(begin)
	return took >= placeTime || time.Since(p.stillSince) >= stillTime || took >= shareTime && p.next().held == 0
}
