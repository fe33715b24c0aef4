package main

import (
	"container/list"
	"context"
	"fmt"
	"strings"
	"testing"
	"time"

	"google.golang.org/grpc/codes"
	"google.golang.org/grpc/status"
)

// fill takes all free places for a connection, and waits makes a call of the connection wait for a
// place.
func fill(p *places, client *clientConn) {
	for p.free > 0 {
		p.begin(client)
	}
}

func waits(p *places, client *clientConn) *list.Element { return p.begin(client) }

// has reports whether a call that waited has a place.
func has(waits *list.Element) bool {
	select {
	case <-waits.Value.(*turn).ready:
		return true
	default:
		return false
	}
}

// A message is late only while a call waits for a place. It is late after 5 seconds, or after a
// second while a connection without a place waits. Each message is late if no message came for a
// second.
func TestLateness(t *testing.T) {
	own, other := &clientConn{}, &clientConn{}
	rows := []struct {
		waits        *clientConn
		began, still time.Duration
		want         bool
	}{
		{nil, time.Minute, time.Minute, false},
		{own, 6 * time.Second, 0, true},
		{own, 4 * time.Second, 0, false},
		{own, 0, 2 * time.Second, true},
		{other, 2 * time.Second, 0, true},
		{other, 500 * time.Millisecond, 0, false},
	}
	for _, row := range rows {
		p := newPlaces()
		fill(p, own)
		if row.waits != nil {
			waits(p, row.waits)
		}
		p.stillSince = time.Now().Add(-row.still)
		if p.isLate(time.Now().Add(-row.began)) != row.want {
			t.Errorf("%+v: not %v", row, row.want)
		}
	}
}

// The second without a message begins when the first call waits for a place. A further waiting call
// does not begin it again.
func TestSecondWithoutAMessage(t *testing.T) {
	p := newPlaces()
	fill(p, nil)
	if !p.stillSince.IsZero() {
		t.Error("no call waits")
	}
	waits(p, nil)
	since := p.stillSince
	p.leave(nil, waits(p, nil))
	if since.IsZero() || p.stillSince != since {
		t.Errorf("%v, and then %v", since, p.stillSince)
	}
}

// A call gets a free place at once. If all places are taken, the call waits, but no longer than its
// context.
func TestCallsThatWaitForAPlace(t *testing.T) {
	p := newPlaces()
	ctx, cancel := context.WithCancel(context.Background())
	for i := 0; i < maxReceived; i++ {
		if err := p.take(ctx, nil); err != nil || p.waiting != 0 {
			t.Fatal(err, p.waiting)
		}
	}
	cancel()
	if err := p.take(ctx, nil); status.Code(err) != codes.Canceled || p.waiting != 0 {
		t.Error(err, p.waiting)
	}
}

// A free place goes to the connection with the fewest places, and there to the call that has waited
// the longest.
func TestOrderOfPlaces(t *testing.T) {
	a, b, c := &clientConn{}, &clientConn{}, &clientConn{}
	names := map[*clientConn]string{a: "a", b: "b", c: "c"}
	p := newPlaces()
	p.begin(b)
	fill(p, a)
	queue := map[string]*list.Element{}
	for i, client := range []*clientConn{a, a, b, b, b, c, c} {
		queue[fmt.Sprint(names[client], i)] = waits(p, client)
	}
	var got []string
	for p.waiting > 0 {
		p.giveBack(a)
		for name, call := range queue {
			if has(call) {
				got = append(got, name)
				delete(queue, name)
			}
		}
	}
	// a has 15 places in the beginning, b has one, and c has none.
	if want := "c5 b2 c6 b3 b4 a0 a1"; strings.Join(got, " ") != want {
		t.Errorf("%v, wanted %s", got, want)
	}
	if p.free != 0 {
		t.Errorf("%d places are free", p.free)
	}
}

// If a call stops waiting just when it gets a place, the place goes to the next call. The share of
// a connection without calls is dropped.
func TestPlacesThatAreLeft(t *testing.T) {
	first, second := &clientConn{}, &clientConn{}
	p := newPlaces()
	fill(p, first)
	leaves, next := waits(p, second), waits(p, second)
	p.giveBack(first)
	if !has(leaves) || has(next) {
		t.Fatal("the first that waits has the place")
	}
	p.leave(second, leaves)
	if !has(next) {
		t.Error("the place was not handed on")
	}
	p.giveBack(second)
	for i := 1; i < maxReceived; i++ {
		p.giveBack(first)
	}
	if p.free != maxReceived || p.waiting != 0 || len(p.shares) != 0 {
		t.Errorf("%d places are free, %d calls wait, %d connections are known", p.free, p.waiting, len(p.shares))
	}
}
