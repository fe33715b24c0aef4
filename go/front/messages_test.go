package main

import (
	"io"
	"testing"
	"time"
)

func TestMessagesThatWait(t *testing.T) {
	m := newMessages(10)
	rows := []struct {
		bytes int
		want  bool
	}{
		{0, true}, {11, false}, {4, true}, {7, false}, {6, true}, {1, false}, {0, true},
	}
	for _, row := range rows {
		if m.take(row.bytes) != row.want {
			t.Errorf("%d bytes: not %v", row.bytes, row.want)
		}
	}
	m.giveBack(make([]byte, 4))
	if m.take(5) || !m.take(4) {
		t.Error("what was given back")
	}
}

// A call whose message does not come is ended only while another call waits for a place and no
// other message comes.
func TestMessagesThatAreLate(t *testing.T) {
	m := newMessages(10)
	never := make(chan struct{})
	defer close(never)
	receive := func() ([]byte, error) {
		<-never
		return nil, nil
	}
	ended := make(chan error, 1)
	go func() {
		_, err := m.inTime(receive)
		ended <- err
	}()
	holds := func(why string) {
		t.Helper()
		for i := 0; i < 15; i++ {
			select {
			case err := <-ended:
				t.Fatalf("ended while %s: %v", why, err)
			case <-time.After(stillTime / 10):
			}
			if why == "messages come" {
				m.places.messageCame()
			}
		}
	}
	holds("nobody waits")
	fill(m.places, nil)
	waits(m.places, nil)
	holds("messages come")
	select {
	case err := <-ended:
		if err != errLate {
			t.Error(err)
		}
	case <-time.After(placeTime):
		t.Error("it holds up another call")
	}
}

// A receiver is kept for a later message, without its last message. If maxReceived receivers are
// kept, a further one ends.
func TestReceiversThatAreKept(t *testing.T) {
	m := newMessages(10)
	if got, err := m.inTime(func() ([]byte, error) { return []byte("a"), io.EOF }); string(got) != "a" ||
		err != io.EOF {
		t.Errorf("%q, %v", got, err)
	}
	r := <-m.idle
	if r.message != nil || r.err != nil {
		t.Errorf("%q, %v are kept", r.message, r.err)
	}
	for i := 0; i < maxReceived; i++ {
		m.keep(newReceiver())
	}
	m.keep(r)
	select {
	case _, isOpen := <-r.next:
		if isOpen {
			t.Error("there is something to receive")
		}
	case <-time.After(10 * time.Second):
		t.Error("a receiver that is not kept goes on")
	}
}

// The receiver of a late message is still busy, so it is not used for another message.
func TestReceiverOfALateMessage(t *testing.T) {
	m := newMessages(10)
	fill(m.places, nil)
	waits(m.places, nil)
	m.places.stillSince = time.Now().Add(-stillTime)
	let := make(chan struct{})
	if _, err := m.inTime(func() ([]byte, error) { <-let; return []byte("late"), nil }); err != errLate {
		t.Fatal(err)
	}
	m.places.giveBack(nil)
	ended := make(chan string)
	go func() {
		got, _ := m.inTime(func() ([]byte, error) { return []byte("next"), nil })
		ended <- string(got)
	}()
	select {
	case got := <-ended:
		if got != "next" {
			t.Errorf("%q", got)
		}
	case <-time.After(10 * time.Second):
		t.Error("it waits for the message that was late")
	}
	close(let)
}
