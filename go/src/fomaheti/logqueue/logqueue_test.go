package logqueue

import (
	"errors"
	"fmt"
	"io"
	"reflect"
	"strings"
	"sync"
	"testing"
	"time"
)

// patience limits each wait of a test.
const patience = 10 * time.Second

func report(count uint64) string { return fmt.Sprintf("dropped %d\n", count) }

// stuck is a writer that waits in each write until the test sends its result, an error or nil.
type stuck struct {
	mutex sync.Mutex
	text  strings.Builder
	// The results of the writes.
	answers chan error
	// Receives a value when a write starts.
	begun chan struct{}
}

func newStuck() *stuck { return &stuck{answers: make(chan error), begun: make(chan struct{}, 9*Room)} }

func (s *stuck) Write(text []byte) (int, error) {
	s.begun <- struct{}{}
	if err := <-s.answers; err != nil {
		return 0, err
	}
	s.mutex.Lock()
	defer s.mutex.Unlock()
	return s.text.Write(text)
}

func (s *stuck) lines() []string {
	s.mutex.Lock()
	defer s.mutex.Unlock()
	return strings.Split(strings.TrimSuffix(s.text.String(), "\n"), "\n")
}

func eventually(t *testing.T, what string, is func() bool) {
	t.Helper()
	for end := time.Now().Add(patience); !is(); time.Sleep(time.Millisecond) {
		if time.Now().After(end) {
			t.Fatalf("waited in vain for %s", what)
		}
	}
}

// promptly checks that act does not wait for a stuck writer: it returns within patience.
func promptly(t *testing.T, act func()) {
	t.Helper()
	done := make(chan struct{})
	go func() {
		defer close(done)
		act()
	}()
	select {
	case <-done:
	case <-time.After(patience):
		t.Fatal("it waits for the writer")
	}
}

// Write does not wait for a stuck writer. Lines beyond Room are dropped. When the writer continues,
// their number is reported at the place where they are missing.
func TestFull(t *testing.T) {
	out := newStuck()
	q := New(out, report)
	var want []string
	say := func(name string) {
		fmt.Fprintf(q, "%s\n", name)
	}
	say("first")
	want = append(want, "first")
	// The writer has the first line. All others wait.
	<-out.begun
	promptly(t, func() {
		for i := 0; i < Room; i++ {
			say(fmt.Sprint("waits ", i))
			want = append(want, fmt.Sprint("waits ", i))
		}
		for i := 0; i < 17; i++ {
			say("dropped")
		}
	})
	if got := q.Dropped(); got != 17 {
		t.Errorf("%d were dropped, wanted 17", got)
	}
	// One line is written, which makes room for another.
	out.answers <- nil
	<-out.begun
	say("after")
	say("dropped")
	want = append(want, "dropped 17", "after", "dropped 1")
	go func() {
		for {
			out.answers <- nil
		}
	}()
	eventually(t, "all lines", func() bool { return len(out.lines()) >= len(want) })
	say("last")
	want = append(want, "last")
	q.End(patience)
	if got := out.lines(); !reflect.DeepEqual(got, want) {
		t.Errorf("%d lines, wanted %d:\n%v", len(got), len(want), got[len(got)-4:])
	}
	if got := q.Dropped(); got != 18 {
		t.Errorf("%d were dropped, wanted 18", got)
	}
}

// A line is dropped if its write fails. A report that fails is repeated before the next line.
func TestFailing(t *testing.T) {
	out, gone := newStuck(), errors.New("any")
	q := New(out, report)
	answers := func(all ...error) {
		for _, err := range all {
			select {
			case out.answers <- err:
			case <-time.After(patience):
				t.Fatal("nothing is written")
			}
		}
	}
	fmt.Fprintln(q, "one")
	answers(gone)
	eventually(t, "that it is dropped", func() bool { return q.Dropped() == 1 })
	// Nothing is written before the next line.
	select {
	case <-time.After(20 * time.Millisecond):
	case out.answers <- nil:
		t.Error("it is written to a reader who has gone")
	}
	fmt.Fprintln(q, "two")
	answers(gone)
	eventually(t, "that it is dropped", func() bool { return q.Dropped() == 2 })
	fmt.Fprintln(q, "three")
	answers(nil, gone)
	eventually(t, "that it is dropped", func() bool { return q.Dropped() == 3 })
	fmt.Fprintln(q, "four")
	answers(nil, nil)
	q.End(patience)
	if got, want := out.lines(), []string{"dropped 2", "dropped 1", "four"}; !reflect.DeepEqual(got, want) {
		t.Errorf("%q, wanted %q", got, want)
	}
}

// End waits until the queued lines are written. If no reader takes them, it returns at its limit.
func TestEnd(t *testing.T) {
	var text strings.Builder
	q := New(&text, report)
	fmt.Fprintln(q, "why it ended")
	q.End(patience)
	if text.String() != "why it ended\n" {
		t.Errorf("%q", text.String())
	}
	_, out := io.Pipe()
	q = New(out, report)
	fmt.Fprintln(q, "nobody reads it")
	begin := time.Now()
	q.End(50 * time.Millisecond)
	if took := time.Since(begin); took < 40*time.Millisecond || took > patience/2 {
		t.Errorf("it took %v", took)
	}
}
