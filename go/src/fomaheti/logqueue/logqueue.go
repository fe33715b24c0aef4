// Package logqueue writes log lines in the background, so that the program never waits for the
// reader of standard error. Standard error may be a pipe whose reader hangs or has ended.
package logqueue

import (
	"fmt"
	"io"
	"sync"
	"time"
)

// Room is the number of lines that can wait to be written.
const Room = 1024

// Report returns the text of the line that reports dropped lines, without a newline.
func Report(count uint64) string {
	return fmt.Sprintf("lines dropped, since standard error did not take them: %d", count)
}

// Queue holds lines until its goroutine writes them. It drops and counts a line if there is no
// room, or if the write fails. When it can write again, it writes the number of dropped lines in
// their place.
type Queue struct {
	out io.Writer
	// Returns the line that reports this number of dropped lines, with its newline.
	report func(count uint64) string

	mutex   sync.Mutex
	changed *sync.Cond
	waiting []line
	// The number of lines that were dropped after the last waiting line and are not reported yet,
	// and the number of all dropped lines.
	unreported, dropped uint64
	// Set if the last write failed. Then a report waits for the next line, so that the queue does
	// not write again and again to a reader that has gone.
	isFailing bool
	isEnding  bool
	ended     chan struct{}
}

// line is a waiting line, and the number of lines that were dropped just before it. text is nil for
// a report without a line.
type line struct {
	text          []byte
	droppedBefore uint64
}

// New starts a queue that writes to out. report returns the line that reports this number of
// dropped lines, with its newline.
func New(out io.Writer, report func(count uint64) string) *Queue {
	q := &Queue{out: out, report: report, ended: make(chan struct{})}
	q.changed = sync.NewCond(&q.mutex)
	go q.run()
	return q
}

// Write queues a line, or drops and counts it if Room lines wait. It never waits for the goroutine
// that writes, and never returns an error.
func (q *Queue) Write(text []byte) (int, error) {
	q.mutex.Lock()
	defer q.mutex.Unlock()
	if len(q.waiting) == Room {
		q.unreported++
		q.dropped++
		return len(text), nil
	}
	// Copied, because package log reuses its buffer.
	q.waiting = append(q.waiting, line{append([]byte(nil), text...), q.unreported})
	q.unreported = 0
	q.changed.Signal()
	return len(text), nil
}

// Dropped returns the number of lines dropped since the start.
func (q *Queue) Dropped() uint64 {
	q.mutex.Lock()
	defer q.mutex.Unlock()
	return q.dropped
}

// End waits until all queued lines are written or dropped, but at most for the time limit. Call it
// once, at the end of the program.
func (q *Queue) End(limit time.Duration) {
	q.mutex.Lock()
	q.isEnding = true
	q.changed.Signal()
	q.mutex.Unlock()
	select {
	case <-q.ended:
	case <-time.After(limit):
	}
}

// run writes lines until End was called and no line waits.
func (q *Queue) run() {
	defer close(q.ended)
	for {
		next, isThere := q.next()
		if !isThere {
			return
		}
		q.write(next)
	}
}

// next waits for the next line, or for a report of lines that were dropped after the last line.
// After End, isThere is false if nothing is left to write.
func (q *Queue) next() (next line, isThere bool) {
	q.mutex.Lock()
	defer q.mutex.Unlock()
	for len(q.waiting) == 0 && !q.hasReport() && !q.isEnding {
		q.changed.Wait()
	}
	if len(q.waiting) > 0 {
		next, q.waiting = q.waiting[0], q.waiting[1:]
		return next, true
	}
	if q.hasReport() {
		next, q.unreported = line{nil, q.unreported}, 0
		return next, true
	}
	return line{}, false
}

func (q *Queue) hasReport() bool { return q.unreported > 0 && !q.isFailing }

// write writes a line, after the report of the lines dropped before it. If the report cannot be
// written, the line is dropped too.
func (q *Queue) write(next line) {
	unreported, dropped := next.droppedBefore, uint64(0)
	var err error
	if unreported > 0 {
		if _, err = io.WriteString(q.out, q.report(unreported)); err == nil {
			unreported = 0
		}
	}
	if next.text != nil && err == nil {
		_, err = q.out.Write(next.text)
	}
	if next.text != nil && err != nil {
		dropped = 1
	}
	q.wrote(err == nil, unreported, dropped)
}

// wrote records the result of a write. unreported is the number of dropped lines before this line
// that are still to be reported. dropped is 1 if this line was dropped, otherwise 0.
func (q *Queue) wrote(isGood bool, unreported, dropped uint64) {
	q.mutex.Lock()
	defer q.mutex.Unlock()
	q.isFailing = !isGood
	q.dropped += dropped
	if len(q.waiting) > 0 {
		q.waiting[0].droppedBefore += unreported + dropped
	} else {
		q.unreported += unreported + dropped
	}
}
