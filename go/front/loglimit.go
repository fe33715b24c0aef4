package main

import (
	"fmt"
	"sort"
	"strings"
	"sync"
	"time"
)

// linesASecond is the greatest number of lines that writeFew writes in a second: lines about
// refused calls, malformed frames and closed connections, and lines of libraries.
const linesASecond = 10

// lineLimit lets linesASecond lines pass in a second, and counts further lines by kind. At the end
// of the second it reports the counts. Then no line passes until a whole second brings no line.
type lineLimit struct {
	report func(counts map[string]uint64)
	mutex  sync.Mutex
	// The time at which the running second began, the number of lines that have passed in it, and
	// the number of lines of each kind that have not.
	begun  time.Time
	passed int
	counts map[string]uint64
}

func newLineLimit(report func(counts map[string]uint64)) *lineLimit {
	return &lineLimit{report: report, counts: map[string]uint64{}}
}

// allows reports whether a line passes: linesASecond lines pass in a second. Each further line is
// counted under its kind. A nil limit lets any line pass.
func (l *lineLimit) allows(kind string, now time.Time) bool {
	if l == nil {
		return true
	}
	l.mutex.Lock()
	defer l.mutex.Unlock()
	if now.Sub(l.begun) >= time.Second && len(l.counts) == 0 {
		l.begun, l.passed = now, 0
	}
	if l.passed < linesASecond {
		l.passed++
		return true
	}
	if len(l.counts) == 0 {
		time.AfterFunc(time.Until(l.begun.Add(time.Second)), func() { l.finish(time.Now()) })
	}
	l.counts[kind]++
	return false
}

// finish reports the counted lines, and begins a second that lets no line pass. If no line was
// counted, it does nothing.
func (l *lineLimit) finish(now time.Time) {
	if l == nil {
		return
	}
	l.mutex.Lock()
	defer l.mutex.Unlock()
	if len(l.counts) == 0 {
		return
	}
	l.report(l.counts)
	l.begun, l.passed, l.counts = now, linesASecond, map[string]uint64{}
}

// shownCounts returns the total of the counts and the count of each kind, as text.
func shownCounts(counts map[string]uint64) string {
	total, kinds := uint64(0), []string{}
	for kind, count := range counts {
		total += count
		kinds = append(kinds, fmt.Sprintf("%s %d", kind, count))
	}
	sort.Strings(kinds)
	return fmt.Sprintf("%d (%s)", total, strings.Join(kinds, ", "))
}
