package main

import (
	"reflect"
	"testing"
	"time"
)

// counted returns a limit, and a channel that receives the counts of each report.
func counted() (*lineLimit, chan map[string]uint64) {
	reports := make(chan map[string]uint64, 9)
	return newLineLimit(func(counts map[string]uint64) { reports <- counts }), reports
}

// passed asks for a number of lines of one kind at the time now, and returns how many of them pass.
func passed(l *lineLimit, lines int, kind string, now time.Time) (count int) {
	for i := 0; i < lines; i++ {
		if l.allows(kind, now) {
			count++
		}
	}
	return count
}

// wantCounts waits for a report, and compares its counts.
func wantCounts(t *testing.T, reports <-chan map[string]uint64, want map[string]uint64) {
	t.Helper()
	select {
	case got := <-reports:
		if !reflect.DeepEqual(got, want) {
			t.Errorf("%v, wanted %v", got, want)
		}
	case <-time.After(10 * time.Second):
		t.Fatal("no report")
	}
}

// Ten lines pass in a second, and further lines are counted by kind. After a second with counted
// lines no line passes. After a second without lines ten lines pass again.
func TestLinesBeyondTen(t *testing.T) {
	l, reports := counted()
	// This second is not over before the test ends.
	begin := time.Now().Add(time.Hour)
	l.finish(begin)
	if count := passed(l, 8, "a", begin) + passed(l, 5, "b", begin) +
		passed(l, 2, "a", begin.Add(time.Second/2)); count != 10 {
		t.Errorf("%d passed", count)
	}
	l.finish(begin.Add(time.Second))
	l.finish(begin.Add(time.Second))
	wantCounts(t, reports, map[string]uint64{"a": 2, "b": 3})
	if count := passed(l, 3, "a", begin.Add(3*time.Second/2)); count != 0 {
		t.Errorf("%d passed after a report", count)
	}
	l.finish(begin.Add(2 * time.Second))
	wantCounts(t, reports, map[string]uint64{"a": 3})
	if count := passed(l, 12, "a", begin.Add(3*time.Second)); count != 10 {
		t.Errorf("%d passed after a second without lines", count)
	}
	if len(reports) > 0 {
		t.Errorf("reported again: %v", <-reports)
	}
}

// The counts are reported when the second is over, even if no further line comes.
func TestReportOfLinesThatWereLeftOut(t *testing.T) {
	l, reports := counted()
	passed(l, 12, "a", time.Now())
	wantCounts(t, reports, map[string]uint64{"a": 2})
}

// If the limit is nil, as in tests, each line passes.
func TestNoLimitOfLines(t *testing.T) {
	var l *lineLimit
	if count := passed(l, 20, "a", time.Now()); count != 20 {
		t.Errorf("%d passed", count)
	}
	l.finish(time.Now())
}
