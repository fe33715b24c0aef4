package main

import (
	"context"
	"net"
	"path/filepath"
	"reflect"
	"strings"
	"testing"
	"time"

	"github.com/prometheus/client_golang/prometheus"
	"github.com/prometheus/common/expfmt"

	"fomaheti/frames"
)

// Entries of ListVolumes, worked out by hand from docs/PROTOCOL.md, "Messages". vol-1 has 1 MiB in
// the pool p1, and is at the nodes n1 and n2. vol-2 has 3 MiB in p2, is at no node, and has an
// abnormal condition. vol-3 has 1 MiB in p1, is at n1, and has a further entry in its context and a
// topology.
const (
	entry1 = "0a23 0a17 08808040 1205 766f6c2d31 1a0a 0a04706f6f6c 12027031 1208 0a026e31 0a026e32"
	entry2 = "0a20 0a18 088080c001 1205 766f6c2d32 1a0a 0a04706f6f6c 12027032 1204 1202 0801"
	entry3 = "0a34 0a2c 08808040 1205 766f6c2d33 1a06 0a0161 120162 1a0a 0a04706f6f6c 12027031 2a0b 0a09 " +
		"0a047a6f6e65 120161 1204 0a026e31"
)

var room = &configuration{[]pool{{"p1", 10485760, nil}, {"p2", 4194304, nil}, {"p3", 1048576, nil}},
	[]node{{"n1", 2}, {"n3", 4}}}

// paging returns listings of a csid that answers ListVolumes with these pages, in hexadecimal, by
// the message that asks for each. The channel receives the path and the message of each call.
func paging(t *testing.T, pages map[string]string) (*listings, chan string) {
	t.Helper()
	messages := make(chan string, 99)
	path, _ := csid(t, func(conn net.Conn) {
		for requests := frames.NewRequests(conn); ; {
			request, err := requests.Next()
			if err != nil {
				return
			}
			messages <- request.Path + " " + string(request.Message)
			page, is := pages[string(request.Message)]
			if !is {
				return
			}
			conn.Write(frames.Reply{Body: fromHex(t, page)}.Append(nil))
		}
	})
	h := newHandler(options{csid: path, late: time.Minute, waiting: 1}, newLogger(&written{}, textLines))
	l := newListings(h, room)
	l.pagePause, l.listingPause, l.failurePause = 0, 0, 0
	return l, messages
}

// A listing adds up all pages up to the last one, whose token is empty, and pauses between two
// pages.
func TestListing(t *testing.T) {
	l, messages := paging(t,
		map[string]string{"": entry1 + "120131", "\x12\x011": entry2 + "120132", "\x12\x012": entry3})
	l.pagePause = 20 * time.Millisecond
	begin := time.Now()
	if err := l.list(context.Background()); err != nil {
		t.Fatal(err)
	}
	got := l.kept()
	if got.volumes != 3 || !reflect.DeepEqual(got.pools, map[string]poolUse{"p1": {2, 2 << 20}, "p2": {1, 3 << 20}}) ||
		!reflect.DeepEqual(got.attachments, map[string]int{"n1": 2, "n2": 1}) ||
		got.endedAt.Sub(begin) < 2*l.pagePause || time.Since(got.endedAt) > time.Minute {
		t.Errorf("%v", got)
	}
	for _, want := range []string{"", "\x12\x011", "\x12\x012"} {
		if message := <-messages; message != listVolumes+" "+want {
			t.Errorf("asked %q, wanted %q", message, want)
		}
	}
}

// A listing that fails keeps the sums of the listing before it.
func TestListingThatFails(t *testing.T) {
	l, _ := paging(t, map[string]string{"": entry1 + "120131"})
	before := &listing{volumes: 7}
	l.keep(before)
	if err := l.list(context.Background()); err == nil || l.kept() != before {
		t.Errorf("%v, %v", err, l.kept())
	}
	broken, _ := paging(t, map[string]string{"": "0a05 0a03 0880"})
	if err := broken.list(context.Background()); err != errNoMessage || broken.kept() != nil {
		t.Errorf("a body that is no message: %v, %v", err, broken.kept())
	}
}

// If csid is not reachable at the start, the first listing logs nothing, and the second one logs
// the reason.
func TestListingAtTheStart(t *testing.T) {
	log := &written{}
	h := newHandler(options{csid: filepath.Join(t.TempDir(), "absent"), late: time.Minute, waiting: 1},
		newLogger(log, textLines))
	l := newListings(h, room)
	l.failurePause = time.Millisecond
	if l.list(context.Background()) == nil || log.String() != "" {
		t.Errorf("logged %q", log)
	}
	ctx, cancel := context.WithCancel(context.Background())
	defer cancel()
	go l.run(ctx)
	awaits(t, "a line", func() bool { return strings.Contains(log.String(), listVolumes+" 14 ") })
	// A refusal by csid is logged at once.
	path, _ := csid(t, answering(fromHex(t, "0d 0002 4142 00 00000000")))
	h = newHandler(options{csid: path, late: time.Minute, waiting: 1}, newLogger(log, textLines))
	if newListings(h, room).list(context.Background()) == nil || !strings.Contains(log.String(), listVolumes+" 13 ") {
		t.Errorf("logged %q", log)
	}
}

// A csid with endless pages is asked for a limited number of them.
func TestListingWithoutEnd(t *testing.T) {
	l, messages := paging(t, map[string]string{"": "120131", "\x12\x011": "120131"})
	go func() {
		for range messages {
		}
	}()
	if err := l.list(context.Background()); err == nil || !strings.Contains(err.Error(), "no end") || l.kept() != nil {
		t.Errorf("%v, %v", err, l.kept())
	}
}

// There is a pause between two pages, and between two listings. A front that waits for csid makes
// no listing.
func TestPaceOfListings(t *testing.T) {
	l, messages := paging(t, map[string]string{"": "120131", "\x12\x011": ""})
	l.pagePause, l.listingPause, l.failurePause = 30*time.Millisecond, 100*time.Millisecond, time.Millisecond
	l.handler.isWaiting.Store(true)
	ctx, cancel := context.WithCancel(context.Background())
	ended := make(chan struct{})
	go func() {
		l.run(ctx)
		close(ended)
	}()
	time.Sleep(50 * time.Millisecond)
	if len(messages) > 0 {
		t.Error("it asked while the front stood by")
	}
	begin := time.Now()
	l.handler.isWaiting.Store(false)
	for page := 0; page < 6; page++ {
		<-messages
	}
	if spent := time.Since(begin); spent < 230*time.Millisecond {
		t.Errorf("three listings of two pages took %v", spent)
	}
	cancel()
	<-ended
}

// A front that waits for csid again reports no use of pools and nodes. Once csid is ready, it does
// not report the listing before the wait.
func TestListingBeforeAWait(t *testing.T) {
	l, _ := paging(t, map[string]string{"": entry1 + entry2 + entry3})
	l.failurePause = time.Millisecond
	if err := l.list(context.Background()); err != nil || l.kept() == nil {
		t.Fatalf("%v, %v", err, l.kept())
	}
	l.handler.isWaiting.Store(true)
	if l.kept() != nil {
		t.Error("a listing is reported while the front waits")
	}
	ctx, cancel := context.WithCancel(context.Background())
	go l.run(ctx)
	time.Sleep(50 * time.Millisecond)
	cancel()
	l.handler.isWaiting.Store(false)
	if l.kept() != nil {
		t.Error("the listing before the wait is reported")
	}
}

// Collect reports the series of each pool and node of the configuration. Before the first listing
// it reports only their sizes and limits.
func TestMetricsOfListings(t *testing.T) {
	l, _ := paging(t, map[string]string{"": entry1 + entry2 + entry3})
	sizes := `
csid_front_max_volumes 100000
csid_front_node_max_volumes{node="n1"} 2
csid_front_node_max_volumes{node="n3"} 4
csid_front_pool_size_bytes{pool="p1"} 1.048576e+07
csid_front_pool_size_bytes{pool="p2"} 4.194304e+06
csid_front_pool_size_bytes{pool="p3"} 1.048576e+06
`
	wantMetrics(t, l, sizes)
	if err := l.list(context.Background()); err != nil {
		t.Fatal(err)
	}
	l.kept().endedAt = time.UnixMilli(1234500)
	wantMetrics(t, l, sizes+`
csid_front_listing_timestamp_seconds 1234.5
csid_front_volumes 3
csid_front_node_attachments{node="n1"} 2
csid_front_node_attachments{node="n3"} 0
csid_front_pool_used_bytes{pool="p1"} 2.097152e+06
csid_front_pool_used_bytes{pool="p2"} 3.145728e+06
csid_front_pool_used_bytes{pool="p3"} 0
csid_front_pool_free_bytes{pool="p1"} 8.388608e+06
csid_front_pool_free_bytes{pool="p2"} 1.048576e+06
csid_front_pool_free_bytes{pool="p3"} 1.048576e+06
csid_front_pool_volumes{pool="p1"} 2
csid_front_pool_volumes{pool="p2"} 1
csid_front_pool_volumes{pool="p3"} 0
`)
}

// wantMetrics compares the lines of all series that listings report with the wanted lines, in any
// order.
func wantMetrics(t *testing.T, l *listings, want string) {
	t.Helper()
	registry := prometheus.NewRegistry()
	registry.MustRegister(l)
	families, err := registry.Gather()
	if err != nil {
		t.Fatal(err)
	}
	var text strings.Builder
	for _, family := range families {
		expfmt.MetricFamilyToText(&text, family)
	}
	lines := func(text string) map[string]bool {
		all := map[string]bool{}
		for _, line := range strings.Split(text, "\n") {
			if line != "" && !strings.HasPrefix(line, "#") {
				all[line] = true
			}
		}
		return all
	}
	if got, want := lines(text.String()), lines(want); !reflect.DeepEqual(got, want) {
		t.Errorf("%v, wanted %v", got, want)
	}
}
