package main

import (
	"encoding/json"
	"errors"
	"log"
	"reflect"
	"regexp"
	"strings"
	"testing"
	"time"

	"google.golang.org/grpc/codes"
	"google.golang.org/grpc/grpclog"
	"google.golang.org/grpc/status"
)

// Lines of Go's log and errors of gRPC are written as lines of the front. End waits until the last
// line is written.
func TestLinesOfPackages(t *testing.T) {
	defer log.SetFlags(log.Flags())
	defer log.SetOutput(log.Writer())
	var text strings.Builder
	l := newLog(&text, textLines, false)
	log.Print("one")
	grpclog.Error("two")
	grpclog.Warning("not an error")
	l.isReady()
	l.queue.End(10 * time.Second)
	if want := regexp.MustCompile(`^front: one\nfront: ERROR: [0-9/]+ [0-9:]+ two\nfront: csid is ` +
		`ready\n$`); !want.MatchString(text.String()) {
		t.Errorf("%q", text.String())
	}
}

// Lines of text begin with their time and level if isTimed is true.
func TestTimedLines(t *testing.T) {
	defer log.SetFlags(log.Flags())
	defer log.SetOutput(log.Writer())
	var text strings.Builder
	l := newLog(&text, textLines, true)
	l.isReady()
	l.logRefusal("", "/a/b", nil, status.New(codes.NotFound, "volume not found"), 0)
	l.logFailure(errors.New("no socket"))
	l.queue.End(10 * time.Second)
	const stamp = `[0-9]{4}-[0-9]{2}-[0-9]{2}T[0-9]{2}:[0-9]{2}:[0-9]{2}Z `
	if want := regexp.MustCompile("^" + stamp + "info front: csid is ready\n" + stamp +
		"warn front: /a/b 5 \"volume not found\" 0 ms\n" + stamp + "error front: no socket\n$"); !want.MatchString(
		text.String()) {
		t.Errorf("%q", text.String())
	}
}

type fields = map[string]interface{}

// Each kind of line of the front, as text and as the fields of its JSON without the time.
// encoding/json decodes each number as a float64.
var lineCases = []struct {
	tell func(*logger)
	text string
	want fields
}{
	{
		func(l *logger) { l.logFailure(errors.New(`no "socket"`)) },
		"front: no \"socket\"\n",
		fields{"level": "error", "message": "the front ends", "error": `no "socket"`},
	},
	{
		func(l *logger) { l.cutOff() },
		"front: ended, and cut calls off\n",
		fields{"level": "error", "message": "ended, and cut calls off"},
	},
	{
		func(l *logger) { l.listens("[::1]:9809") },
		"front: metrics at [::1]:9809\n",
		fields{"level": "info", "message": "metrics", "address": "[::1]:9809"},
	},
	{
		func(l *logger) { l.waits("csid is not ready") },
		"front: waits for csid: csid is not ready\n",
		fields{"level": "info", "message": "waits for csid", "reason": "csid is not ready"},
	},
	{
		func(l *logger) { l.isReady() },
		"front: csid is ready\n",
		fields{"level": "info", "message": "csid is ready"},
	},
	{
		func(l *logger) {
			l.logRefusal("", "/a/b", nil, status.New(codes.FailedPrecondition, "volume is in use"),
				1999*time.Microsecond)
		},
		"front: /a/b 9 \"volume is in use\" 1 ms\n",
		fields{"level": "warn", "message": "call refused", "path": "/a/b", "code": 9.0, "text": "volume is in use",
			"milliseconds": 1.0},
	},
	{
		func(l *logger) { l.logRefusal("", "/a/b", nil, status.New(codes.Unavailable, "\"a\"\n"), 0) },
		"front: /a/b 14 \"\\\"a\\\"\\n\" 0 ms\n",
		fields{"level": "warn", "message": "call refused", "path": "/a/b", "code": 14.0, "text": "\"a\"\n",
			"milliseconds": 0.0},
	},
	{
		func(l *logger) {
			l.logRefusal("control", "/a/b", &change{Volume: "vol-1", Node: "n 1"},
				status.New(codes.NotFound, "node not found"), 0)
		},
		"front: control /a/b 5 \"node not found\" 0 ms volume=vol-1 node=\"n 1\"\n",
		fields{"level": "warn", "message": "call refused", "socket": "control", "path": "/a/b", "code": 5.0,
			"text": "node not found", "milliseconds": 0.0,
			"volume": "vol-1", "node": "n 1"},
	},
	{
		func(l *logger) { l.logChange("", "/a/b", &change{Name: "pvc-1", Volume: "vol-1"}, 2*time.Millisecond) },
		"front: /a/b 0 \"\" 2 ms name=pvc-1 volume=vol-1\n",
		fields{"level": "info", "message": "change", "path": "/a/b", "code": 0.0, "text": "", "milliseconds": 2.0,
			"name": "pvc-1", "volume": "vol-1"},
	},
	{
		func(l *logger) { l.malformed("control", errors.New("bad flag at byte 3")) },
		"front: control bad flag at byte 3\n",
		fields{"level": "warn", "message": "malformed call", "socket": "control", "error": "bad flag at byte 3"},
	},
	{
		func(l *logger) { l.logRefusal("", "/a\n", nil, status.New(codes.Unimplemented, ""), 0) },
		"front: \"/a\\n\" 12 \"\" 0 ms\n",
		fields{"level": "warn", "message": "call refused", "path": `"/a\n"`, "code": 12.0, "text": "",
			"milliseconds": 0.0},
	},
	{
		func(l *logger) {
			l.logRefusal("", "/"+strings.Repeat("a", 200), nil, status.New(codes.Unimplemented, ""), 0)
		},
		"front: \"/" + strings.Repeat("a", 127) + "\" 12 \"\" 0 ms\n",
		fields{"level": "warn", "message": "call refused", "path": `"/` + strings.Repeat("a", 127) +
			`"`, "code": 12.0, "text": "", "milliseconds": 0.0},
	},
	{
		func(l *logger) { saying{l, "HTTP server"}.Write([]byte("http: it <broke>\n")) },
		"front: http: it <broke>\n",
		fields{"level": "warn", "message": "HTTP server", "error": "http: it <broke>"},
	},
	{
		func(l *logger) { l.closedFor("control", "--control", 16)() },
		"front: a connection of --control without a call was closed for another one: 16 were open\n",
		fields{"level": "warn", "message": "control",
			"error": "a connection of --control without a call was closed for another one: 16 were open"},
	},
	{
		func(l *logger) { l.leavesOut(map[string]uint64{"malformed call": 3, "call refused": 15}) },
		"front: lines left out, since more than 10 came in a second: 18 (call refused 15, malformed call 3)\n",
		fields{"level": "warn", "message": "lines left out",
			"left_out": fields{"call refused": 15.0, "malformed call": 3.0}},
	},
	{
		func(l *logger) { l.drops(17) },
		"front: lines dropped, since standard error did not take them: 17\n",
		fields{"level": "warn", "message": "lines dropped", "dropped": 17.0},
	},
}

// Each line has the wanted text and the wanted fields. Its time in JSON is in UTC, also if the
// local time zone is another one.
func TestLines(t *testing.T) {
	local := time.Local
	time.Local = time.FixedZone("", 3600)
	defer func() { time.Local = local }()
	for _, c := range lineCases {
		t.Run(strings.TrimSpace(c.text), func(t *testing.T) {
			var text, object strings.Builder
			c.tell(newLogger(&text, textLines))
			if text.String() != c.text {
				t.Errorf("%q, wanted %q", text.String(), c.text)
			}
			begin := time.Now()
			c.tell(newLogger(&object, jsonLines))
			if strings.Count(object.String(), "\n") != 1 {
				t.Errorf("not one line: %q", object.String())
			}
			var got fields
			if err := json.Unmarshal([]byte(object.String()), &got); err != nil {
				t.Fatalf("%q: %v", object.String(), err)
			}
			said, _ := got["time"].(string)
			if at, err := time.Parse(time.RFC3339, said); err != nil || !strings.HasSuffix(said, "Z") ||
				at.Before(begin) || at.After(time.Now()) {
				t.Errorf("the time %q, %v", said, err)
			}
			delete(got, "time")
			if !reflect.DeepEqual(got, c.want) {
				t.Errorf("%v, wanted %v", got, c.want)
			}
		})
	}
}
