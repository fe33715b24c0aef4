package main

import (
	"encoding/json"
	"fmt"
	"io"
	"log"
	"strings"
	"time"

	"google.golang.org/grpc/codes"
	"google.golang.org/grpc/grpclog"
	"google.golang.org/grpc/status"

	"fomaheti/logqueue"
)

// The values of --log-format.
const (
	textLines = "text"
	jsonLines = "json"
)

// logger writes lines for the operator, as text or as one JSON object for each line.
type logger struct {
	lines  *log.Logger
	isJSON bool
	// True if a line of text begins with its time and level.
	isTimed bool
	// The lines that wait to be written, and the limit of writeFew; both nil in tests.
	queue *logqueue.Queue
	limit *lineLimit
}

// entry is a line in JSON. A line without a call or a change has none of their fields, and the
// fields with omitempty are left out if they are empty.
type entry struct {
	Time    time.Time `json:"time"`
	Level   string    `json:"level"`
	Message string    `json:"message"`
	Error   string    `json:"error,omitempty"`
	Address string    `json:"address,omitempty"`
	Reason  string    `json:"reason,omitempty"`
	Dropped uint64    `json:"dropped,omitempty"`
	// The number of lines that were left out, by message.
	LeftOut map[string]uint64 `json:"left_out,omitempty"`
	// The socket of the calls that the line is about; empty for gRPC.
	Socket string `json:"socket,omitempty"`
	*endedCall
	*change
}

type endedCall struct {
	Path         string     `json:"path"`
	Code         codes.Code `json:"code"`
	Text         string     `json:"text"`
	Milliseconds int64      `json:"milliseconds"`
}

func newLogger(out io.Writer, format string) *logger {
	return &logger{lines: log.New(out, "", 0), isJSON: format == jsonLines}
}

// newLog returns the log of the program. Writing a line never waits for the reader of standard
// error. The log also takes the lines of libraries: gRPC's errors, and lines for Go's standard log.
func newLog(out io.Writer, format string, isTimed bool) *logger {
	queue := logqueue.New(out, func(count uint64) string {
		var line strings.Builder
		l := newLogger(&line, format)
		l.isTimed = isTimed
		l.drops(count)
		return line.String()
	})
	l := newLogger(queue, format)
	l.isTimed = isTimed
	l.queue, l.limit = queue, newLineLimit(l.leavesOut)
	grpclog.SetLoggerV2(grpclog.NewLoggerV2(io.Discard, io.Discard, saying{l, "gRPC"}))
	log.SetFlags(0)
	log.SetOutput(saying{l, "library"})
	return l
}

func (l *logger) write(text string, line entry) {
	line.Time = time.Now().UTC()
	if l.isJSON {
		if object, err := json.Marshal(line); err == nil {
			l.lines.Print(string(object))
			return
		}
	}
	text = "front: " + text
	if l.isTimed {
		text = logqueue.Stamp(line.Time, line.Level) + text
	}
	l.lines.Print(text)
}

// writeFew writes a line that clients can cause any number of times. It writes at most linesASecond
// such lines in a second. Further lines are counted, and one line reports the counts.
func (l *logger) writeFew(text string, line entry) {
	if l.limit.allows(line.Message, time.Now()) {
		l.write(text, line)
	}
}

// end reports the lines that were left out, and waits at most for the time limit until all lines
// are written. It is called once, at the end of the program.
func (l *logger) end(limit time.Duration) {
	l.limit.finish(time.Now())
	l.queue.End(limit)
}

// leavesOut logs how many lines writeFew has left out, by message.
func (l *logger) leavesOut(counts map[string]uint64) {
	text := fmt.Sprintf("lines left out, since more than %d came in a second: %s", linesASecond, shownCounts(counts))
	l.write(text, entry{Level: logqueue.Warn, Message: "lines left out", LeftOut: counts})
}

// logFailure logs why the front ends.
func (l *logger) logFailure(err error) {
	l.write(err.Error(), entry{Level: logqueue.Error, Message: "the front ends", Error: err.Error()})
}

func (l *logger) cutOff() {
	const text = "ended, and cut calls off"
	l.write(text, entry{Level: logqueue.Error, Message: text})
}

// listens logs the address at which metrics are served.
func (l *logger) listens(address string) {
	l.write("metrics at "+address, entry{Level: logqueue.Info, Message: "metrics", Address: address})
}

// drops logs how many lines were dropped because standard error did not take them.
func (l *logger) drops(count uint64) {
	l.write(logqueue.Report(count), entry{Level: logqueue.Warn, Message: "lines dropped", Dropped: count})
}

// waits logs why the front waits for csid, and isReady that csid is ready.
func (l *logger) waits(why string) {
	l.write("waits for csid: "+why, entry{Level: logqueue.Info, Message: "waits for csid", Reason: why})
}

func (l *logger) isReady() {
	const text = "csid is ready"
	l.write(text, entry{Level: logqueue.Info, Message: text})
}

// logRefusal logs a call that was refused or got no reply. logged has the names and ids of the
// volume and node; it is nil if changes are not logged. No other part of the message is logged,
// since it may hold secrets.
func (l *logger) logRefusal(socket, path string, logged *change, why *status.Status, took time.Duration) {
	l.writeFew(endedLine(entry{Level: logqueue.Warn, Message: "call refused", Socket: socket}, path, logged, why, took))
}

// logChange logs a call for a change that csid answered OK. The call may have changed nothing, for
// example a repeated create. The limit of writeFew does not apply to such lines.
func (l *logger) logChange(socket, path string, logged *change, took time.Duration) {
	l.write(endedLine(entry{Level: logqueue.Info, Message: "change", Socket: socket}, path, logged,
		status.New(codes.OK, ""), took))
}

// endedLine returns the line about a call, as text, and as an entry for JSON.
func endedLine(line entry, path string, logged *change, why *status.Status, took time.Duration) (string, entry) {
	line.endedCall, line.change = &endedCall{shownPath(path), why.Code(), why.Message(), took.Milliseconds()}, logged
	call := line.endedCall
	return fmt.Sprintf("%s%s %d %q %d ms%s", via(line.Socket), call.Path, call.Code, call.Text, call.Milliseconds,
		logged.words()), line
}

// malformed logs a malformed frame that came over the socket with this name.
func (l *logger) malformed(socket string, fault error) {
	l.writeFew(via(socket)+fault.Error(), entry{Level: logqueue.Warn, Message: "malformed call", Socket: socket,
		Error: fault.Error()})
}

// closedFor returns a function that logs that a connection was closed for another one. who names
// the socket in JSON lines, option is its option, and limit is the greatest number of its open
// connections.
func (l *logger) closedFor(who, option string, limit int) func() {
	return func() {
		fmt.Fprintf(saying{l, who}, "a connection of %s without a call was closed for another one: %d were open",
			option, limit)
	}
}

// via returns the beginning of a text line about a call: the name of the socket and a space. It is
// empty for a call over gRPC.
func via(socket string) string {
	if socket == "" {
		return ""
	}
	return socket + " "
}

// saying is a writer that logs each line of a library, or of a part of the front, as a warning. In
// a JSON line, the name in the field who becomes "message", and the written line becomes "error".
type saying struct {
	*logger
	who string
}

func (s saying) Write(line []byte) (int, error) {
	text := strings.TrimSuffix(string(line), "\n")
	s.writeFew(text, entry{Level: logqueue.Warn, Message: s.who, Error: text})
	return len(line), nil
}
