package main

import (
	"encoding/json"
	"fmt"
	"io"
	"log"
	"strings"
	"time"

	"fomaheti/logqueue"
)

// The values of --log-format.
const (
	textLines = "text"
	jsonLines = "json"
)

// prefix starts each line of text on standard error, after its time and level if it has them.
const prefix = "csid-etcd: "

// logger writes lines on standard error: as text, or as one JSON object a line.
type logger struct {
	out    io.Writer
	isJSON bool
	// True if a line of text begins with its time and level.
	isTimed bool
}

// jsonLine has the fields of a line in JSON, in the order in which they are written.
type jsonLine struct {
	Time    time.Time `json:"time"`
	Level   string    `json:"level"`
	Message string    `json:"message"`
}

// line returns a line of this level, with its newline.
func (l *logger) line(level, text string) string {
	now := time.Now().UTC()
	if l.isJSON {
		if object, err := json.Marshal(jsonLine{now, level, text}); err == nil {
			return string(object) + "\n"
		}
	}
	if l.isTimed {
		return logqueue.Stamp(now, level) + prefix + text + "\n"
	}
	return prefix + text + "\n"
}

func (l *logger) write(level, format string, args []interface{}) {
	io.WriteString(l.out, l.line(level, fmt.Sprintf(format, args...)))
}

func (l *logger) infof(format string, args ...interface{}) { l.write(logqueue.Info, format, args) }
func (l *logger) warnf(format string, args ...interface{}) { l.write(logqueue.Warn, format, args) }

// fails writes why the program ends, as a line of level error.
func (l *logger) fails(err error) { l.write(logqueue.Error, "%v", []interface{}{err}) }

// Write writes a line of a library that uses Go's log, as a warning.
func (l *logger) Write(line []byte) (int, error) {
	l.warnf("%s", strings.TrimSuffix(string(line), "\n"))
	return len(line), nil
}

// newLogger returns the log of the program, and the queue of its lines. A slow reader of standard
// error must not delay the renewal of the lock, so lines go through a queue. This includes lines
// that libraries write with Go's log. etcd's client turns gRPC's log off.
func newLogger(out io.Writer, format string, isTimed bool) (*logger, *logqueue.Queue) {
	l := &logger{isJSON: format == jsonLines, isTimed: isTimed}
	queue := logqueue.New(out, func(count uint64) string { return l.line(logqueue.Warn, logqueue.Report(count)) })
	l.out = queue
	log.SetFlags(0)
	log.SetPrefix("")
	log.SetOutput(l)
	return l, queue
}
