package logqueue

import (
	"os"
	"time"
)

// The levels of lines. A line has the level error if it says why the program ends.
const (
	Info  = "info"
	Warn  = "warn"
	Error = "error"
)

// HasJournal reports whether systemd has set JOURNAL_STREAM: then standard error goes to systemd's
// journal, which keeps the time of each line (systemd.exec(5)).
func HasJournal() bool { return os.Getenv("JOURNAL_STREAM") != "" }

// Stamp returns the beginning of a text line that does not go to the journal: the time in UTC, the
// level and a space.
func Stamp(now time.Time, level string) string {
	return now.UTC().Format(time.RFC3339) + " " + level + " "
}
