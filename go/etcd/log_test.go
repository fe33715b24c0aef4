package main

import (
	"bytes"
	"errors"
	"log"
	"regexp"
	"strings"
	"testing"
	"time"
)

// Lines of the program and of libraries are written in each format, with their levels.
func TestLines(t *testing.T) {
	flags, prefix, out := log.Flags(), log.Prefix(), log.Writer()
	defer func() {
		log.SetFlags(flags)
		log.SetPrefix(prefix)
		log.SetOutput(out)
	}()
	const stamp = `[0-9]{4}-[0-9]{2}-[0-9]{2}T[0-9]{2}:[0-9]{2}:[0-9]{2}Z `
	object := func(level, message string) string {
		return `\{"time":"[0-9T:.-]+Z","level":"` + level + `","message":"` + message + `"\}`
	}
	cases := []struct {
		name, format string
		isTimed      bool
		want         []string
	}{
		{"text", textLines, false, []string{"csid-etcd: leads 1", "csid-etcd: refused \"a\"", "csid-etcd: library",
			"csid-etcd: no socket"}},
		{"text with times", textLines, true, []string{stamp + "info csid-etcd: leads 1",
			stamp + "warn csid-etcd: refused \"a\"", stamp + "warn csid-etcd: library",
			stamp + "error csid-etcd: no socket"}},
		{"JSON", jsonLines, true, []string{object("info", "leads 1"), object("warn", `refused \\"a\\"`),
			object("warn", "library"), object("error", "no socket")}},
	}
	for _, c := range cases {
		t.Run(c.name, func(t *testing.T) {
			var text bytes.Buffer
			lines, queue := newLogger(&text, c.format, c.isTimed)
			lines.infof("leads %d", 1)
			lines.warnf("refused %q", "a")
			log.Print("library")
			lines.fails(errors.New("no socket"))
			queue.End(10 * time.Second)
			if want := regexp.MustCompile("^" + strings.Join(c.want, "\n") + "\n$"); !want.Match(text.Bytes()) {
				t.Errorf("got %q, want %s", text.String(), want)
			}
		})
	}
}
