// Package words parses the command lines of all Go programs.
package words

import (
	"errors"
	"flag"
	"fmt"
	"io"
	"strings"
	"syscall"
)

// ExitOutput is the exit status of a program that cannot write to standard output. csid uses the
// same number.
const ExitOutput = 5

// ErrOutput is the error of a write to standard output.
var ErrOutput = errors.New("a write to standard output failed")

// Parse parses words into flags. For --help it prints the usage and the flags to shown, and returns
// flag.ErrHelp, or ErrOutput if they cannot be written. A word after the flags is an error. The
// flags must be silent: flag.ContinueOnError, without output.
func Parse(flags *flag.FlagSet, words []string, usage string, shown io.Writer) error {
	if err := flags.Parse(words); err != nil {
		if !errors.Is(err, flag.ErrHelp) {
			return err
		}
		return Help(flags, usage, shown)
	}
	if flags.NArg() > 0 {
		return fmt.Errorf("a word that is not known: %q", flags.Arg(0))
	}
	return nil
}

// Help prints the usage and the flags to shown. It returns flag.ErrHelp, or ErrOutput if they
// cannot be written.
func Help(flags *flag.FlagSet, usage string, shown io.Writer) error {
	var text strings.Builder
	text.WriteString(usage)
	flags.SetOutput(&text)
	flags.PrintDefaults()
	if err := Print(shown, text.String()); err != nil {
		return err
	}
	return flag.ErrHelp
}

// Print writes text to standard output, or another writer. It returns ErrOutput if the text cannot
// be written, but not if the reader has gone.
func Print(out io.Writer, text string) error {
	if _, err := io.WriteString(out, text); err != nil && !errors.Is(err, syscall.EPIPE) {
		return ErrOutput
	}
	return nil
}
