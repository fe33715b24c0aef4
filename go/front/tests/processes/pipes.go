package processes

import (
	"io"
	"os"
	"os/exec"
	"strings"
	"syscall"
	"testing"
)

// FullPipe is a pipe that is full of newlines. A program that writes to it must wait until Read is
// called.
type FullPipe struct {
	Out *os.File
	in  *os.File
	log ErrorLog
}

func NewFullPipe(t *testing.T) *FullPipe {
	t.Helper()
	var ends [2]int
	if err := syscall.Pipe2(ends[:], syscall.O_CLOEXEC|syscall.O_NONBLOCK); err != nil {
		t.Fatal(err)
	}
	for size := 4096; size > 0; {
		if _, err := syscall.Write(ends[1], []byte(strings.Repeat("\n", size))); err == syscall.EAGAIN {
			size /= 2
		} else if err != nil {
			t.Fatal(err)
		}
	}
	// The pipe blocks a program that writes to it, as the pipes of a shell do.
	for _, end := range ends {
		if err := syscall.SetNonblock(end, false); err != nil {
			t.Fatal(err)
		}
	}
	p := &FullPipe{Out: os.NewFile(uintptr(ends[1]), "pipe"), in: os.NewFile(uintptr(ends[0]), "pipe")}
	t.Cleanup(func() { p.Out.Close() })
	return p
}

// Read begins to read the pipe in the background, and waits until this text was read.
func (p *FullPipe) Read(t *testing.T, text string) {
	t.Helper()
	go io.Copy(&p.log, p.in)
	Eventually(t, text, func() bool { return strings.Contains(p.log.String(), text) })
}

// Lines returns the lines that were read so far, without the newlines that filled the pipe.
func (p *FullPipe) Lines() []string {
	return strings.Split(strings.TrimSuffix(strings.TrimLeft(p.log.String(), "\n"), "\n"), "\n")
}

// ClosedPipe returns the writing end of a pipe whose reading end is closed.
func ClosedPipe(t *testing.T) *os.File {
	t.Helper()
	in, out, err := os.Pipe()
	if err != nil {
		t.Fatal(err)
	}
	in.Close()
	t.Cleanup(func() { out.Close() })
	return out
}

// WantOutputFailure checks that a program ends with status 5 if the output of --help or --version
// cannot be written, and that its line on standard error begins with name.
func WantOutputFailure(t *testing.T, program, name string) {
	t.Helper()
	full, err := os.OpenFile("/dev/full", os.O_WRONLY, 0)
	if err != nil {
		t.Fatal(err)
	}
	defer full.Close()
	want := name + ": a write to standard output failed\n"
	for _, word := range []string{"--help", "--version"} {
		var log strings.Builder
		command := exec.Command(program, word)
		command.Stdout, command.Stderr = full, &log
		command.Run()
		if status := command.ProcessState.ExitCode(); status != 5 || log.String() != want {
			t.Errorf("%s: got %d, %q, want 5, %q", word, status, log.String(), want)
		}
	}
}
