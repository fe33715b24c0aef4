// Package processes starts the built programs for the tests of this folder and of go/etcd/tests,
// and ends them.
package processes

import (
	"bytes"
	"fmt"
	"net"
	"os"
	"os/exec"
	"path/filepath"
	"runtime"
	"strings"
	"sync"
	"syscall"
	"testing"
	"time"
)

// With JOURNAL_STREAM set, the lines of a program have no time, as if they went to the journal.
func init() { os.Setenv("JOURNAL_STREAM", "8:1") }

// Patience is the time that anything may take before a test gives it up.
const Patience = time.Minute

// pathOf returns the path in an environment variable. If the variable is not set, it returns the
// path `otherwise`, which begins at the top of the repository.
func pathOf(variable, otherwise string) string {
	if path := os.Getenv(variable); path != "" {
		return path
	}
	_, here, _, _ := runtime.Caller(0)
	return filepath.Join(filepath.Dir(here), "../../../..", otherwise)
}

// program returns the path of a program: the value of this environment variable, or without it the
// path `otherwise` in the repository. It fails the test if there is no such file.
func program(t *testing.T, variable, otherwise string) string {
	t.Helper()
	path := pathOf(variable, otherwise)
	if _, err := os.Stat(path); err != nil {
		t.Fatalf("no program (%s says where it is): %v", variable, err)
	}
	return path
}

// FrontProgram, CsidProgram and EtcdProgram return the paths of the built front, csid and
// csid-etcd.
func FrontProgram(t *testing.T) string { return program(t, "FRONT", "go/front/out/front") }
func CsidProgram(t *testing.T) string  { return program(t, "CSID", "crates/csid/out/csid") }
func EtcdProgram(t *testing.T) string  { return program(t, "CSID_ETCD", "go/etcd/out/csid-etcd") }

// ClientProgram returns the path of the built csictl, which may not exist.
func ClientProgram() string { return pathOf("CSICTL", "crates/csictl/out/csictl") }

// ErrorLog collects the lines that a process writes to standard error.
type ErrorLog struct {
	mutex sync.Mutex
	text  bytes.Buffer
}

func (l *ErrorLog) Write(part []byte) (int, error) {
	l.mutex.Lock()
	defer l.mutex.Unlock()
	return l.text.Write(part)
}

func (l *ErrorLog) String() string {
	l.mutex.Lock()
	defer l.mutex.Unlock()
	return l.text.String()
}

// Process is a running program. It is killed at the end of the test. Ended is closed once the
// program has ended.
type Process struct {
	*exec.Cmd
	Socket string
	Log    *ErrorLog
	Ended  chan struct{}
}

// Start starts a program that will answer on a socket; an empty path means no socket. Its Log stays
// empty if the command already has a standard error.
func Start(t *testing.T, socket string, command *exec.Cmd) *Process {
	t.Helper()
	p := &Process{Cmd: command, Socket: socket, Log: &ErrorLog{}, Ended: make(chan struct{})}
	if p.Stderr == nil {
		p.Stderr = p.Log
	}
	if err := p.Start(); err != nil {
		t.Fatal(err)
	}
	go func() {
		p.Wait()
		close(p.Ended)
	}()
	t.Cleanup(p.Kill)
	return p
}

// Kill kills a process with SIGKILL, and waits for its end.
func (p *Process) Kill() {
	p.Process.Kill()
	<-p.Ended
}

// Status waits until a process has ended, and returns its exit status. After Patience it fails the
// test.
func (p *Process) Status(t *testing.T) int {
	t.Helper()
	select {
	case <-p.Ended:
		return p.ProcessState.ExitCode()
	case <-time.After(Patience):
		t.Fatalf("%s did not end", p.Path)
		return 0
	}
}

// Answers waits until a program listens on the socket of the process. If the process ends before,
// it fails the test.
func (p *Process) Answers(t *testing.T) *Process {
	t.Helper()
	Eventually(t, "an answer on "+p.Socket, func() bool {
		select {
		case <-p.Ended:
			t.Fatalf("%s ended: %s", p.Path, p.Log)
		default:
		}
		return IsAnswered(p.Socket)
	})
	return p
}

// IsAnswered reports whether a program listens on a socket.
func IsAnswered(socket string) bool {
	conn, err := net.Dial("unix", socket)
	if err == nil {
		conn.Close()
	}
	return err == nil
}

// Eventually waits until is returns true. After Patience it fails the test, with a line that has
// the text what.
func Eventually(t *testing.T, what string, is func() bool) {
	t.Helper()
	for end := time.Now().Add(Patience); time.Now().Before(end); time.Sleep(2 * time.Millisecond) {
		if is() {
			return
		}
	}
	t.Fatalf("waited in vain for %s", what)
}

// GoesOn waits until a count reaches wanted. It fails the test only if the count does not grow for
// Patience.
func GoesOn(t *testing.T, what string, wanted int, count func() int) {
	t.Helper()
	last, end := -1, time.Now()
	for ; ; time.Sleep(2 * time.Millisecond) {
		got := count()
		if got >= wanted {
			return
		}
		if got > last {
			last, end = got, time.Now().Add(Patience)
		}
		if time.Now().After(end) {
			t.Fatalf("waited in vain for %s: %d of %d", what, got, wanted)
		}
	}
}

// Together runs a number of callers at once, and waits until all of them have ended.
func Together(callers int, call func(caller int)) {
	var all sync.WaitGroup
	for caller := 0; caller < callers; caller++ {
		all.Add(1)
		go func(caller int) {
			defer all.Done()
			call(caller)
		}(caller)
	}
	all.Wait()
}

// Folder makes a folder, which is removed at the end of the test. Its path is short, since the path
// of a socket must be short.
func Folder(t *testing.T) string {
	t.Helper()
	path, err := os.MkdirTemp("", "front")
	if err != nil {
		t.Fatal(err)
	}
	t.Cleanup(func() { os.RemoveAll(path) })
	return path
}

// StartFront starts a front for the csid at a socket, with further arguments, and waits until the
// front answers.
func StartFront(t *testing.T, csid string, words ...string) *Process {
	t.Helper()
	socket := filepath.Join(Folder(t), "csi.sock")
	return Start(t, socket, exec.Command(FrontProgram(t),
		append([]string{"--csid", csid, "--listen", socket}, words...)...)).Answers(t)
}

// Server has the folder and the configuration of a csid. The csid can be killed and started again
// with the same files.
type Server struct {
	folder string
	config string
	// The file of the volumes. If it is empty, the file is volumes.db in the folder.
	Tables  string
	Current *Process
}

// HasTables reports whether the built csid keeps volumes in a file (--tables).
func HasTables(t *testing.T) bool {
	t.Helper()
	help, err := exec.Command(CsidProgram(t), "serve", "--help").Output()
	if err != nil {
		t.Fatal(err)
	}
	return strings.Contains(string(help), "--tables")
}

// NewServer makes a Server for a csid with this configuration. An empty text stands for the sample
// configuration.
func NewServer(t *testing.T, config string) *Server {
	t.Helper()
	s := &Server{folder: Folder(t)}
	if config != "" {
		s.config = filepath.Join(s.folder, "config.toml")
		if err := os.WriteFile(s.config, []byte(config), 0o600); err != nil {
			t.Fatal(err)
		}
	}
	return s
}

// Socket returns the path of the socket on which this csid listens.
func (s *Server) Socket() string { return filepath.Join(s.folder, "csid.sock") }

// Start starts a csid, and waits until it answers.
func (s *Server) Start(t *testing.T) *Server {
	t.Helper()
	words := []string{"serve", "--socket", s.Socket()}
	if s.config != "" {
		words = append(words, "--config", s.config)
	}
	if HasTables(t) {
		tables := s.Tables
		if tables == "" {
			tables = filepath.Join(s.folder, "volumes.db")
		}
		words = append(words, "--tables", tables)
	}
	s.Current = Start(t, s.Socket(), exec.Command(CsidProgram(t), words...)).Answers(t)
	return s
}

// Kill kills csid with SIGKILL, and removes the socket that csid leaves, since csid replaces no
// socket.
func (s *Server) Kill(t *testing.T) {
	t.Helper()
	s.Current.Kill()
	if err := os.Remove(s.Socket()); err != nil {
		t.Fatal(err)
	}
}

// StartCsid starts a csid under the sample configuration, and waits until it answers.
func StartCsid(t *testing.T) *Server {
	t.Helper()
	return NewServer(t, "").Start(t)
}

// WantsStartAlone checks that csid has logged only the lines about its new tables.
func (s *Server) WantsStartAlone(t *testing.T) {
	t.Helper()
	tables := filepath.Join(s.folder, "volumes.db")
	want := fmt.Sprintf("csid: %s: no tables were there, and new ones were made\ncsid: %s: volumes 0, attachments 0, "+
		"next number 1, format 2\n", tables, tables)
	if log := s.Current.Log.String(); log != want {
		t.Errorf("csid said %q, wanted %q", log, want)
	}
}

// Terminate sends SIGTERM to a process.
func (p *Process) Terminate(t *testing.T) {
	t.Helper()
	if err := p.Process.Signal(syscall.SIGTERM); err != nil {
		t.Fatal(err)
	}
}

// OpenFiles returns the number of open files of a process, and ResidentBytes the bytes that it has
// in memory.
func (p *Process) OpenFiles(t *testing.T) int {
	t.Helper()
	files, err := os.ReadDir(fmt.Sprintf("/proc/%d/fd", p.Process.Pid))
	if err != nil {
		t.Fatal(err)
	}
	return len(files)
}

func (p *Process) ResidentBytes(t *testing.T) int {
	t.Helper()
	text, err := os.ReadFile(fmt.Sprintf("/proc/%d/statm", p.Process.Pid))
	if err != nil {
		t.Fatal(err)
	}
	var size, resident int
	if _, err := fmt.Sscan(string(text), &size, &resident); err != nil {
		t.Fatal(err)
	}
	return resident * os.Getpagesize()
}
