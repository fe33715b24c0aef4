package tests

import (
	"io"
	"net"
	"os"
	"os/exec"
	"path/filepath"
	"strings"
	"syscall"
	"testing"
	"time"

	"google.golang.org/grpc/codes"

	"./processes"
)

// deadSocket makes a socket without a listener, as a killed program leaves it.
func deadSocket(t *testing.T) string {
	t.Helper()
	path := filepath.Join(processes.Folder(t), "csi.sock")
	listener, err := net.ListenUnix("unix", &net.UnixAddr{Name: path, Net: "unix"})
	if err != nil {
		t.Fatal(err)
	}
	listener.SetUnlinkOnClose(false)
	listener.Close()
	return path
}

// frontAt starts a front with this socket, and does not wait for it.
func frontAt(t *testing.T, csid, socket string) *processes.Process {
	t.Helper()
	return processes.Start(t, socket, exec.Command(processes.FrontProgram(t), "--csid", csid, "--listen", socket))
}

// refuses waits until a front that cannot start ends, and checks its exit status, and that its only
// line has part.
func refuses(t *testing.T, p *processes.Process, status int, part string) {
	t.Helper()
	if got := p.Status(t); got != status {
		t.Errorf("status %d, wanted %d", got, status)
	}
	if log := p.Log.String(); !strings.HasPrefix(log, "front: ") || strings.Count(log, "\n") != 1 ||
		!strings.Contains(log, part) {
		t.Errorf("logged %q, wanted a line with %q", log, part)
	}
}

func TestDeadSocketGivesWay(t *testing.T) {
	t.Parallel()
	csid := startFake(t)
	front := frontAt(t, csid.socket, deadSocket(t)).Answers(t)
	newClient(t, front.Socket).wantReply(t, probe, "", ok(ready))
}

func TestLiveSocketStays(t *testing.T) {
	t.Parallel()
	csid := startFake(t)
	front := processes.StartFront(t, csid.socket)
	refuses(t, frontAt(t, csid.socket, front.Socket), 7, "somebody answers")
	newClient(t, front.Socket).wantReply(t, probe, "", ok(ready))
}

func TestOtherFilesStay(t *testing.T) {
	t.Parallel()
	place := processes.Folder(t)
	plain, link := filepath.Join(place, "plain"), filepath.Join(place, "link")
	if err := os.WriteFile(plain, []byte("text"), 0o600); err != nil {
		t.Fatal(err)
	}
	if err := os.Symlink(deadSocket(t), link); err != nil {
		t.Fatal(err)
	}
	for _, path := range []string{plain, link, place} {
		refuses(t, frontAt(t, "csid.sock", path), 7, "no socket")
	}
	if text, err := os.ReadFile(plain); err != nil || string(text) != "text" {
		t.Errorf("the plain file: %q, %v", text, err)
	}
	if _, err := os.Lstat(link); err != nil {
		t.Error(err)
	}
}

func TestSocketThatCannotBeMade(t *testing.T) {
	t.Parallel()
	refuses(t, frontAt(t, "csid.sock", filepath.Join(processes.Folder(t), "absent", "csi.sock")), 7, "absent")
	refuses(t, frontAt(t, "csid.sock", filepath.Join(processes.Folder(t), strings.Repeat("a", 120))), 7, "aaa")
}

// Several fronts start together at the path of a socket without a listener. Exactly one of them
// gets the socket, and keeps it.
func TestFrontsThatStartTogether(t *testing.T) {
	t.Parallel()
	csid, socket := startFake(t), deadSocket(t)
	var fronts []*processes.Process
	for len(fronts) < 6 {
		fronts = append(fronts, frontAt(t, csid.socket, socket))
	}
	left := func() (living []*processes.Process) {
		for _, front := range fronts {
			select {
			case <-front.Ended:
			default:
				living = append(living, front)
			}
		}
		return living
	}
	processes.Eventually(t, "one front", func() bool { return len(left()) <= 1 })
	if len(left()) != 1 {
		t.Fatal("no front lives")
	}
	newClient(t, left()[0].Answers(t).Socket).wantReply(t, probe, "", ok(ready))
}

func TestEndpoint(t *testing.T) {
	t.Parallel()
	for _, scheme := range []string{"", "unix:", "unix://"} {
		csid, socket := startFake(t), filepath.Join(processes.Folder(t), "csi.sock")
		command := exec.Command(processes.FrontProgram(t), "--csid", csid.socket)
		command.Env = append(os.Environ(), "CSI_ENDPOINT="+scheme+socket)
		newClient(t, processes.Start(t, socket, command).Answers(t).Socket).wantReply(t, probe, "", ok(ready))
	}
	command := exec.Command(processes.FrontProgram(t), "--csid", "csid.sock")
	command.Env = append(os.Environ(), "CSI_ENDPOINT=tcp://127.0.0.1:10000")
	refuses(t, processes.Start(t, "", command), 2, "no Unix socket")
}

// After SIGTERM the running call is answered, no further call is taken, and the socket is gone.
func TestTermDuringACall(t *testing.T) {
	t.Parallel()
	running := runCall(t, "/a/b")
	process := running.process
	process.Terminate(t)
	processes.Eventually(t, "the end of the socket", func() bool { return !processes.IsAnswered(process.Socket) })
	running.ends(t)
	if status := process.Status(t); status != 0 || process.Log.String() != "" {
		t.Errorf("status %d, logged %q", status, process.Log)
	}
	if _, err := os.Lstat(process.Socket); !os.IsNotExist(err) {
		t.Errorf("the socket: %v", err)
	}
	running.csid.wantCalls(t, "/a/b ")
}

// If another front has replaced the socket of a front, the end of the first front does not remove
// the new socket.
func TestTermBehindAnotherFront(t *testing.T) {
	t.Parallel()
	csid := startFake(t)
	first := processes.StartFront(t, csid.socket)
	if err := os.Remove(first.Socket); err != nil {
		t.Fatal(err)
	}
	second := frontAt(t, csid.socket, first.Socket).Answers(t)
	first.Terminate(t)
	if status := first.Status(t); status != 0 {
		t.Errorf("status %d", status)
	}
	newClient(t, second.Socket).wantReply(t, probe, "", ok(ready))
}

// SIGTERM and SIGINT end a front on which no call runs.
func TestTermWithoutACall(t *testing.T) {
	t.Parallel()
	for _, sent := range []os.Signal{syscall.SIGTERM, syscall.SIGINT} {
		csid := startFake(t)
		process := processes.StartFront(t, csid.socket)
		newClient(t, process.Socket).wantReply(t, probe, "", ok(ready))
		if err := process.Process.Signal(sent); err != nil {
			t.Fatal(err)
		}
		if status := process.Status(t); status != 0 || process.Log.String() != "" {
			t.Errorf("%v: status %d, logged %q", sent, status, process.Log)
		}
		if _, err := os.Lstat(process.Socket); !os.IsNotExist(err) {
			t.Errorf("%v: the socket: %v", sent, err)
		}
	}
}

// A client that sends nothing has no call. So the front ends with status 0, and does not wait for
// the time of --grace.
func TestTermWithAClientThatSaysNothing(t *testing.T) {
	t.Parallel()
	process := processes.StartFront(t, startFake(t).socket, "--grace", "1h")
	silent, err := net.Dial("unix", process.Socket)
	if err != nil {
		t.Fatal(err)
	}
	defer silent.Close()
	newClient(t, process.Socket).wantReply(t, probe, "", ok(ready))
	process.Terminate(t)
	if status := process.Status(t); status != 0 || process.Log.String() != "" {
		t.Errorf("status %d, logged %q", status, process.Log)
	}
}

// A client that hangs answers no PING of the front, and has no call. The front waits for it no
// longer than for calls, and its status is 0.
func TestTermWithAClientThatHangs(t *testing.T) {
	t.Parallel()
	for name, signals := range map[string]int{"grace": 1, "second signal": 2} {
		signals := signals
		t.Run(name, func(t *testing.T) {
			t.Parallel()
			grace := map[int]string{1: "300ms", 2: "1h"}[signals]
			process := processes.StartFront(t, startFake(t).socket, "--grace", grace)
			hanging, err := net.Dial("unix", process.Socket)
			if err != nil {
				t.Fatal(err)
			}
			defer hanging.Close()
			// The beginning of HTTP/2, and an empty frame SETTINGS (RFC 9113, section 3.4).
			hanging.Write([]byte("PRI * HTTP/2.0\r\n\r\nSM\r\n\r\n\x00\x00\x00\x04\x00\x00\x00\x00\x00"))
			if _, err := io.ReadFull(hanging, make([]byte, 9)); err != nil {
				t.Fatal(err)
			}
			for sent := 0; sent < signals; sent++ {
				process.Terminate(t)
				time.Sleep(50 * time.Millisecond)
			}
			if status := process.Status(t); status != 0 || process.Log.String() != "" {
				t.Errorf("status %d, logged %q", status, process.Log)
			}
		})
	}
}

// Before the front ends, it waits for the reply to a call that its caller gave up. So csid can
// write the reply.
func TestTermWithACallThatWasGivenUp(t *testing.T) {
	t.Parallel()
	let := make(chan struct{})
	csid := startFake(t, step{wait: let, write: okFrame("01")})
	process := processes.StartFront(t, csid.socket)
	front := newClient(t, process.Socket)
	if got := front.send(soon(t, 100*time.Millisecond), "/a/b", nil); got.code != codes.DeadlineExceeded {
		t.Errorf("%v, wanted DEADLINE_EXCEEDED", got)
	}
	process.Terminate(t)
	time.AfterFunc(100*time.Millisecond, func() { close(let) })
	if status := process.Status(t); status != 0 {
		t.Errorf("status %d, wanted 0", status)
	}
	csid.waitEnds(t, 1)
	csid.mutex.Lock()
	defer csid.mutex.Unlock()
	if csid.error != nil {
		t.Errorf("csid wrote its reply: %v", csid.error)
	}
}

// With --grace 0s the front ends with status 0 if no call runs.
func TestTermWithoutGrace(t *testing.T) {
	t.Parallel()
	csid := startFake(t)
	for i := 0; i < 20; i++ {
		process := processes.StartFront(t, csid.socket, "--grace", "0s", "--control",
			filepath.Join(processes.Folder(t), "control.sock"))
		newClient(t, process.Socket).wantReply(t, probe, "", ok(ready))
		process.Terminate(t)
		if status := process.Status(t); status != 0 || process.Log.String() != "" {
			t.Errorf("end %d: status %d, logged %q", i, status, process.Log)
		}
	}
}

// A call that never ends delays the end of the front for the time of --grace at most, or until a
// second signal.
func TestTermWithACallThatNeverEnds(t *testing.T) {
	t.Parallel()
	for name, grace := range map[string]string{"grace": "300ms", "second signal": "1h"} {
		grace := grace
		t.Run(name, func(t *testing.T) {
			t.Parallel()
			csid := startFake(t, step{mute: true})
			process := processes.StartFront(t, csid.socket, "--grace", grace)
			front := newClient(t, process.Socket)
			lost := make(chan answer)
			go func() { lost <- front.send(soon(t, 3*processes.Patience), "/a/b", nil) }()
			csid.called(t, 1)
			process.Terminate(t)
			if grace == "1h" {
				time.Sleep(100 * time.Millisecond)
				process.Terminate(t)
			}
			if got := <-lost; got.code != codes.Unavailable {
				t.Errorf("%v, wanted UNAVAILABLE", got)
			}
			if status := process.Status(t); status != 1 {
				t.Errorf("status %d", status)
			}
		})
	}
}

// A call that was given up does not delay the end of the front, even if its reply did not come.
func TestTermWhileAReplyIsLate(t *testing.T) {
	t.Parallel()
	csid := startFake(t, step{mute: true})
	process := processes.StartFront(t, csid.socket)
	front := newClient(t, process.Socket)
	if got := front.send(soon(t, 100*time.Millisecond), "/a/b", nil); got.code != codes.DeadlineExceeded {
		t.Errorf("%v, wanted DEADLINE_EXCEEDED", got)
	}
	processes.Eventually(t, "the call in the log", func() bool { return gaveUp(process, "/a/b") })
	begin := time.Now()
	process.Terminate(t)
	if status := process.Status(t); status != 0 || time.Since(begin) > 5*time.Second {
		t.Errorf("status %d after %v", status, time.Since(begin))
	}
}

// The front and csid print the version of the repository.
func TestVersion(t *testing.T) {
	t.Parallel()
	number, err := os.ReadFile("../../../VERSION")
	if err != nil {
		t.Fatal(err)
	}
	for name, program := range map[string]string{"front": processes.FrontProgram(t), "csid": processes.CsidProgram(t)} {
		said, err := exec.Command(program, "--version").Output()
		if err != nil || string(said) != name+" "+string(number) {
			t.Errorf("%s said %q, %v", name, said, err)
		}
	}
}

// --help prints the usage, and the exit status is 0.
func TestHelp(t *testing.T) {
	t.Parallel()
	said, err := exec.Command(processes.FrontProgram(t), "--help").Output()
	if err != nil || !strings.Contains(string(said), "\nusage: front --csid PATH ") {
		t.Errorf("said %q, %v", said, err)
	}
}

// If the output of --help or --version cannot be written, the exit status is 5.
func TestHelpToAFullDevice(t *testing.T) {
	t.Parallel()
	processes.WantOutputFailure(t, processes.FrontProgram(t), "front")
}

// Another process that can only read the folder of a socket may lock the folder. This delays a
// start by a second at most, and an end not at all.
func TestFolderThatStaysLocked(t *testing.T) {
	t.Parallel()
	socket := filepath.Join(processes.Folder(t), "csi.sock")
	folder, err := os.Open(filepath.Dir(socket))
	if err != nil {
		t.Fatal(err)
	}
	defer folder.Close()
	if err := syscall.Flock(int(folder.Fd()), syscall.LOCK_SH); err != nil {
		t.Fatal(err)
	}
	front := frontAt(t, startFake(t).socket, socket).Answers(t)
	newClient(t, front.Socket).wantReply(t, probe, "", ok(ready))
	front.Terminate(t)
	if status := front.Status(t); status != 0 {
		t.Errorf("status %d", status)
	}
	if _, err := os.Lstat(socket); !os.IsNotExist(err) {
		t.Errorf("the socket: %v", err)
	}
	want := "front: " + folder.Name() +
		": another process keeps this folder locked, and a socket is made there without the lock\n"
	if log := front.Log.String(); log != want {
		t.Errorf("logged %q", log)
	}
}
