package tests

import (
	"fmt"
	"net"
	"os"
	"os/exec"
	"path/filepath"
	"strings"
	"testing"
	"time"

	"google.golang.org/grpc/codes"

	"../../front/tests/processes"
	"./clusters"
)

// A program that ends before it serves has this exit status and this output.
func TestArguments(t *testing.T) {
	t.Parallel()
	folder := processes.Folder(t)
	at := func(name string) string { return filepath.Join(folder, name) }
	version, err := os.ReadFile("../../../VERSION")
	if err != nil {
		t.Fatal(err)
	}
	for name, text := range map[string]string{"file": "", "revision": "x\n"} {
		if err := os.WriteFile(at(name), []byte(text), 0o600); err != nil {
			t.Fatal(err)
		}
	}
	answered, err := net.Listen("unix", at("answered.sock"))
	if err != nil {
		t.Fatal(err)
	}
	defer answered.Close()
	listen := func(socket string, more ...string) []string {
		return append([]string{"--name", name, "--listen", at(socket)}, more...)
	}
	cases := []struct {
		name           string
		args           []string
		status         int
		stdout, stderr string
	}{
		{"version", []string{"--version"}, 0, "csid-etcd " + string(version), ""},
		{"no socket", []string{"--name", name}, 2, "", "csid-etcd: --listen: the path of a socket is missing\n"},
		{"another file", listen("file"), 7, "", "csid-etcd: " + at("file") +
			": a file exists there that is no socket\n"},
		{"a socket in use", listen("answered.sock"), 7, "",
			"csid-etcd: " + at("answered.sock") + ": somebody answers on it already\n"},
		{"another file of the revision", listen("log.sock", "--revision", at("revision")), 1, "",
			"csid-etcd: --revision: " + at("revision") + ": it has no revision\n"},
	}
	for _, c := range cases {
		t.Run(c.name, func(t *testing.T) {
			var stdout, stderr strings.Builder
			command := exec.Command(processes.EtcdProgram(t), c.args...)
			command.Stdout, command.Stderr = &stdout, &stderr
			command.Run()
			status := command.ProcessState.ExitCode()
			if status != c.status || stdout.String() != c.stdout || stderr.String() != c.stderr {
				t.Errorf("got %d %q %q, want %d %q %q", status, stdout.String(), stderr.String(), c.status, c.stdout,
					c.stderr)
			}
		})
	}
	stdout, err := exec.Command(processes.EtcdProgram(t), "--help").Output()
	if err != nil || !strings.HasPrefix(string(stdout), "Keeps the rows of a csid in etcd") {
		t.Errorf("--help: got %s, error %v, want the usage", stdout, err)
	}
}

// If the output of --help or --version cannot be written, the exit status is 5.
func TestHelpToAFullDevice(t *testing.T) {
	t.Parallel()
	processes.WantOutputFailure(t, processes.EtcdProgram(t), "csid-etcd")
}

// Only their user may use the socket and the file of the revision, also with umask 0. A later
// process replaces both.
func TestModes(t *testing.T) {
	t.Parallel()
	cluster := clusters.Start(t, 1)
	folder := processes.Folder(t)
	socket, file := filepath.Join(folder, "log.sock"), filepath.Join(folder, "revision")
	for i := 0; i < 2; i++ {
		args := fmt.Sprintf("umask 0; exec %s --name %s --listen %s --endpoints %s --revision %s --lease 2",
			processes.EtcdProgram(t), name, socket, cluster.Endpoints(), file)
		p := program{processes.Start(t, socket, exec.Command("sh", "-c", args)).Answers(t)}
		p.waitLeading(t)
		l := p.dial(t)
		l.call(makePath, nil)
		if _, _, err := l.readAll(); err != nil {
			t.Fatal(err)
		}
		processes.Eventually(t, "the file of the revision", func() bool { _, err := os.Stat(file); return err == nil })
		for _, path := range []string{socket, file} {
			stat, err := os.Stat(path)
			if err != nil || stat.Mode().Perm() != 0o600 {
				t.Errorf("%s: got mode %v, error %v, want 0600", path, stat.Mode(), err)
			}
		}
		p.Kill()
	}
}

// A program without etcd refuses calls at once. It leads once etcd has started.
func TestBeforeEtcd(t *testing.T) {
	t.Parallel()
	cluster := clusters.New(t, 1, clusters.Settings{})
	p := start(t, cluster.Endpoints(), "--timeout", "500ms")
	p.waitLog(t, "csid-etcd: no lock: ")
	l := p.dial(t)
	begin := time.Now()
	reply, err := l.call(readPath, nil)
	if err != nil || reply.Code != codes.FailedPrecondition ||
		!strings.HasPrefix(reply.Text, "waiting for the lock: ") || time.Since(begin) > 200*time.Millisecond {
		t.Errorf("got %v, error %v after %v, want a refusal at once", reply, err, time.Since(begin))
	}
	cluster.StartAll(t)
	p.waitLeading(t)
	l.wantReply(t, readPath, "", codes.OK, "2200")
}

// Before etcd's first answer each call is refused, even Lead, the question if the program leads.
func TestBeforeTheFirstAnswer(t *testing.T) {
	t.Parallel()
	// An etcd that accepts connections and answers nothing.
	silent, err := net.Listen("tcp", "127.0.0.1:0")
	if err != nil {
		t.Fatal(err)
	}
	defer silent.Close()
	l := start(t, silent.Addr().String(), "--timeout", "20s").dial(t)
	const want = "waiting for the lock: etcd was not asked yet"
	for _, path := range []string{leadPath, readPath, makePath} {
		l.wantReply(t, path, "", codes.FailedPrecondition, want)
	}
	l.wantRefused(t, addVolume(1, "a"), codes.FailedPrecondition, want)
}

// If etcd does not answer, the program waits for the running change after a signal. After a second
// signal it ends at once.
func TestEndWithoutEtcd(t *testing.T) {
	t.Parallel()
	cluster := clusters.Start(t, 1)
	cases := []struct {
		name    string
		isTwice bool
		status  int
		// The shortest and the longest time until the end.
		least, most time.Duration
		log         string
	}{
		{"one signal", false, 0, 500 * time.Millisecond, 3 * time.Second,
			commitPath + ": it is not known whether it was made: "},
		{"two signals", true, 1, 0, 500 * time.Millisecond, "ended, and cut off what was under way\n"},
	}
	for _, c := range cases {
		t.Run(c.name, func(t *testing.T) {
			relay := newProxy(t, cluster.Members[0].Address)
			p := start(t, relay.address(), "--timeout", "1s", "--lease", "10").waitLeading(t)
			l := p.dial(t)
			relay.pause()
			message := detachAll(1)
			l.Write(append(frameHead(commitPath, len(message)), message...))
			time.Sleep(200 * time.Millisecond)
			begin := time.Now()
			p.Terminate(t)
			if c.isTwice {
				time.Sleep(100 * time.Millisecond)
				p.Terminate(t)
			}
			status := p.Status(t)
			if took := time.Since(begin); status != c.status || took > c.most || took < c.least {
				t.Errorf("got status %d after %v, want %d after %v to %v: %s", status, took, c.status, c.least, c.most,
					p.Log)
			}
			if _, err := os.Lstat(p.Socket); err == nil {
				t.Error("the socket exists after the end")
			}
			if !strings.Contains(p.Log.String(), "csid-etcd: "+c.log) {
				t.Errorf("got the lines %q, want %q", p.Log, c.log)
			}
			relay.resume()
			cluster.Ctl(t, "del", "--prefix", name+"/lock/")
		})
	}
}
