package tests

import (
	"fmt"
	"os"
	"path/filepath"
	"strings"
	"syscall"
	"testing"
	"time"

	"google.golang.org/grpc/codes"

	"../../front/tests/processes"
	"./clusters"
)

const leaseLength = 3 * time.Second

var shortLease = []string{"--lease", "3", "--timeout", "2s"}

// startPair starts two programs. The first one leads.
func startPair(t *testing.T, cluster *clusters.Cluster) (first, second program) {
	t.Helper()
	first = start(t, cluster.Endpoints(), append(shortLease, "--id", "first")...).waitLeading(t)
	second = start(t, cluster.Endpoints(), append(shortLease, "--id", "second")...)
	second.waitLog(t, "csid-etcd: waits for the lock, which first holds\n")
	return first, second
}

// waitLeadingSince waits until the log of the program, after its first `before` bytes, reports that
// it leads. It returns the time of the wait.
func (p program) waitLeadingSince(t *testing.T, before int) time.Duration {
	t.Helper()
	begin := time.Now()
	processes.Eventually(t, "another leader, whose log has "+p.Log.String(),
		func() bool { return strings.Contains(p.Log.String()[before:], "leads, from revision") })
	return time.Since(begin)
}

// wantWaiting checks that a program refuses calls because holder has the lock.
func (p program) wantWaiting(t *testing.T, holder string) {
	t.Helper()
	l := p.dial(t)
	want := "waiting for the lock, which " + holder + " holds"
	begin := time.Now()
	l.wantReply(t, readPath, "", codes.FailedPrecondition, want)
	l.wantReply(t, makePath, "", codes.FailedPrecondition, want)
	l.wantReply(t, leadPath, "", codes.FailedPrecondition, want)
	l.wantRefused(t, addVolume(1, "a"), codes.FailedPrecondition, want)
	l.wantReply(t, "/fomaheti.log.v1.Log/Other", "", codes.Unimplemented, "unknown method")
	if took := time.Since(begin); took > time.Second {
		t.Errorf("the refusals took %v, want a second or less", took)
	}
	l.Close()
}

// A waiting program refuses calls at once. It leads within the lease and 2 s after the leading
// program is killed, and within a second after the leading program got a signal to end.
func TestStandby(t *testing.T) {
	t.Parallel()
	cluster := clusters.Start(t, 3)
	first, second := startPair(t, cluster)
	second.wantWaiting(t, "first")
	d := newDriver(t, first, second)
	end := d.begin()
	time.Sleep(500 * time.Millisecond)
	for i := 0; i < 4; i++ {
		before := len(second.Log.String())
		isKilled := i%2 == 0
		if isKilled {
			first.Kill()
		} else {
			first.Terminate(t)
		}
		took := second.waitLeadingSince(t, before)
		limit := time.Second
		if isKilled {
			limit = leaseLength + 2*time.Second
		} else if status := first.Status(t); status != 0 {
			t.Errorf("got status %d, want 0: %s", status, first.Log)
		}
		if took > limit {
			t.Errorf("killed %v: the other one led after %v, want %v or less", isKilled, took, limit)
		}
		t.Logf("killed %v: the other one led after %v", isKilled, took.Round(time.Millisecond))
		if _, err := os.Lstat(first.Socket); (err == nil) != isKilled {
			t.Errorf("killed %v: got the socket %v, want it only after a kill", isKilled, err)
		}
		again := startAt(t, first.Socket, cluster.Endpoints(),
			append(shortLease, "--id", fmt.Sprintf("again-%d", i))...)
		again.waitLog(t, "waits for the lock, which ")
		first, second = second, again
		time.Sleep(300 * time.Millisecond)
	}
	end()
	t.Log(d)
	wantRows(t, d, first)
}

// stop stops a program and waits until all its threads have stopped.
func (p program) stop(t *testing.T) {
	t.Helper()
	if err := p.Cmd.Process.Signal(syscall.SIGSTOP); err != nil {
		t.Fatal(err)
	}
	processes.Eventually(t, "that it stands", func() bool {
		threads, _ := filepath.Glob(fmt.Sprintf("/proc/%d/task/*/stat", p.Cmd.Process.Pid))
		for _, thread := range threads {
			if text, err := os.ReadFile(thread); err == nil && !strings.Contains(string(text), ") T ") {
				return false
			}
		}
		return len(threads) > 0
	})
}

// A program that was stopped for twice its lease gives no OK when it goes on: neither to a change
// nor to Lead, even if the call arrived while the program was stopped.
func TestStopped(t *testing.T) {
	t.Parallel()
	cluster := clusters.Start(t, 3)
	first, second := startPair(t, cluster)
	d := newDriver(t, second, first)
	for i := 0; i < 3; i++ {
		l := first.dial(t)
		if _, _, err := l.readAll(); err != nil {
			t.Fatal(err)
		}
		l.call(makePath, nil)
		read, _, err := l.readAll()
		if err != nil {
			t.Fatal(err)
		}
		d.known, d.pending = nil, nil
		if err := d.compare(read); err != nil {
			t.Fatal(err)
		}
		before := len(second.Log.String())
		first.stop(t)
		if message, _ := d.choose(); i == 1 {
			l.Write(frameHead(leadPath, 0))
		} else {
			l.Write(append(frameHead(commitPath, len(message)), message...))
		}
		d.sockets = []string{second.Socket}
		end := d.begin()
		took := second.waitLeadingSince(t, before)
		if took > leaseLength+2*time.Second {
			t.Errorf("the other one led after %v, want %v or less", took, leaseLength+2*time.Second)
		}
		time.Sleep(2*leaseLength - took)
		stoppedLog := len(first.Log.String())
		if err := first.Cmd.Process.Signal(syscall.SIGCONT); err != nil {
			t.Fatal(err)
		}
		l.SetDeadline(time.Now().Add(processes.Patience))
		begin := time.Now()
		got := make([]byte, 1)
		if size, err := l.Read(got); size > 0 && got[0] == 0 {
			t.Errorf("got OK from a program that was stopped, error %v", err)
		}
		closed := time.Since(begin)
		first.waitLog(t, "leads no more")
		processes.Eventually(t, "that it waits again", func() bool {
			return strings.Contains(first.Log.String()[stoppedLog:], "which second holds") ||
				strings.Contains(first.Log.String()[stoppedLog:], "which first holds")
		})
		end()
		t.Logf("the other one led after %v; let go, the connection was closed or refused after %v; %v",
			took.Round(time.Millisecond), closed.Round(time.Millisecond), d)
		wantRows(t, d, second)
		first, second = second, first
	}
}

// Both signals release the lock, and leave the revision of the last answer in the file.
func TestEnd(t *testing.T) {
	t.Parallel()
	cluster := clusters.Start(t, 1)
	client, file := cluster.Client(t), filepath.Join(processes.Folder(t), "revision")
	next := uint64(1)
	for _, signal := range []syscall.Signal{syscall.SIGTERM, syscall.SIGINT} {
		p := start(t, cluster.Endpoints(), "--revision", file).waitLeading(t)
		l := p.dial(t)
		if next == 1 {
			l.wantReply(t, makePath, "", codes.OK, "")
		}
		for i := 0; i < 20; i++ {
			l.mustCommit(t, addVolume(next, fmt.Sprintf("a%d", next)))
			next++
		}
		answered := revision(t, client)
		if err := p.Process.Process.Signal(signal); err != nil {
			t.Fatal(err)
		}
		if status := p.Status(t); status != 0 {
			t.Errorf("%v: got status %d, want 0: %s", signal, status, p.Log)
		}
		if got := cluster.Ctl(t, "get", "--prefix", name+"/lock/"); got != "" {
			t.Errorf("%v: got the lock %s, want none", signal, got)
		}
		if leases := strings.TrimSpace(cluster.Ctl(t, "lease", "list")); leases != "found 0 leases" {
			t.Errorf("%v: got the leases %s, want none", signal, leases)
		}
		if _, err := os.Lstat(p.Socket); err == nil {
			t.Errorf("%v: the socket exists", signal)
		}
		if text, err := os.ReadFile(file); err != nil || string(text) != fmt.Sprintf("%d\n", answered) {
			t.Errorf("%v: got %q in the file, error %v, want %d", signal, text, err, answered)
		}
	}
}

// If the key of a program is deleted by hand, the program loses the lock, and gets it again with
// another key. The value of the key is --id.
func TestLockTakenAway(t *testing.T) {
	t.Parallel()
	cluster, p, l := startLeading(t)
	lines := strings.Split(cluster.Ctl(t, "get", "--prefix", name+"/lock/"), "\n")
	host, _ := os.Hostname()
	if len(lines) != 3 || lines[1] != fmt.Sprintf("%s:%d", host, p.Cmd.Process.Pid) {
		t.Errorf("got the lock %q, want the host and process", lines)
	}
	before := len(p.Log.String())
	cluster.Ctl(t, "del", lines[0])
	reply, err := l.call(commitPath, addVolume(1, "a"))
	if err == nil && (reply.Code != codes.FailedPrecondition ||
		reply.Text != "this program does not lead any more: its key of the lock is gone") {
		t.Errorf("without the key: got %v, want a refusal", reply)
	}
	p.waitLeadingSince(t, before)
	second := p.dial(t)
	second.wantReply(t, readPath, "", codes.OK, "0a04 0802 1001 2200")
	// The key is put again by hand. The next change is refused. The change after it is made, after
	// a fence.
	lines = strings.Split(cluster.Ctl(t, "get", "--prefix", name+"/lock/"), "\n")
	cluster.Ctl(t, "put", "--ignore-lease", lines[0], "other")
	second.wantRefused(t, addVolume(1, "a"), codes.FailedPrecondition, "the key of the lock was put again")
	second.mustCommit(t, addVolume(1, "a"))
	// The lease is revoked by hand.
	before = len(p.Log.String())
	cluster.Ctl(t, "lease", "revoke", lines[0][strings.LastIndex(lines[0], "/")+1:])
	p.waitLeadingSince(t, before)
	p.waitLog(t, "leads no more")
	third := p.dial(t)
	third.mustCommit(t, addVolume(2, "b"))
	// The key is put without its lease. The program leads again with another key, and leaves no key
	// at its end.
	lines = strings.Split(cluster.Ctl(t, "get", "--prefix", name+"/lock/"), "\n")
	before = len(p.Log.String())
	cluster.Ctl(t, "put", lines[0], "other")
	p.waitLeadingSince(t, before)
	p.dial(t).mustCommit(t, addVolume(3, "c"))
	p.Terminate(t)
	p.Status(t)
	if got := cluster.Ctl(t, "get", "--prefix", name+"/lock/"); got != "" {
		t.Errorf("after the end: got the lock %q, want none", got)
	}
}
