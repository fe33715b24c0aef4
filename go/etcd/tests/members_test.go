package tests

import (
	"syscall"
	"testing"
	"time"

	"../../front/tests/processes"
	"./clusters"
)

// One of three members is killed again and again, every second time the leader. Each change gets
// OK, a refusal because the program does not lead, or no reply. All changes with an OK are there.
func TestKilledMembers(t *testing.T) {
	t.Parallel()
	cluster := clusters.Start(t, 3)
	p := start(t, cluster.Endpoints(), "--timeout", "2s", "--lease", "5").waitLeading(t)
	d := newDriver(t, p)
	end := d.begin()
	for i := 0; i < 8; i++ {
		member := cluster.Members[i%3]
		if leader := cluster.Leader(t); i%2 == 0 {
			member = leader
		}
		time.Sleep(300 * time.Millisecond)
		member.Kill()
		time.Sleep(1500 * time.Millisecond)
		member.Start(t)
		time.Sleep(500 * time.Millisecond)
	}
	time.Sleep(time.Second)
	end()
	t.Logf("8 kills: %v", d)
	if d.ok < 100 {
		t.Errorf("got %d changes, want 100 or more", d.ok)
	}
	wantRows(t, d, p)
}

// After etcd had no leader for longer than the lease, the program leads as soon as etcd has one:
// the new leader would keep the old lease for its whole length, so the program revokes it.
func TestWithoutLeader(t *testing.T) {
	t.Parallel()
	cluster := clusters.Start(t, 3)
	p := start(t, cluster.Endpoints(), "--timeout", "1s", "--lease", "12").waitLeading(t)
	leader := cluster.Leader(t)
	signal := func(what syscall.Signal) {
		for _, member := range cluster.Members {
			if member == leader {
				continue
			}
			if err := member.Current.Cmd.Process.Signal(what); err != nil {
				t.Fatal(err)
			}
		}
	}
	before := len(p.Log.String())
	signal(syscall.SIGSTOP)
	p.waitLog(t, "leads no more: its lease is over")
	// By now its requests to etcd have timed out.
	time.Sleep(2 * time.Second)
	signal(syscall.SIGCONT)
	if took := p.waitLeadingSince(t, before); took > 9*time.Second {
		t.Errorf("the program led after %v, want 9 s or less", took)
	}
}

// wantRows checks that the program reads the rows that the replies to the driver promised.
func wantRows(t *testing.T, d *driver, p program) {
	t.Helper()
	var err error
	processes.Eventually(t, "all rows", func() bool {
		l := p.dial(t)
		defer l.Close()
		var read rows
		if read, _, err = l.readAll(); err != nil {
			return false
		}
		err = d.compare(read)
		return true
	})
	if err != nil {
		t.Error(err)
	}
}
