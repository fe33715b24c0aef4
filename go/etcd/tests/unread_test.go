package tests

import (
	"context"
	"os"
	"os/exec"
	"path/filepath"
	"testing"
	"time"

	"go.etcd.io/etcd/clientv3"
	"google.golang.org/grpc/codes"

	"../../front/tests/processes"
	"./clusters"
)

// lockHolder returns the --id of the holder of the lock and the lease of its key. Without a holder
// they are "" and 0.
func lockHolder(t *testing.T, client *clientv3.Client) (id string, lease clientv3.LeaseID) {
	t.Helper()
	read, err := client.Get(context.Background(), name+"/lock/", clientv3.WithFirstCreate()...)
	if err != nil {
		t.Fatal(err)
	}
	for _, found := range read.Kvs {
		id, lease = string(found.Value), clientv3.LeaseID(found.Lease)
	}
	return id, lease
}

// waitConfirmsLead waits until a program confirms that it leads.
func (p program) waitConfirmsLead(t *testing.T) {
	t.Helper()
	processes.Eventually(t, "that it says that it leads", func() bool {
		l, err := dial(p.Socket)
		if err != nil {
			return false
		}
		defer l.Close()
		l.SetDeadline(time.Now().Add(processes.Patience))
		reply, err := l.call(leadPath, nil)
		return err == nil && reply.Code == codes.OK
	})
}

// A program whose standard error accepts no line answers calls and keeps the lock. It gives up the
// lock and waits for it like any other program. It drops lines, and reports their number when the
// lines are read.
func TestUnreadLog(t *testing.T) {
	t.Parallel()
	pipe := processes.NewFullPipe(t)
	cases := []struct {
		name   string
		stderr *os.File
	}{{"full pipe", pipe.Out}, {"closed pipe", processes.ClosedPipe(t)}}
	for _, c := range cases {
		t.Run(c.name, func(t *testing.T) {
			cluster := clusters.Start(t, 1)
			client := cluster.Client(t)
			socket := filepath.Join(processes.Folder(t), "log.sock")
			args := append([]string{"--name", name, "--listen", socket, "--endpoints", cluster.Endpoints(),
				"--id", "unread"}, shortLease...)
			command := exec.Command(processes.EtcdProgram(t), args...)
			command.Stderr = c.stderr
			p := program{processes.Start(t, socket, command).Answers(t)}
			p.waitConfirmsLead(t)
			l := p.dial(t)
			l.wantReply(t, makePath, "", codes.OK, "")
			// Each refusal is a line. The queue has room for 1,024.
			for i := 0; i < 1100; i++ {
				l.wantRefused(t, attach(1, "n", false), codes.FailedPrecondition,
					"volumes/00000000000000000001 is not there")
				if t.Failed() {
					t.FailNow()
				}
			}
			second := start(t, cluster.Endpoints(), append(shortLease, "--id", "second")...)
			second.waitLog(t, "waits for the lock, which unread holds")
			// The program keeps the lock for longer than its lease.
			time.Sleep(leaseLength + time.Second)
			id, lease := lockHolder(t, client)
			if id != "unread" {
				t.Errorf("got the holder %q, want unread", id)
			}
			l.mustCommit(t, addVolume(1, "a"))
			if _, err := client.Revoke(context.Background(), lease); err != nil {
				t.Fatal(err)
			}
			wantEnd(t, second.waitLeading(t))
			p.waitConfirmsLead(t)
			if c.stderr == pipe.Out {
				pipe.Read(t, "csid-etcd: lines dropped, since standard error did not take them: ")
			}
			wantEnd(t, p)
		})
	}
}
