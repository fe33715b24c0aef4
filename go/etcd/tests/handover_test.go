package tests

import (
	"context"
	"fmt"
	"os/exec"
	"strings"
	"testing"
	"time"

	"go.etcd.io/etcd/clientv3"
	"google.golang.org/grpc/codes"

	"../../front/tests/processes"
	"./clusters"
)

// takeLock takes the lock from its holder by hand: it revokes the holder's lease if isByLease is
// true, and otherwise deletes the holder's key.
func takeLock(t *testing.T, client *clientv3.Client, isByLease bool) {
	t.Helper()
	ctx, cancel := context.WithTimeout(context.Background(), processes.Patience)
	defer cancel()
	read, err := client.Get(ctx, name+"/lock/", clientv3.WithFirstCreate()...)
	if err != nil || len(read.Kvs) == 0 {
		t.Fatalf("got the lock %v, error %v", read, err)
	}
	if isByLease {
		_, err = client.Revoke(ctx, clientv3.LeaseID(read.Kvs[0].Lease))
	} else {
		_, err = client.Delete(ctx, string(read.Kvs[0].Key))
	}
	if err != nil {
		t.Fatal(err)
	}
}

// lastConfirmedLead asks a program again and again if it leads, until the program does not confirm
// this. It closes asking after the first answer. It returns the time at which the last question
// that was answered OK was sent, or the zero time if there was none.
func (p program) lastConfirmedLead(t *testing.T, asking chan<- struct{}) (last time.Time) {
	l, err := dial(p.Socket)
	if err != nil {
		t.Error(err)
		close(asking)
		return last
	}
	defer l.Close()
	for isFirst := true; ; isFirst = false {
		sent := time.Now()
		reply, err := l.call(leadPath, nil)
		if isFirst {
			close(asking)
		}
		if err != nil || reply.Code != codes.OK {
			return last
		}
		last = sent
	}
}

// firstChangeTime makes a change as soon as the program leads, and returns the time at which the
// change got OK.
func (p program) firstChangeTime(t *testing.T) time.Time {
	t.Helper()
	processes.Eventually(t, "a change that is answered by OK", func() bool {
		l, err := dial(p.Socket)
		if err != nil {
			return false
		}
		defer l.Close()
		read, _, err := l.readAll()
		if err != nil {
			return false
		}
		var next uint64
		fmt.Sscanf(read["meta"], "2 %d", &next)
		reply, err := l.call(commitPath, addVolume(next, fmt.Sprintf("pvc-%d", next)))
		return err == nil && reply.Code == codes.OK
	})
	return time.Now()
}

// The lock is taken by hand. The old program does not confirm its lead if the question is sent
// after the new program's first OK.
func TestLockTakenByHand(t *testing.T) {
	t.Parallel()
	cluster := clusters.Start(t, 3)
	client := cluster.Client(t)
	first, second := startPair(t, cluster)
	first.dial(t).wantReply(t, makePath, "", codes.OK, "")
	for round := 0; round < 8; round++ {
		asking, lasts := make(chan struct{}), make(chan time.Time, 1)
		go func() { lasts <- first.lastConfirmedLead(t, asking) }()
		<-asking
		before := len(first.Log.String())
		takeLock(t, client, round%2 == 1)
		changed := second.firstChangeTime(t)
		last := <-lasts
		if last.IsZero() || last.After(changed) {
			t.Errorf("round %d: it said that it leads to a question that was sent %v after the other one's OK", round,
				last.Sub(changed))
		}
		processes.Eventually(t, "why it leads no more", func() bool {
			return strings.Contains(first.Log.String()[before:], "leads no more: its key is gone\n") ||
				round%2 == 1 && strings.Contains(first.Log.String()[before:], "leads no more: its lease is over\n")
		})
		processes.Eventually(t, "that it waits",
			func() bool { return strings.Contains(first.Log.String()[before:], "waits for the lock, which ") })
		first, second = second, first
	}
}

// A program without a connection to etcd does not learn that its key was deleted, and its lease has
// time left. Even so it does not confirm its lead after another program's OK.
func TestLockTakenWhileCutOff(t *testing.T) {
	t.Parallel()
	cluster := clusters.Start(t, 1)
	relay := newProxy(t, cluster.Members[0].Address)
	first := start(t, relay.address(), "--lease", "20", "--timeout", "1s", "--id", "first").waitLeading(t)
	second := start(t, cluster.Endpoints(), "--id", "second")
	second.waitLog(t, "waits for the lock, which first holds\n")
	l := first.dial(t)
	l.wantReply(t, makePath, "", codes.OK, "")
	l.wantReply(t, leadPath, "", codes.OK, "")
	relay.pause()
	takeLock(t, cluster.Client(t), false)
	second.firstChangeTime(t)
	const want = "etcd does not say whether this program leads: "
	reply, err := l.call(leadPath, nil)
	if err != nil || reply.Code != codes.FailedPrecondition || !strings.HasPrefix(reply.Text, want) {
		t.Errorf("got %d %q, error %v, want %s", reply.Code, reply.Text, err, want)
	}
	relay.resume()
	first.waitLog(t, "leads no more: its key is gone\n")
}

// The lock of two stacks is taken by hand. No list lacks a volume that the other stack created
// before the list was requested.
func TestListsWhileLockIsTaken(t *testing.T) {
	t.Parallel()
	help, err := exec.Command(processes.CsidProgram(t), "serve", "--help").Output()
	if err != nil || !strings.Contains(string(help), "--log") {
		t.Skip("left out: this csid knows no --log")
	}
	cluster := clusters.Start(t, 3)
	client := cluster.Client(t)
	first, second := newStack(t, "a", cluster.Endpoints()), newStack(t, "b", cluster.Endpoints())
	for _, s := range []*stack{first, second} {
		s.startStore(t)
		s.startCsid(t)
		s.csid.Answers(t)
	}
	if holder, _ := lockHolder(t, client); holder == "b" {
		first, second = second, first
	}
	for round := 0; round < 6; round++ {
		first.create(t, fmt.Sprintf("of-first-%d", round))
		over := make(chan struct{})
		listings := make(chan []listing, 1)
		go func() { listings <- first.listUntil(over) }()
		time.Sleep(100 * time.Millisecond)
		takeLock(t, client, round%2 == 1)
		id := second.create(t, fmt.Sprintf("of-second-%d", round))
		created := time.Now()
		time.Sleep(time.Second)
		close(over)
		all := <-listings
		for _, listed := range all {
			if listed.sent.After(created) && !strings.Contains(listed.body, id) {
				t.Errorf("round %d: a list that was asked for %v after %s was created is without it", round,
					listed.sent.Sub(created), id)
			}
		}
		if len(all) == 0 || all[0].sent.After(created) {
			t.Errorf("round %d: no list before the lock was taken", round)
		}
		first, second = second, first
	}
}

// listing is the reply to a ListVolumes, and the time of its request.
type listing struct {
	sent time.Time
	body string
}

// listUntil requests all volumes again and again until over is closed. It returns the replies with
// OK.
func (s *stack) listUntil(over <-chan struct{}) (all []listing) {
	for {
		l, err := dial(s.path("csid.sock"))
		for err == nil {
			sent := time.Now()
			reply, callErr := l.call("/csi.v1.Controller/ListVolumes", nil)
			if err = callErr; err == nil && reply.Code == codes.OK {
				all = append(all, listing{sent, string(reply.Body)})
			}
			select {
			case <-over:
				l.Close()
				return all
			default:
			}
		}
		if l != nil {
			l.Close()
		}
		time.Sleep(time.Millisecond)
		select {
		case <-over:
			return all
		default:
		}
	}
}

// create creates a volume as soon as csid serves, and returns its id.
func (s *stack) create(t *testing.T, volumeName string) (id string) {
	t.Helper()
	processes.Eventually(t, volumeName+" by "+s.name, func() bool {
		l, err := dial(s.path("csid.sock"))
		if err != nil {
			return false
		}
		defer l.Close()
		reply, err := l.call("/csi.v1.Controller/CreateVolume", text(text(nil, 1, volumeName), 3, block[2:]))
		id = volumeID.FindString(string(reply.Body))
		return err == nil && reply.Code == codes.OK && id != ""
	})
	return id
}
