package tests

import (
	"context"
	"fmt"
	"io"
	"net/http"
	"os"
	"path/filepath"
	"strings"
	"testing"
	"time"

	"go.etcd.io/etcd/clientv3"
	"google.golang.org/grpc/codes"

	"../../front/tests/processes"
	"./clusters"
)

// A program that loses its connection to etcd gives no reply, stops leading when its lease ends,
// and leads again once etcd answers.
func TestCutOff(t *testing.T) {
	t.Parallel()
	cluster := clusters.Start(t, 1)
	relay := newProxy(t, cluster.Members[0].Address)
	p := start(t, relay.address(), "--lease", "3", "--timeout", "1s").waitLeading(t)
	d := newDriver(t, p)
	end := d.begin()
	time.Sleep(500 * time.Millisecond)
	for i := 0; i < 3; i++ {
		before := len(p.Log.String())
		relay.pause()
		begin := time.Now()
		processes.Eventually(t, "that it leads no more",
			func() bool { return strings.Contains(p.Log.String()[before:], "leads no more: its lease is over") })
		if took := time.Since(begin); took > 3500*time.Millisecond {
			t.Errorf("the program led for %v, want 3.5 s or less", took)
		}
		l, err := dial(p.Socket)
		if err != nil {
			t.Fatal(err)
		}
		begin = time.Now()
		reply, err := l.call(readPath, nil)
		if took := time.Since(begin); err == nil &&
			(reply.Code != codes.FailedPrecondition || !strings.HasPrefix(reply.Text, "waiting for the lock") ||
				took > 500*time.Millisecond) {
			t.Errorf("got %d %q after %v, want a refusal at once", reply.Code, reply.Text, took)
		}
		l.Close()
		if i == 1 {
			relay.cut()
		}
		relay.resume()
		p.waitLeadingSince(t, before)
		time.Sleep(500 * time.Millisecond)
	}
	end()
	t.Log(d)
	wantRows(t, d, p)
}

// startWithASlowConnection starts etcd, and a program over two connections to it, and adds the
// volume 1. The proxy can slow one of the two connections down.
func startWithASlowConnection(t *testing.T) (*clusters.Cluster, program, *storeConn, *proxy) {
	t.Helper()
	cluster := clusters.Start(t, 1)
	slow, fast := newProxy(t, cluster.Members[0].Address), newProxy(t, cluster.Members[0].Address)
	p := start(t, slow.address()+","+fast.address(), "--lease", "10", "--timeout", "1500ms").waitLeading(t)
	l := p.dial(t)
	l.wantReply(t, makePath, "", codes.OK, "")
	l.mustCommit(t, addVolume(1, "a"))
	return cluster, p, l, slow
}

// A change with an unknown outcome is never made after the next reading, even if etcd receives the
// change only then. For this, one of two connections to etcd is slow.
func TestLateChange(t *testing.T) {
	t.Parallel()
	for i := 0; i < 2; i++ {
		cluster, p, l, slow := startWithASlowConnection(t)
		lateChange(t, cluster, p, l, slow)
	}
}

// Lead is answered OK only if an earlier change with an unknown outcome was made or will never be,
// even if etcd receives the change only then.
func TestLeadAfterALateChange(t *testing.T) {
	t.Parallel()
	cluster, p, l, slow := startWithASlowConnection(t)
	openChange(t, l, slow)
	processes.Eventually(t, "a Lead that is answered OK", func() bool {
		reply, err := p.dial(t).call(leadPath, nil)
		return err == nil && reply.Code == codes.OK
	})
	list := func() string { return cluster.Ctl(t, "get", "--prefix", "--keys-only", name+"/attachments/") }
	made, before := list(), transactions(t, cluster)
	slow.set(func() { slow.isPaused = false })
	processes.Eventually(t, "the late change", func() bool { return transactions(t, cluster) > before })
	time.Sleep(50 * time.Millisecond)
	if later := list(); later != made {
		t.Errorf("got the attachments %q after Lead, and %q before the late change", later, made)
	}
}

// If the members are of two clusters, no row of one cluster is read under the lock in the other
// one, and the log says why.
func TestMembersOfTwoClusters(t *testing.T) {
	t.Parallel()
	ours, other := clusters.Start(t, 1), clusters.Start(t, 1)
	first := start(t, ours.Endpoints()).waitLeading(t)
	l := first.dial(t)
	l.wantReply(t, makePath, "", codes.OK, "")
	l.mustCommit(t, addVolume(1, "a"))
	wantEnd(t, first)
	// The other cluster must not look like an older snapshot of this one.
	for client := other.Client(t); revision(t, client) <= revision(t, ours.Client(t)); {
		put(t, client, "other", "x")
	}
	endpoints := []string{other.Endpoints()}
	for i := 0; i < 5; i++ {
		endpoints = append(endpoints, newProxy(t, ours.Members[0].Address).address())
	}
	p := start(t, strings.Join(endpoints, ","), "--timeout", "1s")
	for end := time.Now().Add(10 * time.Second); time.Now().Before(end); time.Sleep(10 * time.Millisecond) {
		l, err := dial(p.Socket)
		if err != nil {
			t.Fatal(err)
		}
		if read, _, err := l.readAll(); err == nil && len(read) != 2 {
			t.Fatalf("got the rows %q, want meta and a volume", read)
		}
		l.Close()
	}
	p.waitLog(t, "the members are of two clusters: ")
}

// lateChange lets a change reach etcd only after the next reading of all rows, and checks that a
// later reading finds the same rows.
func lateChange(t *testing.T, cluster *clusters.Cluster, p program, l *storeConn, slow *proxy) {
	t.Helper()
	openChange(t, l, slow)
	begin := time.Now()
	read := p.readRows(t)
	took := time.Since(begin)
	before := transactions(t, cluster)
	slow.set(func() { slow.isPaused = false })
	processes.Eventually(t, "the late change", func() bool { return transactions(t, cluster) > before })
	time.Sleep(50 * time.Millisecond)
	again := p.readRows(t)
	if again.String() != read.String() {
		t.Errorf("got the new rows\n%s\nwant\n%s", difference(again, read), difference(read, again))
	}
	t.Logf("the rows were read within %v, and the change came to etcd after that: it was not made",
		took.Round(time.Millisecond))
}

// openChange makes changes until the outcome of one is unknown, since it waits in a slow
// connection.
func openChange(t *testing.T, l *storeConn, slow *proxy) {
	t.Helper()
	// Calls use both connections in turn. A call over the slow one waits there, and the proxy drops
	// what follows it: so etcd does not learn that the call was canceled.
	slow.pause()
	for n, isOpen := 0, false; !isOpen; n++ {
		deaf := time.AfterFunc(500*time.Millisecond, func() { slow.set(func() { slow.dropsClient = true }) })
		reply, err := l.call(commitPath, attach(1, fmt.Sprintf("n%d", n), false))
		isOpen = err != nil
		if !isOpen && !deaf.Stop() {
			t.Fatalf("got the late reply %v", reply)
		}
	}
}

// readRows reads all rows, and tries again until it succeeds.
func (p program) readRows(t *testing.T) (read rows) {
	t.Helper()
	processes.Eventually(t, "all rows", func() bool {
		l := p.dial(t)
		defer l.Close()
		var err error
		read, _, err = l.readAll()
		return err == nil
	})
	return read
}

// transactions returns the number of transactions that the first member has answered.
func transactions(t *testing.T, cluster *clusters.Cluster) (count int) {
	t.Helper()
	answer, err := http.Get("http://" + cluster.Members[0].Address + "/metrics")
	if err != nil {
		t.Fatal(err)
	}
	defer answer.Body.Close()
	text, err := io.ReadAll(answer.Body)
	if err != nil {
		t.Fatal(err)
	}
	for _, line := range strings.Split(string(text), "\n") {
		var one int
		if strings.HasPrefix(line, "grpc_server_handled_total") && strings.Contains(line, `grpc_method="Txn"`) {
			fmt.Sscan(line[strings.LastIndex(line, " "):], &one)
			count += one
		}
	}
	return count
}

// revision returns the newest revision of etcd.
func revision(t *testing.T, client *clientv3.Client) int64 {
	t.Helper()
	read, err := client.Get(context.Background(), name)
	if err != nil {
		t.Fatal(err)
	}
	return read.Header.Revision
}

// noSpace is the reply to a change for which etcd has no space.
const noSpace = "etcdserver: mvcc: database space exceeded"

// filling adds volumes to an etcd with a small quota.
type filling struct {
	p    program
	l    *storeConn
	next uint64
	// The rows that must be there after the replies so far.
	known rows
	// The number of changes that etcd made although it answered that it has no space.
	made int
}

// add adds a volume, and reports whether it was refused for want of space. If there is no reply,
// etcd must have made the change, and `made` counts it.
func (f *filling) add(t *testing.T) (isFull bool) {
	t.Helper()
	params := "\x22\x84\x08" + strings.Repeat("x", 1028)
	reply, err := f.l.call(commitPath, addVolumeWith(f.next, fmt.Sprintf("a%d", f.next), 1<<20, "p", "", params))
	if err != nil {
		// etcd made the change, but answered that it has no space. Then there is no reply.
		f.l = f.p.dial(t)
		read, _, err := f.l.readAll()
		if err != nil || read["meta"] != fmt.Sprintf("2 %d", f.next+1) {
			t.Fatalf("volume %d: got meta %q, error %v: %s", f.next, read["meta"], err, f.p.Log)
		}
		reply.Code = codes.OK
		f.made++
	}
	if reply.Code == codes.ResourceExhausted && reply.Text == noSpace {
		return true
	}
	if reply.Code != codes.OK {
		t.Fatalf("volume %d: got %d %q, want OK or %q", f.next, reply.Code, reply.Text, noSpace)
	}
	f.known[fmt.Sprintf("1 %020d", f.next)] = fmt.Sprintf("a%d %d p  %x", f.next, 1<<20, params)
	f.next++
	f.known["meta"] = fmt.Sprintf("2 %d", f.next)
	return false
}

// wantKnown checks that the rows are the known ones.
func (f *filling) wantKnown(t *testing.T) {
	t.Helper()
	if read, _, err := f.l.readAll(); err != nil || read.String() != f.known.String() {
		t.Errorf("got error %v, the unknown rows %s, want %s", err, difference(read, f.known),
			difference(f.known, read))
	}
}

// removeEven detaches and removes the known volumes with even numbers.
func (f *filling) removeEven(t *testing.T) {
	t.Helper()
	for number := uint64(2); number < f.next; number += 2 {
		key := fmt.Sprintf("1 %020d", number)
		if _, ok := f.known[key]; ok {
			f.l.mustCommit(t, detachAll(number))
			f.l.mustCommit(t, removeVolume(number))
			delete(f.known, key)
		}
	}
}

// A full etcd refuses the changes that need space, and makes others. After compaction,
// defragmentation and the end of the alarm it makes all.
func TestFull(t *testing.T) {
	t.Parallel()
	cluster := clusters.Start(t, 3, "--quota-backend-bytes", "1000000")
	p := start(t, cluster.Endpoints(), append(shortLease, "--id", "first")...).waitLeading(t)
	second := start(t, cluster.Endpoints(), shortLease...)
	second.waitLog(t, "waits for the lock, which first holds")
	client := cluster.Client(t)
	f := &filling{p: p, l: p.dial(t), next: 1, known: rows{"meta": "2 1"}}
	f.l.wantReply(t, makePath, "", codes.OK, "")
	for round := 0; round < 2; round++ {
		for !f.add(t) {
		}
		t.Logf("full after %d volumes; etcd made %d changes after the answer that it has no space", f.next-1, f.made)
		f.l.wantRefused(t, attach(1, "n", false), codes.ResourceExhausted, noSpace)
		if round == 0 {
			// A program that already waits can take over, but a new one cannot.
			third := start(t, cluster.Endpoints(), shortLease...)
			third.waitLog(t, "no lock: "+noSpace)
			f.p.Kill()
			f.p = second.waitLeading(t)
			f.l = f.p.dial(t)
		}
		f.wantKnown(t)
		f.removeEven(t)
		cluster.Ctl(t, "compact", fmt.Sprint(revision(t, client)))
		cluster.Ctl(t, "defrag")
		cluster.Ctl(t, "alarm", "disarm")
	}
	f.l.mustCommit(t, attach(1, "n", false))
	f.known["2 00000000000000000001 n"] = fmt.Sprintf("%x 0", block)
	f.wantKnown(t)
}

// A walk whose revision is compacted is refused for that reason, and the next walk succeeds. The
// page after the first may have been read ahead.
func TestCompacted(t *testing.T) {
	t.Parallel()
	cluster := clusters.Start(t, 1)
	client := cluster.Client(t)
	fill(t, client, 70000)
	p := start(t, cluster.Endpoints()).waitLeading(t)
	l := p.dial(t)
	reply, err := l.call(readPath, nil)
	if err != nil || reply.Code != codes.OK {
		t.Fatalf("%v, %v", reply.Code, err)
	}
	message := tokenOf(t, reply.Body)
	cluster.Ctl(t, "put", name+"/volumes/00000000000000070000",
		`{"name":"late","bytes":1,"pool":"p","caps":"","params":""}`)
	cluster.Ctl(t, "compact", fmt.Sprint(revision(t, client)))
	if reply, err = l.call(readPath, fromHex(t, message)); err == nil && reply.Code == codes.OK {
		reply, err = l.call(readPath, fromHex(t, tokenOf(t, reply.Body)))
	}
	if err != nil || reply.Code != codes.FailedPrecondition ||
		reply.Text != "etcd compacted the revision of this walk over the rows: start again" {
		t.Errorf("got %v %q, error %v, want a compacted revision", reply.Code, reply.Text, err)
	}
	read, pages, err := l.readAll()
	if err != nil || len(read) != 105001 || !strings.HasPrefix(read["1 00000000000000070000"], "late ") {
		t.Errorf("got %d rows in %d pages, error %v, want 105001", len(read), pages, err)
	}
}

// tokenOf returns the message, in hexadecimal, that requests the page after this one.
func tokenOf(t *testing.T, page []byte) string {
	t.Helper()
	parts := fields(page)
	token := parts[len(parts)-1].bytes
	if len(token) == 0 {
		t.Fatal("it is the last page")
	}
	return fmt.Sprintf("0a%02x%x", len(token), token)
}

// restored is an etcd that is restored from a snapshot older than some answers.
type restored struct {
	cluster *clusters.Cluster
	client  *clientv3.Client
	// The file of --revision, and the snapshot.
	file, snapshot string
	// The revision of the last answer before the restoration.
	answered int64
}

// start starts a csid-etcd with --revision and further arguments.
func (r *restored) start(t *testing.T, args ...string) program {
	t.Helper()
	args = append([]string{"--lease", "3", "--timeout", "1s", "--revision", r.file}, args...)
	return start(t, r.cluster.Endpoints(), args...)
}

func (r *restored) restore(t *testing.T) {
	t.Helper()
	member := r.cluster.Members[0]
	member.Kill()
	member.Restore(t, r.snapshot)
	member.Start(t)
}

// raise raises the revision of etcd above the revision of the last answer.
func (r *restored) raise(t *testing.T) {
	t.Helper()
	for revision(t, r.client) < r.answered+10 {
		r.cluster.Ctl(t, "put", "other", "x")
	}
}

// wantFile waits until the file of --revision has this revision.
func (r *restored) wantFile(t *testing.T, want int64) {
	t.Helper()
	processes.Eventually(t, "the file of the revision", func() bool {
		text, err := os.ReadFile(r.file)
		return err == nil && string(text) == fmt.Sprintf("%d\n", want)
	})
}

// wantRefusal waits until the program reports the older snapshot, and checks that calls are refused
// for this reason.
func (r *restored) wantRefusal(t *testing.T, p program) {
	t.Helper()
	want := fmt.Sprintf("%d was answered: it was restored from an older snapshot, and volumes may be missing; "+
		"--accept-older goes on", r.answered)
	p.waitLog(t, want)
	processes.Eventually(t, "the refusal", func() bool {
		l := p.dial(t)
		defer l.Close()
		reply, err := l.call(readPath, nil)
		return err == nil && reply.Code == codes.FailedPrecondition &&
			strings.HasPrefix(reply.Text, "etcd is at revision ") && strings.HasSuffix(reply.Text, want)
	})
}

// wantEnd ends a program with SIGTERM, and checks that its exit status is 0.
func wantEnd(t *testing.T, p program) {
	t.Helper()
	p.Terminate(t)
	if status := p.Status(t); status != 0 {
		t.Errorf("got status %d, want 0", status)
	}
}

// An etcd that was restored from a snapshot older than an answer is refused until --accept-older is
// set. The program that gave the answer refuses it, and so does a program that has the revision
// from the file.
func TestOlderSnapshot(t *testing.T) {
	t.Parallel()
	cluster, folder := clusters.Start(t, 1), processes.Folder(t)
	r := &restored{cluster: cluster, file: filepath.Join(folder, "revision"),
		snapshot: filepath.Join(folder, "snapshot")}
	p := r.start(t).waitLeading(t)
	l := p.dial(t)
	l.wantReply(t, makePath, "", codes.OK, "")
	l.mustCommit(t, addVolume(1, "a"))
	cluster.Ctl(t, "snapshot", "save", r.snapshot)
	l.mustCommit(t, addVolume(2, "b"))
	for i := 0; i < 20; i++ {
		l.mustCommit(t, attach(2, fmt.Sprintf("n%d", i), false))
	}
	r.answered = revision(t, cluster.Client(t))
	time.Sleep(1200 * time.Millisecond)
	r.wantFile(t, r.answered)
	r.restore(t)
	r.wantRefusal(t, p)
	// The refusal stays after others have raised the revision, and over a stop.
	r.client = cluster.Client(t)
	r.raise(t)
	r.wantRefusal(t, p)
	wantEnd(t, p)
	again := r.start(t)
	r.wantRefusal(t, again)
	wantEnd(t, again)
	r.refusedWhileWaiting(t)
	r.accepted(t)
}

// refusedWhileWaiting checks the refusal by a program that waits for the lock when it first asks
// etcd. When its turn comes, the revision has risen above the answers.
func (r *restored) refusedWhileWaiting(t *testing.T) {
	t.Helper()
	if err := os.WriteFile(r.file, []byte(fmt.Sprintf("%d\n", r.answered)), 0o600); err != nil {
		t.Fatal(err)
	}
	r.restore(t)
	r.cluster.WaitReady(t)
	r.cluster.Ctl(t, "put", name+"/lock/other", "other")
	second := r.start(t)
	second.waitLog(t, "waits for the lock, which other holds")
	r.raise(t)
	r.cluster.Ctl(t, "del", name+"/lock/other")
	r.wantRefusal(t, second)
	second.Kill()
}

// accepted checks that a program with --accept-older leads, and that later programs lead without
// it.
func (r *restored) accepted(t *testing.T) {
	t.Helper()
	third := r.start(t, "--accept-older").waitLeading(t)
	l := third.dial(t)
	l.wantReply(t, readPath, "", codes.OK,
		"0a04 0802 1002 121a 0801 1201 61 18808040 2203 737364 2a08 1a060a001a020801 3200 2200")
	l.mustCommit(t, addVolume(2, "c"))
	r.wantFile(t, revision(t, r.cluster.Client(t)))
	third.Terminate(t)
	third.Status(t)
	r.start(t).waitLeading(t)
}
