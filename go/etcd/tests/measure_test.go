package tests

import (
	"context"
	"fmt"
	"os"
	"os/exec"
	"sort"
	"strconv"
	"strings"
	"testing"
	"time"

	"go.etcd.io/etcd/clientv3"
	"google.golang.org/grpc/codes"

	"../../front/tests/processes"
	"./clusters"
)

// measureCount returns the number of changes to measure, which go/etcd/bench sets in MEASURE.
// Without it, the test is skipped.
func measureCount(t *testing.T) int {
	t.Helper()
	count, err := strconv.Atoi(os.Getenv("MEASURE"))
	if err != nil {
		t.Skip("go/etcd/bench measures")
	}
	return count
}

// times holds the durations of calls.
type times []time.Duration

func (all *times) measure(call func()) {
	begin := time.Now()
	call()
	*all = append(*all, time.Since(begin))
}

func (all times) mean() time.Duration {
	var sum time.Duration
	for _, one := range all {
		sum += one
	}
	return sum / time.Duration(len(all))
}

func (all times) at(part float64) time.Duration {
	sorted := append(times{}, all...)
	sort.Slice(sorted, func(i, j int) bool { return sorted[i] < sorted[j] })
	return sorted[int(part*float64(len(sorted)-1))]
}

func (all times) String() string {
	return fmt.Sprintf("%v in the middle, %v in the mean, %v for 99 of 100", all.at(0.5).Round(time.Microsecond),
		all.mean().Round(time.Microsecond), all.at(0.99).Round(time.Microsecond))
}

// measurePairs measures calls of add, which adds a volume, and the same transactions made directly
// in etcd. They alternate, so that both meet the same disk. The first 50 pairs are not measured.
func measurePairs(t *testing.T, count int, client *clientv3.Client, add func(number uint64, volumeName string)) (adds,
	bare times) {
	t.Helper()
	const prefix = "example.measured"
	put(t, client, prefix+"/lock/1", "x")
	put(t, client, prefix+"/meta", `{"format_no":2,"next_number":1}`)
	read, err := client.Get(context.Background(), prefix+"/lock/1")
	if err != nil {
		t.Fatal(err)
	}
	lock := read.Kvs[0].ModRevision
	for n := uint64(1); n <= uint64(count)+50; n++ {
		volumeName := fmt.Sprintf("pvc-%d", n)
		with := func() { add(n, volumeName) }
		alone := func() { bareAdd(t, client, prefix, lock, n, volumeName) }
		if n <= 50 {
			with()
			alone()
		} else if n%2 == 0 {
			adds.measure(with)
			bare.measure(alone)
		} else {
			bare.measure(alone)
			adds.measure(with)
		}
	}
	return adds, bare
}

// ratios returns the median and the mean of these, divided by the median and the mean of others, as
// text.
func ratios(these, others times) string {
	return fmt.Sprintf("%.3f times in the middle, %.3f in the mean", float64(these.at(0.5))/float64(others.at(0.5)),
		float64(these.mean())/float64(others.mean()))
}

// The test measures the time of a change through csid-etcd, and of the same transaction made
// directly in etcd.
func TestMeasureChanges(t *testing.T) {
	count := measureCount(t)
	for _, members := range []int{1, 3} {
		cluster := clusters.Start(t, members)
		p := start(t, cluster.Endpoints()).waitLeading(t)
		l := p.dial(t)
		l.wantReply(t, makePath, "", codes.OK, "")
		through, without := measurePairs(t, count, cluster.Client(t),
			func(number uint64, volumeName string) { l.mustCommit(t, addVolume(number, volumeName)) })
		t.Logf("%d members, %d changes through csid-etcd: %v", members, count, through)
		t.Logf("%d members, %d bare transactions: %v", members, count, without)
		t.Logf("%d members: %s", members, ratios(through, without))
		before := size(t, cluster)
		for n := uint64(count) + 51; n <= uint64(count)+1050; n++ {
			l.mustCommit(t, addVolume(n, fmt.Sprintf("pvc-%d", n)))
		}
		t.Logf("%d members: a change takes %d bytes of the file", members, (size(t, cluster)-before)/1000)
	}
}

// startCsid starts a csid over the program. Its pool and nodes have room for all measurements.
func (p program) startCsid(t *testing.T) *processes.Process {
	t.Helper()
	folder := processes.Folder(t)
	config := "name = \"example.fomaheti\"\nvendor_version = \"1.0.0\"\ndefault_bytes = 1048576\ngreatest_bytes = " +
		"1048576\n\n[[pool]]\nname = \"ssd\"\nbytes = 1125899906842624\n"
	for i := 0; i < 7; i++ {
		config += fmt.Sprintf("\n[[node]]\nid = \"node-%d\"\nmax_volumes = 100000\n", i)
	}
	if err := os.WriteFile(folder+"/config.toml", []byte(config), 0o600); err != nil {
		t.Fatal(err)
	}
	socket := folder + "/csid.sock"
	return processes.Start(t, socket, exec.Command(processes.CsidProgram(t), "serve", "--socket", socket, "--log",
		p.Socket, "--config", folder+"/config.toml"))
}

// dialProbed connects to a csid and makes a first call. csid reads all rows before it answers.
func dialProbed(t *testing.T, csid *processes.Process) *storeConn {
	t.Helper()
	l, err := dial(csid.Answers(t).Socket)
	if err != nil {
		t.Fatal(err)
	}
	t.Cleanup(func() { l.Close() })
	l.wantReply(t, "/csi.v1.Identity/Probe", "", codes.OK, "0a020801")
	return l
}

// The test measures the time of a CreateVolume of csid over csid-etcd, and of the same transaction
// made directly in etcd.
func TestMeasureCreates(t *testing.T) {
	count := measureCount(t)
	for _, members := range []int{1, 3} {
		cluster := clusters.Start(t, members)
		l := dialProbed(t, start(t, cluster.Endpoints()).waitLeading(t).startCsid(t))
		created, without := measurePairs(t, count, cluster.Client(t), func(_ uint64, volumeName string) {
			message := append(text(nil, 1, volumeName), fromHex(t, "1a060a001a020801")...)
			if reply, err := l.call("/csi.v1.Controller/CreateVolume", message); err != nil || reply.Code != codes.OK {
				t.Fatalf("%v, %v", reply.Text, err)
			}
		})
		t.Logf("%d members, %d creates of csid: %v", members, count, created)
		t.Logf("%d members, %d bare transactions: %v", members, count, without)
		t.Logf("%d members: %s", members, ratios(created, without))
	}
}

// The test measures the time until csid answers its first call over 100,000 volumes and 50,000
// attachments.
func TestMeasureTakeOvers(t *testing.T) {
	measureCount(t)
	cluster := clusters.Start(t, 1)
	fill(t, cluster.Client(t), 100000)
	p := start(t, cluster.Endpoints()).waitLeading(t)
	var all times
	memory := 0
	for i := 0; i < 5; i++ {
		all.measure(func() {
			csid := p.startCsid(t)
			dialProbed(t, csid)
			memory = csid.ResidentBytes(t)
		})
	}
	t.Logf("csid over 100000 volumes and 50000 attachments: the first answer after %v in the middle of 5, %d MiB "+
		"in memory", all.at(0.5).Round(time.Millisecond), memory>>20)
}

// size returns the bytes that a member uses of its file.
func size(t *testing.T, cluster *clusters.Cluster) int64 {
	t.Helper()
	status, err := cluster.Client(t).Status(context.Background(), cluster.Members[0].Address)
	if err != nil {
		t.Fatal(err)
	}
	return status.DbSizeInUse
}

func put(t *testing.T, client *clientv3.Client, key, value string) {
	t.Helper()
	if _, err := client.Put(context.Background(), key, value); err != nil {
		t.Fatal(err)
	}
}

// bareAdd adds a volume by its transaction, without csid-etcd.
func bareAdd(t *testing.T, client *clientv3.Client, prefix string, lock int64, number uint64, volumeName string) {
	t.Helper()
	key := fmt.Sprintf("%s/volumes/%020d", prefix, number)
	before, after := fmt.Sprintf(`{"format_no":2,"next_number":%d}`, number),
		fmt.Sprintf(`{"format_no":2,"next_number":%d}`, number+1)
	value := fmt.Sprintf(`{"name":"%s","bytes":1048576,"pool":"ssd","caps":"1a060a001a020801","params":""}`, volumeName)
	done, err := client.Txn(context.Background()).If(
		clientv3.Compare(clientv3.ModRevision(prefix+"/lock/1"), "=", lock),
		clientv3.Compare(clientv3.CreateRevision(key), "=", 0),
		clientv3.Compare(clientv3.Value(prefix+"/meta"), "=", before),
	).Then(clientv3.OpPut(key, value), clientv3.OpPut(prefix+"/meta", after)).Commit()
	if err != nil || !done.Succeeded {
		t.Fatalf("%v, %v", done, err)
	}
}

// drain reads all pages and decodes only their tokens.
func (l *storeConn) drain(t *testing.T) (pages int) {
	t.Helper()
	for token := []byte(nil); ; {
		reply, err := l.call(readPath, text(nil, 1, string(token)))
		if err != nil || reply.Code != codes.OK {
			t.Fatalf("%v, %v", reply.Text, err)
		}
		pages++
		parts := fields(reply.Body)
		if token = parts[len(parts)-1].bytes; len(token) == 0 {
			return pages
		}
	}
}

// The test measures the time of reading all rows, for several numbers of rows.
func TestMeasureReadings(t *testing.T) {
	measureCount(t)
	for _, volumes := range []int{1000, 10000, 100000} {
		cluster := clusters.Start(t, 1)
		fill(t, cluster.Client(t), volumes)
		l := start(t, cluster.Endpoints()).waitLeading(t).dial(t)
		var all times
		pages := 0
		for i := 0; i < 5; i++ {
			all.measure(func() {
				pages = l.drain(t)
			})
		}
		t.Logf("%d volumes and %d attachments in %d pages: %v in the middle of 5", volumes, volumes/2, pages,
			all.at(0.5).Round(time.Millisecond))
		cluster.Ctl(t, "compact", fmt.Sprint(revision(t, cluster.Client(t))))
		cluster.Ctl(t, "defrag")
		status, err := cluster.Client(t).Status(context.Background(), cluster.Members[0].Address)
		if err != nil {
			t.Fatal(err)
		}
		t.Logf("%d volumes: etcd has %d KiB in its file after a defragmentation, and %d MiB in memory", volumes,
			status.DbSize>>10, cluster.Members[0].Current.ResidentBytes(t)>>20)
	}
}

// The test measures the time of importing and of exporting 100,000 volumes and 50,000 attachments.
func TestMeasureMoves(t *testing.T) {
	measureCount(t)
	lines, count := manyLines(100000)
	cluster := clusters.Start(t, 1)
	begin := time.Now()
	runOnce(t, lines, "--import", cluster.Endpoints()).check(t, "an import", 0,
		"volumes 100000, attachments 50000, next number 100001, format 2\n", "")
	imported := time.Since(begin)
	begin = time.Now()
	got := runOnce(t, "", "--export", cluster.Endpoints())
	exported := time.Since(begin)
	if got.status != 0 || strings.Count(got.stdout, "\nINSERT") != count-1 {
		t.Errorf("%d %s", got.status, got.stderr)
	}
	t.Logf("100000 volumes and 50000 attachments: an import takes %v, an export %v",
		imported.Round(10*time.Millisecond), exported.Round(10*time.Millisecond))
}

// Before csid answers a call that only reads, it asks csid-etcd if it leads. The test compares the
// time of this question with the time of reading a key in etcd.
func TestMeasureQuestions(t *testing.T) {
	count := measureCount(t)
	for _, members := range []int{1, 3} {
		cluster := clusters.Start(t, members)
		client := cluster.Client(t)
		l := start(t, cluster.Endpoints()).waitLeading(t).dial(t)
		var through, without times
		for n := 0; n < count; n++ {
			through.measure(func() { l.wantReply(t, leadPath, "", codes.OK, "") })
			without.measure(func() { revision(t, client) })
		}
		t.Logf("%d members, %d questions whether csid-etcd leads: %v", members, count, through)
		t.Logf("%d members, %d bare readings of a key: %v", members, count, without)
		t.Logf("%d members: %s", members, ratios(through, without))
	}
}
