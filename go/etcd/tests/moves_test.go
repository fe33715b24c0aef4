package tests

import (
	"context"
	"fmt"
	"os"
	"os/exec"
	"path/filepath"
	"strings"
	"testing"

	"go.etcd.io/etcd/clientv3"
	"google.golang.org/grpc/codes"

	"../../front/tests/processes"
	"./clusters"
)

// result is the exit status and the output of a program.
type result struct {
	status         int
	stdout, stderr string
}

// runOnce runs csid-etcd with a one-shot flag, such as --import, and a text on its standard input.
func runOnce(t *testing.T, stdin, mode, endpoints string, args ...string) result {
	t.Helper()
	var stdout, stderr strings.Builder
	command := exec.Command(processes.EtcdProgram(t),
		append([]string{mode, "--name", name, "--endpoints", endpoints}, args...)...)
	command.Stdin, command.Stdout, command.Stderr = strings.NewReader(stdin), &stdout, &stderr
	command.Run()
	return result{command.ProcessState.ExitCode(), stdout.String(), stderr.String()}
}

func (got result) check(t *testing.T, what string, status int, stdout, stderr string) {
	t.Helper()
	if got != (result{status, stdout, stderr}) {
		t.Errorf("%s: got %d %.1000q %.1000q, want %d %.1000q %.1000q", what, got.status, got.stdout, got.stderr,
			status, stdout, stderr)
	}
}

const (
	blockRow    = `{"name":"a","bytes":1048576,"pool":"ssd","caps":"1a060a001a020801","params":""}`
	firstRow    = "volumes/00000000000000000001\t" + blockRow + "\n"
	nodeRow     = "attachments/00000000000000000001/n\t{\"cap\":\"1a060a001a020801\",\"readonly\":0}\n"
	metaRow     = "meta\t{\"format_no\":2,\"next_number\":2}\n"
	threeRows   = firstRow + nodeRow + metaRow
	threeCounts = "volumes 1, attachments 1, next number 2, format 2\n"
	threeSQL    = "BEGIN;\nUPDATE meta SET next_number = 2;\nINSERT INTO attachments VALUES " +
		"(1,'n',X'1a060a001a020801',0);\n" +
		"INSERT INTO volumes VALUES (1,'a',1048576,'ssd',X'1a060a001a020801',X'');\nCOMMIT;\n"
)

// manyLines returns the lines of this number of volumes, half as many attachments and meta, and the
// number of lines.
func manyLines(volumes int) (lines string, count int) {
	var all strings.Builder
	for n := 1; n <= volumes; n++ {
		fmt.Fprintf(&all, "volumes/%020d\t"+
			`{"name":"pvc-%d","bytes":1048576,"pool":"ssd","caps":"1a060a001a020801","params":""}`+"\n", n, n)
		if n%2 == 0 {
			fmt.Fprintf(&all, "attachments/%020d/node-%d\t{\"cap\":\"1a060a001a020801\",\"readonly\":0}\n", n, n%7)
		}
	}
	fmt.Fprintf(&all, "meta\t{\"format_no\":2,\"next_number\":%d}\n", volumes+1)
	return all.String(), volumes + volumes/2 + 1
}

// The first row is made once. Existing rows stay, and the rows of an unfinished import are
// reported.
func TestNew(t *testing.T) {
	t.Parallel()
	cluster := clusters.Start(t, 1)
	client := cluster.Client(t)
	put(t, client, name+".other/meta", "x")
	runOnce(t, "", "--new", cluster.Endpoints()).check(t, "no rows", 0,
		"made: volumes 0, attachments 0, next number 1, format 2\n", "")
	wantKeys(t, cluster, name+"/meta", `{"format_no":2,"next_number":1}`)
	runOnce(t, "", "--new", cluster.Endpoints()).check(t, "once more", 0, "exists: next number 1, format 2\n", "")
	p := start(t, cluster.Endpoints(), "--existing").waitLeading(t)
	p.dial(t).mustCommit(t, addVolume(1, "a"))
	runOnce(t, "", "--new", cluster.Endpoints()).check(t, "while a program leads", 0,
		"exists: next number 2, format 2\n", "")
	cluster.Ctl(t, "del", name+"/meta")
	runOnce(t, "", "--new", cluster.Endpoints()).check(t, "a volume without meta", 1, "",
		"csid-etcd: --new: rows are there, and meta is not: an import was not ended\n")
	put(t, client, name+"/meta", "{}")
	runOnce(t, "", "--new", cluster.Endpoints()).check(t, "a broken meta", 1, "",
		`csid-etcd: --new: meta: its value is not of the form {"format_no":NUMBER,"next_number":NUMBER}`+"\n")
	cluster.Ctl(t, "del", name+"/meta")
	cluster.Ctl(t, "del", name+"/volumes/00000000000000000001")
	p.dial(t).wantReply(t, makePath, "", codes.FailedPrecondition, "there are no rows, and none are made")
	wantKeys(t, cluster)
}

const errNoMeta = "meta is not there: nothing was made there yet, or an import was not ended\n"

// Imported rows are in etcd as they were on standard input, and are exported as SQL. A refused
// import writes nothing.
func TestMoves(t *testing.T) {
	t.Parallel()
	cluster := clusters.Start(t, 1)
	client := cluster.Client(t)
	// A plugin whose name starts with this one's is another plugin.
	put(t, client, name+".other/meta", "x")
	put(t, client, name, "x")
	runOnce(t, "", "--export", cluster.Endpoints()).check(t, "no rows", 1, "", "csid-etcd: --export: "+errNoMeta)
	runOnce(t, firstRow, "--import", cluster.Endpoints()).check(t, "no meta", 1, "",
		"csid-etcd: --import: the last line is not meta: it is missing, or what comes in was cut off; nothing was "+
			"written\n")
	brokenRow := firstRow + "volumes/7\t" + blockRow + "\n" + metaRow
	runOnce(t, brokenRow, "--import", cluster.Endpoints()).check(t, "a broken row", 1, "",
		"csid-etcd: --import: line 2: volumes/7: its key has no number of 20 digits; nothing was written\n")
	wantKeys(t, cluster)
	importWhileLeading(t, cluster)
	runOnce(t, threeRows, "--import", cluster.Endpoints()).check(t, "an import", 0, threeCounts, "")
	wantKeys(t, cluster,
		name+"/attachments/00000000000000000001/n", `{"cap":"1a060a001a020801","readonly":0}`,
		name+"/meta", `{"format_no":2,"next_number":2}`,
		name+"/volumes/00000000000000000001", blockRow)
	at := fmt.Sprintf("csid-etcd: at revision %d: %s", revision(t, client), threeCounts)
	runOnce(t, "", "--export", cluster.Endpoints()).check(t, "an export", 0, threeSQL, at)
	cases := []struct{ key, there string }{
		{"attachments/00000000000000000001/n", "a row"},
		{"meta", "meta"},
		{"volumes/00000000000000000001", "a volume"},
		{"x", "another key"},
	}
	for _, c := range cases {
		if c.key == "x" {
			put(t, client, name+"/x", "")
		}
		runOnce(t, threeRows, "--import", cluster.Endpoints()).check(t, c.there, 1, "",
			"csid-etcd: --import: "+c.key+": it is there already; nothing was written\n")
		cluster.Ctl(t, "del", name+"/"+c.key)
	}
	wantKeys(t, cluster)
}

// importWhileLeading checks that an import is refused while a program holds the lock or waits for
// it.
func importWhileLeading(t *testing.T, cluster *clusters.Cluster) {
	t.Helper()
	p := start(t, cluster.Endpoints(), "--id", "me").waitLeading(t)
	waiting := start(t, cluster.Endpoints(), "--id", "you")
	waiting.waitLog(t, "csid-etcd: waits for the lock, which me holds")
	for _, holder := range []struct {
		program
		id string
	}{{p, "me"}, {waiting, "you"}} {
		got := runOnce(t, threeRows, "--import", cluster.Endpoints())
		if got.status != 1 || got.stdout != "" || !strings.HasPrefix(got.stderr, "csid-etcd: --import: lock/") ||
			!strings.HasSuffix(got.stderr,
				" has the lock or waits for it, and must be stopped first; nothing was written\n") {
			t.Errorf("while %s has the lock: got %v, want a refusal", holder.id, got)
		}
		holder.Terminate(t)
		holder.Status(t)
	}
	wantKeys(t, cluster)
}

// An export commits nothing if a row is broken. It needs no lock.
func TestExport(t *testing.T) {
	t.Parallel()
	cluster := clusters.Start(t, 1)
	client := cluster.Client(t)
	runOnce(t, threeRows, "--import", cluster.Endpoints()).check(t, "an import again", 0, threeCounts, "")
	for key, reason := range map[string]string{
		"volumes/00000000000000000002": `its value is not of the form ` +
			`{"name":TEXT,"bytes":NUMBER,"pool":TEXT,"caps":HEX,"params":HEX}`,
		"attachments/00000000000000000001/o": `its value is not of the form {"cap":HEX,"readonly":0 or 1}`,
		"volumes/2":                          "its key has no number of 20 digits",
		"lock":                               "no row has such a key",
		"lock0":                              "no row has such a key",
		"more":                               "no row has such a key",
		"volumes0":                           "no row has such a key",
	} {
		t.Run(key, func(t *testing.T) {
			put(t, client, name+"/"+key, " {}")
			got := runOnce(t, "", "--export", cluster.Endpoints())
			want := "csid-etcd: --export: " + key + ": " + reason + "\n"
			if got.status != 1 || strings.Contains(got.stdout, "COMMIT") || got.stderr != want {
				t.Errorf("got %v, want status 1, no COMMIT, %s", got, want)
			}
			cluster.Ctl(t, "del", name+"/"+key)
		})
	}
	for value, reason := range map[string]string{
		"{}":                              `its value is not of the form {"format_no":NUMBER,"next_number":NUMBER}`,
		`{"format_no":3,"next_number":2}`: "its format is 3, and that of rows in etcd 2",
	} {
		t.Run("meta "+value, func(t *testing.T) {
			put(t, client, name+"/meta", value)
			runOnce(t, "", "--export", cluster.Endpoints()).check(t, value, 1, "",
				"csid-etcd: --export: meta: "+reason+"\n")
		})
	}
	put(t, client, name+"/meta", `{"format_no":2,"next_number":2}`)
	start(t, cluster.Endpoints()).waitLeading(t)
	at := fmt.Sprintf("csid-etcd: at revision %d: %s", revision(t, client), threeCounts)
	runOnce(t, "", "--export", cluster.Endpoints()).check(t, "an export while a program leads", 0, threeSQL, at)
}

// If etcd does not answer, or the output cannot be written, a line reports it.
func TestMovesWithoutEtcd(t *testing.T) {
	t.Parallel()
	unused := clusters.FreePorts(t, 1)[0]
	for _, mode := range []string{"--import", "--export"} {
		got := runOnce(t, threeRows, mode, unused, "--timeout", "500ms")
		if got.status != 1 || got.stdout != "" ||
			!strings.HasPrefix(got.stderr, "csid-etcd: "+mode+": context deadline exceeded") {
			t.Errorf("%s without etcd: got %v, want status 1 and a deadline", mode, got)
		}
		runOnce(t, threeRows, mode, unused, "--cacert", "/none").check(t, mode+" without a file", 1, "",
			"csid-etcd: "+mode+": --cacert: open /none: no such file or "+
				"directory"+map[string]string{"--import": "; nothing was written"}[mode]+"\n")
	}
	cluster := clusters.Start(t, 1)
	full, err := os.OpenFile("/dev/full", os.O_WRONLY, 0)
	if err != nil {
		t.Skipf("left out: a full disk: %v", err)
	}
	defer full.Close()
	// The second --new finds the existing row, and the export finds the rows of the import.
	for _, mode := range []string{"--new", "--new", "--import", "--export"} {
		if mode == "--import" {
			cluster.Ctl(t, "del", name+"/meta")
		}
		command := exec.Command(processes.EtcdProgram(t), mode, "--name", name, "--endpoints", cluster.Endpoints())
		var stderr strings.Builder
		command.Stdin, command.Stdout, command.Stderr = strings.NewReader(threeRows), full, &stderr
		command.Run()
		want := "csid-etcd: " + mode + ": write /dev/stdout: no space left on device\n"
		if stderr.String() != want || command.ProcessState.ExitCode() != 1 {
			t.Errorf("%s: got %d %q, want status 1 and %s", mode, command.ProcessState.ExitCode(), stderr.String(),
				want)
		}
	}
}

// startImport starts an import through a proxy, and pauses the proxy in the middle of it.
func startImport(t *testing.T, cluster *clusters.Cluster, lines string, args ...string) (*proxy, *processes.Process) {
	t.Helper()
	relay := newProxy(t, cluster.Members[0].Address)
	client := cluster.Client(t)
	command := exec.Command(processes.EtcdProgram(t),
		append([]string{"--import", "--name", name, "--endpoints", relay.address()}, args...)...)
	command.Stdin = strings.NewReader(lines)
	p := processes.Start(t, "", command)
	processes.Eventually(t, "some rows", func() bool {
		read, err := client.Get(context.Background(), name+"/", clientv3.WithPrefix(), clientv3.WithCountOnly())
		return err == nil && read.Count > 500
	})
	relay.pause()
	return relay, p
}

// wantPartialImport checks that an import ended with a line, after it had written some of its rows.
func wantPartialImport(t *testing.T, cluster *clusters.Cluster, p *processes.Process, line string, count int) {
	t.Helper()
	if status := p.Status(t); status != 1 || !strings.Contains(p.Log.String(), line) {
		t.Errorf("got %d %q, want 1 and %q", status, p.Log, line)
	}
	var written, all int
	if _, rest, isThere := strings.Cut(p.Log.String(), "; "); isThere {
		fmt.Sscanf(rest, "%d of %d rows were written", &written, &all)
	}
	if written < 64 || written >= count || all != count {
		t.Errorf("got %d of %d rows written, want 64 or more of %d: %q", written, all, count, p.Log)
	}
}

// If a csid-etcd starts in the middle of an import, the import ends. It also ends if its rows are
// removed, if one of its other keys exists, or if etcd ends. csid refuses the rows of an unfinished
// import.
func TestImportStopped(t *testing.T) {
	t.Parallel()
	lines, count := manyLines(30000)
	cluster := clusters.Start(t, 1)
	client := cluster.Client(t)

	relay, p := startImport(t, cluster, lines)
	put(t, client, name+"/lock/1", "me")
	relay.resume()
	wantPartialImport(t, cluster, p,
		"csid-etcd: --import: lock/1: me has the lock or waits for it, and must be stopped first; ", count)
	cluster.Ctl(t, "del", name+"/lock/1")
	runOnce(t, lines, "--import", cluster.Endpoints()).check(t, "a further import", 1, "",
		"csid-etcd: --import: attachments/00000000000000000002/node-2: it is there already; nothing was written\n")
	store := start(t, cluster.Endpoints()).waitLeading(t)
	l := store.dial(t)
	if read, _, err := l.readAll(); err != nil || read["meta"] != "" || len(read) < 500 {
		t.Errorf("got %d rows, meta %q, error %v, want 500 rows or more without meta", len(read), read["meta"], err)
	}
	l.wantReply(t, makePath, "", codes.FailedPrecondition, "attachments/00000000000000000002/node-2 is there already")
	folder := processes.Folder(t)
	csid := processes.Start(t, filepath.Join(folder, "csid.sock"),
		exec.Command(processes.CsidProgram(t), "serve", "--socket", filepath.Join(folder, "csid.sock"), "--log",
			store.Socket))
	processes.Eventually(t, "that csid refuses the rows", func() bool {
		return csid.Log.String() == "csid: "+store.Socket+": meta has no row with the number of a format\n"
	})
	store.Terminate(t)
	store.Status(t)
	cluster.Ctl(t, "del", "--prefix", name+"/")

	// After its rows are removed, an import writes no more of them.
	relay, p = startImport(t, cluster, lines)
	cluster.Ctl(t, "del", "--prefix", name+"/")
	relay.resume()
	wantPartialImport(t, cluster, p,
		"csid-etcd: --import: volumes/00000000000000000001: it was removed in the meantime; ", count)
	cluster.Ctl(t, "del", "--prefix", name+"/")

	// A row that is put by hand in the meantime is not overwritten.
	relay, p = startImport(t, cluster, lines)
	put(t, client, name+"/volumes/00000000000000030000", "x")
	relay.resume()
	wantPartialImport(t, cluster, p, "csid-etcd: --import: volumes/00000000000000030000: it is there already; ", count)
	cluster.Ctl(t, "del", "--prefix", name+"/")

	// etcd is killed and started again.
	relay, p = startImport(t, cluster, lines, "--timeout", "2s")
	cluster.Members[0].Kill()
	relay.resume()
	wantPartialImport(t, cluster, p, "csid-etcd: --import: it is not known whether it was made: ", count)
	cluster.Members[0].Start(t)
	cluster.WaitReady(t)
	runOnce(t, "", "--export", cluster.Endpoints()).check(t, "an export of the rest", 1, "",
		"csid-etcd: --export: "+errNoMeta)
	cluster.Ctl(t, "del", "--prefix", name+"/")
	runOnce(t, lines, "--import", cluster.Endpoints()).check(t, "an import from the start", 0,
		"volumes 30000, attachments 15000, next number 30001, format 2\n", "")
}

// Several imports with different rows run at once. One succeeds, and the others write nothing.
func TestImportsAtOnce(t *testing.T) {
	t.Parallel()
	cluster := clusters.Start(t, 1)
	lines, _ := manyLines(2000)
	for i := 0; i < 12; i++ {
		cluster.Ctl(t, "del", "--prefix", name+"/")
		var all [6]result
		processes.Together(len(all), func(caller int) {
			others := strings.NewReplacer("/0000", fmt.Sprintf("/000%d", caller)).Replace(lines)
			all[caller] = runOnce(t, others, "--import", cluster.Endpoints())
		})
		made := 0
		for _, one := range all {
			if one.status == 0 {
				made++
			} else if !strings.HasSuffix(one.stderr, "it is there already; nothing was written\n") {
				t.Errorf("got %v, want a refusal", one)
			}
		}
		read, err := cluster.Client(t).Get(context.Background(), name+"/", clientv3.WithPrefix(),
			clientv3.WithCountOnly())
		if made != 1 || err != nil || read.Count != 3001 {
			t.Errorf("got %d imports, error %v, want one with 3001 rows", made, err)
		}
	}
}

// Long rows are split over several transactions. A row that is too long for etcd is named.
func TestImportLongRows(t *testing.T) {
	t.Parallel()
	long := func(number, pairs int) string {
		return fmt.Sprintf("volumes/%020d\t"+
			`{"name":"a%d","bytes":1048576,"pool":"p","caps":"%s","params":""}`+"\n",
			number, number, strings.Repeat("1a00", pairs))
	}
	lines := ""
	for n := 1; n <= 100; n++ {
		lines += long(n, 1000*n)
	}
	cluster := clusters.Start(t, 1)
	runOnce(t, lines+"meta\t{\"format_no\":2,\"next_number\":101}\n", "--import", cluster.Endpoints()).check(t,
		"long rows", 0, "volumes 100, attachments 0, next number 101, format 2\n", "")
	if got := runOnce(t, "", "--export", cluster.Endpoints()); got.status != 0 || len(got.stdout) < 100*101*1000*2 {
		t.Errorf("got status %d, %d bytes, %s, want all rows", got.status, len(got.stdout), got.stderr)
	}
	cluster.Ctl(t, "del", "--prefix", name+"/")
	runOnce(t, firstRow+long(2, 400000)+metaRow, "--import", cluster.Endpoints()).
		check(t, "a row that is too long", 1, "",
			"csid-etcd: --import: volumes/00000000000000000002: etcdserver: request is too large; 1 of 3 rows were "+
				"written: remove them, and start again ("+cluster.Endpoints()+")\n")
}
