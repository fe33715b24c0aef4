package tests

import (
	"encoding/json"
	"fmt"
	"os/exec"
	"path/filepath"
	"reflect"
	"strings"
	"testing"
	"time"

	"../../front/tests/processes"
	"./clusters"
)

const listedThree = `ID     NAME  POOL  SIZE   CAPABILITIES              PARAMETERS  MUTABLE  NODES
vol-1  a     ssd   1 MiB  block:SINGLE_NODE_WRITER  -           -        n

POOL  VOLUMES  SIZE
ssd   1        1 MiB

NODE  VOLUMES  SIZE
n     1        1 MiB
`

const listedNone = "ID  NAME  POOL  SIZE  CAPABILITIES  PARAMETERS  MUTABLE  NODES\n\nPOOL  VOLUMES  SIZE\n\nNODE  " +
	"VOLUMES  SIZE\n"

// The option --list shows the volumes in etcd: all of them, or the volumes with an id or a name, of
// a pool or at a node. Broken rows are refused.
func TestList(t *testing.T) {
	t.Parallel()
	cluster := clusters.Start(t, 1)
	client := cluster.Client(t)
	runOnce(t, "", "--list", cluster.Endpoints()).check(t, "no rows", 1, "", "csid-etcd: --list: "+errNoMeta)
	runOnce(t, threeRows, "--import", cluster.Endpoints()).check(t, "an import", 0, threeCounts, "")
	for _, c := range []struct{ args, want string }{
		{"", listedThree},
		{"--volume a", listedThree},
		{"--volume b", listedNone},
		{"--id vol-1", listedThree},
		{"--id vol-2", listedNone},
		{"--id 1", listedNone},
		{"--pool ssd", listedThree},
		{"--pool s", listedNone},
		{"--node n", listedThree},
		{"--node n --pool hdd", listedNone},
	} {
		t.Run(strings.TrimSpace("--list "+c.args), func(t *testing.T) {
			got := runOnce(t, "", "--list", cluster.Endpoints(), strings.Fields(c.args)...)
			got.check(t, c.args, 0, c.want, "")
		})
	}
	for _, c := range []struct{ volume, want string }{{"a", listedThree}, {name, listedNone}} {
		out, err := exec.Command(processes.EtcdProgram(t), "--list", "--plugin", name, "--name", c.volume,
			"--endpoints", cluster.Endpoints()).Output()
		if err != nil || string(out) != c.want {
			t.Errorf("--plugin and --name %s: got %s, error %v", c.volume, out, err)
		}
	}
	put(t, client, name+"/volumes/00000000000000000001", strings.Replace(blockRow, "1a060a001a020801", "1a", 1))
	runOnce(t, "", "--list", cluster.Endpoints()).check(t, "capabilities that are none", 1, "",
		"csid-etcd: --list: volumes/00000000000000000001: its caps or params are not those of a volume\n")
	put(t, client, name+"/volumes/00000000000000000001", "{}")
	got := runOnce(t, "", "--list", cluster.Endpoints())
	if got.status != 1 || got.stdout != "" ||
		!strings.HasPrefix(got.stderr,
			"csid-etcd: --list: volumes/00000000000000000001: its value is not of the form ") {
		t.Errorf("a broken row: got %v, want its key and form", got)
	}
}

// A reader that goes away ends a listing without a line, with status 0. An export that is cut off
// fails.
func TestReaderThatGoes(t *testing.T) {
	t.Parallel()
	cluster := clusters.Start(t, 1)
	if got := runOnce(t, threeRows, "--import", cluster.Endpoints()); got.status != 0 {
		t.Fatal(got)
	}
	const broken = "csid-etcd: --export: write /dev/stdout: broken pipe\n"
	for _, c := range []struct {
		args, said string
		status     int
	}{{"--list", "", 0}, {"--list --json", "", 0}, {"--export", broken, 1}} {
		t.Run(c.args, func(t *testing.T) {
			var said strings.Builder
			command := exec.Command(processes.EtcdProgram(t),
				append(strings.Fields(c.args), "--name", name, "--endpoints", cluster.Endpoints())...)
			command.Stdout, command.Stderr = processes.ClosedPipe(t), &said
			command.Run()
			got := said.String()
			if status := command.ProcessState.ExitCode(); status != c.status || !strings.HasSuffix(got, c.said) ||
				c.said == "" && got != "" {
				t.Errorf("got status %d, %q", status, got)
			}
		})
	}
}

// document decodes the output of --list --json.
func document(t *testing.T, text string) (read map[string]interface{}) {
	t.Helper()
	if err := json.Unmarshal([]byte(text), &read); err != nil {
		t.Fatalf("%v: %.200s", err, text)
	}
	return read
}

// The list equals csid's list of a file with the same rows.
func TestListAsOfFile(t *testing.T) {
	t.Parallel()
	csid := processes.CsidProgram(t)
	cluster := clusters.Start(t, 1)
	rows := "volumes/00000000000000000002\t{\"name\":\"a " +
		"b\",\"bytes\":1610612736,\"pool\":\"ssd\",\"caps\":\"1a0612001a0208011a0c12060a04657874341a020805\"," +
		"\"params\":\"22060a016b12017622080a016c120361206242050a016d1200\"}\n" +
		"attachments/00000000000000000002/m\t{\"cap\":\"1a0612001a020801\",\"readonly\":0}\n" +
		"attachments/00000000000000000002/n,1\t{\"cap\":\"1a0612001a020801\",\"readonly\":0}\n" +
		strings.Replace(threeRows, `"next_number":2`, `"next_number":3`, 1)
	if got := runOnce(t, rows, "--import", cluster.Endpoints()); got.status != 0 {
		t.Fatal(got)
	}
	path := filepath.Join(t.TempDir(), "volumes.db")
	if out, err := exec.Command(csid, "pipe", "--tables", path).CombinedOutput(); err != nil {
		t.Fatalf("%v: %s", err, out)
	}
	into := exec.Command("sqlite3", "-bail", path)
	into.Stdin = strings.NewReader(runOnce(t, "", "--export", cluster.Endpoints()).stdout)
	if out, err := into.CombinedOutput(); err != nil {
		t.Skipf("no sqlite3: %v: %s", err, out)
	}
	listed := func(args ...string) string {
		out, err := exec.Command(csid, append([]string{"--list-tables", path}, args...)...).Output()
		if err != nil {
			t.Fatal(err)
		}
		return string(out)
	}
	if got := runOnce(t, "", "--list", cluster.Endpoints()); got.stdout != listed() ||
		!strings.Contains(got.stdout, "vol-2  a%20b") {
		t.Errorf("got %v\nwant\n%s", got, listed())
	}
	if got := runOnce(t, "", "--list", cluster.Endpoints(), "--json"); !reflect.DeepEqual(document(t, got.stdout),
		document(t, listed("--json"))) {
		t.Errorf("got %v\nwant\n%s", got, listed("--json"))
	}
}

// While a program makes changes, a list of several pages shows one revision: each new volume except
// the last one is at its node.
func TestListOfOneRevision(t *testing.T) {
	t.Parallel()
	const before = 20000
	cluster := clusters.Start(t, 1)
	lines, _ := manyLines(before)
	if got := runOnce(t, lines, "--import", cluster.Endpoints()); got.status != 0 {
		t.Fatal(got)
	}
	csid := start(t, cluster.Endpoints(), "--existing").waitLeading(t).dial(t)
	stop, stopped := make(chan struct{}), make(chan struct{})
	defer func() {
		close(stop)
		<-stopped
	}()
	go func() {
		defer close(stopped)
		for n := before + 1; ; n++ {
			select {
			case <-stop:
				return
			default:
			}
			csid.mustCommit(t, addVolume(uint64(n), fmt.Sprintf("v%d", n)))
			csid.mustCommit(t, attach(uint64(n), "n1", false))
		}
	}()
	seen := map[int]bool{}
	for deadline := time.Now().Add(time.Minute); len(seen) < 4 && time.Now().Before(deadline); {
		got := runOnce(t, "", "--list", cluster.Endpoints(), "--json")
		if got.status != 0 {
			t.Fatal(got)
		}
		volumes := document(t, got.stdout)["volumes"].([]interface{})
		for i, one := range volumes[before:] {
			v := one.(map[string]interface{})
			if nodes := v["nodes"].([]interface{}); v["name"] != fmt.Sprintf("v%d", before+i+1) || len(nodes) == 0 &&
				before+i < len(volumes)-1 {
				t.Fatalf("volume %d of %d: got %v, want v%d at a node", before+i+1, len(volumes), v, before+i+1)
			}
		}
		seen[len(volumes)] = true
	}
	if len(seen) < 4 {
		t.Errorf("got %d states, want 4", len(seen))
	}
}
