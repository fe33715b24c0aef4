package tests

import (
	"context"
	"fmt"
	"io"
	"net"
	"strings"
	"testing"
	"time"

	"go.etcd.io/etcd/clientv3"

	"../../front/tests/processes"
	"./clusters"
)

// volumeRow and attachmentRow return a row of etcd: a key without the plugin's name, and a value.
func volumeRow(number int, volumeName string, mebibytes int, pool, caps, params string) [2]string {
	return [2]string{fmt.Sprintf("volumes/%020d", number),
		fmt.Sprintf(`{"name":"%s","bytes":%d,"pool":"%s","caps":"%s","params":"%s"}`, volumeName, mebibytes<<20, pool,
			caps, params)}
}

func attachmentRow(number int, node, cap string) [2]string {
	return [2]string{fmt.Sprintf("attachments/%020d/%s", number, node), fmt.Sprintf(`{"cap":"%s","readonly":0}`, cap)}
}

// ruleCase is a meta row with the next number, further rows, and csid's reason to refuse them.
type ruleCase struct {
	next int
	rows [][2]string
	want string
}

// store replaces the rows in etcd by the rows of the case.
func (c ruleCase) store(t *testing.T, client *clientv3.Client) {
	t.Helper()
	ops := []clientv3.Op{clientv3.OpPut(name+"/meta", fmt.Sprintf(`{"format_no":2,"next_number":%d}`, c.next))}
	for _, row := range c.rows {
		ops = append(ops, clientv3.OpPut(name+"/"+row[0], row[1]))
	}
	clean(t, client)
	if _, err := client.Txn(context.Background()).Then(ops...).Commit(); err != nil {
		t.Fatal(err)
	}
}

func ruleCases() []ruleCase {
	const (
		single = "1a060a001a020801"
		none   = ""
	)
	a := volumeRow(1, "a", 1, "p1", single, none)
	full := [][2]string{}
	for i := 1; i <= 13; i++ {
		full = append(full, volumeRow(i, fmt.Sprint("v", i), 1, "p1", single, none), attachmentRow(i, "n1", single))
	}
	return []ruleCase{
		{0, nil, "the next number is not 1 to 2^62"},
		{2, [][2]string{volumeRow(2, "a", 1, "p1", single, none)},
			"volume 2: its number is not from 1 to below the next number"},
		{2, [][2]string{volumeRow(1, "", 1, "p1", single, none)},
			"volume 1: its name is not one that a volume can be made with"},
		{2, [][2]string{volumeRow(1, "a", 1, "p2", single, none)},
			"volume 1: its pool is not one of the configuration"},
		{2, [][2]string{volumeRow(1, "a", 0, "p1", single, none)},
			"volume 1: its bytes are not a positive multiple of 1048576"},
		{3, [][2]string{volumeRow(1, "a", 21, "p1", single, none), volumeRow(2, "b", 20, "p1", single, none)},
			"pool p1: its volumes have more bytes than it has"},
		{2, [][2]string{volumeRow(1, "a", 1, "p1", "1a040a001a00", none)},
			"volume 1: its caps are not the bytes of supported capabilities in order"},
		{2, [][2]string{volumeRow(1, "a", 1, "p1", single, "0a0161")},
			"volume 1: its params are not the bytes of parameters of at most 4096 bytes"},
		{2, [][2]string{a, attachmentRow(1, "n1", none)},
			"volume 1 at node n1: its cap is not the bytes of one supported capability"},
		{2, [][2]string{a, attachmentRow(1, "n3", single)},
			"volume 1 at node n3: its node is not one of the configuration"},
		{2, [][2]string{attachmentRow(1, "n1", single)},
			"volume 1 at node n1: no volume of its number has its capability"},
		{2, [][2]string{a, attachmentRow(1, "n1", single), attachmentRow(1, "n2", single)},
			"volume 1 at node n2: the volume is attached at another node too, and the two cannot have it together"},
		{3, [][2]string{a, volumeRow(2, "a", 1, "p1", single, none)}, "volume 2: UNIQUE constraint failed"},
		{14, full, "node n1: more volumes are attached there than it can have"},
	}
}

// csid refuses rows in etcd that break a rule of docs/TABLES.md, as it refuses such rows in a file:
// it names the row and answers no call. Once the rows are fixed, csid serves without a restart.
func TestRowsThatBreakRules(t *testing.T) {
	t.Parallel()
	cluster := clusters.Start(t, 1)
	client := cluster.Client(t)
	s := newStack(t, "a", cluster.Endpoints())
	s.startStore(t)
	program{s.store}.waitLeading(t)
	cases := ruleCases()
	cases[0].store(t, client)
	s.startCsid(t)
	s.csid.Answers(t)
	for i, c := range cases {
		t.Run(c.want, func(t *testing.T) {
			// csid reported the first case at its start, and does not repeat that line. It reads
			// the rows again for each connection while it refuses them.
			before := 0
			if i > 0 {
				before = len(s.csid.Log.String())
				c.store(t, client)
			}
			if got := ask(t, s.path("csid.sock")); got != "" {
				t.Errorf("got the reply %x, want none", got)
			}
			want := "csid: " + s.path("log.sock") + ": " + c.want + "\n"
			processes.Eventually(t, want, func() bool { return strings.HasSuffix(s.csid.Log.String()[before:], want) })
		})
	}
	clean(t, client)
	put(t, client, name+"/meta", `{"format_no":2,"next_number":7}`)
	if got := ask(t, s.path("csid.sock")); !strings.HasPrefix(got, "\x00") {
		t.Errorf("fixed rows: got the reply %x, want OK", got)
	}
}

// clean removes all rows of the plugin from etcd, and leaves its lock.
func clean(t *testing.T, client *clientv3.Client) {
	t.Helper()
	for _, part := range []string{"/meta", "/volumes/", "/attachments/"} {
		if _, err := client.Delete(context.Background(), name+part, clientv3.WithPrefix()); err != nil {
			t.Fatal(err)
		}
	}
}

// ask sends a Probe to csid over a new connection and returns the bytes of the reply.
func ask(t *testing.T, socket string) string {
	t.Helper()
	peer, err := net.Dial("unix", socket)
	if err != nil {
		t.Fatal(err)
	}
	defer peer.Close()
	peer.SetDeadline(time.Now().Add(processes.Patience))
	peer.Write(frameHead("/csi.v1.Identity/Probe", 0))
	peer.(*net.UnixConn).CloseWrite()
	got, _ := io.ReadAll(peer)
	return string(got)
}
