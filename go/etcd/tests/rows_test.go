package tests

import (
	"context"
	"encoding/hex"
	"fmt"
	"io"
	"strings"
	"testing"
	"time"

	"go.etcd.io/etcd/clientv3"
	"google.golang.org/grpc/codes"

	"../../front/tests/processes"
	"./clusters"
)

// After each change etcd has these bytes, and csid-etcd reads them again.
func TestRows(t *testing.T) {
	t.Parallel()
	cluster := clusters.Start(t, 1)
	p := start(t, cluster.Endpoints()).waitLeading(t)
	l := p.dial(t)
	l.wantReply(t, readPath, "0a00", codes.OK, "2200")
	wantKeys(t, cluster)
	l.wantReply(t, leadPath, "", codes.OK, "")
	l.wantReply(t, makePath, "", codes.OK, "")
	l.wantReply(t, readPath, "0a00", codes.OK, "0a04 0802 1001 2200")
	wantKeys(t, cluster, name+"/meta", `{"format_no":2,"next_number":1}`)
	l.wantReply(t, makePath, "", codes.FailedPrecondition, "meta is there already")
	p.waitLog(t, "csid-etcd: "+makePath+` 9 "meta is there already"`+"\n")

	l.mustCommit(t, addVolumeWith(1, "pvc-1", 1048576, "ssd", block,
		"\x22\x06\x0a\x01k\x12\x01v\x42\x06\x0a\x01k\x12\x01v"))
	l.mustCommit(t, addVolumeWith(2, "a\"<é>\n", 2097152, "", "", ""))
	l.mustCommit(t, attach(1, "n/1", false))
	l.mustCommit(t, attach(1, "n é", true))
	l.mustCommit(t, attach(2, "n", true))
	l.mustCommit(t, setMutable(1, "\x42\x00"))
	wantKeys(t, cluster,
		name+"/attachments/00000000000000000001/n é", `{"cap":"1a060a001a020801","readonly":1}`,
		name+"/attachments/00000000000000000001/n/1", `{"cap":"1a060a001a020801","readonly":0}`,
		name+"/attachments/00000000000000000002/n", `{"cap":"1a060a001a020801","readonly":1}`,
		name+"/meta", `{"format_no":2,"next_number":3}`,
		name+"/volumes/00000000000000000001",
		`{"name":"pvc-1","bytes":1048576,"pool":"ssd","caps":"1a060a001a020801","params":"22060a016b1201764200"}`,
		name+"/volumes/00000000000000000002", `{"name":"a\"<é>\n","bytes":2097152,"pool":"","caps":"","params":""}`)
	l.wantReply(t, readPath, "", codes.OK, "0a04 0802 1003"+
		"1228 0801 1205 7076632d31 18808040 2203 737364 2a08 1a060a001a020801 320a 22060a016b1201764200"+
		"1216 0802 1207 61223cc3a93e0a 1880808001 2200 2a00 3200"+
		"1a14 0801 1204 6e20c3a9 1a08 1a060a001a020801 2001"+
		"1a13 0801 1203 6e2f31 1a08 1a060a001a020801 2000"+
		"1a11 0802 1201 6e 1a08 1a060a001a020801 2001"+
		"2200")

	l.mustCommit(t, detach(1, "n/1"))
	l.mustCommit(t, detach(1, "none"))
	l.mustCommit(t, detach(1<<63-1, "n"))
	l.mustCommit(t, detachAll(1))
	l.mustCommit(t, detachAll(9))
	l.mustCommit(t, removeVolume(1))
	l.mustCommit(t, removeVolume(1))
	l.mustCommit(t, removeVolume(1<<63-1))
	wantKeys(t, cluster,
		name+"/attachments/00000000000000000002/n", `{"cap":"1a060a001a020801","readonly":1}`,
		name+"/meta", `{"format_no":2,"next_number":3}`,
		name+"/volumes/00000000000000000002", `{"name":"a\"<é>\n","bytes":2097152,"pool":"","caps":"","params":""}`)
	if read, pages, err := l.readAll(); err != nil || pages != 1 || len(read) != 3 {
		t.Errorf("got %v in %d pages, error %v, want 3 rows in one page", read, pages, err)
	}
}

// Each change compares what it requires. After a failed comparison, and after a malformed call,
// nothing is made.
func TestComparisons(t *testing.T) {
	t.Parallel()
	cluster, _, l := startLeading(t)
	l.mustCommit(t, addVolume(1, "a"))
	l.mustCommit(t, attach(1, "n", false))
	before := cluster.Ctl(t, "get", "--prefix", name)
	const failed, invalid = codes.FailedPrecondition, codes.InvalidArgument
	cases := []struct {
		name, path string
		message    []byte
		code       codes.Code
		want       string
	}{
		{"add an existing volume", commitPath, addVolume(1, "b"), failed,
			"volumes/00000000000000000001 is there already"},
		{"add the volume after the next", commitPath, addVolume(3, "b"), failed,
			`meta is {"format_no":2,"next_number":2}, and not {"format_no":2,"next_number":3}`},
		{"remove an attached volume", commitPath, removeVolume(1), failed,
			"attachments/00000000000000000001/n is there"},
		{"attach a missing volume", commitPath, attach(2, "n", false), failed,
			"volumes/00000000000000000002 is not there"},
		{"attach volume 2^63-1", commitPath, attach(1<<63-1, "n", false), failed,
			"volumes/09223372036854775807 is not there"},
		{"attach twice", commitPath, attach(1, "n", true), failed,
			"attachments/00000000000000000001/n is there already"},
		{"modify a missing volume", commitPath, setMutable(2, ""), failed, "volumes/00000000000000000002 is not there"},
		{"make a second time", makePath, nil, failed, "attachments/00000000000000000001/n is there already"},
		{"set parameters as mutable ones", commitPath, setMutable(1, "\x22\x00"), invalid,
			"params is not fields of mutable parameters"},
		{"two changes", commitPath, []byte("\x12\x00\x2a\x00"), invalid, "more than one change"},
		{"malformed change", commitPath, []byte("\x00"), invalid, "malformed message"},
		{"unknown token", readPath, []byte("\x0a\x01\x31"), invalid,
			"the token is not the last one that this connection was given"},
		{"malformed Read", readPath, []byte("\x0a\x02"), invalid, "malformed message"},
		{"malformed Make", makePath, []byte("\x00"), invalid, "malformed message"},
		{"malformed Lead", leadPath, []byte("\x00"), invalid, "malformed message"},
		{"unknown method", "/fomaheti.log.v1.Log/Other", nil, codes.Unimplemented, "unknown method"},
	}
	for _, c := range cases {
		t.Run(c.name, func(t *testing.T) {
			l.wantReply(t, c.path, hex.EncodeToString(c.message), c.code, c.want)
		})
	}
	cluster.Ctl(t, "del", name+"/meta")
	l.wantRefused(t, addVolume(2, "b"), failed, "meta is not there")
	cluster.Ctl(t, "put", name+"/meta", `{"format_no":2,"next_number":2}`)
	if after := cluster.Ctl(t, "get", "--prefix", name); after != before {
		t.Errorf("got\n%s\nwant\n%s", after, before)
	}
}

// A number that no row can have is refused, and nothing is made.
func TestNumbersOfNoRow(t *testing.T) {
	t.Parallel()
	cluster, _, l := startLeading(t)
	before := cluster.Ctl(t, "get", "--prefix", name)
	for name, message := range map[string][]byte{
		"add volume 2^63-1":          addVolume(1<<63-1, "b"),
		"add volume 2^63":            addVolume(1<<63, "b"),
		"add a volume of 2^63 bytes": addVolumeWith(1, "b", 1<<63, "", "", ""),
		"remove volume 2^63":         removeVolume(1 << 63),
		"attach volume 2^64-1":       attach(1<<64-1, "n", false),
		"detach volume 2^63":         detach(1<<63, "n"),
		"detach all of volume 2^63":  detachAll(1 << 63),
		"modify volume 2^63":         setMutable(1<<63, ""),
	} {
		t.Run(name, func(t *testing.T) {
			l.wantRefused(t, message, codes.InvalidArgument, "a number is above 9223372036854775807")
		})
	}
	if after := cluster.Ctl(t, "get", "--prefix", name); after != before {
		t.Errorf("got\n%s\nwant\n%s", after, before)
	}
}

// A volume may have the number 2^63-2 and 2^63-1 bytes, the greatest ones.
func TestGreatestVolume(t *testing.T) {
	t.Parallel()
	cluster, _, l := startLeading(t)
	cluster.Ctl(t, "put", name+"/meta", `{"format_no":2,"next_number":9223372036854775806}`)
	l.mustCommit(t, addVolumeWith(1<<63-2, "c", 1<<63-1, "", "", ""))
	const want = name + "/meta\n{\"format_no\":2,\"next_number\":9223372036854775807}\n"
	if got := cluster.Ctl(t, "get", name+"/meta"); got != want {
		t.Errorf("got %s, want %s", got, want)
	}
}

// A malformed frame is refused with its position, and ends the connection.
func TestMalformedFrame(t *testing.T) {
	t.Parallel()
	_, _, l := startLeading(t)
	if _, err := l.Write(fromHex(t, "0001 21 01")); err != nil {
		t.Fatal(err)
	}
	// The position counts from the start of the connection, which has the call of Make.
	l.SetDeadline(time.Now().Add(processes.Patience))
	want := fmt.Sprintf("bad flag at byte %d", 7+len(makePath)+3)
	if reply, err := l.in.Next(); err != nil || reply.Code != codes.InvalidArgument || reply.Text != want {
		t.Errorf("got %d %q, error %v, want %q", reply.Code, reply.Text, err, want)
	}
	if reply, err := l.call(readPath, nil); err == nil {
		t.Errorf("after a malformed frame: got %v, want the end of the connection", reply)
	}
}

// setMutable compares that the row has not changed since it read the row, so no other change is
// lost.
func TestChangedMeanwhile(t *testing.T) {
	t.Parallel()
	cluster, _, l := startLeading(t)
	l.mustCommit(t, addVolumeWith(1, "a", 1<<20, "p", block, "\x22\x00"))
	client := cluster.Client(t)
	key := name + "/volumes/00000000000000000001"
	end, done := make(chan struct{}), make(chan int)
	go func() {
		puts := 0
		for {
			select {
			case <-end:
				done <- puts
				return
			default:
			}
			value := fmt.Sprintf(`{"name":"a","bytes":%d,"pool":"p","caps":"1a060a001a020801","params":"2200"}`, puts)
			if _, err := client.Put(context.Background(), key, value); err == nil {
				puts++
			}
		}
	}()
	refused, made := 0, 0
	for i := 0; i < 400 && (refused < 3 || made < 3); i++ {
		reply, err := l.call(commitPath, setMutable(1, "\x42\x00"))
		if err != nil {
			t.Fatal(err)
		}
		switch {
		case reply.Code == codes.OK:
			made++
		case reply.Code == codes.FailedPrecondition &&
			reply.Text == "volumes/00000000000000000001 was changed in the meantime":
			refused++
		default:
			t.Fatalf("got %d %q, want OK or a change in the meantime", reply.Code, reply.Text)
		}
	}
	close(end)
	t.Logf("%d made, %d refused, beside %d puts by hand", made, refused, <-done)
	if refused == 0 {
		t.Error("got no refusal, want some")
	}
}

// fill puts count volumes, half as many attachments, and the row of meta.
func fill(t *testing.T, client *clientv3.Client, count int) {
	t.Helper()
	var ops []clientv3.Op
	flush := func() {
		if _, err := client.Txn(context.Background()).Then(ops...).Commit(); err != nil {
			t.Fatal(err)
		}
		ops = nil
	}
	for n := 1; n <= count; n++ {
		value := fmt.Sprintf(`{"name":"pvc-%d","bytes":1048576,"pool":"ssd","caps":"1a060a001a020801","params":""}`, n)
		ops = append(ops, clientv3.OpPut(fmt.Sprintf("%s/volumes/%020d", name, n), value))
		if n%2 == 0 {
			ops = append(ops, clientv3.OpPut(fmt.Sprintf("%s/attachments/%020d/node-%d", name, n, n%7),
				`{"cap":"1a060a001a020801","readonly":0}`))
		}
		if len(ops) >= 120 {
			flush()
		}
	}
	ops = append(ops, clientv3.OpPut(name+"/meta", fmt.Sprintf(`{"format_no":2,"next_number":%d}`, count+1)))
	flush()
}

// 100,000 volumes and 50,000 attachments are read in pages at one revision, while another client
// makes changes.
func TestManyRows(t *testing.T) {
	t.Parallel()
	const count = 100000
	cluster := clusters.Start(t, 1)
	client := cluster.Client(t)
	fill(t, client, count)
	p := start(t, cluster.Endpoints()).waitLeading(t)
	l := p.dial(t)
	ctx, cancel := context.WithCancel(context.Background())
	done := make(chan int)
	go func() {
		changes := 0
		for ctx.Err() == nil {
			// Volumes are deleted one by one, so each revision has other rows.
			client.Txn(ctx).Then(clientv3.OpDelete(fmt.Sprintf("%s/volumes/%020d", name, 1+changes%count))).Commit()
			changes += 997
		}
		done <- changes / 997
	}()
	begin := time.Now()
	read, pages, err := l.readAll()
	took := time.Since(begin)
	cancel()
	changes := <-done
	if err != nil {
		t.Fatal(err)
	}
	volumes, attachments := 0, 0
	for key := range read {
		if strings.HasPrefix(key, "1 ") {
			volumes++
		} else if strings.HasPrefix(key, "2 ") {
			attachments++
		}
	}
	again, _, err := l.readAll()
	if err != nil {
		t.Fatal(err)
	}
	t.Logf("%d volumes and %d attachments in %d pages in %v, beside %d changes; %d rows after them", volumes,
		attachments, pages, took, changes, len(again))
	if volumes > count || volumes < count-changes || attachments != count/2 || pages < 5 || len(again) >= len(read) {
		t.Errorf("got %d volumes, %d attachments in %d pages, then %d rows, want about %d and %d in 5 pages or more",
			volumes, attachments, pages, len(again), count, count/2)
	}
	if got := read["meta"]; got != fmt.Sprintf("2 %d", count+1) {
		t.Errorf("got meta %s, want 2 %d", got, count+1)
	}
}

// Long rows make pages of fewer rows, of at most 4 MiB. A row that is too long for a page is named.
func TestLongRows(t *testing.T) {
	t.Parallel()
	cluster := clusters.Start(t, 1, "--max-request-bytes", "12000000")
	p := start(t, cluster.Endpoints()).waitLeading(t)
	l := p.dial(t)
	l.wantReply(t, makePath, "", codes.OK, "")
	for n := uint64(1); n <= 12; n++ {
		l.mustCommit(t, addVolumeWith(n, fmt.Sprintf("a%d", n), 1<<20, "p", strings.Repeat("\x1a\x00", 450000), ""))
	}
	read, pages, err := l.readAll()
	if err != nil || len(read) != 13 || pages < 4 {
		t.Errorf("got %d rows in %d pages, error %v, want 13 in 4 pages or more", len(read), pages, err)
	}
	value := `{"name":"b","bytes":1048576,"pool":"p","caps":"` + strings.Repeat("1a00", 1600000) + `","params":""}`
	if _, err := cluster.Client(t).Put(context.Background(), name+"/volumes/00000000000000000001", value); err != nil {
		t.Fatal(err)
	}
	l.wantReply(t, readPath, "", codes.FailedPrecondition,
		"volumes/00000000000000000001: the row is too long for a page")
}

// A change that is too long for etcd is refused, and the next one is made.
func TestTooLong(t *testing.T) {
	t.Parallel()
	_, _, l := startLeading(t)
	l.wantRefused(t, addVolumeWith(1, "a", 1<<20, "p", strings.Repeat("\x1a\x00", 500000), ""), codes.ResourceExhausted,
		"etcdserver: request is too large")
	l.mustCommit(t, addVolume(1, "a"))
}

// Only the newest connection is served.
func TestNewestConnection(t *testing.T) {
	t.Parallel()
	_, p, first := startLeading(t)
	second := p.dial(t)
	first.wantClosed(t)
	second.mustCommit(t, addVolume(1, "a"))
	second.wantReply(t, readPath, "0a00", codes.OK,
		"0a04 0802 1002 121a 0801 1201 61 18808040 2203 737364 2a08 1a060a001a020801 3200 2200")
	// A connection without a call replaces the earlier one too.
	p.dial(t)
	second.wantClosed(t)
}

// wantClosed waits until the program closes the connection, which it does after it has accepted a
// newer one.
func (l *storeConn) wantClosed(t *testing.T) {
	t.Helper()
	l.SetDeadline(time.Now().Add(processes.Patience))
	if got, err := l.in.Next(); err != io.EOF {
		t.Errorf("got %v, error %v, want the end of the connection", got, err)
	}
}

// While connections replace each other, each change with a reply is made. Of the other changes,
// only one whose reply the test did not await may be made.
func TestReplacedConnections(t *testing.T) {
	t.Parallel()
	_, p, _ := startLeading(t)
	next := uint64(1)
	for i := 0; i < 60; i++ {
		l := p.dial(t)
		read, _, err := l.readAll()
		if err != nil {
			t.Fatal(err)
		}
		got := uint64(len(read) - 1)
		if got+1 != next && got != next {
			t.Fatalf("got %d volumes, want %d or one more", got, next-1)
		}
		next = got + 1
		for ; ; next++ {
			if i%3 == 0 && next%5 == 0 {
				// The test does not wait for this reply.
				message := addVolume(next, fmt.Sprintf("a%d", next))
				l.Write(append(frameHead(commitPath, len(message)), message...))
				break
			}
			l.mustCommit(t, addVolume(next, fmt.Sprintf("a%d", next)))
			if next%4 == 0 {
				next++
				break
			}
		}
	}
}

func frameHead(path string, size int) []byte {
	head, _ := hex.DecodeString(fmt.Sprintf("%04x%x00%08x", len(path), path, size))
	return head
}
