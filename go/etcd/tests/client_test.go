// Package tests runs the built csid-etcd over etcd: with clients of its protocol, and with csid and
// the front.
package tests

import (
	"encoding/hex"
	"fmt"
	"net"
	"os/exec"
	"path/filepath"
	"sort"
	"strings"
	"testing"
	"time"

	"google.golang.org/grpc/codes"
	"google.golang.org/protobuf/encoding/protowire"

	"../../front/tests/processes"
	"./clusters"
	"fomaheti/fixtures"
	"fomaheti/frames"
)

const (
	name       = "example.fomaheti"
	readPath   = "/fomaheti.log.v1.Log/Read"
	makePath   = "/fomaheti.log.v1.Log/Make"
	commitPath = "/fomaheti.log.v1.Log/Commit"
	leadPath   = "/fomaheti.log.v1.Log/Lead"
)

// program is a csid-etcd that a test has started.
type program struct{ *processes.Process }

// start starts a csid-etcd with further arguments, and waits until it answers.
func start(t *testing.T, endpoints string, args ...string) program {
	t.Helper()
	socket := filepath.Join(processes.Folder(t), "log.sock")
	return startAt(t, socket, endpoints, args...)
}

func startAt(t *testing.T, socket, endpoints string, args ...string) program {
	t.Helper()
	args = append([]string{"--name", name, "--listen", socket, "--endpoints", endpoints}, args...)
	return program{processes.Start(t, socket, exec.Command(processes.EtcdProgram(t), args...)).Answers(t)}
}

// waitLeading waits until the program has logged that it leads, now or earlier.
func (p program) waitLeading(t *testing.T) program {
	t.Helper()
	p.waitLog(t, "csid-etcd: leads, from revision")
	return p
}

// waitLog waits until the program has written a text to standard error.
func (p program) waitLog(t *testing.T, text string) {
	t.Helper()
	processes.Eventually(t, fmt.Sprintf("%q in the log, which has %q", text, p.Log),
		func() bool { return strings.Contains(p.Log.String(), text) })
}

// storeConn is a connection to csid-etcd. Its replies are read from in.
type storeConn struct {
	net.Conn
	in *frames.Replies
}

func (p program) dial(t *testing.T) *storeConn {
	t.Helper()
	l, err := dial(p.Socket)
	if err != nil {
		t.Fatal(err)
	}
	t.Cleanup(func() { l.Close() })
	return l
}

func dial(socket string) (*storeConn, error) {
	conn, err := net.Dial("unix", socket)
	if err != nil {
		return nil, err
	}
	return &storeConn{conn, frames.NewReplies(conn)}, nil
}

// call makes a call. Its error means that the connection ended without a reply.
func (l *storeConn) call(path string, message []byte) (frames.Reply, error) {
	l.SetDeadline(time.Now().Add(processes.Patience))
	if _, err := l.Write(append(frames.AppendRequestHead(nil, path, len(message)), message...)); err != nil {
		return frames.Reply{}, err
	}
	return l.in.Next()
}

// wantReply makes a call with a message in hexadecimal and checks the reply: OK and a body in
// hexadecimal, or a status and a text.
func (l *storeConn) wantReply(t *testing.T, path, message string, code codes.Code, want string) {
	t.Helper()
	got, err := l.call(path, fromHex(t, message))
	gotText := got.Text
	if got.Code == codes.OK {
		gotText, want = hex.EncodeToString(got.Body), strings.ReplaceAll(want, " ", "")
	}
	if err != nil || got.Code != code || gotText != want {
		t.Errorf("%s %.200s: got %d %.1000q, error %v, want %d %.1000q", path, message, got.Code, gotText, err, code,
			want)
	}
}

var fromHex = fixtures.FromHex

// rows holds all rows as text: meta, and each other row by its key.
type rows map[string]string

func (r rows) String() string {
	var all []string
	for key, value := range r {
		all = append(all, key+" "+value)
	}
	sort.Strings(all)
	return strings.Join(all, "\n")
}

// readAll reads all rows and counts the pages. It fails if a call gets no OK, or if the rows are
// not in ascending order.
func (l *storeConn) readAll() (read rows, pages int, err error) {
	read = rows{}
	var token []byte
	last := ""
	for {
		message := protowire.AppendBytes(protowire.AppendTag(nil, 1, protowire.BytesType), token)
		reply, err := l.call(readPath, message)
		if err != nil {
			return nil, pages, err
		}
		if reply.Code != codes.OK {
			return nil, pages, fmt.Errorf("%d %s", reply.Code, reply.Text)
		}
		pages++
		token = nil
		for _, part := range fields(reply.Body) {
			values := map[protowire.Number]field{}
			if part.number < 4 {
				for _, inner := range fields(part.bytes) {
					values[inner.number] = inner
				}
			}
			key := ""
			switch part.number {
			case 1:
				read["meta"] = fmt.Sprintf("%d %d", values[1].varint, values[2].varint)
				if pages > 1 {
					return nil, pages, fmt.Errorf("meta in page %d", pages)
				}
				continue
			case 2:
				key = fmt.Sprintf("1 %020d", values[1].varint)
				read[key] = fmt.Sprintf("%s %d %s %x %x", values[2].bytes, values[3].varint, values[4].bytes,
					values[5].bytes, values[6].bytes)
			case 3:
				key = fmt.Sprintf("2 %020d %s", values[1].varint, values[2].bytes)
				read[key] = fmt.Sprintf("%x %d", values[3].bytes, values[4].varint)
			case 4:
				token = part.bytes
				continue
			}
			if key <= last {
				return nil, pages, fmt.Errorf("%q after %q", key, last)
			}
			last = key
		}
		if len(token) == 0 {
			return read, pages, nil
		}
	}
}

type field struct {
	number protowire.Number
	varint uint64
	bytes  []byte
}

// fields returns the fields of a message of varints and bytes.
func fields(message []byte) (all []field) {
	for len(message) > 0 {
		number, kind, size := protowire.ConsumeTag(message)
		message = message[size:]
		got := field{number: number}
		if kind == protowire.VarintType {
			got.varint, size = protowire.ConsumeVarint(message)
		} else {
			got.bytes, size = protowire.ConsumeBytes(message)
		}
		all = append(all, got)
		message = message[size:]
	}
	return all
}

// Messages of changes as csid writes them: with each field, in ascending order.

func varint(message []byte, number protowire.Number, value uint64) []byte {
	return protowire.AppendVarint(protowire.AppendTag(message, number, protowire.VarintType), value)
}

func text(message []byte, number protowire.Number, value string) []byte {
	return protowire.AppendString(protowire.AppendTag(message, number, protowire.BytesType), value)
}

const block = "\x1a\x06\x0a\x00\x1a\x02\x08\x01"

func addVolume(number uint64, volumeName string) []byte {
	return addVolumeWith(number, volumeName, 1<<20, "ssd", block, "")
}

func addVolumeWith(number uint64, volumeName string, bytes uint64, pool, caps, params string) []byte {
	message := varint(text(nil, 2, volumeName)[:0], 1, number)
	message = text(varint(text(message, 2, volumeName), 3, bytes), 4, pool)
	return text(nil, 1, string(text(text(message, 5, caps), 6, params)))
}

func removeVolume(number uint64) []byte { return text(nil, 2, string(varint(nil, 1, number))) }

func attach(number uint64, node string, isReadonly bool) []byte {
	message := text(text(varint(nil, 1, number), 2, node), 3, block)
	return text(nil, 3, string(varint(message, 4, protowire.EncodeBool(isReadonly))))
}

func detach(number uint64, node string) []byte {
	return text(nil, 4, string(text(varint(nil, 1, number), 2, node)))
}

func detachAll(number uint64) []byte { return text(nil, 5, string(varint(nil, 1, number))) }

func setMutable(number uint64, params string) []byte {
	return text(nil, 6, string(text(varint(nil, 1, number), 2, params)))
}

// mustCommit makes a change that must be OK.
func (l *storeConn) mustCommit(t *testing.T, message []byte) {
	t.Helper()
	l.wantReply(t, commitPath, hex.EncodeToString(message), codes.OK, "")
}

// wantRefused makes a change that must be refused with this code and this text.
func (l *storeConn) wantRefused(t *testing.T, message []byte, code codes.Code, want string) {
	t.Helper()
	l.wantReply(t, commitPath, hex.EncodeToString(message), code, want)
}

// startLeading starts an etcd of one member and a csid-etcd that leads, makes the row of meta, and
// connects.
func startLeading(t *testing.T) (*clusters.Cluster, program, *storeConn) {
	t.Helper()
	cluster := clusters.Start(t, 1)
	p := start(t, cluster.Endpoints()).waitLeading(t)
	l := p.dial(t)
	l.wantReply(t, makePath, "", codes.OK, "")
	return cluster, p, l
}

// wantKeys checks that the plugin has exactly these keys and values next to the lock.
func wantKeys(t *testing.T, cluster *clusters.Cluster, want ...string) {
	t.Helper()
	got := ""
	for _, part := range []string{"/attachments/", "/meta", "/volumes/"} {
		got += cluster.Ctl(t, "get", "--prefix", name+part)
	}
	all := ""
	for _, line := range want {
		all += line + "\n"
	}
	if got != all {
		t.Errorf("got the rows\n%swant\n%s", got, all)
	}
}
