package tests

import (
	"context"
	"io"
	"net"
	"os"
	"os/exec"
	"path/filepath"
	"strings"
	"testing"
	"time"

	"google.golang.org/grpc/codes"

	"./processes"
	"fomaheti/frames"
)

// controlled starts a front with a control socket. It returns the front and the path of the control
// socket.
func controlled(t *testing.T, csid string, words ...string) (*processes.Process, string) {
	t.Helper()
	path := filepath.Join(processes.Folder(t), "control.sock")
	return processes.StartFront(t, csid, append([]string{"--control", path}, words...)...), path
}

// control makes a call in csid's envelope as csictl does: it ends its writing, and reads one reply.
// It returns an error if the connection ends without a reply.
func control(t *testing.T, socket string, frame []byte) (frames.Reply, error) {
	t.Helper()
	conn, err := net.DialUnix("unix", nil, &net.UnixAddr{Name: socket, Net: "unix"})
	if err != nil {
		t.Fatal(err)
	}
	defer conn.Close()
	conn.SetDeadline(time.Now().Add(processes.Patience))
	if _, err := conn.Write(frame); err != nil {
		t.Fatal(err)
	}
	conn.CloseWrite()
	return frames.NewReplies(conn).Next()
}

func frameOf(t *testing.T, path, message string) []byte {
	t.Helper()
	bytes := fromHex(t, message)
	return append(frames.AppendRequestHead(nil, path, len(bytes)), bytes...)
}

// Calls of the control socket and of gRPC see the same volumes, while the front keeps its
// connection to csid.
func TestControlSocket(t *testing.T) {
	t.Parallel()
	csid := processes.StartCsid(t)
	process, socket := controlled(t, csid.Socket())
	front := newClient(t, process.Socket)
	front.wantReply(t, controller+"CreateVolume", createA, ok(volume1))
	if file, err := os.Lstat(socket); err != nil || file.Mode().Perm() != 0o600 {
		t.Errorf("%v, %v", file, err)
	}
	rows := []struct {
		path, message string
		want          answer
	}{
		{probe, "", ok(ready)},
		{controller + "ControllerPublishVolume", vol1 + n1 + block, ok("0a11 0a08 726561646f6e6c79 1205 66616c7365")},
		{controller + "DeleteVolume", vol1, refused(codes.FailedPrecondition, "volume is in use")},
		{controller + "CreateSnapshot", "", refused(codes.Unimplemented, "unknown method")},
	}
	for _, row := range rows {
		reply, err := control(t, socket, frameOf(t, row.path, row.message))
		if got := (answer{reply.Code, reply.Text, hexOf(reply.Body)}); err != nil || got != row.want {
			t.Errorf("%s: %v, %v, wanted %v", row.path, got, err, row.want)
		}
	}
	if reply, err := control(t, socket, fromHex(t, "0081")); err != nil || reply.Code != codes.InvalidArgument ||
		reply.Text != "bad path length at byte 0" {
		t.Errorf("%v, %v", reply, err)
	}
	front.wantReply(t, controller+"ControllerUnpublishVolume", vol1, ok(""))
	processes.Eventually(t, "three lines", func() bool { return strings.Count(process.Log.String(), "\n") >= 3 })
	for i, line := range strings.Split(process.Log.String(), "\n")[:3] {
		want := []string{
			"front: control " + controller + `DeleteVolume 9 "volume is in use" `, "front: control " + controller +
				`CreateSnapshot 12 "unknown method" `,
			"front: control bad path length at byte 0",
		}[i]
		if !strings.HasPrefix(line, want) {
			t.Errorf("logged %q, wanted %q", line, want)
		}
	}
	csid.WantsStartAlone(t)
}

// csictl can use the control socket.
func TestControlSocketByClient(t *testing.T) {
	t.Parallel()
	program := processes.ClientProgram()
	if _, err := os.Stat(program); err != nil {
		t.Skipf("left out: no program at %s", program)
	}
	csid := processes.StartCsid(t)
	process, socket := controlled(t, csid.Socket())
	newClient(t, process.Socket).wantReply(t, controller+"CreateVolume", createA, ok(volume1))
	said, err := exec.Command(program, "call", "--socket", socket, "--method", "ListVolumes", "--all").Output()
	if !strings.HasSuffix(string(said), "\nvolume vol-1 1048576 -\n") || err != nil {
		t.Errorf("%s, %v", said, err)
	}
}

// A call of the control socket waits while csid works on a call of gRPC. Both go over the same
// connection to csid.
func TestTurnOfControl(t *testing.T) {
	t.Parallel()
	let := make(chan struct{})
	csid := startFake(t, step{wait: let, write: okFrame("01")})
	process, socket := controlled(t, csid.socket)
	front := newClient(t, process.Socket)
	replies := make(chan answer)
	go func() { replies <- front.send(context.Background(), "/a/first", nil) }()
	csid.called(t, 1)
	go func() {
		reply, err := control(t, socket, frameOf(t, "/a/control", ""))
		if err != nil {
			t.Error(err)
		}
		replies <- answer{reply.Code, reply.Text, hexOf(reply.Body)}
	}()
	time.Sleep(100 * time.Millisecond)
	csid.wantCalls(t, "/a/first ")
	close(let)
	if got := (map[answer]bool{<-replies: true, <-replies: true}); !got[ok("01")] || !got[ok(ready)] {
		t.Errorf("%v", got)
	}
	csid.wantCalls(t, "/a/first ", "/a/control ")
	if _, ends := csid.seen(); ends != 0 {
		t.Errorf("%d connections ended", ends)
	}
}

// Without csid, the connection of a call is closed without a reply. At its end the front removes
// the socket.
func TestControlWithoutCsid(t *testing.T) {
	t.Parallel()
	process, socket := controlled(t, filepath.Join(processes.Folder(t), "absent.sock"), "--log-format", "json")
	if reply, err := control(t, socket, frameOf(t, probe, "")); err != io.EOF {
		t.Errorf("%v, %v", reply, err)
	}
	process.Terminate(t)
	if status := process.Status(t); status != 0 {
		t.Errorf("status %d", status)
	}
	if _, err := os.Lstat(socket); !os.IsNotExist(err) {
		t.Errorf("the socket: %v", err)
	}
	lines := objects(t, process)
	if len(lines) != 1 || lines[0]["socket"] != "control" || lines[0]["path"] != probe ||
		lines[0]["code"] != float64(14) {
		t.Errorf("logged %v", lines)
	}
}
