package tests

import (
	"context"
	"fmt"
	"net"
	"net/http"
	"os"
	"os/exec"
	"path/filepath"
	"strings"
	"sync"
	"testing"
	"time"

	"github.com/golang/protobuf/proto"
	"github.com/golang/protobuf/ptypes/empty"
	"google.golang.org/grpc"
	"google.golang.org/grpc/codes"
	"google.golang.org/grpc/health/grpc_health_v1"
	"google.golang.org/grpc/status"

	"./processes"
)

const nodeService = "/csi.v1.Node/"

// respond is a function that answers a call of a node plugin.
type respond func(ctx context.Context, path string, message []byte) ([]byte, error)

// nodePlugin plays a node plugin. It answers each method over gRPC, and records its calls.
type nodePlugin struct {
	socket string
	server *grpc.Server
	mutex  sync.Mutex
	// The messages of the calls, in hexadecimal, after their paths.
	calls []string
}

func startNode(t *testing.T, socket string, answers respond) *nodePlugin {
	t.Helper()
	listener, err := net.Listen("unix", socket)
	if err != nil {
		t.Fatal(err)
	}
	n := &nodePlugin{socket: socket}
	n.server = grpc.NewServer(grpc.CustomCodec(bytesCodec{}), grpc.MaxRecvMsgSize(8<<20), grpc.MaxSendMsgSize(8<<20),
		grpc.UnknownServiceHandler(func(_ interface{}, stream grpc.ServerStream) error {
			path, _ := grpc.MethodFromServerStream(stream)
			var message []byte
			if err := stream.RecvMsg(&message); err != nil {
				return err
			}
			n.keep(path + " " + hexOf(message))
			body, err := answers(stream.Context(), path, message)
			if err != nil {
				return err
			}
			return stream.SendMsg(body)
		}))
	go n.server.Serve(listener)
	t.Cleanup(n.server.Stop)
	return n
}

func (n *nodePlugin) keep(call string) {
	n.mutex.Lock()
	defer n.mutex.Unlock()
	n.calls = append(n.calls, call)
}

func (n *nodePlugin) seen() []string {
	n.mutex.Lock()
	defer n.mutex.Unlock()
	return append([]string(nil), n.calls...)
}

func (n *nodePlugin) wantCalls(t *testing.T, want ...string) {
	t.Helper()
	if calls := n.seen(); strings.Join(calls, ", ") != strings.Join(want, ", ") {
		t.Errorf("the node plugin saw %.300q, wanted %.300q", calls, want)
	}
}

// called waits until the node plugin has got count calls.
func (n *nodePlugin) called(t *testing.T, count int) {
	t.Helper()
	processes.GoesOn(t, "calls at the node plugin", count, func() int { return len(n.seen()) })
}

// replies returns a function that gives each call the same answer: the body of want, or its code
// and text.
func replies(t *testing.T, want answer) respond {
	t.Helper()
	body := fromHex(t, want.body)
	return func(context.Context, string, []byte) ([]byte, error) {
		return body, status.Error(want.code, want.text)
	}
}

// hangs answers a call only after its caller has given it up.
func hangs(ctx context.Context, _ string, _ []byte) ([]byte, error) {
	<-ctx.Done()
	return nil, status.FromContextError(ctx.Err()).Err()
}

func nodeSocket(t *testing.T) string {
	t.Helper()
	return filepath.Join(processes.Folder(t), "node.sock")
}

// startBoth starts a fake csid that is ready, a node plugin, and a front for both. It also returns
// a client of the front.
func startBoth(t *testing.T, answers respond) (*fake, *nodePlugin, *client) {
	t.Helper()
	csid, plugin := startFake(t), startNode(t, nodeSocket(t), answers)
	return csid, plugin, newClient(t, processes.StartFront(t, csid.socket, "--node", plugin.socket).Socket)
}

// A call of the Node service reaches the node plugin unchanged. Its reply or status reaches the
// caller unchanged.
func TestNodeCalls(t *testing.T) {
	t.Parallel()
	const stage = nodeService + "NodeStageVolume"
	rows := []struct {
		name, path, message string
		want                answer
	}{
		{"a message", stage, "0a05 766f6c2d31", ok("0a01 61")},
		{"no bytes", stage, "", ok("")},
		{"bytes that are no message", stage, "ff00ff", ok("fe")},
		{"the longest message", stage, strings.Repeat("5a", 1<<20), ok("")},
		{"the longest reply", nodeService + "NodeGetInfo", "", ok(strings.Repeat("5a", 4<<20))},
		{"a method that the front does not know", nodeService + "Later", "01", ok("02")},
		{"a refusal", stage, "", refused(codes.FailedPrecondition, "the volume is not staged")},
		{"a text with other characters", stage, "", refused(codes.Internal, "mount: \u201e50 %\u201c\n")},
		{"a code that csid never answers", stage, "", refused(codes.Unauthenticated, "")},
		{"the code of a plugin that ends", stage, "", refused(codes.Unavailable, "ends")},
	}
	for _, row := range rows {
		row := row
		t.Run(row.name, func(t *testing.T) {
			t.Parallel()
			csid, plugin, front := startBoth(t, replies(t, row.want))
			front.wantReply(t, row.path, row.message, row.want)
			plugin.wantCalls(t, row.path+" "+strings.ReplaceAll(row.message, " ", ""))
			csid.wantCalls(t)
		})
	}
}

// The caller gets the details of a status unchanged.
func TestDetailsOfANodeCall(t *testing.T) {
	t.Parallel()
	given, err := status.New(codes.Internal, "mount failed").
		WithDetails(&grpc_health_v1.HealthCheckRequest{Service: "vol-1"}, &empty.Empty{})
	if err != nil {
		t.Fatal(err)
	}
	_, _, front := startBoth(t, func(context.Context, string, []byte) ([]byte, error) { return nil, given.Err() })
	var body []byte
	err = front.Invoke(soon(t, processes.Patience), nodeService+"NodeStageVolume", []byte{}, &body)
	if got := status.Convert(err); !proto.Equal(got.Proto(), given.Proto()) {
		t.Errorf("%v, wanted %v", got.Proto(), given.Proto())
	}
}

// The service in the path of a call decides if csid or the node plugin answers the call.
func TestWhoAnswersACall(t *testing.T) {
	t.Parallel()
	const ofCsid, ofNode = "0a0463736964", "0a046e6f6465"
	rows := []struct{ path, want string }{
		{nodeService + "NodeGetInfo", ofNode},
		{nodeService + "ControllerGetCapabilities", ofNode},
		{"/csi.v1.Nodes/NodeGetInfo", ofCsid},
		{identity + "GetPluginInfo", ofCsid},
		{identity + "GetPluginCapabilities", ofCsid},
		{controller + "ControllerGetCapabilities", ofCsid},
		{controller + "NodeGetInfo", ofCsid},
	}
	for _, row := range rows {
		csid := startFake(t, step{write: okFrame(ofCsid)})
		plugin := startNode(t, nodeSocket(t), replies(t, ok(ofNode)))
		front := newClient(t, processes.StartFront(t, csid.socket, "--node", plugin.socket).Socket)
		front.wantReply(t, row.path, "", ok(row.want))
	}
}

// Without --node, and over the control socket, a call of the Node service goes to csid, which does
// not know it.
func TestNodeCallsOfCsid(t *testing.T) {
	t.Parallel()
	const info, unknown = nodeService + "NodeGetInfo", "unknown method"
	csid := processes.StartCsid(t)
	front := newClient(t, processes.StartFront(t, csid.Socket()).Socket)
	front.wantReply(t, info, "", refused(codes.Unimplemented, unknown))
	plugin := startNode(t, nodeSocket(t), replies(t, ok("")))
	_, socket := controlled(t, csid.Socket(), "--node", plugin.socket)
	reply, err := control(t, socket, frameOf(t, info, ""))
	if err != nil || reply.Code != codes.Unimplemented || reply.Text != unknown {
		t.Errorf("%v, %v", reply, err)
	}
	plugin.wantCalls(t)
}

// The plugin gets the deadline of the caller, and the caller has an answer by then.
func TestDeadlineOfANodeCall(t *testing.T) {
	t.Parallel()
	const length = 500 * time.Millisecond
	left := make(chan time.Duration, 1)
	_, _, front := startBoth(t, func(ctx context.Context, path string, message []byte) ([]byte, error) {
		deadline, _ := ctx.Deadline()
		left <- time.Until(deadline)
		return hangs(ctx, path, message)
	})
	if got := front.send(soon(t, length), nodeService+"NodeStageVolume", nil); got.code != codes.DeadlineExceeded {
		t.Errorf("%v, wanted DEADLINE_EXCEEDED", got)
	}
	if got := <-left; got <= 0 || got > length {
		t.Errorf("the plugin had %v", got)
	}
}

// The plugin learns that a caller gives up, or closes its connection.
func TestNodeCallThatIsGivenUp(t *testing.T) {
	t.Parallel()
	for _, name := range []string{"cancelled", "gone"} {
		name := name
		t.Run(name, func(t *testing.T) {
			t.Parallel()
			ended := make(chan error, 1)
			_, plugin, front := startBoth(t, func(ctx context.Context, path string, message []byte) ([]byte, error) {
				<-ctx.Done()
				ended <- ctx.Err()
				return nil, nil
			})
			ctx, cancel := context.WithCancel(context.Background())
			defer cancel()
			go func() {
				plugin.called(t, 1)
				if name == "gone" {
					front.Close()
				}
				cancel()
			}()
			got := front.send(ctx, nodeService+"NodeStageVolume", nil)
			if name == "cancelled" && got.code != codes.Canceled {
				t.Errorf("%v, wanted CANCELLED", got)
			}
			if got := <-ended; got != context.Canceled {
				t.Errorf("the plugin saw %v", got)
			}
		})
	}
}

// isAway makes a call of the Node service while the node plugin is away, and checks that it is
// refused at once.
func isAway(t *testing.T, front *client) {
	t.Helper()
	begin := time.Now()
	got := front.call(t, nodeService+"NodeGetInfo", "")
	if got.code != codes.Unavailable || !strings.HasPrefix(got.text, "node plugin: ") {
		t.Errorf("%v, wanted UNAVAILABLE", got)
	}
	if spent := time.Since(begin); spent > 4*time.Second {
		t.Errorf("it took %v", spent)
	}
}

// A node plugin may start after the front, and may be started again. The next call reaches it.
func TestNodePluginThatIsStartedAgain(t *testing.T) {
	t.Parallel()
	socket := nodeSocket(t)
	front := newClient(t, processes.StartFront(t, startFake(t).socket, "--node", socket).Socket)
	for round := 0; round < 3; round++ {
		isAway(t, front)
		plugin := startNode(t, socket, replies(t, ok("01")))
		front.wantReply(t, nodeService+"NodeGetInfo", "", ok("01"))
		plugin.server.Stop()
	}
	// A socket without a listener, as a killed plugin leaves it.
	listener, err := net.ListenUnix("unix", &net.UnixAddr{Name: socket, Net: "unix"})
	if err != nil {
		t.Fatal(err)
	}
	listener.SetUnlinkOnClose(false)
	listener.Close()
	isAway(t, front)
}

// A call that runs when the plugin ends gets UNAVAILABLE, and is not sent to the next plugin.
func TestNodePluginThatEndsInACall(t *testing.T) {
	t.Parallel()
	_, plugin, front := startBoth(t, hangs)
	reply := make(chan answer)
	go func() { reply <- front.send(soon(t, processes.Patience), nodeService+"NodeStageVolume", nil) }()
	plugin.called(t, 1)
	plugin.server.Stop()
	next := startNode(t, plugin.socket, replies(t, ok("")))
	if got := <-reply; got.code != codes.Unavailable {
		t.Errorf("%v, wanted UNAVAILABLE", got)
	}
	next.wantCalls(t)
}

// mute returns the path of a listening socket whose connections are never accepted.
func mute(t *testing.T) string {
	t.Helper()
	socket := nodeSocket(t)
	listener, err := net.Listen("unix", socket)
	if err != nil {
		t.Fatal(err)
	}
	t.Cleanup(func() { listener.Close() })
	return socket
}

// While a node plugin sends nothing, or answers no call, the calls of csid go on.
func TestNodePluginThatHangs(t *testing.T) {
	t.Parallel()
	silent := mute(t)
	sockets := map[string]string{"no HTTP/2": silent, "no reply": startNode(t, nodeSocket(t), hangs).socket}
	for name, socket := range sockets {
		name, socket := name, socket
		t.Run(name, func(t *testing.T) {
			t.Parallel()
			csid := processes.StartCsid(t)
			front := newClient(t, processes.StartFront(t, csid.Socket(), "--node", socket).Socket)
			ctx, cancel := context.WithCancel(context.Background())
			defer cancel()
			for call := 0; call < 8; call++ {
				go front.send(ctx, nodeService+"NodeStageVolume", make([]byte, 1<<20))
			}
			for call := 0; call < 20; call++ {
				front.wantReply(t, controller+"CreateVolume", createA, ok(volume1))
			}
		})
	}
	t.Run("a call without a deadline", func(t *testing.T) {
		t.Parallel()
		front := newClient(t, processes.StartFront(t, startFake(t).socket, "--node", silent).Socket)
		begin := time.Now()
		got := front.call(t, nodeService+"NodeGetInfo", "")
		if got.code != codes.Unavailable || !strings.HasPrefix(got.text, "node plugin: ") {
			t.Errorf("%v, wanted UNAVAILABLE", got)
		}
		if spent := time.Since(begin); spent < 5*time.Second || spent > 10*time.Second {
			t.Errorf("it took %v", spent)
		}
	})
}

// At most 64 calls run at the node plugin. One more is refused at once. Calls of csid and Probe do
// not wait for these calls, and the messages of these calls take no room from theirs.
func TestTooManyNodeCalls(t *testing.T) {
	t.Parallel()
	const most = 64
	let := make(chan struct{})
	plugin := startNode(t, nodeSocket(t), func(_ context.Context, path string, _ []byte) ([]byte, error) {
		if path == probe {
			return fromHex(t, ready), nil
		}
		<-let
		return nil, nil
	})
	process, monitor := watched(t, startFake(t).socket, "--node", plugin.socket, "--waiting", "1")
	front := newClient(t, process.Socket)
	const stage = nodeService + "NodeStageVolume"
	replies := make(chan answer, most)
	for call := 0; call < most; call++ {
		go func() { replies <- front.send(context.Background(), stage, make([]byte, 64<<10)) }()
	}
	plugin.called(t, most)
	front.wantReply(t, stage, "", refused(codes.Unavailable, "node plugin: 64 calls run already"))
	front.wantReply(t, controller+"CreateVolume", strings.Repeat("00", 1<<20), ok(ready))
	front.wantReply(t, probe, "", ok(ready))
	wantSeries(t, series(t, monitor), "csid_front_node_calls", map[string]string{"csid_front_node_calls": "64"})
	close(let)
	for call := 0; call < most; call++ {
		if got := <-replies; got != ok("") {
			t.Errorf("%v", got)
		}
	}
	front.wantReply(t, stage, "", ok(""))
}

// A message that is too long is refused before the plugin gets it. A reply that is too long is
// refused too.
func TestNodeMessagesThatAreTooLong(t *testing.T) {
	t.Parallel()
	_, plugin, front := startBoth(t, replies(t, ok("")))
	tooLong := refused(codes.ResourceExhausted, "grpc: received message larger than max (1048577 vs. 1048576)")
	front.wantReply(t, nodeService+"NodeStageVolume", strings.Repeat("00", 1<<20+1), tooLong)
	plugin.wantCalls(t)
	_, _, front = startBoth(t, replies(t, ok(strings.Repeat("00", 4<<20+1))))
	front.wantReply(t, nodeService+"NodeGetInfo", "",
		refused(codes.ResourceExhausted, "grpc: received message larger than max (4194305 vs. 4194304)"))
}

// Probe has the answer of csid. If csid is ready and the node plugin is not, Probe has the answer
// of the node plugin.
func TestProbeOfBoth(t *testing.T) {
	t.Parallel()
	const notReady, nothing, other = "0a020800", "", "0a020801 1001"
	rejected := refused(codes.FailedPrecondition, "no disk")
	csidRejected := refused(codes.FailedPrecondition, "csid has none")
	rows := []struct {
		name             string
		csid, node, want answer
	}{
		{"both are ready", ok(ready), ok(other), ok(ready)},
		{"csid says nothing", ok(nothing), ok(ready), ok(nothing)},
		{"the node plugin says nothing", ok(ready), ok(nothing), ok(ready)},
		{"csid is not ready", ok(notReady), ok(ready), ok(notReady)},
		{"the node plugin is not ready", ok(ready), ok("0a00"), ok("0a00")},
		{"neither is ready", ok(notReady), ok("0a00"), ok(notReady)},
		{"csid refuses", csidRejected, ok(ready), csidRejected},
		{"the node plugin refuses", ok(ready), rejected, rejected},
		{"both refuse", csidRejected, rejected, csidRejected},
		{"the reply of the node plugin is malformed", ok(ready), ok("0a05"), ok("0a05")},
	}
	for _, row := range rows {
		row := row
		t.Run(row.name, func(t *testing.T) {
			t.Parallel()
			reply := okFrame(row.csid.body)
			if row.csid.code != codes.OK {
				reply = refusalFrame(byte(row.csid.code), row.csid.text)
			}
			csid := startFake(t, step{write: reply})
			plugin := startNode(t, nodeSocket(t), replies(t, row.node))
			front := newClient(t, processes.StartFront(t, csid.socket, "--node", plugin.socket).Socket)
			front.wantReply(t, probe, "", row.want)
		})
	}
}

// If csid or the node plugin is not reachable, Probe is UNAVAILABLE, with the reason.
func TestProbeOfOneThatIsAway(t *testing.T) {
	t.Parallel()
	absent := nodeSocket(t)
	csid, plugin := startFake(t), startNode(t, nodeSocket(t), replies(t, ok(ready)))
	for _, row := range []struct{ name, csid, node, want string }{
		{"csid", absent, plugin.socket, "csid: "},
		{"the node plugin", csid.socket, absent, "node plugin: "},
		{"both", absent, absent + ".node", "csid: "},
	} {
		got := newClient(t, processes.StartFront(t, row.csid, "--node", row.node).Socket).call(t, probe, "")
		isNamed := strings.HasPrefix(got.text, row.want) && strings.Contains(got.text, absent)
		if got.code != codes.Unavailable || !isNamed {
			t.Errorf("%s: %v", row.name, got)
		}
	}
}

// The plugin as a whole and its Identity service are healthy if both programs are. The Controller
// service depends on csid alone, and the Node service on the node plugin alone.
func TestHealthOfBoth(t *testing.T) {
	t.Parallel()
	const (
		serving    = grpc_health_v1.HealthCheckResponse_SERVING
		notServing = grpc_health_v1.HealthCheckResponse_NOT_SERVING
	)
	type statuses = map[string]grpc_health_v1.HealthCheckResponse_ServingStatus
	const all, ofIdentity, ofController, ofNode = "", "csi.v1.Identity", "csi.v1.Controller", "csi.v1.Node"
	absent := nodeSocket(t)
	csid, plugin := startFake(t), startNode(t, nodeSocket(t), replies(t, ok(ready)))
	rows := []struct {
		name, csid, node string
		up, status       string
		serves           map[string]grpc_health_v1.HealthCheckResponse_ServingStatus
	}{
		{"both", csid.socket, plugin.socket, "1", "200",
			statuses{all: serving, ofIdentity: serving, ofController: serving, ofNode: serving}},
		{"csid alone", csid.socket, absent, "0", "503",
			statuses{all: notServing, ofIdentity: notServing, ofController: serving, ofNode: notServing}},
		{"the node plugin alone", absent, plugin.socket, "1", "503",
			statuses{all: notServing, ofIdentity: notServing, ofController: notServing, ofNode: serving}},
	}
	for _, row := range rows {
		row := row
		t.Run(row.name, func(t *testing.T) {
			process, monitor := watched(t, row.csid, "--node", row.node, "--health")
			health := newHealth(t, process.Socket)
			for service, want := range row.serves {
				health.wantReply(t, service, want, codes.OK)
			}
			if code, text := get(t, monitor+"/healthz"); fmt.Sprint(code) != row.status {
				t.Errorf("/healthz: %d, %q", code, text)
			}
			up := map[string]string{"csid_front_node_plugin_up": row.up}
			wantSeries(t, series(t, monitor), "csid_front_node_plugin_up", up)
		})
	}
}

// Calls of the Node service are counted and logged like other calls. Without --node they have no
// series.
func TestMetricsOfNodeCalls(t *testing.T) {
	t.Parallel()
	const stage, info = nodeService + "NodeStageVolume", nodeService + "NodeGetInfo"
	plugin := startNode(t, nodeSocket(t), replies(t, refused(codes.Internal, "mount failed")))
	process, monitor := watched(t, startFake(t).socket, "--node", plugin.socket)
	front := newClient(t, process.Socket)
	for _, path := range []string{stage, stage, nodeService + "Later"} {
		front.wantReply(t, path, "", refused(codes.Internal, "mount failed"))
	}
	got := series(t, monitor)
	wantSeries(t, counted(got), "csid_front_calls_total", map[string]string{
		`csid_front_calls_total{code="Internal",method="` + stage + `"}`: "2",
		`csid_front_calls_total{code="Internal",method="other"}`:         "1",
	})
	const okInfo = `csid_front_calls_total{code="OK",method="` + info
	wantSeries(t, got, okInfo, map[string]string{okInfo + `"}`: "0"})
	wantSeries(t, got, "csid_front_call_duration_seconds_count", map[string]string{
		`csid_front_call_duration_seconds_count{method="` + stage + `"}`: "2",
		`csid_front_call_duration_seconds_count{method="other"}`:         "1",
	})
	processes.Eventually(t, "lines of the calls", func() bool {
		return strings.Count(process.Log.String(), "front: "+stage+` 13 "mount failed" `) == 2
	})
	_, monitor = watched(t, startFake(t).socket)
	for name := range series(t, monitor) {
		if strings.Contains(name, "csi.v1.Node") || strings.Contains(name, "csid_front_node_plugin") {
			t.Errorf("%s without --node", name)
		}
	}
}

// A front with --standby and --node serves the Node service from its start, even if csid does not
// serve. Such a front does not end when csid is silent.
func TestNodeWhileTheFrontStandsBy(t *testing.T) {
	t.Parallel()
	path := filepath.Join(processes.Folder(t), "csid.sock")
	plugin := startNode(t, nodeSocket(t), replies(t, ok(ready)))
	process := standingBy(t, path, "1s", "--node", plugin.socket, "--metrics", "127.0.0.1:0").Answers(t)
	monitor, front := monitorOf(t, process), newClient(t, process.Socket)
	serves := func(isReady bool) {
		t.Helper()
		front.wantReply(t, nodeService+"NodeGetInfo", "", ok(ready))
		standing := map[bool]string{true: "0", false: "1"}[isReady]
		wanted := map[string]string{"csid_front_standing_by": standing}
		wantSeries(t, series(t, monitor), "csid_front_standing_by", wanted)
		if isReady {
			front.wantReply(t, probe, "", ok(ready))
		} else {
			front.isLost(t, probe, "")
			front.isLost(t, controller+"ListVolumes", "")
		}
	}
	says(t, process, fmt.Sprintf("front: waits for csid: dial unix %s: connect: no such file or directory", path))
	serves(false)
	tables := filepath.Join(filepath.Dir(path), "volumes.db")
	server := exec.Command(processes.CsidProgram(t), "serve", "--socket", path, "--tables", tables)
	csid := processes.Start(t, path, server).Answers(t)
	says(t, process, "front: csid is ready")
	serves(true)
	csid.Kill()
	says(t, process, fmt.Sprintf("front: waits for csid: dial unix %s: connect: connection refused", path))
	serves(false)
	if code, text := get(t, monitor+"/livez"); code != http.StatusOK {
		t.Errorf("/livez: %d, %q", code, text)
	}
	process.Terminate(t)
	if status := process.Status(t); status != 0 {
		t.Errorf("status %d", status)
	}
	if _, err := os.Lstat(process.Socket); !os.IsNotExist(err) {
		t.Errorf("the socket: %v", err)
	}
}

// When the front gets a signal to end, a call that runs at the node plugin may go on for the time
// of --grace.
func TestNodeCallHasTheGrace(t *testing.T) {
	t.Parallel()
	let, replies := make(chan struct{}), make(chan answer, 1)
	plugin := startNode(t, nodeSocket(t), func(context.Context, string, []byte) ([]byte, error) {
		<-let
		return []byte{1}, nil
	})
	process := processes.StartFront(t, startFake(t).socket, "--node", plugin.socket)
	front := newClient(t, process.Socket)
	go func() { replies <- front.send(context.Background(), nodeService+"NodeStageVolume", nil) }()
	plugin.called(t, 1)
	process.Terminate(t)
	processes.Eventually(t, "the end of the socket", func() bool { return !processes.IsAnswered(process.Socket) })
	close(let)
	if got := <-replies; got != ok("01") {
		t.Errorf("%v", got)
	}
	if status := process.Status(t); status != 0 {
		t.Errorf("status %d", status)
	}
}
