package main

import (
	"bytes"
	"errors"
	"net"
	"os"
	"os/exec"
	"path/filepath"
	"reflect"
	"strings"
	"syscall"
	"testing"
	"time"
)

// patience limits each wait of a test.
const patience = time.Minute

// process is a running program. It is killed at the end of the test.
type process struct {
	*exec.Cmd
	ended chan struct{}
}

// start runs a program and waits until it answers on a socket. The environment variable has the
// path of the program; if it is not set, the path is `otherwise`.
func start(t *testing.T, variable, otherwise, socket string, words ...string) *process {
	t.Helper()
	program := os.Getenv(variable)
	if program == "" {
		program = otherwise
	}
	p := &process{exec.Command(program, words...), make(chan struct{})}
	var log bytes.Buffer
	p.Stderr = &log
	if err := p.Start(); err != nil {
		t.Fatal(err)
	}
	go func() {
		p.Wait()
		close(p.ended)
	}()
	t.Cleanup(p.kill)
	for end := time.Now().Add(patience); time.Now().Before(end); time.Sleep(2 * time.Millisecond) {
		if conn, err := net.Dial("unix", socket); err == nil {
			conn.Close()
			return p
		}
		select {
		case <-p.ended:
			t.Fatalf("%s ended: %s", program, &log)
		default:
		}
	}
	t.Fatalf("%s does not answer", program)
	return nil
}

func (p *process) kill() {
	p.Process.Kill()
	<-p.ended
}

// session is a node plugin, csid under the sample configuration (docs/OPERATING.md), and a front
// that hands calls to both.
type session struct {
	folder string
	words  []string
	front  *process
	node   *process
}

func newSession(t *testing.T, words ...string) *session {
	t.Helper()
	s := &session{folder: folder(t)}
	for _, name := range []string{"p1", "p2", "staging", "targets"} {
		if err := os.Mkdir(s.at(name), 0o755); err != nil {
			t.Fatal(err)
		}
	}
	start(t, "CSID", "../../crates/csid/out/csid", s.at("csid.sock"), "serve", "--socket", s.at("csid.sock"),
		"--tables", s.at("volumes.db"))
	s.front = start(t, "FRONT", "../front/out/front", s.at("csi.sock"), "--csid", s.at("csid.sock"),
		"--listen", s.at("csi.sock"), "--node", s.at("node.sock"))
	s.words = append([]string{"serve", "--listen", s.at("node.sock"), "--controller", s.at("csi.sock"), "--node", "n1",
		"--topology", "zone=a", "--max-volumes", "2", "--pool", "p1=" + s.at("p1"), "--pool", "p2=" + s.at("p2")},
		words...)
	s.startNode(t)
	return s
}

// startNode starts the node plugin, which replaces the socket of a killed one.
func (s *session) startNode(t *testing.T) {
	t.Helper()
	s.node = start(t, "NODE_PLUGIN", "out/node-plugin", s.at("node.sock"), s.words...)
}

func (s *session) at(name string) string { return filepath.Join(s.folder, name) }

// call makes a call and returns its output. AT/ stands for the session's folder in the message and
// in the output.
func (s *session) call(socket, method, message string) string {
	var out, log strings.Builder
	message = strings.ReplaceAll(message, "AT/", s.folder+"/")
	run([]string{"call", "--socket", s.at(socket), method, message}, &out, &log)
	return strings.ReplaceAll(strings.TrimSuffix(out.String()+log.String(), "\n"), s.folder+"/", "AT/")
}

// row is a call to the front or to the node plugin, and its expected output.
type row struct{ socket, method, message, want string }

func (s *session) run(t *testing.T, rows ...row) {
	t.Helper()
	for _, row := range rows {
		if got := s.call(row.socket, row.method, row.message); got != row.want {
			t.Errorf("%s %s: got %s, want %s", row.method, row.message, got, row.want)
		}
	}
}

// Names of sockets, parts of messages, and expected outputs.
const (
	controllerSocket = "csi.sock"
	nodeSocket       = "node.sock"
	asMount          = `{"mount":{"fs_type":"ext4","mount_flags":["noatime"]},"access_mode":{"mode":1}}`
	asBlock          = `{"block":{},"access_mode":{"mode":1}}`
	ofMount          = `,"volume_capability":` + asMount
	ofBlock          = `,"volume_capability":` + asBlock
	inPool1          = `,"volume_context":{"pool":"p1"}`
	staging          = `,"staging_target_path":"AT/staging"`
	target           = `,"target_path":"AT/targets/a"`
	vol1             = `"volume_id":"vol-1"`
	notStaged        = "node-plugin: FailedPrecondition: the volume is not staged"
	noVolume         = "node-plugin: NotFound: volume not found"
)

// attachedRows returns the calls with which an orchestrator gets a volume of 4 MiB for this node.
func attachedRows(as string) []row {
	return []row{
		{controllerSocket, "CreateVolume",
			`{"name":"a","capacity_range":{"required_bytes":4194304},"volume_capabilities":[` + as + `]}`,
			`{"volume":{"capacity_bytes":4194304,"volume_id":"vol-1","volume_context":{"pool":"p1"},` +
				`"accessible_topology":[{"segments":{"zone":"a"}}]}}`},
		{controllerSocket, "ControllerPublishVolume",
			`{` + vol1 + `,"node_id":"n1","volume_capability":` + as + `}`,
			`{"publish_context":{"readonly":"false"}}`},
	}
}

func stageRow(of string) row {
	return row{nodeSocket, "NodeStageVolume", `{` + vol1 + staging + of + inPool1 + `}`, "{}"}
}

func publishRow(of, more string) row {
	return row{nodeSocket, "NodePublishVolume", `{` + vol1 + staging + target + of + more + `}`, "{}"}
}

var (
	unpublishRow = row{nodeSocket, "NodeUnpublishVolume", `{` + vol1 + target + `}`, "{}"}
	unstageRow   = row{nodeSocket, "NodeUnstageVolume", `{` + vol1 + staging + `}`, "{}"}
)

// answers returns the row with another expected output.
func (r row) answers(want string) row {
	r.want = want
	return r
}

func (s *session) writes(t *testing.T, name string) {
	t.Helper()
	if err := os.WriteFile(s.at(name), []byte("kept"), 0o644); err != nil {
		t.Error(err)
	}
}

func (s *session) finds(t *testing.T, name string) {
	t.Helper()
	if got, err := os.ReadFile(s.at(name)); err != nil || string(got) != "kept" {
		t.Errorf("%s: %q, %v", name, got, err)
	}
}

// isEmpty checks that nothing is staged or published.
func (s *session) isEmpty(t *testing.T) {
	t.Helper()
	for _, name := range []string{"staging", "targets"} {
		if left := names(t, s.at(name)); left != nil {
			t.Errorf("%s: got %v left, want nothing", name, left)
		}
	}
}

// testLife makes the calls of an orchestrator for a volume, from its creation to its deletion, most
// of them twice. A file in the volume outlasts a restart of the plugin.
func testLife(t *testing.T, s *session) {
	s.run(t, attachedRows(asMount)...)
	s.run(t, publishRow(ofMount, "").answers(notStaged))
	s.run(t, stageRow(ofMount), stageRow(ofMount), publishRow(ofMount, ""), publishRow(ofMount, ""))
	s.writes(t, "targets/a/file")
	s.run(t, unpublishRow, unpublishRow, unstageRow, unstageRow)
	s.isEmpty(t)
	s.run(t, publishRow(ofMount, "").answers(notStaged))
	s.node.kill()
	s.startNode(t)
	s.run(t, stageRow(ofMount), publishRow(ofMount, ""))
	s.finds(t, "targets/a/file")
	s.run(t, unpublishRow, unstageRow)
	s.isEmpty(t)
	s.run(t,
		row{controllerSocket, "ControllerUnpublishVolume", `{` + vol1 + `,"node_id":"n1"}`, "{}"},
		row{controllerSocket, "DeleteVolume", `{` + vol1 + `}`, "{}"})
}

func TestLifeInFolders(t *testing.T) {
	t.Parallel()
	testLife(t, newSession(t, "--without-devices"))
}

// An orchestrator that knows only the front's socket reaches Identity, Controller and Node over it.
func TestOneSocket(t *testing.T) {
	t.Parallel()
	s := newSession(t, "--without-devices")
	here := func(rows ...row) {
		t.Helper()
		for _, row := range rows {
			row.socket = controllerSocket
			s.run(t, row)
		}
	}
	// The name, the version and the first capability, a controller service, come from csid.
	here(row{"", "GetPluginInfo", "", `{"name":"pools.example.org","vendor_version":"1.0.0"}`},
		row{"", "GetPluginCapabilities", "", `{"capabilities":[{"service":{"type":1}},{"service":{"type":2}}]}`},
		row{"", "Probe", "", `{"ready":{"value":true}}`},
		row{"", "NodeGetInfo", "",
			`{"node_id":"n1","max_volumes_per_node":2,"accessible_topology":{"segments":{"zone":"a"}}}`},
		row{"", "NodeGetCapabilities", "", `{"capabilities":[{"rpc":{"type":1}},{"rpc":{"type":2}}]}`})
	here(attachedRows(asMount)...)
	here(publishRow(ofMount, "").answers(notStaged), stageRow(ofMount), publishRow(ofMount, ""))
	s.writes(t, "targets/a/file")
	s.finds(t, "p1/vol-1.d/file")
	here(unpublishRow, unstageRow,
		row{"", "ControllerUnpublishVolume", `{` + vol1 + `,"node_id":"n1"}`, "{}"},
		row{"", "DeleteVolume", `{` + vol1 + `}`, "{}"})
	s.isEmpty(t)
	s.node.kill()
	got := s.call(controllerSocket, "Probe", "")
	if !strings.HasPrefix(got, "node-plugin: Unavailable: node plugin: ") {
		t.Errorf("Probe without the plugin: %s", got)
	}
	s.startNode(t)
	here(row{"", "Probe", "", `{"ready":{"value":true}}`})
}

// A missing staging folder is made, for the plugin's user and group alone; an existing one keeps
// its mode.
func testStagingFolder(t *testing.T, s *session) {
	s.run(t, attachedRows(asMount)...)
	for _, each := range []struct {
		path string
		mode os.FileMode
	}{{"new/staging", 0o750}, {"staging", 0o755}} {
		at := func(r row) row {
			r.message = strings.Replace(r.message, "AT/staging", "AT/"+each.path, 1)
			return r
		}
		s.run(t, at(unstageRow), at(stageRow(ofMount)), at(stageRow(ofMount)), at(publishRow(ofMount, "")))
		s.run(t, unpublishRow, at(unstageRow))
		file, err := os.Stat(s.at(each.path))
		if err != nil {
			t.Fatal(err)
		}
		if owner := file.Sys().(*syscall.Stat_t).Uid; file.Mode() != os.ModeDir|each.mode || int(owner) != os.Getuid() {
			t.Errorf("%s: %v of the user %d", each.path, file.Mode(), owner)
		}
	}
}

func TestStagingFolderOfFolders(t *testing.T) {
	t.Parallel()
	testStagingFolder(t, newSession(t, "--without-devices"))
}

// Probe is answered while a call waits for the controller.
func TestProbeDuringACall(t *testing.T) {
	t.Parallel()
	s := newSession(t, "--without-devices")
	if err := s.front.Process.Signal(syscall.SIGSTOP); err != nil {
		t.Fatal(err)
	}
	staged := make(chan string, 1)
	go func() { staged <- s.call(nodeSocket, "NodeStageVolume", `{`+vol1+staging+ofMount+inPool1+`}`) }()
	for begin := time.Now(); time.Since(begin) < time.Second; time.Sleep(50 * time.Millisecond) {
		s.run(t, row{nodeSocket, "Probe", "", `{"ready":{"value":true}}`})
	}
	select {
	case got := <-staged:
		t.Errorf("the call did not wait: %s", got)
	default:
	}
}

func TestWhatThePluginIs(t *testing.T) {
	t.Parallel()
	version, err := os.ReadFile("../../VERSION")
	if err != nil {
		t.Fatal(err)
	}
	newSession(t, "--without-devices").run(t,
		row{nodeSocket, "GetPluginInfo", "", `{"name":"pools.example.org","vendor_version":"` +
			strings.TrimSpace(string(version)) + `"}`},
		row{nodeSocket, "GetPluginCapabilities", "", `{"capabilities":[{"service":{"type":2}}]}`},
		row{nodeSocket, "Probe", "", `{"ready":{"value":true}}`},
		row{nodeSocket, "NodeGetInfo", "",
			`{"node_id":"n1","max_volumes_per_node":2,"accessible_topology":{"segments":{"zone":"a"}}}`},
		row{nodeSocket, "NodeGetCapabilities", "", `{"capabilities":[{"rpc":{"type":1}},{"rpc":{"type":2}}]}`},
		row{nodeSocket, "CreateVolume", "", "node-plugin: Unimplemented: unknown service csi.v1.Controller"})
}

// refusals returns calls of the node plugin, without the braces of their messages, and their
// output.
func refusals() []struct{ method, message, want string } {
	const (
		stage, unstage     = "NodeStageVolume", "NodeUnstageVolume"
		publish, unpublish = "NodePublishVolume", "NodeUnpublishVolume"
		stats              = "NodeGetVolumeStats"
	)
	invalid := func(text string) string { return "node-plugin: InvalidArgument: " + text }
	return []struct{ method, message, want string }{
		{stage, ``, invalid("volume_id is missing")},
		{stage, `"volume_id":"../vol-1"` + staging + ofMount + inPool1, noVolume},
		{stage, `"volume_id":"vol-1/.."` + staging + ofMount + inPool1, noVolume},
		{stage, `"volume_id":"vol-1\n"` + staging + ofMount + inPool1, noVolume},
		{stage, `"volume_id":"vol-01"` + staging + ofMount + inPool1, noVolume},
		{stage, `"volume_id":"vol-2"` + staging + ofMount + inPool1, noVolume},
		{stage, vol1 + ofMount + inPool1, invalid("staging_target_path is missing")},
		{stage, vol1 + `,"staging_target_path":"staging"` + ofMount + inPool1,
			invalid("staging_target_path is not absolute")},
		{stage, vol1 + staging + inPool1, invalid("volume_capability is missing")},
		{stage, vol1 + staging + inPool1 + `,"volume_capability":{"access_mode":{"mode":1}}`,
			invalid("volume_capability is not one of block and mount")},
		{stage, vol1 + staging + inPool1 + `,"volume_capability":{"block":{},"mount":{}}`,
			invalid("volume_capability is not one of block and mount")},
		{stage, vol1 + staging + inPool1 + ofBlock, invalid("there are no block devices with --without-devices")},
		{stage, vol1 + staging + inPool1 + ofMount + `,"publish_context":{"readonly":"true"}`,
			invalid("nothing is read-only with --without-devices")},
		{stage, vol1 + staging + ofMount, invalid("volume_context: the key pool is missing")},
		{stage, vol1 + staging + ofMount + `,"volume_context":{"pool":"p9"}`,
			`node-plugin: FailedPrecondition: the node has no folder for the pool "p9"`},
		{publish, ``, invalid("volume_id is missing")},
		{publish, `"volume_id":"../vol-1"` + staging + target + ofMount, noVolume},
		{publish, `"volume_id":"vol-2"` + staging + target + ofMount, noVolume},
		{publish, vol1 + staging + ofMount, invalid("target_path is missing")},
		{publish, vol1 + staging + ofMount + `,"target_path":"a"`, invalid("target_path is not absolute")},
		{publish, vol1 + target + ofMount, "node-plugin: FailedPrecondition: staging_target_path is missing"},
		{publish, vol1 + target + ofMount + `,"staging_target_path":"a"`,
			invalid("staging_target_path is not absolute")},
		{publish, vol1 + staging + target, invalid("volume_capability is missing")},
		{publish, vol1 + staging + target + ofBlock, invalid("there are no block devices with --without-devices")},
		{publish, vol1 + staging + target + ofMount + `,"readonly":true`,
			invalid("nothing is read-only with --without-devices")},
		{publish, vol1 + staging + target + ofMount, notStaged},
		{unstage, ``, invalid("volume_id is missing")},
		{unstage, `"volume_id":"../vol-1"` + staging, noVolume},
		{unstage, vol1, invalid("staging_target_path is missing")},
		{unstage, vol1 + `,"staging_target_path":"a"`, invalid("staging_target_path is not absolute")},
		{unstage, `"volume_id":"vol-2"` + staging, "{}"},
		{unpublish, ``, invalid("volume_id is missing")},
		{unpublish, `"volume_id":"../vol-1"` + target, noVolume},
		{unpublish, vol1, invalid("target_path is missing")},
		{unpublish, vol1 + `,"target_path":"a"`, invalid("target_path is not absolute")},
		{unpublish, `"volume_id":"vol-2"` + target, "{}"},
		{stats, ``, invalid("volume_id is missing")},
		{stats, `"volume_id":"../vol-1","volume_path":"AT/staging"`, noVolume},
		{stats, `"volume_id":"vol-2","volume_path":"AT/staging"`, noVolume},
		{stats, vol1, invalid("volume_path is missing")},
		{stats, vol1 + `,"volume_path":"a"`, invalid("volume_path is not absolute")},
		{stats, vol1 + `,"volume_path":"AT/staging"`, noVolume},
	}
}

func TestRefusals(t *testing.T) {
	t.Parallel()
	s := newSession(t, "--without-devices")
	s.run(t, attachedRows(asMount)...)
	for _, c := range refusals() {
		t.Run(c.method+" {"+c.message+"}", func(t *testing.T) {
			s.run(t, row{nodeSocket, c.method, "{" + c.message + "}", c.want})
		})
	}
	if made := names(t, s.at("p1"), s.at("p2"), s.at("staging"), s.at("targets")); made != nil {
		t.Errorf("got the new files %v, want none", made)
	}
}

// Other files at a path stay unchanged.
func TestOtherFilesAtPaths(t *testing.T) {
	t.Parallel()
	s := newSession(t, "--without-devices")
	s.run(t, attachedRows(asMount)...)
	s.run(t, stageRow(ofMount))
	s.writes(t, "targets/a")
	s.run(t,
		publishRow(ofMount, "").answers("node-plugin: AlreadyExists: something else is at AT/targets/a"),
		unpublishRow,
		row{nodeSocket, "NodeGetVolumeStats", `{` + vol1 + `,"volume_path":"AT/targets/a"}`,
			"node-plugin: NotFound: the volume is not at AT/targets/a"})
	s.finds(t, "targets/a")
}

// Without the controller, a volume with data can be staged. Staging another volume fails with
// UNAVAILABLE, so that the orchestrator repeats the call.
func TestControllerThatIsAway(t *testing.T) {
	t.Parallel()
	s := newSession(t, "--without-devices")
	s.run(t, attachedRows(asMount)...)
	s.run(t, stageRow(ofMount))
	s.front.kill()
	s.run(t, stageRow(ofMount), publishRow(ofMount, ""), unpublishRow, unstageRow)
	other := s.call(nodeSocket, "NodeStageVolume", `{"volume_id":"vol-2"`+staging+ofMount+inPool1+`}`)
	if !strings.HasPrefix(other, "node-plugin: Unavailable: ") {
		t.Error(other)
	}
}

// SIGTERM ends the plugin and removes its socket. The plugin replaces neither a socket in use nor
// another file.
func TestSocket(t *testing.T) {
	t.Parallel()
	s := newSession(t, "--without-devices")
	var out, log strings.Builder
	if status := run(s.words, &out, &log); status != exitFailure ||
		log.String() != "node-plugin: "+s.at("node.sock")+": somebody answers on it already\n" {
		t.Errorf("got %d, %q, want a socket in use", status, log.String())
	}
	if err := s.node.Process.Signal(syscall.SIGTERM); err != nil {
		t.Fatal(err)
	}
	<-s.node.ended
	if _, err := os.Lstat(s.at("node.sock")); s.node.ProcessState.ExitCode() != exitOK ||
		!errors.Is(err, os.ErrNotExist) {
		t.Errorf("got %v, socket error %v, want status 0 and no socket", s.node.ProcessState, err)
	}
	s.wantEndAtOnce(t)
	s.writes(t, "node.sock")
	log.Reset()
	if status := run(s.words, &out, &log); status != exitFailure ||
		log.String() != "node-plugin: "+s.at("node.sock")+": a file exists there that is no socket\n" {
		t.Errorf("got %d, %q, want another file", status, log.String())
	}
	s.finds(t, "node.sock")
}

// wantEndAtOnce checks that the plugin ends normally if the signal arrives as soon as its socket
// exists.
func (s *session) wantEndAtOnce(t *testing.T) {
	t.Helper()
	for i := 0; i < 20; i++ {
		node := exec.Command(s.node.Path, s.words...)
		if err := node.Start(); err != nil {
			t.Fatal(err)
		}
		for end := time.Now().Add(patience); time.Now().Before(end); {
			if _, err := os.Lstat(s.at("node.sock")); err == nil {
				break
			}
		}
		err := node.Process.Signal(syscall.SIGTERM)
		if ended := node.Wait(); err != nil || ended != nil {
			t.Errorf("%v, %v", err, ended)
		}
		if _, err := os.Lstat(s.at("node.sock")); !errors.Is(err, os.ErrNotExist) {
			t.Errorf("%v", err)
			os.Remove(s.at("node.sock"))
		}
	}
}

// The statistics of a volume in a folder are the statistics of the folder's file system.
func TestStatsOfFolders(t *testing.T) {
	t.Parallel()
	s := newSession(t, "--without-devices")
	s.run(t, attachedRows(asMount)...)
	s.run(t, stageRow(ofMount), publishRow(ofMount, ""))
	var of syscall.Statfs_t
	if err := syscall.Statfs(s.at("p1"), &of); err != nil {
		t.Fatal(err)
	}
	for _, path := range []string{s.at("staging"), s.at("targets/a")} {
		used, err := folders{}.usage(s.at("p1/vol-1.d"), path)
		if err != nil || used == nil || used.Total != int64(of.Blocks)*of.Frsize || used.Unit != 1 {
			t.Errorf("%s: got %v, error %v, want the file system of %+v", path, used, err, of)
		}
	}
	if listed := names(t, s.at("p1")); !reflect.DeepEqual(listed, []string{"vol-1.d"}) {
		t.Errorf("got the files %v, want vol-1.d", listed)
	}
}
