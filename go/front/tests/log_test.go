package tests

import (
	"context"
	"encoding/json"
	"fmt"
	"io"
	"net"
	"os"
	"os/exec"
	"path/filepath"
	"reflect"
	"regexp"
	"strconv"
	"strings"
	"testing"
	"time"

	"./processes"
)

// objects returns the lines of a log in JSON, without their times. It checks that each time has the
// form of RFC 3339.
func objects(t *testing.T, p *processes.Process) (all []map[string]interface{}) {
	t.Helper()
	for in := json.NewDecoder(strings.NewReader(p.Log.String())); ; {
		var line map[string]interface{}
		if err := in.Decode(&line); err == io.EOF {
			return all
		} else if err != nil {
			t.Fatalf("%v: %s", err, p.Log)
		}
		said, _ := line["time"].(string)
		if _, err := time.Parse(time.RFC3339, said); err != nil {
			t.Errorf("the time %q: %v", said, err)
		}
		delete(line, "time")
		all = append(all, line)
	}
}

// Lines in JSON say the same as lines of text: which calls are refused, where metrics are, and how
// the front ends.
func TestLogInJSON(t *testing.T) {
	t.Parallel()
	csid := startFake(t, step{write: refusalFrame(9, "volume is in use")}, step{mute: true})
	process := processes.StartFront(t, csid.socket, "--log-format", "json", "--metrics", "127.0.0.1:0", "--grace",
		"100ms")
	front := newClient(t, process.Socket)
	front.call(t, "/a/refused", "")
	front.call(t, "/a/no path", "")
	go front.send(soon(t, processes.Patience), "/a/mute", nil)
	csid.called(t, 2)
	process.Terminate(t)
	if status := process.Status(t); status != 1 {
		t.Errorf("status %d", status)
	}
	got := objects(t, process)
	refused := func(path string, code float64, text string) map[string]interface{} {
		return map[string]interface{}{"level": "warn", "message": "call refused", "path": path, "code": code,
			"text": text}
	}
	want := []map[string]interface{}{
		{"level": "info", "message": "metrics"},
		refused("/a/refused", 9, "volume is in use"),
		refused(`"/a/no path"`, 12, "unknown method"),
		{"level": "error", "message": "ended, and cut calls off"},
	}
	if len(got) != len(want) {
		t.Fatalf("logged %v", got)
	}
	for i, line := range got {
		if address, is := line["address"].(string); is != (i == 0) || is && !strings.HasPrefix(address, "127.0.0.1:") {
			t.Errorf("the address in %v", line)
		}
		if spent, is := line["milliseconds"].(float64); is != (line["path"] != nil) || spent < 0 {
			t.Errorf("the milliseconds in %v", line)
		}
		delete(line, "address")
		delete(line, "milliseconds")
		if !reflect.DeepEqual(line, want[i]) {
			t.Errorf("logged %v, wanted %v", line, want[i])
		}
	}
}

// With --log-changes each call that changes volumes has a line, even if it is refused. The line has
// the name or the id of the volume and the node, and nothing else of the message. Other calls have
// no line.
func TestLogOfChanges(t *testing.T) {
	t.Parallel()
	const secrets = "2a07 0a0168 12027077"
	csid := startFake(t, step{write: okFrame(volume1)}, step{write: okFrame("")},
		step{write: refusalFrame(9, "volume is published elsewhere")},
		step{write: okFrame(vol1AtN1)}, step{write: okFrame("")},
		step{write: okFrame("")},
		step{write: okFrame(vol1AtN1)}, step{close: true})
	process, socket := controlled(t, csid.socket, "--log-changes")
	front := newClient(t, process.Socket)
	front.call(t, controller+"CreateVolume", createA+secrets)
	front.call(t, controller+"ListVolumes", "")
	front.call(t, controller+"ControllerPublishVolume", vol1+n1+block+secrets)
	if _, err := control(t, socket, frameOf(t, controller+"ControllerUnpublishVolume", vol1+n1)); err != nil {
		t.Error(err)
	}
	front.call(t, controller+"ControllerModifyVolume", vol1+"1a06 0a016b 120176")
	front.call(t, controller+"DeleteVolume", vol1)
	processes.Eventually(t, "five lines", func() bool { return strings.Count(process.Log.String(), "\n") >= 5 })
	want := []string{
		"CreateVolume 0 \"\" N ms name=a volume=vol-1",
		"ControllerPublishVolume 9 \"volume is published elsewhere\" N ms volume=vol-1 node=n1",
		fmt.Sprintf("control ControllerUnpublishVolume 0 \"\" N ms volume=vol-1 node=n1 uid=%d pid=%d", os.Getuid(),
			os.Getpid()),
		"ControllerModifyVolume 0 \"\" N ms volume=vol-1",
		"DeleteVolume 14 \"csid: the connection was closed unanswered: see the log of csid\" N ms volume=vol-1",
	}
	got := regexp.MustCompile(` [0-9]+ ms`).ReplaceAllString(strings.ReplaceAll(process.Log.String(), controller, ""),
		" N ms")
	if got != "front: "+strings.Join(want, "\nfront: ")+"\n" {
		t.Errorf("logged %q", got)
	}
}

// vol1AtN1 is the page of one entry (docs/PROTOCOL.md, "Messages"): the volume 'vol-1' at the node
// 'n1'.
const vol1AtN1 = "0a0f 0a07 1205 766f6c2d31 1204 0a026e31"

// A delete or an unpublish that removes nothing has no line.
func TestLogOfRemovalsOfNothing(t *testing.T) {
	t.Parallel()
	const vol2, n2 = "0a05 766f6c2d32", "1202 6e32"
	csid := startFake(t,
		// The look-up finds no volume, then another volume, and then the volume, but not at n2.
		step{write: okFrame("")}, step{write: okFrame("")},
		step{write: okFrame(vol1AtN1)}, step{write: okFrame("")},
		step{write: okFrame(vol1AtN1)}, step{write: okFrame("")},
		// No volume had this number yet.
		step{write: refusalFrame(10, "bad starting token")}, step{write: okFrame("")},
		// A text that is not an id of csid is not looked up.
		step{write: okFrame("")},
		// A refused call has a line. So does a call whose look-up was refused.
		step{write: okFrame("")}, step{write: refusalFrame(9, "volume is in use")},
		step{write: refusalFrame(13, "out of memory")}, step{write: okFrame("")})
	process, socket := controlled(t, csid.socket, "--log-changes")
	front := newClient(t, process.Socket)
	front.call(t, controller+"DeleteVolume", vol1)
	front.call(t, controller+"DeleteVolume", vol2)
	front.call(t, controller+"ControllerUnpublishVolume", vol1+n2)
	if _, err := control(t, socket, frameOf(t, controller+"DeleteVolume", vol2)); err != nil {
		t.Error(err)
	}
	front.call(t, controller+"DeleteVolume", "0a0161")
	front.call(t, controller+"DeleteVolume", vol1)
	front.call(t, controller+"ControllerUnpublishVolume", vol1)
	processes.Eventually(t, "two lines", func() bool { return strings.Count(process.Log.String(), "\n") >= 2 })
	want := "front: DeleteVolume 9 \"volume is in use\" N ms volume=vol-1\n" +
		"front: ControllerUnpublishVolume 0 \"\" N ms volume=vol-1\n"
	got := regexp.MustCompile(` [0-9]+ ms`).ReplaceAllString(strings.ReplaceAll(process.Log.String(), controller, ""),
		" N ms")
	if got != want {
		t.Errorf("logged %q", got)
	}
	// The page has one entry and begins with the volume: max_entries is 1, and the token is the
	// volume's number minus 1.
	if pages := csid.messagesOf(controller + "ListVolumes"); !reflect.DeepEqual(pages,
		[]string{"0801", "0801120131", "0801", "0801120131", "0801", "0801"}) {
		t.Errorf("csid was asked for %q", pages)
	}
}

// Without a journal each line begins with its time and level, except the line about refused
// arguments.
func TestLinesWithoutJournal(t *testing.T) {
	t.Parallel()
	const stamp = "[0-9]{4}-[0-9]{2}-[0-9]{2}T[0-9]{2}:[0-9]{2}:[0-9]{2}Z "
	absent := filepath.Join(processes.Folder(t), "absent", "csi.sock")
	for words, want := range map[string]string{
		"--csid csid.sock --listen " + absent: "^" + stamp + "error front: .*absent.*\n$",
		"--csid csid.sock --listen csid.sock": "^front: the two sockets are one\n$",
	} {
		command := exec.Command(processes.FrontProgram(t), strings.Fields(words)...)
		command.Env = append(os.Environ(), "JOURNAL_STREAM=")
		said, _ := command.CombinedOutput()
		if !regexp.MustCompile(want).Match(said) {
			t.Errorf("%s: got %q", words, said)
		}
	}
}

// Errors of the HTTP server of --metrics are lines of the front.
func TestLogOfTheHTTPServer(t *testing.T) {
	t.Parallel()
	process, monitor := watched(t, startFake(t).socket)
	get(t, monitor+"/else?a;b")
	processes.Eventually(t, "a second line", func() bool { return strings.Count(process.Log.String(), "\n") == 2 })
	if said := process.Log.String(); !strings.Contains(said, "\nfront: http: URL query contains semicolon") {
		t.Errorf("logged %q", said)
	}
}

// unread starts a front with the file errors as standard error. It returns the front and the URL of
// its metrics.
func unread(t *testing.T, csid string, errors *os.File) (*processes.Process, string) {
	t.Helper()
	free, err := net.Listen("tcp", "127.0.0.1:0")
	if err != nil {
		t.Fatal(err)
	}
	free.Close()
	socket, monitor := filepath.Join(processes.Folder(t), "csi.sock"), free.Addr().String()
	command := exec.Command(processes.FrontProgram(t), "--csid", csid, "--listen", socket, "--metrics", monitor,
		"--log-changes")
	command.Stderr = errors
	return processes.Start(t, socket, command).Answers(t), "http://" + monitor
}

// Calls are answered even if no reader takes the lines of standard error, or if the reader has
// gone. Lines for which there is no room are dropped and counted, and their number is written when
// the lines are read.
func TestUnreadLog(t *testing.T) {
	t.Parallel()
	const calls = 1100
	// Without a reader, one line is being written, the line about metrics, and 1,024 lines wait.
	pipe := processes.NewFullPipe(t)
	table := []struct {
		name    string
		errors  *os.File
		dropped string
	}{{"not read", pipe.Out, "76"}, {"closed", processes.ClosedPipe(t), "1101"}}
	for _, row := range table {
		process, monitor := unread(t, startFake(t).socket, row.errors)
		front := newClient(t, process.Socket)
		for i := 0; i < calls; i++ {
			ctx, cancel := context.WithTimeout(context.Background(), processes.Patience)
			_, got := create(ctx, front, fmt.Sprintf("pvc-%d", i))
			cancel()
			if got != ok(ready) {
				t.Fatalf("%s: call %d: %v", row.name, i, got)
			}
		}
		processes.Eventually(t, row.dropped+" lines dropped",
			func() bool { return series(t, monitor)["csid_front_log_lines_dropped_total"] == row.dropped })
		if row.name == "not read" {
			pipe.Read(t, "front: lines dropped, since standard error did not take them: 76\n")
			if lines := pipe.Lines(); len(lines) != 1026 || !strings.HasSuffix(lines[1024], " ms name=pvc-1023") {
				t.Errorf("%d lines, of which the last ones are %q", len(lines), lines[len(lines)-2:])
			}
		}
		process.Terminate(t)
		if status := process.Status(t); status != 0 {
			t.Errorf("%s: status %d", row.name, status)
		}
	}
}

// Ten lines about refused calls are written in a second, and then the number of the others. Changes
// always have their lines.
func TestManyLines(t *testing.T) {
	t.Parallel()
	const calls = 200
	process, socket := controlled(t, startFake(t).socket, "--log-changes")
	front := newClient(t, process.Socket)
	begin := time.Now()
	for i := 0; i < calls; i++ {
		front.call(t, "/a/no path", "")
		front.call(t, controller+"ControllerModifyVolume", vol1)
	}
	if _, err := control(t, socket, fromHex(t, "0081")); err != nil {
		t.Error(err)
	}
	seconds := 2 + int(time.Since(begin)/time.Second)
	process.Terminate(t)
	if status := process.Status(t); status != 0 {
		t.Errorf("status %d", status)
	}
	text := process.Log.String()
	refused, left, changed := strings.Count(text, `front: "/a/no path" 12 `), 0,
		strings.Count(text, `ControllerModifyVolume 0 ""`)
	for _, count := range regexp.MustCompile(`(?m)^front: lines left out, since more than 10 came in a second: `+
		`([0-9]+) \(.*\)$`).FindAllStringSubmatch(text, -1) {
		number, _ := strconv.Atoi(count[1])
		left += number
	}
	malformed := strings.Count(text, "front: control bad path length")
	if refused > 10*seconds || refused+left+malformed != calls+1 || changed != calls {
		t.Errorf("%d lines of refused calls in %d seconds, %d left out, %d of changes", refused, seconds, left, changed)
	}
}

// The end of the front does not wait long if no reader takes its last line.
func TestUnreadEnd(t *testing.T) {
	t.Parallel()
	for name, errors := range map[string]*os.File{"not read": processes.NewFullPipe(t).Out,
		"closed": processes.ClosedPipe(t)} {
		command := exec.Command(processes.FrontProgram(t), "--csid", "csid.sock", "--listen",
			filepath.Join(processes.Folder(t), "absent", "csi.sock"))
		command.Stderr = errors
		begin := time.Now()
		status := processes.Start(t, "", command).Status(t)
		if took := time.Since(begin); status != 7 || took > 5*time.Second {
			t.Errorf("%s: status %d after %v", name, status, took)
		}
	}
}

// The reason why a front does not start is a line in JSON. If the arguments are refused, the line
// is text.
func TestStartsThatFailInJSON(t *testing.T) {
	t.Parallel()
	socket := filepath.Join(processes.Folder(t), "absent", "csi.sock")
	refused := processes.Start(t, "", exec.Command(processes.FrontProgram(t), "--csid", "csid.sock", "--listen", socket,
		"--log-format", "json"))
	if status := refused.Status(t); status != 7 {
		t.Errorf("status %d", status)
	}
	want := []map[string]interface{}{{"level": "error", "message": "the front ends", "error": "open " +
		filepath.Dir(socket) + ": no such file or directory"}}
	if got := objects(t, refused); !reflect.DeepEqual(got, want) {
		t.Errorf("logged %v", got)
	}
	for _, words := range []string{"--log-format xml", "--log-format json --late -1s"} {
		command := exec.Command(processes.FrontProgram(t),
			append([]string{"--csid", "csid.sock", "--listen", socket}, strings.Fields(words)...)...)
		refuses(t, processes.Start(t, "", command), 2, "front: --l")
	}
}
