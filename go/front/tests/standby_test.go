package tests

import (
	"fmt"
	"net/http"
	"os"
	"os/exec"
	"path/filepath"
	"reflect"
	"strings"
	"testing"
	"time"

	"./processes"
)

// standingBy starts a front with --standby for a csid that may start later. The path of the front's
// socket already has a socket without a listener.
func standingBy(t *testing.T, csid, length string, words ...string) *processes.Process {
	t.Helper()
	socket := deadSocket(t)
	words = append([]string{"--csid", csid, "--listen", socket, "--standby", length}, words...)
	return processes.Start(t, socket, exec.Command(processes.FrontProgram(t), words...))
}

// says waits until the log of a front has a line.
func says(t *testing.T, p *processes.Process, line string) {
	t.Helper()
	processes.Eventually(t, "the line "+line+" in "+p.Log.String(),
		func() bool { return strings.Contains(p.Log.String(), line+"\n") })
}

// closings returns steps that close 50 connections without a reply, more than the front makes
// before it ends.
func closings() (all []step) {
	for len(all) < 50 {
		all = append(all, step{close: true})
	}
	return all
}

// Until csid is ready, the front makes no socket: the file of an earlier front's socket stays.
// Metrics and health are answered.
func TestStandbyWaits(t *testing.T) {
	t.Parallel()
	path := filepath.Join(processes.Folder(t), "csid.sock")
	front := standingBy(t, path, "1s", "--metrics", "127.0.0.1:0")
	before, err := os.Lstat(front.Socket)
	if err != nil {
		t.Fatal(err)
	}
	monitor := monitorOf(t, front)
	absent := fmt.Sprintf("dial unix %s: connect: no such file or directory", path)
	says(t, front, "front: waits for csid: "+absent)
	if status, text := get(t, monitor+"/healthz"); status != http.StatusServiceUnavailable ||
		text != "csid: "+absent+"\n" {
		t.Errorf("/healthz: %d, %q", status, text)
	}
	if status, text := get(t, monitor+"/livez"); status != http.StatusOK || text != "ok\n" {
		t.Errorf("/livez: %d, %q", status, text)
	}
	wantSeries(t, series(t, monitor), "csid_front_csid_up", map[string]string{"csid_front_csid_up": "0"})
	wantSeries(t, series(t, monitor), "csid_front_standing_by", map[string]string{"csid_front_standing_by": "1"})
	if after, err := os.Lstat(front.Socket); err != nil || !os.SameFile(before, after) ||
		processes.IsAnswered(front.Socket) {
		t.Errorf("the socket while it waits: %v, %v", after, err)
	}
	csid := (&fake{socket: path, steps: []step{{close: true}, {write: okFrame("0a020800")}}}).start(t)
	newClient(t, front.Answers(t).Socket).wantReply(t, probe, "", ok(ready))
	csid.wantCalls(t, probe+" ", probe+" ", probe+" ", probe+" ")
	lines := []string{
		"waits for csid: " + absent,
		"waits for csid: the connection was closed unanswered: see the log of csid",
		"waits for csid: csid is not ready",
		"csid is ready",
	}
	want := fmt.Sprintf("front: metrics at %s\nfront: %s\n", strings.TrimPrefix(monitor, "http://"),
		strings.Join(lines, "\nfront: "))
	if said := front.Log.String(); said != want {
		t.Errorf("logged %q, wanted %q", said, want)
	}
	if status, text := get(t, monitor+"/healthz"); status != http.StatusOK || text != "ok\n" {
		t.Errorf("/healthz: %d, %q", status, text)
	}
	wantSeries(t, series(t, monitor), "csid_front_standing_by", map[string]string{"csid_front_standing_by": "0"})
}

// A front that waits for csid ends at a signal, and leaves the file of an earlier front's socket.
func TestTermWhileItWaits(t *testing.T) {
	t.Parallel()
	for name, csid := range map[string]*fake{"closed": {closes: true}, "mute": {steps: []step{{mute: true}}}} {
		front := standingBy(t, csid.start(t).socket, "1s", "--log-format", "json")
		if name == "mute" {
			csid.called(t, 1)
		} else {
			csid.waitEnds(t, 1)
			processes.Eventually(t, "a line", func() bool { return front.Log.String() != "" })
		}
		begin := time.Now()
		front.Terminate(t)
		if status := front.Status(t); status != 0 || time.Since(begin) > 5*time.Second {
			t.Errorf("%s: status %d after %v", name, status, time.Since(begin))
		}
		var want []map[string]interface{}
		if name == "closed" {
			want = append(want, map[string]interface{}{"level": "info", "message": "waits for csid",
				"reason": "the connection was closed unanswered: see the log of csid"})
		}
		if got := objects(t, front); !reflect.DeepEqual(got, want) {
			t.Errorf("%s: logged %v", name, got)
		}
		if _, err := os.Lstat(front.Socket); err != nil || processes.IsAnswered(front.Socket) {
			t.Errorf("%s: the socket: %v", name, err)
		}
	}
}

// If another front has the socket or the address of metrics, the front ends as without --standby,
// and logs the reason.
func TestStandbyThatFindsAnother(t *testing.T) {
	t.Parallel()
	csid := startFake(t)
	other, monitor := watched(t, csid.socket)
	address := strings.TrimPrefix(monitor, "http://")
	rows := []struct{ words, line string }{
		{"--listen " + other.Socket, "front: " + other.Socket + ": somebody answers on it already"},
		{"--listen " + other.Socket + ".new --metrics " + address, "front: --metrics: listen tcp " + address +
			": bind: address already in use"},
	}
	for _, row := range rows {
		words := append([]string{"--csid", csid.socket, "--standby", "1m"}, strings.Fields(row.words)...)
		front := processes.Start(t, "", exec.Command(processes.FrontProgram(t), words...))
		if status := front.Status(t); status != 7 {
			t.Errorf("%s: status %d", row.words, status)
		}
		says(t, front, row.line)
	}
	newClient(t, other.Socket).wantReply(t, probe, "", ok(ready))
}

// If csid closes each connection for the time of --standby, the front ends and removes its socket.
// A closed connection is no sign of life.
func TestStandbyEnds(t *testing.T) {
	t.Parallel()
	csid := startFake(t, append([]step{{write: okFrame(ready), close: true}}, closings()...)...)
	front := standingBy(t, csid.socket, "1s", "--log-format", "json").Answers(t)
	begin := time.Now()
	if status := front.Status(t); status != 3 {
		t.Errorf("status %d", status)
	}
	if spent := time.Since(begin); spent > 5*time.Second {
		t.Errorf("it ended after %v", spent)
	}
	if _, err := os.Lstat(front.Socket); !os.IsNotExist(err) {
		t.Errorf("the socket: %v", err)
	}
	const reason = "the connection was closed unanswered: see the log of csid"
	got := objects(t, front)
	last := len(got) - 1
	if want := map[string]interface{}{"level": "info", "message": "csid is ready"}; !reflect.DeepEqual(got[0], want) {
		t.Errorf("logged %v", got[0])
	}
	if want := map[string]interface{}{"level": "error", "message": "the front ends",
		"error": "nothing was answered by csid for 1s: " + reason}; !reflect.DeepEqual(got[last], want) {
		t.Errorf("logged %v", got[last])
	}
	for _, line := range got[1:last] {
		// One Probe may have run out of time.
		if line["level"] != "warn" || line["message"] != "call refused" || line["path"] != probe ||
			line["code"] == 14.0 && line["text"] != "csid: "+reason {
			t.Errorf("logged %v", line)
		}
	}
}

// A call that runs when the front ends may go on for the time of --grace. No further call is taken.
func TestStandbyEndsDuringACall(t *testing.T) {
	t.Parallel()
	for name, grace := range map[string]string{"answered": "1m", "cut off": "200ms"} {
		name, grace := name, grace
		t.Run(name, func(t *testing.T) {
			t.Parallel()
			let, replies := make(chan struct{}), make(chan answer)
			csid := startFake(t, step{write: okFrame(ready)}, step{wait: let, write: okFrame("01")})
			process := standingBy(t, csid.socket, "1s", "--grace", grace).Answers(t)
			front := newClient(t, process.Socket)
			go func() { replies <- front.send(soon(t, processes.Patience), "/a/b", nil) }()
			csid.called(t, 2)
			processes.Eventually(t, "the end of the socket",
				func() bool { return !processes.IsAnswered(process.Socket) })
			wants := []string{"csid is ready", "nothing was answered by csid for 1s: context deadline exceeded"}
			if name == "answered" {
				close(let)
				if got := <-replies; got != ok("01") {
					t.Errorf("%v", got)
				}
			} else {
				<-replies
				close(let)
				wants = append(wants, "ended, and cut calls off")
			}
			if status := process.Status(t); status != 3 {
				t.Errorf("status %d", status)
			}
			for _, line := range wants {
				says(t, process, "front: "+line)
			}
			if _, err := os.Lstat(process.Socket); !os.IsNotExist(err) {
				t.Errorf("the socket: %v", err)
			}
		})
	}
}

// Without calls, the front sends a Probe every third of the limit, and the replies keep the front
// running.
func TestStandbyWithoutCalls(t *testing.T) {
	t.Parallel()
	csid := startFake(t)
	front := standingBy(t, csid.socket, "1s").Answers(t)
	time.Sleep(1500 * time.Millisecond)
	newClient(t, front.Socket).wantReply(t, probe, "", ok(ready))
	if calls, ends := csid.seen(); len(calls) < 3 || len(calls) > 8 || ends != 0 {
		t.Errorf("%d calls, %d connections ended", len(calls), ends)
	}
	if said := front.Log.String(); said != "front: csid is ready\n" {
		t.Errorf("logged %q", said)
	}
}
