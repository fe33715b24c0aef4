package tests

import (
	"bufio"
	"bytes"
	"fmt"
	"io"
	"net"
	"net/http"
	"os"
	"os/exec"
	"path/filepath"
	"regexp"
	"strings"
	"testing"
	"time"

	"google.golang.org/grpc/codes"

	"./processes"
)

const getCapacity = controller + "GetCapacity"

// watched starts a front that serves metrics. It returns the front, and the URL of its HTTP server
// without a path.
func watched(t *testing.T, csid string, words ...string) (*processes.Process, string) {
	t.Helper()
	front := processes.StartFront(t, csid, append([]string{"--metrics", "127.0.0.1:0"}, words...)...)
	return front, monitorOf(t, front)
}

// monitorOf waits until a front has logged the address of its metrics, and returns the URL without
// a path.
func monitorOf(t *testing.T, front *processes.Process) string {
	t.Helper()
	var told []string
	processes.Eventually(t, "the address of metrics", func() bool {
		told = regexp.MustCompile(`(?m)^front: metrics at ` +
			`(127\.0\.0\.1:[1-9][0-9]*)$`).FindStringSubmatch(front.Log.String())
		return told != nil
	})
	return "http://" + told[1]
}

// get returns the status and the text of the answer at a URL.
func get(t *testing.T, url string) (int, string) {
	t.Helper()
	client := http.Client{Timeout: processes.Patience}
	answer, err := client.Get(url)
	if err != nil {
		t.Fatal(err)
	}
	defer answer.Body.Close()
	text, err := io.ReadAll(answer.Body)
	if err != nil {
		t.Fatal(err)
	}
	return answer.StatusCode, string(text)
}

// series returns the value of each series of the front itself, by its name with its labels.
func series(t *testing.T, monitor string) map[string]string {
	t.Helper()
	status, text := get(t, monitor+"/metrics")
	if status != http.StatusOK {
		t.Fatalf("status %d: %s", status, text)
	}
	all := map[string]string{}
	for _, line := range regexp.MustCompile(`(?m)^(csid_front_.*) (\S+)$`).FindAllStringSubmatch(text, -1) {
		all[line[1]] = line[2]
	}
	return all
}

// wantSeries checks that the series whose names begin with prefix are exactly the wanted ones,
// with the wanted values.
func wantSeries(t *testing.T, got map[string]string, prefix string, want map[string]string) {
	t.Helper()
	for name, value := range got {
		if strings.HasPrefix(name, prefix) && want[name] != value {
			t.Errorf("%s is %s, wanted %q", name, value, want[name])
		}
	}
	for name, value := range want {
		if _, is := got[name]; !is {
			t.Errorf("%s is not there, wanted %s", name, value)
		}
	}
}

// counted returns the series that are not 0.
func counted(all map[string]string) map[string]string {
	some := map[string]string{}
	for name, value := range all {
		if value != "0" {
			some[name] = value
		}
	}
	return some
}

// The series have the wanted values after calls of each kind. GetCapacity's field 3 is a topology,
// whose field 1 is a segment.
func TestMetrics(t *testing.T) {
	t.Parallel()
	const create, remove = controller + "CreateVolume", controller + "DeleteVolume"
	csid := startFake(t,
		step{write: okFrame("01")},
		step{write: refusalFrame(8, "no room in the topology")},
		step{write: refusalFrame(8, "no room in the topology")},
		step{write: refusalFrame(13, "store refused")},
		step{write: refusalFrame(13, "else")},
		step{write: refusalFrame(12, "unknown method")},
		step{write: okFrame(ready)},
		step{write: okFrame("0880808007 1205 0880808004")},
		step{write: okFrame("")},
		step{write: refusalFrame(3, "topology keys are alike")},
	)
	process, monitor := watched(t, csid.socket, "--metrics-topology", "zone=a", "--metrics-topology", "zone=b,Zone=b")
	front := newClient(t, process.Socket)
	for _, path := range []string{create, create, create, remove, remove, "/a/b", "/a/ b"} {
		front.call(t, path, "")
	}
	got := series(t, monitor)
	wantSeries(t, counted(got), "csid_front_calls_total", map[string]string{
		`csid_front_calls_total{code="OK",method="` + create + `"}`:                "1",
		`csid_front_calls_total{code="ResourceExhausted",method="` + create + `"}`: "2",
		`csid_front_calls_total{code="Unavailable",method="` + remove + `"}`:       "1",
		`csid_front_calls_total{code="Internal",method="` + remove + `"}`:          "1",
		`csid_front_calls_total{code="Unimplemented",method="other"}`:              "2",
	})
	wantSeries(t, got, "csid_front_call_duration_seconds_count", map[string]string{
		`csid_front_call_duration_seconds_count{method="` + create + `"}`: "3",
		`csid_front_call_duration_seconds_count{method="` + remove + `"}`: "2",
		`csid_front_call_duration_seconds_count{method="other"}`:          "2",
	})
	wantSeries(t, got, "csid_front_internal_refusals_total", map[string]string{
		`csid_front_internal_refusals_total{reason="out of memory"}`: "0",
		`csid_front_internal_refusals_total{reason="store refused"}`: "1",
		`csid_front_internal_refusals_total{reason="store is down"}`: "0",
	})
	wantSeries(t, got, "csid_front_available_capacity_bytes", map[string]string{
		`csid_front_available_capacity_bytes{topology=""}`:       "1.4680064e+07",
		`csid_front_available_capacity_bytes{topology="zone=a"}`: "0",
	})
	for name, value := range map[string]string{
		// There is one more connection after each reply with status 13.
		"csid_front_connections_total":         "3",
		"csid_front_connection_failures_total": "0",
		"csid_front_waiting_calls":             "0",
		"csid_front_csid_up":                   "1",
	} {
		wantSeries(t, got, name, map[string]string{name: value})
	}
	csid.wantCalls(t, create+" ", create+" ", create+" ", remove+" ", remove+" ", "/a/b ",
		probe+" ", getCapacity+" ", getCapacity+" 1a0b0a090a047a6f6e65120161",
		getCapacity+" 1a160a090a047a6f6e651201620a090a045a6f6e65120162")
	processes.Eventually(t, "what was refused in the log", func() bool {
		return strings.Contains(process.Log.String(), "front: "+getCapacity+` 3 "topology keys are alike" `)
	})
}

// Series that are known from the start begin at 0, so that their first increase is seen.
func TestMetricsBeforeAnyCall(t *testing.T) {
	t.Parallel()
	_, monitor := watched(t, startFake(t).socket)
	got := series(t, monitor)
	for _, name := range []string{
		`csid_front_calls_total{code="ResourceExhausted",method="` + controller + `CreateVolume"}`,
		`csid_front_calls_total{code="OK",method="` + probe + `"}`,
		`csid_front_calls_total{code="Unauthenticated",method="` + getCapacity + `"}`,
		`csid_front_internal_refusals_total{reason="store is down"}`,
	} {
		if got[name] != "0" {
			t.Errorf("%s is %q", name, got[name])
		}
	}
	// Without --standby this series is not reported. The alerts count the fronts that report it.
	wantSeries(t, got, "csid_front_standing_by", nil)
}

// The version and the metrics of Go and of the process are reported.
func TestMetricsOfTheProcess(t *testing.T) {
	t.Parallel()
	number, err := os.ReadFile("../../../VERSION")
	if err != nil {
		t.Fatal(err)
	}
	_, monitor := watched(t, startFake(t).socket)
	_, text := get(t, monitor+"/metrics")
	version := regexp.QuoteMeta(strings.TrimSpace(string(number)))
	for _, line := range []string{`csid_front_build_info\{goversion="go[0-9.]+",version="` + version +
		`"\} 1`, `go_goroutines [0-9]+`, `process_open_fds [0-9]+`} {
		if !regexp.MustCompile(`(?m)^` + line + `$`).MatchString(text) {
			t.Errorf("no line %s", line)
		}
	}
}

// Calls of many unknown methods add only one series for each code.
func TestMetricsOfInventedMethods(t *testing.T) {
	t.Parallel()
	process, monitor := watched(t, startFake(t).socket)
	front := newClient(t, process.Socket)
	for i := 0; i < 50; i++ {
		front.wantReply(t, fmt.Sprintf("/csi.v1.Controller/Invented%d", i), "", ok(ready))
	}
	got := series(t, monitor)
	wantSeries(t, counted(got), "csid_front_calls_total",
		map[string]string{`csid_front_calls_total{code="OK",method="other"}`: "50"})
	for name := range got {
		if strings.Contains(name, "Invented") {
			t.Error(name)
		}
	}
}

// While csid hangs, the metrics show that, and how many calls wait, within a short time. Afterwards
// the histogram has the durations of these calls.
func TestMetricsWhileCsidStandsStill(t *testing.T) {
	t.Parallel()
	let := make(chan struct{})
	csid := startFake(t, step{wait: let, write: okFrame("01")})
	process, monitor := watched(t, csid.socket)
	front := newClient(t, process.Socket)
	replies := make(chan answer)
	for call := 0; call < 3; call++ {
		go func() { replies <- front.send(soon(t, 3*processes.Patience), probe, nil) }()
	}
	csid.called(t, 1)
	begin := time.Now()
	health := make(chan string)
	go func() {
		status, text := get(t, monitor+"/healthz")
		health <- fmt.Sprint(status, " ", text)
	}()
	var got map[string]string
	processes.Eventually(t, "three calls that wait", func() bool {
		got = series(t, monitor)
		return got["csid_front_waiting_calls"] == "3"
	})
	if told := <-health; told != "503 context deadline exceeded\n" {
		t.Errorf("told %q", told)
	}
	if spent := time.Since(begin); spent > 20*time.Second {
		t.Errorf("it took %v", spent)
	}
	wantSeries(t, got, "csid_front_csid_up", map[string]string{"csid_front_csid_up": "0"})
	wantSeries(t, got, "csid_front_available_capacity_bytes", nil)
	close(let)
	for call := 0; call < 3; call++ {
		<-replies
	}
	bucket := func(bound string) string {
		return series(t, monitor)[`csid_front_call_duration_seconds_bucket{method="`+probe+`",le="`+bound+`"}`]
	}
	if least, short, long := bucket("0.001"), bucket("2.5"), bucket("60"); least != "0" || short != "0" || long != "3" {
		t.Errorf("%s calls took a millisecond at most, %s took 2.5 seconds, %s took 60", least, short, long)
	}
}

// If csid does not answer with a capacity in time, the capacity is left out, and the scrape is
// answered.
func TestMetricsWithoutACapacityInTime(t *testing.T) {
	t.Parallel()
	_, monitor := watched(t, startFake(t, step{write: okFrame(ready)}, step{mute: true}).socket)
	got := series(t, monitor)
	wantSeries(t, got, "csid_front_csid_up", map[string]string{"csid_front_csid_up": "1"})
	wantSeries(t, got, "csid_front_available_capacity_bytes", nil)
}

// While csid hangs, scrapes beyond the fourth are refused.
func TestScrapesAtOnce(t *testing.T) {
	t.Parallel()
	_, monitor := watched(t, startFake(t, step{mute: true}).socket)
	statuses := make(chan int, 7)
	processes.Together(cap(statuses), func(int) {
		status, _ := get(t, monitor+"/metrics")
		statuses <- status
	})
	close(statuses)
	counts := map[int]int{}
	for status := range statuses {
		counts[status]++
	}
	if counts[http.StatusOK] != 4 || counts[http.StatusServiceUnavailable] != 3 {
		t.Errorf("statuses %v", counts)
	}
}

// dialMonitor connects to the monitor at this URL. Reads and writes fail after processes.Patience,
// and the connection is closed at the end of the test.
func dialMonitor(t *testing.T, monitor string) net.Conn {
	t.Helper()
	conn, err := net.Dial("tcp", strings.TrimPrefix(monitor, "http://"))
	if err != nil {
		t.Fatal(err)
	}
	t.Cleanup(func() { conn.Close() })
	conn.SetDeadline(time.Now().Add(processes.Patience))
	return conn
}

// The connection of a client that does not send its whole request is closed, even if the client
// sends a line now and then.
func TestSilentScrape(t *testing.T) {
	t.Parallel()
	_, monitor := watched(t, startFake(t).socket)
	for name, goesOn := range map[string]bool{"silent": false, "slow": true} {
		conn := dialMonitor(t, monitor)
		io.WriteString(conn, "GET /metrics HTTP/1.1\r\n")
		go func(goesOn bool) {
			for goesOn {
				time.Sleep(100 * time.Millisecond)
				_, err := io.WriteString(conn, "a: b\r\n")
				goesOn = err == nil
			}
		}(goesOn)
		if _, err := io.ReadAll(conn); os.IsTimeout(err) {
			t.Errorf("%s: it was not closed: %v", name, err)
		}
	}
}

// A request may have 7 KiB of headers, and a request with 16 KiB is refused.
func TestHeadersOfARequest(t *testing.T) {
	t.Parallel()
	_, monitor := watched(t, startFake(t).socket)
	for size, want := range map[int]int{7 << 10: http.StatusOK, 16 << 10: http.StatusRequestHeaderFieldsTooLarge} {
		conn := dialMonitor(t, monitor)
		fmt.Fprintf(conn, "GET /metrics HTTP/1.1\r\nHost: a\r\nX-Long: %s\r\n\r\n", strings.Repeat("v", size))
		answer, err := http.ReadResponse(bufio.NewReader(conn), nil)
		if err != nil || answer.StatusCode != want {
			t.Errorf("%d bytes: %v, %v, wanted %d", size, answer, err, want)
		}
	}
}

// Headers that do not end take little memory, even on many connections.
func TestHeadersThatDoNotEnd(t *testing.T) {
	t.Parallel()
	const connections, lines = 40, 170000
	process, monitor := watched(t, startFake(t).socket)
	var headers bytes.Buffer
	headers.WriteString("GET /metrics HTTP/1.1\r\n")
	for i := 0; i < lines; i++ {
		fmt.Fprintf(&headers, "%x:\r\n", i)
	}
	processes.Together(connections, func(int) {
		conn := dialMonitor(t, monitor)
		conn.Write(headers.Bytes())
		io.Copy(io.Discard, conn)
	})
	// If a request could have 1 MiB of headers, the front would take more.
	if taken := process.ResidentBytes(t); taken > 128<<20 {
		t.Errorf("the front takes %d MiB", taken>>20)
	}
	get(t, monitor+"/metrics")
}

// At most 64 connections are open. A connection without a request is closed to make room for
// another one.
func TestConnectionsToMetrics(t *testing.T) {
	t.Parallel()
	const connections, most = 200, 64
	process, monitor := watched(t, startFake(t).socket)
	get(t, monitor+"/metrics")
	before := process.OpenFiles(t)
	for i := 0; i < connections; i++ {
		dialMonitor(t, monitor)
	}
	processes.Eventually(t, "connections that were closed for others", func() bool {
		return strings.Contains(process.Log.String(),
			"\nfront: a connection of --metrics without a call was closed for another one: 64 were open\n")
	})
	// One more connection may wait for room.
	if open := process.OpenFiles(t) - before; open > most+1 {
		t.Errorf("%d connections are open", open)
	}
	if status, _ := get(t, monitor+"/healthz"); status != http.StatusOK {
		t.Errorf("status %d", status)
	}
}

// The metrics have the free bytes of each topology. The sample configuration has 10 MiB in zone a
// and 4 MiB in zone b, and a volume takes 1 MiB in zone a and another 3 MiB in zone b.
func TestMetricsOfPools(t *testing.T) {
	t.Parallel()
	process, monitor := watched(t, processes.StartCsid(t).Socket(), "--metrics-topology", "zone=a",
		"--metrics-topology", "zone=b", "--metrics-topology", "zone=c")
	front := newClient(t, process.Socket)
	front.wantReply(t, controller+"CreateVolume", createA, ok(volume1))
	front.wantReply(t, controller+"CreateVolume", "0a0162"+threeB+block+zoneB, ok(volume2))
	wantSeries(t, series(t, monitor), "csid_front_available_capacity_bytes", map[string]string{
		`csid_front_available_capacity_bytes{topology=""}`:       "1.048576e+07",
		`csid_front_available_capacity_bytes{topology="zone=a"}`: "9.437184e+06",
		`csid_front_available_capacity_bytes{topology="zone=b"}`: "1.048576e+06",
		`csid_front_available_capacity_bytes{topology="zone=c"}`: "0",
	})
}

// A front that starts finds 205 volumes on three pages. It reports the bytes that they take of a
// pool of 1 TiB, and one attachment of a node.
func TestMetricsOfListings(t *testing.T) {
	t.Parallel()
	const volumes = 205
	csid := processes.NewServer(t, withNode).Start(t)
	earlier := processes.StartFront(t, csid.Socket())
	front := newClient(t, earlier.Socket)
	for i := 0; i < volumes; i++ {
		if _, got := create(soon(t, processes.Patience), front, fmt.Sprintf("pvc-%d", i)); got.code != codes.OK {
			t.Fatal(got)
		}
	}
	front.wantReply(t, controller+"ControllerPublishVolume", vol1+n1+block,
		ok("0a11 0a08 726561646f6e6c79 1205 66616c7365"))
	earlier.Kill()
	config := filepath.Join(processes.Folder(t), "config.toml")
	if err := os.WriteFile(config, []byte(withNode), 0o600); err != nil {
		t.Fatal(err)
	}
	_, monitor := watched(t, csid.Socket(), "--config", config)
	var got map[string]string
	processes.Eventually(t, "a listing", func() bool {
		got = series(t, monitor)
		return got["csid_front_listing_timestamp_seconds"] != ""
	})
	for name, value := range map[string]string{
		"csid_front_volumes": "205", "csid_front_max_volumes": "100000",
		`csid_front_pool_size_bytes{pool="p1"}`: "1.099511627776e+12",
		`csid_front_pool_used_bytes{pool="p1"}`: "2.1495808e+08",
		`csid_front_pool_free_bytes{pool="p1"}`: "1.099296669696e+12", `csid_front_pool_volumes{pool="p1"}`: "205",
		`csid_front_node_max_volumes{node="n1"}`: "1000", `csid_front_node_attachments{node="n1"}`: "1",
	} {
		if got[name] != value {
			t.Errorf("%s is %q, wanted %s", name, got[name], value)
		}
	}
}

func TestHealthOverHTTP(t *testing.T) {
	t.Parallel()
	csid := processes.NewServer(t, "")
	_, monitor := watched(t, csid.Socket())
	for round := 0; round < 2; round++ {
		if status, text := get(t, monitor+"/healthz"); status != 503 ||
			!regexp.MustCompile("^csid: dial unix .*\n$").MatchString(text) {
			t.Errorf("without csid: %d %q", status, text)
		}
		csid.Start(t)
		processes.Eventually(t, "a healthy front", func() bool {
			status, text := get(t, monitor+"/healthz")
			return status == 200 && text == "ok\n"
		})
		csid.Kill(t)
	}
	if status, _ := get(t, monitor+"/else"); status != 404 {
		t.Errorf("status %d", status)
	}
}

// A front that cannot serve metrics does not start, and leaves no socket.
func TestMetricsThatCannotBeTold(t *testing.T) {
	t.Parallel()
	csid := startFake(t)
	_, monitor := watched(t, csid.socket)
	address := strings.TrimPrefix(monitor, "http://")
	rows := []struct {
		metrics, part string
		status        int
	}{
		{address, "front: --metrics: listen tcp " + address + ": bind: address already in use\n", 7},
		{"9809", "front: --metrics: \"9809\" is no HOST:PORT\n", 2},
	}
	for _, row := range rows {
		socket := filepath.Join(processes.Folder(t), "csi.sock")
		command := exec.Command(processes.FrontProgram(t), "--csid", csid.socket, "--listen", socket, "--metrics",
			row.metrics)
		refuses(t, processes.Start(t, socket, command), row.status, row.part)
		if _, err := os.Lstat(socket); !os.IsNotExist(err) {
			t.Errorf("%s: the socket: %v", row.metrics, err)
		}
	}
}

// A call that the front refuses without csid is counted too.
func TestMetricsOfGreatMessages(t *testing.T) {
	t.Parallel()
	process, monitor := watched(t, startFake(t).socket)
	if got := newClient(t, process.Socket).send(soon(t, processes.Patience), probe,
		make([]byte, 1048577)); got.code != codes.ResourceExhausted {
		t.Errorf("%v", got)
	}
	wantSeries(t, counted(series(t, monitor)), "csid_front_calls_total",
		map[string]string{`csid_front_calls_total{code="ResourceExhausted",method="` + probe + `"}`: "1"})
}
