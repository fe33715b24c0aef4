package tests

import (
	"bytes"
	"fmt"
	"io"
	"net"
	"os"
	"regexp"
	"strconv"
	"testing"
	"time"

	"golang.org/x/net/http2"

	"./processes"
)

// goroutines returns the number of goroutines of a front, by its metrics at the URL monitor.
func goroutines(t *testing.T, monitor string) int {
	t.Helper()
	_, text := get(t, monitor+"/metrics")
	count := regexp.MustCompile(`(?m)^go_goroutines ([0-9]+)$`).FindStringSubmatch(text)
	if count == nil {
		t.Fatal("no count of goroutines")
	}
	number, _ := strconv.Atoi(count[1])
	return number
}

// repeated returns the bytes of 1,000 frames that write makes. The front must answer each of these
// frames.
func repeated(write func(*http2.Framer)) []byte {
	var out bytes.Buffer
	framer := http2.NewFramer(&out, nil)
	for frame := 0; frame < 1000; frame++ {
		write(framer)
	}
	return out.Bytes()
}

// floods opens many connections one after the other, sends frames on each, and reads nothing. It
// closes each at once or, if isEndless is true, when the front has read no further for a while.
func floods(t *testing.T, socket string, frames []byte, isEndless bool) {
	t.Helper()
	connections := 300
	if isEndless {
		connections = 25
	}
	for connection := 0; connection < connections; connection++ {
		conn, _ := speak(t, socket)
		_, err := conn.Write(frames)
		for isEndless && err == nil {
			conn.SetWriteDeadline(time.Now().Add(200 * time.Millisecond))
			_, err = conn.Write(frames)
		}
		if isEndless && !os.IsTimeout(err) {
			t.Errorf("connection %d: %v", connection, err)
		}
		conn.Close()
	}
}

// Connections that send many frames which must be answered, and read no answers, leave no
// goroutines and no open files after they are closed.
func TestConnectionsThatFlood(t *testing.T) {
	t.Parallel()
	process, monitor := watched(t, startFake(t).socket)
	newClient(t, process.Socket).wantReply(t, probe, "", ok(ready))
	before, files := goroutines(t, monitor), process.OpenFiles(t)
	rows := map[string][]byte{
		"PING":     repeated(func(f *http2.Framer) { f.WritePing(false, [8]byte{}) }),
		"SETTINGS": repeated(func(f *http2.Framer) { f.WriteSettings() }),
	}
	for name, frames := range rows {
		for _, isEndless := range []bool{false, true} {
			t.Run(fmt.Sprintf("%s, endless %v", name, isEndless), func(t *testing.T) {
				floods(t, process.Socket, frames, isEndless)
				// Connections of scrapes and of other tests come and go.
				processes.Eventually(t, "the end of all connections", func() bool {
					return goroutines(t, monitor) <= before+10 && process.OpenFiles(t) <= files+5
				})
			})
		}
	}
	if taken := process.ResidentBytes(t); taken > 128<<20 {
		t.Errorf("the front takes %d MiB", taken>>20)
	}
}

// A client that sends a thousand PINGs at once keeps its connection, and each PING is answered.
func TestClientThatPings(t *testing.T) {
	t.Parallel()
	conn, framer := speak(t, processes.StartFront(t, startFake(t).socket).Socket)
	defer conn.Close()
	const pings = 1000
	go func() {
		for i := 0; i < pings; i++ {
			framer.WritePing(false, [8]byte{byte(i)})
		}
	}()
	for answered := 0; answered < pings; {
		frame, err := framer.ReadFrame()
		if err != nil {
			t.Fatalf("after %d replies: %v", answered, err)
		}
		if ping, is := frame.(*http2.PingFrame); is && ping.IsAck() {
			answered++
		}
	}
}

// At most 256 connections are open. A connection without a call is closed to make room for another
// one, and a connection whose call runs stays.
func TestConnectionsOfClients(t *testing.T) {
	t.Parallel()
	const connections, most = 400, 256
	call := runCall(t, "/a/runs")
	before := call.process.OpenFiles(t)
	for i := 0; i < connections; i++ {
		conn, framer := speak(t, call.process.Socket)
		defer conn.Close()
		if frame, err := framer.ReadFrame(); err != nil {
			t.Fatalf("connection %d: %v, %v", i, frame, err)
		}
	}
	if open := call.process.OpenFiles(t) - before; open > most {
		t.Errorf("%d connections are open", open)
	}
	call.ends(t)
}

// Peers of the control socket that send no complete call do not keep other peers out.
func TestSilentPeersOfTheControlSocket(t *testing.T) {
	t.Parallel()
	process, socket := controlled(t, startFake(t).socket)
	var silent []net.Conn
	for i := 0; i < 3*16; i++ {
		conn, err := net.Dial("unix", socket)
		if err != nil {
			t.Fatal(err)
		}
		defer conn.Close()
		io.WriteString(conn, "\x00"[:i%2])
		silent = append(silent, conn)
	}
	begin := time.Now()
	for i := 0; i < 3; i++ {
		if _, err := control(t, socket, frameOf(t, probe, "")); err != nil {
			t.Error(err)
		}
	}
	// A peer has a minute for its call.
	if took := time.Since(begin); took > 30*time.Second {
		t.Errorf("it took %v", took)
	}
	silent[0].SetReadDeadline(time.Now().Add(processes.Patience))
	if _, err := silent[0].Read(make([]byte, 1)); os.IsTimeout(err) {
		t.Error("the first one that was silent is still there")
	}
	processes.Eventually(t, "a line", func() bool {
		return regexp.MustCompile(`(?m)^front: a connection of --control without a call was closed for another one: ` +
			`16 were open$`).MatchString(process.Log.String())
	})
}
