// bench measures calls through the front. It compares them with the same calls to csid alone, or
// with a driver in Go; bench/front runs these measurements. It also measures how service comes back
// after a stop of csid, and how callers with short deadlines are served; go/front/stalls runs
// these.
//
// usage: bench calls CSID FRONT [ROUNDS]
//
//	bench driver CSID FRONT DRIVER [ROUNDS]
//	bench stop CSID FRONT FILE
//	bench quiet CSID FRONT FILE
//	bench hasty CSID FRONT
package main

import (
	"bytes"
	"context"
	"encoding/binary"
	"errors"
	"fmt"
	"io"
	"log"
	"net"
	"os"
	"os/exec"
	"path/filepath"
	"sort"
	"strconv"
	"strings"
	"sync"
	"time"

	"google.golang.org/grpc"
)

const config = `name = "pools.example.org"
vendor_version = "1.0.0"
default_bytes = 1048576
greatest_bytes = 8388608

[[pool]]
name = "p1"
bytes = 1099511627776

[[node]]
id = "n1"
max_volumes = 1000
`

const controller = "/csi.v1.Controller/"

// caller makes calls and returns the bodies of the replies.
type caller interface {
	call(path string, message []byte) ([]byte, error)
}

// work is a sequence of calls that is measured. do makes these calls once, as turn i of a caller;
// calls is their number. changes is true if they change volumes.
type work struct {
	name    string
	calls   int
	changes bool
	do      func(c caller, caller, i int) error
}

var works = []work{
	{"probe", 1, false, func(c caller, _, _ int) error {
		return wants(c, "/csi.v1.Identity/Probe", nil,
			[]byte{0x0a, 2, 8, 1})
	}},
	{"probe of 64 KiB", 1, false, func(c caller, _, _ int) error {
		return wants(c, "/csi.v1.Identity/Probe", padded, []byte{0x0a, 2, 8, 1})
	}},
	{"create and delete", 2, true, createAndDelete},
	{"mix", 5, true, mix},
}

// padded is a message of 65,536 bytes with one unknown field.
var padded = append([]byte{0x7a, 0xfc, 0xff, 3}, make([]byte, 65532)...)

func wants(c caller, path string, message, want []byte) error {
	got, err := c.call(path, message)
	if err == nil && want != nil && !bytes.Equal(got, want) {
		return fmt.Errorf("%s: the body %x, wanted %x", path, got, want)
	}
	return err
}

func createAndDelete(c caller, caller, i int) error {
	volume, err := create(c, caller, i)
	if err != nil {
		return err
	}
	return wants(c, controller+"DeleteVolume", volume, []byte{})
}

// create makes a volume of 1 MiB, and returns a message with its id in field 1, as DeleteVolume
// takes it.
func create(c caller, caller, i int) ([]byte, error) {
	name := fmt.Sprintf("pvc-%d-%d", caller, i)
	message := append([]byte{0x0a, byte(len(name))}, name...)
	body, err := c.call(controller+"CreateVolume", append(message, 0x1a, 6, 0x0a, 0, 0x1a, 2, 8, 1))
	if err != nil {
		return nil, err
	}
	// A Volume after its tag and length: 1 MiB in field 1, and the id in field 2.
	if len(body) < 8 || !bytes.Equal(body[2:7], []byte{8, 0x80, 0x80, 0x40, 0x12}) || int(body[7]) > len(body)-8 {
		return nil, fmt.Errorf("no volume: %x", body)
	}
	id := body[8 : 8+body[7]]
	return append([]byte{0x0a, byte(len(id))}, id...), nil
}

// readonly is the body of ControllerPublishVolume: the context "readonly", "false".
var readonly = []byte("\x0a\x11\x0a\x08readonly\x12\x05false")

// pageEntries is the max_entries of each ListVolumes.
const pageEntries = 10

// entryTag is the tag of an entry in a page: field 1 of ListVolumesResponse.
const entryTag = 0x0a

// entries returns the number of entries in a page, up to a malformed field.
func entries(page []byte) (count int) {
	for len(page) > 0 {
		size, varint := binary.Uvarint(page[1:])
		if varint <= 0 || uint64(len(page)-1-varint) < size {
			return count
		}
		if page[0] == entryTag {
			count++
		}
		page = page[1+varint+int(size):]
	}
	return count
}

// mix makes a volume, publishes it, lists it with up to nine others, unpublishes it and deletes it.
// A full page may leave out the volume of this caller, so only a shorter page must have a published
// volume.
func mix(c caller, caller, i int) error {
	volume, err := create(c, caller, i)
	if err != nil {
		return err
	}
	published := append(append([]byte(nil), volume...), 0x12, 2, 'n', '1')
	if err := wants(c, controller+"ControllerPublishVolume", append(published, 0x1a, 6, 0x0a, 0, 0x1a, 2, 8, 1),
		readonly); err != nil {
		return err
	}
	page, err := c.call(controller+"ListVolumes", []byte{8, pageEntries})
	if err != nil {
		return err
	}
	if entries(page) < pageEntries && !bytes.Contains(page, []byte("\x12\x04\x0a\x02n1")) {
		return fmt.Errorf("a page without a published volume: %x", page)
	}
	if err := wants(c, controller+"ControllerUnpublishVolume", published, []byte{}); err != nil {
		return err
	}
	return wants(c, controller+"DeleteVolume", volume, []byte{})
}

// direct is one connection to csid, which callers use in turn.
type direct struct {
	mutex sync.Mutex
	net.Conn
}

func (d *direct) call(path string, message []byte) ([]byte, error) {
	frame := binary.BigEndian.AppendUint16(nil, uint16(len(path)))
	frame = append(append(frame, path...), 0)
	frame = append(binary.BigEndian.AppendUint32(frame, uint32(len(message))), message...)
	d.mutex.Lock()
	defer d.mutex.Unlock()
	if _, err := d.Write(frame); err != nil {
		return nil, err
	}
	head := make([]byte, 8)
	if _, err := io.ReadFull(d, head); err != nil {
		return nil, err
	}
	if !bytes.Equal(head[:4], make([]byte, 4)) {
		return nil, fmt.Errorf("refused: %x", head)
	}
	body := make([]byte, binary.BigEndian.Uint32(head[4:]))
	_, err := io.ReadFull(d, body)
	return body, err
}

// bytesCodec passes messages on unchanged, as bytes.
type bytesCodec struct{}

func (bytesCodec) Marshal(v interface{}) ([]byte, error)      { return v.([]byte), nil }
func (bytesCodec) Unmarshal(data []byte, v interface{}) error { *v.(*[]byte) = data; return nil }
func (bytesCodec) Name() string                               { return "proto" }

// sidecar is a caller with its own gRPC connection.
type sidecar struct{ *grpc.ClientConn }

func (s sidecar) call(path string, message []byte) (body []byte, err error) {
	err = s.Invoke(context.Background(), path, message, &body)
	return body, err
}

func newSidecar(socket string) (caller, error) {
	dial := func(ctx context.Context, _ string) (net.Conn, error) {
		return (&net.Dialer{}).DialContext(ctx, "unix", socket)
	}
	conn, err := grpc.Dial("passthrough:///csi", grpc.WithInsecure(), grpc.WithBlock(), grpc.WithContextDialer(dial),
		grpc.WithDefaultCallOptions(grpc.ForceCodec(bytesCodec{})))
	return sidecar{conn}, err
}

// round is the result of one round: the calls a second, and for each turn the mean time of its
// calls, in ascending order.
type round struct {
	rate  float64
	times []time.Duration
}

// measure lets the callers do the work in rounds of a second, and prints the round with the most
// calls.
func measure(name string, w work, callers []caller, rounds int) error {
	best, err := bestRounds(w, [][]caller{callers}, rounds)
	if err != nil {
		return err
	}
	times := best[0].times
	middle, late := times[len(times)/2], times[len(times)*99/100]
	fmt.Printf("%-18s %-14s %d callers: %7.0f calls/s, a call %5d us at the middle, %6d us at 99 of 100\n", w.name,
		name, len(callers),
		best[0].rate, middle.Microseconds(), late.Microseconds())
	return nil
}

// bestRounds lets groups of callers do the work in turn, in rounds of a second. It returns the
// round with the most calls of each group.
func bestRounds(w work, groups [][]caller, rounds int) ([]round, error) {
	best := make([]round, len(groups))
	for i := 0; i < rounds; i++ {
		for number, callers := range groups {
			next, err := oneRound(w, callers, time.Second)
			if err != nil {
				return nil, fmt.Errorf("%s: %w", w.name, err)
			}
			if next.rate > best[number].rate {
				best[number] = next
			}
		}
	}
	return best, nil
}

// oneRound lets the callers do the work for the given time, and returns the first failure, if there
// was one.
func oneRound(w work, callers []caller, length time.Duration) (round, error) {
	times := make([][]time.Duration, len(callers))
	failures := make(chan error, len(callers))
	begin := time.Now()
	var all sync.WaitGroup
	for number, each := range callers {
		all.Add(1)
		go func(number int, each caller) {
			defer all.Done()
			for i := 0; time.Since(begin) < length; i++ {
				start := time.Now()
				if err := w.do(each, number, i); err != nil {
					failures <- err
					return
				}
				times[number] = append(times[number], time.Since(start)/time.Duration(w.calls))
			}
		}(number, each)
	}
	all.Wait()
	spent := time.Since(begin)
	select {
	case err := <-failures:
		return round{}, err
	default:
	}
	var sorted []time.Duration
	for _, some := range times {
		sorted = append(sorted, some...)
	}
	sort.Slice(sorted, func(i, j int) bool { return sorted[i] < sorted[j] })
	return round{float64(len(sorted)*w.calls) / spent.Seconds(), sorted}, nil
}

// start starts a program, and waits until its socket takes a connection. After about 5 seconds it
// kills the program and fails. The caller must kill a program that was started.
func start(socket, program string, words ...string) (*exec.Cmd, error) {
	command := exec.Command(program, words...)
	command.Stderr = os.Stderr
	if err := command.Start(); err != nil {
		return nil, err
	}
	for wait := 0; wait < 1000; wait++ {
		if conn, err := net.Dial("unix", socket); err == nil {
			return command, conn.Close()
		}
		time.Sleep(5 * time.Millisecond)
	}
	command.Process.Kill()
	return nil, errors.New("nobody answers on " + socket)
}

func startCsid(program, folder, socket, tables string) (*exec.Cmd, error) {
	file := filepath.Join(folder, "config.toml")
	if err := os.WriteFile(file, []byte(config), 0o600); err != nil {
		return nil, err
	}
	help, err := exec.Command(program, "serve", "--help").Output()
	if err != nil {
		return nil, err
	}
	words := []string{"serve", "--socket", socket, "--config", file}
	if strings.Contains(string(help), "--tables") {
		words = append(words, "--tables", tables)
	}
	return start(socket, program, words...)
}

// maxCallers is the greatest number of callers in the comparison with csid alone.
const maxCallers = 8

// newCallers returns count callers, each with its own gRPC connection.
func newCallers(socket string, count int) (callers []caller, err error) {
	for len(callers) < count {
		each, err := newSidecar(socket)
		if err != nil {
			return nil, err
		}
		callers = append(callers, each)
	}
	return callers, nil
}

// throughFront measures each of the works through a new front, with one caller and with maxCallers.
func throughFront(program, csid, folder string, rounds int) error {
	socket := filepath.Join(folder, "csi.sock")
	front, err := start(socket, program, "--csid", csid, "--listen", socket)
	if err != nil {
		return err
	}
	defer front.Wait()
	defer front.Process.Kill()
	callers, err := newCallers(socket, maxCallers)
	if err != nil {
		return err
	}
	return measureAll("front and csid", callers, rounds)
}

// alone measures each of the works over one connection to csid, with one caller and with maxCallers
// that take turns.
func alone(csid string, rounds int) error {
	conn, err := net.Dial("unix", csid)
	if err != nil {
		return err
	}
	defer conn.Close()
	each := &direct{Conn: conn}
	callers := make([]caller, maxCallers)
	for i := range callers {
		callers[i] = each
	}
	return measureAll("csid alone", callers, rounds)
}

func measureAll(name string, callers []caller, rounds int) error {
	for _, w := range works {
		for _, count := range []int{1, len(callers)} {
			if err := measure(name, w, callers[:count], rounds); err != nil {
				return err
			}
		}
	}
	return nil
}

func run(program, front string, rounds int) error {
	folder, err := os.MkdirTemp("", "front")
	if err != nil {
		return err
	}
	defer os.RemoveAll(folder)
	socket := filepath.Join(folder, "csid.sock")
	csid, err := startCsid(program, folder, socket, filepath.Join(folder, "volumes.db"))
	if err != nil {
		return err
	}
	defer csid.Wait()
	defer csid.Process.Kill()
	if err := alone(socket, rounds); err != nil {
		return err
	}
	return throughFront(front, socket, folder, rounds)
}

// rounds returns the number of rounds in the arguments, or 5 if there is none.
func rounds(words []string) (int, error) {
	if len(words) == 0 {
		return 5, nil
	}
	count, err := strconv.Atoi(words[0])
	if err != nil || count < 1 {
		return 0, errors.New("the rounds are no number above 0")
	}
	return count, nil
}

// errWords is the error for a command line that is not valid.
var errWords = errors.New("usage: bench calls CSID FRONT [ROUNDS]; bench driver CSID FRONT DRIVER [ROUNDS]; bench " +
	"stop|quiet CSID FRONT FILE; bench hasty CSID FRONT")

// do runs the measurement that the first argument names. If the arguments fit none, it returns
// errWords.
func do(words []string) error {
	if len(words) < 3 {
		return errWords
	}
	csid, front, more := words[1], words[2], words[3:]
	switch kind := words[0]; {
	case kind == "calls" && len(more) <= 1:
		count, err := rounds(more)
		if err != nil {
			return err
		}
		return run(csid, front, count)
	case kind == "driver" && 1 <= len(more) && len(more) <= 2:
		count, err := rounds(more[1:])
		if err != nil {
			return err
		}
		return compare(csid, front, more[0], count)
	case kind == "stop" && len(more) == 1:
		return behindFront(csid, front, more[0], stop)
	case kind == "quiet" && len(more) == 1:
		return behindFront(csid, front, more[0], quiet)
	case kind == "hasty" && len(more) == 0:
		return behindFront(csid, front, "", hasty)
	}
	return errWords
}

func main() {
	log.SetFlags(0)
	if err := do(os.Args[1:]); err != nil {
		log.Fatal("bench: ", err)
	}
}
