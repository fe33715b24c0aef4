package tests

import (
	"context"
	"encoding/hex"
	"fmt"
	"net"
	"os/exec"
	"path/filepath"
	"regexp"
	"strings"
	"sync"
	"sync/atomic"
	"syscall"
	"testing"
	"time"

	"google.golang.org/grpc/codes"

	"./processes"
)

// Parts of messages, worked out by hand from docs/PROTOCOL.md, "Messages".
const (
	block   = "1a06 0a00 1a020801"                 // volume_capabilities or volume_capability: a block device, mode 1
	vol1    = "0a05 766f6c2d31"                    // volume_id "vol-1"
	vol2    = "0a05 766f6c2d32"                    // volume_id "vol-2"
	n1      = "1202 6e31"                          // node_id "n1"
	createA = "0a0161" + block                     // the name "a", and block
	threeB  = "1205 088080c001"                    // capacity_range of at least 3 MiB
	zoneB   = "3a0d 0a0b 0a09 0a047a6f6e65 120162" // the requisite topology zone=b
	// 'vol-1', 1 MiB of the pool p1 in zone a; 'vol-2', 3 MiB of the pool p2 in zone b.
	volume1 = "0a24 08808040 1205 766f6c2d31 1a0a 0a04706f6f6c 12027031 2a0b 0a09 0a047a6f6e65 120161"
	volume2 = "0a25 088080c001 1205 766f6c2d32 1a0a 0a04706f6f6c 12027032 2a0b 0a09 0a047a6f6e65 120162"
)

// Calls of an orchestrator under the sample configuration (docs/OPERATING.md), and their answers.
// One csid gets them in this order, so a call finds the volumes of the calls before it.
var callsOfVolumes = []struct {
	path, message string
	want          answer
}{
	{probe, "", ok(ready)},
	{identity + "GetPluginInfo", "", ok("0a11 706f6f6c732e6578616d706c652e6f7267 1205 312e302e30")},
	{identity + "GetPluginCapabilities", "", ok("0a040a020801 0a040a020802")},
	{controller + "ControllerGetCapabilities", "",
		ok("0a040a020801 0a040a020802 0a040a020803 0a040a020804 0a040a020808 0a040a02080a 0a040a02080d " +
			"0a040a02080e")},
	{controller + "GetCapacity", "", ok("0880808007 1205 0880808004")},
	{controller + "CreateVolume", createA, ok(volume1)},
	{controller + "CreateVolume", createA, ok(volume1)},
	{controller + "CreateVolume", "0a0162" + threeB + block + zoneB, ok(volume2)},
	{controller + "CreateVolume", "0a0161" + threeB +
		"1a06 0a00 1a020801", refused(codes.AlreadyExists, "volume exists and is not compatible")},
	{controller + "CreateVolume", block, refused(codes.InvalidArgument, "name is missing")},
	{controller + "CreateVolume", createA + "0a",
		refused(codes.InvalidArgument, "malformed message in the field at byte 11")},
	{controller + "CreateVolume", "0a0163 1206 088080808001" +
		block, refused(codes.OutOfRange, "capacity is out of range")},
	{controller + "CreateVolume", "0a0163 1205 0880808002" + block +
		zoneB, refused(codes.ResourceExhausted, "no room in the topology")},
	{controller + "GetCapacity", "", ok("0880808005 1205 0880808004")},
	{controller + "ControllerPublishVolume", vol1 + n1 + block, ok("0a11 0a08 726561646f6e6c79 1205 66616c7365")},
	{controller + "ControllerPublishVolume", vol1 + "1202 6e32" +
		block, refused(codes.FailedPrecondition, "volume is published elsewhere")},
	{controller + "ControllerPublishVolume", vol2 + "1202 6e39" + block, refused(codes.NotFound, "node not found")},
	{controller + "ControllerModifyVolume", vol1 + "1a06 0a016b 120176", ok("")},
	{controller + "ControllerModifyVolume", vol1 + "1a06 0a016b 120176", ok("")},
	{controller + "ControllerModifyVolume", vol1, refused(codes.InvalidArgument, "mutable parameters are missing")},
	{controller + "ControllerModifyVolume", "0a05 766f6c2d39 1a06 0a016b 120176",
		refused(codes.NotFound, "volume not found")},
	{controller + "CreateVolume", createA + "4206 0a016b 120176", ok(volume1)},
	{controller + "CreateVolume", createA + "4206 0a016b 120177",
		refused(codes.AlreadyExists, "volume exists and is not compatible")},
	{controller + "ListVolumes", "0801", ok("0a2c" + volume1 + "1204 0a026e31 120131")},
	{controller + "ListVolumes", "120131", ok("0a29" + volume2 + "1200")},
	{controller + "ListVolumes", "120139", refused(codes.Aborted, "bad starting token")},
	{controller + "ValidateVolumeCapabilities", vol1 + block, ok("0a08 1206 0a00 1a020801")},
	{controller + "DeleteVolume", vol1, refused(codes.FailedPrecondition, "volume is in use")},
	{controller + "ControllerUnpublishVolume", vol1, ok("")},
	{controller + "DeleteVolume", vol1, ok("")},
	{controller + "DeleteVolume", vol1, ok("")},
	{controller + "ListVolumes", "", ok("0a29" + volume2 + "1200")},
	{controller + "CreateSnapshot", "", refused(codes.Unimplemented, "unknown method")},
	{"/csi.v1.Node/NodeGetInfo", "", refused(codes.Unimplemented, "unknown method")},
	{"/grpc.health.v1.Health/Check", "", refused(codes.Unimplemented, "unknown method")},
	{probe + "/", "", refused(codes.Unimplemented, "unknown method")},
	{"/~/" + strings.Repeat("~", 125), "", refused(codes.Unimplemented, "unknown method")},
	{"/~/" + strings.Repeat("~", 126), "", refused(codes.Unimplemented, "unknown method")},
	// A message with one unknown field, of 1,048,576 bytes in all. Then a message that is one byte
	// longer.
	{probe, "7a fcff3f" + strings.Repeat("78", 1048572), ok(ready)},
	{probe, "7a fdff3f" + strings.Repeat("78", 1048573),
		refused(codes.ResourceExhausted, "grpc: received message larger than max (1048577 vs. 1048576)")},
	{probe, "", ok(ready)},
}

func TestCallsOfVolumes(t *testing.T) {
	t.Parallel()
	csid := processes.StartCsid(t)
	front := newClient(t, processes.StartFront(t, csid.Socket()).Socket)
	for _, row := range callsOfVolumes {
		front.wantReply(t, row.path, row.message, row.want)
	}
	csid.WantsStartAlone(t)
}

// One pool in which many volumes have room.
const roomy = `name = "pools.example.org"
vendor_version = "1.0.0"
default_bytes = 1048576
greatest_bytes = 8388608

[[pool]]
name = "p1"
bytes = 1099511627776
`

// create asks for a volume with a name of fewer than 128 bytes. It returns the volume's id, or ""
// if the call was not answered OK, and the answer.
func create(ctx context.Context, front *client, name string) (string, answer) {
	message := append([]byte{0x0a, byte(len(name))}, name...)
	message = append(message, 0x1a, 6, 0x0a, 0, 0x1a, 2, 8, 1)
	got := front.send(ctx, controller+"CreateVolume", message)
	body, _ := hex.DecodeString(got.body)
	return string(volumeID.Find(body)), got
}

var volumeID = regexp.MustCompile(`vol-[0-9]+`)

// list returns the ids of all volumes. It reads page after page, until a page that begins after the
// last volume is empty.
func list(t *testing.T, front *client) (ids []string) {
	t.Helper()
	for token := ""; ; {
		got := front.call(t, controller+"ListVolumes", fmt.Sprintf("12%02x%x", len(token), token))
		if got.code != codes.OK {
			t.Fatalf("listing: %v", got)
		}
		body, _ := hex.DecodeString(got.body)
		page := volumeID.FindAllString(string(body), -1)
		if len(page) == 0 {
			return ids
		}
		ids = append(ids, page...)
		token = strings.TrimPrefix(page[len(page)-1], "vol-")
	}
}

// book has the ids of the volumes that callers got, by name.
type book struct {
	mutex sync.Mutex
	ids   map[string]string
}

// note records the id that a caller got for a name. It fails the test if the name had another id
// before.
func (b *book) note(t *testing.T, name, id string) {
	b.mutex.Lock()
	defer b.mutex.Unlock()
	if b.ids == nil {
		b.ids = map[string]string{}
	}
	if before, is := b.ids[name]; is && before != id {
		t.Errorf("%s is %s, and was told to be %s", name, id, before)
	}
	b.ids[name] = id
}

// isListed checks that exactly the volumes in the book exist, each once.
func (b *book) isListed(t *testing.T, front *client) {
	t.Helper()
	stand := map[string]bool{}
	for _, id := range list(t, front) {
		if stand[id] {
			t.Errorf("%s is listed twice", id)
		}
		stand[id] = true
	}
	told := map[string]bool{}
	for name, id := range b.ids {
		if told[id] || !stand[id] {
			t.Errorf("%s, %s: told twice %v, listed %v", name, id, told[id], stand[id])
		}
		told[id] = true
	}
	if len(told) != len(stand) {
		t.Errorf("%d volumes were told, %d stand", len(told), len(stand))
	}
}

// Callers that use the same names get the same volumes, and each name has one volume.
func TestConcurrentCallers(t *testing.T) {
	t.Parallel()
	const callers, names = 8, 40
	csid := processes.NewServer(t, roomy).Start(t)
	socket := processes.StartFront(t, csid.Socket()).Socket
	told := &book{}
	processes.Together(callers, func(caller int) {
		front := newClient(t, socket)
		for i := 0; i < names; i++ {
			for _, owner := range []int{caller, (caller + 1) % callers} {
				name := fmt.Sprintf("pvc-%d-%d", owner, i)
				id, got := create(soon(t, processes.Patience), front, name)
				if got.code != codes.OK {
					t.Errorf("%s: %v", name, got)
				}
				told.note(t, name, id)
			}
		}
	})
	if len(told.ids) != callers*names {
		t.Errorf("%d names", len(told.ids))
	}
	told.isListed(t, newClient(t, socket))
}

// createThrough creates volumes while csid is killed and started again several times. If the
// outcome of a call is open, its caller repeats the call. No other error may occur. It returns the
// volumes that were answered.
func createThrough(t *testing.T, csid *processes.Server, socket string) *book {
	const callers, names, kills = 4, 150, 3
	told, lost, made := &book{}, int32(0), int32(0)
	over := make(chan struct{})
	go func() {
		defer close(over)
		processes.Together(callers, func(caller int) {
			front := newClient(t, socket)
			for i := 0; i < names; {
				name := fmt.Sprintf("pvc-%d-%d", caller, i)
				id, got := create(soon(t, processes.Patience), front, name)
				switch got.code {
				case codes.OK:
					told.note(t, name, id)
					atomic.AddInt32(&made, 1)
					i++
				case codes.Unavailable:
					atomic.AddInt32(&lost, 1)
					time.Sleep(2 * time.Millisecond)
				default:
					t.Errorf("%s: %v", name, got)
					return
				}
			}
		})
	}()
	for kill := int32(1); kill <= kills; kill++ {
		processes.Eventually(t, "volumes before a kill",
			func() bool { return atomic.LoadInt32(&made) >= kill*callers*names/(kills+1) })
		before := atomic.LoadInt32(&lost)
		csid.Kill(t)
		processes.Eventually(t, "a call that is lost", func() bool { return atomic.LoadInt32(&lost) > before })
		csid.Start(t)
	}
	<-over
	return told
}

// If csid is killed, only the calls of that moment are lost. The front connects to the next csid by
// itself.
func TestCsidThatIsKilled(t *testing.T) {
	t.Parallel()
	csid := processes.NewServer(t, roomy).Start(t)
	socket := processes.StartFront(t, csid.Socket()).Socket
	told := createThrough(t, csid, socket)
	t.Run("its volumes outlive it", func(t *testing.T) {
		if !processes.HasTables(t) {
			t.Skip("left out: this csid keeps its volumes in memory alone (csid serve --help has no --tables)")
		}
		told.isListed(t, newClient(t, socket))
	})
}

// Callers that give up at any moment, and repeat their calls, still get each volume once.
func TestImpatientCallers(t *testing.T) {
	t.Parallel()
	const callers, names = 4, 20
	csid := processes.NewServer(t, roomy).Start(t)
	socket := processes.StartFront(t, csid.Socket()).Socket
	told, gaveUp := &book{}, int32(0)
	processes.Together(callers, func(caller int) {
		front := newClient(t, socket)
		for i := 0; i < names; i++ {
			name := fmt.Sprintf("pvc-%d-%d", caller, i)
			// Each try has a little more time than the one before.
			for length := 50 * time.Microsecond; ; length += length / 4 {
				ctx, cancel := context.WithTimeout(context.Background(), length)
				id, got := create(ctx, front, name)
				cancel()
				if got.code == codes.OK {
					told.note(t, name, id)
					break
				}
				if got.code != codes.DeadlineExceeded && got.code != codes.Canceled && got.code != codes.Unavailable {
					t.Errorf("%s: %v", name, got)
					return
				}
				atomic.AddInt32(&gaveUp, 1)
			}
		}
	})
	t.Logf("%d calls ended before their replies", gaveUp)
	told.isListed(t, newClient(t, socket))
}

// If csid hangs for a while, the front makes no further connection. When csid goes on, all callers
// are served.
func TestCsidThatStandsStill(t *testing.T) {
	t.Parallel()
	const callers, still = 20, 1500 * time.Millisecond
	csid := processes.StartCsid(t)
	socket := processes.StartFront(t, csid.Socket()).Socket
	newClient(t, socket).wantReply(t, probe, "", ok(ready))
	signal := func(which syscall.Signal) {
		if err := csid.Current.Process.Signal(which); err != nil {
			t.Fatal(err)
		}
	}
	signal(syscall.SIGSTOP)
	begin := time.Now()
	time.AfterFunc(still, func() { signal(syscall.SIGCONT) })
	processes.Together(callers, func(int) {
		front := newClient(t, socket)
		for {
			got := front.send(soon(t, 300*time.Millisecond), probe, nil)
			if got == ok(ready) {
				break
			}
			if got.code != codes.DeadlineExceeded || time.Since(begin) > processes.Patience {
				t.Errorf("%v after %v, wanted DEADLINE_EXCEEDED", got, time.Since(begin))
				break
			}
		}
	})
	if spent := time.Since(begin); spent < still || spent > still+soonBack {
		t.Errorf("all callers were served after %v", spent)
	}
	csid.WantsStartAlone(t)
}

// If csid is killed and started again between two calls, no call is lost.
func TestCsidThatIsStartedAgain(t *testing.T) {
	t.Parallel()
	csid := processes.StartCsid(t)
	front := newClient(t, processes.StartFront(t, csid.Socket()).Socket)
	for round := 0; round < 5; round++ {
		front.wantReply(t, probe, "", ok(ready))
		csid.Kill(t)
		csid.Start(t)
	}
	front.wantReply(t, probe, "", ok(ready))
}

// Without csid, calls are refused at once. csid may start after the front.
func TestCsidThatIsAway(t *testing.T) {
	t.Parallel()
	csid := processes.NewServer(t, "")
	front := newClient(t, processes.StartFront(t, csid.Socket()).Socket)
	front.isLost(t, probe, "")
	csid.Start(t)
	front.wantReply(t, probe, "", ok(ready))
	csid.Current.Kill()
	front.isLost(t, probe, "")
	front.isLost(t, probe, "")
}

// After ten thousand more calls, the front and csid have no more open files, and at most 4 MiB more
// memory.
func TestTenThousandCalls(t *testing.T) {
	t.Parallel()
	csid := processes.StartCsid(t)
	running := processes.StartFront(t, csid.Socket())
	front := newClient(t, running.Socket)
	calls := func(count int) {
		processes.Together(8, func(caller int) {
			for i := 0; i < count/8; i++ {
				front.wantReply(t, probe, "", ok(ready))
			}
		})
	}
	calls(2000)
	for _, each := range []struct {
		name    string
		process *processes.Process
	}{{"front", running}, {"csid", csid.Current}} {
		each := each
		files, memory := each.process.OpenFiles(t), each.process.ResidentBytes(t)
		defer func() {
			filesAfter, memoryAfter := each.process.OpenFiles(t), each.process.ResidentBytes(t)
			t.Logf("%s: %d files, %d KiB; before %d files, %d KiB", each.name, filesAfter, memoryAfter>>10, files,
				memory>>10)
			if filesAfter > files || memoryAfter > memory+(4<<20) {
				t.Errorf("%s grew: %d files, %d KiB; before %d files, %d KiB", each.name, filesAfter, memoryAfter>>10,
					files, memory>>10)
			}
		}()
	}
	calls(10000)
}

// If csid closes an idle connection, no call is lost, even if one is sent just then. Another client
// of csid is served in the meantime.
func TestIdleConnection(t *testing.T) {
	t.Parallel()
	folder := processes.Folder(t)
	socket := filepath.Join(folder, "csid.sock")
	csid := processes.Start(t, socket, exec.Command(processes.CsidProgram(t), "serve", "--socket", socket, "--tables",
		filepath.Join(folder, "volumes.db"), "--idle", "1")).Answers(t)
	front := newClient(t, processes.StartFront(t, csid.Socket).Socket)
	for late := -3; late <= 3; late++ {
		front.wantReply(t, probe, "", ok(ready))
		sent := time.Now()
		go func() {
			if peer, err := net.Dial("unix", socket); err == nil {
				defer peer.Close()
				peer.Write(fromHex(t, "0016 2f6373692e76312e4964656e746974792f50726f6265 00 00000000"))
				peer.SetReadDeadline(time.Now().Add(processes.Patience))
				peer.Read(make([]byte, 1))
			}
		}()
		time.Sleep(time.Until(sent.Add(time.Second + time.Duration(late)*time.Millisecond)))
	}
	front.wantReply(t, probe, "", ok(ready))
}
