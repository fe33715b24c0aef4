package tests

import (
	"fmt"
	"math/rand"
	"sync/atomic"
	"testing"
	"time"

	"google.golang.org/grpc/codes"

	"./processes"
)

const withNode = roomy + `
[[node]]
id = "n1"
max_volumes = 1000
`

// oneCall is the path of a call, and its message in hexadecimal digits.
type oneCall struct{ path, message string }

// lives returns the calls for a number of volumes, in the order in which they are made. Of each
// four volumes, two are deleted at the end, one stays unpublished, and one stays published.
func lives(volumes int) (calls []oneCall) {
	text := func(field byte, text string) string { return fmt.Sprintf("%02x%02x%x", field, len(text), text) }
	const mode1 = "1a060a001a020801"
	for i := 1; i <= volumes; i++ {
		volume, node := text(0x0a, fmt.Sprintf("vol-%d", i)), text(0x12, "n1")
		calls = append(calls, oneCall{controller + "CreateVolume", text(0x0a, fmt.Sprintf("pvc-%d", i)) + mode1})
		if i%4 != 1 {
			calls = append(calls, oneCall{controller + "ControllerPublishVolume", volume + node + mode1})
		}
		if i%4 != 2 {
			calls = append(calls, oneCall{controller + "ControllerUnpublishVolume", volume + node})
		}
		if i%4 == 0 || i%4 == 3 {
			calls = append(calls, oneCall{controller + "DeleteVolume", volume})
		}
	}
	return calls
}

// One client repeats each call until it is answered, while csid is killed and started again. It
// gets the same replies as without kills, and leaves the same volumes.
func TestRepeatedCallsOverKills(t *testing.T) {
	t.Parallel()
	const volumes, kills = 160, 24
	calls := lives(volumes)
	calm := newClient(t, processes.StartFront(t, processes.NewServer(t, withNode).Start(t).Socket()).Socket)
	var wanted []answer
	for _, call := range calls {
		wanted = append(wanted, calm.call(t, call.path, call.message))
	}

	csid := processes.NewServer(t, withNode).Start(t)
	front := newClient(t, processes.StartFront(t, csid.Socket()).Socket)
	lost, answered, over := int32(0), int32(0), make(chan struct{})
	go func() {
		defer close(over)
		for i, call := range calls {
			got := front.call(t, call.path, call.message)
			for got.code == codes.Unavailable {
				atomic.AddInt32(&lost, 1)
				time.Sleep(2 * time.Millisecond)
				got = front.call(t, call.path, call.message)
			}
			if got != wanted[i] {
				t.Errorf("call %d, %s: %v, wanted %v", i, call.path, got, wanted[i])
				return
			}
			atomic.AddInt32(&answered, 1)
		}
	}()
	for kill := 1; kill <= kills; kill++ {
		processes.Eventually(t, "calls before a kill",
			func() bool { return int(atomic.LoadInt32(&answered)) >= kill*len(calls)/(kills+1) })
		time.Sleep(time.Duration(rand.Intn(4000)) * time.Microsecond)
		csid.Kill(t)
		csid.Start(t)
	}
	<-over
	t.Logf("%d calls, %d kills, %d calls were UNAVAILABLE", len(calls), kills, lost)
	if lost == 0 {
		t.Error("no call was lost: this shows nothing")
	}
	stand := controller + "ListVolumes"
	front.wantReply(t, stand, "", calm.call(t, stand, ""))
}
