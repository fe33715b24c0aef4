package sidecars

import (
	"context"
	"fmt"
	"math/rand"
	"sync"
	"sync/atomic"
	"testing"
	"time"

	"google.golang.org/grpc"
	"google.golang.org/grpc/codes"

	"../processes"
)

// The stages in the life of a claim's volume.
const (
	provisioned = iota
	attached
	detached
	deleted
	stages
)

// ledger has the volumes that exist according to the replies to the sidecars: by the id of each,
// its node, or "" if it is at no node.
type ledger struct {
	mutex sync.Mutex
	nodes map[string]string
}

func (l *ledger) note(id, node string) {
	l.mutex.Lock()
	defer l.mutex.Unlock()
	l.nodes[id] = node
}

func (l *ledger) strike(id string) {
	l.mutex.Lock()
	defer l.mutex.Unlock()
	delete(l.nodes, id)
}

// cluster plays csi-provisioner and csi-attacher of one cluster. The ledger has the node of each
// volume by the replies, or "" for a volume at no node.
type cluster struct {
	*provisioner
	*attacher
	ledger
}

func startCluster(t *testing.T, socket string) *cluster {
	t.Helper()
	return &cluster{provisioner: startProvisioner(t, socket), attacher: startAttacher(t, socket),
		ledger: ledger{nodes: map[string]string{}}}
}

// lead brings the volume of a claim to a stage of its life, and records the replies.
func (k *cluster) lead(c claim, stage int) error {
	v, err := k.provision(c)
	if err != nil {
		return err
	}
	k.note(v.VolumeID, "")
	// csi-provisioner repeats the call if it could not save the persistent volume.
	again, err := k.provision(c)
	if err != nil {
		return err
	}
	if again.VolumeID != v.VolumeID {
		return fmt.Errorf("%s was %s, and is then %s", c.uid, v.VolumeID, again.VolumeID)
	}
	node := "worker-" + c.zone
	if stage >= attached {
		if _, err := k.attach(v.VolumeID, node, k.persistentContext(v)); err != nil {
			return err
		}
		k.note(v.VolumeID, node)
	}
	if stage >= detached {
		if err := k.detach(v.VolumeID, node); err != nil {
			return err
		}
		k.note(v.VolumeID, "")
	}
	if stage >= deleted {
		if err := k.remove(v.VolumeID); err != nil {
			return err
		}
		k.strike(v.VolumeID)
	}
	return nil
}

// workers runs `count` workers of a sidecar at once, and waits until they end. Each worker calls
// take for its share of the claims, in turn.
func workers(count int, claims []claim, take func(i int, c claim)) {
	processes.Together(count, func(worker int) {
		for i := worker; i < len(claims); i += count {
			take(i, claims[i])
		}
	})
}

// killUntil kills csid and starts it again, until over is closed. Before each kill it waits for 100
// to 300 ms, times slowness. After each kill it waits until a sidecar has come up. It returns the
// number of kills.
func killUntil(t *testing.T, csid *processes.Server, front string, random *rand.Rand,
	over <-chan struct{}) (kills int) {
	t.Helper()
	for ; ; kills++ {
		select {
		case <-over:
			return kills
		case <-time.After(time.Duration(100+random.Intn(200)) * time.Millisecond * slowness):
			csid.Kill(t)
			csid.Start(t)
			startSidecar(t, front)
		}
	}
}

// While csid is killed again and again, volumes of claims are created, attached, detached and
// deleted. At the end exactly the volumes exist that the replies promise.
func TestKills(t *testing.T) {
	t.Parallel()
	const count, wantedKills = 400, 5
	random := rand.New(rand.NewSource(1))
	csid, socket := startDriver(t, twoZones)
	k, claims := startCluster(t, socket), newClaims(random, count)
	arrivals := make([]time.Duration, count)
	for i := range arrivals {
		arrivals[i] = time.Duration(random.Intn(400)) * time.Millisecond * slowness
	}
	over := make(chan struct{})
	go func() {
		defer close(over)
		workers(8, claims, func(i int, c claim) {
			time.Sleep(arrivals[i])
			if err := k.lead(c, i%stages); err != nil {
				t.Errorf("claim %d: %v", i, err)
			}
		})
	}()
	kills := killUntil(t, csid, socket, random, over)
	repeats := atomic.LoadInt32(&k.provisioner.repeats) + atomic.LoadInt32(&k.attacher.repeats)
	t.Logf("%d kills, %d calls were repeated", kills, repeats)
	if kills < wantedKills || repeats == 0 {
		t.Errorf("%d kills, %d repeats: this shows nothing", kills, repeats)
	}
	if want := count * 3 / 4; len(k.nodes) != want {
		t.Errorf("%d volumes were answered and not deleted, wanted %d", len(k.nodes), want)
	}
	wantsListed(t, k.attacher, k.nodes)
}

// Two provisioners both act as the leader. They create one volume for each claim, and then both
// delete all volumes.
func TestTwoProvisioners(t *testing.T) {
	t.Parallel()
	const count = 100
	random := rand.New(rand.NewSource(2))
	_, socket := startDriver(t, twoZones)
	claims := newClaims(random, count)
	var leaders [2]*cluster
	for i := range leaders {
		leaders[i] = startCluster(t, socket)
	}
	ids := [2][count]string{}
	processes.Together(len(leaders), func(leader int) {
		workers(4, claims, func(i int, c claim) {
			v, err := leaders[leader].provision(c)
			if err != nil {
				t.Errorf("provisioner %d, claim %d: %v", leader, i, err)
				return
			}
			ids[leader][i] = v.VolumeID
		})
	})
	if ids[0] != ids[1] {
		t.Errorf("one provisioner was answered %v, the other %v", ids[0], ids[1])
	}
	stand := map[string]string{}
	for _, id := range ids[0] {
		stand[id] = ""
	}
	if len(stand) != count {
		t.Errorf("%d volumes for %d claims", len(stand), count)
	}
	wantsListed(t, leaders[0].attacher, stand)
	processes.Together(len(leaders), func(leader int) {
		workers(4, claims, func(i int, _ claim) {
			if err := leaders[leader].remove(ids[0][i]); err != nil {
				t.Errorf("provisioner %d, claim %d: %v", leader, i, err)
			}
		})
	})
	wantsListed(t, leaders[1].attacher, map[string]string{})
}

// cancelEach begins a create for each claim, and cancels it within a few milliseconds. It returns
// how many calls were answered before they were cancelled.
func (k *cluster) cancelEach(t *testing.T, claims []claim, random *rand.Rand) (answered int) {
	t.Helper()
	for i, c := range claims {
		ctx, cancel := context.WithCancel(context.Background())
		time.AfterFunc(time.Duration(random.Intn(4000))*time.Microsecond*slowness, cancel)
		err := k.provisioner.Invoke(ctx, controller+"CreateVolume", k.createRequest(c), &createVolumeResponse{})
		cancel()
		switch grpc.Code(err) {
		case codes.OK:
			answered++
		case codes.Canceled:
		default:
			t.Errorf("claim %d: %v", i, err)
		}
	}
	return answered
}

// Claims are deleted while their volumes are created. The call is cancelled, but the volume may be
// created all the same. So csi-provisioner repeats the call until it has a final answer, and
// deletes the volume. Nothing is left at the end.
func TestClaimsThatAreDeletedEarly(t *testing.T) {
	t.Parallel()
	const count = 80
	random := rand.New(rand.NewSource(3))
	_, socket := startDriver(t, twoZones)
	k, claims := startCluster(t, socket), newClaims(random, count)
	answered := k.cancelEach(t, claims, random)
	made, err := k.list(0)
	if err != nil {
		t.Fatal(err)
	}
	t.Logf("%d of %d creates were answered, %d volumes were made", answered, count, len(made))
	if len(made) <= answered {
		t.Error("no volume was made by a call that was cancelled: this shows nothing")
	}
	workers(8, claims, func(i int, c claim) {
		if err := k.lead(c, deleted); err != nil {
			t.Errorf("claim %d: %v", i, err)
		}
	})
	wantsListed(t, k.attacher, map[string]string{})
	for _, zone := range zones {
		k.wantsCapacity(t, zone, 1024*mebibyte)
	}
}
