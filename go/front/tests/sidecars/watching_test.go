package sidecars

import (
	"fmt"
	"math/rand"
	"strings"
	"testing"

	"../processes"
)

// wantsCapacity checks the free bytes of a zone.
func (p *provisioner) wantsCapacity(t *testing.T, zone string, want int64) {
	t.Helper()
	got, err := p.capacity(zone)
	if err != nil || got.AvailableCapacity != want {
		t.Errorf("zone %s: %v, %v, wanted %d", zone, got, err, want)
	}
}

// poll asks for the capacity of all zones again and again until over is closed, and returns the
// number of rounds. It checks that the free bytes are neither negative nor more than the bytes of a
// pool, and that the greatest size of a volume is neither negative nor more than the free bytes.
func (p *provisioner) poll(t *testing.T, pool int64, over <-chan struct{}) (polls int) {
	t.Helper()
	for ; ; polls++ {
		select {
		case <-over:
			return polls
		default:
		}
		for _, zone := range zones {
			got, err := p.capacity(zone)
			if err != nil {
				t.Errorf("zone %s: %v", zone, err)
				continue
			}
			free, greatest := got.AvailableCapacity, got.MaximumVolumeSize.Value
			if free < 0 || free > pool || greatest < 0 || greatest > free {
				t.Errorf("zone %s: %d bytes are free, a volume may have %d; the pool has %d", zone, free, greatest,
					pool)
			}
		}
	}
}

// GetCapacity never reports impossible free bytes while volumes are created and deleted. In zone b
// the callers have volumes of 2, 4, 2 and 4 MiB, which do not all fit at once. A refused create is
// repeated until other volumes were deleted. At the end each zone has four volumes of 1 MiB.
func TestCapacity(t *testing.T) {
	t.Parallel()
	const count, callers, pool = 96, 8, 8 * mebibyte
	random := rand.New(rand.NewSource(4))
	_, socket := startDriver(t, strings.ReplaceAll(twoZones, "1073741824", fmt.Sprint(pool)))
	p, claims := startProvisioner(t, socket), newClaims(random, count)
	for i := range claims {
		claims[i].strict = true
		if i >= count-callers {
			claims[i].bytes = mebibyte
		}
	}
	for _, zone := range zones {
		p.wantsCapacity(t, zone, pool)
	}
	over := make(chan struct{})
	go func() {
		defer close(over)
		workers(callers, claims, func(i int, c claim) {
			v, err := p.provision(c)
			if err == nil && i < count-callers {
				err = p.remove(v.VolumeID)
			}
			if err != nil {
				t.Errorf("claim %d: %v", i, err)
			}
		})
	}()
	polls := p.poll(t, pool, over)
	t.Logf("%d polls, %d creates were repeated", polls, p.repeats)
	if polls == 0 || p.repeats == 0 {
		t.Errorf("%d polls, %d repeats: this shows nothing", polls, p.repeats)
	}
	for _, zone := range zones {
		p.wantsCapacity(t, zone, pool-int64(callers/len(zones))*mebibyte)
	}
}

// churn creates the volume of a claim, and attaches and detaches it in each round. It ends at the
// first error, which it returns.
func (k *cluster) churn(c claim, rounds int) error {
	v, err := k.provision(c)
	for ; err == nil && rounds > 0; rounds-- {
		if _, err = k.attach(v.VolumeID, "worker-"+c.zone, k.persistentContext(v)); err == nil {
			err = k.detach(v.VolumeID, "worker-"+c.zone)
		}
	}
	return err
}

// reconcile walks over all pages, and checks the nodes of each volume. Volumes that exist
// throughout must be listed at their nodes. The other volumes must be in others, which maps their
// ids to nodes: each is listed at its node or at none.
func (k *cluster) reconcile(t *testing.T, pageLength int32, others map[string]string) {
	t.Helper()
	got, err := k.list(pageLength)
	if err != nil {
		t.Errorf("pages of %d: %v", pageLength, err)
		return
	}
	for id, node := range k.nodes {
		if nodes, is := got[id]; !is || strings.Join(nodes, " ") != node {
			t.Errorf("pages of %d: %s: listed %v at %v, wanted %q", pageLength, id, is, nodes, node)
		}
	}
	for id, nodes := range got {
		_, stands := k.nodes[id]
		if node, is := others[id]; !stands && (!is || len(nodes) > 0 && strings.Join(nodes, " ") != node) {
			t.Errorf("pages of %d: %s is listed at %v", pageLength, id, nodes)
		}
	}
}

// csi-attacher compares its attachments with the replies to ListVolumes, while other volumes are
// attached and detached. No attachment that exists throughout is missing, and no attachment is
// listed that never existed.
func TestReconciliation(t *testing.T) {
	t.Parallel()
	const standing, churning, rounds = 20, 4, 20
	random := rand.New(rand.NewSource(5))
	_, socket := startDriver(t, twoZones)
	k, claims, others := startCluster(t, socket), newClaims(random, standing+churning), map[string]string{}
	for i, c := range claims {
		// Each sixth volume is attached and detached again and again. Of the other volumes, half
		// are attached.
		if i%6 == 5 {
			v, err := k.provision(c)
			if err != nil {
				t.Fatal(err)
			}
			others[v.VolumeID] = "worker-" + c.zone
		} else if err := k.lead(c, []int{provisioned, attached}[i%2]); err != nil {
			t.Fatal(err)
		}
	}
	over := make(chan struct{})
	go func() {
		defer close(over)
		processes.Together(churning, func(i int) {
			if err := k.churn(claims[i*6+5], rounds); err != nil {
				t.Errorf("claim %d: %v", i*6+5, err)
			}
		})
	}()
	walks := 0
	for running := true; running; walks++ {
		select {
		case <-over:
			running = false
		default:
		}
		k.reconcile(t, 0, others)
		k.reconcile(t, 3, others)
	}
	t.Logf("%d walks", walks)
	for id := range others {
		k.note(id, "")
	}
	wantsListed(t, k.attacher, k.nodes)
}
