package sidecars

import (
	"fmt"
	"math/rand"
	"testing"
)

const (
	mebibyte            = int64(1 << 20)
	topologyKey         = "topology.pools.example.org/zone"
	provisionerIdentity = "storage.kubernetes.io/csiProvisionerIdentity"
)

// The zones of the cluster.
var zones = []string{"a", "b"}

// provisioner plays csi-provisioner. identity is the text that it writes into the context of each
// volume.
type provisioner struct {
	*sidecar
	identity string
}

// claim is a persistent volume claim of the storage class of the tests.
type claim struct {
	uid   string
	bytes int64
	// The zone of the node that was selected for its pod.
	zone string
	// True if only this zone is allowed, as with --strict-topology of csi-provisioner.
	strict bool
}

// newClaims returns claims of 1 to 4 MiB, less up to 999 bytes, in the two zones in turn.
func newClaims(random *rand.Rand, count int) (claims []claim) {
	for i := 0; i < count; i++ {
		claims = append(claims, claim{uid: newUID(random), bytes: int64(i%4+1)*mebibyte - int64(random.Intn(1000)),
			zone: zones[i%2]})
	}
	return claims
}

func newUID(random *rand.Rand) string {
	b := make([]byte, 16)
	random.Read(b)
	return fmt.Sprintf("%x-%x-%x-%x-%x", b[:4], b[4:6], b[6:8], b[8:10], b[10:])
}

// volumeCapability returns the capability for ReadWriteOnce with a file system. If the driver has
// the capability SINGLE_NODE_MULTI_WRITER, its mode is SINGLE_NODE_MULTI_WRITER, and otherwise
// SINGLE_NODE_WRITER.
func (s *sidecar) volumeCapability() *volumeCapability {
	mode := int32(modeSingleNodeWriter)
	if s.controller[singleNodeMultiWriter] {
		mode = modeSingleNodeMultiWriter
	}
	return &volumeCapability{AccessType: &accessMount{&mountVolume{FsType: "ext4"}},
		AccessMode: &accessMode{Mode: mode}}
}

// requirements returns the zones of the cluster. The preferred zones begin with the selected one. A
// strict claim has only the selected zone.
func (c claim) requirements() *topologyRequirement {
	all := []*topology{zoneTopology(c.zone)}
	if c.strict {
		return &topologyRequirement{Requisite: all, Preferred: all}
	}
	first := 0
	for i, zone := range zones {
		if zone == c.zone {
			first = i
		}
	}
	required := &topologyRequirement{}
	for i := range zones {
		required.Requisite = append(required.Requisite, zoneTopology(zones[i]))
		required.Preferred = append(required.Preferred, zoneTopology(zones[(first+i)%len(zones)]))
	}
	return required
}

func zoneTopology(zone string) *topology {
	return &topology{Segments: map[string]string{topologyKey: zone}}
}

func startProvisioner(t *testing.T, socket string) *provisioner {
	t.Helper()
	s := startSidecar(t, socket)
	return &provisioner{s, "1700000000000-8081-" + s.driver}
}

// createRequest returns the request for a claim, which is the same at each try.
func (p *provisioner) createRequest(c claim) *createVolumeRequest {
	return &createVolumeRequest{
		Name:                      "pvc-" + c.uid,
		CapacityRange:             &capacityRange{RequiredBytes: c.bytes},
		VolumeCapabilities:        []*volumeCapability{p.volumeCapability()},
		Parameters:                map[string]string{"tier": "gold"},
		AccessibilityRequirements: c.requirements(),
	}
}

// provision creates the volume of a claim, and checks the answer as csi-provisioner does.
func (p *provisioner) provision(c claim) (*volume, error) {
	got := &createVolumeResponse{}
	if err := p.repeat(controller+"CreateVolume", p.createRequest(c), got); err != nil {
		return nil, err
	}
	return got.Volume, c.accepts(got.Volume)
}

// accepts returns why a volume does not fit the claim, or nil.
func (c claim) accepts(v *volume) error {
	switch {
	case v == nil:
		return fmt.Errorf("%s: no volume was answered", c.uid)
	case v.VolumeID == "":
		return fmt.Errorf("%s: the volume has no id", c.uid)
	case v.CapacityBytes < c.bytes:
		return fmt.Errorf("%s: %d bytes, fewer than the %d that were asked for", c.uid, v.CapacityBytes, c.bytes)
	}
	return nil
}

func (p *provisioner) remove(id string) error {
	return p.repeat(controller+"DeleteVolume", &deleteVolumeRequest{VolumeID: id}, &empty{})
}

// persistentContext returns the context that a persistent volume keeps for the calls of
// csi-attacher.
func (p *provisioner) persistentContext(v *volume) map[string]string {
	all := map[string]string{provisionerIdentity: p.identity}
	for key, value := range v.VolumeContext {
		all[key] = value
	}
	return all
}

// capacity asks once for the free bytes of a zone, with GetCapacity. A failed call is not repeated.
func (p *provisioner) capacity(zone string) (*getCapacityResponse, error) {
	got := &getCapacityResponse{}
	request := &getCapacityRequest{Parameters: map[string]string{"tier": "gold"},
		AccessibleTopology: zoneTopology(zone)}
	return got, p.ask(callTimeout, controller+"GetCapacity", request, got)
}
