package sidecars

import (
	"math/rand"
	"reflect"
	"testing"

	"google.golang.org/grpc"
	"google.golang.org/grpc/codes"

	"../processes"
)

// A pool of 1 GiB and a node in each of two zones.
const twoZones = `name = "pools.example.org"
vendor_version = "1.0.0"
default_bytes = 1048576
greatest_bytes = 8388608

[[pool]]
name = "p1"
bytes = 1073741824
segments = { "topology.pools.example.org/zone" = "a" }

[[pool]]
name = "p2"
bytes = 1073741824
segments = { "topology.pools.example.org/zone" = "b" }

[[node]]
id = "worker-a"
max_volumes = 1000

[[node]]
id = "worker-b"
max_volumes = 1000
`

// startDriver starts a csid and a front for it. It returns the csid and the socket of the front.
func startDriver(t *testing.T, config string) (*processes.Server, string) {
	t.Helper()
	csid := processes.NewServer(t, config).Start(t)
	return csid, processes.StartFront(t, csid.Socket()).Socket
}

// wantsListed compares the nodes of each volume, as csi-attacher lists them, with want. There the
// node "" means that the volume is at no node.
func wantsListed(t *testing.T, a *attacher, want map[string]string) {
	t.Helper()
	got, err := a.list(0)
	if err != nil {
		t.Fatal(err)
	}
	if len(got) != len(want) {
		t.Errorf("%d volumes are listed, %d stand", len(got), len(want))
	}
	for id, node := range want {
		nodes, is := got[id]
		if !is || len(nodes) > 1 || (node == "") != (len(nodes) == 0) || node != "" && nodes[0] != node {
			t.Errorf("%s: listed %v at %v, wanted %q", id, is, nodes, node)
		}
	}
}

// While csid is not there, a sidecar ends at its start, as csi-lib-utils does. Once csid is there,
// the sidecar starts well. The capabilities that it asks for at its start decide which calls it
// makes.
func TestStart(t *testing.T) {
	t.Parallel()
	csid := processes.NewServer(t, twoZones)
	socket := processes.StartFront(t, csid.Socket()).Socket
	if _, err := comeUp(t, socket); grpc.Code(err) != codes.Unavailable {
		t.Errorf("without csid: %v, wanted UNAVAILABLE", err)
	}
	csid.Start(t)
	s := startSidecar(t, socket)
	if s.driver != "pools.example.org" {
		t.Errorf("the driver is %q", s.driver)
	}
	if want := map[int32]bool{controllerService: true, accessibilityConstraints: true}; !reflect.DeepEqual(s.plugin,
		want) {
		t.Errorf("the plugin has %v, wanted %v", s.plugin, want)
	}
	want := map[int32]bool{createDeleteVolume: true, publishUnpublishVolume: true, listVolumes: true, getCapacity: true,
		publishReadonly:           true,
		listVolumesPublishedNodes: true, singleNodeMultiWriter: true, modifyVolume: true}
	if !reflect.DeepEqual(s.controller, want) {
		t.Errorf("the controller has %v, wanted %v", s.controller, want)
	}
}

// A claim's volume is created in the zone of its pod, attached, detached and deleted. Each call is
// made twice, since sidecars repeat calls after a restart.
func TestLifeOfAClaim(t *testing.T) {
	t.Parallel()
	_, socket := startDriver(t, twoZones)
	p, a := startProvisioner(t, socket), startAttacher(t, socket)
	c := claim{uid: newUID(rand.New(rand.NewSource(1))), bytes: 2*mebibyte + 1, zone: "b"}
	var made []*volume
	twice(t, "provision", func() error {
		v, err := p.provision(c)
		made = append(made, v)
		return err
	})
	want := &volume{CapacityBytes: 3 * mebibyte, VolumeID: "vol-1", VolumeContext: map[string]string{"pool": "p2"},
		AccessibleTopology: []*topology{zoneTopology("b")}}
	for _, v := range made {
		if !reflect.DeepEqual(v, want) {
			t.Errorf("made %v, wanted %v", v, want)
		}
	}
	wantsListed(t, a, map[string]string{"vol-1": ""})
	twice(t, "attach", func() error {
		context, err := a.attach("vol-1", "worker-b", p.persistentContext(want))
		if want := map[string]string{"readonly": "false"}; !reflect.DeepEqual(context, want) {
			t.Errorf("published with %v, wanted %v", context, want)
		}
		return err
	})
	wantsListed(t, a, map[string]string{"vol-1": "worker-b"})
	twice(t, "detach", func() error { return a.detach("vol-1", "worker-b") })
	wantsListed(t, a, map[string]string{"vol-1": ""})
	twice(t, "delete", func() error { return p.remove("vol-1") })
	wantsListed(t, a, map[string]string{})
}

// twice calls a function twice, which must succeed both times.
func twice(t *testing.T, what string, does func() error) {
	t.Helper()
	for i := 0; i < 2; i++ {
		if err := does(); err != nil {
			t.Fatalf("%s, time %d: %v", what, i+1, err)
		}
	}
}

// An attached volume is not deleted, and not attached to another or to an unknown node. No volume
// above the greatest size is made. Sidecars do not repeat these calls, and the attachment stays.
func TestFinalErrors(t *testing.T) {
	t.Parallel()
	_, socket := startDriver(t, twoZones)
	p, a := startProvisioner(t, socket), startAttacher(t, socket)
	v, err := p.provision(claim{uid: newUID(rand.New(rand.NewSource(1))), bytes: mebibyte, zone: "a"})
	if err != nil {
		t.Fatal(err)
	}
	context := p.persistentContext(v)
	if _, err := a.attach(v.VolumeID, "worker-a", context); err != nil {
		t.Fatal(err)
	}
	_, elsewhere := a.attach(v.VolumeID, "worker-b", context)
	_, unknown := a.attach(v.VolumeID, "worker-c", context)
	_, greater := p.provision(claim{uid: newUID(rand.New(rand.NewSource(2))), bytes: 9 * mebibyte, zone: "a"})
	for _, row := range []struct {
		what string
		err  error
		code codes.Code
	}{
		{"delete", p.remove(v.VolumeID), codes.FailedPrecondition},
		{"attach elsewhere", elsewhere, codes.FailedPrecondition},
		{"attach at an unknown node", unknown, codes.NotFound},
		{"provision more than the greatest size", greater, codes.OutOfRange},
	} {
		if grpc.Code(row.err) != row.code {
			t.Errorf("%s: %v, wanted %v", row.what, row.err, row.code)
		}
	}
	wantsListed(t, a, map[string]string{v.VolumeID: "worker-a"})
}
