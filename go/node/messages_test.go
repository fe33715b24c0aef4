package main

import (
	"encoding/hex"
	"reflect"
	"strings"
	"testing"
)

// messageCase is a message and its bytes in hexadecimal.
type messageCase struct {
	name  string
	value interface{}
	bytes string
}

// messageCases are written by hand from the field numbers in CSI's csi.proto.
func messageCases() []messageCase {
	mode1 := &accessMode{Mode: 1}
	pool := map[string]string{"pool": "p1"}
	return []messageCase{
		{"empty", &empty{}, ""},
		{"GetPluginInfo response", &pluginInfo{Name: "a.b", VendorVersion: "1"}, "0a03 612e62 1201 31"},
		{"GetPluginCapabilities response",
			&pluginCapabilities{Capabilities: []*pluginCapability{{Service: &capabilityType{Type: 2}}}},
			"0a04 0a02 0802"},
		{"Probe response", &probe{Ready: &boolValue{Value: true}}, "0a02 0801"},
		{"NodeGetInfo response", &nodeInfo{NodeID: "n1", MaxVolumes: 2,
			AccessibleTopology: &topology{Segments: map[string]string{"zone": "a"}}},
			"0a02 6e31 1002 1a0b 0a09 0a04 7a6f6e65 1201 61"},
		{"NodeGetCapabilities response",
			&nodeCapabilities{Capabilities: []*nodeCapability{{RPC: &capabilityType{Type: 1}},
				{RPC: &capabilityType{Type: 2}}}}, "0a04 0a02 0801 0a04 0a02 0802"},
		{"NodeStageVolume request", &stageRequest{VolumeID: "v", PublishContext: map[string]string{"readonly": "true"},
			StagingPath: "/s", Capability: &capability{Block: &blockAccess{}, AccessMode: mode1}, VolumeContext: pool},
			"0a01 76 1210 0a08 726561646f6e6c79 1204 74727565 1a02 2f73 2206 0a00 1a02 0801 320a 0a04 706f6f6c " +
				"1202 7031"},
		{"NodeUnstageVolume request", &unstageRequest{VolumeID: "v", StagingPath: "/s"}, "0a01 76 1202 2f73"},
		{"NodePublishVolume request", &publishRequest{VolumeID: "v", StagingPath: "/s", TargetPath: "/t",
			Capability: &capability{Mount: &mountAccess{FsType: "ext4", MountFlags: []string{"noatime"}},
				AccessMode: mode1}, ReadOnly: true},
			"0a01 76 1a02 2f73 2202 2f74 2a15 120f 0a04 65787434 1207 6e6f6174696d65 1a02 0801 3001"},
		{"NodeUnpublishVolume request", &unpublishRequest{VolumeID: "v", TargetPath: "/t"}, "0a01 76 1202 2f74"},
		{"NodeGetVolumeStats request", &statsRequest{VolumeID: "v", VolumePath: "/t"}, "0a01 76 1202 2f74"},
		{"NodeGetVolumeStats response", &stats{Usage: []*usage{{Available: 1, Total: 3, Used: 2, Unit: 1}}},
			"0a08 0801 1003 1802 2001"},
		{"CreateVolume request", &createRequest{Name: "a",
			CapacityRange: &capacityRange{RequiredBytes: 1, LimitBytes: 2},
			Capabilities:  []*capability{{Block: &blockAccess{}, AccessMode: mode1}}},
			"0a01 61 1204 0801 1002 1a06 0a00 1a02 0801"},
		{"CreateVolume response", &createResponse{Volume: &volume{CapacityBytes: 1, VolumeID: "v", VolumeContext: pool,
			AccessibleTopology: []*topology{{Segments: map[string]string{"z": "a"}}}}},
			"0a1b 0801 1201 76 1a0a 0a04 706f6f6c 1202 7031 2a08 0a06 0a01 7a 1201 61"},
		{"DeleteVolume request", &deleteRequest{VolumeID: "v"}, "0a01 76"},
		{"ControllerPublishVolume request", &attachRequest{VolumeID: "v", NodeID: "n1",
			Capability: &capability{Block: &blockAccess{}, AccessMode: mode1}, ReadOnly: true},
			"0a01 76 1202 6e31 1a06 0a00 1a02 0801 2001"},
		{"ControllerPublishVolume response", &attachResponse{PublishContext: map[string]string{"readonly": "true"}},
			"0a10 0a08 726561646f6e6c79 1204 74727565"},
		{"ControllerUnpublishVolume request", &detachRequest{VolumeID: "v", NodeID: "n1"}, "0a01 76 1202 6e31"},
		{"ListVolumes request", &listRequest{MaxEntries: 1, StartingToken: "6"}, "0801 1201 36"},
		{"ListVolumes response", &listResponse{Entries: []*listEntry{{Volume: &volume{VolumeID: "v"},
			Status: &volumeStatus{NodeIDs: []string{"n1"}}}}, NextToken: "7"},
			"0a0b 0a03 1201 76 1204 0a02 6e31 1201 37"},
	}
}

// Each message is encoded as its bytes, and the bytes are decoded as the message.
func TestMessages(t *testing.T) {
	for _, c := range messageCases() {
		t.Run(c.name, func(t *testing.T) {
			got, err := codec{}.Marshal(c.value)
			if want := strings.ReplaceAll(c.bytes, " ", ""); err != nil || hex.EncodeToString(got) != want {
				t.Errorf("got %x, error %v, want %s", got, err, want)
			}
			read := reflect.New(reflect.TypeOf(c.value).Elem()).Interface()
			if err := (codec{}).Unmarshal(got, read); err != nil || !reflect.DeepEqual(read, c.value) {
				t.Errorf("got %v, error %v, want %v", read, err, c.value)
			}
		})
	}
}
