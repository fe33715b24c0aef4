package sidecars

import (
	"fmt"
	"testing"
)

// attacher plays csi-attacher: it publishes, unpublishes and lists volumes.
type attacher struct{ *sidecar }

func startAttacher(t *testing.T, socket string) *attacher {
	t.Helper()
	return &attacher{startSidecar(t, socket)}
}

// attach publishes a volume to a node, with the context that its persistent volume keeps. It
// returns the context of the reply.
func (a *attacher) attach(id, node string, context map[string]string) (map[string]string, error) {
	got := &publishVolumeResponse{}
	request := &publishVolumeRequest{VolumeID: id, NodeID: node, VolumeCapability: a.volumeCapability(),
		VolumeContext: context}
	err := a.repeat(controller+"ControllerPublishVolume", request, got)
	return got.PublishContext, err
}

func (a *attacher) detach(id, node string) error {
	return a.repeat(controller+"ControllerUnpublishVolume", &unpublishVolumeRequest{VolumeID: id, NodeID: node},
		&empty{})
}

// list returns the nodes of each volume, by its id. It reads pages of pageLength entries; 0 leaves
// the length to the driver.
func (a *attacher) list(pageLength int32) (map[string][]string, error) {
	all, token := map[string][]string{}, ""
	for {
		page := &listVolumesResponse{}
		if err := a.ask(callTimeout, controller+"ListVolumes",
			&listVolumesRequest{MaxEntries: pageLength, StartingToken: token}, page); err != nil {
			return nil, err
		}
		for _, entry := range page.Entries {
			if _, is := all[entry.Volume.VolumeID]; is {
				return nil, fmt.Errorf("%s is listed twice", entry.Volume.VolumeID)
			}
			all[entry.Volume.VolumeID] = entry.Status.PublishedNodeIDs
		}
		if token = page.NextToken; token == "" {
			return all, nil
		}
	}
}
