package main

import (
	"context"
	"strconv"
	"strings"
	"time"

	"google.golang.org/grpc/codes"
	"google.golang.org/grpc/status"
	"google.golang.org/protobuf/encoding/protowire"
)

// csid answers a delete or an unpublish OK even if there is nothing to remove (docs/MACHINE.md,
// "DeleteVolume", "ControllerUnpublishVolume"). The log should have only real changes. So if
// changes are logged, the front looks the volume up before such a call, with a page of ListVolumes
// that has one entry, as csictl does.

// idPrefix is the first part of a volume's id, before its number in decimal.
const idPrefix = "vol-"

// lookUpTime is the longest wait of a delete or an unpublish for the page of its look-up. If the
// page does not come in time, the call counts as a change.
const lookUpTime = time.Second

// removal is the result of the look-up before a delete or an unpublish. It is empty for any other
// call.
type removal struct {
	// True if the call will find nothing to remove. False if it may remove something, or if the
	// look-up failed.
	isOfNothing bool
}

// made returns the change for the log. It returns nil instead if the call had nothing to remove and
// was answered OK.
func (r removal) made(logged *change, code codes.Code) *change {
	if r.isOfNothing && code == codes.OK {
		return nil
	}
	return logged
}

// removalOf looks up the volume of a delete or an unpublish. For any other call, or if changes are
// not logged, it asks nothing.
func (h *handler) removalOf(ctx context.Context, path string, message []byte) removal {
	if !h.logChanges || path != deleteVolume && path != unpublishVolume {
		return removal{}
	}
	id := string(fieldOf(message, 1))
	number, isID := numberOf(id)
	if !isID {
		return removal{isOfNothing: true}
	}
	ctx, cancel := context.WithTimeout(ctx, lookUpTime)
	defer cancel()
	body, err := h.ask(ctx, listVolumes, pageOf(number))
	if err != nil {
		// csid refuses the token with ABORTED if no volume has ever had a number above the token.
		return removal{isOfNothing: status.Code(err) == codes.Aborted && number > 1}
	}
	nodes, exists, err := nodesOf(body, id)
	if err != nil {
		return removal{}
	}
	if path == deleteVolume {
		return removal{isOfNothing: !exists}
	}
	return removal{isOfNothing: !exists || !isPublished(nodes, string(fieldOf(message, 2)))}
}

// numberOf returns the number in the id of a volume. isID is false if the text is not the id of a
// volume.
func numberOf(id string) (number uint64, isID bool) {
	digits := strings.TrimPrefix(id, idPrefix)
	number, err := strconv.ParseUint(digits, 10, 64)
	return number, err == nil && number > 0 && id == idPrefix+strconv.FormatUint(number, 10)
}

// pageOf returns the message of ListVolumes for a page with one entry, which begins with the volume
// of this number. The token of the page is the number minus 1; the first page has no token.
func pageOf(number uint64) []byte {
	message := protowire.AppendVarint(protowire.AppendTag(nil, 1, protowire.VarintType), 1)
	if number > 1 {
		message = append(message, bytesField(2, []byte(strconv.FormatUint(number-1, 10)))...)
	}
	return message
}

// nodesOf returns the nodes of the volume in a page of one entry. exists is false if the entry is
// missing or is not the volume with this id.
func nodesOf(page []byte, id string) (nodes []string, exists bool, err error) {
	entry := fieldOf(page, 1)
	exists = entry != nil && string(fieldOf(fieldOf(entry, 1), 2)) == id
	err = eachField(fieldOf(entry, 2), func(number protowire.Number, kind protowire.Type, value []byte) error {
		if number == 1 && kind == protowire.BytesType {
			node, _ := protowire.ConsumeString(value)
			nodes = append(nodes, node)
		}
		return nil
	})
	return nodes, exists, err
}

// isPublished reports whether nodes contains a node. If node is empty, it reports whether there are
// any nodes.
func isPublished(nodes []string, node string) bool {
	for _, one := range nodes {
		if node == "" || one == node {
			return true
		}
	}
	return false
}
