package main

import (
	"context"
	"net"
	"regexp"
	"strconv"
	"time"

	"google.golang.org/grpc"
	"google.golang.org/grpc/backoff"
	"google.golang.org/grpc/codes"
	"google.golang.org/grpc/connectivity"
	"google.golang.org/grpc/status"
)

const (
	// The time limit for an answer of the controller.
	controllerTime = 10 * time.Second
	// The time for which a call waits for a missing controller, which may be starting. The answer
	// may come later, within controllerTime.
	startTime = 2 * time.Second
)

// redial sets the pause between two attempts to connect: about 0.1 seconds at first, and about one
// second at most.
var redial = grpc.ConnectParams{
	Backoff: backoff.Config{
		BaseDelay: 100 * time.Millisecond, Multiplier: 1.6, Jitter: 0.2, MaxDelay: time.Second,
	},
	MinConnectTimeout: controllerTime,
}

var (
	volumeID    = regexp.MustCompile(`^vol-([1-9][0-9]*)$`)
	errNoVolume = status.Error(codes.NotFound, "volume not found")
)

// controller is a connection to the front. The plugin asks the front for facts that are not in the
// requests of the orchestrator.
type controller struct{ *grpc.ClientConn }

func dial(socket string) (controller, error) {
	toSocket := func(ctx context.Context, _ string) (net.Conn, error) {
		return (&net.Dialer{}).DialContext(ctx, "unix", socket)
	}
	conn, err := grpc.Dial("passthrough:///csi", grpc.WithInsecure(), grpc.WithContextDialer(toSocket),
		grpc.WithConnectParams(redial))
	return controller{conn}, err
}

// size returns the size of a volume in bytes, or errNoVolume. It asks for a page of ListVolumes
// with one entry, after the volume's number minus 1. If the volume exists, this entry is the volume
// (docs/MACHINE.md, "A walk over pages").
func (c controller) size(ctx context.Context, id string) (int64, error) {
	parts := volumeID.FindStringSubmatch(id)
	if parts == nil {
		return 0, errNoVolume
	}
	number, err := strconv.ParseUint(parts[1], 10, 64)
	if err != nil {
		return 0, errNoVolume
	}
	token := ""
	if number > 1 {
		token = strconv.FormatUint(number-1, 10)
	}
	page, err := c.page(ctx, 1, token)
	if status.Code(err) == codes.Aborted {
		return 0, errNoVolume
	}
	if err != nil {
		return 0, err
	}
	if len(page.Entries) == 0 || page.Entries[0].Volume.VolumeID != id {
		return 0, errNoVolume
	}
	return page.Entries[0].Volume.CapacityBytes, nil
}

// volumes returns the ids of all volumes that the controller lists.
func (c controller) volumes(ctx context.Context) (map[string]bool, error) {
	ids := map[string]bool{}
	for token := ""; ; {
		page, err := c.page(ctx, 0, token)
		if err != nil {
			return nil, err
		}
		for _, entry := range page.Entries {
			ids[entry.Volume.VolumeID] = true
		}
		if page.NextToken == "" {
			return ids, nil
		}
		token = page.NextToken
	}
}

func (c controller) page(ctx context.Context, entries int32, token string) (*listResponse, error) {
	ctx, cancel := context.WithTimeout(ctx, controllerTime)
	defer cancel()
	page, err := c.list(ctx, &listRequest{MaxEntries: entries, StartingToken: token})
	if status.Code(err) == codes.Unavailable && c.becomesReady(ctx) {
		page, err = c.list(ctx, &listRequest{MaxEntries: entries, StartingToken: token})
	}
	if err != nil {
		return nil, err
	}
	for _, entry := range page.Entries {
		if entry.Volume == nil {
			return nil, status.Error(codes.Internal, "the controller lists an entry without a volume")
		}
	}
	return page, nil
}

// becomesReady waits at most startTime until there is a connection to the controller, and reports
// whether there is one.
func (c controller) becomesReady(ctx context.Context) bool {
	ctx, cancel := context.WithTimeout(ctx, startTime)
	defer cancel()
	for state := c.GetState(); state != connectivity.Ready; state = c.GetState() {
		if !c.WaitForStateChange(ctx, state) {
			return false
		}
	}
	return true
}

func (c controller) list(ctx context.Context, request *listRequest) (*listResponse, error) {
	page := new(listResponse)
	return page, c.Invoke(ctx, "/"+controllerName+"/ListVolumes", request, page)
}
