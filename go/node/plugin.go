package main

import (
	"context"
	"fmt"
	"os"
	"path/filepath"
	"sync"
	"syscall"

	"google.golang.org/grpc"
	"google.golang.org/grpc/codes"
	"google.golang.org/grpc/status"
)

// The names of CSI's services in the paths of calls.
const (
	identityName   = "csi.v1.Identity"
	controllerName = "csi.v1.Controller"
	nodeName       = "csi.v1.Node"
)

// Values of CSI's enumerations: a capability of the plugin, two capabilities of a node, and the
// unit of a volume's usage.
const (
	accessibilityConstraints = 2
	stageUnstageVolume       = 1
	getVolumeStats           = 2
	unitBytes                = 1
)

// stagingMode is the mode with which a missing staging folder is made. It gives access to the
// plugin's user and group, as a kubelet does.
const stagingMode = 0o750

// storage keeps the data of volumes and makes them available at paths. A repeated call changes
// nothing, except for create, which is called only if there are no data. data is the path of a
// volume's data.
type storage interface {
	// suffix is the part of the data's file name after the volume's id.
	suffix() string
	// supports refuses a use of a volume that the storage does not offer.
	supports(use *capability, readOnly bool) error
	create(data string, bytes int64) error
	stage(data, staging string, use *capability, readOnly bool) error
	unstage(data, staging string) error
	publish(data, staging, target string, use *capability, readOnly bool) error
	unpublish(data, target string) error
	// usage returns the total bytes of a volume at this path, and for a file system also the used
	// and available bytes. It returns nil if the volume is not there.
	usage(data, path string) (*usage, error)
}

// plugin serves the Identity and the Node service. Its storage keeps each volume as a folder, or as
// a file with a loop device.
type plugin struct {
	name       string
	info       nodeInfo
	pools      pools
	storage    storage
	controller controller
	// Held during each call that is wrapped in alone.
	mutex sync.Mutex
}

var (
	identityService = grpc.ServiceDesc{ServiceName: identityName, HandlerType: (*interface{})(nil),
		Methods: []grpc.MethodDesc{
			method("GetPluginInfo", (*plugin).getPluginInfo),
			method("GetPluginCapabilities", (*plugin).getPluginCapabilities),
			method("Probe", (*plugin).probe),
		}}
	nodeService = grpc.ServiceDesc{ServiceName: nodeName, HandlerType: (*interface{})(nil), Methods: []grpc.MethodDesc{
		method("NodeGetInfo", (*plugin).getInfo),
		method("NodeGetCapabilities", (*plugin).getCapabilities),
		method("NodeStageVolume", alone((*plugin).stage)),
		method("NodeUnstageVolume", alone((*plugin).unstage)),
		method("NodePublishVolume", alone((*plugin).publish)),
		method("NodeUnpublishVolume", alone((*plugin).unpublish)),
		method("NodeGetVolumeStats", alone((*plugin).getStats)),
	}}
)

// method returns a gRPC method. An error of answer without a code becomes INTERNAL.
func method[Q, R any](name string, answer func(*plugin, context.Context, *Q) (*R, error)) grpc.MethodDesc {
	handle := func(server interface{}, ctx context.Context, decode func(interface{}) error,
		_ grpc.UnaryServerInterceptor) (interface{}, error) {
		request := new(Q)
		if err := decode(request); err != nil {
			return nil, err
		}
		response, err := answer(server.(*plugin), ctx, request)
		if _, isCoded := status.FromError(err); !isCoded {
			err = status.Error(codes.Internal, err.Error())
		}
		return response, err
	}
	return grpc.MethodDesc{MethodName: name, Handler: handle}
}

// alone wraps a method. Only one call of all wrapped methods runs at a time. The other methods,
// such as Probe, are answered in the meantime. A call whose caller gave it up while it waited is
// not carried out, since the caller may have made another call for the volume by now.
func alone[Q, R any](
	answer func(*plugin, context.Context, *Q) (*R, error),
) func(*plugin, context.Context, *Q) (*R, error) {
	return func(p *plugin, ctx context.Context, request *Q) (*R, error) {
		p.mutex.Lock()
		defer p.mutex.Unlock()
		if err := ctx.Err(); err != nil {
			return nil, status.FromContextError(err).Err()
		}
		return answer(p, ctx, request)
	}
}

func newServer(p *plugin) *grpc.Server {
	server := grpc.NewServer()
	server.RegisterService(&identityService, p)
	server.RegisterService(&nodeService, p)
	return server
}

func (p *plugin) getPluginInfo(context.Context, *empty) (*pluginInfo, error) {
	return &pluginInfo{Name: p.name, VendorVersion: version}, nil
}

func (p *plugin) getPluginCapabilities(context.Context, *empty) (*pluginCapabilities, error) {
	constraints := &pluginCapability{Service: &capabilityType{Type: accessibilityConstraints}}
	return &pluginCapabilities{Capabilities: []*pluginCapability{constraints}}, nil
}

func (p *plugin) probe(context.Context, *empty) (*probe, error) {
	return &probe{Ready: &boolValue{Value: true}}, nil
}

func (p *plugin) getInfo(context.Context, *empty) (*nodeInfo, error) {
	return &p.info, nil
}

func (p *plugin) getCapabilities(context.Context, *empty) (*nodeCapabilities, error) {
	return &nodeCapabilities{Capabilities: []*nodeCapability{
		{RPC: &capabilityType{Type: stageUnstageVolume}}, {RPC: &capabilityType{Type: getVolumeStats}},
	}}, nil
}

// stage stages a volume. If the volume has no data yet, stage first makes its data, in the size
// that the controller reports. It also makes the staging folder if the folder is missing.
func (p *plugin) stage(ctx context.Context, request *stageRequest) (*empty, error) {
	if err := checkPlace(request.VolumeID, "staging_target_path", request.StagingPath); err != nil {
		return nil, err
	}
	readOnly := request.PublishContext["readonly"] == "true"
	if err := p.checkCapability(request.Capability, readOnly); err != nil {
		return nil, err
	}
	data, err := p.dataOf(request)
	if err != nil {
		return nil, err
	}
	hasData, err := exists(data)
	if err != nil {
		return nil, err
	}
	if !hasData {
		bytes, err := p.controller.size(ctx, request.VolumeID)
		if err != nil {
			return nil, err
		}
		if err := p.storage.create(data, bytes); err != nil {
			return nil, err
		}
	}
	// The orchestrator should have made the folder (CSI, "NodeStageVolume"), but Docker Swarm does
	// not.
	if err := os.MkdirAll(request.StagingPath, stagingMode); err != nil {
		return nil, err
	}
	return new(empty), p.storage.stage(data, request.StagingPath, request.Capability, readOnly)
}

// dataOf returns the path of a volume's data, which need not exist yet. The context of the volume
// names the pool. A pool without a folder is refused.
func (p *plugin) dataOf(request *stageRequest) (string, error) {
	pool := request.VolumeContext["pool"]
	if pool == "" {
		return "", status.Error(codes.InvalidArgument, "volume_context: the key pool is missing")
	}
	folder := p.pools[pool]
	if folder == "" {
		return "", status.Errorf(codes.FailedPrecondition, "the node has no folder for the pool %q", pool)
	}
	return filepath.Join(folder, p.file(request.VolumeID)), nil
}

// find returns the path of a volume's data in any of the pools, or "" if no pool has the data.
func (p *plugin) find(id string) (string, error) {
	return p.pools.find(p.file(id))
}

// file returns the file name of a volume's data: the id, and then the suffix of the storage.
func (p *plugin) file(id string) string {
	return id + p.storage.suffix()
}

func (p *plugin) unstage(_ context.Context, request *unstageRequest) (*empty, error) {
	if err := checkPlace(request.VolumeID, "staging_target_path", request.StagingPath); err != nil {
		return nil, err
	}
	data, err := p.find(request.VolumeID)
	if err != nil || data == "" {
		return new(empty), err
	}
	return new(empty), p.storage.unstage(data, request.StagingPath)
}

func (p *plugin) publish(ctx context.Context, request *publishRequest) (*empty, error) {
	if err := checkPlace(request.VolumeID, "target_path", request.TargetPath); err != nil {
		return nil, err
	}
	if err := p.checkCapability(request.Capability, request.ReadOnly); err != nil {
		return nil, err
	}
	if request.StagingPath == "" {
		return nil, status.Error(codes.FailedPrecondition, "staging_target_path is missing")
	}
	if err := checkPath("staging_target_path", request.StagingPath); err != nil {
		return nil, err
	}
	data, err := p.find(request.VolumeID)
	if err != nil {
		return nil, err
	}
	if data == "" {
		if _, err := p.controller.size(ctx, request.VolumeID); err != nil {
			return nil, err
		}
		return nil, errNotStaged
	}
	return new(empty), p.storage.publish(data, request.StagingPath, request.TargetPath, request.Capability,
		request.ReadOnly)
}

func (p *plugin) unpublish(_ context.Context, request *unpublishRequest) (*empty, error) {
	if err := checkPlace(request.VolumeID, "target_path", request.TargetPath); err != nil {
		return nil, err
	}
	data, err := p.find(request.VolumeID)
	if err != nil || data == "" {
		return new(empty), err
	}
	return new(empty), p.storage.unpublish(data, request.TargetPath)
}

func (p *plugin) getStats(_ context.Context, request *statsRequest) (*stats, error) {
	if err := checkPlace(request.VolumeID, "volume_path", request.VolumePath); err != nil {
		return nil, err
	}
	data, err := p.find(request.VolumeID)
	if err != nil {
		return nil, err
	}
	if data == "" {
		return nil, errNoVolume
	}
	used, err := p.storage.usage(data, request.VolumePath)
	if err != nil {
		return nil, err
	}
	if used == nil {
		return nil, status.Errorf(codes.NotFound, "the volume is not at %s", request.VolumePath)
	}
	return &stats{Usage: []*usage{used}}, nil
}

func fileSystemUsage(path string) (*usage, error) {
	var of syscall.Statfs_t
	if err := syscall.Statfs(path, &of); err != nil {
		return nil, fmt.Errorf("%s: %w", path, err)
	}
	return &usage{
		Available: int64(of.Bavail) * of.Frsize,
		Total:     int64(of.Blocks) * of.Frsize,
		Used:      int64(of.Blocks-of.Bfree) * of.Frsize,
		Unit:      unitBytes,
	}, nil
}

var errNotStaged = status.Error(codes.FailedPrecondition, "the volume is not staged")

// checkPlace checks the volume's id and the path of a call. field is the name of the path's field
// in the request.
func checkPlace(id, field, path string) error {
	if err := checkVolume(id); err != nil {
		return err
	}
	return checkPath(field, path)
}

// checkVolume accepts only ids in the controller's form, so that no id leads out of a pool's
// folder.
func checkVolume(id string) error {
	if id == "" {
		return status.Error(codes.InvalidArgument, "volume_id is missing")
	}
	if !volumeID.MatchString(id) {
		return errNoVolume
	}
	return nil
}

func checkPath(field, path string) error {
	if path == "" {
		return status.Errorf(codes.InvalidArgument, "%s is missing", field)
	}
	if !filepath.IsAbs(path) {
		return status.Errorf(codes.InvalidArgument, "%s is not absolute", field)
	}
	return nil
}

func (p *plugin) checkCapability(use *capability, readOnly bool) error {
	if use == nil {
		return status.Error(codes.InvalidArgument, "volume_capability is missing")
	}
	if (use.Block == nil) == (use.Mount == nil) {
		return status.Error(codes.InvalidArgument, "volume_capability is not one of block and mount")
	}
	return p.storage.supports(use, readOnly)
}
