package main

// The services and paths that the front must know: it calls or answers them itself, sends them to
// the node plugin, or logs their changes.
const (
	identity     = "/csi.v1.Identity/"
	controller   = "/csi.v1.Controller/"
	nodeService  = "/csi.v1.Node/"
	probe        = identity + "Probe"
	createVolume = controller + "CreateVolume"
	deleteVolume = controller + "DeleteVolume"
	getCapacity  = controller + "GetCapacity"
	listVolumes  = controller + "ListVolumes"
	healthCheck  = "/grpc.health.v1.Health/Check"

	unpublishVolume = controller + "ControllerUnpublishVolume"
)

// otherMethod is the label in the metrics for all paths except healthCheck and the methods in the
// tables below. A client can call any path, and each label is a series.
const otherMethod = "other"

// methods are the methods that csid answers (docs/PROTOCOL.md, "Paths").
var methods = map[string]bool{
	identity + "GetPluginInfo":                true,
	identity + "GetPluginCapabilities":        true,
	probe:                                     true,
	createVolume:                              true,
	deleteVolume:                              true,
	controller + "ControllerPublishVolume":    true,
	unpublishVolume:                           true,
	controller + "ValidateVolumeCapabilities": true,
	listVolumes:                               true,
	getCapacity:                               true,
	controller + "ControllerGetCapabilities":  true,
	controller + "ControllerModifyVolume":     true,
}

// nodeMethods are the methods of the Node service (CSI 1.x), which a node plugin answers.
var nodeMethods = map[string]bool{
	nodeService + "NodeStageVolume":     true,
	nodeService + "NodeUnstageVolume":   true,
	nodeService + "NodePublishVolume":   true,
	nodeService + "NodeUnpublishVolume": true,
	nodeService + "NodeGetVolumeStats":  true,
	nodeService + "NodeExpandVolume":    true,
	nodeService + "NodeGetCapabilities": true,
	nodeService + "NodeGetInfo":         true,
}

func methodLabel(path string) string {
	if methods[path] || path == healthCheck {
		return path
	}
	return otherMethod
}
