package main

import (
	"google.golang.org/grpc/encoding"
	"google.golang.org/protobuf/proto"
	"google.golang.org/protobuf/runtime/protoimpl"
)

// message makes a struct a Protocol Buffers message, described by the tags of its fields. A message
// is decoded once into a new value, so Reset does nothing. It may contain secrets, so String is
// empty.
type message struct{}

// Reset does nothing.
func (message) Reset() {}

// String returns an empty text.
func (message) String() string { return "" }

// ProtoMessage marks the type as a message, and does nothing.
func (message) ProtoMessage() {}

// codec encodes and decodes these messages. It replaces gRPC's codec, which accepts only generated
// ones.
type codec struct{}

// Marshal encodes a message, given as a pointer to one of the structs below.
func (codec) Marshal(v interface{}) ([]byte, error) {
	return proto.Marshal(protoimpl.X.ProtoMessageV2Of(v))
}

// Unmarshal decodes data into v, a pointer to one of the structs below.
func (codec) Unmarshal(data []byte, v interface{}) error {
	return proto.Unmarshal(data, protoimpl.X.ProtoMessageV2Of(v))
}

// Name returns the name of the codec that this one replaces.
func (codec) Name() string { return "proto" }

func init() { encoding.RegisterCodec(codec{}) }

// The messages of CSI 1.x with the fields that this program uses. Other fields are skipped.

type empty struct{ message }

type pluginInfo struct {
	message
	Name          string `protobuf:"bytes,1,opt,name=name,proto3" json:"name,omitempty"`
	VendorVersion string `protobuf:"bytes,2,opt,name=vendor_version,proto3" json:"vendor_version,omitempty"`
}

type pluginCapabilities struct {
	message
	Capabilities []*pluginCapability `protobuf:"bytes,1,rep,name=capabilities,proto3" json:"capabilities,omitempty"`
}

type pluginCapability struct {
	Service *capabilityType `protobuf:"bytes,1,opt,name=service,proto3" json:"service,omitempty"`
}

type capabilityType struct {
	Type int32 `protobuf:"varint,1,opt,name=type,proto3" json:"type,omitempty"`
}

type probe struct {
	message
	Ready *boolValue `protobuf:"bytes,1,opt,name=ready,proto3" json:"ready,omitempty"`
}

type boolValue struct {
	Value bool `protobuf:"varint,1,opt,name=value,proto3" json:"value,omitempty"`
}

type nodeInfo struct {
	message
	NodeID             string    `protobuf:"bytes,1,opt,name=node_id,proto3" json:"node_id,omitempty"`
	MaxVolumes         int64     `protobuf:"varint,2,opt,name=max_volumes_per_node,proto3" json:"max_volumes_per_node,omitempty"`
	AccessibleTopology *topology `protobuf:"bytes,3,opt,name=accessible_topology,proto3" json:"accessible_topology,omitempty"`
}

type topology struct {
	Segments map[string]string `protobuf:"bytes,1,rep,name=segments,proto3" protobuf_key:"bytes,1,opt,name=key,proto3" protobuf_val:"bytes,2,opt,name=value,proto3" json:"segments,omitempty"`
}

type nodeCapabilities struct {
	message
	Capabilities []*nodeCapability `protobuf:"bytes,1,rep,name=capabilities,proto3" json:"capabilities,omitempty"`
}

type nodeCapability struct {
	RPC *capabilityType `protobuf:"bytes,1,opt,name=rpc,proto3" json:"rpc,omitempty"`
}

// capability is a use of a volume. In a valid one, exactly one of Block and Mount is set.
type capability struct {
	Block      *blockAccess `protobuf:"bytes,1,opt,name=block,proto3" json:"block,omitempty"`
	Mount      *mountAccess `protobuf:"bytes,2,opt,name=mount,proto3" json:"mount,omitempty"`
	AccessMode *accessMode  `protobuf:"bytes,3,opt,name=access_mode,proto3" json:"access_mode,omitempty"`
}

type blockAccess struct{}

type mountAccess struct {
	FsType     string   `protobuf:"bytes,1,opt,name=fs_type,proto3" json:"fs_type,omitempty"`
	MountFlags []string `protobuf:"bytes,2,rep,name=mount_flags,proto3" json:"mount_flags,omitempty"`
}

type accessMode struct {
	Mode int32 `protobuf:"varint,1,opt,name=mode,proto3" json:"mode,omitempty"`
}

type stageRequest struct {
	message
	VolumeID       string            `protobuf:"bytes,1,opt,name=volume_id,proto3" json:"volume_id,omitempty"`
	PublishContext map[string]string `protobuf:"bytes,2,rep,name=publish_context,proto3" protobuf_key:"bytes,1,opt,name=key,proto3" protobuf_val:"bytes,2,opt,name=value,proto3" json:"publish_context,omitempty"`
	StagingPath    string            `protobuf:"bytes,3,opt,name=staging_target_path,proto3" json:"staging_target_path,omitempty"`
	Capability     *capability       `protobuf:"bytes,4,opt,name=volume_capability,proto3" json:"volume_capability,omitempty"`
	VolumeContext  map[string]string `protobuf:"bytes,6,rep,name=volume_context,proto3" protobuf_key:"bytes,1,opt,name=key,proto3" protobuf_val:"bytes,2,opt,name=value,proto3" json:"volume_context,omitempty"`
}

type unstageRequest struct {
	message
	VolumeID    string `protobuf:"bytes,1,opt,name=volume_id,proto3" json:"volume_id,omitempty"`
	StagingPath string `protobuf:"bytes,2,opt,name=staging_target_path,proto3" json:"staging_target_path,omitempty"`
}

type publishRequest struct {
	message
	VolumeID    string      `protobuf:"bytes,1,opt,name=volume_id,proto3" json:"volume_id,omitempty"`
	StagingPath string      `protobuf:"bytes,3,opt,name=staging_target_path,proto3" json:"staging_target_path,omitempty"`
	TargetPath  string      `protobuf:"bytes,4,opt,name=target_path,proto3" json:"target_path,omitempty"`
	Capability  *capability `protobuf:"bytes,5,opt,name=volume_capability,proto3" json:"volume_capability,omitempty"`
	ReadOnly    bool        `protobuf:"varint,6,opt,name=readonly,proto3" json:"readonly,omitempty"`
}

type unpublishRequest struct {
	message
	VolumeID   string `protobuf:"bytes,1,opt,name=volume_id,proto3" json:"volume_id,omitempty"`
	TargetPath string `protobuf:"bytes,2,opt,name=target_path,proto3" json:"target_path,omitempty"`
}

type statsRequest struct {
	message
	VolumeID   string `protobuf:"bytes,1,opt,name=volume_id,proto3" json:"volume_id,omitempty"`
	VolumePath string `protobuf:"bytes,2,opt,name=volume_path,proto3" json:"volume_path,omitempty"`
}

type stats struct {
	message
	Usage []*usage `protobuf:"bytes,1,rep,name=usage,proto3" json:"usage,omitempty"`
}

type usage struct {
	Available int64 `protobuf:"varint,1,opt,name=available,proto3" json:"available,omitempty"`
	Total     int64 `protobuf:"varint,2,opt,name=total,proto3" json:"total,omitempty"`
	Used      int64 `protobuf:"varint,3,opt,name=used,proto3" json:"used,omitempty"`
	Unit      int32 `protobuf:"varint,4,opt,name=unit,proto3" json:"unit,omitempty"`
}

// The messages of the Controller service, for `call`.

type createRequest struct {
	message
	Name          string         `protobuf:"bytes,1,opt,name=name,proto3" json:"name,omitempty"`
	CapacityRange *capacityRange `protobuf:"bytes,2,opt,name=capacity_range,proto3" json:"capacity_range,omitempty"`
	Capabilities  []*capability  `protobuf:"bytes,3,rep,name=volume_capabilities,proto3" json:"volume_capabilities,omitempty"`
}

type capacityRange struct {
	RequiredBytes int64 `protobuf:"varint,1,opt,name=required_bytes,proto3" json:"required_bytes,omitempty"`
	LimitBytes    int64 `protobuf:"varint,2,opt,name=limit_bytes,proto3" json:"limit_bytes,omitempty"`
}

type createResponse struct {
	message
	Volume *volume `protobuf:"bytes,1,opt,name=volume,proto3" json:"volume,omitempty"`
}

type volume struct {
	CapacityBytes      int64             `protobuf:"varint,1,opt,name=capacity_bytes,proto3" json:"capacity_bytes,omitempty"`
	VolumeID           string            `protobuf:"bytes,2,opt,name=volume_id,proto3" json:"volume_id,omitempty"`
	VolumeContext      map[string]string `protobuf:"bytes,3,rep,name=volume_context,proto3" protobuf_key:"bytes,1,opt,name=key,proto3" protobuf_val:"bytes,2,opt,name=value,proto3" json:"volume_context,omitempty"`
	AccessibleTopology []*topology       `protobuf:"bytes,5,rep,name=accessible_topology,proto3" json:"accessible_topology,omitempty"`
}

type deleteRequest struct {
	message
	VolumeID string `protobuf:"bytes,1,opt,name=volume_id,proto3" json:"volume_id,omitempty"`
}

type attachRequest struct {
	message
	VolumeID   string      `protobuf:"bytes,1,opt,name=volume_id,proto3" json:"volume_id,omitempty"`
	NodeID     string      `protobuf:"bytes,2,opt,name=node_id,proto3" json:"node_id,omitempty"`
	Capability *capability `protobuf:"bytes,3,opt,name=volume_capability,proto3" json:"volume_capability,omitempty"`
	ReadOnly   bool        `protobuf:"varint,4,opt,name=readonly,proto3" json:"readonly,omitempty"`
}

type attachResponse struct {
	message
	PublishContext map[string]string `protobuf:"bytes,1,rep,name=publish_context,proto3" protobuf_key:"bytes,1,opt,name=key,proto3" protobuf_val:"bytes,2,opt,name=value,proto3" json:"publish_context,omitempty"`
}

type detachRequest struct {
	message
	VolumeID string `protobuf:"bytes,1,opt,name=volume_id,proto3" json:"volume_id,omitempty"`
	NodeID   string `protobuf:"bytes,2,opt,name=node_id,proto3" json:"node_id,omitempty"`
}

type listRequest struct {
	message
	MaxEntries    int32  `protobuf:"varint,1,opt,name=max_entries,proto3" json:"max_entries,omitempty"`
	StartingToken string `protobuf:"bytes,2,opt,name=starting_token,proto3" json:"starting_token,omitempty"`
}

type listResponse struct {
	message
	Entries   []*listEntry `protobuf:"bytes,1,rep,name=entries,proto3" json:"entries,omitempty"`
	NextToken string       `protobuf:"bytes,2,opt,name=next_token,proto3" json:"next_token,omitempty"`
}

type listEntry struct {
	Volume *volume       `protobuf:"bytes,1,opt,name=volume,proto3" json:"volume,omitempty"`
	Status *volumeStatus `protobuf:"bytes,2,opt,name=status,proto3" json:"status,omitempty"`
}

type volumeStatus struct {
	NodeIDs []string `protobuf:"bytes,1,rep,name=published_node_ids,proto3" json:"published_node_ids,omitempty"`
}
