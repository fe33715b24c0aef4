package sidecars

// The messages of the calls below, with the field numbers of the specification's csi.proto. Debian
// has no package with generated code of csi.proto.

// empty is a message without fields.
type empty struct{}

type getPluginInfoResponse struct {
	Name string `protobuf:"bytes,1,opt,name=name,proto3"`
}

type probeResponse struct {
	Ready *boolValue `protobuf:"bytes,1,opt,name=ready,proto3"`
}

type boolValue struct {
	Value bool `protobuf:"varint,1,opt,name=value,proto3"`
}

// capabilitiesResponse is GetPluginCapabilitiesResponse and ControllerGetCapabilitiesResponse,
// which have the same numbers.
type capabilitiesResponse struct {
	Capabilities []*capability `protobuf:"bytes,1,rep,name=capabilities,proto3"`
}

type capability struct {
	Kind *capabilityKind `protobuf:"bytes,1,opt,name=kind,proto3"`
}

type capabilityKind struct {
	Type int32 `protobuf:"varint,1,opt,name=type,proto3"`
}

type createVolumeRequest struct {
	Name                      string               `protobuf:"bytes,1,opt,name=name,proto3"`
	CapacityRange             *capacityRange       `protobuf:"bytes,2,opt,name=capacity_range,proto3"`
	VolumeCapabilities        []*volumeCapability  `protobuf:"bytes,3,rep,name=volume_capabilities,proto3"`
	Parameters                map[string]string    `protobuf:"bytes,4,rep,name=parameters,proto3" protobuf_key:"bytes,1,opt,name=key,proto3" protobuf_val:"bytes,2,opt,name=value,proto3"`
	AccessibilityRequirements *topologyRequirement `protobuf:"bytes,7,opt,name=accessibility_requirements,proto3"`
}

type capacityRange struct {
	RequiredBytes int64 `protobuf:"varint,1,opt,name=required_bytes,proto3"`
	LimitBytes    int64 `protobuf:"varint,2,opt,name=limit_bytes,proto3"`
}

// volumeCapability has the mount in a oneof, as generated code has it: golang/protobuf writes a
// oneof after all other fields.
type volumeCapability struct {
	AccessType interface{ isAccessType() } `protobuf_oneof:"access_type"`
	AccessMode *accessMode                 `protobuf:"bytes,3,opt,name=access_mode,proto3"`
}

type accessMount struct {
	Mount *mountVolume `protobuf:"bytes,2,opt,name=mount,proto3,oneof"`
}

func (*accessMount) isAccessType() {}

func (*volumeCapability) XXX_OneofWrappers() []interface{} { return []interface{}{(*accessMount)(nil)} }

type mountVolume struct {
	FsType string `protobuf:"bytes,1,opt,name=fs_type,proto3"`
}

type accessMode struct {
	Mode int32 `protobuf:"varint,1,opt,name=mode,proto3"`
}

type topologyRequirement struct {
	Requisite []*topology `protobuf:"bytes,1,rep,name=requisite,proto3"`
	Preferred []*topology `protobuf:"bytes,2,rep,name=preferred,proto3"`
}

type topology struct {
	Segments map[string]string `protobuf:"bytes,1,rep,name=segments,proto3" protobuf_key:"bytes,1,opt,name=key,proto3" protobuf_val:"bytes,2,opt,name=value,proto3"`
}

type createVolumeResponse struct {
	Volume *volume `protobuf:"bytes,1,opt,name=volume,proto3"`
}

type volume struct {
	CapacityBytes      int64             `protobuf:"varint,1,opt,name=capacity_bytes,proto3"`
	VolumeID           string            `protobuf:"bytes,2,opt,name=volume_id,proto3"`
	VolumeContext      map[string]string `protobuf:"bytes,3,rep,name=volume_context,proto3" protobuf_key:"bytes,1,opt,name=key,proto3" protobuf_val:"bytes,2,opt,name=value,proto3"`
	AccessibleTopology []*topology       `protobuf:"bytes,5,rep,name=accessible_topology,proto3"`
}

type deleteVolumeRequest struct {
	VolumeID string `protobuf:"bytes,1,opt,name=volume_id,proto3"`
}

type publishVolumeRequest struct {
	VolumeID         string            `protobuf:"bytes,1,opt,name=volume_id,proto3"`
	NodeID           string            `protobuf:"bytes,2,opt,name=node_id,proto3"`
	VolumeCapability *volumeCapability `protobuf:"bytes,3,opt,name=volume_capability,proto3"`
	Readonly         bool              `protobuf:"varint,4,opt,name=readonly,proto3"`
	VolumeContext    map[string]string `protobuf:"bytes,6,rep,name=volume_context,proto3" protobuf_key:"bytes,1,opt,name=key,proto3" protobuf_val:"bytes,2,opt,name=value,proto3"`
}

type publishVolumeResponse struct {
	PublishContext map[string]string `protobuf:"bytes,1,rep,name=publish_context,proto3" protobuf_key:"bytes,1,opt,name=key,proto3" protobuf_val:"bytes,2,opt,name=value,proto3"`
}

type unpublishVolumeRequest struct {
	VolumeID string `protobuf:"bytes,1,opt,name=volume_id,proto3"`
	NodeID   string `protobuf:"bytes,2,opt,name=node_id,proto3"`
}

type listVolumesRequest struct {
	MaxEntries    int32  `protobuf:"varint,1,opt,name=max_entries,proto3"`
	StartingToken string `protobuf:"bytes,2,opt,name=starting_token,proto3"`
}

type listVolumesResponse struct {
	Entries   []*listEntry `protobuf:"bytes,1,rep,name=entries,proto3"`
	NextToken string       `protobuf:"bytes,2,opt,name=next_token,proto3"`
}

type listEntry struct {
	Volume *volume       `protobuf:"bytes,1,opt,name=volume,proto3"`
	Status *volumeStatus `protobuf:"bytes,2,opt,name=status,proto3"`
}

type volumeStatus struct {
	PublishedNodeIDs []string `protobuf:"bytes,1,rep,name=published_node_ids,proto3"`
}

type getCapacityRequest struct {
	Parameters         map[string]string `protobuf:"bytes,2,rep,name=parameters,proto3" protobuf_key:"bytes,1,opt,name=key,proto3" protobuf_val:"bytes,2,opt,name=value,proto3"`
	AccessibleTopology *topology         `protobuf:"bytes,3,opt,name=accessible_topology,proto3"`
}

type getCapacityResponse struct {
	AvailableCapacity int64       `protobuf:"varint,1,opt,name=available_capacity,proto3"`
	MaximumVolumeSize *int64Value `protobuf:"bytes,2,opt,name=maximum_volume_size,proto3"`
}

type int64Value struct {
	Value int64 `protobuf:"varint,1,opt,name=value,proto3"`
}

// The methods that the codec of grpc-go needs.

func (m *empty) Reset()       { *m = empty{} }
func (*empty) String() string { return "empty" }
func (*empty) ProtoMessage()  {}

func (m *getPluginInfoResponse) Reset()       { *m = getPluginInfoResponse{} }
func (*getPluginInfoResponse) String() string { return "getPluginInfoResponse" }
func (*getPluginInfoResponse) ProtoMessage()  {}

func (m *probeResponse) Reset()       { *m = probeResponse{} }
func (*probeResponse) String() string { return "probeResponse" }
func (*probeResponse) ProtoMessage()  {}

func (m *capabilitiesResponse) Reset()       { *m = capabilitiesResponse{} }
func (*capabilitiesResponse) String() string { return "capabilitiesResponse" }
func (*capabilitiesResponse) ProtoMessage()  {}

func (m *createVolumeRequest) Reset()       { *m = createVolumeRequest{} }
func (*createVolumeRequest) String() string { return "createVolumeRequest" }
func (*createVolumeRequest) ProtoMessage()  {}

func (m *createVolumeResponse) Reset()       { *m = createVolumeResponse{} }
func (*createVolumeResponse) String() string { return "createVolumeResponse" }
func (*createVolumeResponse) ProtoMessage()  {}

func (m *deleteVolumeRequest) Reset()       { *m = deleteVolumeRequest{} }
func (*deleteVolumeRequest) String() string { return "deleteVolumeRequest" }
func (*deleteVolumeRequest) ProtoMessage()  {}

func (m *publishVolumeRequest) Reset()       { *m = publishVolumeRequest{} }
func (*publishVolumeRequest) String() string { return "publishVolumeRequest" }
func (*publishVolumeRequest) ProtoMessage()  {}

func (m *publishVolumeResponse) Reset()       { *m = publishVolumeResponse{} }
func (*publishVolumeResponse) String() string { return "publishVolumeResponse" }
func (*publishVolumeResponse) ProtoMessage()  {}

func (m *unpublishVolumeRequest) Reset()       { *m = unpublishVolumeRequest{} }
func (*unpublishVolumeRequest) String() string { return "unpublishVolumeRequest" }
func (*unpublishVolumeRequest) ProtoMessage()  {}

func (m *listVolumesRequest) Reset()       { *m = listVolumesRequest{} }
func (*listVolumesRequest) String() string { return "listVolumesRequest" }
func (*listVolumesRequest) ProtoMessage()  {}

func (m *listVolumesResponse) Reset()       { *m = listVolumesResponse{} }
func (*listVolumesResponse) String() string { return "listVolumesResponse" }
func (*listVolumesResponse) ProtoMessage()  {}

func (m *getCapacityRequest) Reset()       { *m = getCapacityRequest{} }
func (*getCapacityRequest) String() string { return "getCapacityRequest" }
func (*getCapacityRequest) ProtoMessage()  {}

func (m *getCapacityResponse) Reset()       { *m = getCapacityResponse{} }
func (*getCapacityResponse) String() string { return "getCapacityResponse" }
func (*getCapacityResponse) ProtoMessage()  {}
