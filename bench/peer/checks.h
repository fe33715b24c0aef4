// The checks of arguments, in the order of docs/PROTOCOL.md, "Argument checks".
#pragma once

#include "csi.pb.h"
#include "status.h"

namespace peer {

constexpr size_t kMaxMapBytes = 4096;

bool IsName(const std::string& name);

Status Check(const csi::v1::GetPluginInfoRequest& request);
Status Check(const csi::v1::GetPluginCapabilitiesRequest& request);
Status Check(const csi::v1::ProbeRequest& request);
Status Check(const csi::v1::ControllerGetCapabilitiesRequest& request);
Status Check(const csi::v1::CreateVolumeRequest& request);
Status Check(const csi::v1::DeleteVolumeRequest& request);
Status Check(const csi::v1::ControllerPublishVolumeRequest& request);
Status Check(const csi::v1::ControllerUnpublishVolumeRequest& request);
Status Check(const csi::v1::ValidateVolumeCapabilitiesRequest& request);
Status Check(const csi::v1::ListVolumesRequest& request);
Status Check(const csi::v1::GetCapacityRequest& request);

}  // namespace peer
