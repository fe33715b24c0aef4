// What each call is answered and which change it makes (docs/MACHINE.md, "Requests").
#pragma once

#include <google/protobuf/arena.h>

#include <optional>
#include <string>
#include <string_view>
#include <unordered_map>
#include <vector>

#include "config.h"
#include "csi.pb.h"
#include "status.h"
#include "tables.h"
#include "topology.h"
#include "volumes.h"

namespace peer {

class Calls {
 public:
  // Without tables the volumes are in memory alone.
  Calls(const Config& config, Volumes* volumes, Tables* tables);

  // Appends the response to `body`, unless the call is refused.
  Status Answer(std::string_view path, std::string_view message, std::string* body);

 private:
  using Handler = Status (Calls::*)(std::string_view message, std::string* body);

  // Reads and checks the message of a request before it is done.
  template <typename Request>
  Status Handle(std::string_view message, std::string* body);

  Status Do(const csi::v1::GetPluginInfoRequest& request, std::string* body);
  Status Do(const csi::v1::GetPluginCapabilitiesRequest& request, std::string* body);
  Status Do(const csi::v1::ProbeRequest& request, std::string* body);
  Status Do(const csi::v1::ControllerGetCapabilitiesRequest& request, std::string* body);
  Status Do(const csi::v1::CreateVolumeRequest& request, std::string* body);
  Status Do(const csi::v1::DeleteVolumeRequest& request, std::string* body);
  Status Do(const csi::v1::ControllerPublishVolumeRequest& request, std::string* body);
  Status Do(const csi::v1::ControllerUnpublishVolumeRequest& request, std::string* body);
  Status Do(const csi::v1::ValidateVolumeCapabilitiesRequest& request, std::string* body);
  Status Do(const csi::v1::ListVolumesRequest& request, std::string* body);
  Status Do(const csi::v1::GetCapacityRequest& request, std::string* body);

  // Makes a change of the tables. False where they refused it: the server is down from then on.
  template <typename Change>
  bool Write(Change change);
  std::optional<int64_t> SizeFor(const csi::v1::CapacityRange& range) const;
  std::optional<size_t> ChoosePool(const csi::v1::TopologyRequirement& requirement, int64_t bytes);
  bool IsCompatible(const Volume& volume, const csi::v1::CreateVolumeRequest& request);
  Status Make(const csi::v1::CreateVolumeRequest& request, std::string* body);

  const Config& config_;
  Volumes& volumes_;
  Tables* const tables_;
  bool is_down_ = false;
  std::vector<char> arena_block_;
  google::protobuf::Arena arena_;
  Term term_;
  std::string plugin_info_, plugin_capabilities_, ready_, capabilities_, writer_, reader_;
  std::unordered_map<std::string_view, Handler> handlers_;
};

}  // namespace peer
