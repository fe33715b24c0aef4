#include "checks.h"

#include <algorithm>
#include <string_view>
#include <unordered_set>
#include <vector>

#include "config.h"
#include "topology.h"
#include "volumes.h"

namespace peer {
namespace {

using csi::v1::Topology;
using csi::v1::VolumeCapability;
using google::protobuf::RepeatedPtrField;

constexpr size_t kMaxTextBytes = 128;
constexpr size_t kMaxNodeIdBytes = 256;
constexpr size_t kMaxMountFlagsBytes = 4096;

Status Invalid(const char* text) { return {kInvalidArgument, text}; }

Status CheckKinds(const VolumeCapability* const* begin, const VolumeCapability* const* end) {
  if (std::any_of(begin, end, [](const VolumeCapability* it) { return !it->has_block() && !it->has_mount(); })) {
    return Invalid("access type is missing");
  }
  if (std::any_of(begin, end, [](const VolumeCapability* it) { return it->access_mode().mode() < 1 || it->access_mode().mode() > 7; })) {
    return Invalid("access mode is missing or unknown");
  }
  return {};
}

Status CheckKinds(const RepeatedPtrField<VolumeCapability>& capabilities) {
  return CheckKinds(capabilities.data(), capabilities.data() + capabilities.size());
}

Status CheckSome(const RepeatedPtrField<VolumeCapability>& capabilities) {
  return capabilities.empty() ? Invalid("volume capability is missing") : CheckKinds(capabilities);
}

template <typename Map>
bool IsLarge(const Map& map) {
  size_t bytes = 0;
  for (const auto& [key, value] : map) bytes += key.size() + value.size();
  return bytes > kMaxMapBytes;
}

bool AnyIsLarge(const RepeatedPtrField<Topology>& topologies) {
  return std::any_of(topologies.begin(), topologies.end(), [](const Topology& it) { return IsLarge(it.segments()); });
}

bool HasLongText(const VolumeCapability& capability) {
  const VolumeCapability::Mount& mount = capability.mount();
  size_t flags = 0;
  for (const std::string& flag : mount.mount_flags()) flags += flag.size();
  return mount.fs_type().size() > kMaxTextBytes || mount.volume_mount_group().size() > kMaxTextBytes || flags > kMaxMountFlagsBytes;
}

bool AnyHasLongText(const RepeatedPtrField<VolumeCapability>& capabilities) {
  return std::any_of(capabilities.begin(), capabilities.end(), HasLongText);
}

Status CheckSizes(bool has_large_map, bool has_long_text) {
  if (has_large_map) return Invalid("map is larger than 4096 bytes");
  if (has_long_text) return Invalid("text is too long");
  return {};
}

Status CheckId(const std::string& id) { return id.empty() ? Invalid("volume id is missing") : Status{}; }

bool AnyHasAlikeKeys(const RepeatedPtrField<Topology>& topologies) {
  Term term;
  return std::any_of(topologies.begin(), topologies.end(),
                     [&](const Topology& it) { return it.segments().size() > 1 && term.Assign(it).HasAlikeKeys(); });
}

// The segments as one text, which differs for topologies that differ.
std::string TextOf(const Term& term) {
  std::string text;
  for (const auto& [key, value] : term.segments()) {
    for (const std::string* part : {&key, &value}) text.append(std::to_string(part->size())).append(":").append(*part);
  }
  return text;
}

bool IsPreferredRequisite(const csi::v1::TopologyRequirement& requirement) {
  if (requirement.requisite().empty() || requirement.preferred().empty()) return true;
  std::unordered_set<std::string> requisite;
  Term term;
  for (const Topology& topology : requirement.requisite()) requisite.insert(TextOf(term.Assign(topology)));
  return std::all_of(requirement.preferred().begin(), requirement.preferred().end(),
                     [&](const Topology& it) { return requisite.count(TextOf(term.Assign(it))) > 0; });
}

Status CheckTopologies(const csi::v1::TopologyRequirement& requirement) {
  if (AnyHasAlikeKeys(requirement.requisite()) || AnyHasAlikeKeys(requirement.preferred())) return Invalid("topology keys are alike");
  if (!IsPreferredRequisite(requirement)) return Invalid("preferred topology is not requisite");
  return {};
}

Status CheckName(const std::string& name) {
  if (name.empty()) return Invalid("name is missing");
  if (name.size() > kMaxTextBytes) return Invalid("name is longer than 128 bytes");
  if (!IsName(name)) return Invalid("name holds a banned character");
  return {};
}

Status CheckSupport(const csi::v1::CreateVolumeRequest& request) {
  for (const VolumeCapability& capability : request.volume_capabilities()) {
    if (!KeyOf(capability).IsSupported()) return Invalid("volume capability is not supported");
  }
  if (request.capacity_range().required_bytes() < 0 || request.capacity_range().limit_bytes() < 0) return Invalid("capacity is negative");
  return {};
}

// The first that refuses.
template <typename... Checks>
Status First(Checks... checks) {
  Status status;
  static_cast<void>(((status = checks(), status.ok()) && ...));
  return status;
}

}  // namespace

bool IsName(const std::string& name) {
  if (name.empty() || name.size() > kMaxTextBytes) return false;
  for (size_t at = 0; at < name.size(); ++at) {
    const unsigned char byte = name[at];
    if (byte == 0x7F || (byte < 0x20 && byte != '\t' && byte != '\n' && byte != '\r')) return false;
    // U+0080 to U+009F are the bytes C2 80 to C2 9F.
    if (byte == 0xC2 && at + 1 < name.size() && static_cast<unsigned char>(name[at + 1]) < 0xA0) return false;
  }
  return true;
}

Status Check(const csi::v1::GetPluginInfoRequest&) { return {}; }
Status Check(const csi::v1::GetPluginCapabilitiesRequest&) { return {}; }
Status Check(const csi::v1::ProbeRequest&) { return {}; }
Status Check(const csi::v1::ControllerGetCapabilitiesRequest&) { return {}; }

Status Check(const csi::v1::CreateVolumeRequest& request) {
  const csi::v1::TopologyRequirement& requirement = request.accessibility_requirements();
  return First([&] { return CheckName(request.name()); }, [&] { return CheckSome(request.volume_capabilities()); },
               [&] { return CheckSupport(request); },
               [&] {
                 return CheckSizes(IsLarge(request.parameters()) || IsLarge(request.changeable_parameters()) ||
                                       IsLarge(request.secrets()) || AnyIsLarge(requirement.requisite()) ||
                                       AnyIsLarge(requirement.preferred()),
                                   AnyHasLongText(request.volume_capabilities()));
               },
               [&] { return request.has_volume_content_source() ? Invalid("content source is not supported") : Status{}; },
               [&] { return CheckTopologies(requirement); });
}

Status Check(const csi::v1::DeleteVolumeRequest& request) {
  return First([&] { return CheckSizes(IsLarge(request.secrets()), request.volume_id().size() > kMaxTextBytes); },
               [&] { return CheckId(request.volume_id()); });
}

Status Check(const csi::v1::ControllerPublishVolumeRequest& request) {
  if (!request.has_volume_capability()) return Invalid("volume capability is missing");
  const VolumeCapability* capability = &request.volume_capability();
  return First([&] { return CheckKinds(&capability, &capability + 1); },
               [&] {
                 return CheckSizes(
                     IsLarge(request.secrets()) || IsLarge(request.volume_context()),
                     request.volume_id().size() > kMaxTextBytes || request.node_id().size() > kMaxNodeIdBytes || HasLongText(*capability));
               },
               [&] { return CheckId(request.volume_id()); },
               [&] { return request.node_id().empty() ? Invalid("node id is missing") : Status{}; });
}

Status Check(const csi::v1::ControllerUnpublishVolumeRequest& request) {
  return First(
      [&] {
        return CheckSizes(IsLarge(request.secrets()),
                          request.volume_id().size() > kMaxTextBytes || request.node_id().size() > kMaxNodeIdBytes);
      },
      [&] { return CheckId(request.volume_id()); });
}

Status Check(const csi::v1::ValidateVolumeCapabilitiesRequest& request) {
  return First([&] { return CheckSome(request.volume_capabilities()); },
               [&] {
                 return CheckSizes(IsLarge(request.volume_context()) || IsLarge(request.parameters()) || IsLarge(request.secrets()),
                                   request.volume_id().size() > kMaxTextBytes || AnyHasLongText(request.volume_capabilities()));
               },
               [&] { return CheckId(request.volume_id()); });
}

Status Check(const csi::v1::ListVolumesRequest& request) {
  if (request.starting_token().size() > kMaxTextBytes) return Invalid("text is too long");
  return request.max_entries() < 0 ? Invalid("max_entries is negative") : Status{};
}

Status Check(const csi::v1::GetCapacityRequest& request) {
  return First([&] { return CheckKinds(request.volume_capabilities()); },
               [&] {
                 return CheckSizes(IsLarge(request.parameters()) || IsLarge(request.accessible_topology().segments()),
                                   AnyHasLongText(request.volume_capabilities()));
               },
               [&] { return Term().Assign(request.accessible_topology()).HasAlikeKeys() ? Invalid("topology keys are alike") : Status{}; });
}

}  // namespace peer
