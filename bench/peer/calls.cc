#include "calls.h"

#include <google/protobuf/wire_format_lite.h>

#include <algorithm>

#include "bytes.h"
#include "checks.h"

namespace peer {
namespace {

using csi::v1::VolumeCapability;

constexpr size_t kArenaBlockBytes = 64 << 10;
constexpr size_t kMaxPage = 100;

const Status kVolumeNotFound{kNotFound, "volume not found"};
const Status kNodeNotFound{kNotFound, "node not found"};
const Status kNotCompatible{kAlreadyExists, "volume exists and is not compatible"};
const Status kCapacityOutOfRange{kOutOfRange, "capacity is out of range"};
const Status kTooManyVolumes{kResourceExhausted, "too many volumes"};
const Status kNumbersUsedUp{kResourceExhausted, "volume numbers are used up"};
const Status kNoRoom{kResourceExhausted, "no room in the topology"};
const Status kInUse{kFailedPrecondition, "volume is in use"};
const Status kPublishedElsewhere{kFailedPrecondition, "volume is published elsewhere"};
const Status kPublishedOtherwise{kAlreadyExists, "volume is published otherwise"};
const Status kNodeFull{kResourceExhausted, "node is full"};
const Status kNotOfVolume{kInvalidArgument, "volume does not have this capability"};
const Status kBadToken{kAborted, "bad starting token"};
const Status kUnknownMethod{kUnimplemented, "unknown method"};
const Status kStoreRefused{kInternal, "store refused"};
const Status kStoreDown{kInternal, "store is down"};

// Where the fields of a message stop being good ones: each is tried by itself.
template <typename Request>
Status Malformed(std::string_view message) {
  using google::protobuf::io::CodedInputStream;
  const auto* bytes = reinterpret_cast<const uint8_t*>(message.data());
  CodedInputStream in(bytes, static_cast<int>(message.size()));
  int place = 0;
  while (const uint32_t tag = in.ReadTag()) {
    if (!google::protobuf::internal::WireFormatLite::SkipField(&in, tag)) break;
    Request alone;
    if (!alone.ParseFromArray(bytes + place, in.CurrentPosition() - place)) break;
    place = in.CurrentPosition();
  }
  return {kInvalidArgument, "malformed message in the field at byte " + std::to_string(place)};
}

std::vector<Key> KeysOf(const google::protobuf::RepeatedPtrField<VolumeCapability>& capabilities) {
  std::vector<Key> keys;
  keys.reserve(capabilities.size());
  for (const VolumeCapability& capability : capabilities) keys.push_back(KeyOf(capability));
  std::sort(keys.begin(), keys.end());
  keys.erase(std::unique(keys.begin(), keys.end()), keys.end());
  return keys;
}

using Map = google::protobuf::Map<std::string, std::string>;

bool HasAll(const Parameters& parameters, const Map& given) {
  return std::all_of(given.begin(), given.end(), [&](const auto& entry) {
    auto found = parameters.find(entry.first);
    return found != parameters.end() && found->second == entry.second;
  });
}

bool AreEqual(const Parameters& parameters, const Map& given) { return parameters.size() == given.size() && HasAll(parameters, given); }

// The capability without the fields that the server does not know.
void CopyKnown(const VolumeCapability& from, VolumeCapability* to) {
  if (from.has_block()) to->mutable_block();
  if (from.has_mount()) {
    VolumeCapability::Mount& mount = *to->mutable_mount();
    mount.set_fs_type(from.mount().fs_type());
    *mount.mutable_mount_flags() = from.mount().mount_flags();
    mount.set_volume_mount_group(from.mount().volume_mount_group());
  }
  to->mutable_access_mode()->set_mode(from.access_mode().mode());
}

std::string PublishContext(const char* readonly) {
  csi::v1::ControllerPublishVolumeResponse response;
  (*response.mutable_publish_context())["readonly"] = readonly;
  return Canonical(response);
}

// Appends an entry of a page: the volume and the nodes that it is attached at.
void AppendEntry(const Volume& volume, const Config& config, std::string* body) {
  using Entry = csi::v1::ListVolumesResponse::Entry;
  using PublishedAt = csi::v1::ListVolumesResponse::Status;
  size_t nodes = 0;
  for (const Attachment& it : volume.attachments) nodes += SizeOfField(config.nodes[it.node].id.size());
  AppendHead(csi::v1::ListVolumesResponse::kEntriesFieldNumber, volume.answer.size() + SizeOfField(nodes), body);
  body->append(volume.answer);
  AppendHead(Entry::kStatusFieldNumber, nodes, body);
  for (const Attachment& it : volume.attachments) AppendField(PublishedAt::kPublishedNodeIdsFieldNumber, config.nodes[it.node].id, body);
}

google::protobuf::ArenaOptions OptionsOf(std::vector<char>* block) {
  google::protobuf::ArenaOptions options;
  options.initial_block = block->data();
  options.initial_block_size = block->size();
  return options;
}

}  // namespace

Calls::Calls(const Config& config, Volumes* volumes, Tables* tables)
    : config_(config),
      volumes_(*volumes),
      tables_(tables),
      arena_block_(kArenaBlockBytes),
      arena_(OptionsOf(&arena_block_)),
      writer_(PublishContext("false")),
      reader_(PublishContext("true")) {
  csi::v1::GetPluginInfoResponse info;
  info.set_name(config.name);
  info.set_vendor_version(config.vendor_version);
  plugin_info_ = Canonical(info);

  using csi::v1::PluginCapability;
  csi::v1::GetPluginCapabilitiesResponse plugin;
  for (auto type : {PluginCapability::CONTROLLER_SERVICE, PluginCapability::VOLUME_ACCESSIBILITY_CONSTRAINTS}) {
    plugin.add_capabilities()->mutable_service()->set_type(type);
  }
  plugin_capabilities_ = Canonical(plugin);

  using csi::v1::ControllerServiceCapability;
  csi::v1::ControllerGetCapabilitiesResponse controller;
  for (int type = 1; type <= ControllerServiceCapability::Type_MAX; ++type) {
    if (ControllerServiceCapability::Type_IsValid(type)) {
      controller.add_capabilities()->mutable_rpc()->set_type(static_cast<ControllerServiceCapability::Type>(type));
    }
  }
  capabilities_ = Canonical(controller);

  csi::v1::ProbeResponse probe;
  probe.mutable_ready()->set_value(true);
  ready_ = Canonical(probe);

  handlers_ = {
      {"/csi.v1.Identity/GetPluginInfo", &Calls::Handle<csi::v1::GetPluginInfoRequest>},
      {"/csi.v1.Identity/GetPluginCapabilities", &Calls::Handle<csi::v1::GetPluginCapabilitiesRequest>},
      {"/csi.v1.Identity/Probe", &Calls::Handle<csi::v1::ProbeRequest>},
      {"/csi.v1.Controller/ControllerGetCapabilities", &Calls::Handle<csi::v1::ControllerGetCapabilitiesRequest>},
      {"/csi.v1.Controller/CreateVolume", &Calls::Handle<csi::v1::CreateVolumeRequest>},
      {"/csi.v1.Controller/DeleteVolume", &Calls::Handle<csi::v1::DeleteVolumeRequest>},
      {"/csi.v1.Controller/ControllerPublishVolume", &Calls::Handle<csi::v1::ControllerPublishVolumeRequest>},
      {"/csi.v1.Controller/ControllerUnpublishVolume", &Calls::Handle<csi::v1::ControllerUnpublishVolumeRequest>},
      {"/csi.v1.Controller/ValidateVolumeCapabilities", &Calls::Handle<csi::v1::ValidateVolumeCapabilitiesRequest>},
      {"/csi.v1.Controller/ListVolumes", &Calls::Handle<csi::v1::ListVolumesRequest>},
      {"/csi.v1.Controller/GetCapacity", &Calls::Handle<csi::v1::GetCapacityRequest>},
  };
}

Status Calls::Answer(std::string_view path, std::string_view message, std::string* body) {
  auto found = handlers_.find(path);
  if (found == handlers_.end()) return kUnknownMethod;
  Status status = (this->*found->second)(message, body);
  arena_.Reset();
  return status;
}

template <typename Request>
Status Calls::Handle(std::string_view message, std::string* body) {
  auto* request = google::protobuf::Arena::CreateMessage<Request>(&arena_);
  if (!request->ParseFromArray(message.data(), static_cast<int>(message.size()))) return Malformed<Request>(message);
  Status status = Check(*request);
  return status.ok() ? Do(*request, body) : status;
}

Status Calls::Do(const csi::v1::GetPluginInfoRequest&, std::string* body) {
  body->append(plugin_info_);
  return {};
}

Status Calls::Do(const csi::v1::GetPluginCapabilitiesRequest&, std::string* body) {
  body->append(plugin_capabilities_);
  return {};
}

Status Calls::Do(const csi::v1::ProbeRequest&, std::string* body) {
  body->append(ready_);
  return {};
}

Status Calls::Do(const csi::v1::ControllerGetCapabilitiesRequest&, std::string* body) {
  body->append(capabilities_);
  return {};
}

template <typename Change>
bool Calls::Write(Change change) {
  if (tables_ == nullptr) return true;
  try {
    change(*tables_);
    return true;
  } catch (const TablesError&) {
    is_down_ = true;
    return false;
  }
}

// None where the size is out of range.
std::optional<int64_t> Calls::SizeFor(const csi::v1::CapacityRange& range) const {
  const int64_t required = range.required_bytes(), limit = range.limit_bytes();
  if (required > config_.greatest_bytes) return std::nullopt;
  int64_t bytes = (required + kMebibyte - 1) / kMebibyte * kMebibyte;
  if (required == 0) bytes = limit == 0 ? config_.default_bytes : std::min(config_.default_bytes, limit / kMebibyte * kMebibyte);
  if (bytes == 0 || (limit > 0 && bytes > limit) || bytes > config_.greatest_bytes) return std::nullopt;
  return bytes;
}

std::optional<size_t> Calls::ChoosePool(const csi::v1::TopologyRequirement& requirement, int64_t bytes) {
  auto choose = [&](const csi::v1::Topology& topology) -> std::optional<size_t> {
    term_.Assign(topology);
    for (size_t pool = 0; pool < config_.pools.size(); ++pool) {
      if (volumes_.FreeIn(pool) >= bytes && term_.IsServedBy(config_.pools[pool])) return pool;
    }
    return std::nullopt;
  };
  for (const csi::v1::Topology& topology : requirement.preferred()) {
    if (auto pool = choose(topology)) return pool;
  }
  for (const csi::v1::Topology& topology : requirement.requisite()) {
    if (auto pool = choose(topology)) return pool;
  }
  return requirement.requisite().empty() ? choose(csi::v1::Topology::default_instance()) : std::nullopt;
}

bool Calls::IsCompatible(const Volume& volume, const csi::v1::CreateVolumeRequest& request) {
  const auto& requisite = request.accessibility_requirements().requisite();
  const int64_t limit = request.capacity_range().limit_bytes();
  const auto& capabilities = request.volume_capabilities();
  return (requisite.empty() ||
          std::any_of(requisite.begin(), requisite.end(),
                      [&](const csi::v1::Topology& it) { return term_.Assign(it).IsServedBy(config_.pools[volume.pool]); })) &&
         volume.bytes >= request.capacity_range().required_bytes() && (limit == 0 || volume.bytes <= limit) &&
         std::all_of(capabilities.begin(), capabilities.end(), [&](const VolumeCapability& it) { return volume.Has(KeyOf(it)); }) &&
         AreEqual(volume.parameters, request.parameters()) && HasAll(volume.mutable_parameters, request.changeable_parameters());
}

Status Calls::Make(const csi::v1::CreateVolumeRequest& request, std::string* body) {
  const std::optional<int64_t> bytes = SizeFor(request.capacity_range());
  if (!bytes) return kCapacityOutOfRange;
  if (volumes_.size() >= kMaxVolumes) return kTooManyVolumes;
  if (volumes_.next() >= kNumbersEnd) return kNumbersUsedUp;
  const std::optional<size_t> pool = ChoosePool(request.accessibility_requirements(), *bytes);
  if (!pool) return kNoRoom;
  Volume volume{volumes_.next(),
                request.name(),
                *bytes,
                *pool,
                KeysOf(request.volume_capabilities()),
                Parameters(request.parameters().begin(), request.parameters().end()),
                Parameters(request.changeable_parameters().begin(), request.changeable_parameters().end()),
                {},
                {}};
  if (!Write([&](Tables& tables) { tables.Add(volume); })) return kStoreRefused;
  body->append(volumes_.Add(std::move(volume)).answer);
  return {};
}

Status Calls::Do(const csi::v1::CreateVolumeRequest& request, std::string* body) {
  if (is_down_) return kStoreDown;
  const Volume* volume = volumes_.FindByName(request.name());
  if (volume == nullptr) return Make(request, body);
  if (!IsCompatible(*volume, request)) return kNotCompatible;
  body->append(volume->answer);
  return {};
}

Status Calls::Do(const csi::v1::DeleteVolumeRequest& request, std::string*) {
  if (is_down_) return kStoreDown;
  const Volume* volume = volumes_.FindById(request.volume_id());
  if (volume == nullptr) return {};
  if (!volume->attachments.empty()) return kInUse;
  if (!Write([&](Tables& tables) { tables.Remove(volume->number); })) return kStoreRefused;
  volumes_.Remove(volume->number);
  return {};
}

Status Calls::Do(const csi::v1::ControllerPublishVolumeRequest& request, std::string* body) {
  if (is_down_) return kStoreDown;
  const Volume* volume = volumes_.FindById(request.volume_id());
  if (volume == nullptr) return kVolumeNotFound;
  const std::optional<size_t> node = volumes_.FindNode(request.node_id());
  if (!node) return kNodeNotFound;
  Attachment attachment{*node, KeyOf(request.volume_capability()), request.readonly()};
  const std::string& context = attachment.readonly ? reader_ : writer_;
  if (const Attachment* standing = volume->At(*node)) {
    if (!(standing->key == attachment.key) || standing->readonly != attachment.readonly) return kPublishedOtherwise;
    body->append(context);
    return {};
  }
  if (!volume->Has(attachment.key)) return kNotOfVolume;
  if (!volume->IsBesideOthers(attachment)) return kPublishedElsewhere;
  if (volumes_.CountAt(*node) >= static_cast<size_t>(config_.nodes[*node].max_volumes)) return kNodeFull;
  if (!Write([&](Tables& tables) { tables.Attach(volume->number, attachment); })) return kStoreRefused;
  volumes_.Attach(volume->number, std::move(attachment));
  body->append(context);
  return {};
}

Status Calls::Do(const csi::v1::ControllerUnpublishVolumeRequest& request, std::string*) {
  if (is_down_) return kStoreDown;
  const Volume* volume = volumes_.FindById(request.volume_id());
  if (volume == nullptr || volume->attachments.empty()) return {};
  if (request.node_id().empty()) {
    if (!Write([&](Tables& tables) { tables.DetachAll(volume->number); })) return kStoreRefused;
    volumes_.Detach(volume->number, std::nullopt);
    return {};
  }
  const std::optional<size_t> node = volumes_.FindNode(request.node_id());
  if (!node || volume->At(*node) == nullptr) return {};
  if (!Write([&](Tables& tables) { tables.Detach(volume->number, *node); })) return kStoreRefused;
  volumes_.Detach(volume->number, node);
  return {};
}

Status Calls::Do(const csi::v1::ValidateVolumeCapabilitiesRequest& request, std::string* body) {
  if (is_down_) return kStoreDown;
  const Volume* volume = volumes_.FindById(request.volume_id());
  if (volume == nullptr) return kVolumeNotFound;
  const auto& capabilities = request.volume_capabilities();
  auto* response = google::protobuf::Arena::CreateMessage<csi::v1::ValidateVolumeCapabilitiesResponse>(&arena_);
  if (std::all_of(capabilities.begin(), capabilities.end(), [&](const VolumeCapability& it) { return volume->Has(KeyOf(it)); }) &&
      (request.parameters().empty() || AreEqual(volume->parameters, request.parameters()))) {
    auto* confirmed = response->mutable_confirmed();
    for (const VolumeCapability& capability : capabilities) CopyKnown(capability, confirmed->add_volume_capabilities());
    *confirmed->mutable_parameters() = request.parameters();
  } else {
    response->set_message("capabilities or parameters are not supported");
  }
  AppendCanonical(*response, body);
  return {};
}

Status Calls::Do(const csi::v1::ListVolumesRequest& request, std::string* body) {
  if (is_down_) return kStoreDown;
  uint64_t start = 0;
  if (!request.starting_token().empty()) {
    const std::optional<uint64_t> token = NumberOf(request.starting_token());
    if (!token || *token >= volumes_.next()) return kBadToken;
    start = *token;
  }
  const size_t asked = static_cast<size_t>(request.max_entries());
  size_t left = asked == 0 ? kMaxPage : std::min(asked, kMaxPage);
  const auto& volumes = volumes_.by_number();
  auto it = volumes.upper_bound(start);
  for (; it != volumes.end() && left > 0; ++it, --left) {
    start = it->first;
    AppendEntry(it->second, config_, body);
  }
  if (it != volumes.end()) AppendField(csi::v1::ListVolumesResponse::kNextTokenFieldNumber, std::to_string(start), body);
  return {};
}

Status Calls::Do(const csi::v1::GetCapacityRequest& request, std::string* body) {
  if (is_down_) return kStoreDown;
  int64_t available = 0, maximum = 0;
  const auto& capabilities = request.volume_capabilities();
  if (std::all_of(capabilities.begin(), capabilities.end(), [](const VolumeCapability& it) { return KeyOf(it).IsSupported(); })) {
    term_.Assign(request.accessible_topology());
    for (size_t pool = 0; pool < config_.pools.size(); ++pool) {
      if (!term_.IsServedBy(config_.pools[pool])) continue;
      available += volumes_.FreeIn(pool);
      maximum = std::max(maximum, std::min(volumes_.FreeIn(pool), config_.greatest_bytes));
    }
  }
  auto* response = google::protobuf::Arena::CreateMessage<csi::v1::GetCapacityResponse>(&arena_);
  response->set_available_capacity(available);
  response->mutable_maximum_volume_size()->set_value(maximum);
  AppendCanonical(*response, body);
  return {};
}

}  // namespace peer
