#include "volumes.h"

#include <algorithm>
#include <charconv>

#include "bytes.h"

namespace peer {
namespace {

using csi::v1::VolumeCapability;
using AccessMode = VolumeCapability::AccessMode;

bool IsOfOneNode(int mode) { return mode == AccessMode::SINGLE_NODE_SINGLE_WRITER || mode == AccessMode::SINGLE_NODE_MULTI_WRITER; }

// What is answered of a volume by its pool alone.
std::string AnswerOf(const Pool& pool) {
  csi::v1::Volume answer;
  (*answer.mutable_volume_context())["pool"] = pool.name;
  if (!pool.segments.empty()) {
    answer.add_accessible_topology()->mutable_segments()->insert(pool.segments.begin(), pool.segments.end());
  }
  return Canonical(answer);
}

std::string AnswerOf(const Volume& volume, const std::string& pool_answer) {
  std::string fields;
  AppendNumber(csi::v1::Volume::kCapacityBytesFieldNumber, volume.bytes, &fields);
  AppendField(csi::v1::Volume::kVolumeIdFieldNumber, VolumeId(volume.number), &fields);
  std::string answer;
  answer.reserve(SizeOfField(fields.size() + pool_answer.size()));
  AppendHead(csi::v1::CreateVolumeResponse::kVolumeFieldNumber, fields.size() + pool_answer.size(), &answer);
  return answer.append(fields).append(pool_answer);
}

}  // namespace

bool Key::IsSupported() const {
  return !is_mount || (mode != AccessMode::MULTI_NODE_SINGLE_WRITER && mode != AccessMode::MULTI_NODE_MULTI_WRITER);
}

Key KeyOf(const VolumeCapability& capability) {
  return {capability.has_mount(), capability.mount().fs_type(), capability.access_mode().mode()};
}

bool Attachment::CoexistsWith(const Attachment& other) const {
  if (key.mode != other.key.mode) return false;
  switch (key.mode) {
    case AccessMode::MULTI_NODE_READER_ONLY:
    case AccessMode::MULTI_NODE_MULTI_WRITER:
      return true;
    case AccessMode::MULTI_NODE_SINGLE_WRITER:
      return readonly || other.readonly;
    default:
      return false;
  }
}

bool Volume::Has(const Key& key) const {
  if (std::binary_search(keys.begin(), keys.end(), key)) return true;
  return IsOfOneNode(key.mode) &&
         std::binary_search(keys.begin(), keys.end(), Key{key.is_mount, key.fs_type, AccessMode::SINGLE_NODE_WRITER});
}

bool Volume::IsBesideOthers(const Attachment& attachment) const {
  return std::all_of(attachments.begin(), attachments.end(), [&](const Attachment& other) { return attachment.CoexistsWith(other); });
}

const Attachment* Volume::At(size_t node) const {
  auto found = std::find_if(attachments.begin(), attachments.end(), [&](const Attachment& it) { return it.node == node; });
  return found == attachments.end() ? nullptr : &*found;
}

std::string VolumeId(uint64_t number) { return "vol-" + std::to_string(number); }

Volumes::Volumes(const Config& config) : config_(config), used_(config.pools.size()), at_node_(config.nodes.size()) {
  for (const Pool& pool : config.pools) pool_answers_.push_back(AnswerOf(pool));
  for (size_t node = 0; node < config.nodes.size(); ++node) nodes_.emplace(config.nodes[node].id, node);
}

const Volume* Volumes::Find(uint64_t number) const {
  auto found = by_number_.find(number);
  return found == by_number_.end() ? nullptr : &found->second;
}

const Volume* Volumes::FindByName(std::string_view name) const {
  auto found = by_name_.find(name);
  return found == by_name_.end() ? nullptr : Find(found->second);
}

const Volume* Volumes::FindById(std::string_view id) const {
  constexpr std::string_view kPrefix = "vol-";
  if (id.substr(0, kPrefix.size()) != kPrefix) return nullptr;
  const std::optional<uint64_t> number = NumberOf(id.substr(kPrefix.size()));
  return number ? Find(*number) : nullptr;
}

std::optional<size_t> Volumes::FindNode(std::string_view id) const {
  auto found = nodes_.find(id);
  return found == nodes_.end() ? std::nullopt : std::optional(found->second);
}

std::optional<size_t> Volumes::FindPool(std::string_view name) const {
  auto found = std::find_if(config_.pools.begin(), config_.pools.end(), [&](const Pool& it) { return it.name == name; });
  return found == config_.pools.end() ? std::nullopt : std::optional<size_t>(found - config_.pools.begin());
}

const Volume& Volumes::Add(Volume volume) {
  volume.answer = AnswerOf(volume, pool_answers_[volume.pool]);
  used_[volume.pool] += volume.bytes;
  const uint64_t number = volume.number;
  const Volume& kept = by_number_.emplace_hint(by_number_.end(), number, std::move(volume))->second;
  by_name_.emplace(kept.name, number);
  next_ = std::max(next_, number + 1);
  return kept;
}

void Volumes::Remove(uint64_t number) {
  auto found = by_number_.find(number);
  used_[found->second.pool] -= found->second.bytes;
  by_name_.erase(found->second.name);
  by_number_.erase(found);
}

void Volumes::Attach(uint64_t number, Attachment attachment) {
  std::vector<Attachment>& attachments = by_number_.at(number).attachments;
  ++at_node_[attachment.node];
  auto place = std::find_if(attachments.begin(), attachments.end(), [&](const Attachment& it) { return it.node > attachment.node; });
  attachments.insert(place, std::move(attachment));
}

void Volumes::Detach(uint64_t number, std::optional<size_t> node) {
  std::vector<Attachment>& attachments = by_number_.at(number).attachments;
  auto gone = std::stable_partition(attachments.begin(), attachments.end(), [&](const Attachment& it) { return node && it.node != *node; });
  for (auto it = gone; it != attachments.end(); ++it) --at_node_[it->node];
  attachments.erase(gone, attachments.end());
}

}  // namespace peer
