// The volumes that stand and where they are attached (docs/MACHINE.md, "The State"), in memory.
#pragma once

#include <cstdint>
#include <map>
#include <optional>
#include <string>
#include <string_view>
#include <tuple>
#include <unordered_map>
#include <vector>

#include "config.h"
#include "csi.pb.h"

namespace peer {

constexpr size_t kMaxVolumes = 100'000;
constexpr uint64_t kNumbersEnd = uint64_t{1} << 62;

using Parameters = std::map<std::string, std::string>;

// What a volume can be used as.
struct Key {
  bool is_mount;
  std::string fs_type;
  int mode;

  bool IsSupported() const;
  auto Parts() const { return std::tie(is_mount, fs_type, mode); }
  bool operator<(const Key& other) const { return Parts() < other.Parts(); }
  bool operator==(const Key& other) const { return Parts() == other.Parts(); }
};

Key KeyOf(const csi::v1::VolumeCapability& capability);

struct Attachment {
  size_t node;
  Key key;
  bool readonly;

  bool CoexistsWith(const Attachment& other) const;
};

struct Volume {
  uint64_t number;
  std::string name;
  int64_t bytes;
  size_t pool;
  // In order, none twice.
  std::vector<Key> keys;
  Parameters parameters;
  Parameters mutable_parameters;
  // In the order of the nodes, one a node.
  std::vector<Attachment> attachments;
  // How it is answered: the field `volume` of a CreateVolumeResponse or of an entry of a list.
  std::string answer;

  bool Has(const Key& key) const;
  bool IsBesideOthers(const Attachment& attachment) const;
  const Attachment* At(size_t node) const;
};

std::string VolumeId(uint64_t number);

class Volumes {
 public:
  explicit Volumes(const Config& config);

  uint64_t next() const { return next_; }
  void set_next(uint64_t next) { next_ = next; }
  size_t size() const { return by_number_.size(); }
  const std::map<uint64_t, Volume>& by_number() const { return by_number_; }
  int64_t FreeIn(size_t pool) const { return config_.pools[pool].bytes - used_[pool]; }
  size_t CountAt(size_t node) const { return at_node_[node]; }

  const Volume* Find(uint64_t number) const;
  const Volume* FindByName(std::string_view name) const;
  const Volume* FindById(std::string_view id) const;
  std::optional<size_t> FindNode(std::string_view id) const;
  std::optional<size_t> FindPool(std::string_view name) const;

  // Adds a volume of another number and name than those that stand, and makes its answer.
  const Volume& Add(Volume volume);
  void Remove(uint64_t number);
  void Attach(uint64_t number, Attachment attachment);
  // At that node, or without one at all.
  void Detach(uint64_t number, std::optional<size_t> node);

 private:
  const Config& config_;
  uint64_t next_ = 1;
  std::map<uint64_t, Volume> by_number_;
  // The names are those of the volumes, which stay at their places.
  std::unordered_map<std::string_view, uint64_t> by_name_;
  std::unordered_map<std::string_view, size_t> nodes_;
  std::vector<std::string> pool_answers_;
  std::vector<int64_t> used_;
  std::vector<size_t> at_node_;
};

}  // namespace peer
