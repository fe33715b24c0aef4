// Where a volume may lie, and which pools are there (docs/MACHINE.md, "Topology").
#pragma once

#include <algorithm>

#include "config.h"
#include "csi.pb.h"

namespace peer {

// A topology with its keys folded, in order. It keeps its memory from one topology to the next.
class Term {
 public:
  Term& Assign(const csi::v1::Topology& topology) {
    segments_.clear();
    for (const auto& segment : topology.segments()) segments_.emplace_back(Folded(segment.first), segment.second);
    std::sort(segments_.begin(), segments_.end());
    return *this;
  }

  const Segments& segments() const { return segments_; }

  bool HasAlikeKeys() const {
    auto are_alike = [](const auto& one, const auto& next) { return one.first == next.first; };
    return std::adjacent_find(segments_.begin(), segments_.end(), are_alike) != segments_.end();
  }

  bool IsServedBy(const Pool& pool) const { return Includes(segments_, pool.folded) || Includes(pool.folded, segments_); }

 private:
  static bool Includes(const Segments& all, const Segments& some) {
    return all.size() >= some.size() && std::includes(all.begin(), all.end(), some.begin(), some.end());
  }

  Segments segments_;
};

}  // namespace peer
