// What the server serves: its name, its pools and its nodes (docs/OPERATING.md, "Configuration").
#pragma once

#include <cstdint>
#include <map>
#include <string>
#include <utility>
#include <vector>

namespace peer {

constexpr int64_t kMebibyte = 1 << 20;

// Segments of a topology with the ASCII letters of their keys folded, in order.
using Segments = std::vector<std::pair<std::string, std::string>>;

std::string Folded(std::string text);

struct Pool {
  std::string name;
  int64_t bytes;
  std::map<std::string, std::string> segments;
  Segments folded;
};

struct Node {
  std::string id;
  int64_t max_volumes;
};

struct Config {
  std::string name;
  std::string vendor_version;
  int64_t default_bytes;
  int64_t greatest_bytes;
  std::vector<Pool> pools;
  // In byte order of their ids.
  std::vector<Node> nodes;
};

// Throws std::runtime_error where the file cannot be read or a key is missing; ranges are not judged.
Config ReadConfig(const std::string& path);

}  // namespace peer
