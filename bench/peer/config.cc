#include "config.h"

#include <toml++/toml.h>

#include <algorithm>
#include <stdexcept>

namespace peer {
namespace {

template <typename Value>
Value Wanted(const toml::table& table, const char* key) {
  if (auto value = table[key].value<Value>()) return *value;
  throw std::runtime_error("the key '" + std::string(key) + "' is missing or of another type");
}

// What `read` makes of each table under the key.
template <typename Read>
void ForEachTable(const toml::table& table, const char* key, Read read) {
  const toml::array* tables = table[key].as_array();
  if (tables == nullptr) return;
  for (const toml::node& node : *tables) {
    if (const toml::table* one = node.as_table()) read(*one);
  }
}

Pool ReadPool(const toml::table& table) {
  Pool pool{Wanted<std::string>(table, "name"), Wanted<int64_t>(table, "bytes"), {}, {}};
  if (const toml::table* segments = table["segments"].as_table()) {
    for (const auto& [key, value] : *segments) {
      pool.segments.emplace(key.str(), value.value_or(std::string()));
    }
  }
  for (const auto& [key, value] : pool.segments) pool.folded.emplace_back(Folded(key), value);
  std::sort(pool.folded.begin(), pool.folded.end());
  return pool;
}

}  // namespace

std::string Folded(std::string text) {
  for (char& letter : text) {
    if (letter >= 'A' && letter <= 'Z') letter += 'a' - 'A';
  }
  return text;
}

Config ReadConfig(const std::string& path) {
  const toml::table table = toml::parse_file(path);
  Config config{Wanted<std::string>(table, "name"),
                Wanted<std::string>(table, "vendor_version"),
                Wanted<int64_t>(table, "default_bytes"),
                Wanted<int64_t>(table, "greatest_bytes"),
                {},
                {}};
  ForEachTable(table, "pool", [&](const toml::table& one) { config.pools.push_back(ReadPool(one)); });
  ForEachTable(table, "node", [&](const toml::table& one) {
    config.nodes.push_back({Wanted<std::string>(one, "id"), Wanted<int64_t>(one, "max_volumes")});
  });
  std::sort(config.nodes.begin(), config.nodes.end(), [](const Node& one, const Node& other) { return one.id < other.id; });
  return config;
}

}  // namespace peer
