// Bytes of messages and decimals.
#pragma once

#include <google/protobuf/io/coded_stream.h>
#include <google/protobuf/io/zero_copy_stream_impl_lite.h>
#include <google/protobuf/message_lite.h>

#include <charconv>
#include <cstdint>
#include <optional>
#include <string>
#include <string_view>

namespace peer {

// Appends a message with the entries of its maps in the order of their keys.
inline void AppendCanonical(const google::protobuf::MessageLite& message, std::string* out) {
  google::protobuf::io::StringOutputStream stream(out);
  google::protobuf::io::CodedOutputStream coded(&stream);
  coded.SetSerializationDeterministic(true);
  message.SerializeToCodedStream(&coded);
}

inline std::string Canonical(const google::protobuf::MessageLite& message) {
  std::string out;
  AppendCanonical(message, &out);
  return out;
}

inline void AppendVarint(uint64_t number, std::string* out) {
  uint8_t bytes[10];
  const uint8_t* end = google::protobuf::io::CodedOutputStream::WriteVarint64ToArray(number, bytes);
  out->append(reinterpret_cast<const char*>(bytes), end - bytes);
}

// Appends a field that is a number.
inline void AppendNumber(int field, uint64_t number, std::string* out) {
  out->push_back(static_cast<char>(field << 3));
  AppendVarint(number, out);
}

// Appends the head of a field that holds so many bytes.
inline void AppendHead(int field, size_t length, std::string* out) {
  out->push_back(static_cast<char>(field << 3 | 2));
  AppendVarint(length, out);
}

inline void AppendField(int field, std::string_view bytes, std::string* out) {
  AppendHead(field, bytes.size(), out);
  out->append(bytes);
}

inline size_t SizeOfField(size_t length) { return 1 + google::protobuf::io::CodedOutputStream::VarintSize64(length) + length; }

// The number that a text without leading zeros is the decimal of; 0 is none.
inline std::optional<uint64_t> NumberOf(std::string_view text) {
  uint64_t number = 0;
  const auto [end, error] = std::from_chars(text.data(), text.data() + text.size(), number);
  if (error != std::errc() || end != text.data() + text.size() || text.front() == '0') return std::nullopt;
  return number;
}

}  // namespace peer
