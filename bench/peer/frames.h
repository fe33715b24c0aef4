// Frames of calls and replies on descriptors (docs/PROTOCOL.md, "Envelope" and "Streams").
#pragma once

#include <cstdint>
#include <optional>
#include <stdexcept>
#include <string>
#include <string_view>
#include <vector>

#include "status.h"

namespace peer {

// A malformed frame; the text names its place.
struct FrameFault : std::runtime_error {
  FrameFault(const char* what, uint64_t place) : std::runtime_error(what + (" at byte " + std::to_string(place))) {}
};

struct Call {
  std::string_view path;
  std::string_view message;
};

class CallReader {
 public:
  explicit CallReader(int descriptor) : descriptor_(descriptor) {}

  // The next call, whose bytes stay until the one after it; none where the input ended after a whole frame.
  // Throws FrameFault, and std::system_error where a read failed.
  std::optional<Call> Next();

 private:
  // Whether so many bytes of the frame are there, after what has to be read for them.
  bool Has(size_t count);
  void Want(size_t count);
  void MakeRoom(size_t count);
  size_t Number(size_t at, size_t bytes) const;

  const int descriptor_;
  std::vector<char> buffer_;
  // Where the bytes are that were read and belong to no call yet, and the place of the first of them in the stream.
  size_t begin_ = 0;
  size_t end_ = 0;
  uint64_t place_ = 0;
};

class ReplyWriter {
 public:
  explicit ReplyWriter(int descriptor) : descriptor_(descriptor) {}

  // What the body of the next reply is appended to.
  std::string* Begin();
  // Writes the reply: the body, or a refusal. Throws std::system_error where a write failed.
  void Write(const Status& status);

 private:
  const int descriptor_;
  std::string bytes_;
};

}  // namespace peer
