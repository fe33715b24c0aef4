#include "frames.h"

#include <unistd.h>

#include <algorithm>
#include <cerrno>
#include <cstring>
#include <system_error>

namespace peer {
namespace {

constexpr size_t kReadBytes = 64 << 10;
constexpr size_t kMaxPathBytes = 128;
constexpr size_t kMaxMessageBytes = 1 << 20;
constexpr size_t kReplyHeadBytes = 8;

bool IsPathByte(char byte) { return byte >= 0x21 && byte <= 0x7E; }

void AppendNumber(size_t number, int bytes, std::string* out) {
  while (bytes-- > 0) out->push_back(static_cast<char>(number >> 8 * bytes));
}

}  // namespace

size_t CallReader::Number(size_t at, size_t bytes) const {
  size_t number = 0;
  for (size_t byte = 0; byte < bytes; ++byte) number = number << 8 | static_cast<unsigned char>(buffer_[begin_ + at + byte]);
  return number;
}

void CallReader::MakeRoom(size_t count) {
  if (begin_ > 0) {
    std::memmove(buffer_.data(), buffer_.data() + begin_, end_ - begin_);
    end_ -= begin_;
    begin_ = 0;
  }
  buffer_.resize(std::max({buffer_.size(), count, kReadBytes}));
}

bool CallReader::Has(size_t count) {
  while (end_ - begin_ < count) {
    if (buffer_.size() - begin_ < count || end_ == buffer_.size()) MakeRoom(count);
    const ssize_t taken = read(descriptor_, buffer_.data() + end_, buffer_.size() - end_);
    if (taken < 0) throw std::system_error(errno, std::generic_category(), "a read of standard input failed");
    if (taken == 0) return false;
    end_ += static_cast<size_t>(taken);
  }
  return true;
}

void CallReader::Want(size_t count) {
  if (!Has(count)) throw FrameFault("end of input", place_ + end_ - begin_);
}

std::optional<Call> CallReader::Next() {
  if (!Has(1)) return std::nullopt;
  Want(2);
  const size_t path_bytes = Number(0, 2);
  if (path_bytes == 0 || path_bytes > kMaxPathBytes) throw FrameFault("bad path length", place_);

  const size_t flag = 2 + path_bytes;
  const bool has_path = Has(flag);
  const auto path = buffer_.begin() + static_cast<ptrdiff_t>(begin_) + 2;
  const auto path_end = path + static_cast<ptrdiff_t>(std::min(path_bytes, end_ - begin_ - 2));
  const auto bad = std::find_if_not(path, path_end, IsPathByte);
  if (bad != path_end) throw FrameFault("bad path", place_ + 2 + static_cast<size_t>(bad - path));
  if (!has_path) throw FrameFault("end of input", place_ + end_ - begin_);

  Want(flag + 1);
  if (buffer_[begin_ + flag] != 0) throw FrameFault("bad flag", place_ + flag);
  const size_t head = flag + 5;
  Want(head);
  const size_t message_bytes = Number(flag + 1, 4);
  if (message_bytes > kMaxMessageBytes) throw FrameFault("message too long", place_ + flag + 1);
  Want(head + message_bytes);

  const char* frame = buffer_.data() + begin_;
  begin_ += head + message_bytes;
  place_ += head + message_bytes;
  return Call{{frame + 2, path_bytes}, {frame + head, message_bytes}};
}

std::string* ReplyWriter::Begin() {
  bytes_.assign(kReplyHeadBytes, '\0');
  return &bytes_;
}

void ReplyWriter::Write(const Status& status) {
  if (status.ok()) {
    const size_t body = bytes_.size() - kReplyHeadBytes;
    for (int byte = 0; byte < 4; ++byte) bytes_[kReplyHeadBytes - 1 - byte] = static_cast<char>(body >> 8 * byte);
  } else {
    bytes_.assign(1, static_cast<char>(status.code));
    AppendNumber(status.text.size(), 2, &bytes_);
    bytes_.append(status.text).append(5, '\0');
  }
  for (std::string_view left = bytes_; !left.empty();) {
    const ssize_t written = write(descriptor_, left.data(), left.size());
    if (written <= 0) throw std::system_error(errno, std::generic_category(), "a write to standard output failed");
    left.remove_prefix(static_cast<size_t>(written));
  }
}

}  // namespace peer
