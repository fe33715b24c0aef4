// How a call is answered where it has no response (docs/PROTOCOL.md, "Status codes").
#pragma once

#include <string>

namespace peer {

enum Code {
  kOk = 0,
  kInvalidArgument = 3,
  kNotFound = 5,
  kAlreadyExists = 6,
  kResourceExhausted = 8,
  kFailedPrecondition = 9,
  kAborted = 10,
  kOutOfRange = 11,
  kUnimplemented = 12,
  kInternal = 13,
};

struct Status {
  Code code = kOk;
  std::string text;

  bool ok() const { return code == kOk; }
};

}  // namespace peer
