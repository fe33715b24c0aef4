// A server of the calls that the benches make, as csid is one: written in the usual way, with protobuf and the C library of SQLite.
//
// usage: server pipe --config FILE [--tables FILE]   Calls on standard input, replies on standard output. Exit statuses are those of csid
//                                                    (docs/OPERATING.md).
#include <sys/stat.h>
#include <unistd.h>

#include <csignal>
#include <iostream>
#include <optional>
#include <system_error>

#include "calls.h"
#include "config.h"
#include "frames.h"
#include "tables.h"
#include "volumes.h"

namespace {

enum ExitStatus { kDone = 0, kMalformed = 1, kArguments = 2, kConfiguration = 3, kTables = 4, kInputOrOutput = 5 };

struct Options {
  std::string config;
  std::string tables;
};

std::optional<Options> ReadOptions(int count, char** words) {
  Options options;
  if (count < 2 || count % 2 != 0 || std::string_view(words[1]) != "pipe") return std::nullopt;
  for (int at = 2; at < count; at += 2) {
    const std::string_view option = words[at];
    if (option == "--config") {
      options.config = words[at + 1];
    } else if (option == "--tables") {
      options.tables = words[at + 1];
    } else {
      return std::nullopt;
    }
  }
  return options.config.empty() ? std::nullopt : std::optional(options);
}

int Fail(ExitStatus status, const std::string& text) {
  std::cerr << "server: " << text << '\n';
  return status;
}

int Serve(peer::Calls* calls) {
  peer::CallReader reader(STDIN_FILENO);
  peer::ReplyWriter writer(STDOUT_FILENO);
  try {
    while (const std::optional<peer::Call> call = reader.Next()) {
      std::string* body = writer.Begin();
      writer.Write(calls->Answer(call->path, call->message, body));
    }
    return kDone;
  } catch (const peer::FrameFault& fault) {
    writer.Write({peer::kInvalidArgument, fault.what()});
    return Fail(kMalformed, fault.what());
  }
}

int Run(const Options& options) {
  peer::Config config;
  try {
    config = peer::ReadConfig(options.config);
  } catch (const std::runtime_error& error) {
    return Fail(kConfiguration, options.config + ": " + error.what());
  }
  peer::Volumes volumes(config);
  std::optional<peer::Tables> tables;
  try {
    if (!options.tables.empty()) tables.emplace(options.tables, config, &volumes);
  } catch (const peer::TablesError& error) {
    return Fail(kTables, options.tables + ": " + error.what());
  }
  peer::Calls calls(config, &volumes, tables ? &*tables : nullptr);
  try {
    return Serve(&calls);
  } catch (const std::system_error& error) {
    return Fail(kInputOrOutput, error.what());
  }
}

}  // namespace

int main(int count, char** words) {
  const std::optional<Options> options = ReadOptions(count, words);
  if (!options) return Fail(kArguments, "usage: server pipe --config FILE [--tables FILE]");
  std::signal(SIGPIPE, SIG_IGN);
  umask(S_IRWXG | S_IRWXO);
  return Run(*options);
}
