// The file of tables (docs/TABLES.md), which each change is written through to.
#pragma once

#include <sqlite3.h>

#include <memory>
#include <stdexcept>
#include <string>
#include <string_view>

#include "volumes.h"

namespace peer {

// A database that refused, or tables that are not taken.
struct TablesError : std::runtime_error {
  using std::runtime_error::runtime_error;
};

struct Blob {
  std::string_view bytes;
};

class Statement {
 public:
  Statement(sqlite3* database, const char* text);

  // The next row, if there is one.
  bool Step();
  template <typename... Values>
  void Run(const Values&... values) {
    int place = 0;
    (Bind(++place, values), ...);
    Step();
    sqlite3_reset(statement_.get());
  }

  // A value of the row, which has to be of the kind of its column.
  int64_t Number(int column);
  std::string_view Text(int column) { return Bytes(column, SQLITE_TEXT); }
  std::string_view BlobBytes(int column) { return Bytes(column, SQLITE_BLOB); }

 private:
  struct Finalize {
    void operator()(sqlite3_stmt* statement) const { sqlite3_finalize(statement); }
  };

  std::string_view Bytes(int column, int kind);
  void Bind(int place, uint64_t number);
  void Bind(int place, std::string_view text);
  void Bind(int place, Blob blob);

  std::unique_ptr<sqlite3_stmt, Finalize> statement_;
};

class Tables {
 public:
  // Opens the file, or makes it, and puts what stands there into `volumes`. Throws TablesError where its rows break a rule.
  Tables(const std::string& path, const Config& config, Volumes* volumes);

  // Each throws TablesError where nothing was changed.
  void Add(const Volume& volume);
  void Remove(uint64_t number);
  void Attach(uint64_t number, const Attachment& attachment);
  void Detach(uint64_t number, size_t node);
  void DetachAll(uint64_t number);

 private:
  struct Close {
    void operator()(sqlite3* database) const { sqlite3_close(database); }
  };
  using Database = std::unique_ptr<sqlite3, Close>;

  static Database Open(const std::string& path);
  void ReadMeta(Volumes* volumes);
  void ReadVolumes(Volumes* volumes);
  void ReadAttachments(Volumes* volumes);

  const Config& config_;
  Database database_;
  // What rows are read and written with.
  csi::v1::CreateVolumeRequest message_;
  Statement begin_, commit_, rollback_, insert_volume_, set_next_, delete_volume_, insert_attachment_, delete_attachment_,
      delete_attachments_;
};

}  // namespace peer
