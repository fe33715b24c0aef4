#include "tables.h"

#include <algorithm>
#include <set>

#include "bytes.h"
#include "checks.h"

namespace peer {
namespace {

constexpr const char* kSchema[] = {
    "CREATE TABLE meta (k INTEGER PRIMARY KEY CHECK (k = 1), format_no INTEGER NOT NULL, next_number INTEGER NOT NULL)",
    "CREATE TABLE volumes (number INTEGER PRIMARY KEY, name TEXT NOT NULL UNIQUE, bytes INTEGER NOT NULL, pool TEXT NOT NULL, "
    "caps BLOB NOT NULL, params BLOB NOT NULL)",
    "CREATE TABLE attachments (number INTEGER NOT NULL, node TEXT NOT NULL, cap BLOB NOT NULL, readonly INTEGER NOT NULL, "
    "PRIMARY KEY (number, node))",
};
constexpr int64_t kFormat = 2;

void Execute(sqlite3* database, const char* text) {
  if (sqlite3_exec(database, text, nullptr, nullptr, nullptr) != SQLITE_OK) throw TablesError(sqlite3_errmsg(database));
}

// Makes the tables where there are none; others are refused.
void MakeOrCompare(sqlite3* database) {
  std::set<std::string_view> wanted(std::begin(kSchema), std::end(kSchema));
  size_t found = 0;
  Statement texts(database, "SELECT sql FROM sqlite_schema WHERE sql IS NOT NULL");
  for (; texts.Step(); ++found) {
    if (wanted.erase(texts.Text(0)) == 0) throw TablesError("the tables are not those of the server");
  }
  if (found > 0 && !wanted.empty()) throw TablesError("the tables are not those of the server");
  if (found > 0) return;
  Execute(database, "BEGIN IMMEDIATE");
  for (const char* text : kSchema) Execute(database, text);
  Execute(database, "INSERT INTO meta VALUES (1, 2, 1)");
  Execute(database, "COMMIT");
}

void AddCapability(const Key& key, csi::v1::CreateVolumeRequest* request) {
  csi::v1::VolumeCapability& capability = *request->add_volume_capabilities();
  if (key.is_mount) {
    capability.mutable_mount()->set_fs_type(key.fs_type);
  } else {
    capability.mutable_block();
  }
  capability.mutable_access_mode()->set_mode(static_cast<csi::v1::VolumeCapability::AccessMode::Mode>(key.mode));
}

// The messages are those of the caller, so that their memory serves again.
std::string CapsOf(const std::vector<Key>& keys, csi::v1::CreateVolumeRequest* message) {
  message->Clear();
  for (const Key& key : keys) AddCapability(key, message);
  return Canonical(*message);
}

std::string ParamsOf(const Volume& volume, csi::v1::CreateVolumeRequest* message) {
  message->Clear();
  message->mutable_parameters()->insert(volume.parameters.begin(), volume.parameters.end());
  message->mutable_changeable_parameters()->insert(volume.mutable_parameters.begin(), volume.mutable_parameters.end());
  return Canonical(*message);
}

size_t SizeOf(const Parameters& parameters) {
  size_t bytes = 0;
  for (const auto& [key, value] : parameters) bytes += key.size() + value.size();
  return bytes;
}

void Want(bool holds, uint64_t number, const char* rule) {
  if (!holds) throw TablesError("volume " + std::to_string(number) + ": " + rule);
}

// The keys whose bytes these are; none where they are others'.
std::vector<Key> KeysIn(std::string_view bytes, csi::v1::CreateVolumeRequest* message) {
  std::vector<Key> keys;
  if (!message->ParseFromArray(bytes.data(), static_cast<int>(bytes.size()))) return keys;
  for (const csi::v1::VolumeCapability& capability : message->volume_capabilities()) keys.push_back(KeyOf(capability));
  const bool is_known =
      std::all_of(keys.begin(), keys.end(), [](const Key& it) { return it.mode >= 1 && it.mode <= 7 && it.IsSupported(); });
  const bool is_in_order =
      std::adjacent_find(keys.begin(), keys.end(), [](const Key& it, const Key& next) { return !(it < next); }) == keys.end();
  if (!is_known || !is_in_order || CapsOf(keys, message) != bytes) keys.clear();
  return keys;
}

bool ReadParams(std::string_view bytes, csi::v1::CreateVolumeRequest* message, Volume* volume) {
  if (!message->ParseFromArray(bytes.data(), static_cast<int>(bytes.size()))) return false;
  volume->parameters = Parameters(message->parameters().begin(), message->parameters().end());
  volume->mutable_parameters = Parameters(message->changeable_parameters().begin(), message->changeable_parameters().end());
  return SizeOf(volume->parameters) <= kMaxMapBytes && SizeOf(volume->mutable_parameters) <= kMaxMapBytes &&
         ParamsOf(*volume, message) == bytes;
}

}  // namespace

Statement::Statement(sqlite3* database, const char* text) {
  sqlite3_stmt* statement = nullptr;
  if (sqlite3_prepare_v3(database, text, -1, SQLITE_PREPARE_PERSISTENT, &statement, nullptr) != SQLITE_OK) {
    throw TablesError(sqlite3_errmsg(database));
  }
  statement_.reset(statement);
}

bool Statement::Step() {
  const int result = sqlite3_step(statement_.get());
  if (result == SQLITE_ROW) return true;
  if (result == SQLITE_DONE) return false;
  TablesError error(sqlite3_errmsg(sqlite3_db_handle(statement_.get())));
  sqlite3_reset(statement_.get());
  throw error;
}

int64_t Statement::Number(int column) {
  if (sqlite3_column_type(statement_.get(), column) != SQLITE_INTEGER) throw TablesError("a value is not of the kind of its column");
  return sqlite3_column_int64(statement_.get(), column);
}

std::string_view Statement::Bytes(int column, int kind) {
  if (sqlite3_column_type(statement_.get(), column) != kind) throw TablesError("a value is not of the kind of its column");
  const void* bytes = sqlite3_column_blob(statement_.get(), column);
  return {static_cast<const char*>(bytes), static_cast<size_t>(sqlite3_column_bytes(statement_.get(), column))};
}

void Statement::Bind(int place, uint64_t number) { sqlite3_bind_int64(statement_.get(), place, static_cast<int64_t>(number)); }

void Statement::Bind(int place, std::string_view text) {
  sqlite3_bind_text(statement_.get(), place, text.data(), static_cast<int>(text.size()), SQLITE_STATIC);
}

void Statement::Bind(int place, Blob blob) {
  const char* bytes = blob.bytes.empty() ? "" : blob.bytes.data();
  sqlite3_bind_blob(statement_.get(), place, bytes, static_cast<int>(blob.bytes.size()), SQLITE_STATIC);
}

Tables::Database Tables::Open(const std::string& path) {
  sqlite3* handle = nullptr;
  const int result = sqlite3_open_v2(path.c_str(), &handle, SQLITE_OPEN_READWRITE | SQLITE_OPEN_CREATE | SQLITE_OPEN_NOMUTEX, nullptr);
  Database database(handle);
  if (result != SQLITE_OK) throw TablesError(sqlite3_errstr(result));
  Execute(handle, "PRAGMA locking_mode = EXCLUSIVE");
  Execute(handle, "PRAGMA journal_mode = WAL");
  Execute(handle, "PRAGMA synchronous = FULL");
  MakeOrCompare(handle);
  return database;
}

Tables::Tables(const std::string& path, const Config& config, Volumes* volumes)
    : config_(config),
      database_(Open(path)),
      begin_(database_.get(), "BEGIN IMMEDIATE"),
      commit_(database_.get(), "COMMIT"),
      rollback_(database_.get(), "ROLLBACK"),
      insert_volume_(database_.get(), "INSERT INTO volumes VALUES (?, ?, ?, ?, ?, ?)"),
      set_next_(database_.get(), "UPDATE meta SET next_number = ?"),
      delete_volume_(database_.get(), "DELETE FROM volumes WHERE number = ?"),
      insert_attachment_(database_.get(), "INSERT INTO attachments VALUES (?, ?, ?, ?)"),
      delete_attachment_(database_.get(), "DELETE FROM attachments WHERE number = ? AND node = ?"),
      delete_attachments_(database_.get(), "DELETE FROM attachments WHERE number = ?") {
  ReadMeta(volumes);
  ReadVolumes(volumes);
  ReadAttachments(volumes);
}

void Tables::ReadMeta(Volumes* volumes) {
  Statement meta(database_.get(), "SELECT format_no, next_number FROM meta");
  if (!meta.Step()) throw TablesError("meta has no row with the number of a format");
  if (meta.Number(0) != kFormat) throw TablesError("the tables have another format than 2");
  const int64_t next = meta.Number(1);
  if (next < 1 || static_cast<uint64_t>(next) > kNumbersEnd) throw TablesError("the next number is not 1 to 2^62");
  volumes->set_next(static_cast<uint64_t>(next));
}

void Tables::ReadVolumes(Volumes* volumes) {
  Statement rows(database_.get(), "SELECT number, name, bytes, pool, caps, params FROM volumes ORDER BY number");
  while (rows.Step()) {
    const uint64_t number = static_cast<uint64_t>(rows.Number(0));
    Want(number >= 1 && number < volumes->next(), number, "its number is not from 1 to below the next number");
    const std::optional<size_t> pool = volumes->FindPool(rows.Text(3));
    Want(pool.has_value(), number, "its pool is not one of the configuration");
    Volume volume{number, std::string(rows.Text(1)), rows.Number(2), *pool, KeysIn(rows.BlobBytes(4), &message_), {}, {}, {}, {}};
    Want(IsName(volume.name), number, "its name is not one that a volume can be made with");
    Want(volume.bytes > 0 && volume.bytes % kMebibyte == 0, number, "its bytes are not a positive multiple of 1048576");
    Want(volume.bytes <= volumes->FreeIn(*pool), number, "its pool has not so many bytes");
    Want(!volume.keys.empty(), number, "its caps are not the bytes of supported capabilities in order");
    Want(ReadParams(rows.BlobBytes(5), &message_, &volume), number, "its params are not the bytes of parameters of at most 4096 bytes");
    Want(volumes->size() < kMaxVolumes, number, "there are more than 100000 volumes");
    volumes->Add(std::move(volume));
  }
}

void Tables::ReadAttachments(Volumes* volumes) {
  Statement rows(database_.get(), "SELECT number, node, cap, readonly FROM attachments");
  while (rows.Step()) {
    const uint64_t number = static_cast<uint64_t>(rows.Number(0));
    const std::optional<size_t> node = volumes->FindNode(rows.Text(1));
    Want(node.has_value(), number, "it is attached at a node that is not one of the configuration");
    const std::vector<Key> keys = KeysIn(rows.BlobBytes(2), &message_);
    Want(keys.size() == 1, number, "the cap of an attachment is not the bytes of one supported capability");
    const int64_t readonly = rows.Number(3);
    Want(readonly == 0 || readonly == 1, number, "the readonly of an attachment is not 0 or 1");
    const Volume* volume = volumes->Find(number);
    Want(volume != nullptr && volume->Has(keys[0]), number, "no volume of its number has the capability of an attachment");
    Attachment attachment{*node, keys[0], readonly == 1};
    Want(volume->IsBesideOthers(attachment), number, "it is attached at two nodes that cannot have it together");
    Want(volumes->CountAt(*node) < static_cast<size_t>(config_.nodes[*node].max_volumes), number,
         "its node has more volumes than it can have");
    volumes->Attach(number, std::move(attachment));
  }
}

void Tables::Add(const Volume& volume) {
  const std::string caps = CapsOf(volume.keys, &message_), params = ParamsOf(volume, &message_);
  begin_.Run();
  try {
    insert_volume_.Run(volume.number, std::string_view(volume.name), static_cast<uint64_t>(volume.bytes),
                       std::string_view(config_.pools[volume.pool].name), Blob{caps}, Blob{params});
    set_next_.Run(volume.number + 1);
    commit_.Run();
  } catch (const TablesError&) {
    if (!sqlite3_get_autocommit(database_.get())) rollback_.Run();
    throw;
  }
}

void Tables::Remove(uint64_t number) { delete_volume_.Run(number); }

void Tables::Attach(uint64_t number, const Attachment& attachment) {
  const std::string cap = CapsOf({attachment.key}, &message_);
  insert_attachment_.Run(number, std::string_view(config_.nodes[attachment.node].id), Blob{cap},
                         static_cast<uint64_t>(attachment.readonly));
}

void Tables::Detach(uint64_t number, size_t node) { delete_attachment_.Run(number, std::string_view(config_.nodes[node].id)); }

void Tables::DetachAll(uint64_t number) { delete_attachments_.Run(number); }

}  // namespace peer
