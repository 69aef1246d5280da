/* Serves a stream of INIT, LOOKUP, GETATTR, MKNOD, OPEN, WRITE, READ and RELEASE over a store file by libsqlite3, to be measured beside the
 * program, in the same groups and with the same durability. Every request must be answered without an error. Each read of standard
 * input must give whole messages. In an everyday store those that change nothing leave no record, and a group of them alone makes no
 * transaction. The statements are those of the words that follow the store. The program's are those of `changed`, `held` and `known`:
 *   changed   only the counters that changed are written
 *   held      settings and counters are read once, at the opening
 *   known     no row is looked for again that the request has already found or missed
 *   grouped   a group's settled records go by one statement, and its counters are written once; needs `held`
 * Standard error has the number of statements of each opcode. */
#include <sqlite3.h>
#include <stdbool.h>
#include <stdint.h>
#include <stdio.h>
#include <stdlib.h>
#include <string.h>
#include <unistd.h>

enum { LOOKUP = 1, GETATTR = 3, MKNOD = 8, OPEN = 14, READ = 15, WRITE = 16, RELEASE = 18, INIT = 26, OPCODES = 64 };
enum { NEWEST = 40, HEADER = 40, ANSWER = 16, PIECE = 135168, GROUP = 16, BLOCK = 4096, SECOND = 1000, DAY = 86400, KEEP_CACHE = 2 };

/* The columns of nodes, of which a plain store has none from LINKS on, and the numbers of meta from key 1 on, of which it has none from
 * PROFILE on. */
enum { NODE, MODE, UID, GID, RDEV, SIZE, ATIME, ATIMENSEC, MTIME, MTIMENSEC, CTIME, CTIMENSEC, UP, SUBDIRS, LINKS, WRITTEN, ATTRIBUTES,
  COLUMNS };
enum { VERSION, NEXT_NODE, NEXT_FH, NEXT_COOKIE, NODES, HANDLES, SETTINGS, MINOR, READAHEAD, FLAGS, NEXT_LOT, PROFILE, CAPACITY, USED,
  NUMBER, NUMBERS };

#define STATEMENTS(X) \
  X(BEGIN, "BEGIN") \
  X(COMMIT, "COMMIT") \
  X(SELECT_KEPT, "SELECT errno, body FROM kept WHERE id = ?1") \
  X(INSERT_KEPT, "INSERT INTO kept VALUES (?1, ?2, ?3, ?4)") \
  X(DELETE_KEPT, "DELETE FROM kept WHERE id = ?1") \
  X(DELETE_GROUP, "DELETE FROM kept WHERE id IN (?1, ?2, ?3, ?4, ?5, ?6, ?7, ?8, ?9, ?10, ?11, ?12, ?13, ?14, ?15, ?16)") \
  X(INSERT_LOT, "INSERT INTO lots VALUES (?1)") \
  X(SELECT_META, "SELECT v FROM meta ORDER BY k") \
  X(UPDATE_META, "UPDATE meta SET v = ?2 WHERE k = ?1") \
  X(SELECT_NODE, "SELECT mode, uid, gid, rdev, size, atime, atimensec, mtime, mtimensec, ctime, ctimensec, up, subdirs " \
    "FROM nodes WHERE node = ?1") \
  X(INSERT_NODE, "INSERT INTO nodes VALUES (?1, ?2, ?3, ?4, ?5, ?6, ?7, ?8, ?9, ?10, ?11, ?12, ?13, ?14)") \
  X(UPDATE_NODE, "UPDATE nodes SET mode = ?2, uid = ?3, gid = ?4, rdev = ?5, size = ?6, atime = ?7, atimensec = ?8, " \
    "mtime = ?9, mtimensec = ?10, ctime = ?11, ctimensec = ?12, up = ?13, subdirs = ?14 WHERE node = ?1") \
  X(SELECT_NAMED, "SELECT cookie, child FROM entries WHERE dir = ?1 AND name = ?2 ORDER BY cookie LIMIT 1") \
  X(INSERT_ENTRY, "INSERT INTO entries VALUES (?1, ?2, ?3, ?4)") \
  X(SELECT_HANDLE, "SELECT node, access FROM handles WHERE fh = ?1") \
  X(INSERT_HANDLE, "INSERT INTO handles VALUES (?1, ?2, ?3)") \
  X(DELETE_HANDLE, "DELETE FROM handles WHERE fh = ?1") \
  X(SELECT_BLOCK, "SELECT bytes FROM blocks WHERE node = ?1 AND block = ?2") \
  X(DELETE_BLOCK, "DELETE FROM blocks WHERE node = ?1 AND block = ?2") \
  X(INSERT_BLOCK, "INSERT INTO blocks VALUES (?1, ?2, ?3)") \
  X(UPDATE_BLOCK, "UPDATE blocks SET bytes = ?3 WHERE node = ?1 AND block = ?2")

#define NAME(name, text) name,
#define TEXT(name, text) text,
enum { STATEMENTS(NAME) STATEMENT_COUNT };
static const char *const texts[] = { STATEMENTS(TEXT) };

/* Those that differ in an everyday store. */
static const char *const everyday_texts[STATEMENT_COUNT] = {
  [SELECT_NODE] = "SELECT mode, uid, gid, rdev, size, atime, atimensec, mtime, mtimensec, ctime, ctimensec, up, subdirs, links, written, "
    "attributes FROM nodes WHERE node = ?1",
  [INSERT_NODE] = "INSERT INTO nodes VALUES (?1, ?2, ?3, ?4, ?5, ?6, ?7, ?8, ?9, ?10, ?11, ?12, ?13, ?14, ?15, ?16, ?17)",
  [UPDATE_NODE] = "UPDATE nodes SET mode = ?2, uid = ?3, gid = ?4, rdev = ?5, size = ?6, atime = ?7, atimensec = ?8, mtime = ?9, "
    "mtimensec = ?10, ctime = ?11, ctimensec = ?12, up = ?13, subdirs = ?14, links = ?15, written = ?16, attributes = ?17 WHERE node = ?1",
};

static sqlite3 *db;
static sqlite3_stmt *statements[STATEMENT_COUNT];
static long made, requests[OPCODES], made_for[OPCODES];
static bool changed, held, known, grouped;
static int64_t lot;

/* The numbers of the store, how many of them there are, and those that the last statement wrote. */
static int64_t numbers[NUMBERS], stored[NUMBERS];
static int number_count;

/* The settled ids, and the answers of the group, sent after its commit. */
static int64_t settled[GROUP];
static int settled_count;
static uint8_t answers[GROUP][ANSWER + BLOCK];
static bool are_kept[GROUP]; /* whether they have records */
static int answer_count;

static void fail(const char *what) {
  fprintf(stderr, "tables: %s: %s\n", what, db ? sqlite3_errmsg(db) : "");
  exit(1);
}

static void check(int ok, const char *what) {
  if (!ok) fail(what);
}

static void exec(const char *text) {
  check(sqlite3_exec(db, text, NULL, NULL, NULL) == SQLITE_OK, text);
}

/* Binds these numbers to the first parameters of a statement. */
static sqlite3_stmt *with(int which, int count, const int64_t *numbers) {
  sqlite3_stmt *s = statements[which];
  for (int i = 0; i < count; i++) check(sqlite3_bind_int64(s, i + 1, numbers[i]) == SQLITE_OK, "bind");
  made++;
  return s;
}

static void put_bytes(sqlite3_stmt *s, int at, const void *bytes, int len) {
  check(sqlite3_bind_blob(s, at, len ? bytes : "", len, SQLITE_STATIC) == SQLITE_OK, "bind");
}

static int has_row(sqlite3_stmt *s) {
  int stepped = sqlite3_step(s);
  check(stepped == SQLITE_ROW || stepped == SQLITE_DONE, sqlite3_sql(s));
  return stepped == SQLITE_ROW;
}

static void run(sqlite3_stmt *s) {
  check(!has_row(s), "a row was shown");
  sqlite3_reset(s);
}

static void run_with(int which, int count, const int64_t *numbers) {
  run(with(which, count, numbers));
}

static void select_meta(void) {
  sqlite3_stmt *s = with(SELECT_META, 0, NULL);
  for (number_count = 0; has_row(s) && number_count < NUMBERS; number_count++)
    numbers[number_count] = stored[number_count] = sqlite3_column_int64(s, 0);
  check(number_count == NEXT_LOT + 1 || number_count == NUMBERS, "meta isn't whole");
  sqlite3_reset(s);
}

static void look_at_meta(void) {
  if (!held) select_meta();
}

static void write_numbers(int from, int until) {
  for (int i = from; i < until && i < number_count; i++) {
    if (changed && numbers[i] == stored[i]) continue;
    run_with(UPDATE_META, 2, (int64_t[]){ i + 1, numbers[i] });
    stored[i] = numbers[i];
  }
}

static void write_counters(void) {
  write_numbers(NEXT_NODE, SETTINGS);
  write_numbers(USED, NUMBER);
}

static void counters_changed(void) {
  if (!grouped) write_counters();
}

static int columns(void) {
  return number_count < NUMBERS ? LINKS : COLUMNS;
}

static int select_node(int64_t node, int64_t *row) {
  sqlite3_stmt *s = with(SELECT_NODE, 1, &node);
  int found = has_row(s);
  row[NODE] = node;
  for (int i = 1; found && i < columns(); i++) row[i] = sqlite3_column_int64(s, i - 1);
  sqlite3_reset(s);
  return found;
}

static void put_node(const int64_t *row, bool is_new) {
  int64_t old[COLUMNS];
  check(known || select_node(row[NODE], old) != is_new, "the node");
  run_with(is_new ? INSERT_NODE : UPDATE_NODE, columns(), row);
}

/* The node of a name, or 0. */
static int64_t select_named(int64_t dir, const char *name) {
  sqlite3_stmt *s = with(SELECT_NAMED, 1, &dir);
  put_bytes(s, 2, name, (int)strlen(name));
  int64_t child = has_row(s) ? sqlite3_column_int64(s, 1) : 0;
  sqlite3_reset(s);
  return child;
}

static void select_handle(int64_t fh, int64_t node) {
  sqlite3_stmt *s = with(SELECT_HANDLE, 1, &fh);
  check(has_row(s) && sqlite3_column_int64(s, 0) == node, "the handle isn't open");
  sqlite3_reset(s);
}

static bool select_block(const int64_t *place, uint8_t *bytes) {
  sqlite3_stmt *s = with(SELECT_BLOCK, 2, place);
  bool found = has_row(s);
  memset(bytes, 0, BLOCK);
  if (found) memcpy(bytes, sqlite3_column_blob(s, 0), BLOCK);
  sqlite3_reset(s);
  return found;
}

static void put_block(const int64_t *place, const uint8_t *bytes) {
  uint8_t old[BLOCK];
  bool found = select_block(place, old);
  if (!known) run_with(DELETE_BLOCK, 2, place);
  sqlite3_stmt *s = with(known && found ? UPDATE_BLOCK : INSERT_BLOCK, 2, place);
  put_bytes(s, 3, bytes, BLOCK);
  run(s);
}

static uint64_t get(const uint8_t *bytes, int width) {
  uint64_t n = 0;
  for (int i = width; i > 0; i--) n = n << 8 | bytes[i - 1];
  return n;
}

static uint8_t *put(uint8_t *out, int width, uint64_t n) {
  for (int i = 0; i < width; i++, n >>= 8) *out++ = (uint8_t)n;
  return out;
}

/* The attributes of a node that is a file with a name. Returns their end. */
static uint8_t *put_attributes(uint8_t *at, const int64_t *row) {
  at = put(put(put(at, 8, row[NODE]), 8, row[SIZE]), 8, (row[SIZE] + 511) / 512);
  at = put(put(put(at, 8, row[ATIME]), 8, row[MTIME]), 8, row[CTIME]);
  at = put(put(put(at, 4, row[ATIMENSEC]), 4, row[MTIMENSEC]), 4, row[CTIMENSEC]);
  at = put(put(put(put(put(at, 4, row[MODE]), 4, 1), 4, row[UID]), 4, row[GID]), 4, row[RDEV]);
  return put(put(at, 4, BLOCK), 4, 0);
}

static int64_t validity(void) {
  return number_count < NUMBERS ? 1 : DAY;
}

/* The body of LOOKUP and MKNOD. */
static int entry_body(uint8_t *out, const int64_t *row) {
  uint8_t *at = put(put(put(put(put(out, 8, row[NODE]), 8, 0), 8, validity()), 8, validity()), 8, 0);
  return (int)(put_attributes(at, row) - out);
}

static int do_getattr(const int64_t *row, uint8_t *out) {
  return (int)(put_attributes(put(put(out, 8, validity()), 8, 0), row) - out);
}

static int do_init(const uint8_t *body, uint8_t *out) {
  bool is_plain = number_count < NUMBERS;
  uint64_t offered = get(body + 12, 4) | get(body + 16, 4) << 32;
  uint64_t wanted = 1ull << 0 | 1ull << 5 | 1ull << 30 | 1ull << 39 | (is_plain ? 0 : 1ull << 13 | 1ull << 14 | 1ull << 18 | 1ull << 23);
  int64_t minor = get(body + 4, 4);
  numbers[SETTINGS] = 1;
  numbers[MINOR] = minor < NEWEST ? minor : NEWEST;
  numbers[READAHEAD] = get(body + 8, 4);
  numbers[FLAGS] = offered & wanted;
  write_numbers(SETTINGS, NEXT_LOT);
  memset(out, 0, 64);
  put(put(put(put(out, 4, 7), 4, 40), 4, numbers[READAHEAD]), 4, numbers[FLAGS] & 0xffffffff);
  put(put(put(put(out + 16, 2, 12), 2, 9), 4, 131072), 4, 1);
  put(out + 32, 4, numbers[FLAGS] >> 32);
  return 64;
}

static int do_lookup(int64_t *row, const char *name, uint8_t *out) {
  int64_t child = select_named(row[NODE], name);
  check(child && select_node(child, row), "no such entry");
  return entry_body(out, row);
}

static int do_mknod(int64_t *dir, const uint8_t *header, const uint8_t *body, uint8_t *out) {
  const char *name = (const char *)body + 16;
  check(!select_named(dir[NODE], name), "the name is taken");
  look_at_meta();
  int64_t row[COLUMNS] = { [NODE] = numbers[NEXT_NODE], [MODE] = get(body, 4), [UID] = get(header + 24, 4),
    [GID] = get(header + 28, 4), [ATIME] = SECOND, [MTIME] = SECOND, [CTIME] = SECOND, [UP] = dir[NODE],
    [LINKS] = 1 };
  dir[MTIME] = dir[CTIME] = SECOND;
  dir[MTIMENSEC] = dir[CTIMENSEC] = 0;
  put_node(dir, false);
  put_node(row, true);
  sqlite3_stmt *s = with(INSERT_ENTRY, 2, (int64_t[]){ numbers[NEXT_COOKIE], dir[NODE] });
  put_bytes(s, 3, name, (int)strlen(name));
  check(sqlite3_bind_int64(s, 4, row[NODE]) == SQLITE_OK, "bind");
  run(s);
  numbers[NEXT_NODE]++, numbers[NEXT_COOKIE]++, numbers[NODES]++;
  counters_changed();
  return entry_body(out, row);
}

static int do_open(const int64_t *row, const uint8_t *body, uint8_t *out) {
  look_at_meta();
  run_with(INSERT_HANDLE, 3, (int64_t[]){ numbers[NEXT_FH], row[NODE], get(body, 4) & 3 });
  put(put(out, 8, numbers[NEXT_FH]), 8, number_count < NUMBERS ? 0 : KEEP_CACHE);
  numbers[NEXT_FH]++, numbers[HANDLES]++;
  counters_changed();
  return 16;
}

/* A whole block at its place, at or before the end of the file. The counters of an everyday store are written with it. */
static int do_write(int64_t *row, const uint8_t *body, uint8_t *out) {
  bool is_plain = number_count < NUMBERS;
  int64_t offset = get(body + 8, 8), size = get(body + 16, 4), before = row[SIZE], again[COLUMNS];
  check(size == BLOCK && offset % BLOCK == 0 && offset <= before, "not a block");
  select_handle(get(body, 8), row[NODE]);
  if (!is_plain) look_at_meta();
  check(known || select_node(row[NODE], again), "no node");
  if (before < offset + size) row[SIZE] = offset + size;
  row[MTIME] = row[CTIME] = SECOND;
  row[MTIMENSEC] = row[CTIMENSEC] = 0;
  row[WRITTEN] = (row[SIZE] + BLOCK - 1) / BLOCK;
  put_node(row, false);
  put_block((int64_t[]){ row[NODE], offset / BLOCK }, body + 40);
  if (!is_plain) {
    numbers[USED] += (row[SIZE] + BLOCK - 1) / BLOCK - (before + BLOCK - 1) / BLOCK;
    counters_changed();
  }
  put(put(out, 4, size), 4, 0);
  return 8;
}

static int do_read(int64_t *row, const uint8_t *body, uint8_t *out) {
  int64_t offset = get(body + 8, 8), size = get(body + 16, 4);
  select_handle(get(body, 8), row[NODE]);
  check((known || select_node(row[NODE], row)) && size == BLOCK && offset % BLOCK == 0 && offset + size <= row[SIZE], "not a block");
  select_block((int64_t[]){ row[NODE], offset / BLOCK }, out);
  return BLOCK;
}

static int do_release(const int64_t *row, const uint8_t *body) {
  int64_t fh = get(body, 8);
  select_handle(fh, row[NODE]);
  look_at_meta();
  run_with(DELETE_HANDLE, 1, &fh);
  numbers[HANDLES]--;
  counters_changed();
  return 0;
}

/* Executes a request, and writes its answer's body to `out`. */
static int act(int opcode, const uint8_t *message, uint8_t *out) {
  int64_t row[COLUMNS];
  const uint8_t *body = message + HEADER;
  look_at_meta();
  if (opcode == INIT) return do_init(body, out);
  check(numbers[SETTINGS] && select_node((int64_t)get(message + 16, 8), row), "no INIT, or no such node");
  switch (opcode) {
    case LOOKUP: return do_lookup(row, (const char *)body, out);
    case GETATTR: return do_getattr(row, out);
    case MKNOD: return do_mknod(row, message, body, out);
    case OPEN: return do_open(row, body, out);
    case WRITE: return do_write(row, body, out);
    case READ: return do_read(row, body, out);
    case RELEASE: return do_release(row, body);
    default: fail("another opcode"); return 0;
  }
}

static int opcode_of(const uint8_t *message) {
  return (int)get(message + 4, 4);
}

/* Whether a request leaves no record, since it changes nothing. */
static bool is_seen(const uint8_t *message) {
  int opcode = opcode_of(message);
  return number_count == NUMBERS && (opcode == LOOKUP || opcode == GETATTR || opcode == READ);
}

static void look_for_record(int64_t id) {
  sqlite3_stmt *s = with(SELECT_KEPT, 1, &id);
  check(!has_row(s), "a repeat");
  sqlite3_reset(s);
}

static void put_record(int64_t id, const uint8_t *body, int len) {
  sqlite3_stmt *s = with(INSERT_KEPT, 3, (int64_t[]){ id, lot, 0 });
  put_bytes(s, 4, body, len);
  run(s);
}

static void take(const uint8_t *message) {
  uint8_t *answer = answers[answer_count];
  int opcode = opcode_of(message);
  int64_t id = get(message + 8, 8) & INT64_MAX;
  long before = made;
  are_kept[answer_count++] = !is_seen(message);
  if (!is_seen(message)) look_for_record(id);
  int len = act(opcode, message, answer + ANSWER);
  put(put(put(answer, 4, ANSWER + len), 4, 0), 8, id);
  if (!is_seen(message)) put_record(id, answer + ANSWER, len);
  requests[opcode]++;
  made_for[opcode] += made - before;
}

/* Deletes the records of the group before, whose answers were sent. */
static void settle(void) {
  if (grouped && settled_count > 1) {
    for (int i = settled_count; i < GROUP; i++) settled[i] = settled[0];
    run_with(DELETE_GROUP, GROUP, settled);
  } else {
    for (int i = 0; i < settled_count; i++) run_with(DELETE_KEPT, 1, &settled[i]);
  }
  settled_count = 0;
}

static void take_lot(void) {
  if (lot) return;
  look_at_meta();
  lot = numbers[NEXT_LOT]++;
  run_with(INSERT_LOT, 1, &lot);
  write_numbers(NEXT_LOT, NEXT_LOT + 1);
}

/* Sends the answers of a group, each by a write of its own, as to a device. */
static void send_answers(void) {
  for (int i = 0; i < answer_count; i++) {
    size_t len = get(answers[i], 4);
    check(write(1, answers[i], len) == (ssize_t)len, "write");
    if (are_kept[i]) settled[settled_count++] = (int64_t)get(answers[i] + 8, 8);
  }
  answer_count = 0;
}

static void begin(void) {
  run_with(BEGIN, 0, NULL);
  settle();
  take_lot();
}

static void commit(void) {
  if (grouped) write_counters();
  run_with(COMMIT, 0, NULL);
}

/* Where the group of the whole messages of these bytes ends. Says whether one of them leaves a record. */
static size_t end_of_group(const uint8_t *bytes, size_t len, bool *is_kept) {
  size_t at = 0;
  for (int i = 0; i < GROUP && at < len; i++) {
    check(len - at >= HEADER && len - at >= get(bytes + at, 4), "a message is cut");
    *is_kept = *is_kept || !is_seen(bytes + at);
    at += get(bytes + at, 4);
  }
  return at;
}

/* Serves a group, and returns where it ends. */
static size_t take_group(const uint8_t *bytes, size_t len) {
  bool is_kept = false;
  size_t end = end_of_group(bytes, len, &is_kept);
  if (is_kept) begin();
  for (size_t at = 0; at < end; at += get(bytes + at, 4)) take(bytes + at);
  if (is_kept) commit();
  send_answers();
  return end;
}

static void choose(const char *word) {
  if (!strcmp(word, "changed")) changed = true;
  else if (!strcmp(word, "held")) held = true;
  else if (!strcmp(word, "known")) known = true;
  else if (!strcmp(word, "grouped")) grouped = true;
  else fail("usage: tables STORE [changed] [held] [known] [grouped]");
}

static void prepare(int which) {
  const char *other = number_count == NUMBERS ? everyday_texts[which] : NULL, *text = other ? other : texts[which];
  check(sqlite3_prepare_v3(db, text, -1, SQLITE_PREPARE_PERSISTENT, &statements[which], NULL) == SQLITE_OK, text);
}

static void open_store(const char *path) {
  check(sqlite3_open(path, &db) == SQLITE_OK, "open");
  exec("PRAGMA locking_mode = EXCLUSIVE");
  exec("PRAGMA journal_mode = WAL");
  exec("PRAGMA synchronous = FULL");
  exec("PRAGMA foreign_keys = ON");
  prepare(SELECT_META);
  select_meta();
  for (int i = 0; i < STATEMENT_COUNT; i++)
    if (i != SELECT_META) prepare(i);
}

int main(int argc, char **argv) {
  static uint8_t bytes[PIECE];
  ssize_t got;
  for (int i = 2; i < argc; i++) choose(argv[i]);
  check(argc >= 2 && (held || !grouped), "usage");
  open_store(argv[1]);
  while ((got = read(0, bytes, PIECE)) > 0)
    for (size_t at = 0; at < (size_t)got;) at += take_group(bytes + at, got - at);
  check(got == 0, "read");
  for (int i = 0; i < STATEMENT_COUNT; i++) sqlite3_finalize(statements[i]);
  check(sqlite3_close(db) == SQLITE_OK, "close");
  for (int i = 0; i < OPCODES; i++)
    if (requests[i]) fprintf(stderr, "%d %ld %.2f\n", i, requests[i], (double)made_for[i] / requests[i]);
  return 0;
}
