/* A peer of the desk in measurements, in C: takes lines of commands as the desk does, over a copy of its file, and makes the
 * same lookups and writes by SQLite, with statements that are prepared once. Each command is committed durably before it
 * is answered: with `journal` as SQLite does it where it isn't told otherwise (a rollback journal, synchronous=FULL), with
 * `wal` over a log written ahead, with `twice` likewise, and each commit syncs a second time, what it wrote to a file
 * beside, as the desk's commits sync twice. With `memory` the file is copied into a store in memory, and nothing is written
 * elsewhere. It knows no rules but that a stock is enough, and reads no more of a line than the members it wants. A command with a
 * reference is looked up among the receipts, and one is kept of it.
 * commands.py builds it and runs it.
 *
 *     gcc -O2 -o peer bench/commands/peer.c -lsqlite3
 *     peer FILE journal|wal|twice|memory
 */
#include <fcntl.h>
#include <sqlite3.h>
#include <stdio.h>
#include <stdlib.h>
#include <string.h>
#include <unistd.h>

enum { RECEIVE = 1, CONSUME = 2, PRODUCE = 3, SCRAP = 4, SPLIT = 6 };

static sqlite3 *db;

/* The file of the second syncs, below 0 where there are none. */
static int second = -1;

static void fail(const char *what) {
    fprintf(stderr, "%s: %s\n", what, sqlite3_errmsg(db));
    exit(1);
}

/* A statement, which is prepared at its first use. */
struct Text { const char *sql; sqlite3_stmt *made; };

static sqlite3_stmt *ready(struct Text *text) {
    if (!text->made && sqlite3_prepare_v2(db, text->sql, -1, &text->made, NULL) != SQLITE_OK) fail(text->sql);
    sqlite3_reset(text->made);
    return text->made;
}

static void put_text(sqlite3_stmt *it, int at, const char *value) {
    if (value) sqlite3_bind_text(it, at, value, -1, SQLITE_STATIC); else sqlite3_bind_null(it, at);
}

/* Runs a statement to its end, and returns the number in the first column of its last row, or -1 where it had none. */
static sqlite3_int64 run(sqlite3_stmt *it) {
    sqlite3_int64 found = -1;
    int code;
    while ((code = sqlite3_step(it)) == SQLITE_ROW)
        for (int at = 0; at < sqlite3_column_count(it); at++)
            if (at == 0) found = sqlite3_column_int64(it, 0); else sqlite3_column_text(it, at);
    if (code != SQLITE_DONE) fail(sqlite3_sql(it));
    return found;
}

static sqlite3_int64 run_with(struct Text *text, const char *key) {
    sqlite3_stmt *it = ready(text);
    put_text(it, 1, key);
    return run(it);
}

#define TEXT(name, sql) static struct Text name = { sql, NULL }
TEXT(meta, "SELECT seq, at FROM meta WHERE k = 1");
TEXT(meta_set, "UPDATE meta SET seq = ?, at = ? WHERE k = 1");
TEXT(begin, "BEGIN IMMEDIATE");
TEXT(commit, "COMMIT");
TEXT(definition_at, "SELECT id FROM definition WHERE id = ?");
TEXT(batch_at, "SELECT * FROM batch WHERE id = ?");
TEXT(control_at, "SELECT * FROM control_line WHERE batch = ?");
TEXT(lot_at, "SELECT 1, def FROM lot WHERE id = ?");
TEXT(lot_add, "INSERT INTO lot VALUES (?, ?)");
TEXT(sublot_at, "SELECT stock FROM sublot WHERE lot = ? AND no = ?");
TEXT(sublot_add, "INSERT INTO sublot VALUES (?, 0, ?, ?)");
TEXT(sublot_set, "UPDATE sublot SET stock = ? WHERE lot = ? AND no = ?");
TEXT(hold_at, "SELECT id FROM hold WHERE lot = ?");
TEXT(edge_at, "SELECT a FROM edge WHERE kind = ? AND b = ?");
TEXT(edge_add, "INSERT INTO edge VALUES (?, ?, ?) ON CONFLICT DO NOTHING");
TEXT(receipt_at, "SELECT seq, content FROM receipt WHERE id = ?");
TEXT(receipt_add, "INSERT INTO receipt VALUES (?, ?, ?)");
TEXT(movement_add, "INSERT INTO movement VALUES (?, 1, ?, ?, 0, ?, ?, ?, ?, ?, ?, '')");

/* The member of this name in the line, without its quotes: it is cut off there. Null where there is none. */
static char *member(const char *line, const char *name, char *room) {
    char wanted[32];
    snprintf(wanted, sizeof wanted, "\"%s\":", name);
    const char *at = strstr(line, wanted);
    if (!at) return NULL;
    at += strlen(wanted);
    int is_text = *at == '"';
    size_t size = strcspn(at + is_text, is_text ? "\"" : ",}");
    memcpy(room, at + is_text, size);
    room[size] = 0;
    return room;
}

static void make_lot(const char *lot, const char *definition, const char *place, sqlite3_int64 amount) {
    if (run_with(&lot_at, lot) >= 0) fail("a lot is there");
    sqlite3_stmt *it = ready(&lot_add);
    put_text(it, 1, lot);
    put_text(it, 2, definition);
    run(it);
    it = ready(&sublot_add);
    put_text(it, 1, lot);
    put_text(it, 2, place);
    sqlite3_bind_int64(it, 3, amount);
    run(it);
}

static void take(int kind, const char *lot, sqlite3_int64 sub, sqlite3_int64 amount, const char *batch, char *definition) {
    sqlite3_stmt *it = ready(&lot_at);
    put_text(it, 1, lot);
    if (sqlite3_step(it) != SQLITE_ROW) fail("no lot");
    strcpy(definition, (const char *)sqlite3_column_text(it, 1));
    sqlite3_reset(it);
    it = ready(&sublot_at);
    put_text(it, 1, lot);
    sqlite3_bind_int64(it, 2, sub);
    sqlite3_int64 stock = run(it);
    if (stock < amount) fail("too little");
    if (kind != SCRAP) run_with(&hold_at, lot);
    if (kind == CONSUME) {
        run_with(&batch_at, batch);
        run_with(&control_at, batch);
        for (int made = 2; made <= 3; made++) {
            it = ready(&edge_at);
            sqlite3_bind_int(it, 1, made);
            put_text(it, 2, lot);
            run(it);
        }
    }
    it = ready(&sublot_set);
    sqlite3_bind_int64(it, 1, stock - amount);
    put_text(it, 2, lot);
    sqlite3_bind_int64(it, 3, sub);
    run(it);
}

static void add_edge(int kind, const char *from, const char *to) {
    sqlite3_stmt *it = ready(&edge_add);
    sqlite3_bind_int(it, 1, kind);
    put_text(it, 2, from);
    put_text(it, 3, to);
    run(it);
}

static sqlite3_int64 book(const char *line) {
    char do_[64], lot_[64], batch_[64], new_[64], def_[64], place_[256], by_[256], ref_[64], number[64], found[64];
    char *word = member(line, "do", do_), *lot = member(line, "lot", lot_), *batch = member(line, "batch", batch_);
    char *new = member(line, "new", new_), *definition = member(line, "def", def_), *place = member(line, "place", place_);
    char *by = member(line, "by", by_), *reference = member(line, "ref", ref_);
    sqlite3_int64 amount = atoll(member(line, "amount", number)), at = atoll(member(line, "at", number));
    int kind = strcmp(word, "receive") == 0 ? RECEIVE : strcmp(word, "consume") == 0 ? CONSUME
        : strcmp(word, "produce") == 0 ? PRODUCE : strcmp(word, "scrap") == 0 ? SCRAP : SPLIT;
    sqlite3_int64 known = reference ? run_with(&receipt_at, reference) : -1;
    if (known >= 0) return known;
    sqlite3_int64 seq = run(ready(&meta)) + 1;
    run(ready(&begin));
    if (kind == RECEIVE || kind == PRODUCE) {
        run_with(&definition_at, definition);
        if (kind == PRODUCE) {
            run_with(&batch_at, batch);
            run_with(&control_at, batch);
        }
        make_lot(lot, definition, place, amount);
    } else {
        take(kind, lot, atoll(member(line, "sub", number)), amount, batch, found);
        if (kind == SPLIT) make_lot(new, found, place, amount);
    }
    sqlite3_stmt *it = ready(&movement_add);
    sqlite3_bind_int64(it, 1, seq);
    sqlite3_bind_int(it, 2, kind);
    put_text(it, 3, lot);
    put_text(it, 4, new);
    if (new) sqlite3_bind_int(it, 5, 0); else sqlite3_bind_null(it, 5);
    put_text(it, 6, batch);
    sqlite3_bind_int64(it, 7, amount);
    sqlite3_bind_int64(it, 8, at);
    put_text(it, 9, by);
    run(it);
    if (kind == CONSUME) add_edge(1, lot, batch);
    if (kind == PRODUCE) add_edge(2, batch, lot);
    if (kind == SPLIT) add_edge(3, lot, new);
    if (reference) {
        it = ready(&receipt_add);
        put_text(it, 1, reference);
        sqlite3_bind_int64(it, 2, seq);
        put_text(it, 3, line);
        run(it);
    }
    it = ready(&meta_set);
    sqlite3_bind_int64(it, 1, seq);
    sqlite3_bind_int64(it, 2, at);
    run(it);
    run(ready(&commit));
    if (second >= 0 && (pwrite(second, &seq, sizeof seq, 0) != sizeof seq || fdatasync(second) != 0)) fail("second sync");
    return seq;
}

/* Has the file copied into a store in memory, which takes its place. */
static void copy_into_memory(void) {
    sqlite3 *file = db;
    if (sqlite3_open(":memory:", &db) != SQLITE_OK) fail("memory");
    sqlite3_backup *copy = sqlite3_backup_init(db, "main", file, "main");
    if (!copy || sqlite3_backup_step(copy, -1) != SQLITE_DONE || sqlite3_backup_finish(copy) != SQLITE_OK) fail("copy");
    sqlite3_close(file);
}

static void set(const char *pragmas) {
    if (sqlite3_exec(db, pragmas, NULL, NULL, NULL) != SQLITE_OK) fail(pragmas);
}

/* Has the file kept in this way. */
static void begin_as(const char *way, const char *path) {
    if (strcmp(way, "memory") == 0) {
        copy_into_memory();
        return;
    }
    set(strcmp(way, "journal") == 0 ? "PRAGMA journal_mode=DELETE" : "PRAGMA journal_mode=WAL");
    set("PRAGMA synchronous=FULL");
    if (strcmp(way, "twice") == 0) {
        char beside[4096];
        snprintf(beside, sizeof beside, "%s-second", path);
        second = open(beside, O_CREAT | O_WRONLY, 0600);
    }
}

int main(int count, char **words) {
    static char line[1 << 18];
    if (count != 3 || sqlite3_open(words[1], &db) != SQLITE_OK) return 2;
    begin_as(words[2], words[1]);
    while (fgets(line, sizeof line, stdin)) {
        printf("{\"ok\":%lld}\n", book(line));
        fflush(stdout);
    }
    return 0;
}
