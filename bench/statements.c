/* The statements of an office over SQLite's C library, for bench/keep_records to compare with: `statements FILE`
 * answers the lines add-arch, add-builder, enter, next, built, uploaded and merge by the SQL texts of wb_sql, each
 * command in one transaction, and a line `check` by the integrity_check and foreign_key_check of SQLite. The pragmas
 * are what `wb` asks of the kit's `sqlite`: a log that is synced at each commit, foreign keys, pages of 4,096 bytes,
 * 2,000 of them cached, and nobody else at the file. The log is copied at 1,000 pages, SQLite's own number: with the
 * 8,000 of `wb` it is slower here.
 * It knows only what the measured lines need: versions that strcmp orders, relations that need no reduction, names that
 * were checked. */
#include <sqlite3.h>
#include <stdio.h>
#include <stdlib.h>
#include <string.h>

enum { NEEDS_BUILD = 0, BUILDING = 1, BUILT = 2, UPLOADED = 3, INSTALLED = 4 };

#define COLUMNS                                                                                                        \
    "arch, source, state, version, priority, section, earlier, number, holder, take, waits, depends, note, message, "  \
    "build_priority, rank"

#define SETS                                                                                                           \
    "SET state = ?3, version = ?4, priority = ?5, section = ?6, earlier = ?7, number = ?8, holder = ?9, take = ?10, "  \
    "waits = ?11,"                                                                                                     \
    " depends = ?12, note = ?13, message = ?14, build_priority = ?15, rank = ?16"

static const char *const PRAGMAS = "PRAGMA page_size=4096; PRAGMA journal_mode=WAL; PRAGMA synchronous=FULL; PRAGMA "
                                   "wal_autocheckpoint=1000; PRAGMA foreign_keys=ON;"
                                   "PRAGMA cache_size=2000; PRAGMA locking_mode=EXCLUSIVE;";

static const char *const SCHEMA =
    "BEGIN;"
    "CREATE TABLE office(id INTEGER PRIMARY KEY CHECK(id = 1), format INTEGER NOT NULL, handed INTEGER NOT NULL, "
    "accepted INTEGER NOT NULL) STRICT;"
    "CREATE TABLE arch(name TEXT NOT NULL PRIMARY KEY, os TEXT NOT NULL, cpu TEXT NOT NULL) STRICT;"
    "CREATE TABLE builder(name TEXT NOT NULL, arch TEXT NOT NULL REFERENCES arch(name), PRIMARY KEY(name, arch)) "
    "STRICT;"
    "CREATE TABLE source_record(arch TEXT NOT NULL REFERENCES arch(name), source TEXT NOT NULL, state INTEGER NOT "
    "NULL, version TEXT NOT NULL,"
    " priority TEXT NOT NULL, section TEXT NOT NULL, earlier INTEGER NOT NULL, number INTEGER NOT NULL, holder TEXT, "
    "take INTEGER,"
    " waits TEXT NOT NULL, depends TEXT, note TEXT NOT NULL, message TEXT NOT NULL, build_priority INTEGER NOT NULL, "
    "rank INTEGER NOT NULL,"
    " PRIMARY KEY(arch, source)) STRICT;"
    "CREATE INDEX record_order ON source_record(arch, state, rank, source);"
    "CREATE INDEX record_take ON source_record(take);"
    "INSERT INTO office VALUES (1, 2, 0, 0);"
    "COMMIT;";

enum statement {
    BEGIN, COMMIT, COUNTS, SET_COUNTS, ARCHS, ADD_ARCH, PAIR, PAIRS, ALL_PAIRS, ADD_BUILDER, RECORD, HEAD, BY_TAKE,
    OF_ARCH, ALL, PUT, REPLACE, KINDS
};

static const char *const TEXTS[KINDS] = {
    [BEGIN] = "BEGIN",
    [COMMIT] = "COMMIT",
    [COUNTS] = "SELECT format, handed, accepted FROM office",
    [SET_COUNTS] = "UPDATE office SET handed = ?1, accepted = ?2",
    [ARCHS] = "SELECT name, os, cpu FROM arch ORDER BY name",
    [ADD_ARCH] = "INSERT INTO arch(name, os, cpu) VALUES (?1, ?2, ?3)",
    [PAIR] = "SELECT name, arch FROM builder WHERE name = ?1 AND arch = ?2",
    [PAIRS] = "SELECT name, arch FROM builder WHERE name = ?1 ORDER BY arch",
    [ALL_PAIRS] = "SELECT name, arch FROM builder ORDER BY name, arch",
    [ADD_BUILDER] = "INSERT INTO builder(name, arch) VALUES (?1, ?2)",
    [RECORD] = "SELECT " COLUMNS " FROM source_record WHERE arch = ?1 AND source = ?2",
    [HEAD] = "SELECT " COLUMNS " FROM source_record WHERE arch = ?1 AND state = ?2 ORDER BY rank, source LIMIT 1",
    [BY_TAKE] = "SELECT " COLUMNS " FROM source_record WHERE take = ?1",
    [OF_ARCH] = "SELECT " COLUMNS " FROM source_record WHERE arch = ?1 ORDER BY source",
    [ALL] = "SELECT " COLUMNS " FROM source_record ORDER BY arch, source",
    [PUT] = "INSERT INTO source_record(" COLUMNS
            ") VALUES (?1, ?2, ?3, ?4, ?5, ?6, ?7, ?8, ?9, ?10, ?11, ?12, ?13, ?14, ?15, ?16)"
            " ON CONFLICT(arch, source) DO UPDATE " SETS,
    [REPLACE] = "UPDATE source_record " SETS " WHERE arch = ?1 AND source = ?2",
};

static sqlite3 *db;
static sqlite3_stmt *prepared[KINDS];
static sqlite3_int64 handed, accepted;

struct record {
    char *arch, *source, *version, *priority, *section, *holder, *waits, *depends, *note, *message;
    sqlite3_int64 state, earlier, number, take, build_priority; /* no take number is 0 */
};

static void fail(const char *what) {
    fprintf(stderr, "statements: %s: %s\n", what, db ? sqlite3_errmsg(db) : "");
    exit(1);
}

static char *copy(const char *text) {
    char *made = text ? strdup(text) : NULL;
    if (text && !made) fail("memory");
    return made;
}

static int same(const char *one, const char *other) {
    return one == other || (one && other && strcmp(one, other) == 0);
}

static void run(const char *texts) {
    if (sqlite3_exec(db, texts, NULL, NULL, NULL) != SQLITE_OK) fail(texts);
}

/* The statement, prepared once, at its start. */
static sqlite3_stmt *ready(enum statement which) {
    if (!prepared[which] &&
        sqlite3_prepare_v3(db, TEXTS[which], -1, SQLITE_PREPARE_PERSISTENT, &prepared[which], NULL) != SQLITE_OK)
        fail(TEXTS[which]);
    sqlite3_reset(prepared[which]);
    return prepared[which];
}

static void text(sqlite3_stmt *at, int place, const char *value) {
    sqlite3_bind_text(at, place, value, -1, SQLITE_STATIC);
}

static int has_row(sqlite3_stmt *at) {
    int status = sqlite3_step(at);
    if (status != SQLITE_ROW && status != SQLITE_DONE) fail("step");
    return status == SQLITE_ROW;
}

static void write_by(sqlite3_stmt *at) {
    if (has_row(at)) fail("a write answered a row");
    sqlite3_reset(at);
}

static int rows_of(sqlite3_stmt *at) {
    int count = 0;
    while (has_row(at)) count++;
    sqlite3_reset(at);
    return count;
}

static void read_counts(void) {
    sqlite3_stmt *at = ready(COUNTS);
    if (!has_row(at)) fail("no row of the office");
    handed = sqlite3_column_int64(at, 1);
    accepted = sqlite3_column_int64(at, 2);
    sqlite3_reset(at);
}

static char *column(sqlite3_stmt *at, int place) { return copy((const char *)sqlite3_column_text(at, place)); }

/* The record of the next row, if there is one. */
static int next_record(sqlite3_stmt *at, struct record *made) {
    if (!has_row(at)) {
        sqlite3_reset(at);
        return 0;
    }
    *made = (struct record){
        .arch = column(at, 0),
        .source = column(at, 1),
        .state = sqlite3_column_int64(at, 2),
        .version = column(at, 3),
        .priority = column(at, 4),
        .section = column(at, 5),
        .earlier = sqlite3_column_int64(at, 6),
        .number = sqlite3_column_int64(at, 7),
        .holder = column(at, 8),
        .take = sqlite3_column_int64(at, 9),
        .waits = column(at, 10),
        .depends = column(at, 11),
        .note = column(at, 12),
        .message = column(at, 13),
        .build_priority = sqlite3_column_int64(at, 14),
    };
    return 1;
}

static void drop(struct record *old) {
    char *texts[] = {old->arch, old->source, old->version, old->priority, old->section, old->holder, old->waits,
        old->depends, old->note, old->message};
    for (size_t k = 0; k < sizeof texts / sizeof *texts; k++) free(texts[k]);
}

static sqlite3_int64 place_of(const char *word, const char *const *words, sqlite3_int64 count) {
    sqlite3_int64 at = 0;
    while (at < count && strcmp(word, words[at]) != 0) at++;
    return at;
}

static sqlite3_int64 rank_of(const struct record *of) {
    static const char *const priorities[] = {"required", "important", "standard", "optional", "extra"};
    static const char *const sections[] = {
        "libs", "base", "devel", "kernel", "shells", "perl", "python", "admin", "utils", "text", "net"};
    sqlite3_int64 priority = place_of(of->priority, priorities, 5), section = place_of(of->section, sections, 11);
    return (1000 - of->build_priority) * 348 + (!of->earlier * 6 + priority) * 29 + section;
}

/* Writes the record by this statement, PUT or REPLACE. */
static void put(enum statement by, const struct record *new) {
    sqlite3_stmt *at = ready(by);
    const char *first[] = {new->arch, new->source}, *middle[] = {new->version, new->priority, new->section};
    for (int k = 0; k < 2; k++) text(at, k + 1, first[k]);
    sqlite3_bind_int64(at, 3, new->state);
    for (int k = 0; k < 3; k++) text(at, k + 4, middle[k]);
    sqlite3_bind_int64(at, 7, new->earlier);
    sqlite3_bind_int64(at, 8, new->number);
    text(at, 9, new->holder);
    if (new->take) sqlite3_bind_int64(at, 10, new->take);
    else sqlite3_bind_null(at, 10);
    text(at, 11, new->waits);
    text(at, 12, new->depends);
    text(at, 13, new->note);
    text(at, 14, new->message);
    sqlite3_bind_int64(at, 15, new->build_priority);
    sqlite3_bind_int64(at, 16, rank_of(new));
    write_by(at);
}

static void begin(void) { write_by(ready(BEGIN)); }

/* Ends the transaction of an accepted command. */
static void commit(void) {
    sqlite3_stmt *at = ready(SET_COUNTS);
    accepted++;
    sqlite3_bind_int64(at, 1, handed);
    sqlite3_bind_int64(at, 2, accepted);
    write_by(at);
    write_by(ready(COMMIT));
}

/* The one record that the statement finds, if there is one. */
static int found(sqlite3_stmt *at, struct record *made) {
    int is_there = next_record(at, made);
    sqlite3_reset(at);
    return is_there;
}

static int add_arch(char **words) {
    begin();
    sqlite3_stmt *at = ready(ADD_ARCH);
    for (int k = 1; k <= 3; k++) text(at, k, words[k]);
    write_by(at);
    commit();
    return 1;
}

static int add_builder(char **words) {
    sqlite3_stmt *at = ready(PAIR);
    for (int k = 1; k <= 2; k++) text(at, k, words[k]);
    if (rows_of(at)) return 0;
    begin();
    at = ready(ADD_BUILDER);
    for (int k = 1; k <= 2; k++) text(at, k, words[k]);
    write_by(at);
    commit();
    return 1;
}

static int enter(char **words) {
    struct record old;
    sqlite3_stmt *at = ready(RECORD);
    for (int k = 1; k <= 2; k++) text(at, k, words[k]);
    if (found(at, &old)) {
        drop(&old);
        return 0;
    }
    begin();
    put(PUT,
        &(struct record){.arch = words[1],
            .source = words[2],
            .version = words[3],
            .priority = words[4],
            .section = words[5],
            .waits = "",
            .note = "",
            .message = ""});
    commit();
    return 1;
}

static int next(char **words) {
    struct record head;
    sqlite3_stmt *at = ready(HEAD), *pairs = ready(PAIRS);
    text(at, 1, words[1]);
    sqlite3_bind_int64(at, 2, NEEDS_BUILD);
    int is_there = found(at, &head);
    text(pairs, 1, words[2]);
    if (!rows_of(pairs) || !is_there) return 0;
    begin();
    free(head.holder);
    head.state = BUILDING, head.holder = copy(words[2]), head.take = ++handed;
    put(REPLACE, &head);
    commit();
    printf("%s %s %lld ", head.source, head.version, (long long)head.take);
    drop(&head);
    return 1;
}

static int report(char **words, int state) {
    struct record held;
    sqlite3_stmt *at = ready(BY_TAKE);
    sqlite3_bind_int64(at, 1, atoll(words[1]));
    if (!found(at, &held)) return 0;
    begin();
    held.state = state;
    put(REPLACE, &held);
    commit();
    drop(&held);
    return 1;
}

/* ---- merges */

struct listed { char *source, *version, *priority, *section, *depends, *built; };
struct records { struct record *at; size_t count; };

static int by_source(const void *one, const void *other) {
    return strcmp(((const struct listed *)one)->source, ((const struct listed *)other)->source);
}

/* Where a line is this field, its value. */
static char *value_of(char *line, const char *field) {
    size_t size = strlen(field);
    if (strncmp(line, field, size) != 0 || line[size] != ':') return NULL;
    line[strcspn(line, "\n")] = 0;
    return line + size + 1 + strspn(line + size + 1, " ");
}

static void take_field(char **field, char *line, const char *name) {
    char *value = value_of(line, name);
    if (value) *field = copy(value);
}

static struct listed *read_sources(const char *name, size_t *count) {
    FILE *list = fopen(name, "r");
    char *line = NULL, *source;
    size_t size = 0, room = 0;
    struct listed *made = NULL;
    if (!list) fail(name);
    *count = 0;
    while (getline(&line, &size, list) > 0) {
        if ((source = value_of(line, "Package"))) {
            if (*count == room && !(made = realloc(made, (room = 2 * room + 64) * sizeof *made))) fail("memory");
            made[(*count)++] = (struct listed){.source = copy(source)};
        } else if (*count) {
            struct listed *last = &made[*count - 1];
            take_field(&last->version, line, "Version");
            take_field(&last->priority, line, "Priority");
            take_field(&last->section, line, "Section");
            take_field(&last->depends, line, "Build-Depends");
        }
    }
    free(line);
    fclose(list);
    qsort(made, *count, sizeof *made, by_source);
    return made;
}

/* Notes at each source package the version in which the list has its packages. */
static void read_packages(const char *name, struct listed *listed, size_t count) {
    FILE *list = fopen(name, "r");
    char *line = NULL, *source = NULL, *version = NULL;
    size_t size = 0;
    if (!list) fail(name);
    while (getline(&line, &size, list) > 0) {
        take_field(&source, line, "Package");
        take_field(&source, line, "Source");
        take_field(&version, line, "Version");
        if (*line == '\n' && source && version) {
            struct listed *of = bsearch(&(struct listed){.source = source}, listed, count, sizeof *listed, by_source);
            if (of) free(of->built), of->built = version, version = NULL;
            free(source), source = NULL;
        }
    }
    free(line);
    fclose(list);
}

static struct records records_of(const char *arch) {
    struct records made = {NULL, 0};
    struct record one;
    size_t room = 0;
    sqlite3_stmt *at = ready(OF_ARCH);
    text(at, 1, arch);
    while (next_record(at, &one)) {
        if (made.count == room && !(made.at = realloc(made.at, (room = 2 * room + 64) * sizeof one))) fail("memory");
        made.at[made.count++] = one;
    }
    return made;
}

static void drop_all(struct records old) {
    for (size_t k = 0; k < old.count; k++) drop(&old.at[k]);
    free(old.at);
}

/* Puts the record as the lists have it, if that is another. */
static void merge_one(const struct record *old, const struct listed *by) {
    struct record new = *old;
    if (strcmp(by->version, old->version) < 0) return;
    int is_built = by->built && strcmp(by->built, by->version) >= 0;
    if (strcmp(by->version, old->version) > 0 || is_built) {
        new.version = by->version, new.state = is_built ? INSTALLED : NEEDS_BUILD, new.holder = NULL, new.take = 0;
        new.waits = new.note = new.message = "", new.number = 0;
        new.earlier = old->earlier || is_built;
    } else if (old->state == INSTALLED) {
        new.state = NEEDS_BUILD;
    }
    new.priority = by->priority, new.section = by->section, new.depends = by->depends;
    if (new.state == old->state && same(new.version, old->version) &&
        new.earlier == old->earlier &&new.take == old->take &&same(new.priority, old->priority) &&
        same(new.section, old->section) && same(new.depends, old->depends))
        return;
    put(PUT, &new);
}

/* Carries out a part, whose records are read twice, as the office reads them. */
static void merge_part(const char *arch, const char *packages, struct listed *listed, size_t count) {
    struct records old = records_of(arch), again = records_of(arch);
    for (size_t k = 0; k < count; k++) free(listed[k].built), listed[k].built = NULL;
    read_packages(packages, listed, count);
    for (size_t k = 0; k < old.count; k++) {
        struct listed *by =
            bsearch(&(struct listed){.source = old.at[k].source}, listed, count, sizeof *listed, by_source);
        if (by) merge_one(&old.at[k], by);
    }
    drop_all(old);
    drop_all(again);
}

static int merge(char **words) {
    size_t count;
    struct listed *listed = read_sources(words[1], &count);
    begin();
    for (char **part = words + 2; *part; part++) {
        char *packages = strchr(*part, '=');
        if (!packages) fail(*part);
        *packages = 0;
        merge_part(*part, packages + 1, listed, count);
    }
    commit();
    for (size_t k = 0; k < count; k++) {
        char *texts[] = {listed[k].source, listed[k].version, listed[k].priority, listed[k].section, listed[k].depends,
            listed[k].built};
        for (size_t n = 0; n < sizeof texts / sizeof *texts; n++) free(texts[n]);
    }
    free(listed);
    return 1;
}

/* ---- lines */

static int check(void) {
    sqlite3_stmt *at;
    if (sqlite3_prepare_v2(db, "PRAGMA integrity_check", -1, &at, NULL) != SQLITE_OK || !has_row(at))
        fail("integrity_check");
    int good = strcmp((const char *)sqlite3_column_text(at, 0), "ok") == 0;
    sqlite3_finalize(at);
    if (sqlite3_prepare_v2(db, "PRAGMA foreign_key_check", -1, &at, NULL) != SQLITE_OK) fail("foreign_key_check");
    good = !rows_of(at) && good;
    sqlite3_finalize(at);
    return good;
}

static int carry_out(char **words) {
    if (same(words[0], "add-arch")) return add_arch(words);
    if (same(words[0], "add-builder")) return add_builder(words);
    if (same(words[0], "enter")) return enter(words);
    if (same(words[0], "next")) return next(words);
    if (same(words[0], "built")) return report(words, BUILT);
    if (same(words[0], "uploaded")) return report(words, UPLOADED);
    if (same(words[0], "merge")) return merge(words);
    return same(words[0], "check") && check();
}

int main(int count, char **arguments) {
    char *line = NULL, *words[64];
    size_t size = 0;
    if (count != 2 || sqlite3_open(arguments[1], &db) != SQLITE_OK) fail("usage: statements FILE");
    run(PRAGMAS);
    sqlite3_stmt *tables;
    if (sqlite3_prepare_v2(db, "SELECT name FROM sqlite_schema", -1, &tables, NULL) != SQLITE_OK) fail("sqlite_schema");
    if (!rows_of(tables)) run(SCHEMA);
    sqlite3_finalize(tables);
    read_counts();
    const enum statement opening[] = {ARCHS, ALL_PAIRS, ALL};
    for (int k = 0; k < 3; k++) rows_of(ready(opening[k]));
    while (getline(&line, &size, stdin) > 0) {
        int at = 0;
        for (char *word = strtok(line, " \n"); word && at < 63; word = strtok(NULL, " \n")) words[at++] = word;
        words[at] = NULL;
        if (!at) continue;
        puts(carry_out(words) ? "accepted" : "refused");
        fflush(stdout);
    }
    free(line);
    for (int k = 0; k < KINDS; k++) sqlite3_finalize(prepared[k]);
    return sqlite3_close(db) == SQLITE_OK ? 0 : 1;
}
