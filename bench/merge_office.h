/* An office's file over SQLite's C library, and the merges of its records: what merge_beside_sqlite.c and
 * merge_beside_apt.cc have in common. It answers the lines add-arch and merge by the SQL texts of wb_sql, over the same
 * tables, and its answers are those of the office. A merge IN_TABLES runs them in the order in which wb_archive does.
 * The pragmas are what `wb` asks of the kit's `sqlite`: a log that is synced at each commit and copied at 8,000 pages,
 * foreign keys, pages of 4,096 bytes, 2,000 of them cached, and nobody else at the file. Pages that were written go to
 * the log once the cache is full, and those of the office every 500. Eight bytes of each page are left free, where the
 * office has its checksums; nothing is written there. It knows only what the measured lines need: lists that are well-
 * formed, and records that merges alone made, none of which waits for packages. It is C, and C++ as GNU has it. */
#include "control.h"
#include <sqlite3.h>

enum { NEEDS_BUILD = 0, INSTALLED = 4, DEP_WAIT = 5 };
enum { PLACES = 1000, CHECKSUM = 8 };

#define COLUMNS                                                                                                        \
    "arch, source, state, version, priority, section, earlier, number, holder, take, waits, depends, note, message, "  \
    "build_priority, rank"

static const char *const PRAGMAS = "PRAGMA page_size=4096; PRAGMA journal_mode=WAL; PRAGMA synchronous=FULL; PRAGMA "
                                   "wal_autocheckpoint=8000; PRAGMA foreign_keys=ON;"
                                   "PRAGMA cache_size=2000; PRAGMA locking_mode=EXCLUSIVE;";

static const char *const SCHEMA =
    "BEGIN;"
    "CREATE TABLE office(id INTEGER PRIMARY KEY CHECK(id = 1), format INTEGER NOT NULL, handed INTEGER NOT NULL, "
    "accepted INTEGER NOT NULL) STRICT;"
    "CREATE TABLE arch(name TEXT NOT NULL PRIMARY KEY, os TEXT NOT NULL, cpu TEXT NOT NULL) STRICT;"
    "CREATE TABLE builder(name TEXT NOT NULL, arch TEXT NOT NULL REFERENCES arch(name), PRIMARY KEY(name, arch)) "
    "STRICT;"
    "CREATE TABLE source_record(arch TEXT NOT NULL REFERENCES arch(name), source TEXT NOT NULL, state INTEGER NOT "
    "NULL, version TEXT NOT NULL,"
    " priority TEXT NOT NULL, section TEXT NOT NULL, earlier INTEGER NOT NULL, number INTEGER NOT NULL, holder TEXT, "
    "take INTEGER,"
    " waits TEXT NOT NULL, depends TEXT, note TEXT NOT NULL, message TEXT NOT NULL, build_priority INTEGER NOT NULL, "
    "rank INTEGER NOT NULL,"
    " PRIMARY KEY(arch, source)) STRICT;"
    "CREATE INDEX record_order ON source_record(arch, state, rank, source);"
    "CREATE INDEX record_take ON source_record(take);"
    "CREATE TABLE scratch_source(seq INTEGER PRIMARY KEY, name TEXT NOT NULL, version TEXT NOT NULL, architecture TEXT "
    "NOT NULL,"
    " extra INTEGER NOT NULL, priority TEXT NOT NULL, section TEXT NOT NULL, depends TEXT NOT NULL, depends_arch TEXT "
    "NOT NULL) STRICT;"
    "CREATE INDEX source_name ON scratch_source(name, seq);"
    "CREATE TABLE scratch_binary(seq INTEGER PRIMARY KEY, name TEXT NOT NULL, version TEXT NOT NULL, source TEXT NOT "
    "NULL,"
    " source_version TEXT NOT NULL, number INTEGER NOT NULL, own INTEGER NOT NULL) STRICT;"
    "CREATE INDEX binary_source ON scratch_binary(source, seq);"
    "CREATE INDEX binary_name ON scratch_binary(name, seq);"
    "INSERT OR REPLACE INTO office(id, format, handed, accepted) VALUES (1, 2, 0, 0);"
    "COMMIT;";

enum statement {
    BEGIN, COMMIT, SAVE, RELEASE, COUNTS, SET_COUNTS, ARCHS, ADD_ARCH, PAIRS, ALL, FIRST_SOURCE, FIRST_BINARY, RECORD,
    IN_STATE, OF_ARCH, PUT, REMOVE, ADD_SOURCE, ADD_BINARY, SOURCE_NAMES, SOURCES_NAMED, BINARIES_OF, REMOVE_SOURCES,
    REMOVE_BINARIES, CLEAR_SOURCES, CLEAR_BINARIES, KINDS
};

static const char *const TEXTS[KINDS] = {
    [BEGIN] = "BEGIN",
    [COMMIT] = "COMMIT",
    [SAVE] = "SAVEPOINT part",
    [RELEASE] = "RELEASE part",
    [COUNTS] = "SELECT format, handed, accepted FROM office",
    [SET_COUNTS] = "UPDATE office SET handed = ?1, accepted = ?2",
    [ARCHS] = "SELECT name, os, cpu FROM arch ORDER BY name",
    [ADD_ARCH] = "INSERT INTO arch(name, os, cpu) VALUES (?1, ?2, ?3)",
    [PAIRS] = "SELECT name, arch FROM builder ORDER BY name, arch",
    [ALL] = "SELECT " COLUMNS " FROM source_record ORDER BY arch, source",
    [FIRST_SOURCE] = "SELECT seq FROM scratch_source LIMIT 1",
    [FIRST_BINARY] = "SELECT seq FROM scratch_binary LIMIT 1",
    [RECORD] = "SELECT " COLUMNS " FROM source_record WHERE arch = ?1 AND source = ?2",
    [IN_STATE] = "SELECT " COLUMNS " FROM source_record WHERE arch = ?1 AND state = ?2 ORDER BY source",
    [OF_ARCH] = "SELECT " COLUMNS " FROM source_record WHERE arch = ?1 ORDER BY source",
    [PUT] =
        "INSERT INTO source_record(" COLUMNS
        ") VALUES (?1, ?2, ?3, ?4, ?5, ?6, ?7, ?8, ?9, ?10, ?11, ?12, ?13, ?14, ?15, ?16)"
        " ON CONFLICT(arch, source) DO UPDATE SET state = ?3, version = ?4, priority = ?5, section = ?6, earlier = ?7,"
        " number = ?8, holder = ?9, take = ?10, waits = ?11, depends = ?12, note = ?13, message = ?14, build_priority "
        "= ?15, rank = ?16",
    [REMOVE] = "DELETE FROM source_record WHERE arch = ?1 AND source = ?2",
    [ADD_SOURCE] =
        "INSERT INTO scratch_source(seq, name, version, architecture, extra, priority, section, depends, depends_arch)"
        " VALUES (?1, ?2, ?3, ?4, ?5, ?6, ?7, ?8, ?9)",
    [ADD_BINARY] = "INSERT INTO scratch_binary(seq, name, version, source, source_version, number, own) VALUES (?1, "
                   "?2, ?3, ?4, ?5, ?6, ?7)",
    [SOURCE_NAMES] = "SELECT name FROM scratch_source ORDER BY name, seq",
    [SOURCES_NAMED] = "SELECT seq, name, version, architecture, extra, priority, section, depends, depends_arch"
                      " FROM scratch_source WHERE name = ?1 ORDER BY seq",
    [BINARIES_OF] = "SELECT seq, name, version, source, source_version, number, own FROM scratch_binary WHERE source = "
                    "?1 ORDER BY seq",
    [REMOVE_SOURCES] = "DELETE FROM scratch_source WHERE seq <= ?1",
    [REMOVE_BINARIES] = "DELETE FROM scratch_binary WHERE seq <= ?1",
    [CLEAR_SOURCES] = "DELETE FROM scratch_source",
    [CLEAR_BINARIES] = "DELETE FROM scratch_binary",
};

static sqlite3 *db;
static sqlite3_stmt *prepared[KINDS];
static sqlite3_int64 handed, accepted, last_place;

/* ---- what each program has of its own: a reader of lists, and the order of versions (Debian Policy 5.6.12) */

struct list;
static struct list *open_list(const char *name);
static int next_paragraph(struct list *from, struct field *fields, size_t count);
static void close_list(struct list *old);
static int compare(const char *one, const char *other);

static void fail(const char *what) {
    fprintf(stderr, "merge: %s: %s\n", what, db ? sqlite3_errmsg(db) : "");
    exit(1);
}

/* ---- statements */

static void run(const char *texts) {
    if (sqlite3_exec(db, texts, NULL, NULL, NULL) != SQLITE_OK) fail(texts);
}

/* The statement, prepared once, at its start. */
static sqlite3_stmt *ready(enum statement which) {
    if (!prepared[which] &&
        sqlite3_prepare_v3(db, TEXTS[which], -1, SQLITE_PREPARE_PERSISTENT, &prepared[which], NULL) != SQLITE_OK)
        fail(TEXTS[which]);
    sqlite3_reset(prepared[which]);
    return prepared[which];
}

static void bind(sqlite3_stmt *at, int place, const char *value) {
    sqlite3_bind_text(at, place, value, -1, SQLITE_STATIC);
}

static int has_row(sqlite3_stmt *at) {
    int status = sqlite3_step(at);
    if (status == SQLITE_ROW) return 1;
    if (status != SQLITE_DONE) fail("step");
    sqlite3_reset(at);
    return 0;
}

static void write_by(sqlite3_stmt *at) {
    if (has_row(at)) fail("a write answered a row");
}

static char *column(sqlite3_stmt *at, int place) { return copy((const char *)sqlite3_column_text(at, place)); }

struct record {
    const char *arch, *source, *version, *priority, *section, *holder, *waits, *depends, *note, *message;
    sqlite3_int64 state, earlier, number, take, build_priority; /* no take number is 0 */
};

/* The record of the next row, if there is one. */
static int next_record(sqlite3_stmt *at, struct record *made) {
    if (!has_row(at)) return 0;
    *made = (struct record){
        .arch = column(at, 0),
        .source = column(at, 1),
        .version = column(at, 3),
        .priority = column(at, 4),
        .section = column(at, 5),
        .holder = column(at, 8),
        .waits = column(at, 10),
        .depends = column(at, 11),
        .note = column(at, 12),
        .message = column(at, 13),
        .state = sqlite3_column_int64(at, 2),
        .earlier = sqlite3_column_int64(at, 6),
        .number = sqlite3_column_int64(at, 7),
        .take = sqlite3_column_int64(at, 9),
        .build_priority = sqlite3_column_int64(at, 14),
    };
    return 1;
}

static void drop(struct record *old) {
    const char *texts[] = {old->arch, old->source, old->version, old->priority, old->section, old->holder, old->waits,
        old->depends, old->note, old->message};
    for (size_t k = 0; k < sizeof texts / sizeof *texts; k++) free((char *)texts[k]);
}

/* The record of the source package, if it has one. */
static int find_record(const char *arch, const char *source, struct record *made) {
    sqlite3_stmt *at = ready(RECORD);
    bind(at, 1, arch);
    bind(at, 2, source);
    int is_there = next_record(at, made);
    sqlite3_reset(at);
    return is_there;
}

static sqlite3_int64 place_of(const char *word, size_t size, const char *const *words, sqlite3_int64 count) {
    sqlite3_int64 at = 0;
    while (at < count && (strlen(words[at]) != size || strncmp(word, words[at], size) != 0)) at++;
    return at;
}

static sqlite3_int64 rank_of(const struct record *of) {
    static const char *const priorities[] = {"required", "important", "standard", "optional", "extra"};
    static const char *const sections[] = {"libs", "base", "devel", "kernel", "shells", "perl", "python", "admin",
        "utils", "text", "net", "web", "mail", "database", "editors", "interpreters", "graphics", "sound", "video",
        "x11", "gnome", "kde", "science", "math", "doc", "misc", "oldlibs", "games"};
    const char *slash = strchr(of->section, '/'), *section = slash ? slash + 1 : of->section;
    sqlite3_int64 by_priority = place_of(of->priority, strlen(of->priority), priorities, 5);
    sqlite3_int64 by_section = place_of(section, strlen(section), sections, 28);
    return (1000 - of->build_priority) * 348 + (!of->earlier * 6 + by_priority) * 29 + by_section;
}

static void put(const struct record *of) {
    sqlite3_stmt *at = ready(PUT);
    const char *texts[] = {of->version, of->priority, of->section};
    bind(at, 1, of->arch);
    bind(at, 2, of->source);
    sqlite3_bind_int64(at, 3, of->state);
    for (int k = 0; k < 3; k++) bind(at, k + 4, texts[k]);
    sqlite3_bind_int64(at, 7, of->earlier);
    sqlite3_bind_int64(at, 8, of->number);
    bind(at, 9, of->holder);
    if (of->take) sqlite3_bind_int64(at, 10, of->take);
    else sqlite3_bind_null(at, 10);
    bind(at, 11, of->waits);
    bind(at, 12, of->depends);
    bind(at, 13, of->note);
    bind(at, 14, of->message);
    sqlite3_bind_int64(at, 15, of->build_priority);
    sqlite3_bind_int64(at, 16, rank_of(of));
    write_by(at);
}

/* Ends the transaction of an accepted command. */
static void commit(void) {
    sqlite3_stmt *at = ready(SET_COUNTS);
    sqlite3_bind_int64(at, 1, handed);
    sqlite3_bind_int64(at, 2, ++accepted);
    write_by(at);
    write_by(ready(COMMIT));
}

/* ---- a merge: what it reads of the lists */

static const char *value_of(const struct field *of) {
    if (!of->is_there) fail(of->name);
    return of->value.at;
}

static int is_wanted(const char *words, const struct arch *archs, int count) {
    for (int k = 0; k < count; k++)
        if (is_listed(words, &archs[k])) return 1;
    return 0;
}

/* The fields of the next source package that is for one of the architectures, if there is one: a name, a version, the
 * architectures, a priority, a section, and twice what is needed to build. Each paragraph is counted. */
static const struct field *next_source(
    struct list *from, const struct arch *archs, int count, sqlite3_int64 *place) {
    static struct field fields[] = {{"Package"}, {"Version"}, {"Architecture"}, {"Priority"}, {"Section"},
        {"Build-Depends"}, {"Build-Depends-Arch"}, {"Extra-Source-Only"}};
    while (next_paragraph(from, fields, sizeof fields / sizeof *fields)) {
        *place += 1;
        if (strcmp(fields[7].value.at, "yes") != 0 && is_wanted(value_of(&fields[2]), archs, count)) return fields;
    }
    return NULL;
}

struct binary { const char *name, *version, *source, *source_version; int number; };

/* Cuts `hello (1.0-1)` into a name and a version, which is NULL if there is none. */
static char *cut_source(char *source) {
    char *space = strchr(source, ' ');
    if (!space) return NULL;
    size_t size = strlen(space);
    if (size < 4 || space[1] != '(' || space[size - 1] != ')') fail(source);
    *space = space[size - 1] = 0;
    return space + 2;
}

/* The number N of a version that ends in +bN, of at most three digits, else 0. */
static int rebuild_number(const char *version) {
    const char *end = version + strlen(version), *digits = end;
    while (digits > version && isdigit((unsigned char)digits[-1])) digits--;
    return digits < end && end - digits <= 3 && digits - version >= 2 && digits[-1] == 'b' && digits[-2] == '+'
        ? atoi(digits)
        : 0;
}

/* The next package of the architecture, and the build that it is of, if there is one. Each paragraph is counted. */
static int next_binary(struct list *from, const struct arch *arch, sqlite3_int64 *place, struct binary *made) {
    static struct field fields[] = {{"Package"}, {"Version"}, {"Architecture"}, {"Source"}};
    while (next_paragraph(from, fields, sizeof fields / sizeof *fields)) {
        *place += 1;
        if (strcmp(value_of(&fields[2]), arch->name) != 0) continue;
        const char *name = value_of(&fields[0]), *version = value_of(&fields[1]);
        char *version_of = fields[3].is_there ? cut_source(fields[3].value.at) : NULL;
        *made = (struct binary){name, version, fields[3].is_there ? fields[3].value.at : name,
            version_of ? version_of : version, version_of ? rebuild_number(version) : 0};
        return 1;
    }
    return 0;
}

/* ---- a merge: the lists into the scratch tables */

static void note_place(sqlite3_int64 place) {
    if (last_place < place) last_place = place;
}

static void fill_sources(const char *name, const struct arch *archs, int count) {
    sqlite3_int64 place = 0;
    struct list *from = open_list(name);
    for (const struct field *fields; (fields = next_source(from, archs, count, &place));) {
        sqlite3_stmt *at = ready(ADD_SOURCE);
        sqlite3_bind_int64(at, 1, place);
        for (int k = 0; k < 3; k++) bind(at, k + 2, value_of(&fields[k]));
        sqlite3_bind_int64(at, 5, 0);
        for (int k = 3; k < 7; k++) bind(at, k + 3, fields[k].value.at);
        write_by(at);
        note_place(place);
    }
    close_list(from);
}

/* Of packages of one build in a row only the first is put into the table. */
static void fill_binaries(const char *name, const struct arch *arch) {
    sqlite3_int64 place = 0;
    char *last_source = NULL, *last_version = NULL;
    int last_number = 0;
    struct list *from = open_list(name);
    for (struct binary of; next_binary(from, arch, &place, &of);) {
        if (last_source && same(last_source, of.source) && same(last_version, of.source_version) &&
            last_number == of.number)
            continue;
        free(last_source), free(last_version);
        last_source = copy(of.source), last_version = copy(of.source_version), last_number = of.number;
        sqlite3_stmt *at = ready(ADD_BINARY);
        const char *texts[] = {of.name, of.version, of.source, of.source_version};
        sqlite3_bind_int64(at, 1, place);
        for (int k = 0; k < 4; k++) bind(at, k + 2, texts[k]);
        sqlite3_bind_int64(at, 6, of.number);
        sqlite3_bind_int64(at, 7, 1);
        write_by(at);
        note_place(place);
    }
    free(last_source), free(last_version);
    close_list(from);
}

/* Takes the rows out in pieces, and then those that are left. */
static void clear(enum statement pieces, enum statement whole) {
    for (sqlite3_int64 piece = 0; piece < last_place / PLACES; piece++) {
        sqlite3_stmt *at = ready(pieces);
        sqlite3_bind_int64(at, 1, (piece + 1) * PLACES);
        write_by(at);
    }
    write_by(ready(whole));
}

/* ---- a merge: the records */

struct listed { const char *version, *priority, *section, *depends; };
struct built { const char *version; int number; };
struct counts { int added, changed, kept, removed; };
struct names { const char **at; size_t count, room; };

/* The row of the greatest version that lists the source package for the architecture, and of equal ones the first. */
static int find_listed(const char *source, const struct arch *arch, struct listed *made) {
    char *best[6] = {NULL};
    sqlite3_stmt *at = ready(SOURCES_NAMED);
    bind(at, 1, source);
    while (has_row(at)) {
        const char *version = (const char *)sqlite3_column_text(at, 2);
        if (!is_listed((const char *)sqlite3_column_text(at, 3), arch) || (best[0] && compare(version, best[0]) <= 0))
            continue;
        for (int k = 0; k < 6; k++) free(best[k]);
        best[0] = copy(version);
        for (int k = 1; k < 5; k++) best[k] = column(at, k + 4);
    }
    if (!best[0]) return 0;
    *made = (struct listed){best[0], best[1], best[2], depends_of(best[3], best[4], arch)};
    free(best[3]);
    free(best[4]);
    return 1;
}

/* The latest build of the source package, without a version if there is none. */
static struct built find_built(const char *source) {
    struct built best = {NULL, 0};
    sqlite3_stmt *at = ready(BINARIES_OF);
    bind(at, 1, source);
    while (has_row(at)) {
        const char *version = (const char *)sqlite3_column_text(at, 4);
        int number = sqlite3_column_int(at, 5), order = best.version ? compare(version, best.version) : 1;
        if (!sqlite3_column_int(at, 6) || (order ? order : number - best.number) <= 0) continue;
        free((char *)best.version);
        best = (struct built){copy(version), number};
    }
    return best;
}

/* The record after the merge, whose texts are those of the old one and of what is listed. */
static struct record decided(const struct record *old, const struct listed *by, const struct built *built) {
    struct record made = *old;
    int order = old->version ? compare(old->version, by->version) : -1;
    if (order > 0) return made;
    if (order < 0) made.version = by->version, made.message = "", made.number = 0, made.holder = NULL, made.take = 0;
    int of_built = built->version ? compare(built->version, by->version) : -1;
    int is_built = of_built > 0 || (of_built == 0 && made.number <= built->number);
    if (is_built && of_built == 0) made.number = built->number;
    if (is_built) made.state = INSTALLED;
    else if (order < 0 || old->state == INSTALLED) made.state = NEEDS_BUILD;
    made.earlier = old->earlier || built->version || is_built;
    made.priority = by->priority, made.section = by->section, made.depends = by->depends;
    return made;
}

static int is_unchanged(const struct record *old, const struct record *made) {
    return old->version && old->state == made->state && old->earlier == made->earlier && old->number == made->number &&
        same(old->version, made->version) && same(old->priority, made->priority) &&
        same(old->section, made->section) && same(old->depends, made->depends);
}

/* A record of which nothing is known, for a source package that has none. */
static struct record no_record(const struct arch *arch, const char *source) {
    struct record made = {.arch = arch->name, .source = source};
    made.waits = made.note = made.message = "";
    return made;
}

/* Brings a record in line with what is listed and built, and writes it if it is another one then. */
static void settle(
    const struct record *old, const struct listed *by, const struct built *built, struct counts *counts) {
    struct record made = decided(old, by, built);
    int is_kept = is_unchanged(old, &made);
    if (!is_kept) put(&made);
    *(is_kept ? &counts->kept : old->version ? &counts->changed : &counts->added) += 1;
}

/* Removes a record that is not listed any more. */
static void remove_record(const struct record *old, struct counts *counts) {
    sqlite3_stmt *at = ready(REMOVE);
    bind(at, 1, old->arch);
    bind(at, 2, old->source);
    write_by(at);
    counts->removed++;
}

/* Brings the record of a source package in line with its rows. */
static void decide(const struct arch *arch, const char *source, struct counts *counts) {
    struct record old = no_record(arch, source);
    struct listed by = {NULL, NULL, NULL, NULL};
    int was_there = find_record(arch->name, source, &old), is_there = find_listed(source, arch, &by);
    struct built built = find_built(source);
    if (is_there) settle(&old, &by, &built, counts);
    else if (was_there) remove_record(&old, counts);
    if (was_there) drop(&old);
    free((char *)by.version), free((char *)by.priority), free((char *)by.section), free((char *)by.depends);
    free((char *)built.version);
}

static void add_name(struct names *to, const char *name) {
    if (to->count == to->room &&
        !(to->at = (const char **)realloc(to->at, (to->room = 2 * to->room + 64) * sizeof *to->at)))
        fail("memory");
    to->at[to->count++] = name;
}

static void drop_names(struct names *old) {
    for (size_t k = 0; k < old->count; k++) free((char *)old->at[k]);
    free(old->at);
}

static int compare_names(const void *one, const void *other) {
    return strcmp(*(char *const *)one, *(char *const *)other);
}

/* The source packages of the architecture that have a record, then those that are listed and have none. */
static struct names names_to_decide(const struct arch *arch) {
    struct names made = {NULL, 0, 0};
    struct record one;
    const char *name;
    sqlite3_stmt *at = ready(OF_ARCH);
    bind(at, 1, arch->name);
    while (next_record(at, &one)) {
        add_name(&made, one.source);
        one.source = NULL;
        drop(&one);
    }
    size_t recorded = made.count; /* by name, as those that are listed are */
    for (at = ready(SOURCE_NAMES); has_row(at);) {
        name = (const char *)sqlite3_column_text(at, 0);
        if (made.count > recorded && strcmp(made.at[made.count - 1], name) == 0) continue;
        if (!recorded || !bsearch(&name, made.at, recorded, sizeof name, compare_names)) add_name(&made, copy(name));
    }
    return made;
}

/* Merges give none of the records that this program knows a wait for packages. */
static void expect_no_waits(const struct arch *arch) {
    sqlite3_stmt *at = ready(IN_STATE);
    bind(at, 1, arch->name);
    sqlite3_bind_int64(at, 2, DEP_WAIT);
    if (has_row(at)) fail("a record waits for packages");
}

static struct counts merge_part(const struct arch *arch, const char *packages) {
    struct counts counts = {0, 0, 0, 0};
    write_by(ready(SAVE));
    expect_no_waits(arch);
    fill_binaries(packages, arch);
    struct names names = names_to_decide(arch);
    for (size_t k = 0; k < names.count; k++) decide(arch, names.at[k], &counts);
    drop_names(&names);
    clear(REMOVE_BINARIES, CLEAR_BINARIES);
    write_by(ready(RELEASE));
    return counts;
}

static void clear_all(void) {
    clear(REMOVE_BINARIES, CLEAR_BINARIES);
    clear(REMOVE_SOURCES, CLEAR_SOURCES);
}

/* A form of a merge: how it begins with its Sources list, brings an architecture in line with its Packages list, and
 * ends. */
struct form {
    void (*begin)(const char *sources, const struct arch *archs, int count);
    struct counts (*merge_part)(const struct arch *arch, const char *packages);
    void (*end)(void);
};

static const struct form IN_TABLES = {fill_sources, merge_part, clear_all};

/* ---- lines */

/* The words of the architecture of this name, if it was added. */
static int find_arch(const char *name, struct arch *made) {
    int is_found = 0;
    for (sqlite3_stmt *at = ready(ARCHS); has_row(at);)
        if (strcmp((const char *)sqlite3_column_text(at, 0), name) == 0)
            *made = (struct arch){column(at, 0), column(at, 1), column(at, 2)}, is_found = 1;
    return is_found;
}

static void add_arch(char **words) {
    struct arch known;
    if (find_arch(words[1], &known)) {
        puts("{\"code\":10,\"refused\":\"AlreadyThere\"}");
        return;
    }
    write_by(ready(BEGIN));
    sqlite3_stmt *at = ready(ADD_ARCH);
    for (int k = 1; k <= 3; k++) bind(at, k, words[k]);
    write_by(at);
    commit();
    printf("{\"accepted\":%lld,\"ok\":\"add-arch\"}\n", (long long)accepted);
}

static void merge(char **words, const struct form *by) {
    struct arch archs[60];
    struct counts counts[60];
    int parts = 0;
    for (; words[parts + 2]; parts++) {
        char *packages = strchr(words[parts + 2], '=');
        if (!packages) fail(words[parts + 2]);
        *packages = 0;
        if (!find_arch(words[parts + 2], &archs[parts])) fail(words[parts + 2]);
    }
    last_place = 0;
    write_by(ready(BEGIN));
    by->begin(words[1], archs, parts);
    for (int k = 0; k < parts; k++)
        counts[k] = by->merge_part(&archs[k], words[k + 2] + strlen(words[k + 2]) + 1);
    by->end();
    commit();
    printf("{\"accepted\":%lld,\"ok\":\"merge\",\"parts\":[", (long long)accepted);
    for (int k = 0; k < parts; k++) {
        printf("%s{\"added\":%d,\"arch\":\"%s\",\"changed\":%d,", k ? "," : "", counts[k].added, archs[k].name,
            counts[k].changed);
        printf("\"kept\":%d,\"removed\":%d}", counts[k].kept, counts[k].removed);
        free(archs[k].name), free(archs[k].os), free(archs[k].cpu);
    }
    puts("]}");
}

/* Opens the file, makes the tables if there are none, and reads all rows as an office does. */
static void open_file(const char *name) {
    int bytes = CHECKSUM;
    sqlite3_stmt *tables;
    if (sqlite3_open(name, &db) != SQLITE_OK) fail(name);
    if (sqlite3_file_control(db, "main", SQLITE_FCNTL_RESERVE_BYTES, &bytes) != SQLITE_OK) fail("reserve bytes");
    run(PRAGMAS);
    if (sqlite3_prepare_v2(db, "SELECT name FROM sqlite_schema", -1, &tables, NULL) != SQLITE_OK) fail("sqlite_schema");
    int is_made = has_row(tables);
    sqlite3_finalize(tables);
    if (!is_made) run(SCHEMA);
    sqlite3_stmt *at = ready(COUNTS);
    if (!has_row(at)) fail("no row of the office");
    handed = sqlite3_column_int64(at, 1), accepted = sqlite3_column_int64(at, 2);
    sqlite3_reset(at);
    const enum statement opening[] = {ARCHS, PAIRS, ALL, FIRST_SOURCE, FIRST_BINARY};
    for (int k = 0; k < 5; k++)
        for (at = ready(opening[k]); has_row(at);) continue;
}

/* Answers the lines of the standard input over the file; 0 at their end. */
static int answer_lines(const char *name, const struct form *by) {
    char *line = NULL, *words[64];
    size_t size = 0;
    open_file(name);
    while (getline(&line, &size, stdin) > 0) {
        int at = 0;
        for (char *word = strtok(line, " \n"); word && at < 61; word = strtok(NULL, " \n")) words[at++] = word;
        words[at] = NULL;
        if (at == 4 && same(words[0], "add-arch")) add_arch(words);
        else if (at >= 3 && same(words[0], "merge")) merge(words, by);
        else fail("a line that is neither add-arch nor merge");
        fflush(stdout);
    }
    free(line);
    for (int k = 0; k < KINDS; k++) sqlite3_finalize(prepared[k]);
    return sqlite3_close(db) == SQLITE_OK ? 0 : 1;
}
