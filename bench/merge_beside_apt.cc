/* The merge of an office in C++, for bench/merge_beside_sqlite to compare with: apt-pkg reads the paragraphs and orders
 * the versions, and SQLite's C library keeps the records. `merge_beside_apt FORM FILE` answers the lines that
 * merge_office.h says, in one of two forms:
 *   memory  both lists are read into memory, where each source package is decided; no scratch table has a row
 *   tables  both go through the two scratch tables, as in merge_beside_sqlite.c
 * In both only records that differ are written, in one transaction. Relations are reduced as control.h has them. */
#include "merge_office.h"
#include <algorithm>
#include <apt-pkg/debversion.h>
#include <apt-pkg/error.h>
#include <apt-pkg/fileutl.h>
#include <apt-pkg/tagfile.h>
#include <memory>
#include <string>
#include <string_view>
#include <unordered_map>
#include <vector>

/* ---- what apt-pkg does */

struct list {
    explicit list(const char *name) : file(name, FileFd::ReadOnly), tags(&file) {}
    FileFd file;
    pkgTagFile tags;
    pkgTagSection section;
};

static list *open_list(const char *name) {
    auto made = std::make_unique<list>(name);
    if (_error->PendingError()) fail(name);
    return made.release();
}

/* The next paragraph, whose values have blanks where lines ended, if there is one. */
static int next_paragraph(list *from, field *fields, size_t count) {
    if (!from->tags.Step(from->section)) {
        if (_error->PendingError()) fail("a list cannot be read");
        return 0;
    }
    for (field *of = fields; of < fields + count; of++) {
        const char *at = "", *end = at;
        of->is_there = from->section.Find(of->name, at, end);
        empty(&of->value);
        if (of->is_there) add(&of->value, at, static_cast<size_t>(end - at));
        std::replace(of->value.at, of->value.at + of->value.size, '\n', ' ');
    }
    return 1;
}

static void close_list(list *old) { delete old; }

static int compare(const char *one, const char *other) { return debVS.CmpVersion(one, other); }

/* ---- a merge in memory */

struct source { std::string name, version, architectures, priority, section, depends, depends_arch; };
struct build { std::string version; int number; };

using listing = std::unordered_map<std::string_view, const source *>;
using builds = std::unordered_map<std::string, build>;

static std::vector<source> sources; /* those of the merge that is carried out, as its list has them */

static void read_sources(const char *name, const arch *archs, int count) {
    sqlite3_int64 place = 0;
    list *from = open_list(name);
    while (const field *of = next_source(from, archs, count, &place))
        sources.push_back({value_of(&of[0]), value_of(&of[1]), value_of(&of[2]), of[3].value.at, of[4].value.at,
            of[5].value.at, of[6].value.at});
    close_list(from);
}

static void drop_sources() { std::vector<source>().swap(sources); }

/* For each source package that is listed for the architecture its greatest version, and of equal ones the first. */
static listing listed_for(const arch *arch) {
    listing made(sources.size());
    for (const source &of : sources) {
        if (!is_listed(of.architectures.c_str(), arch)) continue;
        const source *&best = made[of.name];
        if (!best || compare(of.version.c_str(), best->version.c_str()) > 0) best = &of;
    }
    return made;
}

/* The latest build of each source package. */
static builds builds_in(const char *packages, const arch *arch) {
    builds made;
    sqlite3_int64 place = 0;
    list *from = open_list(packages);
    for (binary of; next_binary(from, arch, &place, &of);) {
        auto [found, is_new] = made.try_emplace(of.source, build{of.source_version, of.number});
        if (is_new) continue;
        int order = compare(of.source_version, found->second.version.c_str());
        if ((order ? order : of.number - found->second.number) > 0) found->second = {of.source_version, of.number};
    }
    close_list(from);
    return made;
}

static std::vector<record> records_of(const arch *arch) {
    std::vector<record> made;
    sqlite3_stmt *at = ready(OF_ARCH);
    bind(at, 1, arch->name);
    for (record one; next_record(at, &one);) made.push_back(one);
    return made;
}

static void settle_by(const record &old, const source &of, const builds &builds, const arch *arch, counts *counts) {
    std::unique_ptr<char, decltype(&free)> depends(
        depends_of(of.depends.c_str(), of.depends_arch.c_str(), arch), &free);
    auto found = builds.find(of.name);
    bool is_built = found != builds.end();
    listed by = {of.version.c_str(), of.priority.c_str(), of.section.c_str(), depends.get()};
    built latest = {is_built ? found->second.version.c_str() : nullptr, is_built ? found->second.number : 0};
    settle(&old, &by, &latest, counts);
}

/* The records of the architecture first, and then the source packages that have none, in the order of their list. */
static counts merge_in_memory(const arch *arch, const char *packages) {
    counts counts = {0, 0, 0, 0};
    expect_no_waits(arch);
    listing listed = listed_for(arch);
    builds builds = builds_in(packages, arch);
    std::vector<record> records = records_of(arch);
    for (record &old : records) {
        auto found = listed.find(old.source);
        if (found == listed.end()) {
            remove_record(&old, &counts);
        } else {
            settle_by(old, *found->second, builds, arch, &counts);
            listed.erase(found);
        }
        drop(&old);
    }
    for (const source &of : sources) {
        auto found = listed.find(of.name);
        if (found != listed.end() && found->second == &of)
            settle_by(no_record(arch, of.name.c_str()), of, builds, arch, &counts);
    }
    return counts;
}

static const form IN_MEMORY = {read_sources, merge_in_memory, drop_sources};

int main(int count, char **arguments) {
    bool is_in_memory = count == 3 && same(arguments[1], "memory");
    if (!is_in_memory && !(count == 3 && same(arguments[1], "tables"))) fail("usage: merge_beside_apt FORM FILE");
    return answer_lines(arguments[2], is_in_memory ? &IN_MEMORY : &IN_TABLES);
}
