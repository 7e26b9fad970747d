/* The merge of an office over SQLite's C library, for bench/merge_beside_sqlite to compare with: `merge_beside_sqlite
 * FILE` answers the lines that merge_office.h says by a reader and an order of versions of its own. The lists are read
 * paragraph by paragraph into the two scratch tables, each source package is decided from its own rows, and only
 * records that differ are written, in one transaction. */
#include "merge_office.h"
#include <strings.h>
#include <sys/types.h>

/* ---- versions, ordered as Debian Policy 5.6.12 says */

static int weight(const char *at, const char *end) {
    if (at == end || isdigit((unsigned char)*at)) return 0;
    if (isalpha((unsigned char)*at)) return *at;
    return *at == '~' ? -1 : *at + 256;
}

static int compare_parts(const char *one, const char *one_end, const char *other, const char *other_end) {
    while (one < one_end || other < other_end) {
        int first = 0;
        while ((one < one_end && !isdigit((unsigned char)*one)) ||
            (other < other_end && !isdigit((unsigned char)*other))) {
            int differ = weight(one, one_end) - weight(other, other_end);
            if (differ) return differ;
            one++, other++;
        }
        while (one < one_end && *one == '0') one++;
        while (other < other_end && *other == '0') other++;
        while (one < one_end && other < other_end && isdigit((unsigned char)*one) && isdigit((unsigned char)*other)) {
            if (!first) first = *one - *other;
            one++, other++;
        }
        if (one < one_end && isdigit((unsigned char)*one)) return 1;
        if (other < other_end && isdigit((unsigned char)*other)) return -1;
        if (first) return first;
    }
    return 0;
}

struct version { long epoch; const char *upstream, *upstream_end, *revision, *end; };

static struct version parts_of(const char *text) {
    const char *colon = strchr(text, ':'), *upstream = colon ? colon + 1 : text, *end = text + strlen(text),
               *hyphen = strrchr(upstream, '-');
    return (struct version){colon ? atol(text) : 0, upstream, hyphen ? hyphen : end, hyphen ? hyphen + 1 : end, end};
}

static int compare(const char *one_text, const char *other_text) {
    struct version one = parts_of(one_text), other = parts_of(other_text);
    if (one.epoch != other.epoch) return one.epoch < other.epoch ? -1 : 1;
    int by_upstream = compare_parts(one.upstream, one.upstream_end, other.upstream, other.upstream_end);
    return by_upstream ? by_upstream : compare_parts(one.revision, one.end, other.revision, other.end);
}

/* ---- paragraphs */

struct list { FILE *file; char *line; size_t room; };

static void add_trimmed(struct text *to, const char *at, const char *end) {
    while (at < end && is_blank(*at)) at++;
    while (at < end && is_blank(end[-1])) end--;
    if (at < end && to->size) add_text(to, " ");
    add(to, at, (size_t)(end - at));
}

/* The field that the line begins, with its first line, if it is one of these. */
static struct field *begin_field(struct field *fields, size_t count, const char *line, const char *end) {
    const char *colon = memchr(line, ':', (size_t)(end - line));
    if (!colon) fail(line);
    for (struct field *of = fields; of < fields + count; of++) {
        if (strlen(of->name) != (size_t)(colon - line) || strncasecmp(of->name, line, (size_t)(colon - line)) != 0)
            continue;
        of->is_there = 1;
        add_trimmed(&of->value, colon + 1, end);
        return of;
    }
    return NULL;
}

/* The next paragraph, its values folded, if there is one. */
static int next_paragraph(struct list *from, struct field *fields, size_t count) {
    struct field *last = NULL;
    int is_begun = 0;
    for (struct field *of = fields; of < fields + count; of++) empty(&of->value), of->is_there = 0;
    for (ssize_t size; (size = getline(&from->line, &from->room, from->file)) > 0;) {
        const char *end = from->line + size - (from->line[size - 1] == '\n'), *at = from->line;
        while (at < end && is_blank(*at)) at++;
        if (at == end && is_begun) break;
        if (at == end) continue;
        is_begun = 1;
        if (at == from->line) last = begin_field(fields, count, at, end);
        else if (last) add_trimmed(&last->value, at, end);
    }
    return is_begun;
}

static struct list *open_list(const char *name) {
    struct list *made = calloc(1, sizeof *made);
    if (!made || !(made->file = fopen(name, "r"))) fail(name);
    return made;
}

static void close_list(struct list *old) {
    free(old->line);
    fclose(old->file);
    free(old);
}

int main(int count, char **arguments) {
    if (count != 2) fail("usage: merge_beside_sqlite FILE");
    return answer_lines(arguments[1], &IN_TABLES);
}
