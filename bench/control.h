/* Texts, architectures, relations and fields of control data, as Debian Policy has them, for merge_office.h. They are
 * read as a merge reads them, but for the faults: a list is taken for well-formed. It is C, and C++ as GNU has it. */
#include <ctype.h>
#include <stdio.h>
#include <stdlib.h>
#include <string.h>

enum { RELATIONS_LIMIT = 65536 };

/* Ends the program, which cannot go on for this reason. */
static void fail(const char *what);

/* ---- texts */

struct text { char *at; size_t size, room; };

static void add(struct text *to, const char *from, size_t size) {
    if (to->size + size + 1 > to->room && !(to->at = (char *)realloc(to->at, to->room = 2 * (to->size + size) + 64)))
        fail("memory");
    memcpy(to->at + to->size, from, size);
    to->size += size;
    to->at[to->size] = 0;
}

static void add_text(struct text *to, const char *from) { add(to, from, strlen(from)); }

static void empty(struct text *of) {
    of->size = 0;
    add(of, "", 0);
}

static char *copy(const char *text) {
    char *made = text ? strdup(text) : NULL;
    if (text && !made) fail("memory");
    return made;
}

static int same(const char *one, const char *other) {
    return one == other || (one && other && strcmp(one, other) == 0);
}

static int is_blank(char of) { return of == ' ' || of == '\t'; }

/* ---- architectures and relations (Debian Policy 7.1), reduced for one and printed */

struct arch { char *name, *os, *cpu; };

static int is_joined(const char *word, size_t size, const char *front, const char *back) {
    size_t split = strlen(front);
    return size == split + strlen(back) && strncmp(word, front, split) == 0 &&
        strncmp(word + split, back, size - split) == 0;
}

static int matches(const char *word, size_t size, const struct arch *arch) {
    return is_joined(word, size, arch->name, "") || is_joined(word, size, "any", "") ||
        is_joined(word, size, "any-any", "") || is_joined(word, size, arch->os, "-any") ||
        is_joined(word, size, "any-", arch->cpu);
}

static int is_listed(const char *words, const struct arch *arch) {
    for (size_t size; *words; words += size) {
        words += strspn(words, " \t");
        size = strcspn(words, " \t");
        if (size && matches(words, size, arch)) return 1;
    }
    return 0;
}

/* A piece of a text, which has no comma or bar in it. */
struct piece { const char *at, *end; };

static void skip_blanks(struct piece *of) {
    while (of->at < of->end && (is_blank(*of->at) || *of->at == '\n' || *of->at == '\r')) of->at++;
}

/* What the piece begins with of these characters, which is taken off. */
static struct piece take(struct piece *of, const char *characters) {
    struct piece front = {of->at, of->at};
    while (front.end < of->end && strchr(characters, *front.end)) front.end++;
    of->at = front.end;
    return front;
}

/* What stands between brackets with which the piece begins, which are taken off. -1 if they are not closed. */
static int take_inside(struct piece *of, char left, char right, struct piece *inside) {
    skip_blanks(of);
    if (of->at == of->end || *of->at != left) return 0;
    const char *close = (const char *)memchr(of->at, right, (size_t)(of->end - of->at));
    if (!close) return -1;
    *inside = (struct piece){of->at + 1, close};
    of->at = close + 1;
    return 1;
}

/* The next word between blanks, perhaps after a `!`. */
static int next_term(struct piece *inside, struct piece *word, int *is_negated) {
    skip_blanks(inside);
    if ((*is_negated = inside->at < inside->end && *inside->at == '!')) inside->at++;
    word->at = inside->at;
    while (inside->at < inside->end && !is_blank(*inside->at)) inside->at++;
    word->end = inside->at;
    return word->at < word->end;
}

static int is_for_arch(struct piece inside, const struct arch *arch) {
    struct piece word;
    int is_negated = 0, is_any_negated = 0, is_matched = 0;
    while (next_term(&inside, &word, &is_negated)) {
        is_any_negated |= is_negated;
        is_matched |= matches(word.at, (size_t)(word.end - word.at), arch);
    }
    return is_matched != is_any_negated;
}

/* Whether a list of build profiles holds if none is active: all are negated. */
static int holds_without_profiles(struct piece inside) {
    struct piece word;
    int is_negated;
    while (next_term(&inside, &word, &is_negated))
        if (!is_negated) return 0;
    return 1;
}

static const char *operator_of(struct piece word) {
    static const char *const known[][2] = {
        {"<<", "<<"}, {"<=", "<="}, {"<", "<="}, {"=", "="}, {">=", ">="}, {">", ">="}, {">>", ">>"}};
    size_t size = (size_t)(word.end - word.at);
    for (size_t k = 0; k < sizeof known / sizeof *known; k++)
        if (strlen(known[k][0]) == size && strncmp(known[k][0], word.at, size) == 0) return known[k][1];
    return NULL;
}

/* Prints ` (OPERATOR VERSION)` for what stands in the brackets; 0 if it cannot be read. */
static int print_restriction(struct piece inside, struct text *to) {
    skip_blanks(&inside);
    const char *sign = operator_of(take(&inside, "<=>"));
    skip_blanks(&inside);
    struct piece version = {inside.at, inside.at};
    while (version.end < inside.end && !is_blank(*version.end)) version.end++;
    inside.at = version.end;
    skip_blanks(&inside);
    if (!sign || version.at == version.end || inside.at < inside.end) return 0;
    add_text(to, " (");
    add_text(to, sign);
    add_text(to, " ");
    add(to, version.at, (size_t)(version.end - version.at));
    add_text(to, ")");
    return 1;
}

/* Prints the alternative without its lists, and says whether it is asked for on the architecture; -1 if it cannot be
 * read. */
static int print_alternative(struct piece of, const struct arch *arch, struct text *to) {
    struct piece inside;
    int found, is_kept = 1, has_profiles = 0, is_held = 0;
    skip_blanks(&of);
    struct piece name = take(&of, "abcdefghijklmnopqrstuvwxyz0123456789+-.");
    if (name.end - name.at < 2) return -1;
    add(to, name.at, (size_t)(name.end - name.at));
    if (of.at < of.end && *of.at == ':') {
        of.at++;
        struct piece qualifier = take(&of, "abcdefghijklmnopqrstuvwxyz0123456789-");
        if (qualifier.at == qualifier.end) return -1;
        add_text(to, ":");
        add(to, qualifier.at, (size_t)(qualifier.end - qualifier.at));
    }
    if ((found = take_inside(&of, '(', ')', &inside)) < 0 || (found && !print_restriction(inside, to))) return -1;
    if ((found = take_inside(&of, '[', ']', &inside)) < 0) return -1;
    if (found) is_kept = is_for_arch(inside, arch);
    while ((found = take_inside(&of, '<', '>', &inside)) > 0)
        has_profiles = 1, is_held |= holds_without_profiles(inside);
    return found < 0 || of.at < of.end ? -1 : is_kept && (!has_profiles || is_held);
}

/* Where the piece ends that begins here: at this mark or at the end. */
static const char *end_of(struct piece rest, char mark) {
    const char *found = (const char *)memchr(rest.at, mark, (size_t)(rest.end - rest.at));
    return found ? found : rest.end;
}

/* Adds the alternatives of a group that are asked for on the architecture; 0 if the group cannot be read. */
static int print_group(struct piece group, const struct arch *arch, struct text *to) {
    static struct text made;
    int is_first = 1;
    for (int is_more = 1; is_more; group.at++) {
        struct piece alternative = {group.at, end_of(group, '|')};
        is_more = alternative.end < group.end;
        group.at = alternative.end;
        empty(&made);
        int is_kept = print_alternative(alternative, arch, &made);
        if (is_kept < 0) return 0;
        if (!is_kept) continue;
        if (!is_first) add_text(to, " | ");
        else if (to->size) add_text(to, ", ");
        add(to, made.at, made.size);
        is_first = 0;
    }
    return 1;
}

/* Adds relations, reduced for the architecture and printed, after others; 0 if they cannot be read. */
static int print_reduced(const char *text, const struct arch *arch, struct text *to) {
    static struct text made;
    struct piece rest = {text, text + strlen(text)};
    if (rest.end - rest.at > RELATIONS_LIMIT) return 0;
    empty(&made);
    for (int is_more = 1; is_more; rest.at++) {
        struct piece group = {rest.at, end_of(rest, ',')};
        is_more = group.end < rest.end;
        rest.at = group.end;
        skip_blanks(&group);
        if (group.at < group.end && !print_group(group, arch, &made)) return 0;
    }
    if (to->size && made.size) add_text(to, ", ");
    add(to, made.at, made.size);
    return 1;
}

/* What is needed to build on the architecture; none if it cannot be read or is too long. */
static char *depends_of(const char *depends, const char *depends_arch, const struct arch *arch) {
    static struct text made;
    empty(&made);
    if (!print_reduced(depends, arch, &made) || !print_reduced(depends_arch, arch, &made) ||
        made.size > RELATIONS_LIMIT)
        return NULL;
    return copy(made.at);
}

/* ---- fields of a paragraph */

struct field { const char *name; int is_there; struct text value; };
