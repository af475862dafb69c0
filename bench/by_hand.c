/* The jobs of bench/jobs by hand. See scripts/bench. */
#include "jobs.h"
#include <stdlib.h>
#include <string.h>

/* Jobs over lines. A line is read by a function that gives where it ends, or null, and the number that it counts for. */
#define PARSE_LINES(job, line)                                      \
    uint64_t c_##job##_parse(const uint8_t *bytes, size_t length) { \
        const uint8_t *at = bytes, *end = bytes + length;           \
        uint64_t total = 0, number = 0;                             \
        while ((at = line(at, end, &number))) total += number;      \
        return total;                                               \
    }

#define CHECK_LINES(job, line)                                      \
    uint64_t c_##job##_check(const uint8_t *bytes, size_t length) { \
        const uint8_t *at = bytes, *end = bytes + length;           \
        uint64_t times = 0, number = 0;                             \
        while ((at = line(at, end, &number))) times += 1;           \
        return times;                                               \
    }

#define LINES(job, line) PARSE_LINES(job, line) CHECK_LINES(job, line)

/* Jobs over a whole text, read by such a function at once. */
#define PARSE_WHOLE(job, text)                                                      \
    uint64_t c_##job##_parse(const uint8_t *bytes, size_t length) {                 \
        uint64_t number = 0;                                                        \
        return text(bytes, bytes + length, &number) == bytes + length ? number : 0; \
    }

#define CHECK_WHOLE(job, text)                                         \
    uint64_t c_##job##_check(const uint8_t *bytes, size_t length) {    \
        uint64_t number = 0;                                           \
        return text(bytes, bytes + length, &number) == bytes + length; \
    }

#define WHOLE(job, text) PARSE_WHOLE(job, text) CHECK_WHOLE(job, text)

static inline int is_digit(uint8_t byte) { return (uint8_t)(byte - '0') < 10; }

/* Past a byte where it stands, else null. */
static inline const uint8_t *past(const uint8_t *at, const uint8_t *end, uint8_t byte) {
    return at != end && *at == byte ? at + 1 : NULL;
}

/* `2026-11-23` and a line's end, and the sum of its digits. */
static inline const uint8_t *date(const uint8_t *at, const uint8_t *end, uint64_t *sum) {
    if (end - at < DATE || !is_digit(at[0]) || !is_digit(at[1]) || !is_digit(at[2]) || !is_digit(at[3]) || at[4] != '-' ||
        !is_digit(at[5]) || !is_digit(at[6]) || at[7] != '-' || !is_digit(at[8]) || !is_digit(at[9]) || at[10] != '\n')
        return NULL;
    *sum = (uint64_t)at[0] + at[1] + at[2] + at[3] + at[5] + at[6] + at[8] + at[9];
    return at + DATE;
}

LINES(dates, date)

/* A run from the start of each line, which refuses all that isn't one date to the end. */
uint64_t c_fail(const uint8_t *bytes, size_t length) {
    const uint8_t *end = bytes + length;
    uint64_t total = 0, sum = 0;
    for (size_t at = 0; at < length; at += DATE) total += date(bytes + at, end, &sum) == end ? sum : 1000;
    return total;
}

#define BEGINS(word) ((size_t)(end - at) >= sizeof word - 1 && !memcmp(at, word, sizeof word - 1))

/* The number of the word at a place, or 0, and its length. */
static inline unsigned word_at(const uint8_t *at, const uint8_t *end, size_t *length) {
    if (BEGINS("let")) return *length = 3, 1;
    if (BEGINS("fn")) return *length = 2, 2;
    if (BEGINS("if")) return *length = 2, 3;
    if (BEGINS("else")) return *length = 4, 4;
    if (BEGINS("while")) return *length = 5, 5;
    if (BEGINS("return")) return *length = 6, 6;
    if (BEGINS("struct")) return *length = 6, 7;
    if (BEGINS("impl")) return *length = 4, 8;
    return 0;
}

static inline const uint8_t *word(const uint8_t *at, const uint8_t *end, uint64_t *number) {
    size_t length = 0;
    *number = word_at(at, end, &length);
    return *number ? past(at + length, end, '\n') : NULL;
}

LINES(words, word)

/* Four fixed bytes, 1 or 2, a version, and two flags, and the sum of these. */
static inline const uint8_t *header(const uint8_t *at, const uint8_t *end, uint64_t *sum) {
    if (end - at < HEADER || memcmp(at, "\x7f" "ELF", 4) || (at[4] != 1 && at[4] != 2) || at[5] != 1) return NULL;
    *sum = (uint64_t)at[6] + at[7];
    return at + HEADER;
}

LINES(headers, header)

/* How many digits stand at a place. */
static inline size_t digits_at(const uint8_t *at, const uint8_t *end) {
    const uint8_t *from = at;
    while (at != end && is_digit(*at)) at += 1;
    return (size_t)(at - from);
}

static inline const uint8_t *line_of_digits(const uint8_t *at, const uint8_t *end, uint64_t *count) {
    *count = digits_at(at, end);
    return *count ? past(at + *count, end, '\n') : NULL;
}

LINES(digits, line_of_digits)

/* An array, which may be null, with room for one more item. */
static inline void *with_room(void *items, size_t size, size_t count, size_t *room) {
    if (count < *room) return items;
    *room = *room ? 2 * *room : 4;
    items = realloc(items, *room * size);
    if (!items) exit(2);
    return items;
}

struct text {
    const uint8_t *bytes;
    size_t length;
};

static struct text copy_of(const uint8_t *at, size_t length) {
    uint8_t *copy = malloc(length);
    if (!copy && length) exit(2);
    return (struct text){memcpy(copy, at, length), length};
}

/* What becomes of the numbers of a list: nothing, each is kept where it lies, or each as a copy. */
enum keeping { DROPPED, LENT, COPIED };

/* Where a list and the end of its line end, or null, and how many digits those of its numbers have that are kept. These are
   collected, and then let go. */
static inline const uint8_t *list(enum keeping keeping, const uint8_t *at, const uint8_t *end, uint64_t *digits) {
    struct text *numbers = NULL;
    size_t kept = 0, room = 0;
    at = past(at, end, '[');
    size_t count = at ? digits_at(at, end) : 0;
    while (count) {
        if (keeping != DROPPED) {
            numbers = with_room(numbers, sizeof *numbers, kept, &room);
            numbers[kept++] = keeping == COPIED ? copy_of(at, count) : (struct text){at, count};
        }
        at += count;
        count = at != end && *at == ',' ? digits_at(at + 1, end) : 0;
        at += count != 0;
    }
    *digits = 0;
    for (size_t each = 0; each < kept; each++) {
        *digits += numbers[each].length;
        if (keeping == COPIED) free((void *)numbers[each].bytes);
    }
    free(numbers);
    at = at ? past(at, end, ']') : NULL;
    return at ? past(at, end, '\n') : NULL;
}

static inline const uint8_t *list_of_strings(const uint8_t *at, const uint8_t *end, uint64_t *digits) {
    return list(COPIED, at, end, digits);
}

static inline const uint8_t *list_of_slices(const uint8_t *at, const uint8_t *end, uint64_t *digits) {
    return list(LENT, at, end, digits);
}

static inline const uint8_t *list_of_nothing(const uint8_t *at, const uint8_t *end, uint64_t *digits) {
    return list(DROPPED, at, end, digits);
}

PARSE_LINES(lists, list_of_strings)
CHECK_LINES(lists, list_of_nothing)
PARSE_LINES(slices, list_of_slices)
CHECK_LINES(slices, list_of_nothing)

/* Where a number ends, or null, and its value. */
static inline const uint8_t *number(const uint8_t *at, const uint8_t *end, uint64_t *value) {
    size_t count = digits_at(at, end);
    if (!count) return NULL;
    *value = 0;
    for (; count; count--) *value = *value * 10 + (*at++ - '0');
    return at;
}

static inline const uint8_t *product(const uint8_t *at, const uint8_t *end, uint64_t *value) {
    at = number(at, end, value);
    while (at && at != end && *at == '*') {
        uint64_t factor = 0;
        const uint8_t *after = number(at + 1, end, &factor);
        if (!after) return at;
        *value *= factor;
        at = after;
    }
    return at;
}

/* Where a sum of products and the end of its line end, or null, and what it comes to. */
static inline const uint8_t *sum(const uint8_t *at, const uint8_t *end, uint64_t *value) {
    at = product(at, end, value);
    while (at && at != end && (*at == '+' || *at == '-')) {
        uint64_t term = 0;
        int is_added = *at == '+';
        const uint8_t *after = product(at + 1, end, &term);
        if (!after) break;
        *value = is_added ? *value + term : *value - term;
        at = after;
    }
    return at ? past(at, end, '\n') : NULL;
}

LINES(sums, sum)

/* A byte that says how many bytes follow, and these. */
static inline const uint8_t *message(const uint8_t *at, const uint8_t *end, uint64_t *length) {
    if (at == end || end - at - 1 < *at) return NULL;
    *length = *at;
    return at + 1 + *length;
}

LINES(messages, message)

static inline int is_space(uint8_t byte) { return byte == ' ' || (uint8_t)(byte - '\t') < 5; }

/* White space, be it none, before a full stop, and how much it is. */
static inline const uint8_t *space(const uint8_t *at, const uint8_t *end, uint64_t *count) {
    const uint8_t *from = at;
    while (at != end && is_space(*at)) at += 1;
    *count = (uint64_t)(at - from);
    return past(at, end, '.');
}

LINES(spaces, space)

/* How many digits a number has: one where it begins with a zero, and 0 where there is none. */
static inline size_t int_at(const uint8_t *at, const uint8_t *end) {
    return at != end && *at == '0' ? 1 : digits_at(at, end);
}

static inline const uint8_t *line_of_int(const uint8_t *at, const uint8_t *end, uint64_t *count) {
    *count = int_at(at, end);
    return *count ? past(at + *count, end, '\n') : NULL;
}

LINES(ints, line_of_int)

static inline int begins_ident(uint8_t byte) { return (uint8_t)((byte | 32) - 'a') < 26 || byte == '_'; }

/* An identifier, and how many bytes it has. */
static inline const uint8_t *ident(const uint8_t *at, const uint8_t *end, uint64_t *count) {
    const uint8_t *from = at;
    if (at == end || !begins_ident(*at)) return NULL;
    while (at != end && (begins_ident(*at) || is_digit(*at))) at += 1;
    *count = (uint64_t)(at - from);
    return past(at, end, '\n');
}

LINES(idents, ident)

/* The number of a value at a place, or 0, and its length. */
static inline unsigned value(const uint8_t *at, const uint8_t *end, size_t *length) {
    if (BEGINS("true")) return *length = 4, 1;
    if (BEGINS("false")) return *length = 5, 2;
    *length = 0;
    while (*length < 4 && at + *length != end && is_digit(at[*length])) *length += 1;
    return (unsigned)*length;
}

/* Where a setting and the end of its line end, or null, and what it counts for. */
static inline const uint8_t *setting(const uint8_t *at, const uint8_t *end, uint64_t *counts) {
    for (unsigned key = 0; key < KEYWORDS; key++) {
        size_t length = strlen(keywords[key]);
        if ((size_t)(end - at) < length || memcmp(at, keywords[key], length)) continue;
        at += length;
        if (!BEGINS(" = ")) return NULL;
        at += 3;
        unsigned number = value(at, end, &length);
        *counts = (uint64_t)(key + 1) * number;
        return number ? past(at + length, end, '\n') : NULL;
    }
    return NULL;
}

LINES(settings, setting)

/* Pairs of brackets, within one another and one after another, and how many there are. */
static const uint8_t *brackets(const uint8_t *at, const uint8_t *end, uint64_t *count) {
    size_t depth = 0;
    for (; at != end; at++) {
        if (*at == '[') {
            depth += 1;
        } else if (*at == ']' && depth) {
            depth -= 1;
            *count += 1;
        } else {
            return NULL;
        }
    }
    return depth ? NULL : at;
}

WHOLE(brackets, brackets)

static inline int is_letter(uint8_t byte) { return (uint8_t)(byte - 'a') < 26 || is_digit(byte); }

/* Where a string ends, or null. */
static inline const uint8_t *json_string(const uint8_t *at, const uint8_t *end) {
    if (!(at = past(at, end, '"'))) return NULL;
    while (at != end && is_letter(*at)) at += 1;
    return past(at, end, '"');
}

/* Where a value ends, or null. JSON has no spaces here; strings, numbers and words are counted, names of members too. */
static const uint8_t *json(const uint8_t *at, const uint8_t *end, uint64_t *count) {
    if (at == end) return NULL;
    uint8_t closing = *at == '[' ? ']' : *at == '{' ? '}' : 0;
    if (!closing) {
        *count += 1;
        if (*at == '"') return json_string(at, end);
        if (is_digit(*at)) return at + digits_at(at, end);
        return BEGINS("true") ? at + 4 : BEGINS("false") ? at + 5 : BEGINS("null") ? at + 4 : NULL;
    }
    at += 1;
    if (at != end && *at == closing) return at + 1;
    for (;;) {
        if (closing == '}') {
            at = json_string(at, end);
            if (!at || at == end || *at++ != ':') return NULL;
            *count += 1;
        }
        at = json(at, end, count);
        if (!at || at == end) return NULL;
        if (*at == closing) return at + 1;
        if (*at++ != ',') return NULL;
    }
}

WHOLE(json, json)

/* A value of JSON. A number is its text, and an object has its members in the order of the text. */
struct tree {
    enum { NOTHING = 1, FALSE, TRUE, LIST, OBJECT, NUMBER, TEXT } kind;
    union {
        struct text text;
        struct {
            struct tree *items;
            size_t count, room;
        } list;
        struct {
            struct member *items;
            size_t count, room;
        } object;
    };
};

struct member {
    struct text name;
    struct tree value;
};

static inline const uint8_t *blank(const uint8_t *at, const uint8_t *end) {
    while (at != end && (*at == ' ' || *at == '\t' || *at == '\r' || *at == '\n')) at += 1;
    return at;
}

/* Past four hexadecimal digits, or null, and the number that they make. */
static const uint8_t *unit(const uint8_t *at, const uint8_t *end, uint32_t *number) {
    if (end - at < 4) return NULL;
    *number = 0;
    for (int left = 4; left; left--, at++) {
        uint8_t letter = (uint8_t)((*at | 32) - 'a');
        if (!is_digit(*at) && letter >= 6) return NULL;
        *number = *number * 16 + (uint32_t)(is_digit(*at) ? *at - '0' : letter + 10);
    }
    return at;
}

/* Past an escape whose backslash stands before the place, or null, and the character that it stands for. */
static const uint8_t *escape(const uint8_t *at, const uint8_t *end, uint32_t *character) {
    static const char names[] = "\"\\/bfnrt", meant[] = "\"\\/\b\f\n\r\t";
    if (at == end) return NULL;
    const char *name = memchr(names, *at, sizeof names - 1);
    if (name) return *character = (uint8_t)meant[name - names], at + 1;
    if (*at != 'u' || !(at = unit(at + 1, end, character))) return NULL;
    if (*character < 0xD800 || *character > 0xDFFF) return at;
    uint32_t low = 0;
    if (*character > 0xDBFF || !BEGINS("\\u") || !(at = unit(at + 2, end, &low))) return NULL;
    *character = 0x10000 + ((*character & 0x3FF) << 10) + (low & 0x3FF);
    return low < 0xDC00 || low > 0xDFFF ? NULL : at;
}

static uint8_t *put_character(uint8_t *to, uint32_t character) {
    if (character < 0x80) return *to++ = (uint8_t)character, to;
    int more = character < 0x800 ? 1 : character < 0x10000 ? 2 : 3;
    *to++ = (uint8_t)((0xF80 >> more) | (character >> (6 * more)));
    while (more--) *to++ = (uint8_t)(0x80 | ((character >> (6 * more)) & 0x3F));
    return to;
}

/* What a string between quotes stands for, whose escapes are known to be right. */
static struct text without_escapes(const uint8_t *at, const uint8_t *end) {
    struct text text = copy_of(at, (size_t)(end - at));
    uint8_t *to = (uint8_t *)text.bytes;
    while (at != end) {
        uint32_t character = *at++;
        if (character != '\\') {
            *to++ = (uint8_t)character;
        } else {
            at = escape(at, end, &character);
            to = put_character(to, character);
        }
    }
    text.length = (size_t)(to - text.bytes);
    return text;
}

/* Past a string whose first quote stands before the place, or null, and its text, if that is to be kept. */
static const uint8_t *quoted(const uint8_t *at, const uint8_t *end, struct text *text) {
    const uint8_t *from = at;
    int has_escapes = 0;
    while (at != end && *at != '"') {
        uint32_t character;
        if (*at < ' ') return NULL;
        if (*at++ != '\\') continue;
        has_escapes = 1;
        if (!(at = escape(at, end, &character))) return NULL;
    }
    if (at == end) return NULL;
    if (text) *text = has_escapes ? without_escapes(from, at) : copy_of(from, (size_t)(at - from));
    return at + 1;
}

/* Past a number, or null. */
static const uint8_t *numeral(const uint8_t *at, const uint8_t *end) {
    if (at != end && *at == '-') at += 1;
    size_t count = int_at(at, end);
    at += count;
    if (count && at != end && *at == '.') {
        count = digits_at(at + 1, end);
        at += 1 + count;
    }
    if (count && at != end && (*at | 32) == 'e') {
        at += 1;
        if (at != end && (*at == '+' || *at == '-')) at += 1;
        count = digits_at(at, end);
        at += count;
    }
    return count ? at : NULL;
}

static const uint8_t *value_at(const uint8_t *at, const uint8_t *end, struct tree *tree);

/* Past the items of a list and its end, or null. They go to the list, if it is to be kept. */
static const uint8_t *items_at(const uint8_t *at, const uint8_t *end, struct tree *tree) {
    if (tree) *tree = (struct tree){.kind = LIST};
    for (at = blank(at, end); at != end && *at != ']';) {
        struct tree *item = NULL;
        if (tree) {
            tree->list.items = with_room(tree->list.items, sizeof *item, tree->list.count, &tree->list.room);
            item = &tree->list.items[tree->list.count++];
        }
        if (!(at = value_at(at, end, item)) || at == end || *at == ']') break;
        if (*at != ',') return NULL;
        at = blank(at + 1, end);
        if (at != end && *at == ']') return NULL;
    }
    return at && at != end ? at + 1 : NULL;
}

/* Past the members of an object and its end, or null. They go to the object, if it is to be kept. */
static const uint8_t *members_at(const uint8_t *at, const uint8_t *end, struct tree *tree) {
    if (tree) *tree = (struct tree){.kind = OBJECT};
    for (at = blank(at, end); at != end && *at != '}';) {
        struct member *member = NULL;
        if (tree) {
            tree->object.items = with_room(tree->object.items, sizeof *member, tree->object.count, &tree->object.room);
            member = &tree->object.items[tree->object.count++];
            *member = (struct member){0};
        }
        if (!(at = past(at, end, '"')) || !(at = quoted(at, end, member ? &member->name : NULL))) return NULL;
        if (!(at = past(blank(at, end), end, ':'))) return NULL;
        if (!(at = value_at(blank(at, end), end, member ? &member->value : NULL)) || at == end || *at == '}') break;
        if (*at != ',') return NULL;
        at = blank(at + 1, end);
        if (at != end && *at == '}') return NULL;
    }
    return at && at != end ? at + 1 : NULL;
}

/* Past a value and what is blank after it, or null. It goes to the tree, if there is one. */
static const uint8_t *value_at(const uint8_t *at, const uint8_t *end, struct tree *tree) {
    const uint8_t *from = at;
    struct tree none, *to = tree ? tree : &none;
    to->kind = NOTHING;
    if (at == end) return NULL;
    if (*at == '[') {
        at = items_at(at + 1, end, tree);
    } else if (*at == '{') {
        at = members_at(at + 1, end, tree);
    } else if (*at == '"') {
        at = quoted(at + 1, end, tree ? &tree->text : NULL);
        if (at) to->kind = TEXT;
    } else if (BEGINS("null")) {
        at += 4;
    } else if (BEGINS("true")) {
        at += 4;
        to->kind = TRUE;
    } else if (BEGINS("false")) {
        at += 5;
        to->kind = FALSE;
    } else if ((at = numeral(at, end)) && tree) {
        *tree = (struct tree){.kind = NUMBER, .text = copy_of(from, (size_t)(at - from))};
    }
    return at ? blank(at, end) : NULL;
}

/* A number that depends on each value of a tree and on where it stands. The tree is let go. */
static uint64_t weight_of(struct tree *tree) {
    uint64_t weight = tree->kind;
    if (tree->kind == NUMBER || tree->kind == TEXT) {
        weight = tree->text.length;
        free((void *)tree->text.bytes);
    } else if (tree->kind == LIST) {
        for (size_t each = 0; each < tree->list.count; each++) weight = weight * 31 + weight_of(&tree->list.items[each]);
        free(tree->list.items);
    } else if (tree->kind == OBJECT) {
        for (size_t each = 0; each < tree->object.count; each++) {
            struct member *member = &tree->object.items[each];
            weight = (weight * 31 + member->name.length) * 31 + weight_of(&member->value);
            free((void *)member->name.bytes);
        }
        free(tree->object.items);
    }
    return weight;
}

static const uint8_t *tree(const uint8_t *at, const uint8_t *end, uint64_t *weight) {
    struct tree tree;
    at = value_at(blank(at, end), end, &tree);
    *weight = weight_of(&tree);
    return at;
}

static const uint8_t *no_tree(const uint8_t *at, const uint8_t *end, uint64_t *weight) {
    (void)weight;
    return value_at(blank(at, end), end, NULL);
}

PARSE_WHOLE(tree, tree)
CHECK_WHOLE(tree, no_tree)
