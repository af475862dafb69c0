/* The jobs of bench/jobs, by parsers and by hand, in turn: the best of the rounds of each. See scripts/bench. */
#include "jobs.h"
#include <stdio.h>
#include <stdlib.h>
#include <string.h>
#include <sys/resource.h>
#include <sys/wait.h>
#include <time.h>
#include <unistd.h>

#ifdef WITH_RUST
#define RUST(name) rust_##name
#else
#define RUST(name) NULL
#endif

/* Inputs, of a fixed seed. */

static uint64_t seed = 1;

static unsigned below(unsigned limit) {
    seed = seed * 6364136223846793005u + 1442695040888963407u;
    return (unsigned)((seed >> 33) % limit);
}

struct input {
    uint8_t *bytes;
    size_t length;
};

static struct input room(size_t length) {
    struct input made = {malloc(length + 1), length};
    if (!made.bytes) exit(2);
    return made;
}

static struct input make_dates(unsigned count) {
    struct input made = room((size_t)count * DATE);
    for (unsigned line = 0; line < count; line++)
        snprintf((char *)made.bytes + (size_t)line * DATE, DATE + 1, "%04u-%02u-%02u\n", 1900 + below(200), 1 + below(12),
                 1 + below(28));
    return made;
}

/* One of the last three characters of each date is no digit and no hyphen. */
static struct input make_failing(unsigned count) {
    struct input made = make_dates(count);
    for (unsigned line = 0; line < count; line++) made.bytes[(size_t)line * DATE + 7 + below(3)] = 'x';
    return made;
}

static struct input make_words(unsigned count) {
    static const char *const words[] = {"let", "fn", "if", "else", "while", "return", "struct", "impl"};
    struct input made = room((size_t)count * 7);
    made.length = 0;
    for (unsigned line = 0; line < count; line++)
        made.length += (size_t)sprintf((char *)made.bytes + made.length, "%s\n", words[below(8)]);
    return made;
}

static struct input make_headers(unsigned count) {
    struct input made = room((size_t)count * HEADER);
    for (unsigned each = 0; each < count; each++) {
        uint8_t header[HEADER] = {0x7f, 0x45, 0x4c, 0x46, 1 + below(2), 1, below(256), below(256)};
        memcpy(made.bytes + (size_t)each * HEADER, header, HEADER);
    }
    return made;
}

enum { DIGITS = 20, NUMBERS = 8 };

/* Up to so many digits. Returns how many bytes it wrote. */
static size_t write_digits(uint8_t *at, unsigned most) {
    size_t count = 1 + below(most);
    for (size_t each = 0; each < count; each++) at[each] = (uint8_t)('0' + below(10));
    return count;
}

static struct input make_digits(unsigned count) {
    struct input made = room((size_t)count * (DIGITS + 1));
    uint8_t *at = made.bytes;
    for (unsigned line = 0; line < count; line++) {
        at += write_digits(at, DIGITS);
        *at++ = '\n';
    }
    made.length = (size_t)(at - made.bytes);
    return made;
}

static struct input make_lists(unsigned count) {
    struct input made = room((size_t)count * (NUMBERS * 6 + 3));
    uint8_t *at = made.bytes;
    for (unsigned line = 0; line < count; line++) {
        *at++ = '[';
        for (unsigned left = below(NUMBERS + 1); left; left--) {
            at += write_digits(at, 5);
            if (left > 1) *at++ = ',';
        }
        *at++ = ']';
        *at++ = '\n';
    }
    made.length = (size_t)(at - made.bytes);
    return made;
}

/* One list of so many numbers. */
static struct input make_list(unsigned count) {
    struct input made = room((size_t)count * 6 + 2);
    uint8_t *at = made.bytes;
    *at++ = '[';
    for (unsigned left = count; left; left--) {
        at += write_digits(at, 5);
        if (left > 1) *at++ = ',';
    }
    *at++ = ']';
    *at++ = '\n';
    made.length = (size_t)(at - made.bytes);
    return made;
}

static struct input make_sums(unsigned count) {
    struct input made = room((size_t)count * (NUMBERS * 5 + 6));
    uint8_t *at = made.bytes;
    for (unsigned line = 0; line < count; line++) {
        at += write_digits(at, 4);
        for (unsigned left = below(NUMBERS); left; left--) {
            *at++ = (uint8_t)"+-*"[below(3)];
            at += write_digits(at, 4);
        }
        *at++ = '\n';
    }
    made.length = (size_t)(at - made.bytes);
    return made;
}

static struct input make_messages(unsigned count) {
    struct input made = room((size_t)count * 65);
    uint8_t *at = made.bytes;
    for (unsigned each = 0; each < count; each++) {
        unsigned length = below(65);
        *at++ = (uint8_t)length;
        while (length--) *at++ = (uint8_t)below(256);
    }
    made.length = (size_t)(at - made.bytes);
    return made;
}

/* Up to so many characters of white space before each full stop. */
static struct input make_spaces(unsigned count) {
    struct input made = room((size_t)count * 17);
    uint8_t *at = made.bytes;
    for (unsigned each = 0; each < count; each++) {
        for (unsigned left = below(17); left; left--) *at++ = (uint8_t)"    \t\r\n"[below(7)];
        *at++ = '.';
    }
    made.length = (size_t)(at - made.bytes);
    return made;
}

/* A number on each line, and one in sixteen of them zero. */
static struct input make_ints(unsigned count) {
    struct input made = room((size_t)count * 11);
    uint8_t *at = made.bytes;
    for (unsigned line = 0; line < count; line++) {
        size_t digits = write_digits(at, 10);
        if (*at == '0') *at = '1';
        if (!below(16)) *at = '0', digits = 1;
        at += digits;
        *at++ = '\n';
    }
    made.length = (size_t)(at - made.bytes);
    return made;
}

/* An identifier on each line. */
static struct input make_idents(unsigned count) {
    static const char all[] = "abcdefghijklmnopqrstuvwxyzABCDEFGHIJKLMNOPQRSTUVWXYZ_0123456789";
    struct input made = room((size_t)count * 13);
    uint8_t *at = made.bytes;
    for (unsigned line = 0; line < count; line++) {
        *at++ = (uint8_t)all[below(53)];
        for (unsigned left = below(12); left; left--) *at++ = (uint8_t)all[below(63)];
        *at++ = '\n';
    }
    made.length = (size_t)(at - made.bytes);
    return made;
}

static struct input make_settings(unsigned count) {
    struct input made = room((size_t)count * 16);
    uint8_t *at = made.bytes;
    for (unsigned line = 0; line < count; line++) {
        at += sprintf((char *)at, "%s = ", keywords[below(KEYWORDS)]);
        switch (below(3)) {
        case 0: at += sprintf((char *)at, "true"); break;
        case 1: at += sprintf((char *)at, "false"); break;
        default: at += write_digits(at, 4);
        }
        *at++ = '\n';
    }
    made.length = (size_t)(at - made.bytes);
    return made;
}

/* So many pairs of brackets, each within one another up to this depth. */
static struct input make_brackets(unsigned depth, unsigned times) {
    struct input made = room((size_t)depth * times * 2);
    for (unsigned each = 0; each < times; each++) {
        memset(made.bytes + (size_t)each * depth * 2, '[', depth);
        memset(made.bytes + (size_t)each * depth * 2 + depth, ']', depth);
    }
    return made;
}

/* Which JSON is made: with no spaces, of plain strings and of digits; or with all that JSON has. */
enum json { PLAIN, WHOLE };

/* Up to eight letters. One in four strings of all JSON has an escape. */
static uint8_t *write_string(uint8_t *at, enum json json) {
    static const char *const escapes[] = {"\\n", "\\\"", "\\u00e9", "\\ud83d\\ude00"};
    *at++ = '"';
    if (json == WHOLE && !below(4)) at += sprintf((char *)at, "%s", escapes[below(4)]);
    for (unsigned left = below(9); left; left--) *at++ = (uint8_t)('a' + below(26));
    *at++ = '"';
    return at;
}

/* Up to eight digits. One in four numbers of all JSON has a sign, a fraction or an exponent. */
static uint8_t *write_number(uint8_t *at, enum json json) {
    static const char *const after[] = {".5", ".125", "e9", "E-12"};
    int is_plain = json == PLAIN || below(4);
    if (!is_plain && below(2)) *at++ = '-';
    uint8_t *from = at;
    at += write_digits(at, 8);
    if (json == WHOLE && *from == '0') *from = '1';
    if (!is_plain) at += sprintf((char *)at, "%s", after[below(4)]);
    return at;
}

/* Lists and objects within one another, down to this depth, and then a string, a number or a word. */
static uint8_t *write_json(uint8_t *at, unsigned depth, enum json json) {
    unsigned kind = depth ? 3 + below(2) : below(3);
    if (kind == 0) return write_string(at, json);
    if (kind == 1) return write_number(at, json);
    if (kind == 2) return at + sprintf((char *)at, "%s", below(2) ? "true" : below(2) ? "false" : "null");
    *at++ = kind == 3 ? '[' : '{';
    for (unsigned left = 1 + below(8); left; left--) {
        if (kind == 4) {
            at = write_string(at, json);
            *at++ = ':';
            if (json == WHOLE) *at++ = ' ';
        }
        at = write_json(at, depth - 1, json);
        if (left > 1) *at++ = ',';
        if (left > 1 && json == WHOLE) *at++ = depth > 1 ? '\n' : ' ';
    }
    *at++ = kind == 3 ? ']' : '}';
    return at;
}

static struct input make_json_of(enum json json, unsigned count) {
    struct input made = room((size_t)count * 3400 + 2);
    uint8_t *at = made.bytes;
    *at++ = '[';
    for (unsigned each = 0; each < count; each++) {
        if (each) *at++ = ',';
        at = write_json(at, 2, json);
    }
    *at++ = ']';
    made.length = (size_t)(at - made.bytes);
    return made;
}

static struct input make_json(unsigned count) { return make_json_of(PLAIN, count); }

static struct input make_tree(unsigned count) { return make_json_of(WHOLE, count); }

/* Rounds. */

/* The processor's time, so that what else runs on the machine counts less. */
static double now(void) {
    struct timespec time;
    clock_gettime(CLOCK_PROCESS_CPUTIME_ID, &time);
    return (double)time.tv_sec + (double)time.tv_nsec * 1e-9;
}

enum { PARSERS, C, RUST, WAYS };

struct job {
    const char *name;
    job_function *ways[WAYS];
    struct input input;
    double best[WAYS];
};

/* Whether each way answers the number of the one by hand. */
static int agree(const struct job *job) {
    uint64_t wanted = job->ways[C](job->input.bytes, job->input.length);
    for (int way = 0; way < WAYS; way++) {
        if (!job->ways[way]) continue;
        uint64_t number = job->ways[way](job->input.bytes, job->input.length);
        if (number == wanted) continue;
        printf("%s: %llu, and not %llu\n", job->name, (unsigned long long)number, (unsigned long long)wanted);
        return 0;
    }
    return wanted != 0;
}

static void measure(struct job *job, double seconds) {
    for (int way = 0; way < WAYS; way++) job->best[way] = 1e9;
    double start = now();
    for (int round = 0; round < 5 || now() - start < seconds; round++) {
        for (int way = 0; way < WAYS; way++) {
            if (!job->ways[way]) continue;
            double from = now();
            volatile uint64_t number = job->ways[way](job->input.bytes, job->input.length);
            double taken = now() - from;
            (void)number;
            if (taken < job->best[way]) job->best[way] = taken;
        }
    }
}

static void print(const struct job *job) {
    double megabytes = (double)job->input.length / 1e6;
    printf("%-21s %8.0f %8.0f %8.2f", job->name, megabytes / job->best[PARSERS], megabytes / job->best[C],
           job->best[PARSERS] / job->best[C]);
    if (job->ways[RUST]) printf(" %8.0f %8.2f", megabytes / job->best[RUST], job->best[PARSERS] / job->best[RUST]);
    printf("\n");
}

/* Growth: how long a byte takes, and how much memory, of inputs of several sizes. */

struct growth {
    const char *name;
    job_function *ways[WAYS];
    struct input (*make)(unsigned count);
    unsigned bytes_each;
};

struct cost {
    double nanoseconds, peak;
};

/* One way of a job, in a process of its own, whose memory is its own too. */
static struct cost cost_of(job_function *way, struct input input, double seconds) {
    struct cost cost = {0, 0};
    int ends[2];
    if (pipe(ends)) exit(2);
    pid_t child = fork();
    if (child < 0) exit(2);
    if (child == 0) {
        struct rusage before, after;
        getrusage(RUSAGE_SELF, &before);
        double start = now(), best = 1e9;
        for (int round = 0; round < 1 || now() - start < seconds; round++) {
            double from = now();
            volatile uint64_t number = way(input.bytes, input.length);
            (void)number;
            if (now() - from < best) best = now() - from;
        }
        getrusage(RUSAGE_SELF, &after);
        cost.nanoseconds = best * 1e9 / (double)input.length;
        cost.peak = (double)(after.ru_maxrss - before.ru_maxrss) * 1024 / (double)input.length;
        _exit(write(ends[1], &cost, sizeof cost) != sizeof cost);
    }
    int status;
    if (waitpid(child, &status, 0) != child || status) exit(2);
    if (read(ends[0], &cost, sizeof cost) != sizeof cost) exit(2);
    close(ends[0]);
    close(ends[1]);
    return cost;
}

static int grow(double seconds, const char *only) {
    struct growth growths[] = {
        {"list of strings", {bench_lists_parse, c_lists_parse, RUST(lists_parse)}, make_list, 4},
        {"list of slices", {bench_slices_parse, c_slices_parse, RUST(slices_parse)}, make_list, 4},
        {"json parse", {bench_json_parse, c_json_parse, RUST(json_parse)}, make_json, 195},
        {"json check", {bench_json_check, c_json_check, RUST(json_check)}, make_json, 195},
        {"tree parse", {bench_tree_parse, c_tree_parse, RUST(tree_parse)}, make_tree, 280},
        {"tree check", {bench_tree_check, c_tree_check, RUST(tree_check)}, make_tree, 280},
    };
    static const char *const names[WAYS] = {"parsers", "C", "Rust"};
    int all_agree = 1;
    printf("%-16s %11s   %s\n", "job", "bytes", "of each way nanoseconds a byte, and from 10 MB on peak bytes a byte above the input");
    for (size_t each = 0; each < sizeof growths / sizeof *growths; each++) {
        const struct growth *growth = growths + each;
        if (strncmp(growth->name, only, strlen(only))) continue;
        for (unsigned size = 1000; size <= 100000000; size *= size == 1000 || size == 100000 ? 100 : 10) {
            struct input input = growth->make(size / growth->bytes_each + 1);
            struct job job = {growth->name, {growth->ways[0], growth->ways[1], growth->ways[2]}, input, {0}};
            if (size <= 100000 && !agree(&job)) all_agree = 0;
            printf("%-16s %11zu  ", growth->name, input.length);
            for (int way = 0; way < WAYS; way++) {
                if (!growth->ways[way]) continue;
                struct cost cost = cost_of(growth->ways[way], input, seconds);
                printf("  %8s %7.2f", names[way], cost.nanoseconds);
                if (size >= 1000000) printf(" %6.2f", cost.peak);
            }
            printf("\n");
            fflush(stdout);
            free(input.bytes);
        }
    }
    return all_agree ? 0 : 1;
}

/* The two rows of a job over an input, beside a job by hand. */
#define ROWS(name, job, hand, input)                                                          \
    {name " parse", {bench_##job##_parse, c_##hand##_parse, RUST(hand##_parse)}, input, {0}}, \
        {name " check", {bench_##job##_check, c_##hand##_check, RUST(hand##_check)}, input, {0}}

int main(int count, char **arguments) {
    int grows = count > 1 && !strcmp(arguments[1], "growth");
    if (grows) count--, arguments++;
    double seconds = count > 1 ? atof(arguments[1]) : 1;
    const char *only = count > 2 ? arguments[2] : "";
    if (grows) return grow(seconds, only);
    struct input dates = make_dates(5000), words = make_words(10000), headers = make_headers(10000);
    struct input digits = make_digits(5000), lists = make_lists(2000), settings = make_settings(5000);
    struct input shallow = make_brackets(2, 25000), deep = make_brackets(100000, 1), json = make_json(300);
    struct input failing = make_failing(2000), sums = make_sums(3000), messages = make_messages(2000);
    struct input spaces = make_spaces(8000), ints = make_ints(8000), idents = make_idents(8000), tree = make_tree(300);
    struct job jobs[] = {
        ROWS("dates", dates, dates, dates),
        ROWS("words", words, words, words),
        ROWS("headers", headers, headers, headers),
        ROWS("digits", digits, digits, digits),
        ROWS("lists", lists, lists, lists),
        ROWS("slices", slices, slices, lists),
        ROWS("settings", settings, settings, settings),
        ROWS("keys", keys, settings, settings),
        ROWS("keys rich", keys_rich, settings, settings),
        ROWS("sums", sums, sums, sums),
        ROWS("sums powers", sums_by_powers, sums, sums),
        ROWS("messages", messages, messages, messages),
        ROWS("spaces", spaces, spaces, spaces),
        ROWS("ints", ints, ints, ints),
        ROWS("idents", idents, idents, idents),
        ROWS("shallow", brackets, brackets, shallow),
        ROWS("shallow calls", called_brackets, brackets, shallow),
        ROWS("deep", brackets, brackets, deep),
        ROWS("json", json, json, json),
        ROWS("json calls", called_json, json, json),
        ROWS("json calls rich", called_json_rich, json, json),
        ROWS("tree", tree, tree, tree),
        ROWS("tree calls", called_tree, tree, tree),
        {"fail EmptyErr", {bench_fail_empty, c_fail, RUST(fail)}, failing, {0}},
        {"fail Rich", {bench_fail_rich, c_fail, RUST(fail)}, failing, {0}},
    };
    size_t of = sizeof jobs / sizeof *jobs;
    int all_agree = 1;
    printf("%-21s %8s %8s %8s", "job, MB/s", "parsers", "C", "ratio");
    printf(jobs[0].ways[RUST] ? " %8s %8s\n" : "\n", "Rust", "ratio");
    for (size_t each = 0; each < of; each++) {
        if (strncmp(jobs[each].name, only, strlen(only))) continue;
        if (!agree(&jobs[each])) {
            all_agree = 0;
            continue;
        }
        measure(&jobs[each], seconds);
        print(&jobs[each]);
    }
    if (jobs[of - 2].best[PARSERS] > 0)
        printf("fail: Rich takes %.2f times what EmptyErr takes\n", jobs[of - 1].best[PARSERS] / jobs[of - 2].best[PARSERS]);
    return all_agree ? 0 : 1;
}
