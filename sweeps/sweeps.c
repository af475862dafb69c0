/* Refuses each request for memory of the rows of sweeps/src in turn, and judges what they answer. See scripts/sweeps. */
#include <stdbool.h>
#include <stdio.h>
#include <stdlib.h>
#include <string.h>
#include <sys/mman.h>
#include <sys/wait.h>
#include <unistd.h>

/* The program's start and its requests, which the linker leads here (--wrap), and what is behind them. */

struct tried {
    bool has_memory;
    void *block;
};

int __real_main(int count, char **words);
int __wrap_main(int count, char **words);
struct tried __real_rattle_alloc(size_t size, size_t align);
struct tried __real_rattle_realloc(void *block, size_t kept, size_t size, size_t align);
void __real_rattle_dealloc(void *block);
struct tried __wrap_rattle_alloc(size_t size, size_t align);
struct tried __wrap_rattle_realloc(void *block, size_t kept, size_t size, size_t align);
void __wrap_rattle_dealloc(void *block);

/* How many requests a run made, which of them is refused (none: 0), and how many blocks are not given back yet. A run is a
   process of its own, and the judge sees this as well. */
static struct {
    size_t requests, refused;
    long blocks;
} *memory;

static bool is_refused(void) {
    memory->requests += 1;
    return memory->requests == memory->refused;
}

static struct tried refusal(void) {
    static char nothing;
    return (struct tried){false, &nothing};
}

struct tried __wrap_rattle_alloc(size_t size, size_t align) {
    if (is_refused()) return refusal();
    struct tried made = __real_rattle_alloc(size, align);
    memory->blocks += made.has_memory;
    return made;
}

struct tried __wrap_rattle_realloc(void *block, size_t kept, size_t size, size_t align) {
    return is_refused() ? refusal() : __real_rattle_realloc(block, kept, size, align);
}

void __wrap_rattle_dealloc(void *block) {
    memory->blocks -= 1;
    __real_rattle_dealloc(block);
}

/* The rows. */

enum { BY_PARSE = 1, BY_CHECK = 2, BY_BOTH = 3 };

/* A row: how it is run, and what it answers; by check, where that is another line than by parse, it has a row of its own. */
struct row {
    const char *name;
    unsigned char row;
    int by;
    const char *answer;
};

#define DIGITS "'0', '1', '2', '3', '4', '5', '6', '7', '8', '9'"

static const struct row rows[] = {
    {"set", 0, BY_PARSE, "ok abc def ijk"},
    {"set", 0, BY_CHECK, "ok ()"},
    {"filtered_merges", 0, BY_BOTH, "no output; ((a (b c)) d)"},
    {"merges", 0, BY_BOTH, "no output; (((a b) c) d)"},
    {"messages", 0, BY_PARSE, "ok a b; 0..1 expected found end; 1..2 expected found end"},
    {"messages", 0, BY_CHECK, "ok (); 0..1 expected found end; 1..2 expected found end"},
    {"refusal_with_a_message", 0, BY_BOTH, "no output; 1..2 expected found end"},
    {"filter", 0, BY_BOTH, "no output; 0..1 expected a something c found b"},
    {"nested", 0, BY_BOTH, "no output; 0..1 expected 1 found 2"},
    {"recovered", 0, BY_PARSE, "ok [azzb]; 2..3 expected a b found x; 6..7 expected ; found z"},
    {"recovered", 0, BY_CHECK, "ok (); 2..3 expected a b found x; 6..7 expected ; found z"},
    {"recovered", 1, BY_PARSE, "ok [az]; 2..3 expected a b found x"},
    {"recovered", 1, BY_CHECK, "ok (); 2..3 expected a b found x"},
    {"recovered", 2, BY_PARSE, "ok [a]; 0..1 expected a b found x"},
    {"recovered", 2, BY_CHECK, "ok (); 0..1 expected a b found x"},
    {"delimited", 0, BY_PARSE, "ok 7"},
    {"delimited", 0, BY_CHECK, "ok ()"},
    {"delimited", 1, BY_PARSE, "ok z; 1..2 expected 7 found ("},
    {"delimited", 1, BY_CHECK, "ok (); 1..2 expected 7 found ("},
    {"delimited", 2, BY_BOTH, "no output; 1..2 expected 7 found ("},
    {"operators", 0, BY_PARSE, "ok 127"},
    {"operators", 0, BY_CHECK, "ok ()"},
    {"operators", 1, BY_BOTH, "no output; 3..3 expected - 1 found end"},
    {"operators", 2, BY_BOTH, "no output; 5..6 expected ! ^ + end found <"},
    {"kept_operators", 0, BY_PARSE, "ok [1]"},
    {"kept_operators", 0, BY_CHECK, "ok ()"},
    {"kept_operators", 1, BY_BOTH, "no output; 6..6 expected - 1 found end"},
    {"chained_items", 0, BY_PARSE, "ok [abbcc]"},
    {"chained_items", 0, BY_CHECK, "ok ()"},
    {"chained_items", 1, BY_BOTH, "no output; 0..1 expected a found b"},
    {"flatten", 0, BY_PARSE, "ok 5"},
    {"flatten", 0, BY_CHECK, "ok ()"},
    {"collect", 0, BY_PARSE, "ok [aaa]"},
    {"collect", 0, BY_CHECK, "ok ()"},
    {"filtered_items", 0, BY_PARSE, "ok 2; 2..2 expected any found end"},
    {"items", 0, BY_PARSE, "ok 2; 2..3 expected a b end found c"},
    {"items", 1, BY_PARSE, "ok 1; 1..2 expected end found b"},
    {"few_items", 0, BY_PARSE, "ok 2; 2..2 expected a b found end"},
    {"empty_items", 0, BY_PARSE, "refused NoProgress"},
    {"items_of_an_output", 0, BY_PARSE, "ok 0; 0..1 expected end found b"},
    {"items_of_an_output", 1, BY_PARSE, "ok 0; 0..1 expected a found b"},
    {"restored_state", 0, BY_PARSE, "ok a c; state 0"},
    {"restored_state", 0, BY_CHECK, "ok (); state 0"},
    {"restored_text", 0, BY_PARSE, "ok a c; state z"},
    {"restored_text", 0, BY_CHECK, "ok (); state z"},
    {"closing", 0, BY_PARSE, "4"},
    {"closing", 1, BY_PARSE, "8"},
    {"closing", 4, BY_PARSE, "4"},
    {"well_founded", 0, BY_PARSE, "order 0"},
    {"well_founded", 1, BY_PARSE, "order 1 0"},
    {"well_founded", 5, BY_PARSE, "order 0 1"},
    {"well_founded", 6, BY_PARSE, "left cycle 0"},
    {"well_founded", 7, BY_PARSE, "order 0"},
    {"well_founded", 8, BY_PARSE, "left cycle 0"},
    {"well_founded", 9, BY_PARSE, "order 0"},
    {"well_founded", 10, BY_PARSE, "order 0"},
    {"well_founded", 11, BY_PARSE, "order 0"},
    {"well_founded", 12, BY_PARSE, "left cycle 1"},
    {"well_founded", 13, BY_PARSE, "left cycle 0"},
    {"grammar", 0, BY_PARSE, "ok 4"},
    {"grammar", 0, BY_CHECK, "ok ()"},
    {"grammar", 1, BY_BOTH, "refused TooDeep"},
    {"grammar", 2, BY_BOTH, "no output; 4..4 expected + [ ] found end"},
    {"grammar", 3, BY_BOTH, "refused TooDeep"},
    {"grammar", 4, BY_PARSE, "ok 1"},
    {"grammar", 4, BY_CHECK, "ok ()"},
    {"grammar", 5, BY_BOTH, "no output; 0..0 expected found end"},
    {"grammar", 6, BY_BOTH, "refused TooDeep"},
    {"grammar", 7, BY_PARSE, "ok 2"},
    {"grammar", 7, BY_CHECK, "ok ()"},
    {"grammar", 8, BY_BOTH, "no output; 0..1 expected a found b"},
    {"drawn", 0, BY_PARSE, "drawn"},
    {"recursive", 0, BY_PARSE, "rule 0, nodes 12"},
    {"calls", 0, BY_PARSE, "ok 6"},
    {"calls", 0, BY_CHECK, "ok ()"},
    {"calls", 1, BY_BOTH, "no output; 7..7 expected , ] found end"},
    {"calls", 2, BY_BOTH, "refused TooDeep"},
    {"into_owned", 0, BY_PARSE, "ok"},
    {"declared", 0, BY_PARSE, "ok ac"},
    {"chk", 0, BY_PARSE, "0 ok ab|"},
    {"chk", 0, BY_CHECK, "0 ok|"},
    {"chk", 1, BY_BOTH, "1 error 1..2 expected 'b' found 'c'|"},
    {"chk", 2, BY_PARSE, "0 ok 12 3|"},
    {"chk", 2, BY_CHECK, "0 ok|"},
    {"chk", 3, BY_BOTH, "1 error 3..4 expected " DIGITS ", ']' found ','|"},
    {"chk", 4, BY_PARSE, "0 ok 2|"},
    {"chk", 4, BY_CHECK, "0 ok|"},
    {"chk", 5, BY_BOTH, "1 error 2..2 expected '+', '[', ']' found end|"},
    {"chk", 6, BY_PARSE, "0 ok a=1 b=[1,[x]]|"},
    {"chk", 6, BY_CHECK, "0 ok|"},
    {"chk", 7, BY_BOTH, "1 error 3..3 expected " DIGITS ", U+000A found end|"},
    {"chk", 8, BY_BOTH, "1 error 2..22 number too large|"},
    {"chk", 9, BY_BOTH, "2 usage: chk parse|check|show|draw NAME|"},
};

/* Values of which one clone is made, and how many rows they are. */
static const struct {
    const char *name;
    unsigned char rows;
} clones[] = {
    {"clone_primitive", 10}, {"clone_sequence", 14}, {"clone_mapped", 19},
    {"clone_items", 14},     {"clone_under", 10},    {"clone_value", 14},
    {"clone_recovered", 5},  {"clone_operators", 7},
};

/* The judge. */

static const char want_of_memory[] = "refused Memory";
static size_t passed, failed, swept;

/* What a run answers: its first line and its second, whether it met the refusal, and how many blocks it did not give back. */
struct answer {
    char text[1024];
    const char *line[2];
    bool met;
    long left;
};

static void fail(const char *what) {
    perror(what);
    exit(2);
}

/* In a process of its own, the program with these two ends of pipes for its input and its output. */
static void run_program(int input, int output) {
    char *words[] = {"sweeps", NULL};
    if (dup2(input, 0) < 0 || dup2(output, 1) < 0) _exit(2);
    _exit(__real_main(1, words));
}

/* Runs a row with one request refused, or with none. */
static struct answer *run(const struct row *row, bool check, bool again, size_t refuse) {
    static struct answer answer;
    char asked[64] = {(char)row->row, check, again};
    size_t asked_bytes = 3 + strlen(strcpy(asked + 3, row->name)), length = 0;
    int to_run[2], from_run[2], status;
    memory->requests = 0, memory->refused = refuse, memory->blocks = 0;
    fflush(stdout);
    if (pipe(to_run) || pipe(from_run)) fail("pipe");
    if (write(to_run[1], asked, asked_bytes) != (ssize_t)asked_bytes) fail("write");
    pid_t made = fork();
    if (made < 0) fail("fork");
    if (!made) run_program(to_run[0], from_run[1]);
    close(to_run[0]), close(to_run[1]), close(from_run[1]);
    for (ssize_t more; (more = read(from_run[0], answer.text + length, sizeof answer.text - 1 - length)) > 0;) {
        length += (size_t)more;
    }
    close(from_run[0]);
    if (waitpid(made, &status, 0) != made) fail("waitpid");
    answer.text[length] = 0;
    if (status) snprintf(answer.text, sizeof answer.text, "(it ended with the status %d)", status);
    answer.met = refuse && memory->requests >= refuse;
    answer.left = memory->blocks;
    char *end = strchr(answer.text, '\n');
    if (end) *end = 0;
    answer.line[0] = answer.text;
    answer.line[1] = end ? end + 1 : "";
    return &answer;
}

static bool expect(const struct row *row, bool check, size_t refuse, const char *run, const char *line, const char *wanted) {
    if (!strcmp(line, wanted)) return true;
    printf("%s %d by %s, request %zu refused: %s answers '%s', and not '%s': FAILED\n", row->name, row->row,
           check ? "check" : "parse", refuse, run, line, wanted);
    return false;
}

/* The line of a run that met a refusal. */
static bool expect_refusal(const struct row *row, bool check, size_t refuse, const char *line) {
    return expect(row, check, refuse, "the run that met it", line, want_of_memory);
}

static bool is_given_back(const struct row *row, size_t refuse, const struct answer *answer) {
    if (!answer->left) return true;
    printf("%s %d, request %zu refused: %ld blocks are not given back: FAILED\n", row->name, row->row, refuse, answer->left);
    return false;
}

/* Refuses the first request, the second, .. until a run meets no refusal. A run that met one answers out of memory, and
   the next run of the same thing, which meets none, answers the row; so does the run that met none. */
static bool sweep(const struct row *row, bool check) {
    for (size_t refuse = 1;; refuse += 1) {
        struct answer *alone = run(row, check, false, refuse);
        if (!is_given_back(row, refuse, alone)) return false;
        if (!alone->met) return expect(row, check, 0, "a run that met no refusal", alone->line[0], row->answer);
        if (!expect_refusal(row, check, refuse, alone->line[0])) return false;
        struct answer *twice = run(row, check, true, refuse);
        if (!is_given_back(row, refuse, twice)) return false;
        if (!expect_refusal(row, check, refuse, twice->line[0])) return false;
        if (!expect(row, check, refuse, "the run after it", twice->line[1], row->answer)) return false;
        swept += 1;
    }
}

static void judge(const struct row *row, const char *only) {
    if (only && strcmp(only, row->name)) return;
    for (int check = 0; check < 2; check += 1) {
        if (!(row->by & (check ? BY_CHECK : BY_PARSE))) continue;
        if (sweep(row, check)) {
            passed += 1;
        } else {
            failed += 1;
        }
    }
}

int __wrap_main(int count, char **words) {
    const char *only = count > 1 ? words[1] : NULL;
    memory = mmap(NULL, sizeof *memory, PROT_READ | PROT_WRITE, MAP_SHARED | MAP_ANONYMOUS, -1, 0);
    if (memory == MAP_FAILED) fail("mmap");
    for (size_t n = 0; n < sizeof rows / sizeof *rows; n += 1) judge(&rows[n], only);
    for (size_t n = 0; n < sizeof clones / sizeof *clones; n += 1) {
        for (unsigned char row = 0; row < clones[n].rows; row += 1) {
            struct row clone = {clones[n].name, row, BY_PARSE, "ok"};
            judge(&clone, only);
        }
    }
    printf("requests that were refused, one after another: %zu\n", swept);
    printf("%zu passed, %zu failed\n", passed, failed);
    return failed || !passed;
}
