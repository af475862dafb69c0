/* The jobs: of each one by parsers (bench_), one by hand in C (c_) and one by hand in Rust (rust_). */
#include <stddef.h>
#include <stdint.h>

typedef uint64_t job_function(const uint8_t *bytes, size_t length);

#define JOB(name)                                                                                \
    job_function bench_##name##_parse, bench_##name##_check, c_##name##_parse, c_##name##_check, \
        rust_##name##_parse, rust_##name##_check

JOB(dates);
JOB(words);
JOB(headers);
JOB(digits);
JOB(lists);
JOB(slices);
JOB(settings);
JOB(sums);
JOB(messages);
JOB(spaces);
JOB(ints);
JOB(idents);
JOB(brackets);
JOB(json);
JOB(tree);

/* By hand, keys are settings, sums have no powers, no grammar is rules or functions, and no error is kept. */
#define PARSERS_JOB(name) job_function bench_##name##_parse, bench_##name##_check

PARSERS_JOB(keys);
PARSERS_JOB(keys_rich);
PARSERS_JOB(sums_by_powers);
PARSERS_JOB(called_brackets);
PARSERS_JOB(called_json);
PARSERS_JOB(called_json_rich);
PARSERS_JOB(called_tree);

job_function bench_fail_empty, bench_fail_rich, c_fail, rust_fail;

/* The bytes of a date with its line's end, and of a header. */
enum { DATE = 11, HEADER = 8 };

/* The keywords of settings. */
static const char *const keywords[] = {"host", "port", "user", "group", "root", "index",
                                       "log", "level", "cache", "timeout", "retries", "verbose"};
enum { KEYWORDS = sizeof keywords / sizeof *keywords };
