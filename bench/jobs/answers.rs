//! What each job answers of a small input. `scripts/tests` compiles the jobs with this and runs it, and proves nothing.
use super::dates::{bench_dates_check, bench_dates_parse, bench_fail_empty, bench_fail_rich};
use super::descent::{
    bench_called_brackets_check, bench_called_brackets_parse, bench_called_json_check,
    bench_called_json_parse,
};
use super::descent_rich::{bench_called_json_rich_check, bench_called_json_rich_parse};
use super::descent_trees::{bench_called_tree_check, bench_called_tree_parse};
use super::grammars::{
    bench_brackets_check, bench_brackets_parse, bench_json_check, bench_json_parse,
};
use super::headers::{bench_headers_check, bench_headers_parse};
use super::lists::{
    bench_digits_check, bench_digits_parse, bench_lists_check, bench_lists_parse,
    bench_slices_check, bench_slices_parse,
};
use super::messages::{bench_messages_check, bench_messages_parse};
use super::settings::{
    bench_keys_check, bench_keys_parse, bench_keys_rich_check, bench_keys_rich_parse,
    bench_settings_check, bench_settings_parse,
};
use super::sums::{
    bench_sums_by_powers_check, bench_sums_by_powers_parse, bench_sums_check, bench_sums_parse,
};
use super::texts::{
    bench_idents_check, bench_idents_parse, bench_ints_check, bench_ints_parse, bench_spaces_check,
    bench_spaces_parse,
};
use super::trees::{bench_tree_check, bench_tree_parse};
use super::words::{bench_words_check, bench_words_parse};
use std::process::Abort;

/// Asserts that a job answers these numbers, by `parse` and by `check`.
fn assert_row<R: Abort>(rt: &R, what: &str, answers: (u64, u64), expected: (u64, u64)) {
    assert_eq!(rt; answers, expected, "{what}");
}

#[test]
fn lines_add_up(rt: HostRuntime) {
    let alloc = rt.alloc();
    let dates = b"2026-11-23\n1999-01-02\n";
    let answers = (
        bench_dates_parse(alloc, dates),
        bench_dates_check(alloc, dates),
    );
    assert_row(&rt, "dates", answers, (816, 2));
    let words = b"let\nimpl\nwhile\n";
    let answers = (
        bench_words_parse(alloc, words),
        bench_words_check(alloc, words),
    );
    assert_row(&rt, "words", answers, (14, 3));
    let digits = b"12\n345\n";
    let answers = (
        bench_digits_parse(alloc, digits),
        bench_digits_check(alloc, digits),
    );
    assert_row(&rt, "digits", answers, (5, 2));
    let lists = b"[12,3]\n[]\n";
    let answers = (
        bench_lists_parse(alloc, lists),
        bench_lists_check(alloc, lists),
    );
    assert_row(&rt, "lists", answers, (3, 2));
    let answers = (
        bench_slices_parse(alloc, lists),
        bench_slices_check(alloc, lists),
    );
    assert_row(&rt, "slices", answers, (3, 2));
    let sums = b"12+3*45-6\n2*3\n";
    let answers = (bench_sums_parse(alloc, sums), bench_sums_check(alloc, sums));
    assert_row(&rt, "sums", answers, (147, 2));
    let answers = (
        bench_sums_by_powers_parse(alloc, sums),
        bench_sums_by_powers_check(alloc, sums),
    );
    assert_row(&rt, "sums powers", answers, (147, 2));
}

#[test]
fn settings_are_keywords_with_values(rt: HostRuntime) {
    let alloc = rt.alloc();
    let settings = b"port = 8080\nverbose = true\nlog = false\n";
    let answers = (
        bench_settings_parse(alloc, settings),
        bench_settings_check(alloc, settings),
    );
    assert_row(&rt, "settings", answers, (34, 3));
    let answers = (
        bench_keys_parse(alloc, settings),
        bench_keys_check(alloc, settings),
    );
    assert_row(&rt, "keys", answers, (34, 3));
    let answers = (
        bench_keys_rich_parse(alloc, settings),
        bench_keys_rich_check(alloc, settings),
    );
    assert_row(&rt, "keys rich", answers, (34, 3));
}

#[test]
fn bytes_and_white_space_are_counted(rt: HostRuntime) {
    let alloc = rt.alloc();
    let headers = b"\x7fELF\x01\x01\x03\x04\x7fELF\x02\x01\xff\x00";
    let answers = (
        bench_headers_parse(alloc, headers),
        bench_headers_check(alloc, headers),
    );
    assert_row(&rt, "headers", answers, (262, 2));
    let messages = b"\x02ab\x00\x01c";
    let answers = (
        bench_messages_parse(alloc, messages),
        bench_messages_check(alloc, messages),
    );
    assert_row(&rt, "messages", answers, (3, 3));
    let spaces = b"  .\t.";
    let answers = (
        bench_spaces_parse(alloc, spaces),
        bench_spaces_check(alloc, spaces),
    );
    assert_row(&rt, "spaces", answers, (3, 2));
    let ints = b"0\n120\n";
    let answers = (bench_ints_parse(alloc, ints), bench_ints_check(alloc, ints));
    assert_row(&rt, "ints", answers, (4, 2));
    let idents = b"a1\n_b\n";
    let answers = (
        bench_idents_parse(alloc, idents),
        bench_idents_check(alloc, idents),
    );
    assert_row(&rt, "idents", answers, (4, 2));
}

#[test]
fn grammars_run_over_the_whole_text(rt: HostRuntime) {
    let alloc = rt.alloc();
    let brackets = b"[[]][]";
    let answers = (
        bench_brackets_parse(alloc, brackets),
        bench_brackets_check(alloc, brackets),
    );
    assert_row(&rt, "brackets", answers, (3, 1));
    let answers = (
        bench_called_brackets_parse(alloc, brackets),
        bench_called_brackets_check(alloc, brackets),
    );
    assert_row(&rt, "brackets by functions", answers, (3, 1));
    let json = b"{\"a\":[1,\"b\",true],\"c\":null}";
    let answers = (bench_json_parse(alloc, json), bench_json_check(alloc, json));
    assert_row(&rt, "json", answers, (6, 1));
    let answers = (
        bench_called_json_parse(alloc, json),
        bench_called_json_check(alloc, json),
    );
    assert_row(&rt, "json by functions", answers, (6, 1));
    let answers = (
        bench_called_json_rich_parse(alloc, json),
        bench_called_json_rich_check(alloc, json),
    );
    assert_row(&rt, "json by functions, rich", answers, (6, 1));
    let tree = b"{\"a\": [1, \"b\", true]}";
    let answers = (bench_tree_parse(alloc, tree), bench_tree_check(alloc, tree));
    assert_row(&rt, "tree", answers, (124_995, 1));
    let answers = (
        bench_called_tree_parse(alloc, tree),
        bench_called_tree_check(alloc, tree),
    );
    assert_row(&rt, "tree by functions", answers, (124_995, 1));
}

#[test]
fn what_is_wrong_is_refused(rt: HostRuntime) {
    let alloc = rt.alloc();
    let lines = b"2026-11-x3\n2026-11-23\n";
    let answers = (
        bench_fail_empty(alloc, lines),
        bench_fail_rich(alloc, lines),
    );
    assert_row(&rt, "dates", answers, (1_401, 1_401));
    let json = b"[1,]";
    let answers = (bench_json_parse(alloc, json), bench_json_check(alloc, json));
    assert_row(&rt, "json", answers, (0, 0));
    let answers = (
        bench_called_json_parse(alloc, json),
        bench_called_json_check(alloc, json),
    );
    assert_row(&rt, "json by functions", answers, (0, 0));
    let answers = (
        bench_called_json_rich_parse(alloc, json),
        bench_called_json_rich_check(alloc, json),
    );
    assert_row(&rt, "json by functions, rich", answers, (0, 0));
}
