//! What lines of a log say, and which are errors.
use super::shown::assert_shown;

#[test]
fn each_line_that_is_wrong_has_its_own_error_and_the_rest_are_read(rt: HostRuntime) {
    let rows = [
        ("", 0, ""),
        (
            "07:30:59 INFO started\n23:00:00 WARN disk almost full",
            0,
            "info at 07:30:59: started\nwarning at 23:00:00: disk almost full\n",
        ),
        (
            "\n00:00:00 ERROR down\r\n\r\n12:34:56 INFO up again\n",
            0,
            "error at 00:00:00: down\ninfo at 12:34:56: up again\n",
        ),
        (
            "07:30:59 INFO started\n7:31:00 INFO no\n24:00:00 WARN no\n07:32:00 FATAL no\n07:33:00 INFO\n07:34:00 ERROR stopped\n",
            1,
            "info at 07:30:59: started\nerror at 07:34:00: stopped\n\
             input:2:1: expected an hour, found '7'\n7:31:00 INFO no\n^\n\
             input:3:1: expected an hour, found '2'\n24:00:00 WARN no\n^^\n\
             input:4:10: expected a level, found 'F'\n07:32:00 FATAL no\n         ^^^^^\n\
             input:5:14: expected a message, found '\\n'\n07:33:00 INFO\n             ^\n",
        ),
        (
            "07:30:59 INFO started  \t\n07:31:00 INFO  \n07:32:00 WARNING no\n07:33:000 INFO no\n07-34:00 INFO no\n07:35:00  INFO no",
            1,
            "info at 07:30:59: started\n\
             input:2:15: expected a message, found ' '\n07:31:00 INFO  \n              ^\n\
             input:3:10: expected a level, found 'W'\n07:32:00 WARNING no\n         ^^^^^^^\n\
             input:4:7: expected a second, found '0'\n07:33:000 INFO no\n      ^^^\n\
             input:5:3: expected digit or ':', found '-'\n07-34:00 INFO no\n  ^\n\
             input:6:10: expected a level, found ' '\n07:35:00  INFO no\n         ^\n",
        ),
    ];
    assert_shown(&rt, "log", &rows);
}
