//! What sections hold.
use super::shown::assert_shown;

#[test]
fn sections_hold_names_and_values(rt: HostRuntime) {
    let rows = [
        ("", 0, ""),
        (" \n; nothing\n\n# here", 0, ""),
        ("[a]", 0, "[a]\n"),
        (
            "; where\n[server]\nport = 8080\nhost=example.org ; kept\n\n[ log ]\r\nfile = C:\\a b.log\r\nempty =\n",
            0,
            "[log]\nempty = \nfile = C:\\a b.log\n[server]\nhost = example.org ; kept\nport = 8080\n",
        ),
        ("[a]\nx = y = z\n", 0, "[a]\nx = y = z\n"),
        ("[a]\nx = 1\nx = 2\n", 0, "[a]\nx = 2\n"),
        ("[a]\nx = 1\n[b]\n[a]\ny = 2\n", 0, "[a]\ny = 2\n[b]\n"),
        ("[b]\r\nx=1\r\n\r\n[a]\r\n", 0, "[a]\n[b]\nx = 1\n"),
        ("[a]\nx=\n#last", 0, "[a]\nx = \n"),
        ("[ ]\ny==\n;", 0, "[]\ny = =\n"),
        ("[a] [b] ; c\n[c] x = 1", 0, "[a]\n[b]\n[c]\nx = 1\n"),
    ];
    assert_shown(&rt, "ini", &rows);
}

#[test]
fn each_line_that_is_wrong_has_its_own_error_and_the_rest_are_read(rt: HostRuntime) {
    let rows = [
        (
            "port = 8080",
            1,
            "input:1:1: expected a section, found 'p'\nport = 8080\n^\n",
        ),
        (
            "[server\nport = 1",
            1,
            "input:1:8: expected something else or ']', found '\\n'\n[server\n       ^\n",
        ),
        (
            "[a]\nport\n",
            1,
            "[a]\ninput:2:5: expected something else or '=', found '\\n'\nport\n    ^\n",
        ),
        (
            "[a] x = 1\n[b]] y = 2 ; kept\n",
            1,
            "[a]\nx = 1\n[b]\ninput:2:4: expected a name, found ']'\n[b]] y = 2 ; kept\n   ^\n",
        ),
        // What stands below a wrong head belongs to no section.
        (
            "[a]\n= 1\nx = 2\n; here\n][b]\n[]\nz = 3\n[c\nn\n[d]\ny = 2\nrest",
            1,
            "[a]\nx = 2\n[d]\ny = 2\n\
             input:2:1: expected a name, found '='\n= 1\n^\n\
             input:5:1: expected a name, found ']'\n][b]\n^\n\
             input:6:2: expected a name, found ']'\n[]\n ^\n\
             input:8:3: expected something else or ']', found '\\n'\n[c\n  ^\n\
             input:9:2: expected something else or '=', found '\\n'\nn\n ^\n\
             input:12:5: expected something else or '=', found end of input\nrest\n    ^\n",
        ),
    ];
    assert_shown(&rt, "ini", &rows);
}
