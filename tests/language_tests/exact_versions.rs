//! Versions of Semantic Versioning 2.0.0: the examples that semver.org lists, valid and invalid, and a few more.
use exact::version::parse_version;
use std::test::Fail;

#[test]
fn versions_are_read_part_by_part(rt: HostRuntime) -> Result<(), Fail> {
    let alloc = rt.alloc();
    let accepted: [(&str, [&str; 3], &[&str], &[&str]); 19] = [
        ("0.0.4", ["0", "0", "4"], &[], &[]),
        ("1.2.3", ["1", "2", "3"], &[], &[]),
        ("10.20.30", ["10", "20", "30"], &[], &[]),
        ("1.1.2-prerelease+meta", ["1", "1", "2"], &["prerelease"], &["meta"]),
        ("1.1.2+meta-valid", ["1", "1", "2"], &[], &["meta-valid"]),
        ("1.0.0-alpha.1", ["1", "0", "0"], &["alpha", "1"], &[]),
        ("1.0.0-0.3.7", ["1", "0", "0"], &["0", "3", "7"], &[]),
        ("1.0.0-alpha.0valid", ["1", "0", "0"], &["alpha", "0valid"], &[]),
        ("1.0.0-0A.is.legal", ["1", "0", "0"], &["0A", "is", "legal"], &[]),
        ("1.0.0--.-", ["1", "0", "0"], &["-", "-"], &[]),
        ("1.0.0-0-", ["1", "0", "0"], &["0-"], &[]),
        ("1.0.0+20130313144700", ["1", "0", "0"], &[], &["20130313144700"]),
        ("1.0.0-beta+exp.sha.5114f85", ["1", "0", "0"], &["beta"], &["exp", "sha", "5114f85"]),
        ("1.0.0+001.00", ["1", "0", "0"], &[], &["001", "00"]),
        ("1.0.0-rc.1+build.1", ["1", "0", "0"], &["rc", "1"], &["build", "1"]),
        ("1.2.3----RC-SNAPSHOT.12.9.1--.12+788", ["1", "2", "3"], &["---RC-SNAPSHOT", "12", "9", "1--", "12"], &["788"]),
        ("1.0.0+0.build.1-rc.10000aaa-kk-0.1", ["1", "0", "0"], &[], &["0", "build", "1-rc", "10000aaa-kk-0", "1"]),
        (
            "1.0.0-alpha-a.b-c-somethinglong+build.1-aef.1-its-okay",
            ["1", "0", "0"],
            &["alpha-a", "b-c-somethinglong"],
            &["build", "1-aef", "1-its-okay"],
        ),
        (
            "99999999999999999999999.999999999999999999.99999999999999999",
            ["99999999999999999999999", "999999999999999999", "99999999999999999"],
            &[],
            &[],
        ),
    ];
    for (text, numbers, pre_release, build) in accepted {
        let version = parse_version(alloc, text)?.into_result().ok();
        assert!(rt; version.is_some(), "{text}");
        if let Some(version) = version {
            assert_eq!(rt; [version.major, version.minor, version.patch], numbers, "{text}");
            assert_eq!(rt; version.pre_release.as_slice(), pre_release, "{text}");
            assert_eq!(rt; version.build.as_slice(), build, "{text}");
        }
    }
    Ok(())
}

#[test]
fn no_other_text_is_a_version(rt: HostRuntime) -> Result<(), Fail> {
    let alloc = rt.alloc();
    for text in [
        "", "1", "1.2", "1.2.", "1.2.3.", "1.2.3.4", "1.2.3-", "1.2.3+", "1.2.3-+", "1.2.3-+build", "1.2.3-alpha+", "1.2.3-0123", "1.2.3-0123.0123", "1.0.0-01", "1.0.0-00",
        "1.1.2+.123", "+invalid", "-invalid", "-invalid+invalid", "alpha", "alpha.beta.1", "alpha+beta", "1.0.0-alpha_beta", "1.0.0-alpha.", "1.0.0-alpha..", "1.0.0-alpha..1",
        "1.0.0-.alpha", "01.1.1", "1.01.1", "1.1.01", "00.0.0", "1.2.3.DEV", "1.2-SNAPSHOT", "1.2.31.2.3----RC-SNAPSHOT.12.09.1--..12+788", "-1.0.3-gamma+b7718", "+justmeta",
        "9.8.7+meta+meta", "9.8.7-whatever+meta+meta", "9.8.7+meta..1", "9.8.7+ä", "9.8.7-ä", "v1.2.3", "1.2.3 ", " 1.2.3", "1. 2.3", "1.2.3\n", "1,2,3", "a.b.c", "1.2.x", "+1.2.3", "١.٢.٣",
    ] {
        let parsed = parse_version(alloc, text)?;
        assert!(rt; parsed.has_errors() && !parsed.has_output(), "{text}");
    }
    Ok(())
}
