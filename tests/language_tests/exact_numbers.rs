//! Numbers of JSON by a function whose contract says exactly which texts it accepts: those of JSONTestSuite, without their brackets, and
//! more.
use exact::json_number::parse_number_text;
use std::process::Abort;

#[test]
fn numbers_are_read_as_they_are_written(rt: HostRuntime) {
    let texts = [
        "0", "-0", "1", "-1", "9", "10", "123", "-123", "20e1", "0e1", "0e+1", "0E-1", "1E22", "1E-2", "1E+2", "1e-2", "1e+2", "123e45", "123e65", "123.456e78",
        "123.456789", "-0.0", "0.00", "1e00", "1.0e05", "-12.50E+03", "123.456e-789", "-1e+9999", "1.5e+9999", "-123123e100000", "123e-10000000",
        "18446744073709551616", "-237462374673276894279832749832423479823246327846", "0.4e00669999999999999999999999999999999999999999999999999999999999999969999999006",
        "-0.000000000000000000000000000000000000000000000000000000000000000000000000000001",
    ];
    for text in texts {
        let parsed = parse_number_text(rt.alloc(), text).expect(&rt, "refused");
        let read = parsed.into_result().expect(&rt, "no number");
        assert_eq!(rt; read.as_str(), text);
    }
}

#[test]
fn other_texts_are_none(rt: HostRuntime) {
    let texts = [
        "", "-", "+", ".", "e", "e1", "E+1", "++1234", "+1", "+Inf", "-01", "-1.0.", "-2.", "-NaN", ".-1", ".2e-3", "0.1.2", "0.3e+", "0.3e", "0.e1", "0E+", "0E", "0e+", "0e",
        "1.0e+", "1.0e-", "1.0e", "1 000.0", "1eE2", "2.e+3", "2.e-3", "2.e3", "9.e+", "Inf", "NaN", "\u{ff11}", "1+2", "0x1", "0x42", "Infinity", "-Infinity", "0e+-1", "-123.123foo", "1.",
        "-foo", "- 1", "-012", "-.123", "-1x", "1ea", ".123", "1.2a-3", "1.8011670033376514H-308", "012", "00", "-00", "01.5", "--1", "1-", "1e5.5", "1e5e5", "1.5.", " 1", "1 ", "1\n",
        "1e 5", "1_000", "\u{661}", "1e\u{664}", "1,5", "null",
    ];
    for text in texts {
        let parsed = parse_number_text(rt.alloc(), text).expect(&rt, "refused");
        assert!(rt; parsed.has_errors() && !parsed.has_output(), "{text}");
    }
}
