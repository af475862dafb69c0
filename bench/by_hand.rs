//! The jobs of bench/jobs by hand. See scripts/bench.

/// # Safety
/// Pointer and length are those of one array of bytes, borrowed for the call.
unsafe fn bytes_of<'a>(bytes: *const u8, length: usize) -> &'a [u8] {
    unsafe { std::slice::from_raw_parts(bytes, length) }
}

macro_rules! jobs {
    ($($exported:ident = $how:ident($reads:path);)*) => {
        $(
            /// # Safety
            /// As of `bytes_of`.
            #[unsafe(no_mangle)]
            pub unsafe extern "C" fn $exported(bytes: *const u8, length: usize) -> u64 {
                $how(unsafe { bytes_of(bytes, length) }, $reads)
            }
        )*
    };
}

jobs! {
    rust_dates_parse = sum_of_lines(date);
    rust_dates_check = count_of_lines(date);
    rust_words_parse = sum_of_lines(word);
    rust_words_check = count_of_lines(word);
    rust_headers_parse = sum_of_lines(header);
    rust_headers_check = count_of_lines(header);
    rust_digits_parse = sum_of_lines(line_of_digits);
    rust_digits_check = count_of_lines(line_of_digits);
    rust_lists_parse = sum_of_lines(list_of_strings);
    rust_lists_check = count_of_lines(list_of_nothing);
    rust_slices_parse = sum_of_lines(list_of_slices);
    rust_slices_check = count_of_lines(list_of_nothing);
    rust_settings_parse = sum_of_lines(setting);
    rust_settings_check = count_of_lines(setting);
    rust_sums_parse = sum_of_lines(sum);
    rust_sums_check = count_of_lines(sum);
    rust_messages_parse = sum_of_lines(message);
    rust_messages_check = count_of_lines(message);
    rust_spaces_parse = sum_of_lines(space);
    rust_spaces_check = count_of_lines(space);
    rust_ints_parse = sum_of_lines(int);
    rust_ints_check = count_of_lines(int);
    rust_idents_parse = sum_of_lines(ident);
    rust_idents_check = count_of_lines(ident);
    rust_brackets_parse = number_of(brackets);
    rust_brackets_check = is_some(brackets);
    rust_json_parse = number_of(json);
    rust_json_check = is_some(json);
    rust_tree_parse = number_of(tree);
    rust_tree_check = is_some(no_tree);
    rust_fail = sum_of_dates(date);
}

/// The number that what stands at the start counts for, and what follows it.
type Read<'a> = Option<(u64, &'a [u8])>;

fn sum_of_lines(mut bytes: &[u8], line: impl Fn(&[u8]) -> Read<'_>) -> u64 {
    let mut total = 0u64;
    while let Some((number, rest)) = line(bytes) {
        total = total.wrapping_add(number);
        bytes = rest;
    }
    total
}

fn count_of_lines(mut bytes: &[u8], line: impl Fn(&[u8]) -> Read<'_>) -> u64 {
    let mut times = 0;
    while let Some((_, rest)) = line(bytes) {
        times += 1;
        bytes = rest;
    }
    times
}

fn number_of(bytes: &[u8], text: impl Fn(&[u8]) -> Option<u64>) -> u64 {
    text(bytes).unwrap_or(0)
}

fn is_some(bytes: &[u8], text: impl Fn(&[u8]) -> Option<u64>) -> u64 {
    u64::from(text(bytes).is_some())
}

const DATE: usize = 11;

fn date(bytes: &[u8]) -> Read<'_> {
    let (line, rest) = bytes.split_first_chunk::<DATE>()?;
    let is_date = line.iter().zip(b"0000-00-00\n").all(|(byte, form)| match form {
        b'0' => byte.is_ascii_digit(),
        _ => byte == form,
    });
    is_date.then(|| ([0, 1, 2, 3, 5, 6, 8, 9].iter().map(|&at| u64::from(line[at])).sum(), rest))
}

/// A run from the start of each line, which refuses all that isn't one date to the end.
fn sum_of_dates(bytes: &[u8], date: impl Fn(&[u8]) -> Read<'_>) -> u64 {
    let line = |at: usize| match date(&bytes[at..]) {
        Some((sum, [])) => sum,
        _ => 1000,
    };
    (0..bytes.len()).step_by(DATE).map(line).sum()
}

const WORDS: [&[u8]; 8] = [b"let", b"fn", b"if", b"else", b"while", b"return", b"struct", b"impl"];

fn word(bytes: &[u8]) -> Read<'_> {
    let numbered = (1..).zip(WORDS);
    let mut found = numbered.filter_map(|(number, word)| Some((number, bytes.strip_prefix(word)?)));
    let (number, rest) = found.next()?;
    Some((number, rest.strip_prefix(b"\n")?))
}

fn header(bytes: &[u8]) -> Read<'_> {
    match bytes {
        [0x7f, b'E', b'L', b'F', 1 | 2, 1, one, two, rest @ ..] => Some((u64::from(*one) + u64::from(*two), rest)),
        _ => None,
    }
}

/// The digits at the start, and what follows them.
fn split_digits(bytes: &[u8]) -> Option<(&[u8], &[u8])> {
    let count = bytes.iter().take_while(|byte| byte.is_ascii_digit()).count();
    (count > 0).then(|| bytes.split_at(count))
}

fn line_of_digits(bytes: &[u8]) -> Read<'_> {
    let (digits, rest) = split_digits(bytes)?;
    Some((digits.len() as u64, rest.strip_prefix(b"\n")?))
}

/// What follows a list and the end of its line; `each` is handed its numbers.
fn list<'a>(bytes: &'a [u8], mut each: impl FnMut(&'a [u8])) -> Option<&'a [u8]> {
    let mut rest = bytes.strip_prefix(b"[")?;
    let mut next = split_digits(rest);
    while let Some((digits, after)) = next {
        each(digits);
        rest = after;
        next = rest.strip_prefix(b",").and_then(split_digits);
    }
    rest.strip_prefix(b"]\n")
}

fn list_of_strings(bytes: &[u8]) -> Read<'_> {
    let mut numbers: Vec<String> = Vec::new();
    let rest = list(bytes, |digits| numbers.push(digits.iter().map(|&byte| byte as char).collect()))?;
    Some((numbers.iter().map(|number| number.len() as u64).sum(), rest))
}

fn list_of_slices(bytes: &[u8]) -> Read<'_> {
    let mut numbers: Vec<&[u8]> = Vec::new();
    let rest = list(bytes, |digits| numbers.push(digits))?;
    Some((numbers.iter().map(|number| number.len() as u64).sum(), rest))
}

fn list_of_nothing(bytes: &[u8]) -> Read<'_> {
    Some((0, list(bytes, |_| ())?))
}

fn number(bytes: &[u8]) -> Read<'_> {
    let (digits, rest) = split_digits(bytes)?;
    let with_digit = |number: u64, digit: &u8| number.wrapping_mul(10).wrapping_add(u64::from(digit - b'0'));
    Some((digits.iter().fold(0, with_digit), rest))
}

fn product(bytes: &[u8]) -> Read<'_> {
    let (mut value, mut rest) = number(bytes)?;
    while let Some((factor, after)) = rest.strip_prefix(b"*").and_then(number) {
        value = value.wrapping_mul(factor);
        rest = after;
    }
    Some((value, rest))
}

/// What a sum of products comes to, and what follows it and the end of its line.
fn sum(bytes: &[u8]) -> Read<'_> {
    let (mut value, mut rest) = product(bytes)?;
    while let Some((sign @ (b'+' | b'-'), after)) = rest.split_first() {
        let Some((term, after)) = product(after) else { break };
        value = if *sign == b'+' { value.wrapping_add(term) } else { value.wrapping_sub(term) };
        rest = after;
    }
    Some((value, rest.strip_prefix(b"\n")?))
}

/// How many bytes a message holds, and what follows it.
fn message(bytes: &[u8]) -> Read<'_> {
    let (length, rest) = bytes.split_first()?;
    let (content, rest) = rest.split_at_checked(usize::from(*length))?;
    Some((content.len() as u64, rest))
}

fn is_space(byte: &u8) -> bool {
    matches!(byte, b' ' | b'\t'..=b'\r')
}

/// How much white space there is, and what follows it and the full stop after it.
fn space(bytes: &[u8]) -> Read<'_> {
    let count = bytes.iter().take_while(|byte| is_space(byte)).count();
    Some((count as u64, bytes[count..].strip_prefix(b".")?))
}

/// The digits of a number, of which only a zero by itself begins with a zero, and what follows it.
fn split_int(bytes: &[u8]) -> Option<(&[u8], &[u8])> {
    match bytes {
        [b'0', rest @ ..] => Some((&bytes[..1], rest)),
        _ => split_digits(bytes),
    }
}

fn int(bytes: &[u8]) -> Read<'_> {
    let (digits, rest) = split_int(bytes)?;
    Some((digits.len() as u64, rest.strip_prefix(b"\n")?))
}

/// How many bytes an identifier has, and what follows it and its line.
fn ident(bytes: &[u8]) -> Read<'_> {
    let goes_on = |byte: &u8| byte.is_ascii_alphanumeric() || *byte == b'_';
    let count = bytes.iter().take_while(|byte| goes_on(byte)).count();
    if bytes.first()?.is_ascii_digit() || count == 0 {
        return None;
    }
    Some((count as u64, bytes[count..].strip_prefix(b"\n")?))
}

const KEYWORDS: [&[u8]; 12] = [
    b"host", b"port", b"user", b"group", b"root", b"index", b"log", b"level", b"cache", b"timeout", b"retries", b"verbose",
];

fn value(bytes: &[u8]) -> Read<'_> {
    if let Some(rest) = bytes.strip_prefix(b"true") {
        return Some((1, rest));
    }
    if let Some(rest) = bytes.strip_prefix(b"false") {
        return Some((2, rest));
    }
    let (digits, _) = split_digits(&bytes[..bytes.len().min(4)])?;
    Some((digits.len() as u64, &bytes[digits.len()..]))
}

fn setting(bytes: &[u8]) -> Read<'_> {
    let mut numbered = (1..).zip(KEYWORDS);
    let (key, rest) = numbered.find_map(|(key, word)| Some((key, bytes.strip_prefix(word)?)))?;
    let (value, rest) = value(rest.strip_prefix(b" = ")?)?;
    Some((key * value, rest.strip_prefix(b"\n")?))
}

/// How many pairs of brackets there are, if there is nothing else.
fn brackets(bytes: &[u8]) -> Option<u64> {
    let (mut depth, mut count) = (0u64, 0);
    for byte in bytes {
        match byte {
            b'[' => depth += 1,
            b']' => {
                depth = depth.checked_sub(1)?;
                count += 1;
            }
            _ => return None,
        }
    }
    (depth == 0).then_some(count)
}

/// What follows a string.
fn json_string(bytes: &[u8]) -> Option<&[u8]> {
    let rest = bytes.strip_prefix(b"\"")?;
    let end = rest.iter().position(|byte| !byte.is_ascii_lowercase() && !byte.is_ascii_digit())?;
    rest[end..].strip_prefix(b"\"")
}

/// What follows a value; strings, numbers and words are counted, names of members too.
fn json_value<'a>(bytes: &'a [u8], count: &mut u64) -> Option<&'a [u8]> {
    let closing = match bytes.first()? {
        b'[' => b']',
        b'{' => b'}',
        _ => {
            *count += 1;
            return match bytes[0] {
                b'"' => json_string(bytes),
                b'0'..=b'9' => split_digits(bytes).map(|(_, rest)| rest),
                _ => [&b"true"[..], b"false", b"null"].iter().find_map(|word| bytes.strip_prefix(*word)),
            };
        }
    };
    let mut rest = &bytes[1..];
    if rest.first() == Some(&closing) {
        return Some(&rest[1..]);
    }
    loop {
        if closing == b'}' {
            rest = json_string(rest)?.strip_prefix(b":")?;
            *count += 1;
        }
        rest = json_value(rest, count)?;
        match rest.split_first()? {
            (byte, after) if *byte == closing => return Some(after),
            (b',', after) => rest = after,
            _ => return None,
        }
    }
}

fn json(bytes: &[u8]) -> Option<u64> {
    let mut count = 0;
    json_value(bytes, &mut count)?.is_empty().then_some(count)
}

/// A value of JSON. A number is its text, and an object has its members in the order of the text.
enum Tree {
    Null,
    False,
    True,
    Number(String),
    Text(String),
    List(Vec<Tree>),
    Object(Vec<(String, Tree)>),
}

/// A text without what is blank at its start.
fn unblanked(text: &str) -> &str {
    let count = text.bytes().take_while(|byte| matches!(byte, b' ' | b'\t' | b'\r' | b'\n')).count();
    &text[count..]
}

/// The number that four hexadecimal digits make, and what follows them.
fn unit(text: &str) -> Option<(u32, &str)> {
    let (digits, rest) = text.split_at_checked(4)?;
    let are_digits = digits.bytes().all(|byte| byte.is_ascii_hexdigit());
    Some((u32::from_str_radix(digits, 16).ok().filter(|_| are_digits)?, rest))
}

/// The character that an escape stands for whose backslash stands before the text, and what follows it.
fn escape(text: &str) -> Option<(char, &str)> {
    let rest = text.get(1..)?;
    let named = match text.as_bytes()[0] {
        byte @ (b'"' | b'\\' | b'/') => char::from(byte),
        b'b' => '\u{8}',
        b'f' => '\u{c}',
        b'n' => '\n',
        b'r' => '\r',
        b't' => '\t',
        b'u' => {
            let (high, rest) = unit(rest)?;
            if !matches!(high, 0xD800..=0xDBFF) {
                return Some((char::from_u32(high)?, rest));
            }
            let (low, rest) = unit(rest.strip_prefix("\\u")?)?;
            let is_low = matches!(low, 0xDC00..=0xDFFF);
            let joined = 0x1_0000 + ((high & 0x3FF) << 10) + (low & 0x3FF);
            return Some((char::from_u32(joined).filter(|_| is_low)?, rest));
        }
        _ => return None,
    };
    Some((named, rest))
}

/// What a string stands for whose first quote stands before the text, if it is to be kept, and what follows it.
fn quoted<const KEPT: bool>(mut text: &str) -> Option<(String, &str)> {
    let mut string = String::new();
    loop {
        let end = text.bytes().position(|byte| matches!(byte, b'"' | b'\\' | ..b' '))?;
        if KEPT {
            string.push_str(&text[..end]);
        }
        let rest = &text[end + 1..];
        match text.as_bytes()[end] {
            b'"' => return Some((string, rest)),
            b'\\' => {
                let (character, after) = escape(rest)?;
                if KEPT {
                    string.push(character);
                }
                text = after;
            }
            _ => return None,
        }
    }
}

/// What follows a number.
fn numeral(text: &str) -> Option<&str> {
    let bytes = text.as_bytes();
    let (_, mut rest) = split_int(bytes.strip_prefix(b"-").unwrap_or(bytes))?;
    if let [b'.', fraction @ ..] = rest {
        (_, rest) = split_digits(fraction)?;
    }
    if let [b'e' | b'E', b'+' | b'-', exponent @ ..] | [b'e' | b'E', exponent @ ..] = rest {
        (_, rest) = split_digits(exponent)?;
    }
    Some(&text[text.len() - rest.len()..])
}

/// A value, if it is to be kept, and what follows it and what is blank after it.
fn tree_value<const KEPT: bool>(text: &str) -> Option<(Tree, &str)> {
    let (tree, rest) = match text.as_bytes().first()? {
        b'[' => {
            let mut list = Vec::new();
            let rest = items(&text[1..], ']', |text| {
                let (item, rest) = tree_value::<KEPT>(text)?;
                if KEPT {
                    list.push(item);
                }
                Some(rest)
            })?;
            (Tree::List(list), rest)
        }
        b'{' => {
            let mut object = Vec::new();
            let rest = items(&text[1..], '}', |text| {
                let (name, rest) = quoted::<KEPT>(text.strip_prefix('"')?)?;
                let given = unblanked(unblanked(rest).strip_prefix(':')?);
                let (value, rest) = tree_value::<KEPT>(given)?;
                if KEPT {
                    object.push((name, value));
                }
                Some(rest)
            })?;
            (Tree::Object(object), rest)
        }
        b'"' => quoted::<KEPT>(&text[1..]).map(|(string, rest)| (Tree::Text(string), rest))?,
        b'n' => (Tree::Null, text.strip_prefix("null")?),
        b'f' => (Tree::False, text.strip_prefix("false")?),
        b't' => (Tree::True, text.strip_prefix("true")?),
        _ => {
            let rest = numeral(text)?;
            let number = if KEPT { text[..text.len() - rest.len()].to_owned() } else { String::new() };
            (Tree::Number(number), rest)
        }
    };
    Some((tree, unblanked(rest)))
}

/// What follows items with commas between them and the mark that ends them; `item` is handed what begins with an item, and gives
/// what follows it and what is blank after it.
fn items<'a>(text: &'a str, closing: char, mut item: impl FnMut(&'a str) -> Option<&'a str>) -> Option<&'a str> {
    let mut rest = unblanked(text);
    if let Some(rest) = rest.strip_prefix(closing) {
        return Some(rest);
    }
    loop {
        rest = item(rest)?;
        match rest.strip_prefix(',') {
            Some(after) => rest = unblanked(after),
            None => return rest.strip_prefix(closing),
        }
    }
}

/// A number that depends on each value of a tree and on where it stands.
fn weight_of(tree: &Tree) -> u64 {
    let joined = |weight: u64, next: u64| weight.wrapping_mul(31).wrapping_add(next);
    match tree {
        Tree::Null => 1,
        Tree::False => 2,
        Tree::True => 3,
        Tree::Number(text) | Tree::Text(text) => text.len() as u64,
        Tree::List(items) => items.iter().fold(4, |weight, item| joined(weight, weight_of(item))),
        Tree::Object(members) => members
            .iter()
            .fold(5, |weight, (name, value)| joined(joined(weight, name.len() as u64), weight_of(value))),
    }
}

fn tree(bytes: &[u8]) -> Option<u64> {
    let (tree, rest) = tree_value::<true>(unblanked(str::from_utf8(bytes).ok()?))?;
    rest.is_empty().then(|| weight_of(&tree))
}

fn no_tree(bytes: &[u8]) -> Option<u64> {
    let (_, rest) = tree_value::<false>(unblanked(str::from_utf8(bytes).ok()?))?;
    rest.is_empty().then_some(1)
}
