//! Sequences of tokens: their members, in order.
use chumsky::container::Seq;

/// Whether marks lead through just these members.
fn lists<T: PartialEq + Drop, S: Seq<T>>(seq: &S, members: &[T]) -> bool {
    let mut at = 0;
    for member in members {
        match seq.seq_at(at) {
            Some((found, next)) => {
                if *found.get() != *member {
                    return false;
                }
                at = next;
            }
            None => return false,
        }
    }
    seq.seq_at(at).is_none()
}

#[test]
fn items_are_members(rt: HostRuntime) {
    let items = [1u8, 2, 1];
    assert!(rt; lists(&items, &[1, 2, 1]));
    assert!(rt; Seq::contains(&items, &2) && !Seq::contains(&items, &3));
    let slice: &[u8] = &items;
    assert!(rt; lists(&slice, &[1, 2, 1]));
    assert!(rt; Seq::contains(&slice, &2) && !Seq::contains(&slice, &3));
    let none: &[u8] = &[];
    assert!(rt; lists::<u8, _>(&none, &[]));
    let mut vec = Vec::new(rt.alloc());
    vec.push(5u8).ok().expect(&rt, "refused");
    vec.push(6).ok().expect(&rt, "refused");
    assert!(rt; lists(&vec, &[5, 6]));
    assert!(rt; Seq::contains(&vec, &6) && !Seq::contains(&vec, &7));
    assert!(rt; lists(&4u8, &[4]));
    assert!(rt; Seq::contains(&4u8, &4) && !Seq::contains(&4u8, &5));
}

#[test]
fn the_characters_of_a_text_are_members(rt: HostRuntime) {
    let text = "aéz";
    assert!(rt; lists(&text, &['a', 'é', 'z']));
    assert!(rt;
        Seq::contains(&text, &'é') && !Seq::contains(&text, &'è') && !Seq::contains(&text, &'b')
    );
    let owned = String::from_str(rt.alloc(), text)
        .ok()
        .expect(&rt, "refused");
    assert!(rt; lists(&owned, &['a', 'é', 'z']));
    assert!(rt; Seq::contains(&owned, &'z') && !Seq::contains(&owned, &'b'));
    assert!(rt; lists::<char, _>(&"", &[]));
}

#[test]
fn a_range_leaves_out_surrogates(rt: HostRuntime) {
    let digits = '8'..=';';
    assert!(rt; lists(&digits, &['8', '9', ':', ';']));
    assert!(rt; Seq::contains(&digits, &'8') && Seq::contains(&digits, &';'));
    assert!(rt; !Seq::contains(&digits, &'7') && !Seq::contains(&digits, &'<'));
    let gap = '\u{D7FE}'..='\u{E001}';
    assert!(rt; lists(&gap, &['\u{D7FE}', '\u{D7FF}', '\u{E000}', '\u{E001}']));
    let last = '\u{10FFFF}'..='\u{10FFFF}';
    assert!(rt; lists(&last, &['\u{10FFFF}']));
    assert!(rt; Seq::<char>::seq_at(&last, usize::MAX).is_none());
    let empty = 'b'..='a';
    assert!(rt; lists::<char, _>(&empty, &[]));
    assert!(rt; !Seq::contains(&empty, &'a') && !Seq::contains(&empty, &'b'));
    let mut spent = 'a'..='a';
    assert!(rt; spent.next() == Some('a'));
    assert!(rt; lists::<char, _>(&spent, &[]) && !Seq::contains(&spent, &'a'));
}
