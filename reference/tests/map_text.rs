//! The text rules of maps.

use reference::id_map::{parse, IdMap, Line, NO_ID};
use reference::Rule;

fn numbers(text: &str) -> Result<Vec<[u32; 3]>, Rule> {
    let lines = parse(text.as_bytes())?;
    Ok(lines.iter().map(|l| [l.inside, l.parent, l.count]).collect())
}

#[test]
fn good_texts() {
    for text in
        ["1 2 3", "1 2 3\n", " \t1\t \t2   3\t ", "0001 2 0000000000000000000000000000003\n"]
    {
        assert_eq!(numbers(text), Ok(vec![[1, 2, 3]]), "{text:?}");
    }
    assert_eq!(numbers("5 0 5\n0 5 5"), Ok(vec![[5, 0, 5], [0, 5, 5]]));
    assert_eq!(numbers("4294967294 4294967294 1"), Ok(vec![[NO_ID - 1, NO_ID - 1, 1]]));
}

#[test]
fn bad_texts() {
    for (text, rule) in [
        ("\n", Rule::EmptyLine),
        (" \t", Rule::EmptyLine),
        ("\n1 2 3", Rule::EmptyLine),
        ("1 2 3\n\n", Rule::EmptyLine),
        ("1 2 3\n \n4 5 6", Rule::EmptyLine),
        ("1 2", Rule::NotThreeNumbers),
        ("1 2 3 4", Rule::NotThreeNumbers),
        ("1 2\n3", Rule::NotThreeNumbers),
        ("1 2 3\r\n", Rule::OtherByte),
        ("1 2 3\0", Rule::OtherByte),
        ("-1 2 3", Rule::OtherByte),
        ("+1 2 3", Rule::OtherByte),
        ("0x1 2 3", Rule::OtherByte),
        ("1,2,3", Rule::OtherByte),
        ("1 2 3\u{b}", Rule::OtherByte),
        ("4294967296 0 1", Rule::NumberOverTop),
        ("0 0 18446744073709551617", Rule::NumberOverTop),
        ("1 2 0", Rule::CountZero),
        ("4294967295 0 1", Rule::InsideOverTop),
        ("2 0 4294967294", Rule::InsideOverTop),
        ("0 4294967295 1", Rule::ParentOverTop),
        ("0 2 4294967294", Rule::ParentOverTop),
        ("0 0 2\n1 5 1", Rule::OverlapInside),
        ("0 0 2\n5 1 1", Rule::OverlapParent),
        ("0 0 1\n1 1 1\n2 2 1\n3 3 1\n4 4 1\n5 5 1", Rule::SixthLine),
    ] {
        assert_eq!(numbers(text), Err(rule), "{text:?}");
    }
}

#[test]
fn lookups_go_there_and_back() {
    let line = |inside, parent, count| Line { inside, parent, count };
    let map = IdMap::Written(vec![line(10, 100, 5), line(4294967290, 7, 5)]);
    assert_eq!(map.to_parent(9), None);
    assert_eq!(map.to_parent(10), Some(100));
    assert_eq!(map.to_parent(14), Some(104));
    assert_eq!(map.to_parent(15), None);
    assert_eq!(map.to_parent(NO_ID - 1), Some(11));
    assert_eq!(map.to_parent(NO_ID), None);
    assert_eq!(map.from_parent(11), Some(NO_ID - 1));
    assert_eq!(map.from_parent(12), None);
    assert!(map.has_whole(10, 5) && !map.has_whole(10, 6) && !map.has_whole(9, 1));
    assert_eq!(IdMap::Unwritten.to_parent(0), None);
    assert_eq!(IdMap::initial().to_parent(NO_ID), None);
}
