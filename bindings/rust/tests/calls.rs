//! The calls on the samples of the repository.

use scale_info_calls::{
    Error, changes, check, describe, difference, encode, find, json, prune, strip, table, value,
};
use std::fs;
use std::path::Path;

fn sample(name: &str) -> Vec<u8> {
    let path = Path::new(env!("CARGO_MANIFEST_DIR"))
        .join("../../samples")
        .join(name);
    fs::read(&path).unwrap_or_else(|error| panic!("{}: {error}", path.display()))
}

#[test]
fn tables_are_read_pruned_and_stripped() {
    let vec = sample("vec_u32.scale");
    assert_eq!(check(&vec), Ok(()));
    assert_eq!(
        json(&vec).unwrap(),
        r#"{"types":[{"id":0,"type":{"def":{"sequence":{"type":1}}}},{"id":1,"type":{"def":{"primitive":"u32"}}}]}"#
    );
    assert_eq!(prune(&vec, &[1]), Ok(vec![4, 0, 0, 0, 5, 5, 0]));
    assert_eq!(prune(&vec, &[]), Ok(vec![0]));
    for name in [
        "metadata_14.scale",
        "metadata_15.scale",
        "metadata_16.scale",
        "metadata_at_version.scale",
        "metadata.hex",
    ] {
        assert_eq!(table(&sample(name)).as_ref(), Ok(&vec), "{name}");
    }
    let stripped = strip(&sample("kinds.scale")).unwrap();
    assert_eq!(strip(&stripped).as_ref(), Ok(&stripped));
    assert!(stripped.len() < sample("kinds.scale").len());
}

#[test]
fn types_are_found_described_and_compared() {
    let (kinds, vec) = (sample("kinds.scale"), sample("vec_u32.scale"));
    assert_eq!(find(&kinds, "demo::Choice"), Ok(vec![2]));
    assert_eq!(find(&kinds, "Choice"), Ok(vec![]));
    assert_eq!(describe(&kinds, 4).as_deref(), Ok("[u8; 3]"));
    assert!(describe(&kinds, 0).unwrap().contains("struct Pair"));
    assert_eq!(difference(&kinds, 1, &vec, 1), Ok(None));
    assert_eq!(
        difference(&kinds, 3, &vec, 1),
        Ok(Some("Vec<u32> -> u32".into()))
    );
    assert_eq!(
        changes(&kinds, &vec).as_deref(),
        Ok("- demo::Pair\n- demo::Choice\n- bitvec::order::Lsb0\n")
    );
    assert_eq!(changes(&kinds, &kinds).as_deref(), Ok(""));
}

#[test]
fn values_are_read_and_written() {
    let kinds = sample("kinds.scale");
    let (text, bytes) = (
        r#"{"left":1,"right":{"Just":[2]}}"#,
        [1, 0, 0, 0, 7, 2, 0, 0, 0],
    );
    assert_eq!(value(&kinds, 0, &bytes).as_deref(), Ok(text));
    assert_eq!(encode(&kinds, 0, text).as_deref(), Ok(bytes.as_slice()));
}

#[test]
fn errors_are_named() {
    let (kinds, deep) = (sample("kinds.scale"), sample("recursive.scale"));
    assert_eq!(check(&[]), Err(Error::Malformed));
    assert_eq!(check(&[0, 0]), Err(Error::TrailingBytes));
    assert_eq!(prune(&kinds, &[11]), Err(Error::NoSuchType(11)));
    assert_eq!(
        prune(&[4, 0, 0, 0, 2, 36, 0], &[0]),
        Err(Error::Dangling(9))
    );
    assert_eq!(table(b"meta\x0d\x00"), Err(Error::Version(13)));
    assert_eq!(encode(&kinds, 1, "["), Err(Error::NoJson));
    assert_eq!(value(&kinds, 7, &[0]), Err(Error::Unsupported));
    assert_eq!(value(&deep, 0, &[0; 200]), Err(Error::TooDeep));
    assert_eq!(value(&kinds, 1, &[0; 3]), Err(Error::MalformedValue));
    assert_eq!(value(&kinds, 1, &[0; 5]), Err(Error::TrailingValue));
    assert_eq!(encode(&kinds, 1, "true"), Err(Error::Mismatch));
    assert_eq!(Error::NoSuchType(11).to_string(), "no such type 11");
}

#[test]
fn every_cut_and_changed_table_is_answered() {
    let kinds = sample("kinds.scale");
    for length in 0..kinds.len() {
        assert_eq!(check(&kinds[..length]), Err(Error::Malformed));
        assert_eq!(json(&kinds[..length]), Err(Error::Malformed));
        assert_eq!(prune(&kinds[..length], &[0]), Err(Error::Malformed));
    }
    for place in 0..kinds.len() {
        for byte in [0, 1, 4, 127, 128, 255] {
            let mut other = kinds.clone();
            other[place] = byte;
            let found = check(&other);
            assert_eq!(json(&other).map(drop), found);
            assert_eq!(strip(&other).map(drop), found);
            assert!(found.is_ok() || prune(&other, &[0]).map(drop) == found);
        }
    }
}
