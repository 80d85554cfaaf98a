//! Damaged documents: every call returns, and one on bytes that decode does not say that they don't.

use jsonb_paths::{
    from_slice, parse_json_path, parse_key_paths, Error, JsonPath, KeyPaths, RawJsonb, Result, Selector,
};
use std::collections::BTreeSet;

/// The documents of the tests, as JSON text, and those that JSON text does not have.
const TEXTS: [&str; 6] = [
    "[false,10,{\"k\":\"v\"}]",
    "{\"a\":null,\"b\":[null,1.5]}",
    "\"abc\"",
    "-12.34",
    "[[],{},[[1]]]",
    "{\"\":{\"x\":true}}",
];
const OTHERS: [&[u8]; 3] = [
    b"\x80\0\0\x01\x60\0\0\x05\x10\0\0\0\x01",
    b"\x20\0\0\0\x60\0\0\x11\x40\0\0\0\x01\0\0\0\x02\0\0\0\0\0\0\0\x03",
    b"\x20\0\0\0\x60\0\0\x03\0\0\xff",
];

struct Paths<'a> {
    json: Vec<JsonPath<'a>>,
    keys: Vec<KeyPaths<'a>>,
}

/// The errors of all calls on a document.
fn errors(it: RawJsonb<'_>, paths: &Paths<'_>) -> Vec<Error> {
    let mut errors = Vec::new();
    let mut run = |error: Option<Error>| errors.extend(error);
    run(it.array_values().err());
    run(it.object_keys().err());
    run(it.object_each().err());
    run(it.extract_scalar_key_values(false).err());
    run(it.extract_scalar_key_values(true).err());
    run(it.traverse_check_string(|_| false).err());
    run(it.array_length().err());
    run(it.array_distinct().err());
    run(it.array_except(&it).err());
    run(it.array_insert(1, &it).err());
    run(it.concat(&it).err());
    run(it.contains(&it).err());
    run(it.compare(&it).err());
    run(it.strip_nulls().err());
    run(it.convert_to_comparable().err());
    run(it.equality_key().err());
    run(it.object_insert("k", &it, true).err());
    run(it.object_pick(&BTreeSet::from(["a", "k"])).err());
    run(it.exists_any_keys(["a", "k"].into_iter()).err());
    run(it.get_by_index(1).err());
    run(it.get_by_name("K", true).err());
    run(it.delete_by_index(-1).err());
    run(it.delete_by_name("a").err());
    run(it.to_json().err());
    run(from_slice(it.as_bytes()).err());
    scalars(it, &mut run);
    for path in &paths.json {
        run(Selector::new(it).select_values(path).err());
        run(Selector::new_strict(it).select_first(path).err());
        run(it.path_match(path).err());
    }
    for path in &paths.keys {
        run(it.get_by_keypath(path.paths.iter()).err());
        run(it.delete_by_keypath(path.paths.iter()).err());
    }
    errors
}

fn scalars(it: RawJsonb<'_>, run: &mut impl FnMut(Option<Error>)) {
    run(it.type_of().err());
    run(it.as_number().err());
    run(it.as_str().err());
    run(it.as_extension_value().err());
    run(it.as_interval().err());
    run(it.as_bool().err());
    run(it.to_bool().err());
    run(it.to_i64().err());
    run(it.to_u64().err());
    run(it.to_str().err());
}

fn try_bytes(bytes: &[u8], paths: &Paths<'_>) -> Result<()> {
    let it = RawJsonb::new(bytes);
    let found = errors(it, paths);
    it.check()?;
    let wrong = [Error::InvalidJsonb, Error::UnsupportedNumber];
    assert!(!found.iter().any(|it| wrong.contains(it)), "{bytes:02x?}: {found:?}");
    Ok(())
}

#[test]
fn calls_on_damaged_documents_return() {
    let paths = Paths {
        json: [&b"$.**"[..], b"$[*]?(@.k == \"v\")", b"$.a + 1", b"$[last].*"]
            .map(|it| parse_json_path(it).unwrap())
            .into(),
        keys: [&b"{2,k}"[..], b"{-1,0}", b"{}"].map(|it| parse_key_paths(it).unwrap()).into(),
    };
    let parsed = TEXTS.map(|it| it.parse::<jsonb_paths::OwnedJsonb>().unwrap().to_vec());
    let (mut whole, mut damaged) = (0, 0);
    for document in parsed.iter().map(Vec::as_slice).chain(OTHERS) {
        let mut count = |bytes: &[u8]| match try_bytes(bytes, &paths) {
            Ok(()) => whole += 1,
            Err(_) => damaged += 1,
        };
        count(document);
        for place in 0..document.len() {
            count(&document[..place]);
            for value in
                [0x00, 0x01, 0x10, 0x20, 0x40, 0x50, 0x7f, 0x80, 0xff, document[place] ^ 1, document[place] ^ 0x10]
            {
                let mut bytes = document.to_vec();
                bytes[place] = value;
                count(&bytes);
            }
        }
    }
    assert!(whole > 100 && damaged > 1000, "{whole} whole, {damaged} damaged");
}
