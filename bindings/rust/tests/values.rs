//! Values, JSON text, construction, and paths on other threads.

use jsonb_paths::{
    composite_key, composite_key_wide, from_slice, get_by_path, json_path_error_position, json_text_error_position,
    key_path_error_position, parse_json_path, parse_key_paths, parse_value, to_string, Date, Decimal128, Decimal64,
    Error, ExtensionValue, Interval, KeyPath, KeyPaths, Number, OwnedJsonb, OwnedKeyPath, OwnedKeyPaths, RawJsonb,
    Timestamp, TimestampTz, Value,
};
use std::borrow::Cow;
use std::fmt::Write;
use std::thread;

/// [false,10,{"k":"v"}]
const DOCUMENT: &[u8] = b"\x80\0\0\x03\x30\0\0\0\x20\0\0\x02\x50\0\0\x0e\x50\x0a\x40\0\0\x01\x10\0\0\x01\x10\0\0\x01kv";

#[test]
fn json_text_and_values_and_documents_are_one() {
    let text = r#"[false,10,{"k":"v"}]"#;
    let value = parse_value(text.as_bytes()).unwrap();
    let object = [("k".to_string(), Value::String(Cow::Borrowed("v")))].into_iter().collect();
    assert_eq!(value, Value::Array(vec![Value::Bool(false), Value::Number(Number::UInt64(10)), Value::Object(object)]));
    assert_eq!(value.to_vec(), DOCUMENT);
    assert_eq!(from_slice(DOCUMENT).unwrap(), value);
    assert_eq!(to_string(DOCUMENT), text);
    assert_eq!(text.parse::<OwnedJsonb>().unwrap().as_ref(), DOCUMENT);
}

#[test]
fn documents_print_as_json_text() {
    let document: OwnedJsonb = r#" {"b" : 1.50, "a":["x"]} "#.parse().unwrap();
    let raw = document.as_raw();
    assert_eq!(document.to_string(), r#"{"a":["x"],"b":1.50}"#);
    assert_eq!(format!("{raw:>24}"), r#"    {"a":["x"],"b":1.50}"#);
    assert_eq!(raw.to_value().unwrap().to_vec(), document.clone().to_vec());
    assert_eq!((raw.len(), raw.is_empty()), (document.to_vec().len(), false));
    let damaged = RawJsonb::new(b"");
    assert_eq!((damaged.to_value(), damaged.len(), damaged.is_empty()), (Err(Error::InvalidJsonb), 0, true));
    assert!(write!(String::new(), "{damaged}").is_err());
}

#[test]
fn errors_of_text_and_values_have_their_names() {
    assert_eq!(parse_value(b"[1,").unwrap_err(), Error::InvalidJson);
    assert_eq!(parse_value(b"1e300").unwrap_err(), Error::UnsupportedNumber);
    assert_eq!(parse_value(br#"{"a":1,"a":1}"#).unwrap_err(), Error::ObjectDuplicateKey);
    assert_eq!(parse_value(br#""\ud83d""#).unwrap_err(), Error::NotUtf8);
    let nested = |depth: usize| "[".repeat(depth) + &"]".repeat(depth);
    assert!(parse_value(nested(128).as_bytes()).is_ok());
    assert_eq!(parse_value(nested(129).as_bytes()).unwrap_err(), Error::TooDeep);
    let deep: OwnedJsonb = nested(100_000).parse().unwrap();
    assert_eq!(deep.as_raw().to_json().unwrap(), nested(100_000));
    assert_eq!(from_slice(b"").unwrap_err(), Error::InvalidJsonb);
    assert_eq!(from_slice(b"\x20\0\0\0\x20\0\0\x09\x60\x3f\xf8\0\0\0\0\0\0").unwrap_err(), Error::UnsupportedNumber);
    let date = b"\x20\0\0\0\x60\0\0\x05\x10\0\0\0\x01";
    assert_eq!(RawJsonb::new(date).to_json().unwrap_err(), Error::InvalidJsonType);
    assert_eq!(OwnedJsonb::try_from(&from_slice(date).unwrap()).unwrap_err(), Error::InvalidJsonType);
    let null = OwnedJsonb::from_null().unwrap();
    let twice = OwnedJsonb::object_of([("k", null.as_raw()), ("k", null.as_raw())]);
    assert_eq!(twice.unwrap_err(), Error::ObjectDuplicateKey);
}

#[test]
fn documents_compare_as_their_keys_do() {
    let texts = ["false", "-1", "1.5", "\"a\"", "{}", "{\"a\":[1]}", "{\"a\":[1,2]}", "[]", "[[1,2,3],4]", "null"];
    let documents = texts.map(|text| text.parse::<OwnedJsonb>().unwrap());
    for (at, document) in documents.iter().enumerate() {
        for (to, other) in documents.iter().enumerate() {
            assert_eq!(document.as_raw().compare(&other.as_raw()), Ok(at.cmp(&to)), "{} {}", texts[at], texts[to]);
        }
    }
}

#[test]
fn extension_values_are_read() {
    let rows: [(&[u8], &str, ExtensionValue); 5] = [
        (b"\x20\0\0\0\x60\0\0\x03\0\0\xff", "BINARY", ExtensionValue::Binary(b"\0\xff")),
        (b"\x20\0\0\0\x60\0\0\x05\x10\xff\xff\xff\xfe", "DATE", ExtensionValue::Date(Date { value: -2 })),
        (
            b"\x20\0\0\0\x60\0\0\x09\x20\xff\xff\xff\xff\xff\xff\xff\xf9",
            "TIMESTAMP",
            ExtensionValue::Timestamp(Timestamp { value: -7 }),
        ),
        (
            b"\x20\0\0\0\x60\0\0\x0d\x30\0\0\0\x08\0\0\0\0\0\0\0\x09",
            "TIMESTAMP_TZ",
            ExtensionValue::TimestampTz(TimestampTz { offset: 8, value: 9 }),
        ),
        (
            b"\x20\0\0\0\x60\0\0\x11\x40\0\0\0\x01\0\0\0\x02\0\0\0\0\0\0\0\x03",
            "INTERVAL",
            ExtensionValue::Interval(Interval { months: 1, days: 2, micros: 3 }),
        ),
    ];
    for (bytes, name, wanted) in rows {
        let it = RawJsonb::new(bytes);
        assert_eq!((it.type_of().unwrap(), it.as_extension_value().unwrap()), (name, Some(wanted)));
        assert!(it.is_extension_value().unwrap());
        let kinds = [it.is_binary(), it.is_date(), it.is_timestamp(), it.is_timestamp_tz(), it.is_interval()];
        assert_eq!(kinds.into_iter().filter(|it| *it == Ok(true)).count(), 1);
        let (value, found) = (from_slice(bytes).unwrap(), it.as_binary().unwrap());
        let (date, time, zoned) = (it.as_date().unwrap(), it.as_timestamp().unwrap(), it.as_timestamp_tz().unwrap());
        let interval = it.as_interval().unwrap();
        match wanted {
            ExtensionValue::Binary(it) => assert_eq!((value, found.as_deref()), (Value::Binary(it), Some(it))),
            ExtensionValue::Date(it) => assert_eq!((value, date), (Value::Date(it), Some(it))),
            ExtensionValue::Timestamp(it) => assert_eq!((value, time), (Value::Timestamp(it), Some(it))),
            ExtensionValue::TimestampTz(it) => assert_eq!((value, zoned), (Value::TimestampTz(it), Some(it))),
            ExtensionValue::Interval(it) => assert_eq!((value, interval), (Value::Interval(it), Some(it))),
        }
    }
    assert_eq!(RawJsonb::new(DOCUMENT).as_extension_value().unwrap(), None);
}

#[test]
fn numbers_are_exact_both_ways() {
    let wide = |scale, value| Number::Decimal128(Decimal128 { scale, value });
    let short = |scale, value| Number::Decimal64(Decimal64 { scale, value });
    let rows = [
        (Number::Int64(i64::MIN), "-9223372036854775808"),
        (Number::UInt64(u64::MAX), "18446744073709551615"),
        (short(2, 1234), "12.34"),
        (short(3, -5), "-0.005"),
        (wide(0, 1 << 64), "18446744073709551616"),
        (wide(1, -(1 << 64)), "-1844674407370955161.6"),
        (wide(38, i128::MAX), "1.70141183460469231731687303715884105727"),
    ];
    for (number, text) in rows {
        let made = OwnedJsonb::from_number(&number).unwrap();
        assert_eq!(made.as_raw().as_number().unwrap(), Some(number));
        assert_eq!(number.to_string(), text);
    }
    assert_eq!(Number::Int64(1), short(1, 10));
    assert!(short(1, 15) > Number::UInt64(1) && wide(255, i128::MIN) < Number::Int64(0));
    assert_eq!((short(1, 10).as_i64(), short(1, 15).as_u64(), Number::Int64(-1).as_u64()), (Some(1), None, None));
    assert_eq!(Number::Int64(7).as_u64(), Some(7));
}

#[test]
fn items_of_a_path_are_appended_with_their_ends() {
    let (mut data, mut offsets) = (b"xy".to_vec(), vec![2]);
    let path = || parse_json_path(b"$[0, 1]").unwrap();
    get_by_path(DOCUMENT, path(), &mut data, &mut offsets).unwrap();
    let items = b"xy\x20\0\0\0\x30\0\0\0\x20\0\0\0\x20\0\0\x02\x50\x0a";
    assert_eq!((data.as_slice(), offsets.as_slice()), (&items[..], &[2, 10, 20][..]));
    assert_eq!(get_by_path(b"", path(), &mut data, &mut offsets), Err(Error::InvalidJsonb));
    assert_eq!((data.len(), offsets.len()), (20, 3));
}

#[test]
fn key_paths_can_be_built_and_owned() {
    let document: OwnedJsonb = r#"{"a b":[1,{"x\"y":2}],"":3}"#.parse().unwrap();
    let owned = OwnedKeyPaths {
        paths: vec![
            OwnedKeyPath::Name("a b".to_string()),
            OwnedKeyPath::Index(-1),
            OwnedKeyPath::QuotedName("x\"y".to_string()),
        ],
    };
    let path = owned.as_key_paths();
    assert_eq!((path.to_string(), owned.to_string()), (r#"{"a b",-1,"x\"y"}"#.to_string(), path.to_string()));
    assert_eq!(path.to_owned(), owned);
    let found = document.as_raw().get_by_keypath(path.paths.iter()).unwrap().unwrap();
    assert_eq!(found.as_raw().to_json().unwrap(), "2");
    let rest = document.as_raw().delete_by_keypath(path.paths.iter()).unwrap();
    assert_eq!(rest.as_raw().to_json().unwrap(), r#"{"":3,"a b":[1,{}]}"#);
    let empty = [KeyPath::Name(Cow::Borrowed(""))];
    assert_eq!(document.as_raw().get_by_keypath(empty.iter()), Err(Error::InvalidKeyPath));
    assert_eq!(document.as_raw().delete_by_keypath(empty.iter()), Err(Error::InvalidKeyPath));
    assert_eq!(KeyPaths { paths: empty.into() }.prepare().err(), Some(Error::InvalidKeyPath));
    let prepared = path.prepare().unwrap();
    let found = thread::spawn(move || prepared.get(document.as_raw()).map(|it| (it, document))).join().unwrap();
    let (found, document) = found.unwrap();
    assert_eq!(found.unwrap().as_raw().as_i64().unwrap(), Some(2));
    assert_eq!(document.as_raw().get_by_name("", false).unwrap().unwrap().as_raw().as_i64().unwrap(), Some(3));
}

#[test]
fn key_paths_parse_to_their_steps() {
    let name = |text| KeyPath::Name(Cow::Borrowed(text));
    let quoted = |text| KeyPath::QuotedName(Cow::Borrowed(text));
    let rows = [
        (r#"{a,1,"b c"}"#, vec![name("a"), KeyPath::Index(1), quoted("b c")]),
        (" {\t+1 ,007\t, -0\n} ", vec![KeyPath::Index(1), KeyPath::Index(7), KeyPath::Index(0)]),
        (
            "{99999999999,2147483648,-2147483648}",
            vec![name("99999999999"), name("2147483648"), KeyPath::Index(i32::MIN)],
        ),
        ("{a&b,a\t}", vec![name("a&b"), name("a\t")]),
        (r#"{\u{0061}b,\u0063\u{007d}d,"\u{0022}},\"e"}"#, vec![name("ab"), name("c}d"), quoted("\"},\"e")]),
        (r#"{"\ud83d\u{de00}",\u{d83d}\ude00x}"#, vec![quoted("\u{1f600}"), name("\u{1f600}x")]),
        (r#"{"\b\f\n\r\t\/\\\"é"}"#, vec![quoted("\u{8}\u{c}\n\r\t/\\\"é")]),
        ("{ }", vec![]),
    ];
    for (text, steps) in rows {
        assert_eq!(parse_key_paths(text.as_bytes()).unwrap(), KeyPaths { paths: steps }, "{text}");
    }
    for text in [
        "{1a}",
        "{-99999999999}",
        "{1,}",
        "{,1}",
        "{1.5}",
        "{",
        "ab",
        "{a}b",
        "{\"a",
        "{\"\"}",
        "{a\\u{12}}",
        "{\\ud83d}",
    ] {
        assert_eq!(parse_key_paths(text.as_bytes()), Err(Error::InvalidKeyPath), "{text}");
    }
    assert_eq!(parse_key_paths(b"{\xff}"), Err(Error::InvalidKeyPath));
}

#[test]
fn leaves_are_scalars_and_empty_containers() {
    let document: OwnedJsonb = r#"{"a":[1,{"c":2}],"b":"x","f":[],"o":{"p":null,"q":{}}}"#.parse().unwrap();
    let paths = |ignore_array| {
        let leaves = document.as_raw().extract_scalar_key_values(ignore_array).unwrap();
        leaves.iter().map(|(path, _)| path.to_string()).collect::<Vec<_>>()
    };
    assert_eq!(paths(false), ["{a,0}", "{a,1,c}", "{b}", "{f}", "{o,p}", "{o,q}"]);
    assert_eq!(paths(true), ["{a}", "{b}", "{f}", "{o,p}", "{o,q}"]);
    let leaves = document.as_raw().extract_scalar_key_values(true).unwrap();
    assert_eq!(leaves[0].1, parse_value(br#"[1,{"c":2}]"#).unwrap());
}

#[test]
fn a_path_is_used_and_dropped_on_other_threads() {
    let path = parse_json_path(b"$[*].k").unwrap();
    let copy = path.clone();
    let find = |path: jsonb_paths::JsonPath<'static>| {
        let first = RawJsonb::new(DOCUMENT).select_first_by_path(&path).unwrap().unwrap();
        assert_eq!(first.as_raw().to_str().unwrap(), "v");
        path
    };
    let path = thread::spawn(move || find(path)).join().unwrap();
    assert!(RawJsonb::new(DOCUMENT).path_exists(&path).unwrap());
    thread::spawn(move || drop(find(path))).join().unwrap();
    assert!(RawJsonb::new(DOCUMENT).path_exists(&copy).unwrap());
    assert_eq!((format!("{copy:?}"), copy.text()), (r#"JsonPath("$[*].k")"#.to_string(), "$[*].k"));
}

#[test]
fn errors_of_text_have_positions() {
    let paths: [(&[u8], _); 4] = [(b"$.a", None), (b"$.a[", Some(3)), (b"", None), (b"$.\xff", Some(1))];
    for (text, position) in paths {
        assert_eq!(json_path_error_position(text), Ok(position), "{text:?}");
        assert_eq!(parse_json_path(text).is_err(), position.is_some(), "{text:?}");
    }
    let key_paths: [(&[u8], _); 4] = [(b"{a}", None), (b"{a", Some(2)), (b"", Some(0)), (b"{1a}", Some(2))];
    for (text, position) in key_paths {
        assert_eq!(key_path_error_position(text), Ok(position), "{text:?}");
        assert_eq!(parse_key_paths(text).is_err(), position.is_some(), "{text:?}");
    }
    let texts: [(&[u8], _); 4] = [(b"[1.50]", None), (b"[1,", Some(3)), (b"[1e300]", Some(1)), (b"", Some(0))];
    for (text, position) in texts {
        assert_eq!(json_text_error_position(text), position, "{text:?}");
        assert_eq!(parse_value(text).is_err(), position.is_some(), "{text:?}");
    }
}

#[test]
fn predicates_are_paths_of_one_expression() {
    let predicates = ["$.a == 1", "1 == 1", "exists($.a)", "-$"].map(|it| (it, true));
    let others = ["$", "$.a?(@ == 1)", "a.b"].map(|it| (it, false));
    for (path, wanted) in predicates.into_iter().chain(others) {
        assert_eq!(parse_json_path(path.as_bytes()).unwrap().is_predicate(), wanted, "{path}");
    }
}

#[test]
fn composite_keys_have_a_key_for_each_value() {
    let one: OwnedJsonb = "1".parse().unwrap();
    let (low, high) = ([None, Some(one.as_raw())], [Some(one.as_raw()), None]);
    assert_eq!(composite_key(&low).unwrap(), b"\0\0\0\x04\x81\x03\xe9\x02\0");
    assert!(composite_key(&low).unwrap() < composite_key(&high).unwrap());
    assert_eq!(composite_key_wide(&[None]).unwrap(), [0; 3]);
    assert_eq!(composite_key(&[Some(RawJsonb::new(b"\x20"))]).unwrap_err(), Error::InvalidJsonb);
}
