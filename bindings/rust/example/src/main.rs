//! A program for the crate `jsonb`: only its Cargo.toml names this one.

use jsonb::jsonpath::parse_json_path;
use jsonb::RawJsonb;

const STORE: &str = r#"{"book":[{"title":"Emma","price":9},{"title":"Dune","price":12}],"open":true}"#;

/// The titles of the books that cost less than ten.
fn cheap() -> String {
    let document = jsonb::parse_value(STORE.as_bytes()).unwrap().to_vec();
    let path = parse_json_path(b"$.book[*]?(@.price < 10).title").unwrap();
    let (mut data, mut offsets) = (Vec::new(), Vec::new());
    jsonb::get_by_path(&document, path, &mut data, &mut offsets).unwrap();
    jsonb::to_string(&data)
}

/// Whether there is a book that costs more than ten.
fn has_expensive() -> bool {
    let document = jsonb::parse_value(STORE.as_bytes()).unwrap().to_vec();
    let path = parse_json_path(b"$.book[*].price > 10").unwrap();
    RawJsonb::new(&document).path_match(&path).unwrap() == Some(true)
}

fn main() {
    println!("{} {}", cheap(), has_expensive());
}

#[test]
fn the_example_prints_what_it_should() {
    assert_eq!((cheap().as_str(), has_expensive()), (r#""Emma""#, true));
}
