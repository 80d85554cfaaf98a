//! The worked rows of docs/rows, each run by the method of its function.

use jsonb_paths::{from_slice, parse_json_path, parse_key_paths, Error, OwnedJsonb, RawJsonb, Result, Selector, Value};
use std::collections::{BTreeSet, HashMap};
use std::fs;
use std::path::Path;

/// What a call returned, in the form of its row.
#[derive(Debug)]
enum Answer<'a> {
    Missing,
    Truth(bool),
    Text(String),
    Key(Vec<u8>),
    Document(OwnedJsonb),
    List(Vec<OwnedJsonb>),
    Members(Vec<(String, OwnedJsonb)>),
    Leaves(Vec<(String, Value<'a>)>),
}

/// The bytes of the documents that rows name or write as JSON text.
struct Documents(HashMap<String, Vec<u8>>);

fn lines(file: &str) -> Vec<Vec<String>> {
    let path = Path::new(env!("CARGO_MANIFEST_DIR")).join("../../docs/rows").join(file);
    let text = fs::read_to_string(path).unwrap();
    text.lines().skip(1).map(|line| line.split('\t').map(str::to_string).collect()).collect()
}

fn unhex(text: &str) -> Vec<u8> {
    if text == "none" {
        return Vec::new(); // the document that is "no bytes"
    }
    let digits: Vec<char> = text.chars().filter(|it| !matches!(it, ' ' | '`')).collect();
    digits.chunks(2).map(|it| u8::from_str_radix(&it.iter().collect::<String>(), 16).unwrap()).collect()
}

/// A cell without its backticks.
fn bare(cell: &str) -> &str {
    cell.strip_prefix('`').and_then(|it| it.strip_suffix('`')).unwrap_or(cell)
}

/// The cells of a list.
fn cells(cell: &str) -> Vec<&str> {
    match cell {
        "" | "nothing" | "no names" => Vec::new(),
        cell => bare(cell).split("`, `").collect(),
    }
}

/// The pairs of a cell such as "`a`: `1`, `b`: the date 1".
fn members(cell: &str) -> Vec<(&str, &str)> {
    let mut rest = if cell == "nothing" { "" } else { cell };
    let mut members = Vec::new();
    while let Some((key, part)) = rest.strip_prefix('`').and_then(|it| it.split_once("`: ")) {
        let end = match part.strip_prefix('`') {
            Some(quoted) => quoted.find('`').unwrap() + 2,
            None => part.find(", `").unwrap_or(part.len()),
        };
        members.push((key, &part[..end]));
        rest = part[end..].trim_start_matches(", ");
    }
    members
}

impl Documents {
    fn read() -> Documents {
        let rows = lines("documents.tsv").into_iter().chain(lines("named.tsv"));
        Documents(rows.map(|row| (row[0].clone(), unhex(&row[1]))).collect())
    }

    fn find(&self, cell: &str) -> Vec<u8> {
        let quoted = format!("`{cell}`");
        if let Some(bytes) = self.0.get(cell).or_else(|| self.0.get(&quoted)) {
            return bytes.clone();
        }
        bare(cell).parse::<OwnedJsonb>().unwrap_or_else(|it| panic!("{cell}: {it}")).to_vec()
    }

    fn is(&self, document: &OwnedJsonb, cell: &str) -> bool {
        document.as_ref() == self.find(cell)
    }

    /// Whether the pairs are those of a cell.
    fn are<T>(&self, pairs: &[(String, T)], cell: &str, is: impl Fn(&T, &str) -> bool) -> bool {
        let wanted = members(cell);
        let is_pair = |((key, value), (name, part)): (&(String, T), &(&str, &str))| key == name && is(value, part);
        pairs.len() == wanted.len() && pairs.iter().zip(&wanted).all(is_pair)
    }

    fn agrees(&self, answer: &Result<Answer<'_>>, cell: &str) -> bool {
        match answer {
            Err(error) => cell == format!("refused: `{error}`"),
            Ok(_) if cell.starts_with("refused") => false,
            Ok(Answer::Missing) => cell == "none",
            Ok(_) if cell == "none" => false,
            Ok(Answer::Truth(truth)) => bare(cell) == truth.to_string(),
            Ok(Answer::Text(text)) => bare(cell) == text,
            Ok(Answer::Key(key)) => unhex(cell) == *key,
            Ok(Answer::Document(document)) => self.is(document, cell),
            Ok(Answer::List(list)) => {
                let wanted = cells(cell);
                list.len() == wanted.len() && list.iter().zip(wanted).all(|(it, cell)| self.is(it, cell))
            }
            Ok(Answer::Members(pairs)) => self.are(pairs, cell, |it, cell| self.is(it, cell)),
            Ok(Answer::Leaves(pairs)) => self.are(pairs, cell, |it, cell| from_slice(&self.find(cell)).unwrap() == *it),
        }
    }
}

fn optional<'a, T>(value: Option<T>, answer: impl FnOnce(T) -> Answer<'a>) -> Answer<'a> {
    value.map_or(Answer::Missing, answer)
}

/// The names that a cell lists.
fn names(cell: &str) -> Vec<&str> {
    cells(cell)
}

fn number<T: std::str::FromStr>(cell: &str) -> T {
    bare(cell).parse().ok().expect("a number")
}

fn leaves(document: RawJsonb<'_>, ignore_array: bool) -> Result<Answer<'_>> {
    let leaves = document.extract_scalar_key_values(ignore_array)?;
    Ok(Answer::Leaves(leaves.into_iter().map(|(path, value)| (path.to_string(), value)).collect()))
}

/// The key and the value of an insertion.
fn member(cell: &str) -> (String, &str) {
    match cell.strip_prefix("the empty text, ") {
        Some(value) => (String::new(), value),
        None => {
            let (key, value) = cell.split_once(", ").unwrap();
            (bare(key).to_string(), value)
        }
    }
}

fn edit(documents: &Documents, call: &str, it: RawJsonb<'_>, cell: &str) -> Result<Answer<'static>> {
    let keys: BTreeSet<&str> = names(cell).into_iter().collect();
    Ok(Answer::Document(match call {
        "object_insert" | "object_update" => {
            let (key, value) = member(cell);
            let value = documents.find(value);
            it.object_insert(&key, &RawJsonb::new(&value), call == "object_update")?
        }
        "object_pick" => it.object_pick(&keys)?,
        "object_delete" => it.object_delete(&keys)?,
        "array_insert" => {
            let (position, value) = cell.split_once(", ").unwrap();
            it.array_insert(number(position), &RawJsonb::new(&documents.find(value)))?
        }
        "delete_by_index" => it.delete_by_index(number(cell))?,
        "delete_by_name" => it.delete_by_name(bare(cell))?,
        "delete_by_keypath" => {
            let path = parse_key_paths(bare(cell).as_bytes())?;
            let deleted = it.delete_by_keypath(path.paths.iter());
            assert_eq!(path.prepare()?.delete(it), deleted, "{path}");
            deleted?
        }
        "strip_nulls" => it.strip_nulls()?,
        "array_distinct" => it.array_distinct()?,
        call => return combine(documents, call, it, cell),
    }))
}

fn combine(documents: &Documents, call: &str, it: RawJsonb<'_>, cell: &str) -> Result<Answer<'static>> {
    let other = documents.find(cell);
    let other = &RawJsonb::new(&other);
    Ok(match call {
        "concat" => Answer::Document(it.concat(other)?),
        "array_intersection" => Answer::Document(it.array_intersection(other)?),
        "array_except" => Answer::Document(it.array_except(other)?),
        "array_overlap" => Answer::Truth(it.array_overlap(other)?),
        "contains" => Answer::Truth(it.contains(other)?),
        "compare" => Answer::Text(format!("{:?}", it.compare(other)?)),
        call => panic!("no such function: {call}"),
    })
}

fn read<'a>(call: &str, it: RawJsonb<'a>, cell: &str) -> Option<Result<Answer<'a>>> {
    let read = || -> Result<Option<Answer<'_>>> {
        Ok(Some(match call {
            "get_by_keypath" => {
                let path = parse_key_paths(bare(cell).as_bytes())?;
                let found = it.get_by_keypath(path.paths.iter());
                assert_eq!(path.prepare()?.get(it), found, "{path}");
                optional(found?, Answer::Document)
            }
            "get_by_index" => optional(it.get_by_index(number(cell))?, Answer::Document),
            "get_by_name" => optional(it.get_by_name(bare(cell), false)?, Answer::Document),
            "get_by_name_ignore_case" => optional(it.get_by_name(bare(cell), true)?, Answer::Document),
            "array_length" => optional(it.array_length()?, |len| Answer::Text(len.to_string())),
            "array_values" => optional(it.array_values()?, Answer::List),
            "object_keys" => optional(it.object_keys()?, Answer::Document),
            "object_each" => optional(it.object_each()?, Answer::Members),
            "exists_all_keys" => Answer::Truth(it.exists_all_keys(names(cell).into_iter())?),
            "exists_any_keys" => Answer::Truth(it.exists_any_keys(names(cell).into_iter())?),
            "leaves" => leaves(it, false)?,
            "leaves_ignoring_arrays" => leaves(it, true)?,
            "traverse_check_string" => Answer::Truth(it.traverse_check_string(|text| text == bare(cell).as_bytes())?),
            "convert_to_comparable" => Answer::Key(it.convert_to_comparable()?),
            "convert_to_comparable_wide" => Answer::Key(it.convert_to_comparable_wide()?),
            "equality_key" => Answer::Key(it.equality_key()?),
            "check" => it.check().map(|()| Answer::Truth(true))?,
            _ => return Ok(None),
        }))
    };
    read().transpose()
}

fn scalar(call: &str, it: RawJsonb<'_>) -> Option<Result<Answer<'static>>> {
    let text = |it: Option<String>| optional(it, Answer::Text);
    let scalar = || -> Result<Option<Answer<'_>>> {
        Ok(Some(match call {
            "type_of" => Answer::Text(it.type_of()?.to_string()),
            "is_null" => Answer::Truth(it.is_null()?),
            "is_boolean" => Answer::Truth(it.is_boolean()?),
            "is_string" => Answer::Truth(it.is_string()?),
            "is_number" => Answer::Truth(it.is_number()?),
            "is_array" => Answer::Truth(it.is_array()?),
            "is_object" => Answer::Truth(it.is_object()?),
            "is_i64" => Answer::Truth(it.is_i64()?),
            "is_u64" => Answer::Truth(it.is_u64()?),
            "as_null" => optional(it.as_null()?, |()| Answer::Text("null".to_string())),
            "as_bool" => optional(it.as_bool()?, Answer::Truth),
            "as_str" => text(it.as_str()?.map(String::from)),
            "as_number" => text(it.as_number()?.map(|it| it.to_string())),
            "as_i64" => text(it.as_i64()?.map(|it| it.to_string())),
            "as_u64" => text(it.as_u64()?.map(|it| it.to_string())),
            "to_bool" => Answer::Truth(it.to_bool()?),
            "to_i64" => Answer::Text(it.to_i64()?.to_string()),
            "to_u64" => Answer::Text(it.to_u64()?.to_string()),
            "to_str" => Answer::Text(it.to_str()?),
            _ => return Ok(None),
        }))
    };
    scalar().transpose()
}

#[test]
fn calls_return_what_the_rows_say() {
    let documents = Documents::read();
    let mut wrong = Vec::new();
    let rows = lines("calls.tsv");
    for row in &rows {
        let [_, call, document, arguments, result] = &row[..] else { panic!("a row of another length: {row:?}") };
        let bytes = documents.find(document);
        let it = RawJsonb::new(&bytes);
        let answer = read(call, it, arguments).or_else(|| scalar(call, it));
        let answer = answer.unwrap_or_else(|| edit(&documents, call, it, arguments));
        if !documents.agrees(&answer, result) {
            wrong.push(format!("{call} {document} {arguments}: {answer:?} instead of {result}"));
        }
    }
    assert!(rows.len() > 500 && wrong.is_empty(), "{}", wrong.join("\n"));
}

/// The documents of a cell of hexadecimal digits, or the error.
fn selected(cell: &str) -> std::result::Result<Vec<Vec<u8>>, String> {
    if let Some(error) = bare(cell).strip_prefix("refused: ") {
        return Err(bare(error).to_string());
    }
    Ok(if bare(cell) == "none" { Vec::new() } else { cells(cell).into_iter().map(unhex).collect() })
}

fn check_selection(mut selector: Selector<'_>, path: &str, wanted: &std::result::Result<Vec<Vec<u8>>, String>) {
    let path = parse_json_path(path.as_bytes()).unwrap();
    let items = selector.select_values(&path).map_err(|it| it.to_string());
    let bytes = items.clone().map(|items| items.into_iter().map(OwnedJsonb::to_vec).collect());
    assert_eq!(&bytes, wanted, "{path}");
    let array = || items.clone().map(|it| OwnedJsonb::array_of(it.iter().map(OwnedJsonb::as_raw)).unwrap());
    let name = |it: Error| it.to_string();
    assert_eq!(selector.select_array(&path).map_err(name), array(), "{path}");
    assert_eq!(selector.select_first(&path).map_err(name), items.clone().map(|it| it.first().cloned()), "{path}");
    assert_eq!(selector.exists(&path).map_err(name), items.clone().map(|it| !it.is_empty()), "{path}");
    let value = items.clone().map(|it| match it.len() {
        0 | 1 => it.first().cloned(),
        _ => array().ok(),
    });
    assert_eq!(selector.select_value(&path).map_err(name), value, "{path}");
}

#[test]
fn paths_select_what_the_rows_say() {
    let documents = Documents::read();
    let mut runs = 0;
    for row in lines("paths.tsv") {
        let [_, group, path, document, result, hexadecimal, strict] = &row[..] else { panic!("{row:?}") };
        let path = bare(path);
        match group.as_str() {
            "printed key paths" => {
                let printed = parse_key_paths(path.as_bytes()).map(|it| it.to_string());
                let wanted =
                    if result == "refused" { Err(Error::InvalidKeyPath) } else { Ok(bare(result).to_string()) };
                assert_eq!(printed, wanted, "{path}");
            }
            "printed" => {
                let parsed = parse_json_path(path.as_bytes()).map(|it| it.to_string());
                let wanted = if result == "refused" { Err(Error::InvalidJsonPath) } else { Ok(path.to_string()) };
                assert_eq!(parsed, wanted, "{path}");
            }
            "errors" => assert_eq!(parse_json_path(path.as_bytes()).is_ok(), result == "none", "{path}"),
            "errors in key paths" => assert_eq!(parse_key_paths(path.as_bytes()).is_ok(), result == "none", "{path}"),
            "places" => {
                let bytes = documents.find(document);
                let steps = parse_key_paths(path.as_bytes()).unwrap();
                let found = RawJsonb::new(&bytes).get_by_keypath(steps.paths.iter()).unwrap();
                assert_eq!(found.map(OwnedJsonb::to_vec), selected(hexadecimal).unwrap().pop(), "{path}");
            }
            "predicates" => {
                let bytes = documents.find(document);
                let truth = parse_json_path(path.as_bytes()).and_then(|it| RawJsonb::new(&bytes).path_match(&it));
                let word = truth.map(|it| it.map_or("unknown".to_string(), |it| it.to_string()));
                assert_eq!(word.unwrap_or_else(|it| format!("refused: `{it}`")), *result, "{path}");
            }
            _ => {
                let (bytes, lax) = (documents.find(document), selected(hexadecimal));
                let root = RawJsonb::new(&bytes);
                check_selection(Selector::new(root), path, &lax);
                let strictly = if strict == "the same" { lax } else { selected(strict) };
                check_selection(Selector::new_strict(root), path, &strictly);
            }
        }
        runs += 1;
    }
    assert!(runs > 150);
}
