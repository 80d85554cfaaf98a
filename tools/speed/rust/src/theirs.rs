//! The Rust crate.

use crate::answers::Handed;
use crate::Case;
use jsonb::jsonpath::parse_json_path;
use jsonb::keypath::parse_key_paths;
use jsonb::{OwnedJsonb, RawJsonb};
use std::collections::BTreeSet;
use std::hint::black_box;

/// The result of a call.
trait Answer {
    /// What is added up: a length, a count, or 1 for true.
    fn number(self) -> usize;

    /// The documents or bytes that it is, if any.
    fn handed(self) -> Option<Handed>;
}

impl Answer for usize {
    fn number(self) -> usize {
        self
    }

    fn handed(self) -> Option<Handed> {
        None
    }
}

impl Answer for Vec<u8> {
    fn number(self) -> usize {
        self.len()
    }

    fn handed(self) -> Option<Handed> {
        Some(Handed::One(self))
    }
}

impl Answer for OwnedJsonb {
    fn number(self) -> usize {
        self.to_vec().number()
    }

    fn handed(self) -> Option<Handed> {
        self.to_vec().handed()
    }
}

impl Answer for Vec<OwnedJsonb> {
    fn number(self) -> usize {
        self.len()
    }

    fn handed(self) -> Option<Handed> {
        Some(Handed::Many(self.into_iter().map(OwnedJsonb::to_vec).collect()))
    }
}

impl Answer for Vec<(String, OwnedJsonb)> {
    fn number(self) -> usize {
        self.len()
    }

    fn handed(self) -> Option<Handed> {
        let parts = self.into_iter().flat_map(|(key, value)| [key.into_bytes(), value.to_vec()]);
        Some(Handed::Many(parts.collect()))
    }
}

impl<A: Answer> Answer for Option<A> {
    fn number(self) -> usize {
        self.map_or(0, A::number)
    }

    fn handed(self) -> Option<Handed> {
        self.and_then(A::handed)
    }
}

/// What is done with the call of a case.
trait Task {
    type Done;

    fn run<A: Answer>(self, case: &Case, call: impl Fn(RawJsonb<'_>) -> A) -> Self::Done;
}

/// It is made that many times, and the results are added up.
struct Sum {
    times: usize,
}

impl Task for Sum {
    type Done = u64;

    fn run<A: Answer>(self, case: &Case, call: impl Fn(RawJsonb<'_>) -> A) -> u64 {
        let number = |_| black_box(call(RawJsonb::new(black_box(&case.document))).number()) as u64;
        (0..self.times).map(number).fold(0, u64::wrapping_add)
    }
}

/// It is made once, and the result is kept.
struct Keep;

impl Task for Keep {
    type Done = Option<Handed>;

    fn run<A: Answer>(self, case: &Case, call: impl Fn(RawJsonb<'_>) -> A) -> Option<Handed> {
        call(RawJsonb::new(&case.document)).handed()
    }
}

/// Makes that many calls of a case, and returns the sum of their results.
pub fn calls(case: &Case, times: usize) -> u64 {
    with_call(case, Sum { times })
}

/// The result of a case, if that is documents or bytes.
pub fn answer(case: &Case) -> Option<Handed> {
    with_call(case, Keep)
}

/// Does a task with the call of a case if it is one of those listed, which take a document alone: counts its result.
macro_rules! one_of {
    ($case:expr, $task:expr, |$result:ident| $count:expr, $($call:ident)+) => {
        match $case.call.as_str() {
            $(stringify!($call) => $task.run($case, |d| {
                let $result = d.$call();
                $count as usize
            }),)+
            other => panic!("no call has the name {other}"),
        }
    };
}

/// Does a task with the call of a case.
fn with_call<T: Task>(case: &Case, task: T) -> T::Done {
    let text = std::str::from_utf8(&case.argument).expect("an argument that is UTF-8");
    let other = RawJsonb::new(&case.other);
    let names: Vec<&str> = text.split(',').collect();
    let keys: BTreeSet<&str> = names.iter().copied().collect();
    let position = || text.parse::<i32>().expect("a position");
    match case.call.as_str() {
        "parse_path" => {
            task.run(case, |_| parse_json_path(black_box(&case.document)).expect("a path").paths.len())
        }
        "parse_keypath" => {
            task.run(case, |_| parse_key_paths(black_box(&case.document)).expect("a key path").paths.len())
        }
        "path_print" => {
            task.run(case, |_| parse_json_path(black_box(&case.document)).expect("a path").to_string().len())
        }
        "keypath_print" => {
            task.run(case, |_| parse_key_paths(black_box(&case.document)).expect("a key path").to_string().len())
        }
        "path_clone" => {
            task.run(case, |_| parse_json_path(black_box(&case.document)).expect("a path").clone().paths.len())
        }
        "path_equal" => task.run(case, |_| {
            let parse = || parse_json_path(black_box(&case.document)).expect("a path");
            (parse() == parse()) as usize
        }),
        "keypath_clone" => {
            task.run(case, |_| parse_key_paths(black_box(&case.document)).expect("a key path").clone().paths.len())
        }
        "keypath_to_owned" => {
            task.run(case, |_| parse_key_paths(black_box(&case.document)).expect("a key path").to_owned().paths.len())
        }
        "keypath_as_key_paths" => {
            let path = parse_key_paths(&case.document).expect("a key path").to_owned();
            task.run(case, |_| black_box(&path).as_key_paths().paths.len())
        }
        "select" | "select_array" | "select_value" | "select_first" | "exists" | "match" => {
            let path = parse_json_path(&case.argument).expect("a path");
            match case.call.as_str() {
                "select" => task.run(case, |d| d.select_by_path(&path).unwrap()),
                "select_array" => task.run(case, |d| d.select_array_by_path(&path).unwrap()),
                "select_value" => task.run(case, |d| d.select_value_by_path(&path).unwrap()),
                "select_first" => task.run(case, |d| d.select_first_by_path(&path).unwrap()),
                "exists" => task.run(case, |d| d.path_exists(&path).unwrap() as usize),
                _ => task.run(case, |d| (d.path_match(&path).unwrap() == Some(true)) as usize),
            }
        }
        "get_by_keypath" | "delete_by_keypath" => {
            let path = parse_key_paths(&case.argument).expect("a key path");
            match case.call.as_str() {
                "get_by_keypath" => task.run(case, |d| d.get_by_keypath(path.paths.iter()).unwrap()),
                _ => task.run(case, |d| d.delete_by_keypath(path.paths.iter()).unwrap()),
            }
        }
        "get_by_name" => task.run(case, |d| d.get_by_name(text, false).unwrap()),
        "get_by_name_ignore_case" => task.run(case, |d| d.get_by_name(text, true).unwrap()),
        "delete_by_name" => task.run(case, |d| d.delete_by_name(text).unwrap()),
        "object_insert" => task.run(case, |d| d.object_insert(text, &other, false).unwrap()),
        "object_update" => task.run(case, |d| d.object_insert(text, &other, true).unwrap()),
        "get_by_index" => task.run(case, |d| d.get_by_index(position() as usize).unwrap()),
        "delete_by_index" => task.run(case, |d| d.delete_by_index(position()).unwrap()),
        "array_insert" => task.run(case, |d| d.array_insert(position(), &other).unwrap()),
        "exists_all_keys" | "exists_all_keys_in" => task.run(case, |d| d.exists_all_keys(names.iter().copied()).unwrap() as usize),
        "exists_any_keys" | "exists_any_keys_in" => task.run(case, |d| d.exists_any_keys(names.iter().copied()).unwrap() as usize),
        "object_pick" => task.run(case, |d| d.object_pick(&keys).unwrap()),
        "object_delete" => task.run(case, |d| d.object_delete(&keys).unwrap()),
        "contains" | "contains_in" => task.run(case, |d| d.contains(&other).unwrap() as usize),
        "array_overlap" | "array_overlap_in" => task.run(case, |d| d.array_overlap(&other).unwrap() as usize),
        "concat" => task.run(case, |d| d.concat(&other).unwrap()),
        "array_intersection" => task.run(case, |d| d.array_intersection(&other).unwrap()),
        "array_except" => task.run(case, |d| d.array_except(&other).unwrap()),
        "array_distinct" => task.run(case, |d| d.array_distinct().unwrap()),
        "strip_nulls" => task.run(case, |d| d.strip_nulls().unwrap()),
        "sort_key" => task.run(case, |d| d.convert_to_comparable()),
        "leaves_outside_arrays" => task.run(case, |d| d.extract_scalar_key_values(true).unwrap().len()),
        "leaves" => task.run(case, |d| d.extract_scalar_key_values(false).unwrap().len()),
        "array_values" => task.run(case, |d| d.array_values().unwrap()),
        "object_keys" => task.run(case, |d| d.object_keys().unwrap()),
        "object_each" => task.run(case, |d| d.object_each().unwrap()),
        "traverse_check_string" => {
            task.run(case, |d| d.traverse_check_string(|text| text.is_empty()).unwrap() as usize)
        }
        "nothing" => task.run(case, |_| 0),
        "type_of" => task.run(case, |d| d.type_of().unwrap().len()),
        "array_length" => task.run(case, |d| d.array_length().unwrap().unwrap_or(0)),
        name if name.starts_with("is_") => one_of!(case, task, |result| result.unwrap(),
            is_null is_boolean is_number is_i64 is_u64 is_string is_array is_object
            is_extension_value is_binary is_date is_timestamp is_timestamp_tz is_interval),
        name if name.starts_with("as_") => one_of!(case, task, |result| result.unwrap().is_some(),
            as_null as_bool as_number as_i64 as_u64 as_str
            as_extension_value as_binary as_date as_timestamp as_timestamp_tz as_interval),
        _ => one_of!(case, task, |result| result.is_ok(), to_bool to_i64 to_u64 to_str),
    }
}
