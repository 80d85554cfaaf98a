"""The example rows in docs/rows/: what tests run, and what pages show of them.

calls.tsv has calls on documents, paths.tsv key paths and JSON paths. documents.tsv and named.tsv give the bytes of their documents: from
JSON text, and of documents that have none. A row with an `x` in its first column is shown on a page.
"""
import re
from pathlib import Path

import documents

ROOT = Path(__file__).resolve().parent.parent
PATHS = ROOT / "crates/jsonb_examples/src/tables/rows.rt"
CALLS = ROOT / "crates/jsonb_raw/src/tests/calls/rows.rt"

# What a call takes in addition to its document, if anything.
TAKES_TEXT = """get_by_keypath get_by_index get_by_name get_by_name_ignore_case traverse_check_string delete_by_index
    delete_by_name delete_by_keypath""".split()
TAKES_NAMES = "exists_all_keys exists_any_keys object_pick object_delete".split()
TAKES_DOCUMENT = "contains compare concat array_overlap array_intersection array_except".split()
TAKES_BOTH = "object_insert object_update array_insert".split()

# What a call returns, if not a document.
RETURNS_BYTES = "convert_to_comparable convert_to_comparable_wide equality_key".split()
RETURNS_LIST = "array_values object_each leaves leaves_ignoring_arrays".split()
RETURNS_TEXT = "compare array_length type_of as_null as_bool as_number as_i64 as_u64 as_str to_i64 to_u64 to_str".split()

# What the tests call the rows of a group of paths.tsv. The other groups are selections.
KINDS = {
    "predicates": "truth", "printed": "path", "places": "place", "printed key paths": "key path", "errors": "error",
    "errors in key paths": "key path error",
}
# What the tests call the rows of the tables of keys in docs/FORMAT.md.
KEYS = {"sortable keys": "sortable key", "equality keys": "equality key"}

# The columns that a page shows of a group.
SELECTION = {"Path": "path", "Document": "document", "Result": "result", "Result in strict mode": "strict"}
COLUMNS = {
    "calls": {"Function": "function", "Document": "document", "Arguments": "arguments", "Result": "result"},
    "errors": {"Text": "path", "Position": "result"},
    "errors in key paths": {"Text": "path", "Position": "result"},
    "printed": {"Text": "path", "Printed": "result"},
    "printed key paths": {"Text": "path", "Printed": "result"},
    "places": {"Key path": "path", "Document": "document", "Result": "result"},
    "predicates": {"Predicate": "path", "Document": "document", "Result": "result"},
}


class Problem(Exception):
    """The fault of a block, a row or a constant."""


def read(name):
    """The rows of a file of docs/rows/, each by the names of its columns, and its place."""
    head, *lines = (ROOT / f"docs/rows/{name}.tsv").read_text().rstrip("\n").split("\n")
    for number, line in enumerate(lines, 2):
        cells = line.split("\t")
        if len(cells) != len(head.split("\t")):
            raise Problem(f"docs/rows/{name}.tsv:{number} has {len(cells)} columns")
        yield {**dict(zip(head.split("\t"), cells)), "place": f"docs/rows/{name}.tsv:{number}"}


def codes(cell):
    """The codes between backticks in a cell."""
    return re.findall(r"`([^`]*)`", cell)


def code(cell):
    """The code that a cell is."""
    found = re.fullmatch(r"`([^`]+)`", cell)
    if not found:
        raise Problem(f"not one code between backticks: {cell}")
    return found[1]


# ---- paths


def path_result(cell, digits):
    """What a path selects: documents with spaces between, `none`, or the error. The hexadecimal must agree."""
    if cell.startswith("refused: "):
        text = f"refused: {code(cell[len('refused: '):])}"
    elif cell == "nothing":
        text = "none"
    else:
        text = " ".join(documents.hexadecimal(text) for text in codes(cell))
    if digits is not None and " ".join(codes(digits)) != text:
        raise Problem(f"the hexadecimal of {cell} is {text}")
    return text


def path_rows(row, named):
    """The rows of the tests of a row of paths.tsv: the kind of row, the path, the document and the result."""
    group = row["group"]
    if group in ("errors", "errors in key paths"):
        return [(KINDS[group], code(row["path"]), "", row["result"])]
    if group in ("printed", "printed key paths"):
        return [(KINDS[group], code(row["path"]), "", row["result"] if row["result"] == "refused" else code(row["result"]))]
    asked = (code(row["path"]), named[code(row["document"])])
    if group == "predicates":
        return [(KINDS[group], *asked, row["result"])]
    lax = path_result(row["result"], row["hexadecimal"])
    if group == "places":
        return [(KINDS[group], *asked, lax)]
    strict = lax if row["strict"] == "the same" else path_result(row["strict"], None)
    return [("lax", *asked, lax), ("strict", *asked, strict)]


def key_rows(kind, row):
    """The row of the tests of a row of a table of keys in docs/FORMAT.md."""
    return [(KEYS[kind], "", documents.hexadecimal(code(row[0])), code(row[1]).replace(" ", ""))]


def path_documents():
    """The documents of paths.tsv, by their JSON text."""
    named = {}
    for row in read("documents"):
        text = code(row["document"])
        named[text] = documents.hexadecimal(text)
        if code(row["hexadecimal"]) != named[text]:
            raise Problem(f"{row['place']}: the hexadecimal of {text} is {named[text]}")
    return named


# ---- calls


def document(cell, named):
    """The bytes of a document in hexadecimal: of a name, or of a JSON text."""
    return named[cell] if cell in named else documents.hexadecimal(code(cell))


def text(cell):
    """The code of a cell, or an empty one."""
    return "" if cell == "the empty text" else code(cell)


def arguments(call, cell, named):
    """The arguments of a call: a document and a code, either perhaps empty."""
    if call in TAKES_DOCUMENT:
        return document(cell, named), ""
    if call in TAKES_TEXT:
        return "", text(cell)
    if call in TAKES_NAMES:
        return "", "" if cell == "no names" else ",".join(text(name) for name in cell.split(", "))
    if call in TAKES_BOTH:
        name, other = re.fullmatch(r"(`[^`]*`|the empty text), (.*)", cell).groups()
        return document(other, named), text(name)
    if cell:
        raise Problem(f"{call} takes no argument")
    return "", ""


def call_result(call, cell, named):
    """The result of a call, as the tests write it."""
    if cell.startswith("refused: "):
        return f"refused: {code(cell[len('refused: '):])}"
    if cell in ("none", "true", "false"):
        return cell
    if call in RETURNS_BYTES:
        return code(cell).replace(" ", "")
    if call in RETURNS_TEXT:
        return code(cell)
    if call in RETURNS_LIST:
        items = [] if cell == "nothing" else re.findall(r"(?:`([^`]*)`: )?(`[^`]*`|[^`,]+)(?:, |$)", cell)
        return " ".join((f"{key} " if key else "") + document(item, named) for key, item in items)
    return document(cell, named)


def call_line(row, named):
    """The line of the tests of a row of calls.tsv. A missing document is a `-`, a missing argument nothing."""
    call = row["function"]
    subject, (other, name) = document(row["document"], named), arguments(call, row["arguments"], named)
    given = [other or "-", name] if name else [other] if other else []
    result = call_result(call, row["result"], named)
    return " ".join([call, subject or "-", *given, "=>", *([result] if result else [])])


def call_documents():
    """The documents that no JSON text gives, by their names."""
    return {row["document"]: "" if row["hexadecimal"] == "none" else code(row["hexadecimal"]).replace(" ", "")
            for row in read("named")}


# ---- the files that tests read


def located(row, made):
    """What is made of a row; an error names its place."""
    try:
        return made(row)
    except (Problem, AttributeError, KeyError, ValueError) as problem:
        raise Problem(f"{row['place']}: {problem}") from None


def rows_file(lines, columns):
    lines = [line.replace("\\", "\\\\").replace('"', '\\"').replace("\t", "\\t") for line in lines]
    return "\n".join([
        "//! The rows of docs/rows/, as tools/check_quotes.py --write writes them.", "",
        f"/// A line for each row, {columns}.",
        'pub const ROWS: &str = "', *lines, '";', ""])


def call_file():
    named = call_documents()
    lines = [located(row, lambda it: call_line(it, named)) for row in read("calls")]
    return rows_file(lines, "with spaces between: the call, its document, another one, a string, an arrow, and the result")


def path_file(keys):
    """The file of paths, after the rows of the tables of keys."""
    named = path_documents()
    found = [it for kind, row in keys for it in key_rows(kind, row)]
    for row in read("paths"):
        found += located(row, lambda it: path_rows(it, named))
    lines = ["\t".join(row) for row in found]
    return rows_file(lines, "with tabs between: what is asked, the text of a path, a document, and the result")


# ---- the tables that pages show


def table(columns, rows):
    line = lambda cells: "| " + " | ".join(cell.replace("|", "\\|") for cell in cells) + " |"
    return "\n".join([line(columns), "|" + "---|" * len(columns), *(line([row[it] for it in columns.values()]) for row in rows)])


def shown(marker, is_page=True):
    """The table of a marker: `calls: get_by_index ..` of some calls, or `paths: fields` of a group. In a doc comment it has no
    column that is the same in all rows."""
    file, names = marker.split(": ", 1)
    if file == "paths":
        return table(COLUMNS.get(names, SELECTION), [row for row in read(file) if row["shown"] and row["group"] == names])
    rows = [{**row, "function": f"`{row['function']}`"} for row in read(file) if row["shown"] and row["function"] in names.split()]
    columns = COLUMNS["calls"]
    if not is_page:
        columns = {head: it for head, it in columns.items()
                   if it in ("document", "result") or any(row[it] != rows[0][it] for row in rows) or it == "arguments" and rows[0][it]}
    return table(columns, rows)


def with_tables(path):
    """The text of a page or a source file with the tables that its markers name."""
    is_page = path.suffix == ".md"
    before = "" if is_page else " *///"
    pattern = rf"^({before}) ?(<!-- rows: ((?:calls|paths): [^>]+) -->)\n(?:{before} ?\|.*\n)*"

    def put(found):
        lines = [found[2], *shown(found[3], is_page).splitlines()]
        return "".join(f"{found[1]} {line}\n".lstrip(" " * is_page) for line in lines)

    return re.sub(pattern, put, path.read_text(), flags=re.M)
