#!/usr/bin/env python3
"""Finds wording that docs/STYLE.md replaces.

    tools/lint.py --max N            checks README.md, docs/, bindings/, tools/ and crates/; the last line is 'N passed, M failed'
    tools/lint.py PATH..             prints each finding: FILE:LINE: [RULE] found -> suggestion
    tools/lint.py --count [PATH..]   prints the findings of each rule, and per 10,000 words
    tools/lint.py --only RULE,.. ..  checks these rules only

Checks the prose of Markdown pages, of `///`, `//!` and `//` comments (.rt, .rs), of `--` comments (.antt), of C comments
(.h, .c), of `#` comments (.sh) and of Python comments and docstrings (.py). Skips code blocks, inline code, quoted strings
and URLs. A paragraph that contains `prose-ok: RULE` is accepted. The exit status is 1 if there are more than N findings.
"""

import argparse
import ast
import io
import re
import sys
import tokenize
from collections import Counter
from pathlib import Path
from typing import NamedTuple

ROOT = Path(__file__).resolve().parent.parent
CHECKED = ["README.md", "docs", "bindings", "tools", "crates"]
NOT_READ = {"out", ".git", "target"}

# Each rule: name, pattern, suggestion, and patterns on the text around a match (40 characters before it, `|`, 60 after)
# that make it right. Inline code is blanked to backticks of the same length, so that "``" in a pattern is a name in code.
PLACE = (r"(?:place|places|position|point|line|lines|spot|page|section|module|folder|file|crate|directory|table|row|"
         r"somewhere|everywhere|nowhere|there|case|example|state|stage|is|are|from|to|of|and|says|say|know|knows|shows?|"
         r"see|decides?|prints|finds?|tells|marks?|on|for)")
RULES = [
    ("where", r"\bwhere\b", "if / when ('only if', 'if and only if')",
     [PLACE + r" \|where\|",
      r"\|where\| (?:to|from|you|possible|needed|necessary|appropriate)\b",
      r"`, \|where\| (?:they|it|each|everything)\b",
      r"(?:^|[.:] )\|Where\| (?:[^,.]{1,59}\.|[^,.]{1,60}$)",
      r"\|where\| (?:the|each|every|`+) ?\w* ?(?:is|are|means|denotes) (?:at|in|the|a|any|`+)",
      r"\|where\| (?:\S+ ){1,3}(?:lies|lie|stands?|begins?|starts?|ends?|goes|comes from|belongs?|is defined|live)\b"]),
    ("answer", r"\banswer(?:s|ed|ing)?\b", "return(s) / result / value", [r"questions? (?:and|or) \|answers?\|"]),
    ("refuse", r"\brefus(?:e|es|ed|al|als|ing)\b", "reject / fail with / error ('the allocation fails')",
     [r"\|refused\|(?:: |\s*\||$| \|)"]),
    ("behind", r"\bbehind\b", "after / following",
     [r"\|behind\| (?:a|the) (?:`+|pointer|reference|lock|feature|flag|scenes|trait)"]),
    ("in-front", r"\bin front\b(?: of)?", "before / prefix", []),
    ("stands", r"\bstands?\b", "is / appears / occurs", [r"\|stands?\| (?:for|alone)\b"]),
    ("takes-memory", r"\b(?:tak(?:es?|ing)|need(?:s|ing)?) (?:no |little |any |more )?memory\b|\bwithout memory\b|(?<=[.,;] )no memory\b|"
     r"\brequests? for memory\b|\bmemory (?:is|was|were) (?:refused|found)\b", "allocates / does not allocate / allocation fails", []),
    ("hand-on", r"\bhand(?:s|ed|ing)? (?:on|out|in|over|back|it on|them on)\b", "re-export / return / pass", [r"other \|hands? on\|"]),
    ("growth", r"\bgrowths?\b", "allocation(s)", [r"_sweep/\|growths\|", r"\|growths?\|(?:\.csv| (?:rate|factor|of the time|of time|in time|is|curve))"]),
    ("wrong-body", r"\bwrong bod(?:y|ies)\b", "mutant(s)", []),
    ("let-go", r"\bl(?:et|ets|etting)\b(?: \w+)?(?: \w+)? go\b", "drop(ped)", []),
    ("so-many", r"\bso (?:many|much)\b(?! that\b)", "that many / n", [r"(?:not|twice|half) \|so (?:many|much)\|"]),
    ("tell", r"\btells?\b|\btold\b", "report / decide / state / determine",
     [r"\|tells?\| (?:\S+ ){0,4}apart\b", r"\|tells?\| (?:you|us|the caller|the user)\b",
      r"(?:way|can|can't|cannot) (?:we |you |I )?(?:to )?\|tell\|"]),
    ("meets", r"\bmeets?\b", "selects / finds / reaches",
     [r"\|meets?\| (?:its|the|their|this|a|that|every|each|all) (?:\w+ )?"
      r"(?:contract|definition|spec|clause|requirement|condition|limit|pre|post|promise)",
      r"(?:to|that|do|and) \|meet\| (?:each other|once)"]),
    ("own", r"\b(?:memory|bytes|document|documents|copy|header|buffer|status) of (?:its|their|one's) own\b",
     "a new / its own / separate", []),
    ("as-example", r"\((?:as|such as) (?=[`$\"])|, as (?=[`$\"]\S)", "for example / such as", [r"\|, as \|`+ (?:does|do|is|are|has|returns?|counts?|says|takes|parses|prints|needs)\b"]),
    ("else", r"\band else\b|[,;] else\b(?! if\b)|(?:^|(?<=\. ))Else\b", "otherwise", [r"(?:no one|nothing|anything|something|what) \|"]),
    ("gives", r"\bgives? (?:back|nothing|none)\b|(?:^|(?<=\. ))Gives?\b|\bwhat (?:it|that|this) gives\b|\bgiven back\b", "return(s) / yields / freed", []),
    ("dear", r"\bdear(?:est|er)\b", "slowest / more expensive", []),
    ("anew", r"(?<!--)\banew\b", "again", []),
    ("wanted", r"\bwanted\b", "expected / requested", []),
    ("at-hand", r"\bat hand\b", "given / current", []),
    ("what-that-is", r"\bwhat (?:that|it) (?:is|has)\b(?=\s*(?:\||$))", "Meaning / Contents", []),
    ("who", r"\b(?:for|by|to) who\b|(?:^|(?<=\. ))Who (?!is\b|are\b|needs\?)|\bwhoever\b", "name the reader ('contributors', 'the caller')", []),
    ("but-except", r"\bbut for\b|\b(?:no|each|every|all|any|the) \w+ but (?=[`\w])|\ball but\b|, but (?=`+[;,.)])", "except",
     [r"\|all but\| (?:the last|one)"]),
    ("passes", r"\bpass(?:es|ing)? (?:the|its|their|that|these) (?:limits?|format|end)\b", "exceeds", []),
    ("rise-fall", r"\b(?:names|keys|texts|positions|offsets|places|numbers|they|that) (?:rise|fall)\b", "are sorted / increase / decrease", []),
    ("is-no", r"(?<!there )\b(?:is|are|was|were|be) no (?!longer\b|more\b|less\b|fewer\b|other\b|greater\b|larger\b|deeper\b|need\b|way\b|one\b|"
     r"such\b|faster\b|slower\b|different\b|matter\b|better\b|worse\b|later\b|smaller\b|higher\b)\w+", "is not a", [r"there \|", r"[Tt]here \w+ \|"]),
    ("whole-number", r"\bwhole numbers?\b|\b(?:is|are|be) (?:not )?whole\b", "integer", []),
    ("truth", r"\btruth(?:s| values?)\b|\ba truth\b", "Boolean", [r"\|truth\| of\b"]),
    ("text", r"\btexts\b|\ba text\b(?! file)|\btexts? of JSON\b", "string (a JSON value); JSON text", []),
    ("lies", r"\bl(?:ies|ie|ay) (?:deeper|deepest|too|at|behind|beside|one|within|below)\b", "is / is nested", []),
    ("ask", r"\bask(?:s|ed|ing)? (?:for\b|it\b|first\b|(?=`))", "call / request", []),
    ("stranger", r"\bstrangers?\b", "untrusted (input)", []),
    ("thrice", r"\bthrice\b|\btwice as often\b", "three times", []),
    ("whatever", r"\bin whatever\b|\bof whatever\b", "in any", []),
    ("words-of", r"\b(?:the )?words (?:of (?:a |the |public )?contracts?|that no clause)\b", "definitions used by", []),
    ("same", r"^(?:The same|As (?:above|those)|Refusals as of)\b(?! (?:bytes|value|document|number|key|as\b))", "name the item; the reader may not see the one above", []),
    ("puts", r"\bputs?\b[^.;]{0,50}\b(?:behind|at the end|before the others)\b", "append / insert", []),
    ("spare", r"\bspares?\b|\bsparing\b", "avoid / save", [r"\|spare\| (?:room|capacity|space)"]),
    ("beside", r"\bbeside\b(?! (?:each other|one another))", "next to / in addition to / compared with", []),
    ("that-there", r"\bthat there (?:is|are)(?=[.,;)]|$| (?:and|in|of|on|at)\b)", "existing / (drop)", []),
    ("gone-into", r"\bgo(?:ne|es)? into by\b|\bis gone into\b", "entered", []),
    ("by-turns", r"\bby turns\b", "alternately", []),
    ("carry-on", r"\bcarr(?:y|ies|ying) (?:it |this )?on\b", "maintain / contribute", []),
    ("used-up", r"\bused up\b", "consumed", []),
    ("is-said", r"\b(?:is|are|was|were) said\b", "is reported / stated", []),
    ("without-end-byte", r"\bend byte\b", "NUL terminator", []),
    ("room", r"\bhas no room\b|\bhad no room\b", "does not fit / capacity for", []),
    ("in-memory-own", r"\bin memory of (?:its|their) own\b", "in a new allocation", []),
    ("kept-as", r"\b(?:is|are) as (?:it was|they were|they are|it is)\b", "unchanged", []),
]


class Rule(NamedTuple):
    name: str
    pattern: re.Pattern
    suggestion: str
    unless: list


class Finding(NamedTuple):
    path: Path
    line: int
    rule: str
    found: str
    suggestion: str


CASE_SENSITIVE = {"else", "gives", "who", "same"}
COMPILED = [Rule(name, re.compile(pattern, 0 if name in CASE_SENSITIVE else re.I), suggestion, [re.compile(it, re.I) for it in unless])
            for name, pattern, suggestion, unless in RULES]


def blanked(text):
    """The text with inline code, URLs and double-quoted strings replaced by as many backticks."""
    for pattern in (r"`[^`\n]*(?:\n[^`\n]*)?`", r"https?://\S+", r"(?<![\w\"])\"[^\"\n]{1,60}\""):
        text = re.sub(pattern, lambda found: re.sub(r"[^\n]", "`", found[0]), text)
    return text


def paragraphs(lines):
    """Joins (line number, text) pairs into paragraphs; an empty text or a gap in the numbers ends one."""
    paragraph, last = [], None
    for at, text in lines:
        if paragraph and (not text.strip() or at != last + 1):
            yield paragraph
            paragraph = []
        if text.strip():
            paragraph.append((at, text.strip()))
        last = at
    if paragraph:
        yield paragraph


def markdown(text):
    """The prose of a page. A heading, a row of a table and an item of a list begin a paragraph."""
    is_fenced = is_code = False
    is_after_blank = True
    for at, line in enumerate(text.splitlines(), 1):
        if re.match(r"\s*(?:```|~~~)", line):
            is_fenced = not is_fenced
            yield at, ""
            continue
        is_code = line.startswith("    ") and (is_after_blank or is_code) and not re.match(r"\s+(?:[-*]|\d+\.) ", line)
        is_after_blank = not line.strip() or (is_after_blank and is_code)
        if is_fenced or is_code or line.lstrip().startswith("<!--") or re.match(r"\s*\|[-| :]+\|$", line):
            yield at, ""
        elif line.lstrip().startswith(("|", "#", "- ")) or re.match(r"\s*\d+\. ", line):
            yield at - 0.5, ""
            yield at, line.lstrip("#|- ")
        else:
            yield at, line


def line_comments(mark):
    """A reader of comments that a mark begins, at the start of a line or after code."""

    def read(text):
        is_fenced = False
        for at, line in enumerate(text.splitlines(), 1):
            stripped = line.strip()
            cut = line.find(f" {mark} ")
            if stripped.startswith(mark) and not stripped.startswith("#!"):
                comment = stripped.lstrip(mark[0]).lstrip("!").strip()
                is_fenced ^= comment.startswith("```")
                yield at, "" if is_fenced or comment.startswith(("#", "```")) else comment
            elif cut > 0 and line[:cut].count('"') % 2 == 0:
                yield at - 0.5, ""
                yield at, line[cut + len(mark) + 2:]
                yield at + 0.5, ""
            else:
                is_fenced = False
                yield at, ""

    return read


def c_comments(text):
    for found in re.finditer(r"/\*(.*?)\*/|//([^\n]*)", text, re.S):
        first = text.count("\n", 0, found.start()) + 1
        yield first - 0.5, ""
        for at, line in enumerate((found[1] or found[2] or "").splitlines(), first):
            comment = re.sub(r"^\s*\*? ?", "", line)
            yield at, "" if comment.startswith("  ") else comment


def python(text):
    for node in ast.walk(ast.parse(text)):
        if isinstance(node, (ast.Module, ast.FunctionDef, ast.AsyncFunctionDef, ast.ClassDef)) and ast.get_docstring(node):
            first = node.body[0].lineno
            yield first - 0.5, ""
            for at, line in enumerate(ast.get_docstring(node, clean=False).splitlines(), first):
                yield at, "" if line.startswith(" " * 12) else line
    yield -1, ""
    for token in tokenize.generate_tokens(io.StringIO(text).readline):
        if token.type == tokenize.COMMENT and not token.string.startswith("#!"):
            yield token.start[0], token.string.lstrip("# ")


READERS = {".md": markdown, ".rt": line_comments("//"), ".rs": line_comments("//"), ".antt": line_comments("--"),
           ".sh": line_comments("#"), ".h": c_comments, ".c": c_comments, ".py": python}


def findings(path, paragraph, rules):
    """The findings in a paragraph."""
    prose = blanked("\n".join(text for _, text in paragraph))
    flat = prose.replace("\n", " ")
    original = " ".join(text for _, text in paragraph)
    for rule in rules:
        if f"prose-ok: {rule.name}" in original:
            continue
        for found in rule.pattern.finditer(flat):
            around = f"{flat[max(0, found.start() - 40):found.start()]}|{found[0]}|{flat[found.end():found.end() + 60]}"
            if not any(it.search(around) for it in rule.unless):
                line = paragraph[prose.count("\n", 0, found.start())][0]
                yield Finding(path, line, rule.name, original[found.start():found.end()], rule.suggestion)


def words(paragraph):
    """How many words a paragraph has without its inline code."""
    prose = blanked("\n".join(text for _, text in paragraph))
    return len(re.findall(r"[A-Za-z][A-Za-z'-]*", prose.replace("`", " ")))


def files(paths):
    for path in paths:
        if path.is_dir():
            yield from (it for it in sorted(path.rglob("*"))
                        if it.suffix in READERS and it.is_file() and not NOT_READ & set(it.relative_to(path).parts))
        elif path.suffix in READERS:
            yield path
        else:
            sys.exit(f"{path}: not a file whose prose is checked")


def print_counts(found, number):
    for rule, count in Counter(it.rule for it in found).most_common():
        print(f"{rule:18} {count:6} {count * 10000 / max(number, 1):8.1f} per 10,000 words")
    print(f"{'all':18} {len(found):6} {len(found) * 10000 / max(number, 1):8.1f} per 10,000 words; {number} words")


def main():
    parser = argparse.ArgumentParser(description=__doc__, formatter_class=argparse.RawDescriptionHelpFormatter)
    parser.add_argument("paths", nargs="*", type=Path)
    parser.add_argument("--count", action="store_true")
    parser.add_argument("--only", default="")
    parser.add_argument("--max", type=int)
    args = parser.parse_args()
    rules = [it for it in COMPILED if not args.only or it.name in args.only.split(",")]
    read = [(path, it) for path in files(args.paths or [ROOT / it for it in CHECKED])
            for it in paragraphs(READERS[path.suffix](path.read_text()))]
    found = [it for path, paragraph in read for it in findings(path, paragraph, rules)]
    number = sum(words(paragraph) for _, paragraph in read)
    if args.count:
        print_counts(found, number)
    elif args.max is None:
        for it in found:
            print(f"{it.path}:{int(it.line)}: [{it.rule}] {it.found} -> {it.suggestion}")
    if args.max is None:
        return 0
    is_within = len(found) <= args.max
    print(f"{len(found)} findings in {number} words, of at most {args.max}: tools/lint.py PATH.. lists them")
    print(f"{int(is_within)} passed, {int(not is_within)} failed")
    return int(not is_within)


if __name__ == "__main__":
    sys.exit(main())
