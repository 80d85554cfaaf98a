"""Writes the manual page of a header such as jdoc.h, and a link to it for each function.

    man.py HEADER VERSION FOLDER     writes FOLDER/jdoc.3, and FOLDER/jdoc_check.3 and so on as links to it

The page has what the comments of the header say: the first one, a section for each comment that begins with a title in capitals, and a
subsection for each block of declarations, which blank lines separate. Indented lines of a comment stay as they are. The date of the
page is SOURCE_DATE_EPOCH if it is set, or else that of the header.
"""

import os
import re
import sys
import textwrap
import time

TITLE = re.compile(r"([A-Z][A-Z ]+)(?:[.:] *|\n|$)")
SPECIAL = str.maketrans({"\\": r"\e", "^": r"\(ha", "~": r"\(ti", "'": r"\(aq", "`": r"\(ga", "-": r"\-"})


def unconditional(text):
    """The lines of the header outside of #if and #endif, except those that include it once."""
    depth = 0
    for line in text.splitlines():
        depth += line.startswith("#if")
        if depth <= 1 and not re.match(r"#(if|endif|include|define \w+_H$)", line):
            yield line
        depth -= line.startswith("#endif")


def blocks(text):
    """The comment, without its frame, and the code of each part of the header that blank lines enclose."""
    for part in re.split(r"\n{2,}", "\n".join(unconditional(text))):
        found = re.match(r"\s*(?:/\* (.*?)\s*\*/)?\n*(.*)", part, flags=re.S)
        yield re.sub(r"^ \* ?", "", found[1] or "", flags=re.M), found[2].strip()


def escaped(text):
    """Text of the page, in which names are not hyphenated."""
    return re.sub(r"\b(?=(?:jdoc|JDOC)_)", lambda _: r"\%", text.translate(SPECIAL))


def input_lines(lines):
    """Lines of which none begins like a request."""
    return (r"\&" + it if it.startswith(".") else it for it in lines)


def sentences(text):
    """Sentences, each on lines of its own, as mandoc wants."""
    for sentence in re.split(r"(?<=[.:]) (?=[A-Z\\])", escaped(text)):
        yield from input_lines(textwrap.wrap(sentence, 78, break_on_hyphens=False))


def as_it_is(lines):
    """Lines that stay as they are."""
    return [".Bd -literal -offset indent", *input_lines(map(escaped, lines)), ".Ed"]


def as_list(lines):
    """Lines of two columns, as a list."""
    yield ".Bl -tag -width Ds -compact"
    for line in lines:
        name, text = re.split(r"  +", line)
        yield from (f".It {escaped(name)}", *sentences(text))
    yield ".El"


def paragraph(lines):
    """A paragraph: its sentences, its lists, and its lines that stay as they are."""
    for indented, run in runs(lines):
        plain = textwrap.dedent("\n".join(run)).splitlines()
        if not indented:
            yield from sentences(" ".join(run))
        elif all(re.match(r"\S+(?: \S+)*  +\S+(?: \S+)*$", it) for it in plain):
            yield from as_list(plain)
        else:
            yield from as_it_is(plain)


def runs(lines):
    """Neighboring lines that are indented, or are not."""
    found = []
    for line in lines:
        indented = line.startswith("  ")
        if not found or found[-1][0] != indented:
            found.append((indented, []))
        found[-1][1].append(line)
    return found


def prose(comment):
    """The paragraphs of a comment, and its titles as sections."""
    follows = False
    for lines in (it.splitlines() for it in re.split(r"\n{2,}", comment) if it.strip()):
        is_title = len(lines) == 1 and TITLE.fullmatch(lines[0])
        if is_title:
            yield f".Sh {lines[0]}"
        else:
            yield from [".Pp"] if follows and not lines[0].startswith("  ") else []
            yield from paragraph(lines)
        follows = not is_title


def declared(code):
    """The code of a block without the attributes and the bodies of functions."""
    body = re.search(r"\) \{", code)
    return re.sub(r"^(?:JDOC_NODISCARD|static inline) ", "", code[:body.start()] + ");" if body else code, flags=re.M)


def names(code):
    """What a block declares."""
    found = (re.findall(r"(jdoc_\w+)\(", declared(code)) or re.findall(r"(?:enum|struct) jdoc_\w+", code)
             or re.findall(r"^ *(?:enum \{ )?(JDOC_\w+) =", code, flags=re.M))
    return list(dict.fromkeys(found)) or ["Macros"]


def declarations(code):
    """The lines of a block as the page shows them: those of functions are broken between arguments."""
    code = declared(code)
    if not re.search(r"jdoc_\w+\(", code):
        return code.splitlines()
    each = [re.sub(r"\s+", " ", it).strip() for it in code.split(";") if it.strip()]
    tight = [re.sub(r"(?<!,) ", "\0", it) + ";" for it in each]
    return [line.replace("\0", " ") for it in tight for line in textwrap.wrap(it, 70, subsequent_indent="    ", break_on_hyphens=False)]


def meanings(code):
    """What jdoc_status_text returns for each status."""
    return as_list(f"{status}  {text}" for status, text in re.findall(r'case (JDOC_\w+):\s+return "(.*?)";', code))


def name_of(text):
    """The name of the header and of its page."""
    return re.match(r"/\* (\w+)\.h - ", text)[1]


def front(text, version, seconds):
    """The page up to the first section of the header."""
    first, _ = next(blocks(text))
    head, *parts = first.split("\n\n")
    name = name_of(text)
    yield from (time.strftime(".Dd %B %-d, %Y", time.gmtime(seconds)), f".Dt {name.upper()} 3", f".Os jdoc {version}")
    yield from (".Sh NAME", f".Nm {name}", f".Nd {head.partition(' - ')[2]}", ".Sh SYNOPSIS", f".In {name}.h", ".Pp")
    yield from (".Dl " + escaped(it.strip()) for it in parts if it.startswith("  "))
    yield ".Sh DESCRIPTION"
    yield from prose("\n\n".join(it for it in parts if not it.startswith("  ")))


def section(comment, code):
    """What the page says of a block of the header."""
    title = TITLE.match(comment)
    if title:
        yield f".Sh {title[1]}"
        comment = comment[title.end():].strip("\n")
        comment = comment[:1].upper() + comment[1:]
    if code:
        yield from (f".Ss {', '.join(names(code))}", *as_it_is(declarations(code)))
        yield from [".Pp"] if comment else []
    yield from prose(comment) if code or title else []
    yield from meanings(code) if "switch" in code else []


def page(text, version, seconds):
    yield from front(text, version, seconds)
    for comment, code in list(blocks(text))[1:]:
        yield from section(comment, code)
    if "docs/" in text:
        yield from (".Sh FILES", "The files docs/.. are installed in share/doc/jdoc.")


def main():
    header, version, folder = sys.argv[1:]
    with open(header, encoding="utf-8") as file:
        text = file.read()
    seconds = int(os.environ.get("SOURCE_DATE_EPOCH") or os.stat(header).st_mtime)
    os.makedirs(folder, exist_ok=True)
    made = name_of(text) + ".3"
    with open(os.path.join(folder, made), "w", encoding="utf-8") as file:
        file.writelines(f"{line}\n" for line in page(text, version, seconds))
    for comment, code in blocks(text):
        for name in names(code):
            link = os.path.join(folder, f"{name}.3")
            if name.startswith("jdoc_") and not os.path.lexists(link):
                os.symlink(made, link)


if __name__ == "__main__":
    main()
