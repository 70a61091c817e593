"""The figures of docs/figures.json: how the file is read and spelled, and which pages say something else.

A figure's name is TABLE/ROW/COLUMN, as `pair/random/bytes`. A row is a list with a value for each of its table's `columns`, or it
has its columns itself. A column's first word is its name, and the others are its unit; one word alone is both. A value is a number,
null, or a list: TABLE/ROW/COLUMN/1 is its first number. A table that names no commit, machine and date has those of the file's head.

A page names the figures that it says in a comment: at the end of the paragraph, list item or table row, or alone before a table.

    A pair takes 203 to 488 bytes.<!--figures:pair/random/bytes,pair/twins/bytes-->

`*` stands for anything, and a list's name for all its numbers. NAME:NAME is a quotient. The values have to stand there in this
order, among other numbers. A page may round a value, by a fiftieth at most. `bounds` in the file has what is spelled as a figure,
and is a limit or a load.
"""
import fnmatch
import functools
import json
import re

MARKER = re.compile(r"<!--figures:([^>\s]+)-->")
NUMBER = r"(?<![\w.,])\d+(?:,\d{3})*(?:\.\d+)?(?!\w|,\d|\.\d)"
UNIT = (r"ns|nanoseconds?|us|µs|microseconds?|ms|milliseconds?|s|seconds?|minutes|processor minutes|kB|MB|GB|instructions"
        r"|(?:requests |gets |puts |settles |calls )?a second|bytes (?:a|of a|for a|for each) (?:pair|key|connection)"
        r"|of (?:redis|the plain|a plain)")
MEASURED = re.compile(rf"((?:{NUMBER}(?:, and|,| and| to|;| or)\s)*{NUMBER})\s({UNIT})\b")
NUMBERS = re.compile(rf"(?:{NUMBER}(?:\s(?:{UNIT}))?(?:; |, | / )?)+")  # a cell of a table that has nothing else
OF_SPEED = re.compile(r"\b(?:requests|gets|puts|settles) a second|bytes a pair|processor time", re.I)


def named(data):
    """Each figure by its name, in the file's order."""
    found = {}
    for table, told in data["tables"].items():
        for row, values in told["rows"].items():
            columns = values.items() if isinstance(values, dict) else zip(told["columns"], values, strict=True)
            for column, value in columns:
                name = f"{table}/{row}/{column.split()[0]}"
                parts = enumerate(value, 1) if isinstance(value, list) else ()
                found |= {f"{name}/{number}": part for number, part in parts} or {name: value}
    return {name: value for name, value in found.items() if value is not None}


def spelled(told, depth=0):
    """The file's text: each row, and whatever else is no table, in a line of its own."""
    if not isinstance(told, dict) or depth == 4:
        return json.dumps(told, ensure_ascii=False)
    parts = [f"{' ' * (depth + 1)}{json.dumps(name)}: {spelled(part, depth + 1)}" for name, part in told.items()]
    return "{\n" + ",\n".join(parts) + "\n" + " " * depth + "}" + "\n" * (not depth)


def fits(said, value):
    """Whether a number of a page is this value: rounded to its decimals or its zeros, by a fiftieth at most."""
    digits = said.replace(",", "")
    places = len(digits.partition(".")[2]) or len(digits.rstrip("0")) - len(digits)
    return abs(value - float(digits)) <= min(0.5 * 10.0 ** -places, 0.02 * abs(value)) + 1e-9


@functools.cache
def passages(text):
    """Each paragraph, list item and table row with its line and the head of its table; a table with a marker before it is one."""
    found, head, before = [], "", ""
    for number, line in enumerate(text.split("\n"), 1):
        said = line.strip()
        kind = "" if not said else "row" if said.startswith("|") else "item" if re.match(r"[-*] |\d+\. |#", said) else "text"
        kind = "marker" if MARKER.fullmatch(said) else kind
        goes_on = kind == "row" and before == "marker" or kind == "text" and before in ("text", "item")
        head = "" if kind != "row" else head or said
        if goes_on:
            found[-1][1] += "\n" + said
        elif said:
            found.append([number, said, "" if said == head else head])
        before = before if goes_on and kind == "row" else kind
    return found


def values_of(word, figures):
    """The figures that a marker's word stands for, by their names; none if it names none."""
    over, _, under = word.partition(":")
    if under:
        return {word: figures[over] / figures[under]} if over in figures and under in figures else {}
    matched = re.compile("|".join(map(fnmatch.translate, (word, word + "/*")))).match
    return {name: value for name, value in figures.items() if matched(name)}


def faults(text, figures, bounds):
    """What a page says that isn't in the file, each with its line."""
    for start, passage, head in passages(text):
        wanted = []
        for word in (word for found in MARKER.findall(passage) for word in found.split(",")):
            values = values_of(word, figures)
            wanted += values.items()
            if not values:
                yield start, f"{word}: no figure of docs/figures.json"
        prose = MARKER.sub("", passage)
        said = iter(re.findall(NUMBER, prose))
        for name, value in wanted:
            if not any(fits(number, value) for number in said):
                yield start, f"{name} is {value:,.10g}: not said here, or not in this order"
                break
        for found in MEASURED.finditer(prose):
            for number in re.findall(NUMBER, found[1]):
                if f"{number} {found[2]}" not in bounds and not any(fits(number, value) for _, value in wanted):
                    yield start + prose.count("\n", 0, found.start()), f"{number} {found[2]}: no figure that is named here"
        cells = [cell.strip() for row in prose.split("\n") for cell in row.split("|")[2:]] if MARKER.match(passage) else []
        for number in (number for cell in cells if NUMBERS.fullmatch(cell) for number in re.findall(NUMBER, cell)):
            if not any(fits(number, value) for _, value in wanted):
                yield start, f"{number} in a cell of the table: no figure that is named before it"
        if head and not wanted and re.search(NUMBER, prose) and OF_SPEED.search(head + prose):
            yield start, "a row of a table of speed or memory that names no figure"
