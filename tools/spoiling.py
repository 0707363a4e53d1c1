"""Ways to spoil texts of models, scripts and reports: `WAYS`, and `spoilt(source, text, other, kind)`

Each way takes a source of chance, the bytes of a text, those of another text of its kind, and the kind, one of those that KEYWORDS
names, and gives other bytes, or now and then the same: by words, lines and blocks of lines, or by bytes.
"""

import re

KEYWORDS = {
    "lp": "Minimize max st Subject To Bounds General Binary End free inf -inf <= >= = < > => + - : [ * ^ -> \\ semi sos x: 1e30 0",
    "mps": "NAME OBJSENSE MAX MIN ROWS N L G E COLUMNS RHS RANGES BOUNDS UP LO FX FR MI PL BV UI LI SC 'MARKER' 'INTORG' 'INTEND' "
    "ENDATA *",
    "script": "check iis deletion additive sensitivity elastic alternative relax unbounded reduce budget pivots nodes drop keep set "
    "row column lower upper none mark whole plain weight rigid undo rowlo rowup #",
    "report": "command check deletion additive sensitivity elastic alternative relax unbounded reduce feasible infeasible irreducible "
    "point value ray price member proof leaf split use below above dual total rounds objective bound bounded least rigid reduced "
    "end done no change unknown name undo pivots spent nodes too wide large site settle improve without enforced step operation "
    "times note removed kept not linear left rows columns empty singleton fixed redundant forcing doubleton up lo rowlo rowup "
    "lower upper whole",
}
# Where a block of lines begins: an entry or a part of it, a command, a section.
ENTRY, SECTION = rb"(?m)^(?=command |report end$|member |point$|proof$|leaf$)", rb"(?m)^(?=\S)"
BLOCKS = {"report": ENTRY, "script": rb"(?m)^", "lp": SECTION, "mps": SECTION}
WORD = re.compile(rb"[^ \t\r\n]+")
NUMBER = re.compile(rb"(?<![^\s+*-])[0-9][0-9.]*(?:[eE][+-]?[0-9]+)?(?:/[0-9]+)?(?![^\s])")
SIGN = re.compile(rb"[+-]")
NUMBERS = [b"0", b"1", b"2", b"3", b"-1", b"1/2", b"3/2", b"2/4", b"0.5", b"100000"]
LENGTHS = [9, 18, 19, 20, 37, 38, 39, 40, 77, 400]
BYTES = [0, 8, 9, 10, 11, 13, 27, 32, 34, 35, 42, 46, 92, 127, 128, 160, 192, 226, 239, 255]


def place_in(source, text, pattern=WORD):
    """A place of a pattern in a text, or the place before the text."""
    return source.choice(list(pattern.finditer(text)) or [re.match(b"", text)])


def put(text, place, new):
    return text[: place.start()] + new + text[place.end() :]


# ---- by words
def words_swapped(source, text, _other, _kind):
    first, second = sorted((place_in(source, text), place_in(source, text)), key=lambda it: it.start())
    return put(put(text, second, first[0]), first, second[0]) if first.end() <= second.start() else text


def names_swapped(source, text, _other, _kind):
    """Two words change places wherever they stand."""
    names = [place_in(source, text)[0], place_in(source, text)[0]]
    return WORD.sub(lambda it: names[it[0] == names[0]] if it[0] in names else it[0], text)


def word_copied(source, text, _other, _kind):
    return put(text, place_in(source, text), place_in(source, text)[0])


def keyword_put(source, text, _other, kind):
    return put(text, place_in(source, text), source.choice(KEYWORDS[kind].split(" ")).encode())


def number_put(source, text, _other, _kind):
    return put(text, place_in(source, text, NUMBER), source.choice([*NUMBERS, place_in(source, text, NUMBER)[0]]))


def digits_put(source, text, _other, _kind):
    digits = "".join(source.choices("0123456789", k=source.choice(LENGTHS)))
    at = source.randrange(len(digits))
    forms = digits, f"{digits[:at]}.{digits[at:]}", f"{digits[:at]}/{digits[at:]}", f"1e{digits[:at]}", f"{digits[0]}e-{digits[-2:]}"
    return put(text, place_in(source, text, NUMBER), source.choice(forms).encode())


def sign_put(source, text, _other, _kind):
    """A sign before a number, or another one or none in the place of a sign."""
    place = place_in(source, text, source.choice([NUMBER, SIGN]))
    return put(text, place, source.choice([b"-", b"+", b"- ", b""]) + (b"" if SIGN.fullmatch(place[0]) else place[0]))


# ---- by lines
def line_moved(source, text, _other, _kind):
    """A line is dropped, repeated or moved, or stands in the place of another."""
    lines = text.split(b"\n")
    at, to = source.randrange(len(lines)), source.randrange(len(lines))
    way = source.choice(["drop", "repeat", "move", "replace"])
    line = lines[at]
    if way in ("drop", "move"):
        del lines[at]
    if way != "drop":
        lines[to : to + (way == "replace")] = [line]
    return b"\n".join(lines)


def block_moved(source, text, _other, kind):
    """Some blocks of lines are dropped, repeated or moved."""
    parts = re.split(BLOCKS[kind], text)
    at, count = source.randrange(len(parts)), source.randint(1, 3)
    some = parts[at : at + count]
    if source.random() < 0.7:
        del parts[at : at + count]
    to = source.randint(0, len(parts))
    return b"".join(parts[:to] + some * source.randint(0, 2) + parts[to:])


def word_alike(source, text, other, _kind):
    """A word is that of another line, which has as many words and the same first one."""
    lines = [line.split(b" ") for line in text.split(b"\n")]
    words = source.choice(lines)
    others = [it for it in lines + [line.split(b" ") for line in other.split(b"\n")] if (it[0], len(it)) == (words[0], len(words))]
    at = source.randrange(len(words))
    words[at] = source.choice(others)[at]
    return b"\n".join(map(b" ".join, lines))


def halves_joined(source, text, other, _kind):
    lines, others = text.split(b"\n"), other.split(b"\n")
    return b"\n".join(lines[: source.randint(0, len(lines))] + others[source.randint(0, len(others)) :])


# ---- by bytes
def bit_flipped(source, text, _other, _kind):
    at = source.randrange(len(text) or 1)
    return text[:at] + bytes(it ^ 1 << source.randrange(8) for it in text[at : at + 1]) + text[at + 1 :]


def text_cut(source, text, _other, _kind):
    return text[: source.randint(0, len(text))]


def byte_put(source, text, _other, _kind):
    at = source.randint(0, len(text))
    return text[:at] + bytes([source.choice(BYTES)]) * source.choice([1, 1, 2, 300]) + text[at + source.randrange(2) :]


def bytes_moved(source, text, _other, _kind):
    """Some bytes are dropped, repeated or moved."""
    at, count = source.randint(0, len(text)), source.randint(1, 20)
    some, text = text[at : at + count], text[:at] + text[at + count * source.randrange(2) :]
    to = source.randint(0, len(text))
    return text[:to] + some * source.randint(0, 2) + text[to:]


WAYS = [words_swapped, names_swapped, word_copied, keyword_put, digits_put, sign_put, line_moved, halves_joined]
WAYS += [bit_flipped, text_cut, byte_put, bytes_moved]
# These often leave what can be read.
WAYS += 3 * [number_put, word_alike, block_moved]


def spoilt(source, text, other, kind):
    """The name of a way, and the text spoilt so, once or a few times."""
    way = source.choice(WAYS)
    for _ in range(source.choice([1, 1, 1, 2, 4])):
        text = way(source, text, other, kind)
    return way.__name__.replace("_", " "), text
