#!/usr/bin/env python3
"""Makes the lists altered.txt, dates.txt, examples.txt, readings.txt and writings.txt of tests/lists, which tests/vectors.c holds the calls to.

    python3 tools/vectors.py FOLDER

FOLDER has readings.jsonl, writings.jsonl, altered.jsonl and requests/04.jsonl, a vector a line:
- a reading: `hex` the message, `loans` the entries lent, `no` 0 for finished or the refusal with `told` and `place`, `taken`, the used part of each loan afterwards,
  `waiting`, the used parts after each byte while a feed of the message waits, and `written`, what the writer makes of the finished rows;
- a writing: `rows`, `store`, `room`, `no` 0 for accepted with the bytes in `hex` or the refusal with `told` and `place`;
- a piece on an altered state: `why`, what it is on the edge of, `loans`, and `hex`, a message that is fed first; `changes`, each `["state", index, number]`,
  `[loan, index, number]` or `[loan, "length", numbers]`; `piece`; the `answer` to it by the fields of pb_answer; `state`, each number of it that the piece
  changes, as `[index, number]`, and `memory`, "zero" or each number of the loans that it changes, as `[loan, index, number]`;
- in requests/04.jsonl a call of request 4, with its `answer` by the fields of pb_answer: `read` is a reading with the used parts in `memory`, and where it finishes
  `written`, an answer and bytes, and `millis`, one for each row or null; `write` is a writing; `millis` has `rows` flat, `store_len`, `row`, `found` and `millis`.

The first three have dates as they were before request 4: below stands what becomes of them. The examples of document 01 and of request 4 stand there too, in the
same form.
"""
import json
import pathlib
import struct
import sys

WIDTHS = [12, 1, 2, 1, 5, 2]  # numbers of an entry of each loan
KIND, NUMBER, END = 0, 8, 11  # columns of a row
DOUBLE, DATE, ARRAY, REFERENCE = 5, 8, 9, 18  # kinds of rows
BAD_DATE, UNWRITABLE = 7, 14  # refusals
ROOMY = 512  # room for any finished reading, written again

# The first lines of each list: where it comes from, the command, and the form of its lines.
ORIGINS = {
    "examples": "The examples of document 01, which stand in tools/vectors.py.",
    "readings": "Readings and feeds that wait, from an executable model of document 01. Dates have their bits, and the refused ones are NaN or infinite.",
    "writings": "Writings, from an executable model of document 01. Dates have the bits of whole milliseconds; those over 2^53 are infinite.",
    "altered": "Feeds on altered states and loans, from an executable model of document 01. Minus infinity stands for -0.0.",
    "dates": "The examples of request 4, which stand in tools/vectors.py, and calls with dates, from an executable model of document 01 with request 4.",
}

COMMAND = """\
# Made by python3 tools/vectors.py FOLDER, where FOLDER has the model's readings.jsonl, writings.jsonl, altered.jsonl and requests/04.jsonl. Tried by tests/vectors.c.
# Each line has a kind, what is asked, and the answer, in hexadecimal. A LIST is how many numbers, then they.
"""

FORMS = {
    "reading": "reading MESSAGE, the lengths of the six loans, NO TOLD PLACE TAKEN, and what is used of each loan afterwards: LIST BYTES LIST LIST LIST LIST",
    "example": "example MESSAGE, the lengths of the six loans, NO TOLD PLACE TAKEN, and what is used of each loan afterwards: LIST BYTES LIST LIST LIST LIST",
    "waiting": "waiting: the same, where a feed of the message waits after its last byte",
    "written": "written ROWS STORE ROOM NO TOLD PLACE BYTES, for the rows and the store of each finished reading; ROWS is a LIST",
    "writing": "writing ROWS STORE ROOM NO TOLD PLACE BYTES; ROWS is a LIST",
    "millis": "millis ROWS STORE ROW FOUND MILLIS; ROWS is a LIST, STORE a length, MILLIS in two's complement",
    "altered": """\
altered, the lengths of the six loans, MESSAGE CHANGES PIECE, KIND NO TOLD PLACE ROWS BYTES TAKEN, ZERO CHANGES; what each is on the edge of stands above it
A reading begins, MESSAGE is fed and waits or finishes, the first CHANGES are made, and PIECE, which may be none, is fed. KIND to TAKEN is the answer to it.
ZERO is 1 where all loans are zero then. The second CHANGES are all else that the piece changes.
CHANGES are how many, then for each WHAT INDEX NUMBER. WHAT is 0 for the state, 1 to 6 for a loan, 11 to 16 for the length that it is lent with.""",
}

ANSWERS = "NO is 0 where nothing is refused, and TOLD and PLACE are 0 where nothing is told. BYTES may be none. A refused reading has taken and used nothing."

# ---- the examples of document 01

LENT = [64, 256, 16, 64, 8, 16]
DEEPER = [80, 256, 16, 80, 8, 16]  # with room for more values than may be open
NONE = {"rows": [], "store": "", "strings": [], "objects": [], "traits": [], "names": []}
DYNAMIC = [0, 0, 1, 0, 0]  # a trait with no class and no names


def row(kind, end, number=0, counts=(0, 0), text=(0, 0), key=None):
    return [kind, 0 if key is None else 1, *(key or (0, 0)), *text, 0, 0, number % 2**64, *counts, end]


def gives(message, taken, loans, used):
    return {"hex": message, "loans": loans, "no": 0, "told": 0, "place": 0, "taken": taken, **used}


def finished(message, taken, rows, **used):
    return gives(message, taken, LENT, {**NONE, "rows": rows, **used})


def refused(message, no, place, told=0, loans=LENT):
    return {"hex": message, "loans": loans, "no": no, "told": told, "place": place, **NONE}


def integer(n):
    return row(4, 1, number=n)


TWO_TEXTS = [row(9, 3, counts=(0, 2)), row(6, 2, text=(0, 1)), row(6, 3, text=(0, 1))]

EXAMPLES = [
    refused("", 2, 0),
    finished("04ffffffff", 5, [integer(-1)]),
    finished("04c0808000", 5, [integer(-268435456)]),
    finished("04bfffffff", 5, [integer(268435455)]),
    finished("048000", 3, [integer(0)]),
    finished("0905010603610600", 8, TWO_TEXTS, store="61", strings=[[0, 1]], objects=[0]),
    refused("09050106010600", 4, 7, told=0),
    refused("0903010900", 5, 5, told=0),
    refused("0a0701", 6, 3),
    finished("110102", 3, [row(17, 1)], objects=[0]),
    refused("0605c080", 8, 4),
    finished(
        "0a0b010361040101", 8, [row(10, 2, counts=(0, 1)), row(4, 2, number=1, key=(0, 1))],
        store="61", strings=[[0, 1]], objects=[0], traits=[DYNAMIC],
    ),
    refused("12", 3, 1, told=0x12),
    finished("080180" + 7 * "00", 10, [row(DATE, 1, number=2**63)], objects=[0]),
    finished(63 * "090301" + "090101", 192, [*(63 * [row(9, 64, counts=(0, 1))]), row(9, 64)], objects=list(range(64))),
    refused(64 * "090301" + "01", 9, 193),
    refused(64 * "090301" + "01", 9, 193, loans=DEEPER),
]

WAITING_EXAMPLE = gives("0905010603", 5, LENT, {**NONE, "rows": [row(9, 0), row(6, 0, text=(0, 1))], "store": "00", "objects": [0]})

WRITTEN_EXAMPLES = [
    ([integer(0x80)], "", "048100"),
    ([integer(0x4000)], "", "04818000"),
    ([integer(0x200000)], "", "0480c08000"),
    (TWO_TEXTS, "61", "090501060361060361"),
]

# ---- the examples of request 4

# A date alone: its bits and its milliseconds, None where it is refused.
DATES = [
    ("0000000000000000", 0),
    ("8000000000000000", 0),
    ("bff8000000000000", -1),
    ("bfefffffffffffff", 0),
    ("c21d5ec4b0000000", -31536000000),
    ("4340000000000001", 2**53 + 2),
    ("43dfffffffffffff", 2**63 - 1024),
    ("43e0000000000000", 2**63 - 1),
    ("c3e0000000000000", -(2**63)),
    ("ffefffffffffffff", -(2**63)),
    ("7ff0000000000000", None),
    ("fff0000000000000", None),
    ("7ff8000000000000", None),
]

MINUS_ONE = 0xBFF0_0000_0000_0000
INFINITY = 0x7FF0_0000_0000_0000

# An array of a date, a reference to it, and a double.
DATE_TWICE = [row(ARRAY, 4, counts=(0, 3)), row(DATE, 2, number=MINUS_ONE), row(REFERENCE, 3, number=1), row(DOUBLE, 4, number=MINUS_ONE)]
DATE_TWICE_READ = "090701" "0801bff0000000000000" "0902" "05bff0000000000000"
DATE_TWICE_WRITTEN = "090701" "0801bff0000000000000" "0801bff0000000000000" "05bff0000000000000"

# Rows that no reading gives.
NOT_FINITE = [row(DATE, 1, number=INFINITY)]
TWO_STEPS = [row(REFERENCE, 1, number=1), row(REFERENCE, 2, number=2), row(DATE, 3, number=MINUS_ONE)]
STORE_MOST = 65536

# ---- dates by their bits

# In readings.jsonl, writings.jsonl and altered.jsonl a date is as it was before request 4: its number is its milliseconds, one with a sign is refused by 7, and one
# over 2^53 isn't written, by 14. Here none of them is left out:
# - a date that was read has as its number the eight bytes with which its row ended;
# - a date that is to be written has the bits of its milliseconds, and an infinity where these are over 2^53: it is refused as before;
# - a date that was refused for its sign alone gets an exponent of all ones, in the message and where it is told: it is refused as before.

LATEST_WRITTEN = 2**53
LATEST_READ = 2**64 - 1


def bits_of(x):
    return int.from_bytes(struct.pack(">d", x), "big")


def was_read_as(bits):
    """The milliseconds of a date before request 4."""
    return min(int(struct.unpack(">d", bits.to_bytes(8, "big"))[0]), LATEST_READ)


def is_date(entry):
    """A row that is a date and has all its bytes."""
    return entry[KIND] == DATE and entry[END] > 0


def numbered(entry, number):
    return [*entry[:NUMBER], number, *entry[NUMBER + 1 :]]


def date_bits(v):
    """The bits of each date of a reading, by its row. The used parts after each byte tell where a row ended."""
    message, bits = bytes.fromhex(v["hex"]), {}
    for taken, used in [*enumerate(v["waiting"], 1), (v["taken"], v)]:
        for i, entry in enumerate(used["rows"]):
            if is_date(entry):
                bits.setdefault(i, int.from_bytes(message[taken - 8 : taken], "big"))
                assert was_read_as(bits[i]) == entry[NUMBER]
    return bits


def read_by_bits(v):
    """A reading, its dates by their bits."""
    bits = date_bits(v)

    def with_bits(used):
        return {**used, "rows": [numbered(entry, bits[i]) if is_date(entry) else entry for i, entry in enumerate(used["rows"])]}

    v = {**with_bits(v), "waiting": [with_bits(used) for used in v["waiting"]]}
    if v["no"] == BAD_DATE:
        end = 2 * v["place"]
        v["told"] |= INFINITY
        v["hex"] = v["hex"][: end - 16] + format(v["told"], "016x") + v["hex"][end:]
    return v


def written_by_bits(rows):
    """Rows to be written, their dates by their bits."""
    return [numbered(r, bits_of(r[NUMBER]) if r[NUMBER] <= LATEST_WRITTEN else INFINITY) if r[KIND] == DATE else r for r in rows]


def altered_by_bits(line):
    """A line of altered.jsonl: the one date there that is refused for its sign alone is -0.0. Its last byte is the piece."""
    for before, now in ((str(2**63), str(2**63 | INFINITY)), ("080180" + 6 * "00", "0801fff0" + 5 * "00")):
        line = line.replace(before, now)
    return line


# ---- the lines


def words(*numbers):
    return " ".join(format(n or 0, "x") for n in numbers)


def listed(entries):
    numbers = [n for e in entries for n in (e if isinstance(e, list) else [e])]
    return words(len(numbers), *numbers)


def reading(kind, v):
    lengths = [n * width for n, width in zip(v["loans"], WIDTHS)]
    taken = 0 if v["no"] else v["taken"]
    used = [listed(v["rows"]), v["store"], *(listed(v[k]) for k in ("strings", "objects", "traits", "names"))]
    return " ".join([kind, v["hex"], words(*lengths), words(v["no"], v["told"], v["place"], taken), *used])


def writing(kind, rows, store, room, answer):
    return " ".join([kind, listed(rows), store, words(room), words(answer["no"], answer["told"], answer["place"]), answer["hex"]]).rstrip()


def millis(rows, store_len, at, found):
    """What is found of a row, or None."""
    return " ".join(["millis", listed(rows), words(store_len, at, found is not None, (found or 0) % 2**64)])


def change(what, index, number):
    if what == "state":
        return 0, index, number
    return (0x10 + what, 0, number) if index == "length" else (what, index, number)


def changed(changes):
    return words(len(changes), *(n for c in changes for n in change(*c)))


def altered(v):
    """The line, and a line above it."""
    lengths = [n * width for n, width in zip(v["loans"], WIDTHS)]
    zero = v["memory"] == "zero"
    after = [["state", *c] for c in v["state"]] + ([] if zero else v["memory"])
    answer = [v["answer"][k] for k in ("kind", "no", "told", "place", "rows", "bytes", "taken")]
    line = " ".join(["altered", words(*lengths), v["hex"], changed(v["changes"]), v["piece"], words(*answer, int(zero)), changed(after)])
    return f"# {v['why']}\n{line}"


def accepted(message):
    return {"no": 0, "told": 0, "place": 0, "hex": message}


def unlike(lines):
    return list(dict.fromkeys(lines))


def all_millis(rows, store_len, founds):
    """What is found of each row, and that nothing is behind the last."""
    return [millis(rows, store_len, at, found) for at, found in enumerate([*founds, None])]


def date_examples():
    """The lines of request 4's examples, by their kinds."""
    alone = [("0801" + bits, row(DATE, 1, number=int(bits, 16)), found) for bits, found in DATES]
    read = [finished(m, 10, [r], objects=[0]) if found is not None else refused(m, BAD_DATE, 10, told=r[NUMBER]) for m, r, found in alone]
    written = [(m, [r]) for m, r, found in alone if found is not None] + [(DATE_TWICE_WRITTEN, DATE_TWICE)]
    not_written = {"no": UNWRITABLE, "told": 0, "place": 0, "hex": ""}
    return {
        "reading": [reading("reading", v) for v in [*read, finished(DATE_TWICE_READ, 24, DATE_TWICE, objects=[0, 1])]],
        "written": [writing("written", rows, "", ROOMY, accepted(m)) for m, rows in written],
        "writing": [writing("writing", NOT_FINITE, "", ROOMY, not_written)],
        "millis": [
            *(line for _, r, found in alone for line in all_millis([r], 0, [found])),
            *all_millis(DATE_TWICE, 0, [None, -1, -1, None]),
            *all_millis(TWO_STEPS, 0, [None, -1, -1]),
            millis(TWO_STEPS[2:], STORE_MOST, 0, -1),
            millis(TWO_STEPS[2:], STORE_MOST + 1, 0, None),
            millis([TWO_STEPS[2][:END]], 0, 0, None),
        ],
    }


def answer_of(case, rows=0, store=0, taken=0):
    """An answer of requests/04.jsonl, of which a line has no more than the refusal: all else follows from what is used or written."""
    done = case["answer"]["kind"] == 1
    assert case["answer"] == {**case["answer"], "kind": 1 if done else 2, "rows": rows, "bytes": store, "taken": taken}
    assert not done or (case["answer"]["no"], case["answer"]["told"], case["answer"]["place"]) == (0, 0, 0)
    return {k: case["answer"][k] for k in ("no", "told", "place", "taken")}


def read_case(case):
    used = case["memory"]
    taken = case["answer"]["taken"]
    return reading("reading", {**case, **answer_of(case, len(used["rows"]), len(used["store"]) // 2, taken), **used})


def write_case(kind, case, rows, store, room):
    return writing(kind, rows, store, room, {**answer_of(case, store=len(case["hex"]) // 2), "hex": case["hex"]})


def date_cases(cases):
    """The lines of requests/04.jsonl, by their kinds."""
    by_call = {call: [case for case in cases if case["call"] == call] for call in ("read", "write", "millis")}
    assert sum(map(len, by_call.values())) == len(cases)
    done = [case for case in by_call["read"] if case["answer"]["kind"] == 1]
    return {
        "reading": [read_case(case) for case in by_call["read"]],
        "written": [write_case("written", case["written"], case["memory"]["rows"], case["memory"]["store"], ROOMY) for case in done],
        "writing": [write_case("writing", case, case["rows"], case["store"], case["room"]) for case in by_call["write"]],
        "millis": [
            *(line for case in done for line in all_millis(case["memory"]["rows"], len(case["memory"]["store"]) // 2, case["millis"])),
            *(millis(case["rows"], case["store_len"], case["row"], case["millis"] if case["found"] else None) for case in by_call["millis"]),
        ],
    }


def put(name, kinds, answers=ANSWERS):
    """Writes a list: its first lines, and the lines of each kind."""
    comments = [ORIGINS[name], *(FORMS[kind] for kind in kinds), answers]
    first, *others = (f"# {line}\n" for comment in comments for line in comment.split("\n"))
    path = pathlib.Path(__file__).resolve().parent.parent / "tests" / "lists" / f"{name}.txt"
    path.write_text(first + COMMAND + "".join(others) + "".join(line + "\n" for lines in kinds.values() for line in lines))


def main():
    folder = pathlib.Path(sys.argv[1])
    before, writings, cases = ([json.loads(line) for line in open(folder / name)] for name in ("readings.jsonl", "writings.jsonl", "requests/04.jsonl"))
    readings = [read_by_bits(v) for v in before]
    waiting = [gives(v["hex"][: 2 * n], n, v["loans"], w) for v in readings for n, w in enumerate(v["waiting"], 1)]
    put("examples", {
        "example": [reading("example", v) for v in EXAMPLES],
        "waiting": [reading("waiting", WAITING_EXAMPLE)],
        "writing": [writing("writing", rows, store, ROOMY, accepted(message)) for rows, store, message in WRITTEN_EXAMPLES],
    })
    put("readings", {
        "reading": [reading("reading", v) for v in readings],
        "waiting": unlike(reading("waiting", v) for v in waiting),
    })
    put("writings", {
        "written": [writing("written", written_by_bits(v["rows"]), v["store"], ROOMY, v["written"]) for v in before if v["no"] == 0],
        "writing": [writing("writing", written_by_bits(v["rows"]), v["store"], v["room"], v) for v in writings],
    })
    states = [json.loads(altered_by_bits(line)) for line in open(folder / "altered.jsonl")]
    put("altered", {"altered": [altered(v) for v in states]}, "What has no meaning in an answer is 0.")
    examples, model = date_examples(), date_cases(cases)
    put("dates", {kind: examples[kind] + model[kind] for kind in examples}, f"{ANSWERS}\nFOUND is 0 where a row has no milliseconds, and MILLIS is 0 then.")


main()
