"""What scripts/items and scripts/lint share: the runs over a text, one after another, and their items as objects.

The program `cases` makes the runs; the head of its main.rt says what it reads and prints. Documents 01 and 02 say what the numbers
of an answer and of a record mean, and docs/DECISIONS.md what they leave open."""
import collections
import functools
import os
import re
import struct
import subprocess

from building import ROOT, Failure, built, command
from definition_tables import kind_names

UNICODE_CLASSES = ROOT / "crates" / "cases" / "data" / "classes-17.bin"

# How much of a file is handed over: a byte more than a run takes, so that the run itself refuses what is longer.
TEXT_BYTES = 1048577
CLASS_BYTES = 65537
NAME_BYTES = 4097

# What each run is lent: room for 65,536 items, and for any one payload.
RECORD = 18
LENT_NUMBERS = 65536 * RECORD
LENT_BYTES = 1052672

FRAME = struct.Struct("<18I")
STATE = 11
CASE = 1
LARGEST_NUMBER = 4294967295

# A run: the number by which a frame asks for it, the word of the line that answers, and what its start gives for line 1 and column 0.
Run = collections.namedtuple("Run", "call word beginning")
CHARACTERS = Run(3, "run", (0, 1, 0, 0, 0, 0, 0, 0, 0))
UTF16 = Run(5, "utf16-run", (0, 1, 0, 0, 0, 0, 0, 0, 0, 0, 0))

REFUSALS = {
    3: "the class file has fewer than 48 or more than 65,536 bytes",
    4: "the class file has a wrong offset or length",
    5: "the class file has a range that is out of order or ends above U+10FFFF",
    6: "the text has more than 1,048,576 bytes",
    7: "the name has more than 4,096 bytes",
    8: "ill-formed UTF-8",
    9: "the saved state is unsound",
    10: "the saved state has a line 0",
}
ILL_FORMED = 8
ERRORS = {
    1: "unterminated string",
    2: "unterminated extension syntax",
    3: "reserved prefix",
    4: "out-of-range character literal",
    5: "not a valid numeric literal",
    6: "unexpected char",
    7: "unpaired surrogate",
}

# A record's word 0, and word 9 of a token and of a comment.
TOKEN, COMMENT = 1, 2
PLAIN, CHARACTER, BLOB, ERROR = 0, 1, 2, 3
UNCLOSED, CLOSED = 0, 1

Answer = collections.namedtuple("Answer", "refusal offset stop count state")


class Refused(Exception):
    """A refusal of a run, in words."""

    def __init__(self, number, offset):
        place = " at offset %d" % offset if number == ILL_FORMED else ""
        super().__init__("refused, %d: %s%s" % (number, REFUSALS[number], place))


class Broken(Exception):
    """What shows that the program `cases` doesn't print what its format says."""


def first_bytes(path, most=None):
    """The bytes of a file, of a longer one so many."""
    try:
        with open(path, "rb") as file:
            return file.read(most)
    except OSError as error:
        raise Failure("%s: %s: %s" % (command(), path, error.strerror), 2)


def printed(program, frame):
    """The lines that the program prints for the frame of a run: the answer, the records and the payload."""
    try:
        done = subprocess.run([program], input=frame, stdout=subprocess.PIPE)
    except OSError as error:
        raise Broken("it can't be run: %s" % error.strerror)
    if done.returncode:
        raise Broken("it ended with status %d" % done.returncode)
    *lines, rest = done.stdout.decode("ascii", "backslashreplace").split("\n")
    if rest != "" or len(lines) < 2:
        raise Broken("it ended with %.80r" % done.stdout[-80:])
    return lines


def numbers(line, word, count):
    """The numbers of a line, which has this word and so many of them."""
    if not re.fullmatch("%s(?: [0-9]+){%d}" % (word, count), line):
        raise Broken("%.80r is no line of the word %s and %d numbers" % (line, word, count))
    values = [int(number) for number in line.split(" ")[1:]]
    if LARGEST_NUMBER < max(values):
        raise Broken("%.80r has a number of more than 32 bits" % line)
    return values


def answer_of(line, run):
    """What a run answered, by its line."""
    case, refusal, offset, stop, count, *state = numbers(line, run.word, 5 + len(run.beginning))
    if case != CASE or refusal not in (0, *REFUSALS) or stop not in (0, 1, 2):
        raise Broken("%.80r is no answer of a run" % line)
    if stop != 0 and count == 0:
        raise Broken("%.80r would never come to an end" % line)
    return Answer(refusal, offset, stop, count, state)


def payload_of(line):
    """The payload bytes lent, as a run left them: the line has those up to the last that isn't 255."""
    digits = re.fullmatch("payload ([0-9a-f]*)", line)
    if digits is None or len(digits[1]) % 2:
        raise Broken("%.80r is no line of the word payload and bytes" % line)
    return bytes.fromhex(digits[1]).ljust(LENT_BYTES, b"\xff")


def position(words, at):
    return {"line": words[at], "column": words[at + 1]}


def where_of(words):
    """Where an item stands, by its positions and by the bytes that it was read from."""
    return {"start": position(words, 2), "end": position(words, 4), "from": words[16], "to": words[17]}


def put_text(item, name, payload, at, size):
    """Puts a part of the payload bytes into an object: as text, or, if it is no UTF-8, in hexadecimal and under another name."""
    if len(payload) < at + size:
        raise Broken("a record has a payload that goes beyond the bytes lent")
    part = payload[at : at + size]
    try:
        item[name] = part.decode("utf-8")
    except UnicodeDecodeError:
        item[name + "_hex"] = part.hex()


def blob_of(words, payload):
    blob = {}
    put_text(blob, "name", payload, words[6], words[7])
    put_text(blob, "contents", payload, words[6] + words[7], words[10])
    blob["header_start"] = position(words, 13)
    blob["header_end"] = position(words, 11)
    return blob


def error_of(words):
    number = words[10]
    if number not in ERRORS:
        raise Broken("a record has the error %d" % number)
    return {"number": number, "meaning": ERRORS[number], "start": position(words, 11), "end": position(words, 13)}


def token_of(words, payload, kinds):
    item = {"item": "token", "kind": kinds[words[1]], **where_of(words), "comments": words[8]}
    mark = words[9]
    if mark == BLOB:
        item["blob"] = blob_of(words, payload)
    else:
        put_text(item, "payload", payload, words[6], words[7])
    if mark == CHARACTER:
        item["character"] = words[10]
    if mark == ERROR:
        item["error"] = error_of(words)
    return item


def comment_of(words, payload):
    item = {"item": "comment", **where_of(words), "number": words[8], "closed": words[9] == CLOSED}
    put_text(item, "payload", payload, words[6], words[7])
    return item


def item_of(words, payload, kinds):
    """The object of a record, whose payload lies in these bytes."""
    if words[0] == TOKEN and words[1] in kinds and words[9] in (PLAIN, CHARACTER, BLOB, ERROR):
        return token_of(words, payload, kinds)
    if words[0] == COMMENT and words[1] == 0 and words[9] in (UNCLOSED, CLOSED):
        return comment_of(words, payload)
    raise Broken("%r is no record" % words)


class Lexer:
    """The program `cases`, asked for runs of one sort with one class file."""

    def __init__(self, classes, run=CHARACTERS):
        self.classes, self.sort = classes, run
        self.kinds = dict(enumerate(kind_names(), 1))

    @functools.cached_property
    def program(self):
        """Built when the first run is asked for, so that a file that can't be read is said before."""
        return built("cases")

    def run(self, name, text, state):
        """What a run answers, and its items."""
        eleven = (*state, *[0] * (STATE - len(state)))
        frame = FRAME.pack(self.sort.call, CASE, *eleven, LENT_NUMBERS, LENT_BYTES, len(name), len(text), len(self.classes))
        first, *records, last = printed(self.program, frame + name + text + self.classes)
        answer = answer_of(first, self.sort)
        if len(records) != answer.count:
            raise Broken("it counts %d items and prints %d records" % (answer.count, len(records)))
        payload = payload_of(last)
        return answer, [item_of(numbers(line, "record", RECORD), payload, self.kinds) for line in records]

    def runs(self, path, text):
        """The items of each run over the text of a file, until one comes to the text's end."""
        name = os.fsencode(path)[:NAME_BYTES]
        state, stop = self.sort.beginning, None
        while stop != 0:
            try:
                answer, items = self.run(name, text, state)
            except Broken as why:
                raise Failure("%s: %s: the program `cases` is broken: %s" % (command(), path, why), 3)
            if answer.refusal:
                raise Refused(answer.refusal, answer.offset)
            yield items
            state, stop = answer.state, answer.stop
