"""The cases of crates/cases/data, read, and what their runs should give.

document.cases is for people; its head says what its lines mean. short.jsonl and long.jsonl are test vectors of whole texts, a JSON
object to a line: `text` in hexadecimal, `classes` (the class file classes-NAME.bin), `refusal` and `offset`, and `items`, each a pair of
its eighteen numbers (word 6 being 0) and its payload in hexadecimal. runs.jsonl has runs from arbitrary states with arbitrary buffers:
`text`, `name` and `classes` in hexadecimal, `state`, `records` and `payload` (how much is lent), `refusal`, `offset`, `stop`, `count`,
`after` (the state handed back), `items` with word 6. utf16-runs.jsonl has such runs of the second run (document 02, K2), with states of
eleven numbers.

Nothing here comes from a run of the lexer: the state after an item is reckoned from the position where the item ends, and the bytes that
it is read from are reckoned from that and from the state before it; a case says them besides, and is Wrong where it says others."""
import json
import pathlib
import re

DATA = pathlib.Path(__file__).resolve().parent.parent / "crates" / "cases" / "data"
RECORD = 18
STATE, UTF16_STATE = 9, 11
ENDED = 2
EOF, ERROR, STRING, BLOB, USE_LANG_BLOB = 165, 173, 148, 149, 150
LAST_KIND = 173
LAST_ERROR = 7
TOKEN, COMMENT = 1, 2
IN_FSTAR = b"// IN F*:"
NO_RANGES = (b"\0\0\0\0" + b"\x30\0\0\0") * 6
LINE_ENDS = (b"\r\n", b"\n", b"\r", "\u2028".encode(), "\u2029".encode())
ZS = 4


class Wrong(Exception):
    """A case that can't be right, whatever the lexer does."""


class Item:
    """An item that should come: its numbers and its payload; and, once reckoned, where its choice was made or its piece began (offset and
    position), where it ends, and the state after it."""

    def __init__(self, words, payload):
        self.words, self.payload = words, payload
        self.begin = self.begun = self.end = self.after = None

    def is_error(self, *numbers):
        return self.words[0] == 1 and self.words[1] == ERROR and (not numbers or self.words[10] in numbers)

    def is_last(self):
        return self.words[0] == 1 and self.words[1] in (EOF, ERROR)

    def span(self):
        """Where the bytes begin and end that it is read from: EOF and ERROR are empty where they stand."""
        return self.words[16:18]


class Case:
    """A case: whether its calls are the second run's, what they are given, and what they should answer."""

    def __init__(self, name):
        self.name = name
        self.utf16 = False
        self.text, self.file_name, self.classes = b"", b"stdin", NO_RANGES
        self.start = None
        self.given = None
        self.lent, self.repeated = None, True
        self.class_check, self.refusal, self.offset, self.stop = 0, 0, 0, 0
        self.items = []
        self.after = None
        self.passed = []

    def wrong(self, why):
        return Wrong("case '%s': %s" % (self.name, why))

    def state_size(self):
        return UTF16_STATE if self.utf16 else STATE

    def start_state(self):
        """What its start should give: zeros where it refuses, else the column, in both columns of the line start where there are two."""
        line, column, refusal = self.start or (1, 0, 0)
        if refusal:
            return [0] * self.state_size()
        return [0, line, 0, column, 0, 0, 0, 0, 0] + ([column, 0] if self.utf16 else [])

    def first_state(self):
        return self.given or self.start_state()

    def is_split(self):
        """Whether its items are run one by one too: where the case neither is refused nor, in the readable form, names its buffers."""
        return not self.refusal and self.repeated


def size_of(words):
    """The bytes of an item's payload: of a blob the name's and the contents'."""
    return words[7] + (words[10] if words[0] == 1 and words[9] == 2 else 0)


# ---- The readable form


def bytes_of(word):
    """The bytes that a line says: after a quote as they are, or pairs of digits, or a star with a number and pairs."""
    if word.startswith("'"):
        return word[1:].encode()
    times = 1
    if word.startswith("*"):
        number, _, word = word[1:].partition(" ")
        if not number.isdigit():
            raise ValueError("'%s' is no number of times" % number)
        times = int(number)
    return bytes.fromhex(word.replace(" ", "")) * times


def numbers_of(word):
    return [int(n) for n in word.partition("#")[0].split()]


STATES = (STATE, UTF16_STATE)
HOW_MANY = {
    "utf16": (0,), "start": (3,), "from": STATES, "buffers": (2,), "class-check": (1,), "refused": (2,), "stop": (1,), "state": STATES
}


def take_numbers(case, word, numbers):
    """A line of numbers; False where its word is none of these, or has more or fewer."""
    if len(numbers) not in HOW_MANY.get(word, ()):
        return False
    if word == "utf16":
        case.utf16 = True
    elif word == "start":
        case.start = tuple(numbers)
    elif word == "from":
        case.given = numbers
    elif word == "buffers":
        case.lent, case.repeated = tuple(numbers), False
    elif word == "class-check":
        case.class_check, = numbers
    elif word == "refused":
        case.refusal, case.offset = numbers
    elif word == "stop":
        case.stop, = numbers
    else:
        case.after = numbers
    return True


def take_item(case, span, numbers):
    """A line of an item: where its bytes begin and end, and 6 to 16 of its other numbers; False for any other line."""
    ends, others = span.split("-"), RECORD - 2
    if len(ends) != 2 or not 6 <= len(numbers) <= others:
        return False
    case.items.append(Item(numbers + [0] * (others - len(numbers)) + [int(end) for end in ends], b""))
    return True


BYTES = {"text": "text", "name": "file_name", "classes": "classes"}
MANY = {"item", "payload", "+"}


class Reader:
    """Reads the lines of a file of cases, one after another."""

    def __init__(self, path):
        self.path, self.number, self.case, self.last, self.seen, self.cases = path, 0, None, None, set(), []

    def fail(self, why):
        raise Wrong("%s:%d: %s" % (self.path.name, self.number, why))

    def take(self, line):
        self.number += 1
        if not line.strip() or line.startswith("#"):
            return
        word, _, rest = line.partition(" ")
        if word == "case":
            if self.case:
                self.fail("the case before has no end")
            self.case, self.seen, self.last = Case(rest), set(), None
        elif not self.case:
            self.fail("no case has begun")
        elif word == "end":
            self.cases.append(self.case)
            self.case = None
        else:
            self.take_word(word, rest)

    def take_word(self, word, rest):
        once = "classes" if word == "class-file" else word
        if word not in MANY and once in self.seen:
            self.fail("a second line of '%s'" % word)
        self.seen.add(once)
        try:
            if word == "class-file":
                self.case.classes = (self.path.parent / rest).read_bytes()
            elif word in BYTES or word == "payload" or word == "+":
                self.take_bytes(word, bytes_of(rest))
            elif not self.take_line(word, rest):
                self.fail("the line can't be read")
        except (ValueError, OSError) as why:
            self.fail("the line can't be read: %s" % why)

    def take_line(self, word, rest):
        if word == "item":
            span, _, rest = rest.partition(" ")
            return take_item(self.case, span, numbers_of(rest))
        return take_numbers(self.case, word, numbers_of(rest))

    def take_bytes(self, word, said):
        goes_on = word == "+"
        self.last = self.last if goes_on else word
        if self.last in BYTES:
            field = BYTES[self.last]
            setattr(self.case, field, (getattr(self.case, field) if goes_on else b"") + said)
        elif self.last == "payload" and self.case.items:
            self.case.items[-1].payload += said
        else:
            self.fail("nothing stands before these bytes")


def read_cases(path):
    """The cases of a file in the readable form."""
    reader = Reader(path)
    for line in path.read_text(encoding="utf-8").split("\n"):
        reader.take(line)
    if reader.case:
        reader.fail("the last case has no end")
    return reader.cases


# ---- The vectors


def read_vectors(path):
    """The cases of a file of whole texts."""
    cases = []
    for number, line in enumerate(path.read_text().splitlines(), 1):
        vector, case = json.loads(line), Case("%s %d" % (path.stem, number))
        case.text = bytes.fromhex(vector["text"])
        case.classes = (path.parent / ("classes-%s.bin" % vector["classes"])).read_bytes()
        case.refusal, case.offset = vector["refusal"], vector["offset"]
        case.items = [Item(words, bytes.fromhex(payload)) for words, payload in vector["items"]]
        cases.append(case)
    return cases


def read_runs(path, utf16):
    """The cases of a file of runs from arbitrary states with arbitrary buffers, of the second run or of the first."""
    cases = []
    for number, line in enumerate(path.read_text().splitlines(), 1):
        vector, case = json.loads(line), Case("%s %d" % (path.stem, number))
        case.text, case.file_name, case.classes = (bytes.fromhex(vector[part]) for part in ("text", "name", "classes"))
        case.utf16 = utf16
        case.given, case.lent, case.after = vector["state"], (vector["records"], vector["payload"]), vector["after"]
        case.refusal, case.offset, case.stop = vector["refusal"], vector["offset"], vector["stop"]
        case.items = [Item(words, bytes.fromhex(payload)) for words, payload in vector["items"]]
        case.class_check = case.refusal if case.refusal in (3, 4, 5) else 0
        if vector["count"] != len(case.items):
            raise case.wrong("the count is not that of its items")
        cases.append(case)
    return cases


# ---- The state after each item


def in_class(classes, k, code):
    """Whether an accepted class file has a code point in its class k."""
    count, first = (int.from_bytes(classes[8 * k + at : 8 * k + at + 4], "little") for at in (0, 4))
    numbers = [int.from_bytes(classes[at : at + 4], "little") for at in range(first, first + 8 * count, 4)]
    return any(low <= code <= high for low, high in zip(numbers[::2], numbers[1::2]))


class Walk:
    """Goes through a text as positions count it, from a state on: the offset, and where which line began at which column, in characters
    and for the second run in UTF-16 units too."""

    def __init__(self, case, state):
        self.text, self.classes, self.utf16 = case.text, case.classes, case.utf16
        self.at, self.line, self.bol, self.column = state[:4]
        self.units = state[STATE] if case.utf16 else 0

    def width(self):
        """The bytes of the character here."""
        first = self.text[self.at]
        return 1 if first < 0x80 else 2 if first < 0xE0 else 3 if first < 0xF0 else 4

    def line_before(self):
        return self.text[self.bol : self.at].decode()

    def position_in_characters(self):
        return self.line, self.column + len(self.line_before())

    def position(self):
        """The position here, as a record of the case says it."""
        if not self.utf16:
            return self.position_in_characters()
        return self.line - 1, self.units + len(self.line_before().encode("utf-16-le")) // 2

    def is_white(self):
        if len(self.text) <= self.at:
            return False
        character = self.text[self.at : self.at + self.width()].decode()
        return character in " \t\v\f\u00a0\ufeff" or ord(character) >= 128 and in_class(self.classes, ZS, ord(character))

    def line_end(self, at):
        """The bytes of the line end at an offset, 0 where there is none."""
        return next((len(end) for end in LINE_ENDS if self.text.startswith(end, at)), 0)

    def pass_white(self):
        while self.is_white():
            self.at += self.width()

    def new_line(self):
        self.line, self.bol, self.column, self.units = self.line + 1, self.at, 0, 0

    def pass_gap(self):
        """Passes what makes no item: white, line ends and `// IN F*:`. Yields the place of each."""
        while True:
            if self.is_white():
                self.pass_white()
                yield 7
            elif self.line_end(self.at):
                self.at += self.line_end(self.at)
                self.new_line()
                yield 8
            elif self.text.startswith(IN_FSTAR, self.at):
                self.at += len(IN_FSTAR)
                yield 29
            else:
                return

    def step(self, has_lines, is_string):
        """Passes a character, or a line end where the item reads those, or in a string a backslash with what belongs to it."""
        escaped = is_string and self.text[self.at] == ord("\\")
        if escaped and self.line_end(self.at + 1):
            self.at += 1 + self.line_end(self.at + 1)
            self.pass_white()
            self.new_line()
        elif escaped and self.text.startswith(b"\\\\", self.at):
            self.at += 2
        elif has_lines and self.line_end(self.at):
            self.at += self.line_end(self.at)
            self.new_line()
        else:
            self.at += self.width()


def depth_after(text, item, depth):
    """How many comments are open after a piece of one, `depth` being open before it."""
    opened = re.findall(rb"\(\*|\*\)", text[item.begin : item.end]).count(b"(*")
    return depth + opened - 1


def state_after(case, item, walk, before, opened):
    """The state after an item that the walk has passed, from the one before it; `opened` is where the comment began that it is a piece of,
    in characters."""
    words, mode, depth, start, start_units = item.words, 0, 0, (0, 0), 0
    if words[0] == COMMENT and (before[5] == 1 or case.text.startswith(b"(*", item.begin)):
        depth = depth_after(case.text, item, before[6])
        if depth:
            mode, start, start_units = 1, opened, words[3]
    elif item.is_last():
        mode = ENDED
    seconds = [walk.units, start_units] if case.utf16 else []
    return [walk.at, walk.line, walk.bol, walk.column, words[8], mode, depth, *start] + seconds


def reckon(case):
    """Gives each item of a case that isn't refused where it begins and ends and the state after it, and the case the places of what is
    passed between items. Raises Wrong where the case says an end that the text doesn't come to, other bytes or another last state."""
    state = case.first_state()
    for number, item in enumerate(case.items, 1):
        words, walk = item.words, Walk(case, state)
        if state[5] == 0:
            case.passed += walk.pass_gap()
        item.begin, item.begun = walk.at, walk.position()
        opened = state[7:STATE] if state[5] == 1 else walk.position_in_characters()
        is_string = case.text.startswith(b'"', item.begin) and (words[1] == STRING or item.is_error(1, 7))
        has_lines = is_string or words[0] == COMMENT or words[1] in (BLOB, USE_LANG_BLOB) or item.is_error(2)
        while walk.position() != tuple(words[4:6]):
            if len(case.text) <= walk.at:
                raise case.wrong("item %d ends at %d:%d, which the text doesn't come to" % (number, words[4], words[5]))
            walk.step(has_lines, is_string)
        item.end = walk.at
        span = [item.end if item.is_last() else item.begin, item.end]
        if item.span() != span:
            numbers = (number, *span, *item.span())
            raise case.wrong("item %d is read from byte %d up to byte %d, and not from byte %d up to byte %d" % numbers)
        state = item.after = state_after(case, item, walk, state, opened)
    if case.after not in (None, state):
        raise case.wrong("the state after its last item is %s" % state)


def check(case):
    """Raises Wrong where a case contradicts itself, or has what no case can have."""
    if case.refusal and case.items:
        raise case.wrong("it is refused and has items")
    for state in (case.given, case.after):
        if state and len(state) != case.state_size():
            raise case.wrong("a state has %d numbers, and not %d" % (len(state), case.state_size()))
    for number, item in enumerate(case.items, 1):
        words = item.words
        if len(words) != RECORD or words[0] not in (TOKEN, COMMENT):
            raise case.wrong("item %d is neither a token nor a comment of %d numbers" % (number, RECORD))
        if words[1] not in (range(1, LAST_KIND + 1) if words[0] == TOKEN else (0,)):
            raise case.wrong("item %d has a kind that there isn't, %d" % (number, words[1]))
        if item.is_error() and words[10] not in range(1, LAST_ERROR + 1):
            raise case.wrong("item %d has an error that there isn't, %d" % (number, words[10]))
        if size_of(words) != len(item.payload):
            raise case.wrong("item %d has a payload of another size than its numbers say" % number)


def all_cases():
    """Every case, in the order in which they are run."""
    cases = read_cases(DATA / "document.cases")
    for name in ("short.jsonl", "long.jsonl"):
        cases += read_vectors(DATA / name)
    cases += read_runs(DATA / "runs.jsonl", False) + read_runs(DATA / "utf16-runs.jsonl", True)
    names = set()
    for case in cases:
        if case.name in names:
            raise case.wrong("another case has the same name")
        names.add(case.name)
        check(case)
        if not case.refusal:
            reckon(case)
    return cases
