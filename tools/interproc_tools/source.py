"""A program's text: its places, its tokens, and what it declares. What is right or wrong in it only the analyser says."""
import dataclasses
import re

KEYWORDS = (
    "proc returns var begin end int real skip halt fail assume random brandom if then else endif while do done "
    "not and or true false"
).split()
SIGNS = "( ) , ; : = == != < <= > >= + - * / %".split()
TOKEN = re.compile(
    rb"(?P<gap>[ \t\r\n]+|//[^\n]*|/\*.*?\*/)|(?P<name>[A-Za-z_][A-Za-z0-9_]*)|(?P<number>[0-9]+)"
    rb"|(?P<sign>[=!<>]=|[(),;:=<>+\-*/%])|(?P<other>/\*|[\x80-\xff]+|.)",
    re.S,
)


@dataclasses.dataclass(frozen=True)
class Token:
    text: str
    start: int
    end: int

    @property
    def kind(self):
        """NAME, NUMBER, or the keyword or sign itself; OTHER for what is no token."""
        if re.fullmatch(r"[A-Za-z_][A-Za-z0-9_]*", self.text):
            return self.text if self.text in KEYWORDS else "NAME"
        if self.text.isdecimal():
            return "NUMBER"
        return self.text if self.text in SIGNS else "OTHER"


@dataclasses.dataclass
class Procedure:
    """What a procedure declares, main as the one without a name."""

    name: str
    start: int
    inputs: list
    outputs: list
    locals: list
    end: int = 1 << 62

    @property
    def variables(self):
        return [*self.inputs, *self.outputs, *self.locals]


class Source:
    """A text with its places: offsets count bytes from 0, lines and columns from 1, columns in bytes."""

    def __init__(self, data):
        self.data = data
        self.starts = [0, *(found.end() for found in re.finditer(b"\n", data))]
        self.tokens = [
            Token(found[0].decode("utf-8", "replace"), found.start(), found.end())
            for found in TOKEN.finditer(data)
            if found.lastgroup != "gap"
        ]

    def offset(self, line, column):
        return self.starts[line - 1] + column - 1

    def place(self, offset):
        line = self.line_at(offset)
        return line, offset - self.starts[line - 1] + 1

    def line_at(self, offset):
        low, high = 0, len(self.starts)
        while high - low > 1:
            middle = (low + high) // 2
            low, high = (middle, high) if self.starts[middle] <= offset else (low, middle)
        return low + 1

    def line_text(self, line):
        """The line's bytes, its end not with it."""
        end = self.starts[line] - 1 if line < len(self.starts) else len(self.data)
        return self.data[self.starts[line - 1] : end].rstrip(b"\r")

    def lines(self):
        return [self.line_text(line) for line in range(1, len(self.starts) + 1)]

    def token_at(self, offset):
        """The token that starts here, or none at the end of the text."""
        return next((token for token in self.tokens if token.start == offset), None)

    def tokens_before(self, offset):
        return [token for token in self.tokens if token.end <= offset]

    def tokens_from(self, offset):
        return [token for token in self.tokens if token.start >= offset]

    def show(self, line, column, length):
        """The line with its number, and a caret under each character of a piece of it; of a long line what is near."""
        data = self.line_text(line)
        before = printable(data[: column - 1])
        piece = printable(data[column - 1 : column - 1 + length])
        after = printable(data[column - 1 + length :])
        if len(before) > WIDEST:
            before = ".. " + before[-WIDEST // 2 :]
        if len(before + piece + after) > 2 * WIDEST:
            after = after[: max(0, WIDEST - len(piece))] + " .."
        under = "".join("\t" if character == "\t" else " " for character in before)
        return [f"{line:5} | {before}{piece}{after}", f"      | {under}{'^' * max(1, len(piece))}"]

    def procedures(self):
        """What each procedure declares, as the tokens read; the text may be wrong elsewhere."""
        found, tokens = [], self.tokens
        current = None
        part = None
        for at, token in enumerate(tokens):
            follows = tokens[at + 1].text if at + 1 < len(tokens) else ""
            if current is None:
                name = follows if token.text == "proc" else ""
                current, part = Procedure(name, token.start, [], [], []), "inputs"
                found.append(current)
                if token.text != "proc":
                    part = "locals"
            if token.text == "returns":
                part = "outputs"
            elif token.text == "var":
                part = "locals"
            elif token.text == "begin":
                part = None
            elif token.text == "end":
                current.end = token.end
                current = None
            elif part and token.kind == "NAME" and follows == ":":
                getattr(current, part).append(token)
        return found

    def procedure_at(self, offset):
        """The procedure that an offset stands in."""
        return next((one for one in self.procedures() if one.start <= offset < one.end), None)

    def open_blocks(self, offset):
        """The `begin`, `if` and `while` that are not closed before an offset, outermost first."""
        closers = {"end": "begin", "endif": "if", "done": "while"}
        stack = []
        for token in self.tokens_before(offset):
            if token.text in ("begin", "if", "while"):
                stack.append(token)
            elif token.text in closers and stack and stack[-1].text == closers[token.text]:
                stack.pop()
        return stack

    def points(self):
        """How many points the program has: two at each `begin`, one at each block of a statement and behind each statement."""
        count, before = 0, ""
        body = False
        for token in self.tokens:
            if token.text == "begin":
                body, count = True, count + 2
            elif token.text == "end":
                body = False
            elif body and (token.text in ("then", "else", "do", "endif", "done") or token.text == ";" and before not in ("endif", "done")):
                count += 1
            before = token.text
        return count

    def written(self, procedure):
        """The names of inputs that some statement of the procedure has as a target."""
        inputs = {token.text for token in procedure.inputs}
        tokens = [token for token in self.tokens if procedure.start <= token.start < procedure.end]
        found = set()
        for at, token in enumerate(tokens):
            if token.text != "=" or not at:
                continue
            if tokens[at - 1].kind == "NAME":
                found.add(tokens[at - 1].text)
            elif tokens[at - 1].text == ")":
                back = at - 2
                while back >= 0 and tokens[back].text != "(":
                    found.add(tokens[back].text)
                    back -= 1
        return inputs & found


WIDEST = 72


def printable(data):
    """Bytes as they can be shown."""
    return "".join(c if c.isprintable() or c == "\t" else "\ufffd" for c in data.decode("utf-8", "replace"))


def distance(one, other):
    """How many letters to change, drop, add, or exchange with their neighbour make one name of the other."""
    before, row = None, list(range(len(other) + 1))
    for i, a in enumerate(one, 1):
        rows = [i]
        for j, b in enumerate(other, 1):
            least = min(row[j] + 1, rows[-1] + 1, row[j - 1] + (a != b))
            if before and j > 1 and a == other[j - 2] and one[i - 2] == b:
                least = min(least, before[j - 2] + 1)
            rows.append(least)
        before, row = row, rows
    return row[-1]


def nearest(name, names):
    """The declared name that a wrong one is likely meant to be; none where all are far."""
    close = sorted((distance(name.lower(), other.lower()), other) for other in set(names))
    far = max(1, len(name) // 3) if len(name) > 2 else 0
    return close[0][1] if close and close[0][0] <= far else None
