"""What a refusal means: a sentence, the place, what could stand there, and hints for those who come from other languages."""
import dataclasses
import os
import re

from . import syntax
from .program import ANALYSIS_USAGE, OPTIONS
from .source import Source, Token, nearest

LARGEST_FILE = 1 << 20
LARGEST_NUMBER = 1 << 61
LONGEST_NAME = 64
DEEPEST = 64
LONGEST_RUN = 1024
MOST_PROCEDURES = 256
MOST_VARIABLES = 128
MOST_POINTS = 4096


@dataclasses.dataclass
class Explanation:
    """A refusal told in words; the line is none where it has no place."""

    path: str
    rule: str
    sentence: str
    line: int | None = None
    column: int | None = None
    shown: list = dataclasses.field(default_factory=list)
    could: str | None = None
    hints: list = dataclasses.field(default_factory=list)

    def message(self):
        """One line for an editor."""
        more = self.hints[0] if self.hints else f"here could stand {self.could}" if self.could else ""
        return f"{self.rule}: {self.sentence}" + (f"; {more}" if more else "")

    def text(self):
        place = f"{self.path}:{self.line}:{self.column}" if self.line else self.path
        lines = [f"{place}: {self.rule}: {self.sentence}", *self.shown]
        if self.could:
            lines.append(f"  here could stand: {self.could}")
        lines += [f"  hint: {hint}" for hint in self.hints]
        return "\n".join(lines) + "\n"


def explain(program, path, data, answer, words=()):
    """The explanation of an answer that is no report; none where the program gave its output."""
    if answer.status <= 1:
        return None
    refusal = answer.refusal()
    if refusal and refusal[0] in EXPLAINED:
        return explain_at(program, path, data, *refusal)
    line = answer.line
    if line == "refused: TooLong":
        size = f"{len(data)} bytes, {len(data) - LARGEST_FILE} more than" if len(data) > LARGEST_FILE else "more bytes than"
        return Explanation(path, "TooLong", f"the file has {size} the limit of {LARGEST_FILE}", hints=["cut the program in parts, each with its procedures"])
    if line.startswith("fault: "):
        return explain_fault(path, line.removeprefix("fault: "))
    if line.startswith("usage: "):
        return Explanation(path, "UsageFault", spoiler(words), hints=[f"the form is: interproc {ANALYSIS_USAGE} FILE"])
    if line == "out of memory":
        return Explanation(path, "OutOfMemory", "a request for memory was refused, and nothing was written", hints=["many variables that are all related cost most: cut the procedure, or give the process more memory"])
    return Explanation(path, "NoAnswer", line or f"the program ended with the status {answer.status} and said nothing")


def explain_fault(path, cause):
    sentence, hints = cause, []
    if cause == "CannotOpen":
        sentence = f"the file {path} can't be opened"
        if not os.path.exists(path):
            folder = os.path.dirname(path) or "."
            near = nearest(os.path.basename(path), os.listdir(folder)) if os.path.isdir(folder) else None
            sentence = f"there is no file {path}" if os.path.isdir(folder) else f"there is no folder {folder}"
            hints = [f"did you mean {os.path.join(os.path.dirname(path), near)}?"] if near else []
        elif not os.access(path, os.R_OK):
            hints = ["you have no permission to read it"]
    elif cause == "ReadFault":
        sentence = f"{path} is a folder, and no program" if os.path.isdir(path) else f"reading {path} failed"
    elif cause == "WriteFault":
        sentence = "the output could not be written: it is closed or full"
    return Explanation(path, cause, sentence, hints=hints)


def spoiler(words):
    """Why these words are of no form: the first one that spoils it."""
    seen, files, rest = set(), [], list(words)
    while rest:
        word = rest.pop(0)
        name, equals, value = word.partition("=")
        if name not in OPTIONS:
            if word.startswith("-") and word != "-":
                return f"`{word}` is no option"
            files.append(word)
            continue
        if name in seen:
            return f"`{name}` stands twice"
        seen.add(name)
        form = OPTIONS[name]
        if form is None:
            continue
        if not equals:
            if not rest:
                return f"`{name}` wants a value, and the words end"
            value = rest.pop(0)
        if form == "N" and not (re.fullmatch(r"[0-9]{1,4}", value) and int(value) <= 1000):
            return f"`{name}` wants a number from 0 to 1000, of at most four digits, and not `{value}`"
        if "|" in form and value not in form.split("|"):
            return f"`{name}` wants {' or '.join(form.split('|'))}, and not `{value}`"
    if not files:
        return "no FILE is named"
    return f"there is one FILE, and `{files[1]}` is a second" if len(files) > 1 else "the words are of no form"


def explain_at(program, path, data, rule, line, column):
    source = Source(data)
    offset = source.offset(line, column)
    token = source.token_at(offset) or Token("", offset, offset)
    told = Explanation(path, rule, "", line, column)
    EXPLAINED[rule](told, program, source, offset, token)
    if not told.shown:
        length = max(1, token.end - token.start)
        told.shown = source.show(told.line, told.column, length)
    return told


# ---- tokens

BYTES = {
    "&": "`and` joins conditions",
    "|": "`or` joins conditions",
    "!": "`not` turns a condition round, and `!=` is written with no blank in it",
    "{": "a block begins with `then`, `else` or `do`, and a body with `begin`",
    "}": "a block is closed by `endif;` or `done;`, and a body by `end`",
    "[": "there are no arrays: follow an index or a length by a variable of its own, and `fail` where it would leave its range",
    "]": "there are no arrays: follow an index or a length by a variable of its own, and `fail` where it would leave its range",
    "#": "a comment begins with `//`, or stands between `/*` and `*/`",
    '"': "there are no strings",
    "'": "there are no strings or characters; `n@` in a report is the value of an input at the entry",
    ".": "numbers are integers, without a point; the last `end` has none behind it",
    "?": "there is no `? :`; write `if c then x = a; else x = b; endif;`",
    "@": "`n@` stands in reports alone: the value that the input n came in with",
    "^": "there are no powers and no operators on bits; `x * x` is a square",
    "~": "there are no operators on bits; `not` turns a condition round",
    "\\": "an expression may go on in the next line as it is",
    "$": "a name is made of letters, digits and `_`",
    "`": "a name is made of letters, digits and `_`",
    "≤": "write `<=`", "≥": "write `>=`", "≠": "write `!=`", "∧": "write `and`", "∨": "write `or`", "¬": "write `not`",
    "−": "write `-`", "–": "write `-`", "×": "write `*`", "·": "write `*`", "÷": "write `/`", "←": "write `=`", "→": "write `then`",
    "\u00a0": "this is a blank that doesn't break; write a plain one",
    "\ufeff": "this is a mark of the byte order; save the file as UTF-8 without it",
    "\0": "this is no text: is it the right file, in UTF-8?",
}


def bad_byte(told, program, source, offset, token):
    text = token.text or "?"
    shown = text[0]
    name = f"`{shown}`" if shown.isprintable() else f"this byte ({source.data[offset]})"
    told.sentence = f"{name} begins no token"
    told.shown = source.show(told.line, told.column, len(shown.encode()))
    before = source.tokens_before(offset)
    if shown == "." and before and before[-1].kind == "NUMBER":
        told.hints.append("there are no reals: numbers are integers; count in a smaller unit")
    elif shown in BYTES:
        told.hints.append(BYTES[shown])
    elif shown.isalpha():
        told.hints.append("the letters of names are those of ASCII")


def open_comment(told, program, source, offset, token):
    told.sentence = "this comment is not closed"
    told.hints.append("a comment ends with the first `*/`; they don't nest" if source.data.find(b"*/") >= 0 else "close it by `*/`")


def big_literal(told, program, source, offset, token):
    over = int(token.text) - LARGEST_NUMBER
    told.sentence = f"this number is {over} above the limit of 2^61 = {LARGEST_NUMBER}"
    told.hints.append("write a greater number as a sum or a product; bounds above 2^60 are not kept")


def long_name(told, program, source, offset, token):
    told.sentence = f"this name has {len(token.text)} bytes, {len(token.text) - LONGEST_NAME} more than the limit of {LONGEST_NAME}"


def too_deep(told, program, source, offset, token):
    depth, deepest = 0, 0
    for one in source.tokens:
        if one.text in ("(", "begin", "if", "while"):
            depth += 1
        elif one.text in (")", "end", "endif", "done"):
            depth = max(0, depth - 1)
        deepest = max(deepest, depth)
    told.sentence = f"this `{token.text}` nests deeper than the limit of {DEEPEST}; the deepest place of the file is at {deepest}"
    told.hints.append("give an inner expression a variable, or make a procedure of an inner block")


def long_run(told, program, source, offset, token):
    resets = (";", "then", "do", "begin")
    run = 0
    for one in source.tokens:
        run = 0 if one.text in resets else run + 1
        if one.start >= offset and (one.text in resets):
            break
        if one.start >= offset:
            length = run
    told.sentence = f"this is token {LONGEST_RUN + 1} without `;`, `then`, `do` or `begin`; the limit is {LONGEST_RUN}, and there are {length - LONGEST_RUN} more than that"
    told.hints.append("cut a long expression or list in parts")


# ---- the grammar


def bad_syntax(told, program, source, offset, token):
    kinds, ends, reach = syntax.what_could_stand(program, source, offset)
    before = source.tokens_before(offset)
    last = before[-1] if before else None
    after = source.tokens_from(offset)
    told.sentence = f"`{token.text}` can't stand here" if token.text else "the text ends too early"
    told.could = syntax.in_words(kinds, ends and bool(token.text))
    about = Place(source, token, kinds, ends, before, after)
    hint = next((said for rule in HINTS if (said := rule(about))), None)
    if hint:
        told.hints.append(hint)
    elif last:
        told.hints += missing(told, about, reach)
    else:
        told.hints.append("the least program is `begin end`")
    if not token.text and last and not told.shown:
        # The end of the text may be far below what is written: the last token is shown.
        told.line, told.column = source.place(last.end)
        told.shown = source.show(told.line, told.column, 1)


@dataclasses.dataclass
class Place:
    """A syntax error: the token there, what could stand there, the tokens before it and from it on."""

    source: Source
    token: Token
    kinds: list
    ends: bool
    before: list
    after: list

    def back(self, number):
        """The text of the token so many before this one."""
        return self.before[-number].text if len(self.before) >= number else ""

    def ahead(self, number):
        return self.after[number].text if len(self.after) > number else ""

    @property
    def at_statement(self):
        """Whether the token before begins a statement, as far as one sees."""
        return self.back(2) in (";", "begin", "then", "else", "do", "endif", "done", "")

    def rest(self, first):
        """The text from a token up to the next `;` or the line's end."""
        front = self.source.data[first.start :]
        return re.split(rb"[;\n{]", front)[0].decode("utf-8", "replace").strip()


def missing(told, about, reach):
    """The token that is missing, where one more lets the text be read farther."""
    wanted = list(reach)
    far = {kind: at for kind, at in reach.items() if at > about.token.end or not about.token.text and at > about.token.start}
    if not far:
        return []
    best = max(far, key=lambda kind: (far[kind], -wanted.index(kind)))
    last = about.before[-1]
    opened = about.source.open_blocks(about.token.start)
    if best == ";":
        told.sentence = f"a `;` is missing behind `{last.text}`"
        comment = re.match(rb"[^\n]*?(//[^\n]*)", about.source.data[last.end :])
        place_behind(told, about.source, last)
        if comment and about.source.line_at(about.token.start) > told.line:
            return ["`//` begins a comment, so the rest of this line isn't read"]
        return []
    place_behind(told, about.source, last)
    told.sentence = f"`{best}` is missing behind `{last.text}`"
    closes = {"endif": "if", "done": "while", "end": "begin"}
    if best in closes and opened and opened[-1].text == closes[best]:
        return [f"it closes the `{opened[-1].text}` of line {about.source.line_at(opened[-1].start)}"]
    return []


def place_behind(told, source, last):
    told.line, told.column = source.place(last.end)
    told.shown = source.show(told.line, told.column, 1)


def hint_assert(at):
    if at.back(1) == "assert" or at.back(1) in ("assert", "check", "ensure", "require") and at.at_statement:
        what = at.rest(at.token)
        what = what[1:-1] if what.startswith("(") and what.endswith(")") else what
        return f"there is no `{at.back(1)}`; write `if not ({what or 'c'}) then fail; endif;`"
    return None


def hint_return(at):
    if at.back(1) == "return":
        return "a procedure gives back its outputs at its `end`: give them their values, as `r = ..;`, and leave `return` out"
    return None


def hint_else_if(at):
    if at.back(1) in ("elif", "elsif", "elseif"):
        return f"there is no `{at.back(1)}`; write `else if .. then .. endif;` with an `endif;` for each `if`"
    if at.token.text in ("end", "else", "done", "proc", ""):
        texts = [one.text for one in at.before]
        nested = any(a == "else" and b == "if" for a, b in zip(texts, texts[1:]))
        opened = at.source.open_blocks(at.token.start)
        if nested and "endif" in at.kinds and opened and opened[-1].text == "if":
            return f"each `if` wants its own `endif;`, an `else if`'s too: the one of line {at.source.line_at(opened[-1].start)} has none"
    return None


LOOPS = {
    "for": "there is no `for`; write `i = 0; while i < n do .. i = i + 1; done;`",
    "repeat": "there is no `repeat`; write the body once, and then `while not (c) do .. done;`",
    "switch": "there is no `switch`; write `if .. then .. else if .. then .. endif; endif;`",
    "break": "there is no `break`; put the condition into the `while`, or a variable that says whether to go on",
    "continue": "there is no `continue`; put the rest of the body into an `if`",
    "goto": "there is no `goto`",
    "unless": "there is no `unless`; write `if not (c) then .. endif;`",
    "until": "there is no `until`; write `while not (c) do .. done;`",
    "print": "there is no output: the report tells what holds at each point",
    "printf": "there is no output: the report tells what holds at each point",
    "endwhile": "a `while` is closed by `done;`",
    "endfor": "a `while` is closed by `done;`",
    "od": "a `while` is closed by `done;`",
    "fi": "an `if` is closed by `endif;`",
    "exit": "`halt;` ends the run",
    "abort": "`fail;` ends the run as a fault that should not be, `halt;` as one that is right",
    "pass": "`skip;` does nothing",
    "let": "declare the variable in `var`, and write `x = ..;`",
    "const": "declare the variable in `var`, and write `x = ..;`",
    "bool": "variables are integers: `var x:int;`, with 0 and 1",
    "long": "there is one type: `var x:int;` before `begin`; integers have no limit",
    "unsigned": "there is one type: `var x:int;` before `begin`; write `assume x >= 0;` for what can't be negative",
    "float": "there are no reals: `int` is the one type",
    "double": "there are no reals: `int` is the one type",
    "def": "a procedure is `proc f(x:int) returns (r:int) begin .. end`",
    "fn": "a procedure is `proc f(x:int) returns (r:int) begin .. end`",
    "function": "a procedure is `proc f(x:int) returns (r:int) begin .. end`",
    "procedure": "a procedure is `proc f(x:int) returns (r:int) begin .. end`",
    "void": "a procedure is `proc f(x:int) returns () begin .. end`, and the program's own body has no name",
    "program": "a program has no name: procedures, then `var .. ;`, then `begin .. end`",
    "havoc": "write `x = random;`",
    "assumes": "write `assume c;`",
}


def hint_word(at):
    """A word of another language stands as a name, before or at this place."""
    if at.back(1) in LOOPS and at.at_statement:
        return LOOPS[at.back(1)]
    return LOOPS.get(at.token.text)


def hint_declaration(at):
    if at.token.text == "int" and "skip" in at.kinds:
        name = at.ahead(1) if at.ahead(1).isidentifier() else "x"
        return f"variables are declared before `begin`: `var {name}:int;`"
    if at.token.text == "int" and at.back(1) in ("var", ",", "("):
        name = at.ahead(1) if at.ahead(1).isidentifier() else "x"
        return f"the name comes first: `{name}:int`"
    if at.token.text == "int" and not at.before:
        return "a program is procedures, then `var x:int;`, then `begin .. end`: the name comes first"
    if at.token.text == "var" and "skip" in at.kinds:
        return "variables are declared before `begin`"
    if at.token.text == "var" and "begin" in at.kinds:
        return "there is one list of variables: `var x:int, y:int;`"
    if ":" in at.kinds and at.kinds == [":"]:
        return f"a name is declared with its type: `{at.back(1)}:int`"
    if at.token.text == "=" and at.back(1) in ("int", "real"):
        return "a variable gets its first value behind `begin`: `x = 0;`"
    if at.token.text == ":" and "returns" in at.kinds:
        return "what a procedure gives back has a name: `returns (r:int)`"
    if at.kinds == ["returns"]:
        return "a procedure that gives nothing back says `returns ()`"
    if "begin" in at.kinds and at.token.text in ("skip", "assume", "if", "while", "fail", "halt"):
        return "a body stands between `begin` and `end`"
    if not any(one.text == "begin" for one in at.before) and "begin" in at.kinds and at.token.kind == "NAME":
        if at.ahead(1) == "=":
            return "a body stands between `begin` and `end`, and its variables are declared before: `var x:int;`"
    return None


def hint_random(at):
    if at.back(1) in ("random", "brandom") and at.token.text == "(":
        if at.ahead(1) != ")":
            return "`random` is any integer: `x = random; assume x >= a and x <= b;` gives one of a range"
        return "`random` stands without parentheses: `x = random;`"
    return None


def hint_assignment(at):
    if at.token.text == ":" and at.ahead(1) == "=":
        return "an assignment is `x = ..;`"
    if at.token.text == "==" and at.at_statement:
        return f"an assignment has one `=`: `{at.back(1)} = ..;`"
    if at.token.text in "+-*/%" and at.token.text and at.ahead(1) == "=" and at.at_statement:
        value = at.rest(at.after[2]) if len(at.after) > 2 else "1"
        return f"write `{at.back(1)} = {at.back(1)} {at.token.text} {value};`"
    if at.token.text in ("+", "-") and at.ahead(1) == at.token.text and at.at_statement and at.before[-1].kind == "NAME":
        return f"write `{at.back(1)} = {at.back(1)} {at.token.text} 1;`"
    if at.token.text in ("+", "-") and at.ahead(1) == at.token.text and "skip" in at.kinds:
        return f"write `{at.ahead(2)} = {at.ahead(2)} {at.token.text} 1;`"
    if at.token.text == "=" and at.back(2) == "=" and ";" in at.kinds:
        return "an assignment has one target: write two"
    if at.token.text == "," and at.kinds == ["="]:
        return "an assignment has one target; two values are exchanged by `t = x; x = y; y = t;`"
    return None


def hint_comparison(at):
    # A comparison that was meant: at the second one of `a < b < c` none could stand, and `and` could.
    if at.token.text == "=" and at.back(1) in ("=", "!"):
        return f"write `{at.back(1)}=`"
    if at.token.text == "=" and at.back(1) == "<" or at.token.text == "=" and at.back(1) == ">":
        return f"write `{at.back(1)}=`"
    if at.token.text == "=" and at.ahead(1) in (">", "<"):
        return f"write `{at.ahead(1)}=`"
    if at.token.text == ">" and at.back(1) == "<":
        return "not equal is `!=`"
    if at.token.text == "=" and "==" in at.kinds:
        return "a test for equality is `==`; one `=` gives a variable its value"
    if at.token.text in syntax.COMPARISONS and "and" in at.kinds and "==" not in at.kinds:
        middle = at.back(1)
        return f"comparisons don't chain: write `.. {middle} and {middle} {at.token.text} ..`"
    return None


def hint_call(at):
    if at.token.text == "(" and at.before and at.before[-1].kind == "NAME":
        name = at.back(1)
        if name in LOOPS:
            return LOOPS[name]
        if "=" in at.kinds and at.at_statement:
            return f"a call has its targets: `() = {name}(..);` where it gives nothing back, `x = {name}(..);`, `(x, y) = {name}(..);`"
        return f"a call stands alone on the right side: `r = {name}(..);`, and then use r"
    inside = call_before(at)
    if inside and at.token.kind != "NAME" and at.token.text not in (")", ",", ";"):
        return f"arguments are variables: `a = ..;` and then `{inside}(a)`"
    if at.back(1) == ")" and at.token.text in ("+", "-", "*", "/", "%", *syntax.COMPARISONS) and at.kinds == [";"]:
        return "a call stands alone on the right side: `r = p(..);`, and then use r"
    return None


def call_before(at):
    """The procedure whose arguments this place stands in, as one sees by the tokens before."""
    back = len(at.before) - 1
    while back >= 0 and (at.before[back].kind == "NAME" or at.before[back].text == ","):
        back -= 1
    if back > 1 and at.before[back].text == "(" and at.before[back - 1].kind == "NAME" and at.before[back - 2].text == "=":
        return at.before[back - 1].text
    return None


def hint_block(at):
    if at.token.text == ":" and ("then" in at.kinds or "do" in at.kinds):
        return "behind the condition stands " + " or ".join(f"`{word}`" for word in ("then", "do") if word in at.kinds)
    if at.token.text == ":" and at.back(1) == "else":
        return "`else` stands without `:`"
    closers = {"end": "begin", "endif": "if", "done": "while"}
    opened = at.source.open_blocks(at.token.start)
    if at.token.text in closers and opened and closers[at.token.text] != opened[-1].text:
        closer = {"begin": "end", "if": "endif;", "while": "done;"}[opened[-1].text]
        if closer.strip(";") in at.kinds:
            return f"`{closer}` closes the `{opened[-1].text}` of line {at.source.line_at(opened[-1].start)} first"
    if at.token.text in closers and not opened and at.ends:
        return "there is nothing open that it could close"
    if at.token.text == "else" and opened and opened[-1].text != "if":
        return "there is no `if` open here that it could belong to"
    if at.token.text == "if" and at.back(1) == "end":
        return "an `if` is closed by `endif;`"
    if at.ends and at.back(1) == "end" and at.token.text == ";":
        return "nothing stands behind the last `end`, not even `;`"
    if at.back(1) == "end" and at.token.text == ";":
        return "the `end` of a procedure has no `;`"
    if at.ends and at.back(1) == "end" and at.token.text:
        return "procedures stand before the program's own body, and nothing behind it" if at.token.text == "proc" else "nothing stands behind the last `end`"
    return None


def hint_operator(at):
    if at.token.text == "*" and at.back(1) == "*":
        return "there are no powers; `x * x` is a square"
    if at.token.text in ("mod", "div", "and", "or") and at.token.kind == "NAME":
        return f"`{at.token.text}` is written `{'%' if at.token.text == 'mod' else '/'}`"
    if at.token.text == "not" and "(" in at.kinds:
        return "`not` takes all that follows it up to `and` or `or`; put it in parentheses: `(not ..)`"
    return None


HINTS = [
    hint_assert, hint_return, hint_else_if, hint_word, hint_declaration, hint_random, hint_assignment, hint_comparison,
    hint_operator, hint_block, hint_call,
]


# ---- the checks


def duplicate_name(told, program, source, offset, token):
    procedures = source.procedures()
    if any(token.start > one.start and token.text == one.name and is_procedure_name(source, token) for one in procedures):
        first = next(one for one in procedures if one.name == token.text)
        told.sentence = f"there is a procedure `{token.text}` already, in line {source.line_at(first.start)}"
        return
    mine = source.procedure_at(offset)
    first = next(one for one in mine.variables if one.text == token.text)
    told.sentence = f"`{token.text}` is declared already, in line {source.line_at(first.start)}"
    told.hints.append("inputs, outputs and variables of a procedure have names of their own")


def is_procedure_name(source, token):
    before = source.tokens_before(token.start)
    return bool(before) and before[-1].text == "proc"


def unsupported_type(told, program, source, offset, token):
    told.sentence = f"`{token.text}` is no type of variables; `int` is the one"
    if token.text == "real" or token.text in ("float", "double"):
        told.hints.append("there are no reals: count in a smaller unit")
    elif token.text.startswith("bool"):
        told.hints.append("a truth value is an int: 0 or 1, and `x != 0` where a condition is wanted")
    else:
        told.hints.append("integers have no limit; say by `assume` what a smaller type would hold")


ANYTHING = ("nondet", "input", "read", "rand", "havoc", "scanf", "getchar", "randint")


def unknown_variable(told, program, source, offset, token):
    mine = source.procedure_at(offset)
    names = [one.text for one in mine.variables] if mine else []
    where = f"`{mine.name}`" if mine and mine.name else "the program's own body"
    told.sentence = f"{where} has no variable `{token.text}`"
    near = nearest(token.text, names)
    others = [one for one in source.procedures() if one is not mine and any(v.text == token.text for v in one.variables)]
    if token.text in ("True", "False", "TRUE", "FALSE"):
        told.hints.append(f"`{token.text.lower()}` is written in small letters")
    elif any(one.name == token.text for one in source.procedures()):
        told.hints.append(f"`{token.text}` is a procedure; a call is written `x = {token.text}(..);`")
    elif others:
        other = f"`{others[0].name}`" if others[0].name else "the program's own body"
        told.hints.append(f"it is a variable of {other}: variables belong to one procedure, so hand it over as an input")
    elif near:
        told.hints.append(f"did you mean `{near}`?")
    else:
        told.hints.append(f"declare it before `begin`: `var {token.text}:int;`" if not names else f"declared are {listed(names)}")


def listed(names):
    some = [f"`{name}`" for name in names[:8]]
    return ", ".join(some) + (f" and {len(names) - 8} more" if len(names) > 8 else "")


def unknown_procedure(told, program, source, offset, token):
    names = [one.name for one in source.procedures() if one.name]
    told.sentence = f"there is no procedure `{token.text}`"
    near = nearest(token.text, names)
    if near:
        told.hints.append(f"did you mean `{near}`?")
    elif any(word in token.text.lower() for word in ANYTHING):
        told.hints.append("any integer is written `x = random;`")
    elif names:
        told.hints.append(f"procedures are {listed(names)}")
    else:
        told.hints.append(f"write it before `var` and `begin`: `proc {token.text}(..) returns (..) begin .. end`")


def wrong_count(told, program, source, offset, token):
    called = next(one for one in source.procedures() if one.name == token.text)
    before, after = source.tokens_before(offset), source.tokens_from(offset)
    targets = 1
    if len(before) > 1 and before[-2].text == ")":
        back = len(before) - 3
        targets = 0
        while before[back].text != "(":
            targets += before[back].kind == "NAME"
            back -= 1
    arguments = 0
    for one in after[2:]:
        if one.text == ")":
            break
        arguments += one.kind == "NAME"
    wrong = []
    if targets != len(called.outputs):
        wrong.append(f"gives back {counted(len(called.outputs), 'value')} and has {counted(targets, 'target')} here")
    if arguments != len(called.inputs):
        wrong.append(f"takes {counted(len(called.inputs), 'argument')} and has {arguments or 'none'} here")
    told.sentence = f"`{token.text}`, of line {source.line_at(called.start)}, " + ", and ".join(wrong)
    told.hints.append(f"it is called as `{call_form(called)}`")


def call_form(called):
    outputs = ", ".join(one.text for one in called.outputs)
    targets = outputs if len(called.outputs) == 1 else f"({outputs})"
    return f"{targets} = {called.name}({', '.join(one.text for one in called.inputs)});"


def counted(number, word):
    return f"{number} {word}" if number == 1 else f"{number or 'no'} {word}s"


def repeated_target(told, program, source, offset, token):
    told.sentence = f"`{token.text}` stands twice among the targets of this call"
    told.hints.append("take another variable for what isn't wanted")


def wrong_kind(told, program, source, offset, token):
    conditions = (*syntax.COMPARISONS, "and", "or", "not", "true", "false", "random", "brandom")
    if token.text in ("random", "brandom"):
        told.sentence = f"`{token.text}` is a condition here, and a number is wanted"
        told.hints.append("alone on the right side `random` is any integer: `r = random;`, and then use r")
    elif token.text in conditions:
        told.sentence = f"`{token.text}` makes a condition, and a number is wanted"
        told.hints.append("a truth value is kept as a number: `if c then x = 1; else x = 0; endif;`")
    else:
        told.sentence = f"`{token.text}` is a number, and a condition is wanted"
        if token.text in ("True", "False", "TRUE", "FALSE"):
            told.hints.append(f"`{token.text.lower()}` is written in small letters")
        elif token.kind == "NUMBER":
            told.hints.append("write `true` or `false`")
        else:
            what = token.text if token.kind == "NAME" else "x"
            told.hints.append(f"say what is asked of the number: `{what} != 0`")


def too_many_variables(told, program, source, offset, token):
    mine = source.procedure_at(offset)
    count = len(mine.variables) + len(source.written(mine))
    copies = len(source.written(mine))
    told.sentence = f"this procedure has {count} dimensions, {count - MOST_VARIABLES} more than the limit of {MOST_VARIABLES}"
    if copies:
        told.sentence += f": {len(mine.variables)} variables, and one more for each of the {copies} inputs that are written"
    told.hints.append("cut the procedure in two, or give what is alike one variable")


def too_many_procedures(told, program, source, offset, token):
    count = sum(bool(one.name) for one in source.procedures())
    told.sentence = f"the file has {count} procedures, {count - MOST_PROCEDURES} more than the limit of {MOST_PROCEDURES}"


def too_many_points(told, program, source, offset, token):
    count = source.points()
    told.sentence = f"the program has {count} points, {count - MOST_POINTS} more than the limit of {MOST_POINTS}"
    told.hints.append("a point stands behind each statement and at the beginning of each block: cut the program in two")


# The rules with a place, each with what tells it. A rule that comes anew gets its line here.
EXPLAINED = {
    "BadByte": bad_byte,
    "OpenComment": open_comment,
    "BigLiteral": big_literal,
    "LongName": long_name,
    "TooDeep": too_deep,
    "LongRun": long_run,
    "Syntax": bad_syntax,
    "DuplicateName": duplicate_name,
    "UnsupportedType": unsupported_type,
    "UnknownVariable": unknown_variable,
    "UnknownProcedure": unknown_procedure,
    "WrongCount": wrong_count,
    "RepeatedTarget": repeated_target,
    "WrongKind": wrong_kind,
    "TooManyVariables": too_many_variables,
    "TooManyProcedures": too_many_procedures,
    "TooManyPoints": too_many_points,
}
