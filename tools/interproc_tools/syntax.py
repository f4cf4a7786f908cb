"""What could stand at the place of a syntax error: exactly, and with no grammar of its own.

The analyser's parser refuses a text at the first token for which no list that begins with the kinds of tokens up to and
with it derives a tree. So a kind of token can stand at a place exactly where the text up to it, with a token of this kind
added, is not refused at that token. The analyser is asked for each kind.
"""
from .source import KEYWORDS, SIGNS

# A token of each kind of the language.
SPELLED = {"NAME": "x", "NUMBER": "0"} | {word: word for word in [*KEYWORDS, *SIGNS]}

COMPARISONS = ["==", "!=", "<", "<=", ">", ">="]
OPERATORS = ["+", "-", "*", "/", "%"]
OPERANDS = ["NAME", "NUMBER", "(", "-", "true", "false", "random", "brandom"]
STATEMENTS = ["NAME", "(", "skip", "halt", "fail", "assume", "if", "while"]
WORDS = {"NAME": "a name", "NUMBER": "a number"}


# Kinds of which one is often missing, the likeliest first.
OFTEN_MISSING = (";", "then", "do", ")", "endif", "done", "end", ":", "begin", "(", ",")


def what_could_stand(program, source, offset):
    """The kinds of tokens that could stand at this offset, whether the text could end there, and how far it reads with one more.

    The last is for each kind that is often missing and could stand there: an offset of the text as it is. All is asked at
    once, since the quick way compiles anew each time.
    """
    front = source.data[:offset] + b"\n"
    line = front.count(b"\n") + 1
    kinds = list(SPELLED)
    more = [with_one_more(source, offset, kind) for kind in OFTEN_MISSING]
    answers = program.run_texts([front + SPELLED[kind].encode() for kind in kinds] + [front] + more)
    can = [kind for kind, answer in zip(kinds, answers) if (answer.refusal() or ("", 0, 0))[1:] != (line, 1)]
    last = answers[len(kinds)].refusal()
    reach = {
        kind: reaches(source, text, answer)
        for kind, text, answer in zip(OFTEN_MISSING, more, answers[len(kinds) + 1 :])
        if kind in can
    }
    return can, last is None or last[0] != "Syntax", reach


def with_one_more(source, offset, kind):
    """The text with a token of this kind put in behind the last one before an offset."""
    before = source.tokens_before(offset)
    at = before[-1].end if before else 0
    return source.data[:at] + b" " + SPELLED[kind].encode() + b" " + source.data[at:]


def reaches(source, text, answer):
    """The offset at which the text with one token more is refused, in the text as it is; past its end where it isn't."""
    refusal = answer.refusal()
    if refusal is None or refusal[0] not in ("Syntax", "BadByte"):
        return len(source.data) + 1
    return type(source)(text).offset(*refusal[1:]) - (len(text) - len(source.data))


def in_words(kinds, ends=False):
    """The kinds in groups, as one would say it."""
    rest, said = list(kinds), []

    def take(group, words, marks):
        nonlocal rest
        if marks <= set(rest):
            rest = [kind for kind in rest if kind not in group]
            said.append(words)

    if "skip" in rest:
        take(STATEMENTS, "a statement (`skip`, `halt`, `fail`, `assume`, `if`, `while`, `x = ..`, `(x, y) = p(..)`)", {"skip"})
    if "NUMBER" in rest:
        negation = ", `not`" if "not" in rest else ""
        take([*OPERANDS, "not"], f"a value (a name, a number, `(`, `-`, `true`, `false`, `random`{negation})", {"NUMBER"})
    take(COMPARISONS, "a comparison (`==` `!=` `<` `<=` `>` `>=`)", set(COMPARISONS))
    take(OPERATORS, "an operator (`+` `-` `*` `/` `%`)", set(OPERATORS))
    if {"int", "real"} <= set(rest):
        rest = [kind for kind in rest if kind not in ("int", "real", "NAME")]
        said.append("a type (`int`)")
    said += [WORDS.get(kind, f"`{kind}`") for kind in rest]
    if ends:
        said.append("the end of the text")
    return ", ".join(said[:-1]) + (" or " if len(said) > 1 else "") + said[-1] if said else "nothing"
