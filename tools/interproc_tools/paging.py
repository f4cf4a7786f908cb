"""The tool `page`."""
import html
import os
import sys

from . import files, rules
from .program import ANALYSIS_USAGE, Program, read_words, usage_fault
from .report import infix, read_report
from .source import Source, printable

ABOUT = """
Writes one page of HTML: the lines of FILE with what holds at each point, or what is wrong with it. It needs no network and no
script: tools/page FILE > out.html. The options are the analyser's. The status is the analyser's; a page is always written.
"""

STYLE = """
:root { color-scheme: light dark; --back: #fff; --text: #1b1f24; --faint: #6a737d; --line: #e1e4e8; --note: #0b4f8a;
  --good: #d8f2e0; --good-text: #14522a; --bad: #fbdcda; --bad-text: #8a1f17; --never: #8b949e; --code: #f6f8fa }
@media (prefers-color-scheme: dark) { :root { --back: #14181d; --text: #dce1e7; --faint: #8d96a0; --line: #30363d; --note: #7cbcf5;
  --good: #173c26; --good-text: #9be3b4; --bad: #4d1f1e; --bad-text: #ffb4ae; --never: #6e7781; --code: #1b2027 } }
* { box-sizing: border-box }
body { font: 16px/1.5 system-ui, sans-serif; color: var(--text); background: var(--back); margin: 0 auto; padding: 1.5rem; max-width: 64rem }
h1 { font-size: 1.4rem; margin: 0 0 .3rem; overflow-wrap: anywhere } h2 { font-size: 1.1rem; margin: 1.5rem 0 .3rem }
p { margin: .4rem 0 } code, .listing, pre { font-family: ui-monospace, "DejaVu Sans Mono", monospace; font-size: .875rem }
a { color: inherit } .faint { color: var(--faint) }
ul.fails { list-style: none; padding: 0; display: flex; flex-wrap: wrap; gap: .4rem; margin: .6rem 0 }
ul.fails a { display: block; padding: .15rem .6rem; border-radius: .3rem; text-decoration: none }
.good { background: var(--good); color: var(--good-text) } .bad { background: var(--bad); color: var(--bad-text) }
.verdict { display: inline-block; padding: .2rem .7rem; border-radius: .3rem; font-weight: 600 }
.listing { background: var(--code); border: 1px solid var(--line); border-radius: .4rem; padding: .6rem 0; margin: 1rem 0 }
.row { display: grid; grid-template-columns: 3.2rem minmax(0, 1fr); padding-right: .8rem }
.row > a { color: var(--faint); text-align: right; padding-right: .9rem; text-decoration: none; user-select: none }
.row > span { white-space: pre-wrap; overflow-wrap: anywhere; tab-size: 4 }
.point { display: grid; grid-template-columns: 3.2rem minmax(0, 1fr); padding-right: .8rem; color: var(--note); margin: .05rem 0 .15rem }
.point > small { color: var(--faint); text-align: right; padding-right: .9rem; font-size: .75rem; line-height: 1.7 }
.point > span { padding-left: .6rem; border-left: 3px solid var(--line); white-space: pre-wrap; overflow-wrap: anywhere }
.point.head > span { border-left-color: var(--note) } .never, .point.never { color: var(--never) }
.point b, .point i { display: inline-block; font-style: normal; max-width: 100% }
.point b { font-weight: 700; text-decoration: underline; text-decoration-thickness: 1px; text-underline-offset: 3px }
mark { border-radius: .2rem; padding: .05rem .2rem; font-weight: 600 } :target { outline: 2px solid var(--note); outline-offset: 2px }
details { margin: 1rem 0 } summary { cursor: pointer } dt { font-weight: 600; margin-top: .5rem } dd { margin-left: 1.2rem }
pre { overflow-x: auto; background: var(--code); border: 1px solid var(--line); border-radius: .4rem; padding: .7rem }
@media (max-width: 40rem) { body { padding: .7rem; font-size: 15px } .row, .point { grid-template-columns: 2.4rem minmax(0, 1fr); padding-right: .4rem }
  .row > a, .point > small { padding-right: .5rem } .listing { border-radius: 0; margin-left: -.7rem; margin-right: -.7rem; border-left: 0; border-right: 0 } }
"""

LEGEND = """
<details><summary>How this is read</summary><dl>
<dt>A point</dt><dd>Below a line stands what holds at the points in it, with the column of each (<code>C17</code>): whenever any run is
just there, however deep the recursion and however great the numbers, each of these constraints holds.</dd>
<dt>At a loop</dt><dd>The point before a <code>while</code> is met in every round; what holds there but not at the point before it is
<b>bold</b>, and what the loop gave up stands behind it.</dd>
<dt>top</dt><dd>Nothing is known here.</dd>
<dt>bottom</dt><dd>No run comes here; the text behind it is grey.</dd>
<dt>n@</dt><dd>The value that the input n came in with; n itself is the copy that the procedure writes.</dd>
<dt>fail</dt><dd><span class="good">unreachable</span>: proved, no run comes to it. <span class="bad">not excluded</span>: the analysis didn't
show it; some run may come to it, or the constraints are too weak.</dd>
</dl></details>
"""


def escaped(text):
    return html.escape(text, quote=False)


def head(title):
    return (
        f'<!DOCTYPE html>\n<html lang="en"><head><meta charset="utf-8"><meta name="viewport" content="width=device-width, initial-scale=1">'
        f"<title>{escaped(title)}</title><style>{STYLE}</style></head><body>\n<h1>{escaped(title)}</h1>\n"
    )


def main(argv):
    tool = os.path.basename(argv[0])
    usage = f"{tool} {ANALYSIS_USAGE} FILE > out.html"
    sys.stdout.reconfigure(encoding="utf-8", errors="replace")
    try:
        words = read_words(argv[1:], tool, usage, {}, ABOUT)
        if len(words.files) != 1:
            usage_fault(tool, usage, "no FILE is named" if not words.files else f"there is one FILE, and {words.files[1]} is a second")
    except SystemExit as end:
        # Standard output is a file by now: it isn't left empty.
        if end.code == 2 and not sys.stdout.isatty():
            print(head("no page") + f"<p>The words of the call are of no form: <code>{escaped(' '.join(argv[1:]))}</code>.</p>\n<pre>usage: {escaped(usage)}</pre>\n</body></html>")
        return end.code
    program, path = Program(), words.files[0]
    data, answer = files.run_on(program, path, words.options)
    told = rules.explain(program, path, data, answer, [*words.options, path])
    if told:
        print(refusal_page(path, told))
        print(f"{path}: {told.message()}", file=sys.stderr)
    else:
        print(report_page(path, words.options, Source(data), read_report(answer.out)))
    return answer.status


def refusal_page(path, told):
    where = f"line {told.line}, column {told.column}: " if told.line else ""
    lines = [head(path), f'<p><span class="verdict bad">refused: {escaped(told.rule)}</span></p>']
    lines.append(f"<p>{where}{code_marks(told.sentence)}</p>")
    if told.shown:
        lines.append(f"<pre>{escaped(chr(10).join(told.shown))}</pre>")
    if told.could:
        lines.append(f"<p>Here could stand: {code_marks(told.could)}.</p>")
    lines += [f"<p>{code_marks(hint)}</p>" for hint in told.hints]
    return "\n".join([*lines, "</body></html>"])


def code_marks(text):
    """A text in which `..` is code."""
    parts = escaped(text).split("`")
    return "".join(part if at % 2 == 0 else f"<code>{part}</code>" for at, part in enumerate(parts))


def report_page(path, options, source, report):
    lines = [head(path)]
    count = len(report.fails)
    if count:
        verdict, fails = "good" if report.shown == count else "bad", "fail" if count == 1 else "fails"
        lines.append(f'<p><span class="verdict {verdict}">{report.shown} of {count} {fails} shown unreachable</span></p>')
        lines.append('<ul class="fails">')
        for fail in report.fails:
            colour, said = ("good", "unreachable") if fail.is_unreachable else ("bad", "not excluded")
            lines.append(f'<li><a class="{colour}" href="#fail{fail.number}">fail in line {fail.line}: {said}</a></li>')
        lines.append("</ul>")
    else:
        lines.append("<p>There is no fail.</p>")
    said = f"with <code>{escaped(' '.join(options))}</code>" if options else "with no options"
    lines.append(f'<p class="faint">Analysed {said}, in {report.rounds} rounds.</p>')
    lines += [LEGEND, listing(source, report), "<details><summary>The report as the analyser writes it</summary>"]
    lines += [f'<pre id="report">{escaped(report.text)}</pre></details>', "</body></html>"]
    return "\n".join(lines)


def listing(source, report):
    """The source's lines, each with the points in it below."""
    offsets = [source.offset(point.line, point.column) for point in report.points]
    fails = {source.offset(fail.line, fail.column): fail for fail in report.fails}
    rows, before, at = ['<div class="listing">'], None, 0
    is_never = False
    lines = source.lines()
    if lines and not lines[-1]:
        lines.pop()
    for number, line in enumerate(lines, 1):
        start = source.starts[number - 1]
        pieces, here = [], start
        below = []
        while at < len(offsets) and offsets[at] <= start + len(line):
            pieces.append((source.data[here : offsets[at]], here, is_never))
            here = offsets[at]
            point = report.points[at]
            is_never = point.is_bottom
            below.append(point_row(point, before if before and before.procedure == point.procedure else None))
            before = point
            at += 1
        pieces.append((source.data[here : start + len(line)], here, is_never))
        text = "".join(piece_text(piece, offset, never, fails) for piece, offset, never in pieces)
        rows.append(f'<div class="row" id="L{number}"><a href="#L{number}">{number}</a><span>{text}</span></div>')
        rows += below
    return "\n".join([*rows, "</div>"])


def piece_text(piece, offset, never, fails):
    """A piece of a line, with the fails in it marked; grey where no run comes to it."""
    said, here = "", 0
    for at, fail in sorted(fails.items()):
        if offset <= at < offset + len(piece):
            said += escaped(printable(piece[here : at - offset]))
            here = at - offset + len("fail")
            colour, title = ("good", "no run comes to it") if fail.is_unreachable else ("bad", "not excluded")
            said += f'<mark id="fail{fail.number}" class="{colour}" title="{title}">fail</mark>'
    said += escaped(printable(piece[here:]))
    return f'<span class="never">{said}</span>' if never and said.strip() else said


def point_row(point, before):
    """What holds at a point; at a loop what is new against the point before in bold, and what was given up behind it."""
    kind = "point head" if point.is_loop_head else "point"
    holds = infix(point.constraints)
    known = infix(before.constraints) if before and point.is_loop_head else holds
    if point.is_bottom:
        kind, said = "point never", "bottom: no run comes here"
    else:
        said = ", ".join(f"<i>{escaped(one)}</i>" if one in known else f"<b>{escaped(one)}</b>" for one in holds) or "top: nothing is known"
        lost = [one for one in known if one not in holds]
        if lost:
            said += f' <span class="faint">(no longer: {", ".join(f"<i>{escaped(one)}</i>" for one in lost)})</span>'
    return f'<div class="{kind}" id="P{point.number}"><small>C{point.column}</small><span>{said}</span></div>'
