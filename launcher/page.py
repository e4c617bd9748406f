"""The page of the mode picture: one HTML file, which asks nothing of a network, with a drawing of each log and the list of its entries.

What differs in kind differs in form, and not in colour alone: tasks have round corners and items square ones with stripes, main tasks a
second border, scopes dots, and what is wrong or differs has a sign and a word."""
from __future__ import annotations

from collections.abc import Iterator
from html import escape

from picture import Span, Story

# The sizes of a drawing: of its margins, its rows, and its columns, which are narrower where there are many.
LEFT, TOP, ROW, BAR, CURVE, TITLE = 92, 62, 54, 26, 46, 24
WIDEST, NARROWEST, WIDTH = 56, 5, 1280
# How wide a letter is.
LETTER = 6.4
# The signs of marks, by the word of their entry.
SIGNS = {"tick": "t", "policy": "p", "reprio": "r", "fence": "f", "unfence": "u", "vote": "v", "rank": "k", "close": "c", "mainnone": "n",
         "startjob": "j", "cancel": "x", "cancelled": "x", "joined": "j", "idle": "i", "shutdown": "s", "done": "d"}

# The colours, and the style of a drawing; then that of the page around it.
DRAWN = """
:root { color-scheme: light dark; --paper: #fff; --ink: #1b1b1b; --faint: #6b6b6b; --line: #c9c9c9; --task: #bcd7f5; --item: #f6dfa4;
  --main: #cdebc8; --scope: #8d6bb8; --band: #ececf4; --bad: #b00020; --flow: #5577aa; }
@media (prefers-color-scheme: dark) { :root { --paper: #17181a; --ink: #ececec; --faint: #a5a5a5; --line: #4a4a4a; --task: #27507c;
  --item: #6d5516; --main: #2c5c33; --scope: #b79be0; --band: #26262f; --bad: #ff8a94; --flow: #88aadd; } }
svg { display: block; font: 11px system-ui, sans-serif; fill: var(--ink); } .task rect { fill: var(--task); }
.main rect { fill: var(--main); } .item rect { fill: var(--item); } .bar { stroke: var(--ink); stroke-width: .8; }
.main .inner { fill: none; stroke: var(--ink); stroke-width: .8; } .scope rect { fill: url(#dots); stroke: var(--scope); }
.item .over { fill: url(#stripes); } .differs .bar { stroke-width: 2.4; stroke-dasharray: 5 3; } .row { stroke: var(--line); }
.band { fill: var(--band); } .quiet { fill: var(--faint); } .flow { fill: none; stroke: var(--flow); stroke-width: 1; opacity: .55; }
.post { stroke: var(--flow); stroke-width: 2; } .refused { stroke-dasharray: 2 2; } .mark { fill: var(--paper); stroke: var(--ink); }
.bad { fill: url(#crosses); stroke: var(--bad); stroke-width: 2; } .badword { fill: var(--bad); font-weight: bold; }
.waiting { fill: none; stroke: var(--ink); stroke-width: 1.6; }
.running { fill: none; stroke: var(--flow); stroke-width: 1.6; stroke-dasharray: 5 3; }
.parts { stroke: var(--ink); stroke-width: 2; stroke-dasharray: 8 4; }
"""
STYLE = DRAWN + """
body { margin: 1.2em; background: var(--paper); color: var(--ink); font: 15px/1.45 system-ui, sans-serif; } h1 { font-size: 1.3em; }
h2 { font-size: 1.1em; margin: 1.4em 0 .3em; } code, pre, td { font-family: ui-monospace, monospace; font-size: 13px; }
.scroll { overflow-x: auto; border: 1px solid var(--line); }
.wrong { border: 2px solid var(--bad); border-left-width: 10px; padding: .4em .8em; } .wrong b::before { content: "\\2716\\a0"; }
#said { display: block; position: sticky; bottom: 0; min-height: 4.4em; margin: .8em 0; padding: .4em .8em; white-space: pre-wrap;
  background: var(--band); border: 1px solid var(--line); font: 13px/1.4 ui-monospace, monospace; }
[tabindex]:focus { outline: 3px solid var(--ink); outline-offset: 1px; } table { border-collapse: collapse; }
td, th { padding: 0 .9em 0 0; text-align: left; vertical-align: top; } tr.other td:first-child::before { content: "\\2260\\a0"; }
@media print { :root { --paper: #fff; --ink: #000; --faint: #444; --line: #999; --task: #dce9f8; --item: #f8ecc8; --main: #e2f3df;
  --band: #f0f0f0; --bad: #900; } @page { size: landscape; margin: 10mm; } .scroll { overflow: visible; border: 0; } svg { max-width: 100%;
  height: auto; } #said { display: none; } }
"""
# What is under the pointer, or has the focus, is said below; the arrows go from one to the next.
SCRIPT = """
const said = document.getElementById('said'), all = [...document.querySelectorAll('[tabindex]')];
const say = it => { if (it) said.textContent = it.getAttribute('aria-label'); };
const of = event => event.target.closest && event.target.closest('[tabindex]');
document.addEventListener('mouseover', event => say(of(event)));
document.addEventListener('focusin', event => say(of(event)));
document.addEventListener('keydown', event => {
  const step = {ArrowRight: 1, ArrowLeft: -1}[event.key], at = all.indexOf(of(event));
  if (step && at >= 0 && all[at + step]) { event.preventDefault(); all[at + step].focus(); }
});
"""
PATTERNS = """<defs><pattern id="stripes" width="6" height="6" patternUnits="userSpaceOnUse" patternTransform="rotate(45)">
<line x1="0" y1="0" x2="0" y2="6" stroke="var(--ink)" stroke-width="1" opacity=".35"/></pattern>
<pattern id="dots" width="5" height="5" patternUnits="userSpaceOnUse"><circle cx="2" cy="2" r="1.3" fill="var(--scope)"/></pattern>
<pattern id="crosses" width="8" height="8" patternUnits="userSpaceOnUse">
<path d="M0 0L8 8M8 0L0 8" stroke="var(--bad)" stroke-width="1.2"/></pattern>
</defs>"""
LEGEND = """A row is a seat, a column a place in the log: the axis is no time. Round bars are tasks of the pool, round bars with a second
border are main tasks, square striped bars are items of jobs, and dotted ones in them are blocking scopes. A tick on a row is a post (a
broken one was refused), and a line leads from it to where its task is taken. A letter in a diamond is another entry: """


def page(told: list[Story]) -> bytes:
    """The page of one log, or of two of one script."""
    differing, parts_at = _differing(told), _parts_at(told)
    columns = max(story.count for story in told) + 1
    parts = [f"<h1>{escape(' and '.join(story.name for story in told))}</h1>", *_differences(told, differing, parts_at)]
    for number, story in enumerate(told, 1):
        parts += [f"<h2>Log {number}: {escape(story.name)}</h2>"] * (len(told) > 1) + list(_verdict(story))
        parts.append(f'<div class="scroll">{Drawing(story, columns, differing, parts_at).svg()}</div>')
    words = ", ".join(f"{sign} {' or '.join(word for word in SIGNS if SIGNS[word] == sign)}" for sign in sorted(set(SIGNS.values())))
    hint = "Point at something, or go there by the Tab and arrow keys: what the log and the script say of it is said here."
    parts.append(f'<output id="said" aria-live="polite">{hint}</output><p>{LEGEND}{words}.</p>')
    parts += [part for story in told for part in _list(story, told)]
    head = '<meta charset="utf-8"><meta name="viewport" content="width=device-width">'
    text = (f'<!DOCTYPE html>\n<html lang="en"><head>{head}<title>{escape(told[0].name)}</title><style>{STYLE}</style></head>\n<body>'
            + "\n".join(parts) + f"<script>{SCRIPT}</script></body></html>\n")
    return text.encode("utf-8", "backslashreplace")


def _verdict(story: Story) -> Iterator[str]:
    if not story.faults:
        yield f"<p>legal: {story.count} entries</p>"
    for fault in story.faults:
        lines = "".join(f"<br><code>{escape(line)}</code>" for line in fault.more)
        yield f'<p class="wrong"><b>illegal</b>, at line {fault.line} of the log: {escape(fault.words)}{lines}</p>'


def drawing(story: Story, title: str) -> str:
    """The drawing of one log as a file of its own, for a document."""
    drawn = Drawing(story, story.count + 1, set(), None)
    inside = drawn.svg().replace("<svg ", f'<svg xmlns="http://www.w3.org/2000/svg" y="{TITLE}" ', 1)
    width, height = f"{drawn.right + 20:.0f}", drawn.height + TITLE
    head = f'<svg xmlns="http://www.w3.org/2000/svg" width="{width}" height="{height}" viewBox="0 0 {width} {height}">'
    paper = '<rect width="100%" height="100%" fill="var(--paper)"/>'
    words = f'<text x="4" y="16" font-size="13" font-weight="bold">{escape(title)}</text>'
    return f"{head}<style>{DRAWN}</style>{paper}{words}{inside}</svg>\n"


# ---- two logs


def _differing(told: list[Story]) -> set[tuple]:
    """The tasks and items that are not the same in both."""
    if len(told) < 2:
        return set()
    one, other = (story.outcomes() for story in told)
    return {key for key in {**one, **other} if one.get(key) != other.get(key)}


def _parts_at(told: list[Story]) -> int | None:
    """The first place at which two logs differ, if they do."""
    if len(told) < 2:
        return None
    pairs = zip(*(story.entries for story in told))
    shorter = min(story.count for story in told)
    differ = max(story.count for story in told) > shorter
    return next((one.place for one, other in pairs if one.text != other.text), shorter if differ else None)


def _differences(told: list[Story], differing: set[tuple], place: int | None) -> Iterator[str]:
    if len(told) < 2:
        return
    if place is None:
        yield "<p>Both logs have the same entries.</p>"
        return
    names = [f"task {task}" for task in sorted(int(key[1]) for key in differing if key[0] == "task")]
    for job in sorted({int(key[1]) for key in differing if key[0] == "item"}):
        items = sorted(int(key[2]) for key in differing if key[:2] == ("item", str(job)))
        names.append(f"job {job} item{'s' if items[1:] else ''} {_ranges(items)}")
    yield f"<p>The logs have the same entries before place {place}, where a broken line stands.</p>"
    yield f"<p>Of another seat or other values (≠, with a broken border): {'; '.join(names) or 'no task and no item'}.</p>"


def _ranges(numbers: list[int]) -> str:
    """`1, 3 to 5`"""
    runs: list[list[int]] = []
    for number in numbers:
        if runs and number == runs[-1][-1] + 1:
            runs[-1].append(number)
        else:
            runs.append([number])
    return ", ".join(f"{run[0]} to {run[-1]}" if run[1:] else str(run[0]) for run in runs)


def _list(story: Story, told: list[Story]) -> Iterator[str]:
    """The entries, line by line, with their lines of the script."""
    others = [{entry.text for entry in other.entries} for other in told if other is not story]
    note = " (≠: the other log has no such entry)" if others else ""
    yield f"<details><summary>The entries of {escape(story.name)}{note}</summary><table><tr><th>entry</th><th>comes from</th></tr>"
    for entry in story.entries:
        is_other = others and entry.text not in others[0]
        row = '<tr class="other">' if is_other else "<tr>"
        yield f"{row}<td>{escape(entry.text)}</td><td>{escape(story.script.quoted(entry.line))}</td></tr>"
    yield "</table></details>"


class Drawing:
    """The drawing of a log."""

    def __init__(self, story: Story, columns: int, differing: set[tuple], parts_at: int | None):
        """`differing` are the tasks and items that are another in the other log, which differs from the place `parts_at` on."""
        self.story, self.differing, self.parts_at = story, differing, parts_at
        self.columns, self.step = columns, max(NARROWEST, min(WIDEST, WIDTH / columns))
        self.right = LEFT + self.columns * self.step
        self.base = TOP + story.seats * ROW
        self.height = self.base + CURVE + 24

    def svg(self) -> str:
        # What can be gone to stands in the order of the places.
        told = sorted([*self._spans(), *self._posts(), *self._marks()], key=lambda it: it[0])
        parts = [PATTERNS, *self._bands(), *self._axis(), *self._rows(), *self._flows(), *(part for _, part in told), *self._curve()]
        parts += [*self._parting(), *self._bad()]
        size = f'width="{self.right + 20:.0f}" height="{self.height}" viewBox="0 0 {self.right + 20:.0f} {self.height}"'
        return f'<svg {size} role="group" aria-label="{escape(self.story.name)}: seats by places">{"".join(parts)}</svg>'

    def _x(self, place: int | None) -> float:
        """Where a place begins. What has no end goes on to the end."""
        return LEFT + (self.story.count if place is None else place) * self.step

    def _y(self, seat: int) -> int:
        return TOP + seat * ROW

    def _said(self, entries: tuple, *before: str) -> str:
        """What is said of something that is made of these entries, as attributes."""
        quoted = dict.fromkeys(filter(None, (self.story.script.quoted(entry.line) for entry in entries)))
        says = escape("\n".join([*before, *(f"log: {entry.text}" for entry in entries), *quoted]))
        return f'tabindex="0" role="img" aria-label="{says}"'

    def _axis(self) -> Iterator[str]:
        yield f'<text x="4" y="{TOP - 6}" class="quiet">place</text>'
        every = next(it for it in (1, 2, 5, 10, 20, 50, 100, 200, 500, 10 ** 9) if it * self.step >= 8 * len(str(self.columns)) + 8)
        for place in range(0, self.columns, every):
            yield f'<text x="{self._x(place):.1f}" y="{TOP - 6}" class="quiet">{place}</text>'

    def _rows(self) -> Iterator[str]:
        for seat in range(self.story.seats):
            y = self._y(seat) + ROW - 8
            name = f"worker {seat}" if seat else "driver"
            yield f'<text x="4" y="{y - 12}">{name}</text><line x1="{LEFT}" x2="{self.right:.1f}" y1="{y}" y2="{y}" class="row"/>'

    def _bands(self) -> Iterator[str]:
        """Policies and shutdown, each as a band over all rows with its word above."""
        for word, y in (("policy", 12), ("shutdown", 28)):
            for begin, end, said in self.story.bands(word):
                x, width = self._x(begin), max(self.step, self._x(end) - self._x(begin))
                yield f'<rect x="{x:.1f}" y="{y - 10}" width="{width:.1f}" height="{self.base - y + 10}" class="band" opacity=".75"/>'
                at, anchor = (x + 3, "start") if x + LETTER * len(said) < self.right else (self.right, "end")
                yield f'<line x1="{x:.1f}" x2="{x:.1f}" y1="{y - 10}" y2="{self.base}" class="row"/>'
                yield f'<text x="{at:.1f}" y="{y + 2}" text-anchor="{anchor}">{escape(said)}</text>'

    def _flows(self) -> Iterator[str]:
        """A line from each post to the take of its task."""
        for task, post in self.story.posts.items():
            take = self.story.takes.get(task)
            if take:
                x, y = self._x(post.place) + 2, self._y(post.seat) + 8
                to, down = self._x(take.place) + 1, self._y(take.seat) + ROW - 8 - BAR / 2
                yield f'<path class="flow" d="M{x:.1f} {y}C{(x + to) / 2:.1f} {y} {(x + to) / 2:.1f} {down} {to:.1f} {down}"/>'

    def _spans(self) -> Iterator[tuple[int, str]]:
        for span in self.story.spans:
            yield span.begin, self._scope(span) if span.sort == "scope" else self._bar(span)

    def _bar(self, span: Span) -> str:
        """A task or an item."""
        x, y = self._x(span.begin), self._y(span.seat) + ROW - 8 - BAR
        width = max(self.step * 0.8, self._x(span.end) - x)
        differs = span.key in self.differing
        round_by, shape = (0 if span.sort == "item" else 6), f'y="{y}" height="{BAR}"'
        parts = [f'<rect class="bar" x="{x:.1f}" width="{width:.1f}" {shape} rx="{round_by}"/>']
        if span.sort == "item":
            parts.append(f'<rect class="over" x="{x:.1f}" width="{width:.1f}" {shape}/>')
        if span.sort == "main" and width > 8:
            parts.append(f'<rect class="inner" x="{x + 2.5:.1f}" y="{y + 2.5}" width="{width - 5:.1f}" height="{BAR - 5}" rx="4"/>')
        if differs:
            parts.append(f'<text x="{x + width / 2:.1f}" y="{y - 3}" text-anchor="middle">≠</text>')
        name = next((it for it in span.names if len(it) * LETTER + 5 <= width), None)
        if name:
            parts.append(f'<text x="{x + width / 2:.1f}" y="{y + 14}" text-anchor="middle">{name}</text>')
        says = self._said(span.entries, *self._words_on(span, differs))
        return f'<g class="{span.sort}{" differs" * differs}" {says}>{"".join(parts)}</g>'

    def _words_on(self, span: Span, differs: bool) -> Iterator[str]:
        """What is said of a task or an item before its entries."""
        until = "on, and does not end" if span.end is None else f"to {span.end}"
        sort = "main " if span.sort == "main" else ""
        other = ", and another in the other log" if differs else ""
        yield f"{sort}{span.names[0]} on seat {span.seat}, from place {span.begin} {until}{other}"
        if span.sort != "item":
            begun, *ended = span.entries
            post, home = self.story.posts.get(begun.rest[0]), "queue" if begun.word == "maintake" else "runner"
            left = f", left {ended[0].rest[1]}" if ended else ""
            posted = f", posted at place {post.place} by seat {post.seat}" if post else ""
            yield f"{home} {begun.rest[1]}, found {begun.rest[2]}{left}{posted}"
            number = self.story.script.declared.get((home, begun.rest[1]))
            yield self.story.script.quoted(number)

    def _scope(self, span: Span) -> str:
        x, y = self._x(span.begin), self._y(span.seat) + ROW - 16
        width = max(3.0, self._x(span.end) - x)
        says = f"scope of task {span.key[1]}: {span.names[0]}, from place {span.begin}"
        return f'<g class="scope" {self._said(span.entries, says)}><rect x="{x:.1f}" y="{y}" width="{width:.1f}" height="7"/></g>'

    def _posts(self) -> Iterator[tuple[int, str]]:
        for post in self.story.posts.values():
            x, y = self._x(post.place) + 2, self._y(post.seat)
            refused = post.rest[3] != "ok"
            says = f"task {post.rest[0]} is posted by seat {post.seat} at place {post.place}" + (", and refused" if refused else "")
            tick = f'<line class="post{" refused" * refused}" x1="{x:.1f}" x2="{x:.1f}" y1="{y}" y2="{y + 12}"/>'
            # There is room for the pointer beside the tick.
            room = f'<rect x="{x - 4:.1f}" y="{y}" width="8" height="13" opacity="0"/>'
            yield post.place, f"<g {self._said((post,), says)}>{tick}{room}</g>"

    def _marks(self) -> Iterator[tuple[int, str]]:
        for entry in self.story.entries:
            sign = SIGNS.get(entry.word)
            if sign:
                x, y = self._x(entry.place) + self.step / 2, self._y(entry.seat) + 7
                says = self._said((entry,), " ".join([entry.word, *entry.rest]))
                diamond = f'<path class="mark" d="M{x:.1f} {y - 7}l7 7l-7 7l-7 -7z"/>'
                letter = f'<text x="{x:.1f}" y="{y + 3.5}" text-anchor="middle" font-size="9">{sign}</text>'
                yield entry.place, f"<g {says}>{diamond}{letter}</g>"

    def _curve(self) -> Iterator[str]:
        """How many tasks of the pool wait, and how many run."""
        counts = list(self.story.counts())
        most = max([1, *(max(waiting, running) for _, waiting, running in counts)])
        top = self.base + 12
        for name, index in (("waiting", 1), ("running", 2)):
            steps = "".join(f"V{top + CURVE - CURVE * count[index] / most:.1f}H{self._x(count[0] + 1):.1f}" for count in counts)
            yield f'<path class="{name}" d="M{LEFT} {top + CURVE}{steps}"/>'
        yield f'<text x="4" y="{top + 12}">waiting</text><line class="waiting" x1="52" x2="84" y1="{top + 8}" y2="{top + 8}"/>'
        yield f'<text x="4" y="{top + 30}">running</text><line class="running" x1="52" x2="84" y1="{top + 26}" y2="{top + 26}"/>'
        yield f'<text x="4" y="{top + 46}" class="quiet">at most {most}</text>'

    def _parting(self) -> Iterator[str]:
        """From where on the other log differs."""
        if self.parts_at is not None:
            x = self._x(self.parts_at)
            yield f'<line class="parts" x1="{x:.1f}" x2="{x:.1f}" y1="{TOP - 16}" y2="{self.base}"/>'
            yield f'<text x="{x + 4:.1f}" y="{TOP - 20}">≠ from here on</text>'

    def _bad(self) -> Iterator[str]:
        """The place at which the log is wrong."""
        if self.story.faults:
            x, fault = self._x(None), self.story.faults[-1]
            says = escape("\n".join([f"illegal, at line {fault.line} of the log: {fault.words}", *fault.more]))
            yield (f'<g tabindex="0" role="img" aria-label="{says}"><rect class="bad" x="{x:.1f}" y="{TOP - 2}" '
                   f'width="{self.step:.1f}" height="{self.base - TOP}"/>'
                   f'<text class="badword" x="{x + self.step:.1f}" y="{TOP - 22}" text-anchor="end">✖ illegal</text></g>')
