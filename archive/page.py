"""The page that shows a run: counts, the files that were not read in groups of which the same is wrong, and a drawing of sizes and times."""

from __future__ import annotations

import collections
import html
import math
import re
from typing import Dict, Iterable, Iterator, List, NamedTuple, Tuple

from .model import FAULTY, MOST_FAULTS, READ, STATUSES, UNTRIED, Finding
from .tables import FAULTS, RESULTS, escaped, readable, replaced

# The most faults that are shown, and of one group; the tables tell the rest.
ROWS, ROWS_OF_GROUP = 5000, 500
# How many files are named that have more faults than are told.
CUT = 20
# What a sentence has of one file alone.
OF_ONE_FILE = re.compile(r"'(?:[^']|'')*'|#?\d+")
# How a person is told a status.
WORDS = {READ: 'read', FAULTY: 'faulty', UNTRIED: 'not checked'}
UNITS = ((1e9, 'GB'), (1e6, 'MB'), (1e3, 'kB'), (1, 'B'))
# The drawing in pixels, the sides of a cell in it, and what is left of its edges for the numbers.
WIDTH, HEIGHT, CELL = 880, 360, 4
LEFT, RIGHT, TOP, BOTTOM = 70, 30, 10, 40
LEAST_SECONDS = 1e-4

STYLE = '''
:root { color-scheme: light dark; --text: #222; --soft: #555; --back: #fff; --line: #e0e0e0; --read: #2b6cb0; --faulty: #c53030; --untried: #975a16 }
@media (prefers-color-scheme: dark) {
  :root { --text: #e4e4e4; --soft: #aaa; --back: #161616; --line: #3a3a3a; --read: #63a4e8; --faulty: #f27878; --untried: #d9a441 }
}
body { font: 15px/1.45 system-ui, sans-serif; color: var(--text); background: var(--back); max-width: 1100px; margin: 1.5em auto; padding: 0 1em }
a { color: inherit } h1 { font-size: 1.5em } h2 { font-size: 1.15em; margin-top: 2em } summary { cursor: pointer; padding: .35em 0; overflow-wrap: anywhere }
table { border-collapse: collapse } td, th { padding: .25em .8em .25em 0; text-align: left; vertical-align: top; border-bottom: 1px solid var(--line) }
.beside { display: flex; flex-wrap: wrap; gap: 0 4em } td.number { text-align: right; font-variant-numeric: tabular-nums }
details { border-bottom: 1px solid var(--line) } details div { margin: 0 0 .6em 1em; overflow-wrap: anywhere }
pre { margin: .2em 0 0; font-size: 12px; color: var(--soft); overflow-x: auto } .hidden { display: none }
input { font: inherit; width: 100%; max-width: 30em; box-sizing: border-box; padding: .3em .5em; margin: .3em 0 .8em }
svg { max-width: 100%; height: auto } text { font-size: 12px; fill: var(--soft) } line { stroke: var(--line) }
.read { color: var(--read); fill: var(--read) } .faulty { color: var(--faulty); fill: var(--faulty) } .untried { color: var(--untried); fill: var(--untried) }
'''

# Shows the files and groups alone in which the words of the search field stand.
SCRIPT = '''
const field = document.getElementById('search');
field.addEventListener('input', () => {
  const words = field.value.toLowerCase().split(/\\s+/).filter(it => it);
  for (const group of document.querySelectorAll('details')) {
    const title = group.firstElementChild.textContent.toLowerCase();
    let found = 0;
    for (const file of group.querySelectorAll('div')) {
      const text = title + ' ' + file.textContent.toLowerCase();
      const has = words.every(it => text.includes(it));
      file.classList.toggle('hidden', !has);
      found += has;
    }
    group.classList.toggle('hidden', !found);
  }
});
'''

PAGE = '''<!DOCTYPE html>
<html lang="en">
<head>
<meta charset="utf-8">
<meta name="viewport" content="width=device-width, initial-scale=1">
<meta http-equiv="Content-Security-Policy" content="default-src 'none'; style-src 'unsafe-inline'; script-src 'unsafe-inline'">
<title>STEP files: {summary}</title>
<style>{style}</style>
</head>
<body>
<h1>{summary}</h1>
<p>{size} in {seconds}. All rows are in <a href="{results}">{results}</a>, all that is wrong in <a href="{faults}">{faults}</a>.</p>
<div class="beside">
<div><h2>By status and kind</h2>
<table>
<tr><th>Status</th><th>Kind</th><th>Files</th></tr>
{kinds}</table></div>
<div><h2>By schema</h2>
<table>
<tr><th>Schema</th><th>Read</th><th>Faulty</th><th>Not checked</th></tr>
{schemas}</table></div>
</div>
<h2>What is wrong</h2>
{faulty}
<h2>Sizes and times</h2>
{drawing}
</body>
</html>
'''


def summary(findings: List[Finding]) -> str:
    """How many files there are of each status, and how many faults, where all were asked for."""
    counts = collections.Counter(it.status for it in findings)
    faults = [it.faults for it in findings if it.faults is not None]
    return '%d files: %s%s' % (len(findings), ', '.join('%d %s' % (counts[it], WORDS[it]) for it in STATUSES), '; %d faults' % sum(faults) if faults else '')


def size(count: float) -> str:
    """A number of bytes, in the unit in which it has few digits."""
    value, unit = next(((value, unit) for value, unit in UNITS if count >= value), (1, 'B'))
    return '%.3g %s' % (count / value, unit)


def time(seconds: float) -> str:
    """A time in the unit in which it has few digits."""
    if seconds < 1:
        return '%.3g ms' % (seconds * 1000)
    return '%.3g s' % seconds if seconds < 1000 else '%d min' % (seconds / 60)


def shown(text: str) -> str:
    """A text of a page."""
    return html.escape(readable(text))


def number(count: int) -> str:
    """A cell with a number."""
    return '<td class="number">%d</td>' % count


def kinds(findings: Iterable[Finding]) -> Iterator[str]:
    """The rows of the table of kinds, the largest number of each status first. A file with faults of several kinds counts for each of them."""
    counted = collections.Counter(key for it in findings for key in {(fault.status, fault.kind) for fault in it.each()})
    for (status, kind), count in sorted(counted.items(), key=lambda it: (STATUSES.index(it[0][0]), -it[1], it[0])):
        yield '<tr><td class="%s">%s</td><td>%s</td>%s</tr>\n' % (status, WORDS[status], shown(kind), number(count))


def schemas(findings: Iterable[Finding]) -> Iterator[str]:
    """The rows of the table of schemas: how many files of each status name it."""
    counted: Dict[str, collections.Counter] = collections.defaultdict(collections.Counter)
    for it in findings:
        counted[it.schema][it.status] += 1
    for schema in sorted(counted):
        yield '<tr><td>%s</td>%s</tr>\n' % (shown(escaped(schema)) or '(none)', ''.join(number(counted[schema][it]) for it in STATUSES))


def shape(finding: Finding) -> Tuple[str, str, str]:
    """What makes files one group: the status, the kind, and the sentence without what stands for one file alone: numbers, and what is quoted."""
    return finding.status, finding.kind, OF_ONE_FILE.sub('', finding.sentence)


def cut(findings: Iterable[Finding]) -> List[Finding]:
    """The files that have more faults than are told."""
    return [it for it in findings if it.faults is not None and it.faults > 1 + len(it.more)]


def cut_files(findings: List[Finding]) -> str:
    """Says of which files not all faults are told."""
    files = cut(findings)
    if not files:
        return ''
    told = ', '.join('%s (%d)' % (shown(escaped(it.file)), it.faults) for it in files[:CUT])
    return '<p>Of %d file%s with more faults only the first %d are told: %s%s.</p>\n' % (
        len(files), 's' * (len(files) > 1), MOST_FAULTS, told, ', ..' if len(files) > CUT else '')


def faulty_row(finding: Finding) -> str:
    """A fault, or a file that was not tried, as a row of its group."""
    place = '' if finding.line is None else ':%d:%d' % (finding.line, finding.column)
    line = '<pre>%s</pre>' % shown(finding.shown) if finding.shown else ''
    return '<div>%s%s: %s%s</div>\n' % (shown(escaped(finding.file)), place, shown(finding.sentence), line)


def group(rows: List[Finding], files: int) -> str:
    """Faults that are the same, or files that were not tried for the same reason, of which at most so many are shown, below the first of them."""
    first, named = rows[0], len({it.file for it in rows})
    more = '<p>%d more are in %s.</p>' % (len(rows) - files, FAULTS) if len(rows) > files else ''
    files_told = '%s%d file%s%s' % ('%d times in ' % len(rows) if len(rows) > named else '', named, 's' * (named > 1),
                                    ', for example' * any(it.sentence != first.sentence for it in rows))
    return '<details><summary><span class="%s">%s</span>: %s: %s</summary>\n%s%s</details>\n' % (
        first.status, shown(first.kind), files_told, shown(first.sentence),
        ''.join(map(faulty_row, rows[:files])), more)


def faulty(findings: List[Finding]) -> str:
    """The files that were not read, in groups, the largest first, the faulty ones before the others."""
    groups: Dict[Tuple[str, str, str], List[Finding]] = {}
    for it in (it for finding in findings for it in finding.each()):
        if it.status != READ:
            groups.setdefault(shape(it), []).append(it)
    if not groups:
        return '<p>Nothing.</p>'
    ordered = sorted(groups.values(), key=lambda rows: (STATUSES.index(rows[0].status), -len(rows)))
    told, left = [], ROWS
    for rows in ordered:
        if left <= 0:
            break
        told.append(group(rows, min(left, ROWS_OF_GROUP)))
        left -= min(len(rows), ROWS_OF_GROUP)
    more = '<p>%d more groups are in %s.</p>' % (len(ordered) - len(told), FAULTS) if len(ordered) > len(told) else ''
    return '<input id="search" type="search" placeholder="Search files and faults" aria-label="Search files and faults">\n%s%s%s\n<script>%s</script>' % (
        cut_files(findings), ''.join(told), more, SCRIPT)


class Scale(NamedTuple):
    """A scale by powers of ten, from `low` to `high`, along so many pixels from `start`."""

    low: int
    high: int
    start: int
    length: int

    @classmethod
    def over(cls, values: List[float], start: int, length: int) -> Scale:
        """The least scale that has these values, which are above 0."""
        low = math.floor(math.log10(min(values)))
        return cls(low, max(low + 1, math.ceil(math.log10(max(values)))), start, length)

    def at(self, value: float) -> float:
        """The place of a value."""
        return self.start + (math.log10(value) - self.low) / (self.high - self.low) * self.length

    def ticks(self) -> List[float]:
        """The powers of ten on it."""
        return [10.0 ** it for it in range(self.low, self.high + 1)]


def cells(points: Iterable[Tuple[float, float, str]]) -> Iterator[str]:
    """Points gathered in cells, which are the darker the more there are."""
    counted = collections.Counter((status, int(x // CELL), int(y // CELL)) for x, y, status in points)
    for (status, x, y), count in sorted(counted.items()):
        yield '<rect class="%s" x="%d" y="%d" width="%d" height="%d" opacity="%.2f"/>\n' % (
            status, x * CELL, y * CELL, CELL, CELL, min(1, 0.35 + math.log10(count) / 3))


def axes(sizes: Scale, times: Scale) -> Iterator[str]:
    """The lines and numbers of both scales."""
    for value in sizes.ticks():
        x = sizes.at(value)
        yield '<line x1="%.1f" x2="%.1f" y1="%d" y2="%d"/><text x="%.1f" y="%d" text-anchor="middle">%s</text>\n' % (
            x, x, TOP, HEIGHT - BOTTOM, x, HEIGHT - BOTTOM + 18, size(value))
    for value in times.ticks():
        y = times.at(value)
        yield '<line x1="%d" x2="%d" y1="%.1f" y2="%.1f"/><text x="%d" y="%.1f" text-anchor="end">%s</text>\n' % (
            LEFT, WIDTH - RIGHT, y, y, LEFT - 8, y + 4, time(value))


def drawing(findings: List[Finding]) -> str:
    """The times of the files that were tried, by their sizes."""
    tried = [(it.bytes, max(it.seconds, LEAST_SECONDS), it.status) for it in findings if it.status != UNTRIED and it.bytes]
    if not tried:
        return '<p>No file was checked.</p>'
    sizes = Scale.over([it[0] for it in tried], LEFT, WIDTH - LEFT - RIGHT)
    times = Scale.over([it[1] for it in tried], HEIGHT - BOTTOM, TOP + BOTTOM - HEIGHT)
    points = ((sizes.at(it[0]), times.at(it[1]), it[2]) for it in tried)
    return '<svg viewBox="0 0 %d %d" width="%d" height="%d" role="img" aria-label="times by sizes">\n%s%s</svg>\n%s' % (
        WIDTH, HEIGHT, WIDTH, HEIGHT, ''.join(axes(sizes, times)), ''.join(cells(points)),
        '<p>Seconds of a file by its bytes, packed where it is packed: <span class="read">read</span>, <span class="faulty">faulty</span>.</p>')


def write(path: str, findings: List[Finding], seconds: float) -> None:
    """Writes the page of a run that took so long."""
    with replaced(path) as file:
        file.write(PAGE.format(
            style=STYLE, summary=summary(findings), size=size(sum(it.bytes for it in findings)), seconds=time(seconds), results=RESULTS, faults=FAULTS,
            kinds=''.join(kinds(findings)), schemas=''.join(schemas(findings)), drawing=drawing(findings), faulty=faulty(findings)))
