"""Pictures and their tables as one page of HTML, which needs no network."""
import html
import io
import re

from .drawing import figure, saved, unit_for

# The most lines of a table.
MOST_LINES = 2000

STYLE = """
body { font: 14px/1.4 sans-serif; margin: 2em auto; max-width: 66em; padding: 0 1em; color: #222; background: #fff }
svg { width: 100%; height: auto }
table { border-collapse: collapse; font-size: 12px; margin: 0.5em 0 2em }
th, td { padding: 2px 10px; border-bottom: 1px solid #ddd; text-align: left; white-space: nowrap }
th { cursor: pointer; border-bottom: 2px solid #888 }
td.number { text-align: right; font-variant-numeric: tabular-nums }
.red { color: #c1121f }
details { margin-bottom: 2em }
"""
# A click on a name sorts by its column, and a second one the other way round.
SCRIPT = """
for (const head of document.querySelectorAll("th")) head.addEventListener("click", () => {
  const body = head.closest("table").tBodies[0], at = head.cellIndex, up = head.dataset.up !== "1";
  const value = row => { const cell = row.cells[at]; return cell.dataset.number ?? cell.textContent; };
  const numbers = [...body.rows].every(row => row.cells[at].dataset.number !== undefined);
  const sorted = [...body.rows].sort((one, other) => numbers
    ? Number(value(one)) - Number(value(other)) : value(one).localeCompare(value(other)));
  for (const other of head.parentNode.cells) delete other.dataset.up;
  head.dataset.up = up ? "1" : "0";
  body.append(...(up ? sorted : sorted.reverse()));
});
"""


def time_word(nanos):
    """A time as people read it, with its unit."""
    name, unit = unit_for(abs(nanos))
    return f"{nanos / unit:,.3f}".rstrip("0").rstrip(".") + f" {name[0] if name != 'minutes' else 'min'}"


def cell(name, value, kind):
    """A cell of a table. A number is sorted by what it is, and not by how it is shown."""
    if not isinstance(value, int):
        return f"<td>{html.escape(str(value))}</td>"
    is_time = name in ("from", "to", "at") or (kind == "duration" and name in ("value", "sum"))
    shown = time_word(value) if is_time else f"{value:,}"
    return f'<td class="number" data-number="{value}">{shown}</td>'


def table(columns, lines, kind=None):
    """A table."""
    head = "".join(f"<th>{html.escape(name)}</th>" for name in columns)
    rows = "".join("<tr>" + "".join(cell(*one, kind) for one in zip(columns, line)) + "</tr>\n" for line in lines)
    return f"<table><thead><tr>{head}</tr></thead><tbody>\n{rows}</tbody></table>"


def inline(page, drawn):
    """A picture inside of the page. Names inside of it are its own, since a page has several."""
    out = io.BytesIO()
    saved(figure(page, [drawn]), "svg", out)
    picture = out.getvalue().decode()
    picture = picture[picture.index("<svg") :]
    mark = re.sub(r"\W+", "-", drawn.title)
    picture = re.sub(r'\bid="', f'id="{mark}-', picture)
    picture = re.sub(r"url\(#", f"url(#{mark}-", picture)
    return re.sub(r'xlink:href="#', f'xlink:href="#{mark}-', picture)


def section(page, drawn):
    """A metric: its picture, what was turned away, and its table."""
    yield f"<h2>{html.escape(drawn.title)}</h2>"
    yield inline(page, drawn)
    if drawn.turned:
        columns = ("turned away", "from", "to", "how many")
        yield f'<div class="red">{table(columns, drawn.turned)}</div>'
    if drawn.table:
        lines = drawn.table[:MOST_LINES]
        more = f", of which the first {MOST_LINES} are shown" if len(drawn.table) > MOST_LINES else ""
        is_alert = drawn.kind == "alert"
        yield f"<details open><summary>{len(drawn.table)} {'alarms' if is_alert else 'rows'}{more}</summary>"
        yield table(page.alarm_columns if is_alert else page.columns, lines, drawn.kind)
        yield "</details>"


def page_lines(page):
    """The lines of a page."""
    title = html.escape(page.title)
    yield "<!DOCTYPE html>"
    yield f'<html lang="en"><head><meta charset="utf-8"><title>{title}</title>'
    yield f'<link rel="icon" href="data:,"><style>{STYLE}</style></head><body>'
    yield f"<h1>{title}</h1>"
    yield from (f"<p>{html.escape(note)}</p>" for note in page.notes)
    if not page.all():
        yield "<p>No report has a row.</p>"
    for drawn in page.all():
        yield from section(page, drawn)
    yield f"<script>{SCRIPT}</script></body></html>"


def page_text(page):
    """A page as bytes."""
    return "\n".join(page_lines(page)).encode() + b"\n"
