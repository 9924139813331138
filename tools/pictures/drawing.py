"""Pictures of metrics by matplotlib: counts and values by bucket with a line a key, durations as stacked bars, gauges
as points, events as ticks, alarms as marks; what was turned away in red, and parts of buckets that were cut as such."""
import re
from collections import Counter, defaultdict

from session_text.faults import Fault

from .reading import Part

GREATEST = 10
RED, GREY = "#c1121f", "#888888"
MARK = "v"
COLORS = "#1f77b4 #ff7f0e #2ca02c #9467bd #8c564b #e377c2 #bcbd22 #17becf #393b79 #637939".split()
WIDTH, HEIGHT = 10, 2.6

SECOND = 10**9
UNITS = (("seconds", SECOND), ("minutes", 60 * SECOND), ("hours", 3600 * SECOND), ("days", 86400 * SECOND))
# A unit is left for the next one where more than so many of it stand on an axis.
MOST_OF_ONE = 300

NUMBER = re.compile(r"[^ =]+=(-?[0-9]+)(?= |$)")


def library():
    """The library that draws."""
    try:
        import matplotlib
    except ImportError:
        raise Fault("expected the library matplotlib (Debian: python3-matplotlib) for this Python") from None
    matplotlib.use("Agg")
    matplotlib.rcParams.update({"svg.hashsalt": "statsd", "svg.fonttype": "none", "font.size": 8})
    from matplotlib import pyplot

    return pyplot


def unit_for(nanos):
    """The unit of times, and how many nanoseconds it is."""
    for name, size in UNITS[:-1]:
        if nanos <= MOST_OF_ONE * size:
            return name, size
    return UNITS[-1]


def short(key):
    """A key as a legend shows it."""
    return key if len(key) <= 40 else key[:38] + " .."


def weights(parts):
    """How much each key has in all: numbers added up, or how often it comes."""
    found = Counter()
    for part in parts:
        found[part.key] += abs(part.value) if isinstance(part.value, int) else 1
    return found


def groups(parts):
    """The parts of the ten greatest keys, by key, the greatest first; and those of the rest, added up part by part."""
    found = weights(parts)
    chosen = [key for key, _ in sorted(found.items(), key=lambda one: (-one[1], one[0]))[:GREATEST]]
    by_key = {key: [] for key in chosen}
    rest = defaultdict(int)
    for part in parts:
        if part.key in by_key:
            by_key[part.key].append(part)
        elif isinstance(part.value, int):
            rest[part.begin, part.end] += part.value
    if len(found) > GREATEST:
        name = f"{len(found) - GREATEST} others, added up"
        by_key[name] = [Part(name, *place, value, False) for place, value in sorted(rest.items())]
    return by_key


def colors(keys):
    """A color for each key; grey for those that are added up."""
    return dict(zip(keys, [*COLORS, GREY]))


def steps(axes, drawn, by_key, unit, color):
    """Counts and values: a line a key, level over each bucket and broken where a bucket has no row; dotted where it was
    cut."""
    for key, parts in by_key.items():
        for is_cut, found in apart(parts):
            across, up, end = [], [], None
            for part in sorted(found, key=lambda one: one.begin):
                if end is not None and end != part.begin:
                    across.append(part.begin / unit)
                    up.append(float("nan"))
                across += [part.begin / unit, part.end / unit]
                up += [part.value, part.value]
                end = part.end
            axes.plot(across, up, ":" if is_cut else "-", color=color[key], linewidth=1.4, marker=".", markersize=3)
    axes.set_ylabel(drawn.kind)


def apart(parts):
    """The parts of whole buckets and those of buckets that were cut."""
    for is_cut in (False, True):
        found = [part for part in parts if part.is_cut is is_cut]
        if found:
            yield is_cut, found


def bars(axes, _drawn, by_key, unit, color):
    """Durations: stacked bars, hatched where a bucket was cut."""
    name, size = unit_for(max(part.value for parts in by_key.values() for part in parts))
    bottom = defaultdict(float)
    for key, parts in by_key.items():
        for is_cut, found in apart(parts):
            axes.bar(
                [part.begin / unit for part in found],
                [part.value / size for part in found],
                [(part.end - part.begin) / unit for part in found],
                [bottom[part.begin, part.end] for part in found],
                align="edge",
                color=color[key],
                edgecolor="white",
                linewidth=0.5,
                hatch="///" if is_cut else None,
            )
            for part in found:
                bottom[part.begin, part.end] += part.value / size
    axes.set_ylabel(name)


def number_of(part):
    """The first number among the fields of a sample; 0 where it has none."""
    found = NUMBER.search(str(part.value))
    return int(found[1]) if found else 0


def points(axes, _drawn, by_key, unit, color):
    """Gauges: a point a sample, in the middle of its bucket, at the first number among its fields; hollow where the
    bucket was cut."""
    for key, parts in by_key.items():
        for is_cut, found in apart(parts):
            axes.plot(
                [(part.begin + part.end) / 2 / unit for part in found],
                [number_of(part) for part in found],
                "o",
                markersize=4,
                markerfacecolor="none" if is_cut else color[key],
                color=color[key],
            )
    axes.set_ylabel("first number")


def ticks(axes, _drawn, by_key, unit, color):
    """Events: ticks on one axis of time, a color for each atom that comes often."""
    for key, parts in by_key.items():
        axes.vlines([part.begin / unit for part in parts], 0, 1, color=color[key], linewidth=0.8)
    axes.set_yticks([])
    axes.set_ylabel("events")


def alarms(axes, _drawn, by_key, unit, color):
    """Alarms of an alert: a mark for each, when it came, as high as its sum."""
    for key, parts in by_key.items():
        across, up = [part.begin / unit for part in parts], [part.value for part in parts]
        axes.plot(across, up, MARK, color=color[key], markersize=5)
    axes.set_ylim(0, max(part.value for parts in by_key.values() for part in parts) * 1.15)
    axes.set_ylabel("sum")


def marks(axes, drawn, unit, color):
    """The alarms on a metric: marks at the top, of the color of their keys."""
    for mark in drawn.marks:
        axes.plot(
            [mark.at / unit],
            [1],
            MARK,
            color=color.get(mark.key, GREY),
            markersize=5,
            transform=axes.get_xaxis_transform(),
            clip_on=False,
        )


DRAW = {"count": steps, "value": steps, "duration": bars, "gauge": points, "event": ticks, "alert": alarms}


def keyed(drawn):
    """The parts with the keys by which they are drawn: events by what they show."""
    if drawn.kind != "event":
        return drawn.parts
    return [part._replace(key=str(part.value)) for part in drawn.parts]


def totals(drawn):
    """How many were turned away in all, by what that was. What predicates and states turned away runs on from report
    to report, and isn't added up."""
    found = Counter()
    for one in drawn.turned:
        found[one.what] = found[one.what] + one.count if drawn.kind in DRAW else max(found[one.what], one.count)
    return found


def turned_away(axes, drawn, unit):
    """What was turned away: a red line for the time, with how many."""
    for one in drawn.turned:
        axes.axvspan(one.begin / unit, one.end / unit, 0, 0.02, color=RED, linewidth=0)
    told = ", ".join(f"{what.replace('_', ' ')} {count}" for what, count in totals(drawn).items())
    axes.text(1, 1.02, told, color=RED, ha="right", transform=axes.transAxes)


def legend(axes, pyplot, by_key, color, has_cuts, has_marks):
    """What is which color, and how a cut and an alarm show."""
    handles = [pyplot.Line2D([], [], color=color[key], linewidth=3, label=short(key)) for key in by_key]
    if has_cuts:
        handles.append(pyplot.Line2D([], [], color=GREY, linestyle=":", label="dotted, hatched, hollow: cut"))
    if has_marks:
        handles.append(pyplot.Line2D([], [], color=GREY, linestyle="", marker=MARK, label="an alarm"))
    axes.legend(handles=handles, loc="upper left", bbox_to_anchor=(1.01, 1), frameon=False, fontsize=7)


def draw(pyplot, axes, drawn, unit):
    """Draws a metric."""
    axes.set_title(drawn.title, loc="left", fontsize=9)
    by_key = groups(keyed(drawn)) if drawn.parts else {}
    color = colors(by_key)
    if drawn.parts:
        DRAW[drawn.kind](axes, drawn, by_key, unit, color)
    else:
        axes.set_yticks([])
    marks(axes, drawn, unit, color)
    if drawn.parts or drawn.marks:
        legend(axes, pyplot, by_key, color, any(part.is_cut for part in drawn.parts), bool(drawn.marks))
    if drawn.turned:
        turned_away(axes, drawn, unit)
    axes.spines[["top", "right"]].set_visible(False)


def span_of(page):
    """The first and the last time of all that is drawn."""
    times = [time for one in page.all() for part in [*one.parts, *one.turned] for time in (part.begin, part.end)]
    times += [mark.at for one in page.all() for mark in one.marks]
    return min(times, default=0), max(times, default=SECOND)


def figure(page, chosen):
    """A picture of these metrics of a page, one below the other over one axis of time."""
    pyplot = library()
    begin, end = span_of(page)
    name, unit = unit_for(end - begin)
    made, rows = pyplot.subplots(len(chosen), 1, sharex=True, squeeze=False, figsize=(WIDTH, HEIGHT * len(chosen)))
    for axes, drawn in zip(rows[:, 0], chosen):
        draw(pyplot, axes, drawn, unit)
    rows[-1, 0].set_xlabel(f"{name}, {page.time}")
    margin = max(end - begin, 1) / unit / 50
    rows[-1, 0].set_xlim(begin / unit - margin, end / unit + margin)
    made.tight_layout()
    return made


def saved(made, how, out):
    """Writes a picture as a kind of file, the same bytes each time, and lets go of it."""
    made.savefig(out, format=how, metadata={"Date": None} if how == "svg" else {"Software": None}, dpi=100)
    library().close(made)
