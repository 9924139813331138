"""The books of counts and events balance: each atom that arrived was shown, or stood in a row that wasn't kept, or was
dropped, once the last report told all there was. What overflow rows gather is what was dropped."""
from session_text.layout import REPORT

from compared.counted import Count, Event
from compared.history import OVERFLOW


def worth(metric, row):
    """How many arrivals a row stands for."""
    return row.value if isinstance(metric, Count) else 1


def rows_told(metric):
    """All rows of a metric, kept or not, each with how often it came."""
    for shown in metric.reported:
        yield from ((row, 1) for row in shown.kept.rows)
        yield from shown.kept.unkept


def is_balanced(metric):
    """All that arrived at a metric is in what its reports had."""
    keyed = gathered = 0
    for row, times in rows_told(metric):
        if row.key == OVERFLOW:
            gathered += times * worth(metric, row)
        else:
            keyed += times * worth(metric, row)
    dropped = sum(shown.dropped for shown in metric.reported)
    if isinstance(metric, Count) and gathered != (dropped if metric.has_overflow else 0):
        return False
    return keyed + dropped == sum(arrived is not None for arrived in metric.told)


def unbalanced(instance):
    """The ids of the metrics of a configuration whose books don't balance. Nothing is said of one that isn't shown, nor
    where something still waits for a report."""
    last = instance.steps[-1]
    if last.kind != REPORT or not last.is_cut:
        return []
    shown = [one for one in instance.metrics if one.metric_id not in instance.tree.get("no_report", [])]
    return [one.metric_id for one in shown if isinstance(one, (Count, Event)) and not is_balanced(one)]
