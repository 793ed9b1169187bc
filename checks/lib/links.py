"""Whether one run can follow another, as the specs of run_links have it: to each moment of the upper one belongs a place in the lower
one, and these rise; traces agree there, and between any two of them the lower one costs at most no more, and at least no less."""
from bisect import bisect_left, bisect_right


def columns(run, names):
    """Of each moment of a run the length of its trace, and what was counted by then under each name; without a name nothing."""
    at = [run.names.index(name) if name else None for name in names]
    moments = [(0, (0,) * len(run.names))] + run.moments
    return [length for length, _ in moments], *([counts[k] if k is not None else 0 for _, counts in moments] for k in at)


def unfollowed(upper, lower, most, least, from_start=False):
    """The first moment of the upper run to which no place belongs, or None. Given are the names of what the lower run is counted by;
    where one is None, that isn't compared. What it costs at least may be compared from the start alone.

    Of places of equal least cost only the last is kept, since it has all ways that the others have."""
    traces, dear, cheap = columns(upper, (most and 'most', least and 'least'))
    lengths, mosts, leasts = columns(lower, (most, least))
    places = [0]
    for i in range(1, len(traces)):
        if lower.end == 'goes' and traces[i] >= len(lower.events):
            return None     # the lower run was cut off there
        first, last = bisect_left(lengths, traces[i]), bisect_right(lengths, traces[i]) - 1
        found = {}
        for k in places:
            least_here = cheap[i] if from_start else leasts[k] + cheap[i] - cheap[i - 1]
            at = max(k, first, bisect_left(leasts, least_here))
            end = min(last, bisect_right(mosts, mosts[k] + dear[i] - dear[i - 1]) - 1)
            while at <= end:
                equal = min(end, bisect_right(leasts, leasts[at]) - 1)
                found[leasts[at]] = max(equal, found.get(leasts[at], 0))
                at = equal + 1
        if not found:
            return i
        places = sorted(found.values())
    rests = lower.end == 'still' and places[-1] == len(lengths) - 1
    return None if rests or upper.end != 'still' else len(traces) - 1
