"""Jobs of a check, in processes of their own, and what is told of them."""
from collections import Counter
from concurrent.futures import ProcessPoolExecutor

from interpreter import REACHED


def results(processes, one, work, chunk):
    """What each job gives, in order. With no processes all run in this one."""
    if processes > 0:
        with ProcessPoolExecutor(processes) as pool:
            yield from pool.map(one, work, chunksize=chunk)
    else:
        yield from map(one, work)


def tell_unreached(name, word=''):
    """Prints each clause of a definition that was never reached in this process, of those with this word in their names."""
    for definition, counts in sorted(REACHED.items()):
        never = [str(i + 1) for i, n in enumerate(counts) if n == 0]
        if never and word in definition:
            print('%s: never reached: %s, clause %s of %d' % (name, definition, ' '.join(never), len(counts)))


def told(name, answers):
    """Prints what differs, and how often what was counted, of answers that are a tally and a difference or None each. The answer is the exit
    status."""
    total, differ = Counter(), 0
    for tally, difference in answers:
        total.update(tally)
        if difference is not None:
            differ += 1
            print('%s: %s' % (name, difference), flush=True)
    print('%s: ' % name + ', '.join('%d %s' % (n, what) for what, n in sorted(total.items())) + ', %d differ' % differ)
    return 1 if differ else 0
