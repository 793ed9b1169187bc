"""The loop over cases that stand in a file as one JSON object a line. The arguments of the script are picc, the file of
cases, and the name that begins each printed line."""
import json
import subprocess
import sys

PICC, CASES, NAME = sys.argv[1:]


def ran(*words):
    """The status and the printed bytes of picc with these words."""
    run = subprocess.run((PICC,) + words, stdout=subprocess.PIPE, timeout=120)
    return run.returncode, run.stdout


def judged(judge, verdicts):
    """Runs all cases. `judge` has a case's number, counted from 1, and the case, and gives one of the verdicts, the last of which
    is that it differs, and how, or None. Each difference is printed, and at the end how many cases have each verdict. The answer
    is the exit status."""
    counts = dict.fromkeys(verdicts, 0)
    with open(CASES, encoding='utf-8') as file:
        for number, line in enumerate(file, 1):
            verdict, difference = judge(number, json.loads(line))
            counts[verdict] += 1
            if difference is not None:
                print(f'{NAME}: {difference}')
    print(f'{NAME}: ' + ', '.join(f'{counts[verdict]} {verdict}' for verdict in verdicts))
    return 1 if counts[verdicts[-1]] else 0
