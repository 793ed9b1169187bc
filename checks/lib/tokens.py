"""Runs the definition of a program's tokens (`program_tokens` of picc_core, over those of c_token, c_pre and c_parse) on the texts of cases, and
compares what it refuses, with its line, with the answer of each case. Arguments: the files of cases, one JSON object a line. A case whose
answer is `ok`, or a refusal that comes behind the tokens, is one of a text that has tokens."""
import json
import re
import sys
import threading
from collections import Counter

from interpreter import definition

NAME = b'a.c'
OF_TOKENS = (1, 2, 3, 12)   # the numbers of refusals that a text's tokens may have: bad token, excluded word, bad directive, limit
# A definition that goes over a text byte by byte is as deep as the text is long.
STACK_BYTES = 1 << 29


def refused(text):
    """The line that tells why a text has no tokens, or None where it has some. The definitions of printed lines make it."""
    answer = definition('Rattle.picc_core.specs.Texts', 'program_tokens')(tuple(text.encode('latin-1')))
    if answer[0] == 'Ok':
        return None
    line = definition('Rattle.picc_cli.specs.Refusals', 'refusal_line')(tuple(NAME), answer[1][1])
    return bytes(line).decode('latin-1').rstrip('\n')


def wanted(want):
    """What has to be told of the tokens, by the answer of a case."""
    found = re.match(r'a\.c(?::\d+)?: error (\d+): ', want)
    return want if found and int(found.group(1)) in OF_TOKENS else None


def compared(case, total):
    """Runs a case. The answer says what differs, or is None."""
    try:
        told = refused(case['text'])
    except Exception as error:      # a definition without a clause for what came
        return 'the definition ends with %r' % error
    total['texts with tokens' if told is None else 'refused: ' + told.split(': ')[-1]] += 1
    if told != wanted(case['want']):
        return 'the definition says %r, wanted is %r' % (told, case['want'])
    return None


def main(names):
    total, count, differ = Counter(), 0, 0
    for name in names:
        with open(name, encoding='utf-8') as file:
            for count, line in enumerate(file, count + 1):
                case = json.loads(line)
                difference = compared(case, total)
                if difference is not None:
                    differ += 1
                    print('tokens: %s: %s\n%s' % (case['why'], difference, case['text'][:2000]))
    print('tokens: %d cases, ' % count + ', '.join('%d %s' % (n, what) for what, n in sorted(total.items())) + ', %d differ' % differ)
    is_whole = 0 < count == sum(total.values())
    if not is_whole:
        print('tokens: not all cases were run')
    return 0 if is_whole and differ == 0 else 1


def run_deep(function, *arguments):
    """Calls a function on a stack for deep recursion."""
    answers = []
    threading.stack_size(STACK_BYTES)
    thread = threading.Thread(target=lambda: answers.append(function(*arguments)))
    thread.start()
    thread.join()
    return answers[0] if answers else 1


if __name__ == '__main__':
    sys.exit(run_deep(main, sys.argv[1:]))
