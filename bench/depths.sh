#!/bin/sh
# Time and memory of `picc check` on images of 8,192 words. It tests nothing. It wants GNU time and Python 3.
# A line each: the image, the status if it isn't 0, seconds, the most memory in KB, and what is printed.
set -u
. "$(dirname -- "$0")/../checks/lib/common.sh" || exit 1
enter_folder
first_build

# A blank image; jumps from each address to the one before, from 0 to the last one, so that each word is reached from behind; the same with a
# call in place of each jump but the last, which is SLEEP, page by page; and eight calls within one another, of which each routine is all
# of NOP and a RETURN.
PYTHONDONTWRITEBYTECODE=1 python3 - <<'PY'
SIZE, PAGE = 8192, 2048
GOTO, CALL, RETURN, SLEEP, NOP, BLANK = 0x2800, 0x2000, 0x0008, 0x0063, 0x0000, 0x3FFF


def write(name, words):
    """A HEX file of an image (Intel, Hexadecimal Object File Format Specification)."""
    with open(name + '.hex', 'w', encoding='ascii') as file:
        for at in range(0, SIZE, 8):
            data = [byte for word in words[at:at + 8] for byte in (word & 0xFF, word >> 8)]
            record = [len(data), 2 * at >> 8, 2 * at & 0xFF, 0] + data
            file.write(':' + ''.join('%02X' % byte for byte in record + [-sum(record) & 0xFF]) + '\n')
        file.write(':00000001FF\n')


def backward():
    """0 jumps to the last word of page 0, and each word to the one before it, down to 1, which ends; pages behind are the same."""
    return [GOTO | (PAGE - 1) if at % PAGE == 0 else SLEEP if at % PAGE == 1 else GOTO | (at - 1) % PAGE for at in range(SIZE)]


def calling():
    """As backward jumps, with calls: each word calls the one before it."""
    return [word & ~GOTO | CALL if word & 0x3800 == GOTO else word for word in backward()]


def deepest():
    """Eight routines of 255 words in page 0, each of which ends in a call of the next one and RETURN; behind them erased words."""
    words = [NOP] * PAGE + [BLANK] * (SIZE - PAGE)
    words[0:2] = [CALL | 8, GOTO | 1]
    for k in range(8):
        end = 8 + 255 * (k + 1)
        words[end - 2:end] = [CALL | end, RETURN] if k < 7 else [NOP, RETURN]
    return words


write('blank', [BLANK] * SIZE)
write('backward', backward())
write('calling', calling())
write('deepest', deepest())
PY

for name in blank backward calling deepest; do
    figures=$(measured check "$name.hex")
    printf 'picc check %s.hex: %s; %s\n' "$name" "$(printf '%s' "$figures" | tr '\n' ' ')" "$(tail -n 1 printed)"
done
