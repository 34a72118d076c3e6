#!/usr/bin/env python3
"""Random stores given to crates/test_damaged, its verdicts compared with those of reader.py.

  python3 tests/store/random_damage.py COUNT SEED [PROGRAM]

PROGRAM is crates/test_damaged/out/test_damaged where none is given, which `rt run <stdin` in crates/test_damaged makes. The same COUNT and
SEED make the same lines. Writes how many stores were accepted and refused, by the lowest rule that is broken; ends with 1 where a verdict
differs.
"""
import random
import subprocess
import sys
from collections import Counter

sys.dont_write_bytecode = True

from damaged_expected import answer, top
from damages import damaged
from draft import line

# The program reads so many bytes, and this many fields of a line.
INPUT = 65536
FIELDS = 4096
SHOWN = 5


def made_lines(count, rng):
    """Lines with the answer to each. No line says which rule it is about, as that is what is worked out here."""
    for i in range(count):
        text = None
        while text is None or len(text) >= INPUT or text.count(' ') > FIELDS:
            text = line(*damaged(rng), 0, f'case {i}')
        yield text, *answer(text)


def batches(lines):
    """As many lines as the program reads."""
    held, size = [], 0
    for each in lines:
        if size + len(each[0]) + 1 > INPUT:
            yield held
            held, size = [], 0
        held.append(each)
        size += len(each[0]) + 1
    if held:
        yield held


def answers(program, lines):
    """What the program writes for the lines, after what stands before the first."""
    done = subprocess.run([program], input='\n'.join(lines) + '\n', stdout=subprocess.PIPE, text=True, check=True)
    return done.stdout.splitlines()


def compare(program, batch, tally, differ):
    written = answers(program, [text for text, _, _ in batch])
    before = top()
    if written[:len(before)] != before or len(written) != len(before) + len(batch):
        sys.exit(f'{program} does not write one line for each case, behind tree K')
    for (text, found, wanted), got in zip(batch, written[len(before):]):
        if got != wanted:
            differ.append((text, found, wanted, got))
        else:
            tally[found[0] if found else 0, len(found) == 1] += 1


def show(count, tally, differ):
    accepted = tally[0, False]
    print(f'{count} stores: {accepted} accepted by both ({100 * accepted / count:.1f} %)')
    print('lowest rule broken   refused by both   no other rule broken')
    for rule in range(1, 10):
        alone = tally[rule, True]
        print(f'{rule:18}   {alone + tally[rule, False]:15}   {alone:20}')
    print(f'{len(differ)} differ')
    for text, found, wanted, got in differ[:SHOWN]:
        print(f'  {text}\n    rules broken: {found}; wanted: {wanted}; got: {got}')


def main():
    if len(sys.argv) not in (3, 4):
        sys.exit(__doc__)
    count, seed = int(sys.argv[1]), int(sys.argv[2])
    program = sys.argv[3] if len(sys.argv) == 4 else 'crates/test_damaged/out/test_damaged'
    tally, differ = Counter(), []
    for batch in batches(made_lines(count, random.Random(seed))):
        compare(program, batch, tally, differ)
    show(count, tally, differ)
    sys.exit(1 if differ else 0)


if __name__ == '__main__':
    main()
