#!/usr/bin/env python3
"""Whether include/jobtree.h declares the exported functions of crates/jobtree as they are: the types of their parameters, in order.

A name alone links: a parameter too many, or a pointer to a type that is too short, would show only when the call is made.
"""
import pathlib
import re
import sys

ROOT = pathlib.Path(__file__).resolve().parents[2]
NUMBERS = {'u8': 'uint8_t', 'u32': 'uint32_t', 'u64': 'uint64_t', 'i64': 'int64_t'}


def in_c(kind):
    """The types that C passes for a parameter of this type: a slice is an address and a count."""
    slice_of = re.fullmatch(r'&(mut )?\[(\w+)\]', kind)
    if slice_of:
        return [('' if slice_of[1] else 'const ') + NUMBERS[slice_of[2]] + ' *', 'uint64_t']
    number = re.fullmatch(r'&mut (\w+)', kind)
    if number:
        return [NUMBERS[number[1]] + ' *']
    return [NUMBERS[kind]]


def exported():
    found = {}
    for source in sorted((ROOT / 'crates/jobtree/src').glob('*.rt')):
        for name, parameters in re.findall(r'pub extern "C" fn (\w+)\(([^)]*)\) -> u32', source.read_text()):
            kinds = [each.split(':')[1].strip() for each in parameters.split(',') if each.strip()]
            found[name] = [c for kind in kinds for c in in_c(kind)]
    return found


def declared():
    found = {}
    header = (ROOT / 'include/jobtree.h').read_text()
    for name, parameters in re.findall(r'^uint32_t (jobtree_\w+)\(([^)]*)\);', header, re.M):
        found[name] = [re.sub(r'\w+$', '', ' '.join(each.split())).strip() for each in parameters.split(',')]
    return found


def main():
    library, header = exported(), declared()
    bad = 0
    for name in sorted(library.keys() | header.keys()):
        if library.get(name) != header.get(name):
            bad += 1
            print(f'{name}:')
            for where, kinds in (('crates/jobtree', library.get(name)), ('include/jobtree.h', header.get(name))):
                print(f'  {where}: ' + ('not there' if kinds is None else ', '.join(kinds)))
    print(f'{len(header)} declared, {len(library)} exported, {bad} different')
    return 1 if bad else 0


if __name__ == '__main__':
    sys.exit(main())
