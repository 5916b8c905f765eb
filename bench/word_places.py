#!/usr/bin/env python3
"""The two tables by which `clif_words` finds a word's row at once, made from the rows themselves.

    python3 bench/word_places.py [--write]

`crates/clif_words/src` has the words in two tables, `OPCODES` of opcodes.rt and behind it `WORDS` of words.rt. This
prints `SHIFTS` and `PLACES` for them, or with `--write` puts them into words.rt. A word's sum takes its first, second
and last byte and its length, each times a factor of `FACTORS`. The sum modulo 64 chooses a shift, and the rest of the
sum and the shift modulo 256 the word's place, where `PLACES` has its number, counted through both tables. Two words
that follow each other there may have one sum: the place has the number of the first of them. The last but one is the
highest number, so that there is a next row to it. The words that share a shift get the first one that brings them to
places of their own, those with the most words first.

The prover checks that each row is found where these tables say, so a change of a row needs this script again. Where it
finds no shift, other factors are needed, here and in `find_row` and `sum_of`, its definition for the proof."""
import os
import re
import sys

FACTORS = 32, 127, 1, 3
SHIFTS = 64
PLACES = 256

SOURCES = os.path.join(os.path.dirname(__file__), '..', 'crates', 'clif_words', 'src')
OPCODES_FILE, WORDS_FILE = (os.path.join(SOURCES, name) for name in ('opcodes.rt', 'words.rt'))


def words_of(source, name):
    """The words of the table of this name, in their order."""
    table = re.search(r'pub const %s: .*?\n\];' % name, source, re.S).group(0)
    return re.findall(r'\(\s*"(\w+)"', table)


def sum_of(word):
    """A word's sum."""
    letters = word.encode()
    parts = letters[0], letters[1], letters[-1], len(letters) % 32
    return sum(factor * part for factor, part in zip(FACTORS, parts))


def tables(words):
    """The shifts, and the words' numbers by place; a free place has 0."""
    numbers = {}
    for number, word in enumerate(words):
        first = numbers.setdefault(sum_of(word), min(number, len(words) - 2))
        if number > first + 1:
            sys.exit('%s and %s have one sum' % (words[first], word))
    groups = [[] for _ in range(SHIFTS)]
    for total, number in numbers.items():
        groups[total % SHIFTS].append((total // SHIFTS, number))
    shifts, taken = [0] * SHIFTS, {}
    for group in sorted(range(SHIFTS), key=lambda g: -len(groups[g])):
        for shift in range(PLACES):
            places = [(rest + shift) % PLACES for rest, _ in groups[group]]
            if len(set(places)) == len(places) and not taken.keys() & set(places):
                break
        else:
            sys.exit('no shift is left for a group of %d words' % len(groups[group]))
        shifts[group] = shift
        taken.update(zip(places, (number for _, number in groups[group])))
    return shifts, [taken.get(place, 0) for place in range(PLACES)]


def constant(name, numbers):
    """A table as a constant of the source."""
    rows = [numbers[i:i + 16] for i in range(0, len(numbers), 16)]
    lines = ['    %s,\n' % ', '.join(map(str, row)) for row in rows]
    return 'pub const %s: [u8; %d] = [\n%s];\n' % (name, len(numbers), ''.join(lines))


def main():
    """Prints the tables, or puts them into words.rt."""
    with open(OPCODES_FILE) as file:
        opcodes = words_of(file.read(), 'OPCODES')
    with open(WORDS_FILE) as file:
        source = file.read()
    shifts, places = tables(opcodes + words_of(source, 'WORDS'))
    if '--write' not in sys.argv:
        print(constant('SHIFTS', shifts) + constant('PLACES', places), end='')
        return
    for name, numbers in ('SHIFTS', shifts), ('PLACES', places):
        source = re.sub(r'pub const %s: .*?\n\];\n' % name, constant(name, numbers), source, flags=re.S)
    with open(WORDS_FILE, 'w') as file:
        file.write(source)


if __name__ == '__main__':
    main()
