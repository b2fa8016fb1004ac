"""Runs random scripts here and in CPython, and tells the differences: what tools/differential/run has CPython 3.14 do.

  comparing.py SUBPY SEED COUNT KIND ..
"""

import collections
import functools
import random
import subprocess
import sys
import time

import meaning
from flow import nestings
from modules import exchanges
from order import orders
from profiling import is_within
from reading import texts
from values import edges

KINDS = {'values': edges, 'flow': nestings, 'order': orders, 'module': exchanges, 'reading': texts}
TURNS = '3000000'
SECONDS = 60
SECONDS_TO_MINIMISE = 15
MOST_DIFFERENCES = 3
MOST_FRAMES = 12_000
MODEL, PLAIN = 'by docs/LANGUAGE.md', 'CPython as it is'

# a script, its outputs by where they come from, and what compares another script in the same way
Difference = collections.namedtuple('Difference', ('script', 'outputs', 'compare'))


class LeftOut(Exception):
    """The script takes too long, here or there."""


def is_python(text):
    try:
        compile(text, 'text', 'exec')
    except (SyntaxError, ValueError):
        return False
    return True


def joined(lines):
    return ''.join(f'{line}\n' for line in lines)


class Comparing:
    def __init__(self, subpy):
        self.subpy, self.counts = subpy, collections.Counter()

    def answer(self, words, text):
        try:
            done = subprocess.run([self.subpy, *words, '-'], input=text.encode(), capture_output=True, timeout=SECONDS)
        except subprocess.TimeoutExpired:
            raise LeftOut from None
        return (done.stdout or done.stderr).decode('utf-8', 'replace')

    def with_model(self, script):
        """The difference of a script here from the model, or None; and the model."""
        model = meaning.by_the_rules(script)
        report = model and self.answer(['serial', '--turns', TURNS], script)
        if model is None or report.endswith('end: spent\n'):
            raise LeftOut
        self.counts['lines'] += report.count('\n')
        outputs = {MODEL: model.report(), 'subpy': report}
        return None if report == model.report() else Difference(script, outputs, self.of_script), model

    def with_plain(self, script, lines, limit=None):
        """The difference of the model's lines, up to the limit, from those of CPython as it is."""
        plain = meaning.as_it_is(script)
        if plain is None:
            raise LeftOut
        self.counts['plain'] += len(lines[:limit])
        outputs = {MODEL: ''.join(lines[:limit]), PLAIN: ''.join(plain[:limit])}
        return None if outputs[MODEL] == outputs[PLAIN] else Difference(script, outputs, self.of_script)

    def of_script(self, script):
        if not is_python(script):
            raise LeftOut
        difference, model = self.with_model(script)
        if difference or model.is_costly or 'import' in script:
            return difference
        lines = model.interpreters[0].printed + model.interpreters[0].raised
        return self.with_plain(script, lines, min(model.differences, default=None))

    def of_parts(self, start, parts):
        """The difference of a script whose parts print a line each: CPython as it is runs those that it may."""
        difference, model = self.with_model(start + joined(parts))
        if difference or len(model.printed) != len(parts):
            return difference
        same = [at for at in range(len(parts)) if at not in model.differences]
        return self.with_plain(start + joined(parts[at] for at in same), [model.printed[at] for at in same])

    def of_text(self, start, text):
        """The difference in whether a text is read, or in what it means."""
        self.counts['texts'] += 1
        told = self.answer(['check'], text)
        wanted = is_python(text) and is_within(text)
        if wanted is None:
            raise LeftOut
        if (told == 'ok\n') != wanted:
            outputs = {MODEL: 'read' if wanted else 'refused', 'subpy': told}
            return Difference(text, outputs, functools.partial(self.of_text, ''))
        return self.of_script(start + text) if wanted else None

    def minimised(self, difference, pieces):
        """The same difference with as few of these pieces as may be."""
        size, until = len(pieces), time.monotonic() + SECONDS_TO_MINIMISE
        counts = self.counts.copy()
        while size >= 1 and time.monotonic() < until:
            at, before = 0, len(pieces)
            while at < len(pieces) and time.monotonic() < until:
                fewer = pieces[:at] + pieces[at + size:]
                found = self.found([functools.partial(difference.compare, joined(fewer))])
                is_same = found and found[0].outputs.keys() == difference.outputs.keys()
                difference, pieces = (found[0], fewer) if is_same else (difference, pieces)
                at += 0 if is_same else size
            size = size // 2 if size > 1 or len(pieces) == before else 1
        self.counts = counts
        return difference

    def of_seed(self, kind, seed):
        """The differences that come of one seed."""
        made = KINDS[kind](random.Random(f'{kind} {seed}'))
        self.counts['scripts'] += 1
        if kind == 'reading':
            found = self.found([functools.partial(self.of_text, *it) for it in made])
        else:
            start, parts = made
            whole = functools.partial(self.of_script, start + joined(parts))
            found = self.found([functools.partial(self.of_parts, *made) if kind == 'values' else whole])
            found = [self.minimised(it, [*start.splitlines(), *parts]) for it in found]
        return [self.minimised(it, it.script.splitlines()) for it in found]

    def found(self, comparisons):
        """The differences that these comparisons find."""
        differences = []
        for compare in comparisons:
            try:
                differences.append(compare())
            except LeftOut:
                self.counts['left out'] += 1
        return [it for it in differences if it]


def shown(kind, seed, difference):
    parts = {f'{kind}, seed {seed}': difference.script, **difference.outputs}
    return ''.join(f'-- {name}\n{text.rstrip()}\n' for name, text in parts.items())


def main():
    subpy, seed, count, *kinds = sys.argv[1:]
    sys.setrecursionlimit(MOST_FRAMES)
    sys.set_int_max_str_digits(0)
    sys.stdout.reconfigure(errors='backslashreplace')
    comparing, found = Comparing(subpy), collections.Counter()
    for kind in kinds:
        for number in range(int(seed), int(seed) + int(count)):
            for difference in comparing.of_seed(kind, number):
                print(shown(kind, number, difference), flush=True)
                found[kind] += 1
            if found[kind] >= MOST_DIFFERENCES:
                print(f'no more differences of {kind} are looked for')
                break
    told = '{scripts} scripts, {texts} texts: {lines} lines compared by docs/LANGUAGE.md, {plain} with CPython as it is'
    print(told.format_map(comparing.counts) + f'; {comparing.counts["left out"]} left out, {found.total()} differences')
    return 1 if found else 0


if __name__ == '__main__':
    sys.exit(main())
