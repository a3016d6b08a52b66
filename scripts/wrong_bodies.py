#!/usr/bin/env python3
"""Tries wrong bodies, each a change of a crate's code that the prover has to refuse: wrong_bodies.py [--gate] [CRATE ...]

A wrong body is an edit `wrong_bodies/CRATE/NAME.edit`: a line `file:`, and then pairs of lines `old:` and `new:`. Those of a crate that lie in
different functions are tried together, by one check of these functions alone, over the libraries that `rt ci` left in crates/*/out. Each
of the functions must be refused for an error of its own; one that calls another that is refused is tried once more alone. A line
`function:` names the function as the checker does, where it is not plain from the place of the change.

--gate tries those that wrong_bodies/gate.txt lists. Without a try, an edit whose `old:` line is not in its file is named. The last line is 'N passed, N failed'.
"""
import argparse
import concurrent.futures
import glob
import os
import re
import shutil
import subprocess
import sys
import tempfile

sys.dont_write_bytecode = True

from quick import ROOT, crate_of, kit_module, text_of  # noqa: E402

FUNCTION = re.compile(r'^(?P<indent> *)(?:pub(?:\([^)]*\))? )?(?:const |unsafe |extern "C" )*fn (?P<name>\w+)', re.M)
IMPL = re.compile(r'^impl(?:<[^{]*?>)? (?:(?P<trait>[\w:]+)(?:<[^{]*?>)? for )?(?P<type>\w+)', re.M)


def module_of(file):
    """The module that a file of a crate is, as the parts of its path."""
    parts = re.sub(r'^src/|/mod\.rt$|\.rt$', '', file).split('/')
    return [] if parts in (['lib'], ['main']) else parts


# What is said of a function that calls another which is not proved.
INFECTED = 'it calls `'


class BadEdit(Exception):
    """An edit that changes no function of the crate."""


class Edit:
    """A wrong body: the pairs of texts that it changes, by file, and the function that must be refused."""

    def __init__(self, path):
        self.crate, self.name = path.split('/')[-2], os.path.basename(path).removesuffix('.edit')
        self.pairs, self.function, file, old = [], None, None, None
        for line in text_of(path).split('\n'):
            word, _, rest = line.partition(': ')
            if word == 'file':
                file = rest
            elif word == 'old':
                old = rest
            elif line.startswith('new:'):
                self.pairs.append((file, old, rest))
            elif word == 'function':
                self.function = rest
        if not self.pairs:
            raise BadEdit(f'{path}: it has no pair of old: and new:')
        for file, old, _ in self.pairs:
            count = text_of(f'{ROOT}/crates/{self.crate}/{file}').count(old)
            if count != 1:
                raise BadEdit(f'{self}: an old: text is in {file} {count} times, and not once')
        self.function = self.function or self.found()

    def found(self):
        """The path of the function in which the first changed line stands."""
        file, old, _ = self.pairs[0]
        text = text_of(f'{ROOT}/crates/{self.crate}/{file}')
        at = text.index(old) + len(old)
        above = [it for it in FUNCTION.finditer(text) if it.start() < at]
        if not above:
            raise BadEdit(f'{self}: its first change is in no function')
        if not above[-1]['indent']:
            return '::'.join([*module_of(file), above[-1]['name']])
        impl = [it for it in IMPL.finditer(text) if it.start() < above[-1].start()][-1]
        if impl['trait']:
            return '::'.join([*module_of(file), impl['type'] + impl['trait'].split('::')[-1], above[-1]['name']])
        # (a method is named by the module that declares its type, wherever it is written)
        files = glob.glob(f'{ROOT}/crates/{self.crate}/src/**/*.rt', recursive=True)
        declared = [it for it in files if re.search(rf'^(pub(\([^)]*\))? )?(struct|enum) {impl["type"]}\b', text_of(it), re.M)]
        own = declared[0].split(f'/{self.crate}/')[1] if declared else file
        return '::'.join([*module_of(own), impl['type'], above[-1]['name']])

    def __str__(self):
        return f'{self.crate}/{self.name}'

    def apply(self, room):
        """Changes the files of a copy of the crate."""
        for file, old, new in self.pairs:
            text = text_of(f'{room}/{file}')
            if text.count(old) != 1:
                raise BadEdit(f'{self}: an old: text is in {file} {text.count(old)} times, and not once')
            with open(f'{room}/{file}', 'w', encoding='utf-8') as made:
                made.write(text.replace(old, new))


def batches(edits):
    """The edits in groups that can be tried together: those of different functions and lines."""
    groups = []
    for edit in edits:
        lines = {pair[:2] for pair in edit.pairs}
        for group in groups:
            if all(edit.function != it.function and not lines & {pair[:2] for pair in it.pairs} for it in group):
                group.append(edit)
                break
        else:
            groups.append([edit])
    return groups


def verdict(edit, said):
    """Why a try shows nothing of the edit, or None where its function is refused for an error of its own."""
    found = re.search(rf'^fn {edit.crate}::(?:\S*::)?{re.escape(edit.function)}: (.*)', said, re.M)
    if found is None:
        first = next((it for it in said.split('\n') if ': error' in it or 'error[' in it or it.startswith('error')), said[-600:])
        return f'{edit}: {edit.function} was not tried: {first}'
    is_refused = found[1] == 'not proved' or '`search` did not prove' in found[1]
    return None if is_refused and INFECTED not in found[1] else f'{edit}: {edit.function}: {found[1]}'


def tried(edits, jobs):
    """Tries edits of one crate together. Returns for each what went wrong, or None."""
    rtlib, crate = kit_module(), crate_of(edits[0].crate)
    with tempfile.TemporaryDirectory(prefix='wrong-') as room:
        for part in ('src', 'specs', 'proofs'):
            if os.path.isdir(f'{crate.folder}/{part}'):
                shutil.copytree(f'{crate.folder}/{part}', f'{room}/{part}')
        try:
            for edit in edits:
                edit.apply(room)
        except BadEdit as error:
            return [str(error)] * len(edits)
        flags = ['--jobs', str(jobs), *[word for edit in edits for word in ('--only', edit.function)]]
        words = [rtlib.RATTLE, 'check', *crate.words(flags, keeps=False)]
        ran = subprocess.run(words, cwd=room, stdin=subprocess.DEVNULL, stdout=subprocess.PIPE, stderr=subprocess.STDOUT, text=True, errors='replace')
    return [verdict(edit, ran.stdout) for edit in edits]


def tried_apart(edits, jobs):
    """Tries edits of one crate together, and those alone whose functions call others that are refused."""
    results = tried(edits, jobs)
    if len(edits) == 1:
        return results
    return [tried([edit], jobs)[0] if wrong and INFECTED in wrong else wrong for edit, wrong in zip(edits, results)]


def edits_of(crates, of_gate):
    """The edits to try: all, those of some crates, or those of the gate."""
    paths = sorted(glob.glob(f'{ROOT}/wrong_bodies/*/*.edit'))
    if of_gate:
        listed = [line for line in text_of(f'{ROOT}/wrong_bodies/gate.txt').split('\n') if line and not line.startswith('#')]
        paths = [f'{ROOT}/wrong_bodies/{it}.edit' for it in listed]
    edits = [Edit(path) for path in paths if not crates or path.split('/')[-2] in crates]
    lacking = sorted(set(crates) - {it.crate for it in edits})
    if lacking or not edits:
        raise BadEdit(f'there is no wrong body of {", ".join(lacking) or "any crate"}')
    return edits


def main():
    parser = argparse.ArgumentParser(description=__doc__.split('\n')[0])
    parser.add_argument('crates', nargs='*', metavar='CRATE')
    parser.add_argument('--gate', action='store_true', help='those that wrong_bodies/gate.txt lists')
    options = parser.parse_args()
    try:
        # (the lines of each edit have to be there, also of those that are not tried)
        all_edits = edits_of([], False)
        edits = edits_of(options.crates, options.gate) if options.crates or options.gate else all_edits
    except BadEdit as error:
        sys.exit(f'{error}\n0 passed, 1 failed')
    lacking = sorted({below.name for edit in edits for below in crate_of(edit.crate).below() if not os.path.isdir(below.rlib)})
    if lacking:
        sys.exit(f'{" ".join(lacking)}: not proved in this tree: run rt ci first\n0 passed, 1 failed')
    groups = [group for crate in sorted({it.crate for it in edits}) for group in batches([it for it in edits if it.crate == crate])]
    failed = 0
    with concurrent.futures.ThreadPoolExecutor(len(os.sched_getaffinity(0))) as pool:
        for group, results in zip(groups, pool.map(lambda group: tried_apart(group, 1), groups)):
            for edit, wrong in zip(group, results):
                print(f'NOT REFUSED {wrong}' if wrong else f'{edit}: refused in {edit.function}', flush=True)
                failed += wrong is not None
    print(f'{len(edits) - failed} passed, {failed} failed')
    sys.exit(1 if failed else 0)


if __name__ == '__main__':
    main()
