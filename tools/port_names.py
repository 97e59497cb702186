#!/usr/bin/env python3
"""tools/port_names.py: brings this repository's own definitions and lemmas to today's spelling, once, after the toolchain's port.py: words in snake case, with no dash.

The names are those that a file of specs/ or of proofs/*.antt declares. Functions of src/, types, modules, strings, inputs and outputs keep their names. Where a lemma would then
have the name of a definition it gets `_lem` at its end; nothing else falls together (the script stops where it would)."""
import collections
import glob
import os
import re
import sys

IDENT = r"[A-Za-z_][A-Za-z0-9_'₀-₉]*(?:-[A-Za-z0-9_'₀-₉]+)*"
WORD = re.compile(rf"(?<![\w'₀-₉-]){IDENT}(?![\w'₀-₉-])")
SIGNATURE = re.compile(r"^ *(?:abbrev |unfoldable |pub )*([^\s:(){}]+(?: [^\s:(){}]+)*) :", re.M)
# names of variables, and of an import, that no signature declares
LOCAL = 'midCall noAnswer inBounds refusalOf feederOf headerText'.split()
# one name for things that no file holds together: a field and a definition, lemmas of two crates
SHARED = {'by_itself', 'in_range', 'pair_at'}
# a lemma of the same name as such a field
LEMMAS = {'in-range'}
# entry points that would have the name of the definition that says what they answer
ENTRY_POINTS = {'read-item': 'reads_item', 'read-item-at': 'reads_item_at', 'read-profile': 'reads_profile', 'early-of': 'says_early'}


def is_camel(part):
    return re.match(r"[a-z][a-z0-9_']*[A-Z]", part)


def snake(name):
    def word(part):
        return re.sub(r"(?<=[a-z0-9_'])[A-Z]", lambda m: '_' + m[0].lower(), part) if is_camel(part) else part
    return '_'.join(word(part) for part in name.split('-'))


def is_proof_of_function(path):
    """Paths there (`c.read-item.ensures`) name steps of the code, and no definition."""
    return path.endswith('.antt') and not re.search(r'/(specs|proofs)/[^/]+\.antt$', path)


def files():
    return sorted(f for f in glob.glob('crates/**/*', recursive=True) if f.endswith(('.antt', '.rt')) and '/out/' not in f)


def read(path):
    with open(path, encoding='utf-8') as file:
        return file.read()


def new_names():
    """Each name that changes with what it becomes, and the crates that declare a name."""
    crates = collections.defaultdict(set, {n: {'crates/'} for n in LOCAL})
    for path in files():
        if re.search(r'/(specs|proofs)/[^/]+\.antt$', path):
            for m in SIGNATURE.finditer(read(path)):
                for name in m[1].split():
                    if re.fullmatch(IDENT, name):
                        crates[name].add(path[:path.index('/', len('crates/'))] + '/')
    becomes = collections.defaultdict(set)
    for name in crates:
        becomes[snake(name)].add(name)
    new = dict(ENTRY_POINTS)
    for to, names in becomes.items():
        names = names - ENTRY_POINTS.keys()
        definition = [n for n in names if is_camel(n)]
        for name in names:
            is_lemma = name in LEMMAS or (len(names) > 1 and definition and name not in definition and to not in SHARED)
            new[name] = to + '_lem' if is_lemma else to
        if to in ('rest_at', 'served_at'):  # the definition was respelled before
            new.update({n: to if n == to else to + '_lem' for n in names})
    fallen = [t for t, k in collections.Counter(new.values()).items() if k > 1 and t not in SHARED]
    if fallen:
        sys.exit(f'names fall together: {fallen}')
    return {n: t for n, t in new.items() if n != t}, crates


def main():
    new, crates = new_names()
    for path in files():
        text = read(path)

        def turned(m, is_text=False):
            name = m[0]
            if not is_camel(name):
                if is_text or name not in new:
                    return name
                is_field = m.start() and m.string[m.start() - 1] == '.'
                if is_field and (is_proof_of_function(path) or '-' not in name):
                    return name
                if '-' not in name and not path.startswith(tuple(crates[name])):
                    return name
            return new.get(name, name)

        lines = []
        for line in text.split('\n'):
            at = re.search(r'(^|\s)(--|//)', line)
            code, comment = (line[:at.start()], line[at.start():]) if at else (line, '')
            is_clause = path.endswith('.antt') or re.search(r'\b(ghost|requires|ensures)\b', code)
            lines.append(WORD.sub(lambda m: turned(m, not is_clause), code) + WORD.sub(lambda m: turned(m, True), comment))
        out = '\n'.join(lines)
        if out != text:
            with open(path, 'w', encoding='utf-8') as file:
                file.write(out)
    if '--list' in sys.argv:
        for name in sorted(new):
            print(name, new[name])


main()
