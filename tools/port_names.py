#!/usr/bin/env python3
"""Brings the names of this repository's definitions and lemmas to snake case, once, after the kit's port.py.

A name that specs/ or a lemma file of proofs/ declares, or that a proof declares for itself, and that has a dash or is
in camel case gets underscores: `gcdIn-divides` is `gcd_in_divides`. Facts and types keep their capital. Names that the
check makes (`returns-2`, `loop-i-preserved`, ..) and names of the library keep their spelling.
"""
import collections
import glob
import re
import sys

OWN = {line.split(':')[0].split()[0] for line in open('crates.txt') if line.strip() and not line.startswith('#')}
DECLARED = re.compile(
    r'^\s*(?:(?:abbrev|unfoldable|opaque|pub|data|record)\s+)*([^\s(){};:,."\']+)(?:\s*[({][^=]*)?\s*:(?:\s|$)')
WORD = re.compile(r'[^\s(){}\[\];,.⌜⌝`]+')


# A lemma that would have its definition's name gets `_lem`; a field says what it is.
SPECIAL = {name: name.replace('-', '_') + '_lem' for name in (
    'first-from newest-of block-length carried-length first-if card-text is-card line-if due-by new-slots most-tasks '
    'not-understood wide-card line-text tasks-text two_bytes is_digit value_on').split()}
SPECIAL['first-refusal'] = 'is_first_refusal'


def snake(name):
    if name in SPECIAL:
        return SPECIAL[name]
    if not name[0].islower():
        # A fact keeps its capitals; what is joined to it is joined by an underscore.
        return name
    name = name.replace('-', '_')
    return re.sub(r'(?<=[a-z0-9])([A-Z])', lambda m: '_' + m.group(1).lower(), name)


def lemma_files():
    return sorted(glob.glob('crates/*/specs/*.antt') + glob.glob('crates/*/proofs/*.antt'))


def all_files():
    return sorted(glob.glob('crates/*/specs/*.antt') + glob.glob('crates/*/proofs/**/*.antt', recursive=True)
                  + glob.glob('crates/*/src/*.rt'))


def declared(paths):
    names = collections.defaultdict(set)
    for path in paths:
        for line in open(path):
            m = DECLARED.match(line)
            if m:
                names[m.group(1)].add(path)
    return names


def foreign(text):
    """The names that a file imports from anything but this repository's own crates."""
    found = set()
    for m in re.finditer(r'^\s*(?:ghost )?use ([^\s{;]+)\.\{([^}]*)\}', text, re.M):
        first = m.group(1).split('.')
        own = first[0] == 'Rattle' and len(first) > 1 and first[1] in OWN
        if not own:
            for item in m.group(2).split(','):
                found.add(item.strip().split(' as ')[-1].strip())
                found.add(item.strip().split(' as ')[0].strip())
    return found


def main():
    names = declared(lemma_files())
    turned = {}
    for name in names:
        new = snake(name)
        if new != name:
            turned[name] = new
    clashes = [(a, b) for a, b in turned.items() if b in names and b not in turned]
    taken = collections.defaultdict(list)
    for a, b in turned.items():
        taken[b].append(a)
    for b, olds in taken.items():
        if len(olds) > 1:
            clashes.append((b, olds))
    print('clashes:', clashes)
    for path in all_files():
        text = open(path).read()
        keep = foreign(text)
        hit = sorted(set(keep) & set(turned))
        if hit:
            print('kept, of the library:', path, hit)
        new_text = []
        for line in text.split('\n'):
            code, mark, comment = line, '', ''
            cut = re.search(r'(^|\s)--(\s|$)' if path.endswith('.antt') else r'(^|\s)//', line)
            if cut:
                code, comment = line[:cut.start()], line[cut.start():]
            def put(m):
                w = m.group(0)
                if w in turned and w not in keep:
                    return turned[w]
                return w
            code = WORD.sub(put, code)
            comment = re.sub(r'`([^`]+)`', lambda m: '`' + WORD.sub(put, m.group(1)) + '`', comment)
            new_text.append(code + comment)
        out = '\n'.join(new_text)
        if out != text and '--dry' not in sys.argv:
            open(path, 'w').write(out)


main()
