#!/usr/bin/env python3
"""Brings the names of definitions and lemmas that the pages cite to today's spelling, once, after tools/port_names.py.

A name between backticks is turned where the tree before the port declares it, today's tree does not, and today's tree
has its new spelling. With --dry nothing is written. What is printed: each name turned, and each name that could be a
definition or lemma of before and has no spelling today.
"""
import ast
import re
import subprocess
import sys

BEFORE = '424affc706257fdc4bf8e29ca7983bb322ad6ab6'
PAGES = ['README.md', 'docs/DECISIONS.md', 'docs/PROMISES.md', 'docs/RULES.md', 'include/sholakpite.h',
         'rust/src/lib.rs', 'rust/src/log.rs', 'rust/src/text.rs', 'rust/src/words.rs']
DECLARED = re.compile(
    r'^\s*(?:(?:abbrev|unfoldable|opaque|pub|data|record|syntax|constructor)\s+)*([^\s(){};:,."\']+)(?:\s*[({][^=]*)?\s*:(?:\s|$)')
WORD = re.compile(r'[^\s(){}\[\];,.⌜⌝`/]+')
PROOF_FILE = re.compile(r'crates/[^/]+/(specs/.*|proofs/[^/]+)\.antt$')

# The crate log, which is plan_log now: in paths, in files, beside a module, and by its own name. The Rust wrapper's module stays.
LOG = (r'(?<!:)\blog(?=::(?:append|read)\b)', r'(?<=crates/)log(?=/)', r'(?<=\()log(?=, (?:Log|PowerCut)\))',
       r'(?<=`Survives` in )log(?=, PowerCut)', r'(?<=`)log(?=/)', r'(?<=`)log(?=`)')


def special():
    """The names that tools/port_names.py spells in a way of their own."""
    tree = ast.parse(open('tools/port_names.py').read())
    parts = [n for n in tree.body if isinstance(n, ast.Assign) and 'SPECIAL' in ast.unparse(n.targets[0])]
    found = {}
    exec('\n'.join(ast.unparse(n) for n in parts), found)
    return found['SPECIAL']


def git(*words):
    return subprocess.run(['git', *words], capture_output=True, text=True, check=True).stdout


def declared(commit):
    names = set()
    for path in git('ls-tree', '-r', '--name-only', commit).split('\n'):
        if PROOF_FILE.match(path):
            for line in git('show', f'{commit}:{path}').split('\n'):
                m = DECLARED.match(line)
                if m:
                    names.add(m.group(1))
    return names


def snake(name):
    return re.sub(r'(?<=[a-z0-9])([A-Z])', lambda m: '_' + m.group(1).lower(), name.replace('-', '_'))


def main():
    old, new = declared(BEFORE), declared('HEAD')
    own = special()
    turned, lost = {}, set()
    for name in old - new:
        spelled = own.get(name, snake(name) if name[0].islower() else name)
        if spelled in new:
            turned[name] = spelled
        else:
            lost.add(name)
    for name in own:
        if name in old:
            turned[name] = own[name]
    used, open_names = set(), set()
    for page in PAGES:
        text = open(page).read()

        def put(m):
            w = m.group(0)
            if w in turned:
                used.add(w)
                return turned[w]
            if w in lost:
                open_names.add((page, w))
            return w
        out = re.sub(r'`([^`\n]+)`', lambda m: '`' + WORD.sub(put, m.group(1)) + '`', text)
        for crate_log in LOG:
            out = re.sub(crate_log, 'plan_log', out)
        if out != text and '--dry' not in sys.argv:
            open(page, 'w').write(out)
    for name in sorted(used):
        print(f'{name} -> {turned[name]}')
    for page, name in sorted(open_names):
        print('no spelling today:', page, name)


main()
