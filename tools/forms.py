#!/usr/bin/env python3
"""Counts the places of older forms in the code (docs/DESIGN-PASS.md): forms.py [-l] [COMMIT] says for each point how many places it finds in crates/*/src, and in which crates, in the tree or in a commit; with -l it names each place.

It goes by the text: what it finds is looked at by hand, and what it can't see the page says.
"""
import os
import re
import subprocess
import sys

TWIN = r'^ *(?:pub )?(?:fn|struct|enum) (\w+)'
POINTS = {
    '1 own enums of the shape of Option or Result, flags and numbers beside values':
        r'struct \w+(?:<[^>]*>)? \{(?:(?!\n\}).)*?(?:refusal: Verdict|found: bool)|enum \w+(?:<[^>]*>)? \{\s*\w+(?:\([^)]*\)| \{[^}]*\}),\s*(?:Refused|Bad|No\w+|None),\s*\}',
    '1 numbers for refusals or for none':
        r'-> Verdict\b|\.number (?:!=|==) \d|placeless\(\d+\)|\b(?:256|16|10) <= [a-z]\w*',
    '3 loops that count by hand': r'\bwhile\b[^{]*\{',
    '4 comparison, copying, conversion by hand': r'fn (?:same_bytes|less|first|is_blank|copy|copy_front|put_word|word_at|is_between|both)\b|fn is_(?:shut|predicting|correcting|plain|stepped|predicting_stepped|correcting_stepped)\b',
    '5 parts taken out of a value first, or handed on one by one': r'let (?:mut )?(?:sheet|track|stage|params|points|x|p|q|w|z|r|observed|kinds|kept|filter|before) = (?:self|track|sheet|f|before|a|b|made|lent|filter|one|other|p)\.\w+;',
    '6 a buffer with what is used of it beside': r'\b(?:at|used): usize, (?:out|line): &mut \[u8\]|(?:out|line): &mut \[u8\], (?:at|used): usize',
    '7 a switch that names each step': r'match name \{',
}


def sources(commit):
    if commit:
        listed = subprocess.run(['git', 'ls-tree', '-r', '--name-only', commit, 'crates'], capture_output=True, text=True, check=True).stdout.split()
        for name in listed:
            if re.fullmatch(r'crates/\w+/src/.*\.rt', name):
                yield name, subprocess.run(['git', 'show', f'{commit}:{name}'], capture_output=True, text=True, check=True).stdout
        return
    for folder, _, names in sorted(os.walk('crates')):
        if '/src' in folder and '/out' not in folder:
            for name in sorted(names):
                if name.endswith('.rt'):
                    path = os.path.join(folder, name)
                    with open(path, encoding='utf-8') as f:
                        yield path, f.read()


def main():
    words = sys.argv[1:]
    show = '-l' in words
    commits = [w for w in words if w != '-l']
    found = {point: {} for point in POINTS}
    twins = {}
    for path, text in sources(commits[0] if commits else None):
        crate = path.split('/')[1]
        code = re.sub(r'//[^\n]*', '', text)
        for point, form in POINTS.items():
            for place in re.finditer(form, code, re.S if point.startswith('1 own') else 0):
                found[point][crate] = found[point].get(crate, 0) + 1
                if show:
                    print(f'{path}:{code[:place.start()].count(chr(10)) + 1}: {point[:2]}{place.group(0).splitlines()[0].strip()[:70]}')
        if crate.endswith('32'):
            names = re.findall(TWIN, code, re.M)
            twins[crate] = twins.get(crate, 0) + len(names)
            if show and names:
                print(f'{path}: 2 {", ".join(names)}')
    found['2 functions and types of the crates at f32, each the twin of one at f64'] = twins
    for point in sorted(found):
        crates = ', '.join(f'{crate} {count}' for crate, count in sorted(found[point].items()) if count)
        print(f'{point}: {sum(found[point].values())}' + (f' ({crates})' if crates else ''))


main()
