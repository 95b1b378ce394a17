#!/usr/bin/env python3
"""Counts the places of docs/DESIGN-PASS.md in src/, point by point: places.py [--list] [FOLDER], where FOLDER is a checkout (here, if none is named).
With --list each place is printed by file and line."""
import re
import subprocess
import sys
from pathlib import Path

FUNCTION = re.compile(r'^ *(?:pub(?:\([a-z]+\))? )?(?:const )?(?:extern "C" )?fn (\w+)')
TWO_FORMS = {  # enums of the shape of Option or Result
    'Read', 'Real', 'Found', 'RunRead', 'OpRead', 'Reals', 'Verdict', 'Turned', 'Ending', 'Folded', 'Input', 'Told', 'Next', 'Delivery',
}
GROUPS = {  # parameters that travel together
    'words, coeffs': ('words', 'coeffs'), 'index, buckets': ('index', 'buckets'), 'codes, reals': ('codes', 'reals'), 'keys, weights': ('keys', 'weights'),
    'sin, cos': ('sin', 'cos'), 'out, at': ('out', 'at'), 'qubits, ops': ('qubits', 'codes'), 'head, s': ('head', 's'),
}
NONE = re.compile(r'(, or 0\b|\bor 0 if|, 0 if\b|; 0 if\b|\b0 for (none|any)|0 stands for none|\belse 0\b|or -1 where|, or 0\.$|\b16 for any other|or the length where there is none)')


def functions(text):
    """Name, line, signature (to the first clause or the body), comment above, body."""
    lines = text.split('\n')
    starts = [i for i, l in enumerate(lines) if FUNCTION.match(l)]
    for n, i in enumerate(starts):
        end = starts[n + 1] if n + 1 < len(starts) else len(lines)
        comment = []
        k = i - 1
        while k >= 0 and re.match(r' *(//|#\[)', lines[k]):
            comment.insert(0, lines[k])
            k -= 1
        body = '\n'.join(lines[i:end])
        signature = re.split(r'\n? *(?:requires|ensures)\b|\n? *\{', body, maxsplit=1)[0]
        yield FUNCTION.match(lines[i]).group(1), i + 1, signature, '\n'.join(comment), body


def places(root):
    found = {}

    def add(point, what, where):
        found.setdefault((point, what), []).append(where)

    for path in sorted((root / 'crates').glob('*/src/**/*.rt')):
        text = path.read_text()
        name = str(path.relative_to(root / 'crates'))
        for i, line in enumerate(text.split('\n'), 1):
            where = f'{name}:{i}'
            code = line.split('//')[0]
            e = re.match(r'\s*(?:pub(?:\([a-z]+\))? )?enum (\w+)', code)
            if e and (e.group(1) in TWO_FORMS or (e.group(1), name.split('/')[0]) == ('Targets', 'lines')):
                add(1, 'own enums of the shape of Option or Result', f'{where} {e.group(1)}')
            if re.search(r'\w+\(u8(, usize)?\),$|status: u8', code):
                add(1, 'numbers for refusals in a type', where)
            if re.search(r'\b(NoName|NotRun|NotOp),$', code) and not re.search(r'NotRun|NotOp', code):
                add(1, 'a variant for none', where)
            if re.search(r'\bwhile\b|\bloop \{', code):
                add(3, 'while and loop', where)
            if re.search(r'^\s*\w+ [+-]= 1;', code):
                add(3, 'an index counted by hand (+= 1, -= 1)', where)
            if re.search(r'=> (true|false),', code):
                add(4, 'arms that say true or false', where)
            if re.search(r'\b(choice::|both\(|smaller\(|either\()', code) and not FUNCTION.match(line):
                add(4, 'uses of both, either, smaller', where)
            if re.search(r'let base = \w+ \* size;', code):
                add(5, 'a part of a buffer by three lines', where)
            if re.search(r'\[bool; 256\]', code):
                add(6, 'sets of bools by value', where)
            if re.search(r'\bStart::\w+|\bSought::\w+', code):
                add(7, 'Start and Sought: what to run, what to look for', where)
        for f, i, signature, comment, body in functions(text):
            where = f'{name}:{i} {f}'
            if re.search(r'-> (u8|usize|isize)\b', signature) and NONE.search(comment):
                add(1, 'a number for none in an answer', where)
            if re.search(r'\btwo: bool\b', signature):
                add(1, 'a flag with a value beside it', where)
            if re.search(r'-> (bool|usize|u64|f64|u8)\b', signature) and re.fullmatch(r'(both|either|smaller|larger|wide|one_if|held|plus|scaled|size_of)', f):
                add(4, 'and, or, min, max, conversions as functions', where)
            if re.fullmatch(r'(is_text|starts_with|is_number|is_real|is_run|or_zero|or_zero_real|or_full|is_op|or_none|is_beyond|count_left|absolute|is_finite|at_least_zero)', f):
                add(4, 'tests and values of an option, a slice or a number', where)
            names = set(re.findall(r'\b(\w+): ', signature))
            for group, members in GROUPS.items():
                if set(members) <= names:
                    add(5, f'parameters together: {group}', where)
            if {'codes', 'reals'} <= names or {'keys', 'weights'} <= names:
                add(6, 'parallel arrays', where)
            if {'lines', 'weights'} <= names or {'codes', 'n'} <= names:
                add(6, 'a count beside a slice', where)
            if re.search(r'name_if\(s, b"', body) and f != 'name_if':
                add(7, 'tables of names by calls', where)
    for path in sorted((root / 'crates').glob('*/proofs/**/Proof.antt')):
        add(8, 'Proof.antt', str(path.relative_to(root / 'crates')))
    return found


def main():
    args = [a for a in sys.argv[1:] if a != '--list']
    root = Path(args[0] if args else subprocess.run(['git', 'rev-parse', '--show-toplevel'], capture_output=True, text=True).stdout.strip())
    found = places(root)
    for (point, what), wheres in sorted(found.items()):
        print(f'{point}  {len(wheres):4}  {what}')
        if '--list' in sys.argv:
            for where in wheres:
                print(f'           {where}')


if __name__ == '__main__':
    main()
