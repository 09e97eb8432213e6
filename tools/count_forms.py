#!/usr/bin/env python3
"""Lists the places in src/ whose form has a newer one in the language, by point, with their counts.

usage: tools/count_forms.py [FOLDER]     FOLDER is a checkout; this one if none is given
"""
import pathlib
import re
import sys

# a range whose number is then used as an index, within the loop's next lines
INDEX_LOOP = r'^\s*for (?P<index>\w+) in [0-9a-z_]+\.\..*\n(?:.*\n){0,5}?.*(?:\[(?P=index)\]|\(memory, (?P=index)\))'

POINTS = {
    '1 enums shaped like Option or Result: their variants': [
        r'^\s+(Refused|Faulted|Written|Granted|Done|None|Rest|At)(\([A-Za-z0-9\[\]; ]+\))?,$',
    ],
    '1 numbers for kinds of chip and of record': [
        r'kind: u8|fields\.kind == 0|Kind::Rf5c(68a|164) => [01],$|^\s+[0-9] => \w+_at\(|\(3, [1-4]\)',
    ],
    '1 numbers of refusals, a match arm each': [
        r'(Refusal|Fault)::\w+ => [0-9]+,$',
    ],
    '2 functions and impls beside one of the same shape': [
        r'^impl Source for R[ao]m|fn (joined_size|read_joined|write_joined)\b',
        r'fn (of_side|total_of|latest_of|contributions)\(.*(voices|latest|both)',
        r'^pub (struct Contribution|struct Frame|enum Call|enum Answer|fn perform)\b',
        r'^fn (say_write|say_read|granted)\b|recording\.abandon\(\);',
    ],
    '3 loops and places that count by hand': [
        INDEX_LOOP,
        r'^\s+\w+ \+= \*?\w+;$',
    ],
    '4 conversions, defaults, equality and text by hand': [
        r'(Ok|Err)\([a-z()]+\) => (Ok|Err|Answer::|return Err)',
        r'=> "RF5C|\(Kind::Rf5c68a, Kind|\{ left: 0, right: 0|\* 256 \+|^\s+env: 0,|LOWEST as i16',
        r'println!\(rt; "fault \{number\}',
    ],
    '5 facts repeated in clauses': [
        r'ensures (bound|bounded|ranged|within|window) \{',
        r'requires \{ \(place ≤ 8 \* length log\.now\)',
    ],
    '5 parameters that travel together': [
        r'kind: Kind, converter: Converter|^\s+converter: Converter,$',
        r'\(log: &\[u8\], place: usize',
        r'first: &(mut )?A\b',
    ],
    '6 buffers with a length beside, parallel arrays': [
        r'\w+_len: usize|len: usize|count: usize\)',
        r'left: \[i16; 8\]|right: \[i16; 8\]',
    ],
    '7 switches on which step to run, tables of functions': [
        r'\[fn\(|: fn\(|match step\b',
    ],
}


def places(folder, wanted):
    for path in sorted(folder.glob('crates/*/src/**/*.rt')):
        text = path.read_text()
        for found in wanted.finditer(text):
            start = found.start() + len(found.group()) - len(found.group().lstrip())
            end = text.find('\n', start)
            yield path.relative_to(folder), text.count('\n', 0, start) + 1, text[text.rfind('\n', 0, start) + 1:end].strip()


def main():
    folder = pathlib.Path(sys.argv[1] if len(sys.argv) > 1 else pathlib.Path(__file__).parent.parent)
    for point, patterns in POINTS.items():
        found = sorted({at for p in patterns for at in places(folder, re.compile(p, re.MULTILINE))})
        print(f'{point}: {len(found)}')
        for path, number, line in found:
            print(f'    {path}:{number}: {line}')
    proofs = list(folder.glob('crates/*/proofs/**/*.antt'))
    print(f'8 proofs: {len(proofs)} files, {sum(len(p.read_text().splitlines()) for p in proofs)} lines')


main()
