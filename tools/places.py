#!/usr/bin/env python3
"""Lists the places in crates/*/src at which the design pass looks, by patterns: tools/places.py [POINT..]

Each pattern finds lines; which of them are places, and what became of each, docs/DESIGN-PASS.md says."""
import pathlib, re, sys

POINTS = {
    '1 an enum or a value in place of Option, Result or an error': [
        ('a variant of an own enum that says that it did not work', r'^\s+(Refused\(\w+\)|NoMemory|Unwilling|Nobody|NoPlace|UsedUp|Lost),'),
        ('an error in an Option', r'-> .*Option<Refusal>'),
        ('a bool that says whether it worked', r'fn (add|write|write_u64)\(.*-> bool'),
        ('a place past the end for none', r'fn find\(&self.*-> usize'),
        ('a flag beside a value', r'let mut \w+ = (true|false);|^\s+(pub )?\w+: bool,'),
        ('a number for a kind', r'Field::U8\(\d+\)|lay\($|^\s+&\[(kind, )?2\],|^\s+\d+ (if .*)?=>|: u8 = 1\d\d;|const FINE|-> u8$|-> u8 \{|word\[0\] != 2'),
        ('an error taken apart and put together again', r'Err\((_|why)\) => (return )?Err|let Ok\(.*else|\.is_err\(\)|\.is_ok\(\)|Err\(_\) => \w+::NoMemory|None => return (None|Err)|None => None|None => Err|Some\(\w+\) => Ok\(\w+\)'),
    ],
    '2 twins': [
        ('', r'fn (big_sigma0|big_sigma1|small_sigma0|small_sigma1|u16_at|u32_at|u64_at|bytes_at|put|paste|fill|word|number_at|same|has_chip|has_digest|has_data|find_list|find_shown|find|find_thing|find_signature|thing|signature|as_thing|as_signature|first|second|write_after|sign|office|net|place|number|short|count|run|run_blocks|run_streams|row|gather|of|any_bad|digest|data|name)\b[<(]'),
        ('a struct of bytes alone', r'^    (pub )?bytes: \[u8; \d+\],'),
    ],
    '3 loops that count': [
        ('', r'\bfor \w+ in (\d+|\w+\(words\)|0)\.\.|\bwhile '),
    ],
    '4 equality, order, copies, conversions, printing by hand': [
        ('', r'impl PartialEq for|fn (same|same_signature|number|of_number|of|same_text|asks_this|tell_\w+|told|why)\('),
    ],
    '5 facts in three contracts, parameters that travel together': [
        ('', r'requires \{ i < vec_len self\.old\.machines \}|self ≡ (after m|prepared k)|key: \[u8; 32\]|^\s+judge: &mut Judge|\(rt: &impl Abort, judge|fn .*i: usize, machine: Machine|word: Word|u16, Register, Flags|tally: &mut Tally|at: usize, part: &\[u8\]|seat self|sight self|scene self|entries\.items|S\.Storage\.image'),
    ],
    '6 buffers with a length, parallel arrays': [
        ('', r'^\s+(pub )?(len|count): (usize|u8|u64),|copy_from_slice|^\s+(pub )?known: \[|fn digests\(self\)|\[c0, c1'),
    ],
    '7 a switch on which step to run': [
        ('', r'match (act|command|event|word|step|line\.verb|first|case|self\.verb)( |\.)?.*\{'),
    ],
}

def main(wanted):
    for point, patterns in POINTS.items():
        if wanted and point[0] not in wanted:
            continue
        found = []
        for name, pattern in patterns:
            for path in sorted(pathlib.Path('crates').glob('*/src/**/*.rt')):
                for i, line in enumerate(path.read_text().split('\n'), 1):
                    if re.search(pattern, line):
                        found.append((str(path)[7:], i, line.strip(), name))
        print(f'{point}: {len(found)}')
        for path, i, line, name in found:
            print(f'  {path}:{i}: {line[:110]}' + (f'  [{name}]' if name else ''))

main(sys.argv[1:])
