#!/usr/bin/env python3
"""Counts, in the code of the crates, the places that an older style leaves: python3 tools/places.py [FOLDER] [-v]

FOLDER is a checkout (the current folder by default). A line for each point tells how many places there are; -v lists them. What
docs/DESIGN-PASS.md says of counts was counted by this."""
import re
import sys
from pathlib import Path

arguments = [a for a in sys.argv[1:] if a != '-v']
verbose = '-v' in sys.argv
root = Path(arguments[0] if arguments else '.')
sources = {p: p.read_text() for p in sorted(root.glob('crates/*/src/**/*.rt'))}

COMMAND = r'(STOP|SITE_CALL|DEFINITION_CALL|PARALLEL|SEQUENTIAL|PRUNING|PENDING|ROW|WINDOW)'
PATTERNS = {
    '1 numbers for commands and marks': [
        rf'^(pub\(crate\) )?const {COMMAND}: u8',
        r'^ +[0-6] => (Ok\(|\{$|Head::|pending_head|Parameter::)',
        r'[0-9] <= command|command > [0-9]|\bmark (>|==) [0-9]|== 0x1[01]\b'],
    '1 flags with a value beside them': [
        r'^    pub(\(crate\))? \w+: bool,$', r'^    pub to: u32,$', r'-> [\w:]*Result<bool>'],
    '1 matches that a method of Option or Result does': [
        r'^ +(None|Err\(_\)) => (None|\d+|true|false|Sheet .*|\w+\.len\(\)|Ok\(\(\)\)|self\.\w+\(\w*\)),$'],
    '1 numbers returned that say nothing': [r'-> u8\n(    ensures .*\n)+\{\n    0\n\}'],
    '2 functions that are twins': [
        r'^ *(pub(\(crate\))? )?fn (read_u(8|16|32)|pending_form|put_pending|pending_head|pending_at|form_end|expression_form|joined|advice|with_bytes|with_form|with_copy|settle|simplify|buffer_of)[(<]',
        r'^    let mut form = Buffer::new', r'^        first: Local,$',
        r'^    pub fn (number|place|name)\(&self\)|^impl fmt::Display for (Fault|Refusal)'],
    '2 types that are twins': [r'^pub(\(crate\))? struct (Pending|Buffer|Record|Draft|Row) \{'],
    '3 loops that step by hand': [
        r'^ +while ', r'^ +for _i in ', r'^ +for (number|at|i) in [\w:]+\.\.', r'\.enumerate\(\) \{'],
    '3 loops that search, count or fold': [
        r'^ +for .* \{\n(.*\n){0,6}? +return ', r'^ +for \w+ in \w+ \{\n +(\w+) = \1\.', r'^ +for \w+ in \w+ \{\n +if .* \{\n +(\w+) = \1\.'],
    '4 conversions of bytes by hand': [r'(from|to)_be_bytes'],
    '4 texts made to be appended': [r'format!\(in heap'],
    '5 facts that three contracts share': [],
    '5 functions of five parameters and more': [],
    '6 arrays with a length beside them': [r'^    pub\(crate\) \w+: \[\w+; \w+\],\n    pub\(crate\) (len|count): usize,'],
    '7 traits or functions in place of a closure': [r'^(pub\(crate\) )?trait Ends', r'^impl.* Ends for', r'^ *(pub(\(crate\))? )?fn (with_bytes|with_form|with_copy)\('],
}


def places(patterns):
    for path, text in sources.items():
        spans = {m.start() for p in patterns for m in re.finditer(p, text, re.M)}
        for start in sorted(spans):
            line = text.count('\n', 0, start) + 1
            yield f'{path.relative_to(root)}:{line}: {text.splitlines()[line - 1].strip()}'


def shared_facts():
    facts = {}
    for path, text in sources.items():
        for m in re.finditer(r'^ +requires (\w+ )?\{ (.*) \}$', text, re.M):
            facts.setdefault((path.parts[-3], m.group(2)), []).append(path)
    for (crate, fact), where in sorted(facts.items()):
        if len(where) >= 3:
            yield f'crates/{crate}: {len(where)} times: {fact}'


def parameters(text):
    """The parameters of a signature, split at the commas that stand in no bracket."""
    depth, parts = 0, ['']
    for c in text:
        depth += (c in '([<') - (c in ')]>')
        parts = parts + [''] if c == ',' and depth == 0 else parts[:-1] + [parts[-1] + c]
    return [p for p in map(str.strip, parts) if p]


def long_signatures():
    for path, text in sources.items():
        for m in re.finditer(r'\bfn (\w+)(?:<[^(]*>)?\(((?:[^()]|\([^()]*\))*)\)', text):
            if len(parameters(m.group(2))) >= 5:
                yield f'{path.relative_to(root)}: fn {m.group(1)}'


BY_READING = {'5 facts that three contracts share': shared_facts, '5 functions of five parameters and more': long_signatures}
for point, patterns in PATTERNS.items():
    found = list(BY_READING[point]() if point in BY_READING else places(patterns))
    print(f'{len(found):4} {point}')
    if verbose:
        print(*(f'       {f}' for f in found), sep='\n')
answers = [p for p in root.glob('crates/*/proofs/**/*.antt')]
print(f'{len(answers):4} 8 proof files, of {sum(len(p.read_text().splitlines()) for p in answers)} lines')
