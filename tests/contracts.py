#!/usr/bin/env python3
"""The tables in docs/ against the crates:
- every `pub fn`, every function of a `pub trait` and every conversion has an `ensures` and a row in docs/CONTRACTS.md, and every row a function and two must-fail edits or more;
- an `ensures` is one equation or one record; it speaks of the result and of every `&mut` parameter afterwards, and its row names the
  definitions at its head and the lemma that two outcomes are equal: two premises of the lemma have the same definitions at their heads;
- no public function of an entry crate (calls, schedule, listing) has a `requires`;
- every must-fail edit that is named exists, and every edit is named in docs/CONTRACTS.md or docs/MUST_FAIL.md;
- docs/WALKS.md has a row for every function that is walked by hand, with the length of its proof: today it has none;
- every name on docs/CLAIM.md, of a file, a function, a statement or an edit, is in the crates.
Last line: 'N passed, M failed'."""
import glob
import os
import re
import sys

ROOT = os.path.join(os.path.dirname(os.path.abspath(__file__)), '..')
CRATES = os.path.join(ROOT, 'crates')
ENTRIES = ('calls', 'schedule', 'listing')
SIGNATURE = re.compile(r'\bpub\s+(?:extern\s+"C"\s+)?fn\s+(\w+)')
IMPL = re.compile(r'^impl(?:<[^>]*>)?\s+(\w+)', re.M)
TRAIT = re.compile(r'^pub trait (\w+)(.*?)^}', re.M | re.S)
CONVERSION = re.compile(r'^impl (?:Try)?From<\w+> for (\w+) (.*?)^}', re.M | re.S)
GIVES = re.compile(r'ghost (\w+)_gives = \{ λ \w+ (\w+)\. (.*?) \};', re.S)
ENSURES = re.compile(r'\bensures\*?(?: \w+)? \{')
LENT = re.compile(r"(\w+): &(?:'\w+ )?mut\b|&(?:'\w+ )?mut (self)\b")
LEMMA = re.compile(r'^pub (\S+) : (.*?)(?=^\S)', re.M | re.S)
WALKED = re.compile(r'^use Rattle\.\w+\.proofs\.[\w.]+\.Code as ', re.M)


def read(*path):
    with open(os.path.join(ROOT, *path), encoding='utf-8') as file:
        return file.read()


def functions(path, crate):
    """(name, clauses) of each public function of a source file, a method under its type or trait; of a conversion to a type of the crate
    the clause that its trait asks for."""
    text = re.sub(r'//[^\n]*', '', read(path))
    impls = []
    for m in IMPL.finditer(text):
        end = text.find('\n}', m.end())
        impls.append((m.start(), len(text) if end < 0 else end, m.group(1)))
    for m in SIGNATURE.finditer(text):
        rest = text[m.end():]
        body = re.search(r'\n\s*\{\s*\n', rest)
        head = rest[:body.start()] if body else rest.split('\n}')[0]
        owner = next((name for start, end, name in impls if start < m.start() < end), None)
        yield '::'.join(filter(None, [crate, owner, m.group(1)])), head
    for name, body in TRAIT.findall(text):
        for function, head in re.findall(r'^    fn (\w+)(.*?);$', body, re.M | re.S):
            yield f'{crate}::{name}::{function}', head
    for name, body in CONVERSION.findall(text):
        for function, given, fact in GIVES.findall(body):
            said = re.sub(rf'(?<!\w){given}(?!\w)', 'result', fact)
            yield f'{crate}::{name}::{function}', '-> Self ensures { ' + said + ' }'


def ensured(head):
    """The fact of each `ensures`, as far as its brace goes."""
    for m in ENSURES.finditer(head):
        depth, end = 1, m.end()
        while depth:
            depth += {'{': 1, '}': -1}.get(head[end], 0)
            end += 1
        yield ' '.join(head[m.end():end - 1].split())


def rows(text):
    """The cells of each row whose first cell is a function."""
    for line in text.split('\n'):
        cells = [c.strip() for c in line.strip().strip('|').split('|')]
        name = re.fullmatch(r'`([\w:]+)`', cells[0])
        if line.startswith('|') and name:
            yield name.group(1), cells[1:]


def lemmas(crate):
    """The public lemmas, of no one function, of a crate and of those that it is built on, each with its type."""
    below = re.search(rf'^{crate}:(.*)', read('crates.txt'), re.M).group(1).split()
    paths = [path for c in [crate, *below] for path in glob.glob(os.path.join(CRATES, c, 'proofs', '**', '*.antt'), recursive=True)
             if not path.endswith(('Proof.antt', 'Answers.antt', 'Invariants.antt'))]
    return {f'`{name}`': told for path in paths for name, told in LEMMA.findall(read(path))}


def words(text):
    return re.findall(r'[^\s(){};]+', text)


def says(text, part):
    return re.search(rf'(?<![\w.]){re.escape(part)}(?!\w)', text)


def heads(fact):
    """The definition at the head of a record, or of each side of an equation; of a `record {..}` those at the heads of its fields."""
    for side in fact.split(' ≡ '):
        first = words(side)[0]
        yield from re.findall(r'= (\S+)', side) if first == 'record' else [first]


def determined(check, name, head, row):
    """One function's `ensures` against its row: the definitions that it cites, and the lemma that two outcomes are equal."""
    clauses = list(ensured(head))
    fact = clauses[0] if len(clauses) == 1 else ''
    left, *right = fact.split(' ≡ ')
    single = fact and len(right) < 2 and not re.search('[→×⊎∃λ]', fact)
    check(single, f'{name}: its ensures is not one equation or one record')
    if not single:
        return
    signature = re.split('requires|ensures', head)[0]
    outcome = ['result'] * ('->' in signature) + [f'{a or b}.new' for a, b in LENT.findall(signature)]
    for part in outcome:
        check(says(left, part) and not says(''.join(right), part), f'{name}: its ensures does not say what {part} is')
    plain = bool(right) and outcome == [left]
    cited = list(heads(right[0] if plain else fact))
    named = re.findall(r'`([^`]+)`', row[0])
    for definition in cited:
        check(definition in named, f'{name}: its ensures cites {definition}, which its row does not name')
    for definition in named:
        check(definition in words(head), f'{name}: its row names {definition}, which its contract does not cite')
    equation = row[1] == 'an equation'
    check(plain == equation, f'{name}: its ensures is {"an" if plain else "no"} equation of the whole outcome, and its row says {row[1]}')
    if plain or equation:
        return
    lemma = lemmas(name.split('::')[0]).get(row[1], '')
    *premises, equal = lemma.split('→')
    alike = sum(list(heads(premise)) == cited for premise in premises)
    equated = sum(words(one) != words(other) for one, other in re.findall('([^()×≡]+)≡([^()×≡]+)', equal))
    check(lemma, f'{name}: its row says {row[1]}, which is no lemma of its crate or of those below')
    check(alike == 2, f'{name}: of the premises of {row[1]}, {alike} and not 2 are of {" and ".join(cited)}')
    check(equated >= len(outcome), f'{name}: {row[1]} equates {equated} parts of {len(outcome)}')


def contracts(check):
    found = {}
    for path in sorted(glob.glob(os.path.join(CRATES, '*', 'src', '**', '*.rt'), recursive=True)):
        crate = os.path.relpath(path, CRATES).split(os.sep)[0]
        for name, head in functions(path, crate):
            found[name] = head
    cells = dict(rows(read('docs', 'CONTRACTS.md')))
    table = {name: re.findall(r'`([\w]+/[\w]+)`', row[-1]) for name, row in cells.items()}
    check('`equation_determines`' in lemmas('machine'), 'machine has no lemma equation_determines')
    for name, head in sorted(found.items()):
        check('ensures' in head, f'{name} has no ensures')
        check(name in table, f'{name} has no row in docs/CONTRACTS.md')
        if name.split('::')[0] in ENTRIES:
            check('requires' not in head, f'{name} is an entry point and has a requires')
        if name in cells:
            determined(check, name, head, cells[name])
    for name, edits in sorted(table.items()):
        check(name in found, f'docs/CONTRACTS.md has a row for {name}, which is no public function')
        check(len(edits) > 1, f'{name}: fewer than two wrong answers are tried')
    return {edit for edits in table.values() for edit in edits}


def edits(check, named):
    there = {os.path.relpath(path, CRATES).replace('/must-fail/', '/')[:-len('.edit')]
             for path in glob.glob(os.path.join(CRATES, '*', 'must-fail', '*.edit'))}
    told = set(re.findall(r'`(\w+)`', read('docs', 'MUST_FAIL.md')))
    for edit in sorted(named):
        check(edit in there, f'docs/CONTRACTS.md names {edit}, which is no must-fail edit')
    for edit in sorted(there):
        check(edit in named or edit.split('/')[1] in told, f'{edit} is named in no table')


def walks(check):
    length = {}
    for path in glob.glob(os.path.join(CRATES, '*', 'proofs', '**', 'Proof.antt'), recursive=True):
        text = read(path)
        if WALKED.search(text):
            crate, _, *owner = os.path.relpath(os.path.dirname(path), CRATES).split(os.sep)
            length['::'.join([crate, *owner])] = text.count('\n')
    table = {name: cells[0] for name, cells in rows(read('docs', 'WALKS.md'))}
    for name in sorted(length.keys() | table.keys()):
        check(name in table, f'{name} is walked by hand and has no row in docs/WALKS.md')
        check(name in length, f'docs/WALKS.md has a row for {name}, which is not walked by hand')
        if name in table and name in length:
            check(table[name] == str(length[name]), f'docs/WALKS.md: the proof of {name} has {length[name]} lines, not {table[name]}')


def claim(check):
    text = re.sub(r'(?m)^    .*$', '', read('docs', 'CLAIM.md'))
    sources = [path for kind in ('antt', 'rt') for path in glob.glob(os.path.join(CRATES, '**', '*.' + kind), recursive=True)]
    declared = set()
    for path in sources:
        declared |= set(re.findall(r'[\w][\w-]*', read(path)))
    for name in sorted(set(re.findall(r'`([^`\n]+)`', text))):
        if '=' in name or name.startswith('rt '):
            continue
        if '::' in name:
            crate, function = name.split('::')
            there = any(re.search(rf'\bfn {function}\b', read(path)) for path in sources if path.startswith(os.path.join(CRATES, crate, 'src')))
        elif '/' in name:
            there = any(os.path.exists(os.path.join(ROOT, below, name + end)) for below in ('', 'crates') for end in ('', '.antt'))
        else:
            there = name in declared or any(glob.glob(os.path.join(CRATES, '*', 'must-fail', name + '.edit')))
        check(there or name in ('this type',), f'docs/CLAIM.md names {name}, which is in no crate')


def main():
    passed, wrong = 0, []

    def check(holds, otherwise):
        nonlocal passed
        if holds:
            passed += 1
        else:
            wrong.append(otherwise)

    edits(check, contracts(check))
    walks(check)
    claim(check)
    for line in wrong:
        print(line)
    print(f'{passed} passed, {len(wrong)} failed')
    return 1 if wrong or not passed else 0


sys.exit(main())
