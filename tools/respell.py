#!/usr/bin/env python3
"""Brings the names of this repository's own definitions and lemmas to today's spelling: words in snake case.

usage: tools/respell.py          in the repository, once, right after the kit's port.py, on a tree in which nothing else was edited

It renames what specs/ and proofs/*.antt declare (definitions, record fields, lemmas) from camelCase or with-dashes to snake_case, in every .antt file, in the
clauses and `ghost use` lines of every .rt file, and in the texts of the must-fail edits, which port.py leaves as they were: these get the rest of today's
spelling here too (projections, operators, clauses), and each is then held against the file that it changes. Types, modules, functions of src/, exported names,
strings and the names that Rattle generates keep their spelling. It prints names that fall together, and edits that still have to be mended by hand.
"""
import collections
import pathlib
import re
import subprocess

ROOT = pathlib.Path(subprocess.check_output(['git', 'rev-parse', '--show-toplevel'], text=True).strip())
TOKEN = re.compile(r'[^\s(){}\[\].,;"`@]+')
DECLARED = re.compile(r'^(\s*)(?:(?:abbrev|unfoldable|ruleset)\s+)?(pub\s+)?(?:abbrev\s+|unfoldable\s+)?([^\s:(){}.,]+)\s*:(?:\s|$)')
MACHINE = re.compile(r'/Proof/(Lts|Tie)\.antt$|/proofs/By')

# what port.py itself respelled, since a library had the same spelling: only the edits still have it as it was
PORTED = '''add-at add-left add-low add-most add-row add-start after-first after-next all-done andThen answerOf as-line at-least-one atMost below-more below-none
below-one below-split between-done between-ends between-more between-none bin-fits binOf block-inside block-last block-spec blockOf by-count by-order by-rank
by-two bytes-back bytesOf clear-spec cond-cases cond-same count-spec countOf counted-spec counts-of digits-are div-mono each-at each-below each-same each-step
endOf entries-from entries-none entry-of entryAt entryOf finish-spec first-head first-marks first-rest first-spec float-is fraction-words from-one front-less
go-on grow-first grow-spec held-none in-blocks in-list in-mem in-reach is-empty-spec is-finite is-true joined-keeps kept-small last-fact last-none last-row
last-step lastOf leading-le len-spec lenOf length-digits length-spec lines-more load-spec moved-on mul-at mul-next mul-wide mul-words narrowed-none next-fits
no-nan no-overflow no-zero none-below none-left none-open numberOf of-mem one-left one-line open-block open-spec part-end part-slice pass-spec passes-on
passes-up place-at place-end place-found place-inside placeOf post-read pre-read put-both put-one put-spec putAll putAt putIn ran-on rank-mono rankOf read-spec
replicate-more rest-more rising-step row-back row-of rowOf rows-back rowsOf same-chosen same-length sameWords scaleOf seek-found shifted-at shifted-none
shifted-step slice-set so-far some-inj start-is startOf stateOf storeOf sub-wide sum-fits sum-more sum-room sum-same sum-step sumOf sumWord tail-all take-spec
taken-in tells-all tells-more textOf turn-moved turn-spec two-at-once tyBy units-of value-line value-none value-passes valueOf walk-end walk-more walk-none
wide-spec word-below word-first word-next word-of words-back wordsOf enum-told valued-laws'''.split()

# the words that have another name today, for the edits
WORDS = {'getD': 'get_or'}

# lemmas and a field that would get the name of a definition that they speak of, beside it in one file
APART = {'entry-at': 'entry_at_lem', 'told-p': 'told_p_lem', 'last-sound': 'last_sound_lem', 'refused-line': 'refused_line_lem', 'in-range': 'is_in_range'}


def snake(name):
    name = re.sub(r'(?<=[a-z0-9])(?=[A-Z])', '_', name.replace('-', '_'))
    return ''.join(c.lower() if c.isascii() else c for c in name)


def is_ours(name):
    return name[0].islower() and ('-' in name or re.search(r'[a-z0-9][A-Z]', name))


def declared(texts):
    """the names to turn: what is declared at the top of a file, and the fields of records"""
    tops, fields = collections.defaultdict(set), collections.defaultdict(set)
    for path, text in texts.items():
        if path.suffix != '.antt' or path.name == 'Proof.antt' or MACHINE.search(str(path)):
            continue
        for line in text.split('\n'):
            m = DECLARED.match(line)
            if m and is_ours(m[3]):
                if m[1] == '':
                    tops[m[3]].add(path)
                elif m[2] or '/specs/' in str(path):
                    fields[m[3]].add(path)
    return tops, fields


def turned(text, tops, fields, renamed):
    """one piece of antt without comments or strings"""
    out, at = [], 0
    for m in TOKEN.finditer(text):
        word, behind = m[0], text[m.start() - 1:m.start()] == '.'
        # `.name` is a field, or the last part of a path that names a definition: generated fields have dashes too
        if word in renamed and (not behind or word in fields or re.search(r'[A-Z]\w*\.$', text[:m.start()]) or '-' not in word):
            out += [text[at:m.start()], renamed[word]]
            at = m.end()
    return ''.join(out) + text[at:]


def line_turned(line, mark, tops, fields, renamed):
    """a line: code, strings and comment apart; in a comment, names in camel case and what stands between backticks"""
    parts = re.split(r'("(?:[^"\\]|\\.)*")', line)
    for i in range(0, len(parts), 2):
        code, found, said = parts[i].partition(mark)
        code = turned(code, tops, fields, renamed)
        if found:
            said = re.sub(r'`([^`]*)`', lambda m: '`' + turned(m[1], tops, fields, renamed) + '`', ''.join([said, *parts[i + 1:]]))
            said = re.sub(r"[a-z]\w*[A-Z]\w*", lambda m: renamed.get(m[0], m[0]), said)
            return ''.join(parts[:i]) + code + found + said
        parts[i] = code
    return ''.join(parts)


def rust_turned(text, tops, fields, renamed):
    """a source file: only `ghost` lines, clauses and comments"""
    out, inside = [], False
    for line in text.split('\n'):
        if re.match(r'\s*(ghost |requires|ensures)', line):
            inside = True
        if inside or '//' in line:
            code = line_turned(line, '//', tops, fields, renamed) if inside else line.partition('//')[0] + line_turned('//' + line.partition('//')[2], '//', tops, fields, renamed)
            out.append(code)
        else:
            out.append(line)
        if inside and re.search(r'[};]\s*$', line):
            inside = False
    return '\n'.join(out)


def edit_turned(line):
    """the spelling that port.py gives, on a line of an edit"""
    line = re.sub(r'λ (\w+)\. ⌜ (.*?)( ⌝|$)', lambda m: re.sub(rf'(?<![\w.]){m[1]}(?![\w])', 'result', m[2]) if m[1] != '_' else m[2], line)
    if ' ⌝' in line:
        line = re.sub(r'(?<![\w.])r(?![\w])', 'result', line.replace(' ⌝', ''))
    while re.search(r"([\w′]) \.(\w)", line):
        line = re.sub(r"([\w′]) \.(\w)", r'\1.\2', line)
    line = re.sub(r'\(([\w′.]+\.\w+)\)', r'\1', line)
    line = re.sub(r'(?<==|≡) (\w[^()]*(?:\([^()]*\)[^()]*)*) \.(\w+)(?= (?:≡|→))', r' (\1).\2', line)
    line = line.replace(') .', ').')
    line = re.sub(r'use (Prim\.Native\.Nat|mathlib\.Core\.Path|lib\.ListN|lib\.Dec)\.', 'use Rattle.std.specs.Prelude.', line)
    line = re.sub(r'use Rattle·(\w+)(?:·specs)?\.specs\.', r'use Rattle.\1.specs.', line)
    line = re.sub(r'(?<![\w])_([≡+*/<≤%^-])_', r'◌\1◌', line)
    return line.replace('″', "''").replace('′', "'")


def main():
    texts = {p: p.read_text() for d in ('specs', 'proofs', 'src') for p in sorted((ROOT / 'crates').glob(f'*/{d}/**/*')) if p.suffix in ('.antt', '.rt')}
    tops, fields = declared(texts)
    renamed = {n: APART.get(n, snake(n)) for n in (*tops, *fields)}
    together(texts, tops, fields, renamed)
    for path, text in texts.items():
        if MACHINE.search(str(path)):
            continue
        if path.suffix == '.rt':
            new = rust_turned(text, tops, fields, renamed)
        else:
            new = '\n'.join(line_turned(l, '--', tops, fields, renamed) for l in text.split('\n'))
        if new != text:
            path.write_text(new)
            texts[path] = new
    edits(tops, fields, {**{n: snake(n) for n in PORTED}, **renamed, **WORDS})


def together(texts, tops, fields, renamed):
    for path, text in texts.items():
        if path.suffix != '.antt' or MACHINE.search(str(path)):
            continue
        words = {m[0] for line in text.split('\n') for m in TOKEN.finditer(line.partition('--')[0])}
        for old in sorted(words & set(renamed)):
            if renamed[old] in words and renamed[old] != old:
                print(f'together: {path.relative_to(ROOT)}: {old} and {renamed[old]}')
        seen = {}
        for old in sorted(words & set(renamed)):
            if renamed[old] in seen:
                print(f'together: {path.relative_to(ROOT)}: {old} and {seen[renamed[old]]}')
            seen[renamed[old]] = old


def forms(line, tops, fields, renamed):
    """what a line of an edit may read today: a list that a `&mut` lends is .old or .new, and one that a `&` lends is .now"""
    line = turned(edit_turned(line), tops, fields, renamed)
    for entry in ('old', 'now'):
        ends = {'entry': entry, 'exit': 'new'}
        one = re.sub(r'\(now (\w+)\.(entry|exit)\)', lambda m: f'{m[1]}.{ends[m[2]]}', line)
        yield re.sub(r'now (\w+)\.(entry|exit)', lambda m: f'{m[1]}.{ends[m[2]]}', one)


def edits(tops, fields, renamed):
    for path in sorted((ROOT / 'crates').glob('*/must-fail/*.edit')):
        lines, out, texts, file, old = path.read_text().split('\n'), [], {}, None, None
        for line in lines:
            if line.startswith('file: '):
                file = path.parent.parent / line[6:]
                texts.setdefault(file, file.read_text())
            elif line.startswith('old: '):
                old = line[5:]
                found = [f for f in (old, *forms(old, tops, fields, renamed)) if texts[file].count(f) == 1]
                if not found:
                    print(f'by hand: {path.relative_to(ROOT)}: {old}')
                now = found[0] if found else list(forms(old, tops, fields, renamed))[0]
                line, was = 'old: ' + now, old
            elif line.startswith('new:') and old is not None:
                new = line[5:]
                if now != was:
                    new = dict(zip(forms(was, tops, fields, renamed), forms(new, tops, fields, renamed))).get(now, new)
                if texts[file].count(now) == 1:
                    texts[file] = texts[file].replace(now, new)
                line, old = 'new: ' + new if line != 'new:' else line, None
            out.append(line)
        path.write_text('\n'.join(out))


main()
