#!/usr/bin/env python3
"""Sets a tree's signatures, clauses and definitions beside those of an older one: `tools/changes.py OLD [NEW]`, two folders with crates/;
with `--laws` the laws of proofs/ in their place.

Prints what changed, the old text above the new one, as section 5 of docs/DESIGN-PASS.md has it. Comments, the breaking of lines, how binders
are grouped and the words of WORDS don't count."""
import re
import sys
from pathlib import Path

FOLDERS = [Path(a) for a in sys.argv[1:] if not a.startswith('--')]
OLD = FOLDERS[0]
NEW = FOLDERS[1] if len(FOLDERS) > 1 else Path(__file__).resolve().parent.parent


def squeeze(text):
    return re.sub(r'\s+', ' ', text).strip()


def no_comments(text, sign):
    return re.sub(r'(^|\s)' + sign + r'[^\n]*', r'\1', text)


def place(tree, path):
    """the crate, with the module"""
    parts = path.relative_to(tree).with_suffix('').parts
    return '::'.join((parts[1],) + tuple(x for x in parts[3:] if x not in ('lib', 'main')))


def functions(tree):
    """each public function: its signature and clauses, by crate, type and name"""
    found = {}
    for path in sorted(tree.glob('crates/*/src/**/*.rt')):
        crate = place(tree, path)
        text = no_comments(path.read_text(), '//')
        owner, end = '', 0
        for m in re.finditer(r'^( *)(?:impl(?:<[^>]*>)? ([^{]*?) \{|pub fn (\w+))', text, re.M):
            if m.group(2):
                owner, end = m.group(2), text.find('\n' + m.group(1) + '}', m.end())
                continue
            at = m.end()
            stop = re.compile(r'^' + m.group(1) + r'\{', re.M).search(text, at)
            one = text.find('{\n', at)
            head = text[m.start():stop.start() if stop else one]
            if one != -1 and (stop is None or one < stop.start()) and 'ensures' not in text[at:one] and 'requires' not in text[at:one]:
                head = text[m.start():one]
            name = (owner + '.' if m.start() < end else '') + m.group(3)
            found[crate, name] = squeeze(head).replace('( ', '(').replace(', )', ')')
    return found


def types(tree):
    """each public struct, enum and constant, and the ghost members of types and impls, by crate and name"""
    found = {}
    for path in sorted(tree.glob('crates/*/src/**/*.rt')):
        crate = place(tree, path)
        text = no_comments(path.read_text(), '//')
        for m in re.finditer(r'^pub (?:struct|enum) (\w+)[^\n]*\{\n.*?^\}|^pub const (\w+)[^\n]*;', text, re.M | re.S):
            found[crate, m.group(1) or m.group(2)] = squeeze(m.group(0))
        owner = ''
        for m in re.finditer(r'^impl(?:<[^>]*>)? ([^{]*?) \{|^ +ghost (?!use )(\w+)[^\n]*', text, re.M):
            owner = m.group(1) or owner
            if m.group(2):
                found[crate, owner + '.' + m.group(2)] = 'impl ' + owner + ': ' + squeeze(m.group(0))
    return found


HEAD = re.compile(r'^( *)((?:unfoldable |abbrev )?(?:pub )?(?:record |data )?)([^\s:(){}=]+)((?: [^:=]*)?) : (.*)$')


def declarations(tree, folder):
    """each declaration of specs/ whole, each law of proofs/ by its statement, by crate, file and name; both with the modules around them"""
    found = {}
    for path in sorted(tree.glob(f'crates/*/{folder}/**/*.antt')):
        parts = path.relative_to(tree).parts
        if parts[-1] in ('Answers.antt', 'Invariants.antt', 'Lib.antt'):
            continue
        crate, name = parts[1], '/'.join(parts[3:])
        blocks, around, lines = [], [], no_comments(path.read_text(), '--').split('\n')
        at = 0
        while at < len(lines):
            line = lines[at]
            depth = len(line) - len(line.lstrip())
            if line.strip():
                around = [x for x in around if x[0] < depth]
            m = re.match(r'^( *)module _ (.*) where *$', line)
            whole, last = line, at
            if re.match(r'^ *module _ ', line) and not m:
                while not whole.rstrip().endswith(' where') and last + 1 < len(lines):
                    last += 1
                    whole += ' ' + lines[last]
                m = re.match(r'^( *)module _ (.*) where *$', whole)
            if m:
                around.append((depth, squeeze(m.group(2))))
                at = last + 1
                continue
            m = HEAD.match(line)
            if m and not line.lstrip().startswith('use ') and not line.lstrip().startswith('module '):
                end = at + 1
                while end < len(lines) and lines[end].strip() and (len(lines[end]) - len(lines[end].lstrip()) > depth or not HEAD.match(lines[end])):
                    end += 1
                body = lines[at:end]
                is_law = folder == 'proofs'
                if is_law:
                    if 'pub' not in m.group(2):
                        at = end
                        continue
                    if 'record' not in m.group(2) and 'abbrev' not in m.group(2) and 'unfoldable' not in m.group(2):
                        k = 1
                        while k < len(body) and not re.match(r'^ *(?:' + re.escape(m.group(3)) + r'\b|unfolding )', body[k]):
                            k += 1
                        body = body[:k]
                key = crate, name, m.group(3)
                text = squeeze(' '.join(body))
                outer = ' '.join(x[1] for x in around)
                while key in found:
                    key = key[0], key[1], key[2] + "'"
                found[key] = (outer + ' ⊢ ' if outer else '') + text
                at = end
                continue
            at += 1
    return found


# Words of the old tree and what they read now; the page tells of them once.
WORDS = {'none': 'None', 'some': 'Some', 'get_elem?': 'slice_get', 'Fit': 'Option Value', 'Fits': 'Some', 'TooBig': 'None', 'Whole': 'Option ℤ', 'Number': 'Some', 'NotWhole': 'None', 'End': 'Option Value', 'Nothing': 'None',
         'end_of': ''}


def plain(text, old):
    """what is compared: binders one by one, tables as lists of words, and for the old tree its words as they read now"""
    text = re.sub(r'\bTable\b|\bList Row\b', 'List ℕ', text)

    def one_by_one(m):
        return ' '.join(f'{m.group(1)}{x} : {m.group(3)}{m.group(4)}' for x in m.group(2).split())

    text = re.sub(r'([({])([^(){}:]+) : ([^(){}]+?)([)}])', one_by_one, text)
    if old:
        text = ' '.join(WORDS.get(w, w) for w in re.sub(r'([(){},;])', r' \1 ', text).split())
    return squeeze(re.sub(r' *([(){},;]) *', r'\1', text))


def same(old, new):
    return old == new or plain(old, True) == plain(new, False)


def report(title, old, new):
    both = set(old) & set(new)
    changed = sorted(k for k in both if not same(old[k], new[k]))
    gone, fresh = sorted(set(old) - set(new)), sorted(set(new) - set(old))
    print(f'### {title}\n')
    print(f'{len(old)} before, {len(new)} now: {len(both) - len(changed)} read the same, {len(changed)} changed, {len(gone)} are under their name no more, {len(fresh)} are new.\n')
    by = {}
    for k in changed:
        by.setdefault(k[:-1], []).append([f'- {old[k]}', f'+ {new[k]}'])
    for k in gone:
        by.setdefault(k[:-1], []).append([f'- {old[k]}'])
    for k in fresh:
        by.setdefault(k[:-1], []).append([f'+ {new[k]}'])
    for place in sorted(by):
        print('`' + ' '.join(place) + '`\n\n```diff')
        print('\n'.join(line for item in by[place] for line in item))
        print('```\n')


if __name__ == '__main__':
    if '--laws' in sys.argv:
        report('Laws of proofs/', declarations(OLD, 'proofs'), declarations(NEW, 'proofs'))
    else:
        report('Public functions', functions(OLD), functions(NEW))
        report('Public types, constants and ghost members', types(OLD), types(NEW))
        report('Definitions, and laws of specs/', declarations(OLD, 'specs'), declarations(NEW, 'specs'))
