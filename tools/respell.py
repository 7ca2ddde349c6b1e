#!/usr/bin/env python3
"""Respells the names that this repository's own specs/ and proofs/ define.

Run with no arguments at the top of the repository, after port.py. Types become upper camel case, all else of its own snake case, a prime an
apostrophe; modules become upper camel case. Names of std, of Rattle source and those that Rattle makes stay. Running it again changes nothing.
"""
import os
import re
import subprocess
import sys

RESERVED = set("""record ruleset data open where let in elim rec mod use pub abbrev unfoldable unfolding syntax module infix infixl infixr as
Type omega absurd cc search grind hole match if else fn impl trait struct enum type const static mut ref self Self ghost requires ensures
decreases for while loop return break continue move crate super true false prove result""".split())
MODIFIERS = {'pub', 'abbrev', 'unfoldable', 'rec', 'private'}
MADE_FILES = {'Answers', 'Invariants', 'Proof', 'Goals', 'Given'}  # below proofs/F/; the first three are written by hand, their names asked for
MADE_NAME = re.compile(r'^(invariant|decreases|returns|loop|overflow|bounds|branch)-')
ANSWER_ROOTS = {'c', 'g', 'l', 'w'}

ANTT_TOKEN = r'[^\s(){}\[\].,;:"`|]+'
RT_TOKEN = r"\w['′·\w]*(?:-['′·\w]+)*"
ANTT_LEX = re.compile(r'(?P<comment>(?:(?<=\s)|^)--[^\n]*)|(?P<string>"(?:\\.|[^"\\\n])*")|(?P<chain>%s(?:\.%s)*)' % (ANTT_TOKEN, ANTT_TOKEN), re.M)
RT_LEX = re.compile(r"(?P<comment>//[^\n]*)|(?P<string>\"(?:\\.|[^\"\\])*\"|'(?:\\.|[^'\\\n])')|(?P<chain>%s(?:\.%s)*)" % (RT_TOKEN, RT_TOKEN), re.M)
CHAIN = {'antt': re.compile(r'%s(?:\.%s)*' % (ANTT_TOKEN, ANTT_TOKEN)), 'rt': re.compile(r'%s(?:\.%s)*' % (RT_TOKEN, RT_TOKEN))}
USE = re.compile(r'^[ \t]*(?:ghost |pub )?use (?P<path>[^\s{};]+?)(?:\.?\{(?P<names>[^}]*)\}| as (?P<alias>[^\s;]+))?;?[ \t]*$', re.M)


def read(path):
    with open(path, encoding='utf-8', newline='') as f:
        return f.read()


def write(path, text):
    with open(path, 'w', encoding='utf-8', newline='') as f:
        f.write(text)


def camel(name):
    return ''.join(p[:1].upper() + p[1:] for p in re.split(r'[-_]', name) if p) if '-' in name or '_' in name else name[:1].upper() + name[1:]


def respelled_type(name):
    parts = name.replace('′', "'").split('-')
    return parts[0] + ''.join(p[:1].upper() + p[1:] for p in parts[1:])


def respelled(name):
    return name.replace('′', "'").replace('-', '_')


# Names whose words are not parted by dashes, or whose plain spelling a trait has.
CHOSEN = {'Inner-code': 'IsInnerCode', 'notIn': 'not_in', 'isField': 'is_field', 'isPolynomialProduct': 'is_polynomial_product'}


def code_only(text, lex):
    """The text with comments and strings blanked, each place as it was."""
    return lex.sub(lambda m: m.group() if m.group('chain') else re.sub(r'[^\n]', ' ', m.group()), text)


class Definition:
    def __init__(self, name, kind, is_type, made):
        self.name, self.kind, self.is_type, self.made = name, kind, is_type, made  # kind: lemma, function, type, field, constructor


def definitions(text, stem):
    """What a file of antt defines at the level of its module, of `module _ .. where` in it, and as fields and constructors."""
    lines = code_only(text, ANTT_LEX).split('\n')
    found, levels, body = [], [0], None  # body: (indent, kind) of a record or data
    for at, line in enumerate(lines):
        if not line.strip():
            continue
        indent = len(line) - len(line.lstrip(' '))
        while levels[-1] > indent:
            levels.pop()
        if body and indent <= body[0]:
            body = None
        words = line.split()
        if body and indent == body[0] + 2:
            while words and words[0] in MODIFIERS:
                words = words[1:]
            if ':' in words:
                for name in words[:words.index(':')]:
                    if name[0] not in '({':
                        found.append(Definition(name, 'field' if body[1] == 'record' else 'constructor', False, False))
            continue
        if indent != levels[-1]:
            continue
        if words[0] == 'module':
            levels.append(indent + 2)
            continue
        head = []
        while words and words[0] in MODIFIERS:
            head.append(words.pop(0))
        if not words:
            continue
        if words[0] in ('record', 'data') and len(words) > 1:
            found.append(Definition(words[1], 'type', True, False))
            body = (indent, words[0])
            continue
        if words[0] in ('use', 'open', 'mod', 'unfolding', 'infix', 'infixl', 'infixr', 'syntax'):
            continue
        if words[0] == 'ruleset' and len(words) > 1:
            found.append(Definition(words[1], 'function', False, False))
            continue
        if len(words) < 2 or ':' not in words:
            continue
        names = words[:words.index(':')]
        if any(not re.fullmatch(ANTT_TOKEN, n) or n == '=' for n in names):
            continue
        # the whole type: up to the next line that stands as far left
        kind = [' '.join(words[words.index(':') + 1:])]
        for more in lines[at + 1:]:
            if more.strip() and len(more) - len(more.lstrip(' ')) <= indent:
                break
            kind.append(more.strip())
        kind = ' '.join(kind).strip()
        is_type = bool(re.search(r'(^|\s)Type(\s+\d+|\s+\{?\w+\}?)?$', kind))
        for name in names:
            made = stem in MADE_FILES and (kind.startswith('goal.') or bool(MADE_NAME.match(name)))
            found.append(Definition(name, 'function' if head and head[-1] != 'pub' or 'abbrev' in head or 'unfoldable' in head else 'lemma', is_type, made))
    return found


class File:
    def __init__(self, path, crate, module):
        self.path, self.crate, self.module = path, crate, module
        self.sort = 'antt' if path.endswith('.antt') else 'rt'
        self.lex = ANTT_LEX if self.sort == 'antt' else RT_LEX
        self.text = read(path)
        self.stem = os.path.splitext(os.path.basename(path))[0]
        self.defs = definitions(self.text, self.stem) if self.sort == 'antt' else []
        self.uses = []  # (path, [(name, alias or None)] or None, alias of the module or None)
        code = code_only(self.text, self.lex)
        for m in USE.finditer(code):
            if self.sort == 'rt' and not m.group().lstrip().startswith('ghost'):
                continue
            names = None
            if m.group('names') is not None:
                names = []
                for item in m.group('names').split(','):
                    item = item.strip()
                    if item:
                        name, _, alias = item.partition(' as ')
                        names.append((name.strip(), alias.strip() or None))
            self.uses.append((m.group('path').rstrip('.'), names, m.group('alias')))
        self.code = code
        # the whole text but for the lines of use, for what stands there bare
        bare = USE.sub('', code) if self.sort == 'antt' else re.sub(r'^ghost use [^;]*;', '', code, flags=re.M)
        # a label of `record { .. }` binds nothing; a definition that looks like one has its type above it
        bare = re.sub(r'((?:^|[{;])[ \t]*)([^\s(){}\[\].,;]+)(?= = )', lambda m: m.group(1) + ' ' * len(m.group(2)), bare, flags=re.M) if self.sort == 'antt' else bare
        self.bare = set()
        for m in CHAIN[self.sort].finditer(bare):
            if not (m.start() and bare[m.start() - 1] == '.' and bare[m.start() - 2:m.start() - 1] != '.'):
                self.bare.add(m.group().split('.')[0])
        self.rust_types, self.rust_params = set(), set()
        if self.sort == 'rt':
            self.rust_types = set(re.findall(r'\b(?:struct|enum|trait|type|union) (\w+)', code))
            for m in re.finditer(r'^\s*(?:pub(?:\([^)]*\))? )?use ([^;]*);', code, re.M):
                self.rust_types |= set(re.findall(r'\b[A-Z]\w*', m.group(1)))
            self.rust_params = set(re.findall(r'\b([a-z_]\w*)\s*:(?!:)', bare))


def load():
    files, modules = [], {}
    for crate in sorted(os.listdir('crates')):
        for part in ('src', 'specs', 'proofs'):
            root = os.path.join('crates', crate, part)
            for base, folders, names in os.walk(root):
                folders.sort()
                for name in sorted(names):
                    path = os.path.join(base, name)
                    if part == 'src' and name.endswith('.rt'):
                        files.append(File(path, crate, None))
                    elif part != 'src' and name.endswith('.antt'):
                        inner = os.path.relpath(path, root)[:-5].replace(os.sep, '.')
                        module = f'Rattle.{crate}.{part}' + ('' if inner == 'Lib' else '.' + inner)
                        f = File(path, crate, module)
                        files.append(f)
                        modules[module] = f
    return files, modules


def rust_names(files, crate):
    out = set()
    for f in files:
        if f.sort == 'rt' and f.crate == crate:
            out.add(f.stem)
            out |= set(re.findall(r'\b(?:fn|mod|struct|enum|trait|type) (\w+)', f.code))
            out |= set(os.path.dirname(os.path.relpath(f.path, f'crates/{crate}/src')).split(os.sep))
    return out


def module_renames(files, said):
    """Files and folders of specs/ and proofs/ whose modules are not camel case: {(crate, part, old parts): new last part}."""
    moves = []
    for crate in sorted(os.listdir('crates')):
        rust = rust_names(files, crate)
        for part in ('specs', 'proofs'):
            root = os.path.join('crates', crate, part)
            for base, folders, names in os.walk(root, topdown=False):
                for name in sorted(names + folders):
                    path = os.path.join(base, name)
                    stem = name[:-5] if name.endswith('.antt') else name if os.path.isdir(path) else None
                    if stem is None or re.fullmatch(r"[A-Z][A-Za-z0-9]*", stem):
                        continue
                    below = os.path.relpath(path, root).split(os.sep)
                    if stem in rust or any(p in rust for p in below[:-1]) or stem[0] in '+.':
                        continue
                    if os.path.isdir(path) and any(x[:-5] in MADE_FILES for _, _, fs in os.walk(path) for x in fs):
                        continue
                    if not re.fullmatch(r"[\w-]+", stem):
                        continue
                    new = os.path.join(base, camel(stem) + name[len(stem):])
                    if os.path.exists(new):
                        said['conflicts'].append(f'module {path}: {new} is there')
                        continue
                    moves.append((path, new))
    return moves


def main():
    if not os.path.isdir('crates'):
        sys.exit('respell: no crates/ here')
    said = {'renamed': [], 'conflicts': [], 'kept': [], 'alias': [], 'local': [], 'modules': []}

    # modules first: paths and `pub mod` lines
    files, modules = load()
    moves = module_renames(files, said)
    if moves:
        parts = {}
        for old, new in moves:
            bits = old.split(os.sep)
            crate, part = bits[1], bits[2]
            stem = os.path.basename(old)
            stem = stem[:-5] if stem.endswith('.antt') else stem
            to = os.path.basename(new)
            to = to[:-5] if to.endswith('.antt') else to
            inner = '.'.join(os.path.relpath(os.path.dirname(old), os.path.join('crates', crate, part)).split(os.sep)) if len(bits) > 4 else ''
            parts[(crate, part, '.'.join(x for x in (f'Rattle.{crate}.{part}', inner, stem) if x and x != '.'))] = to
        for f in files:
            text = f.text
            for (crate, part, old), to in sorted(parts.items(), key=lambda x: -len(x[0][2])):
                text = re.sub(r'(?<![\w.])%s(?![\w-])' % re.escape(old), old.rsplit('.', 1)[0] + '.' + to, text)
                if f.sort == 'rt':  # `crate::specs::M::name` in an attribute
                    tail = old.split('.', 2)[2].replace('.', '::')
                    for owner in [crate] + ['crate'] * (f.crate == crate):
                        text = re.sub(r'(?<![\w:])%s(?!\w)' % re.escape(f'{owner}::{tail}'), f'{owner}::{tail}'.rsplit('::', 1)[0] + '::' + to, text)
                holder = old.rsplit('.', 1)[0]
                if f.module == holder:
                    text = re.sub(r'^(\s*(?:pub )?mod )%s\s*$' % re.escape(old.rsplit('.', 1)[1]), lambda m: m.group(1) + to, text, flags=re.M)
            if text != f.text:
                write(f.path, text)
        for old, new in moves:
            if subprocess.call(['git', 'mv', old, new], stderr=subprocess.DEVNULL):
                os.rename(old, new)
            said['modules'].append(f'{old} -> {new}')
        for base, _, names in os.walk('crates'):
            for name in names:
                if name.endswith('.edit') and os.path.basename(base) == 'must-fail':
                    path = os.path.join(base, name)
                    text, crate = read(path), base.split(os.sep)[1]
                    for old, new in moves:
                        a, b = os.path.relpath(old, f'crates/{crate}'), os.path.relpath(new, f'crates/{crate}')
                        text = re.sub(r'^(file: .*?)%s(?=[/.\s]|$)' % re.escape(a[:-5] if a.endswith('.antt') else a),
                                      lambda m: m.group(1) + (b[:-5] if b.endswith('.antt') else b), text, flags=re.M)
                    if text != read(path):
                        write(path, text)
        files, modules = load()

    # what each module's own names become
    maps, kinds, own_fields = {}, {}, {}  # maps[module][old] = new
    for module, f in modules.items():
        new = maps.setdefault(module, {})
        for d in f.defs:
            kinds[(module, d.name)] = d
            if d.made or d.name.startswith('◌') or '◌' in d.name:
                continue
            if d.name in CHOSEN:
                new[d.name] = CHOSEN[d.name]
                continue
            if '-' not in d.name and '′' not in d.name:
                if d.kind in ('lemma', 'function') and d.name[0].islower() and re.search('[A-Z]', d.name) and not d.name.isupper():
                    said['kept'].append(f'{d.name} ({module}): capitals inside')
                continue
            if not re.search(r'[A-Za-z]', d.name):
                continue
            if d.name[0].isupper() and d.name[0].isascii():
                if d.is_type:
                    new[d.name] = respelled_type(d.name)
                else:
                    said['kept'].append(f'{d.name} ({module}): a {d.kind} with a capital')
            elif d.name[0].islower():
                new[d.name] = respelled(d.name)
            else:
                said['kept'].append(f'{d.name} ({module}): begins with no letter')

    def scope_of(f):
        """Bare names of a file: {old: (module, old)} of the repository's own, and the foreign ones; aliases; module aliases."""
        own, foreign, aliases, roots = {}, set(), {}, {}
        for path, names, alias in f.uses:
            if names is None:
                last = alias or path.split('.')[-1]
                roots[last] = path if path in modules else None
                if alias:
                    aliases[alias] = (path, None)
                continue
            for name, as_name in names:
                if as_name:
                    aliases[as_name] = (path, name)
                elif path in modules and name in maps[path]:
                    own[name] = (path, name)
                elif path in modules and not any(d.name == name for d in modules[path].defs) and path + '.' + name in modules:
                    roots[name] = path + '.' + name
                else:
                    foreign.add(name)
        if f.module:
            for d in f.defs:
                if d.made:
                    foreign.add(d.name)
                elif d.name in maps[f.module] and d.kind != 'field':
                    own[d.name] = (f.module, d.name)
        return own, foreign, aliases, roots

    scopes = {f.path: scope_of(f) for f in files}

    def fields_map():
        out = {}
        for module in maps:
            for old, new in maps[module].items():
                if kinds[(module, old)].kind == 'field':
                    out.setdefault(old, (module, old))
        return out

    fields = fields_map()

    def conflicts():
        """{(module, old): [why]}"""
        out = {}

        def add(key, why):
            out.setdefault(key, []).append(why)

        for module, names in maps.items():
            plain = {d.name for d in modules[module].defs}
            by_new = {}
            for old, new in names.items():
                d = kinds[(module, old)]
                by_new.setdefault(new, []).append(old)
                if new in plain and new not in names:
                    add((module, old), f'{new} is defined in {module}')
                if new in RESERVED:
                    add((module, old), f'{new} is reserved')
            for new, olds in by_new.items():
                for old in olds[1:]:
                    add((module, old), f'{olds[0]} of {module} becomes {new} too')
        for f in files:
            own, foreign, aliases, roots = scopes[f.path]
            taken = {}
            imported = set(foreign) | set(roots)
            for path, names, alias in f.uses:
                for name, as_name in names or []:
                    if not as_name and name not in own:
                        imported.add(name)
                    if as_name:
                        imported.add(as_name)
            todo = dict(own)
            for old, key in fields.items():
                if old in f.bare and old not in foreign and old not in todo:
                    todo[old] = key
            for old, key in todo.items():
                new = maps[key[0]].get(key[1])
                if new is None or new == old:
                    continue
                if new in imported:
                    add(key, f'{f.path} imports {new}')
                elif f.sort == 'antt' and new in f.bare and new not in todo:
                    add(key, f'{f.path} has a name {new}')
                elif f.sort == 'rt' and new in f.rust_types:
                    add(key, f'{f.path} has the Rust type or trait {new}')
                elif f.sort == 'rt' and new in f.rust_params:
                    add(key, f'{f.path} has a parameter or field {new}')
                if new in taken and taken[new] != old:
                    add(key, f'{f.path} has {taken[new]} too, which becomes {new}')
                taken[new] = old
        return out

    for trial in range(2):
        bad = conflicts()
        if not bad:
            break
        for (module, old), why in sorted(bad.items()):
            d, new = kinds[(module, old)], maps[module][old]
            if trial == 0 and d.kind == 'lemma' and not d.is_type:
                to = new + '_lem'
            elif trial == 0 and d.is_type and not new.startswith('Is'):
                to = 'Is' + new
            else:
                to = None
            for w in why:
                said['conflicts'].append(f'{old} -> {new} ({module}): {w}; {"now " + to if to else "left as it is"}')
            if to:
                maps[module][old] = to
            else:
                del maps[module][old]
        scopes = {f.path: scope_of(f) for f in files}
        fields = fields_map()

    def kinds_here(f):
        return {d.name for d in f.defs} if f.module else set()

    # aliases and local names, each in its file
    alias_maps = {}
    for f in files:
        own, foreign, aliases, roots = scopes[f.path]
        out = {}
        here = {maps[k[0]][k[1]] for k in own.values()} | set(foreign) | set(own)
        for alias in sorted(aliases):
            new = respelled_type(alias) if alias[0].isupper() else respelled(alias)
            if new == alias and alias.endswith('_lem'):
                new = alias[:-4]
            if new == alias:
                continue
            if new in f.bare or new in here or new in out.values() or new in RESERVED or new in aliases or new in f.rust_types or new in f.rust_params:
                said['conflicts'].append(f'alias {alias} -> {new} ({f.path}): the name is taken; left as it is')
                continue
            out[alias] = new
            said['alias'].append(f'{alias} -> {new} ({f.path})')
        # names that the file binds itself, in a `where`, a `let`, a `λ` or as a parameter
        for token in sorted(f.bare) if f.sort == 'antt' else ():
            if '-' not in token and '′' not in token or not token[0].islower() or '◌' in token:
                continue
            if token in own or token in foreign or token in aliases or token in fields or token in roots or token in kinds_here(f):
                continue
            t = re.escape(token)
            if not re.search(r'(?:(?:^|[({\s])%s(?: [^\s():]+)* :(?=\s))|(?:\blet %s =)|(?:λ(?: [^\s.]+)* %s[ .])' % (t, t, t), f.code, re.M):
                continue
            new = respelled(token)
            if new in f.bare or new in here or new in out.values() or new in RESERVED or new in aliases or new in aliases.values():
                said['conflicts'].append(f'local {token} -> {new} ({f.path}): the name is taken; left as it is')
                continue
            out[token] = new
            said['local'].append(f'{token} -> {new} ({f.path})')
        alias_maps[f.path] = out

    def rewrite(f, text):
        own, foreign, aliases, roots = scopes[f.path]
        answers = f.stem in MADE_FILES
        renamed = alias_maps[f.path]
        chain = CHAIN[f.sort]

        def bare(token):
            if token in renamed:
                return renamed[token]
            if token in aliases or token in foreign:
                return token
            if token in own:
                return maps[own[token][0]][own[token][1]]
            if token in fields:
                return maps[fields[token][0]][fields[token][1]]
            return token

        def field(token):
            return maps[fields[token][0]][fields[token][1]] if token in fields else token

        def one(m):
            parts = m.group().split('.')
            start = m.start()
            dotted = start > 0 and m.string[start - 1] == '.' and m.string[start - 2:start - 1] != '.'
            if dotted:
                return '.'.join(field(p) for p in parts)
            # a path of an own module, or an alias of one
            module, rest = None, None
            for k in range(len(parts), 0, -1):
                path = '.'.join(parts[:k])
                if path in modules:
                    module, rest = path, k
                    break
                if k == 1 and parts[0] in roots and parts[0] not in own:
                    module, rest = roots[parts[0]] or '', k
            if module is not None and rest < len(parts):
                head = [renamed.get(parts[0], parts[0])] + parts[1:rest]
                if not module:
                    return '.'.join(head + parts[rest:])
                return '.'.join(head + [maps[module].get(parts[rest], parts[rest])] + [field(p) for p in parts[rest + 1:]])
            if parts[0] == 'Rattle' or parts[0] in ('mathlib', 'native', 'lib'):
                return m.group()
            first = bare(parts[0])
            if answers and parts[0] in ANSWER_ROOTS and len(parts) > 1:
                return '.'.join([first, parts[1]] + [field(p) for p in parts[2:]])
            return '.'.join([first] + [field(p) for p in parts[1:]])

        def lexed(m):
            if m.group('string'):
                return m.group()
            if m.group('comment'):
                return chain.sub(one, m.group())
            return one(m)

        # use lines by their own rule
        out, last = [], 0
        for m in USE.finditer(text):
            if f.sort == 'rt' and not m.group().lstrip().startswith('ghost'):
                continue
            path = m.group('path').rstrip('.')
            line = m.group()
            if m.group('names') is not None:
                items = []
                for item in m.group('names').split(','):
                    lead = item[:len(item) - len(item.lstrip())]
                    trail = item[len(item.rstrip()):]
                    name, sep, alias = item.strip().partition(' as ')
                    name = maps[path].get(name, name) if path in modules else name
                    items.append(lead + name + (sep + renamed.get(alias.strip(), alias) if sep else '') + trail)
                a, b = m.start('names') - m.start(), m.end('names') - m.start()
                line = line[:a] + ','.join(items) + line[b:]
            elif m.group('alias'):
                a, b = m.start('alias') - m.start(), m.end('alias') - m.start()
                line = line[:a] + renamed.get(m.group('alias'), m.group('alias')) + line[b:]
            out.append((m.start(), m.end(), line))
        # the rest, with `crate::proofs::M::lemma` in an attribute first
        def attribute(m):
            module = f"Rattle.{f.crate if m.group(1) == 'crate' else m.group(1)}.{m.group(2)}.{m.group(3).replace('::', '.')}"
            return m.group()[:m.start(4) - m.start()] + maps.get(module, {}).get(m.group(4), m.group(4))

        def between(part):
            if f.sort == 'rt':
                part = re.sub(r"(?<![\w:])(\w+)::(specs|proofs)::(\w+(?:::\w+)*?)::(\w['′·\w]*(?:-['′·\w]+)*)(?![\w:'-])", attribute, part)
            return f.lex.sub(lexed, part)

        pieces, last = [], 0
        for a, b, line in out:
            pieces += [between(text[last:a]), line]
            last = b
        return ''.join(pieces + [between(text[last:])])

    by_path = {f.path: f for f in files}
    changed = 0
    for f in files:
        text = rewrite(f, f.text)
        if text != f.text:
            write(f.path, text)
            changed += 1
    edits = 0
    for crate in sorted(os.listdir('crates')):
        folder = os.path.join('crates', crate, 'must-fail')
        for name in sorted(os.listdir(folder)) if os.path.isdir(folder) else []:
            path = os.path.join(folder, name)
            text = read(path)
            m = re.search(r'^file: (\S+)', text, re.M)
            f = m and by_path.get(os.path.join('crates', crate, m.group(1)))
            if not f:
                continue
            lines = [re.match(r'(old: |new: )?', line).group() + rewrite(f, line[re.match(r'(old: |new: )?', line).end():]) if not line.startswith('file: ') else line
                     for line in text.split('\n')]
            if '\n'.join(lines) != text:
                write(path, '\n'.join(lines))
                edits += 1

    for module in sorted(maps):
        for old, new in maps[module].items():
            if old != new:
                said['renamed'].append((old, new, module))
    once = {}
    for old, new, module in said['renamed']:
        once.setdefault((old, new), []).append(module)
    print(f'renamed: {len(said["renamed"])} definitions, {len(once)} names, {changed} files, {edits} must-fail edits')
    for (old, new), where in sorted(once.items()):
        print(f'{old} -> {new}')
    for head, key in (('modules', 'modules'), ('aliases', 'alias'), ('local names', 'local'), ('kept', 'kept'), ('conflicts', 'conflicts')):
        print(f'{head}: {len(said[key])}')
        for line in sorted(said[key]):
            print(line)
    # pages that still speak of an old name
    old_names = {old for old, new, _ in said['renamed']}
    hits, moved = [], {os.sep.join(old.split(os.sep)[2:]) for old, _ in moves}
    for page in ['README.md'] + [os.path.join(b, n) for d in ('docs', 'tools', 'bench') for b, _, ns in os.walk(d) for n in ns]:
        if os.path.isfile(page) and page.endswith(('.md', '.txt', '.py', '.sh')) and not page.endswith('respell.py'):
            for at, line in enumerate(read(page).split('\n'), 1):
                for q in re.findall(r"`([^`\s]+)`", line):
                    if set(re.split(r'[.:]+', q)) & old_names or any(q.rstrip('/').endswith(m) for m in moved):
                        hits.append(f'{page}:{at}: {q}')
    print(f'pages that name an old one (yours to change): {len(hits)}')
    for line in hits:
        print(line)


main()
