"""What the tools read of a text without a prover: antt without its comments, its header and its declarations, and the functions of Rattle
sources with the calls they make. No command of its own."""
import functools, pathlib, re

ROOT = pathlib.Path(__file__).resolve().parent.parent

# ---- antt

# a name of antt, a text in quotes, the begin of a comment, or one character
ANTT = re.compile(r'"(?:\\.|[^"\\])*"|«[^»]*»|\{-|--[^\n]*|[^\s(){}.;,@"«»]+|.', re.S)

def bare(text):
    """antt with blanks for its comments, so that lines and columns stay. `--` begins one only where a name could begin."""
    out, at, deep = [], 0, 0
    while at < len(text):
        if deep:
            # comments in braces stand in one another
            step = 2 if text[at:at + 2] in ('{-', '-}') else 1
            deep += {'{-': 1, '-}': -1}.get(text[at:at + 2], 0)
            out.append(''.join(c if c == '\n' else ' ' for c in text[at:at + step]))
            at += step
            continue
        m = ANTT.match(text, at)
        if m[0] == '{-': deep = 1
        comment = m[0] == '{-' or m[0].startswith('--')
        out.append(' ' * len(m[0]) if comment else m[0])
        at = m.end()
    return ''.join(out)

def tokens(text):
    """The names and marks of antt without comments."""
    return [t for t in ANTT.findall(text) if not t.isspace()]

def plain(text): return ' '.join(text.split())

def brought(text):
    """What the `use` lines of an antt file, or the `ghost use` lines of a source, bring: of an item the module that has it and its name there, of
    a module its path and ''."""
    items = {}
    for path, group, alias in re.findall(r'^(?:unfoldable |pub |ghost )*use\s+([^\s{;]+?)(?:\.\{([^}]*)\})?(?:[ \t]+as[ \t]+([^\s;]+))?[ \t]*;?$', bare(text), re.M):
        if not group: items[alias or path.split('.')[-1]] = (path, '')
        for one in filter(None, map(plain, group.split(','))):
            name, _, alias = one.partition(' as ')
            items[alias or name.split('.')[-1]] = ('.'.join([path, *name.split('.')[:-1]]), name.split('.')[-1])
    return items

class Said:
    """A declaration of antt: its name, whether it is `pub` and whether its clauses are open to others, the blocks around it, the lines of its
    type (of a record or a data type the whole), those of its clauses, and its line."""
    def __init__(self, name, words, around, line):
        self.name, self.words, self.around, self.line, self.type, self.clauses = name, words, around, line, [], []
    public = property(lambda self: 'pub' in self.words)
    open = property(lambda self: bool({'abbrev', 'unfoldable', 'record', 'data'} & set(self.words)))

WORDS = r'(?:(?:pub|abbrev|unfoldable|opaque|axiom)\s+)*'
DECLARES = re.compile(rf'(\s*)({WORDS})(?:(record|data)\s+([^\s:(){{}}]+)|([^\s:(){{}}.;,@"]+)(?:\s+\{{[^}}]*\}})*\s+:(?=\s|$))')

@functools.cache
def declarations(path):
    """The declarations of an antt file in their order; and the lines that belong to none, such as fixities, but for the header's."""
    said, loose, blocks, open_, head = [], [], [], None, ''
    for number, line in enumerate(bare(path.read_text()).splitlines(), 1):
        # a block's head may take several lines
        line, head = head + ' ' * bool(head) + (line.strip() if head else line), ''
        if not line.strip() or re.match(r'(?:unfoldable |pub )*(?:use|mod)\b', line): continue
        if re.match(r'\s*module\b(?!.*\bwhere\b)', line):
            head = line.rstrip()
            continue
        deep = len(line) - len(line.lstrip())
        if open_ and (deep > open_[0] or line[deep] in '})'):
            open_[1].append(line.rstrip())
            continue
        while blocks and deep <= blocks[-1][0]: blocks.pop()
        if m := re.match(r'\s*(?:module\b.*\bwhere|mutual)\s*$', line):
            blocks.append((deep, plain(line)))
            open_ = None
        elif m := DECLARES.match(line):
            one = Said(m[4] or m[5], (m[2].split() + [m[3] or '']), [b for _, b in blocks], number)
            said.append(one)
            one.type.append(line.rstrip())
            open_ = (deep, one.type)
        elif said and re.match(r'\s*unfolding\b', line) or said and said[-1].name in tokens(line.partition(' = ')[0]):
            said[-1].clauses.append(line.rstrip())
            open_ = (deep, said[-1].clauses)
        else:
            loose.append(line.rstrip())
            open_ = (deep, loose)
    return said, loose

def file_of(module, root=ROOT):
    """The file of a module of this repository, or None: the kit's, or a type that a source declares."""
    m = re.fullmatch(r'Rattle\.(\w+)\.(specs|proofs)\.(?!declared\.)(\S+)', module)
    path = m and root / 'crates' / m[1] / m[2] / (m[3].replace('.', '/') + '.antt')
    return path if path and path.is_file() else None

@functools.cache
def outside(path): return brought(path.read_text() if path.suffix == '.antt' else code(path.read_text()))

@functools.cache
def parts(path):
    """Each name that a file of antt declares, a constructor's and a field's too, with its declaration."""
    found = {}
    if path.suffix != '.antt': return found
    for one in declarations(path)[0]:
        if {'record', 'data'} & set(one.words):
            for m in filter(None, map(DECLARES.match, one.type[1:])): found.setdefault(m[5], one)
        found[one.name] = one
    return found

def names(path, lines):
    """The names in some lines of a file: those that its `use` lines bring, each with its module and its name there, and its own."""
    theirs, own, row, at = {}, set(), tokens('\n'.join(lines)), 0
    while at < len(row):
        name, chain = row[at], [row[at]]
        # a dotted path, of a module's name or from a library down
        while at + 2 < len(row) and row[at + 1] == '.' and (name == 'Rattle' or outside(path).get(name, ('', '-'))[1] == ''):
            at += 2
            chain.append(row[at])
        if name in outside(path):
            module, item = outside(path)[name]
            theirs['.'.join(chain)] = (module, item) if item else ('.'.join([module, *chain[1:-1]]), chain[-1])
        elif len(chain) > 1: theirs['.'.join(chain)] = ('.'.join(chain[:-1]), chain[-1])
        if name in parts(path): own.add(name)
        at += 1
    # an operator stands between its arguments
    there = set(row)
    def used(name): return '◌' in name and set(filter(None, name.split('◌'))) <= there and name.strip('◌')
    theirs.update((name, home) for name, home in outside(path).items() if used(name))
    return theirs, own | set(filter(used, parts(path)))

# ---- Rattle

# a comment, a string or a character
PIECE = re.compile(r'//[^\n]*|/\*.*?\*/|b?"(?:\\.|[^"\\])*"|b?\'(?:\\[^\n]+?|[^\'\\\n])\'', re.S)

def code(text):
    """Rattle with blanks for its comments and for what its strings hold, but for the "C" of an exported function."""
    def blank(m):
        if m[0] == '"C"': return m[0]
        ends = (0, 0) if m[0][0] == '/' else (m[0].index(m[0][-1]) + 1, 1)
        inside = m[0][ends[0]:len(m[0]) - ends[1]]
        return m[0][:ends[0]] + ''.join(c if c == '\n' else ' ' for c in inside) + m[0][len(m[0]) - ends[1]:]
    return PIECE.sub(blank, text)

# the head of an `impl`, with the type that it is of, also of a trait's
IMPL = r'^impl(?:<[^>]*>)?\s+(?:[\w:]+(?:<[^{;]*?>)?\s+for\s+)?(\w+)[^{;]*\{'

def generics(text, at):
    """The place behind a function's parameters in angle brackets, if it has some there."""
    return skip(text.replace('->', '  '), at, '<>') if text[at:at + 1] == '<' else at

def skip(text, at, pair='{}'):
    """The place behind the bracket that closes the one at a place."""
    deep = 0
    while at < len(text):
        deep += (text[at] == pair[0]) - (text[at] == pair[1])
        at += 1
        if not deep: break
    return at

@functools.cache
def source_types(crate, root=ROOT):
    """The structs and enums that a crate's sources declare: the file, the text, and by the file's `use` lines the crates that names come from."""
    found = {}
    for path in sorted((root / 'crates' / crate / 'src').glob('**/*.rt')):
        text = code(path.read_text())
        for m in re.finditer(r'^(?:pub )?(?:struct|enum) (\w+)[^;{(]*([;{(])', text, re.M):
            end = m.end() if m[2] == ';' else skip(text, m.end() - 1, '{}' if m[2] == '{' else '()')
            found[m[1]] = path, text[m.start():end], used_crates(text)
    return found

def imports(text):
    """What the `use` lines of Rattle bring: each name with its path, that of a group's name too."""
    found = {}
    def take(above, one):
        head, brace, rest = one.partition('{')
        path = [*above, *filter(None, (part.strip() for part in head.split(' as ')[0].split('::')))]
        if brace:
            for part in pieces(rest[:rest.rindex('}')]): take(path, part)
        elif path: found[head.partition(' as ')[2].strip() or path[-2 if path[-1] == 'self' else -1]] = [part for part in path if part != 'self' or part == path[0]]
    for one in re.findall(r'^\s*(?:pub(?:\([^)]*\))? )?use ([^;]*);', text, re.M): take([], one)
    return found

def used_crates(text): return {name: path[0] for name, path in imports(text).items()}

def types_under(module):
    """The source's type that a module of `declared` is made of, and those that its parts are of: the file, the name and the text."""
    m = re.fullmatch(r'Rattle\.(\w+)\.specs\.declared\.(\S+?)(?:\.TheVariants)?', module)
    ahead, seen = [(m[1], m[2].split('.')[-1])] if m else [], {}
    while ahead:
        crate, name = ahead.pop()
        path, text, uses = source_types(crate).get(name, (None, '', {}))
        if not path or (path, name) in seen: continue
        seen[path, name] = plain(text)
        ahead += [(uses.get(part, crate), part) for part in re.findall(r'\b[A-Z]\w*', text)]
        ahead += [(crate, part) for part in re.findall(r'\b[A-Z]\w*', text)]
    return seen

def pieces(text):
    """A list's parts, at the commas outside brackets."""
    out, deep = [''], 0
    for c in text:
        deep += (c in '([{<') - (c in ')]}>')
        if c == ',' and not deep: out.append('')
        else: out[-1] += c
    return [p.strip() for p in out if p.strip()]

def public_modules(crate):
    """The modules of a crate that others name on the way to a function."""
    path = crate / 'src' / 'lib.rt'
    return set(re.findall(r'^pub mod (\w+);', code(path.read_text()), re.M)) if path.is_file() else set()

class Function:
    """A function of a source: its crate, module and type, what it takes and answers by name, its body, whether others start there (a
    program's `main`, or what is exported for C), whether it is public, its file and its clauses there, what docs/PROMISES.md writes before its
    name (its type, or its module if that is public), and all that stands before its body."""
    def __init__(self, crate, module, owner, name, takes, answers, body, first=False, public=False, path=None, clauses=(), above='', contract=''):
        self.crate, self.module, self.owner, self.name, self.takes, self.answers, self.body = crate, module, owner, name, takes, answers, body
        self.first, self.public, self.path, self.clauses, self.above, self.contract = first, public, path, clauses, owner or above, contract
    said = property(lambda self: self.above + '::' * bool(self.above) + self.name)

def module(path):
    """The module of a source file, below its crate's `src`."""
    below = path.parts[path.parts.index('src') + 1:]
    return [] if path.stem in ('lib', 'main') else [*below[:-1], path.stem]

@functools.cache
def places(crate):
    """Where the proof of each function of a crate stands below `proofs/`, if there is something to write of it: below its module, of a type's below
    the type, wherever its `impl` is written."""
    files = {path: code(path.read_text()) for path in sorted((crate / 'src').glob('**/*.rt'))}
    homes = {name: [*module(path), name] for path, text in files.items() for name in re.findall(r'^(?:pub )?(?:struct|enum) (\w+)', text, re.M)}
    found = {}
    for path, text in files.items():
        blocks = [(m.start(), skip(text, m.end() - 1), m[1]) for m in re.finditer(IMPL, text, re.M)]
        for m in re.finditer(r'\bfn\s+(\w+)(?=[<(])', text):
            owner = next((homes.get(name, [*module(path), name]) for start, end, name in blocks if start < m.start() < end), module(path))
            found['/'.join([*owner, m[1]])] = path
    return found

def proved(crate, name):
    """Whether a file or a folder of a crate's proofs is there, or is where those of a function, a type's or a module's would stand: of most functions
    nothing is to be written."""
    path = crate / 'proofs' / name
    return path.is_dir() or path.with_name(path.name + '.antt').is_file() or any((place + '/').startswith(name + '/') for place in places(crate))

def inner(kind):
    """The name of the type behind references and lifetimes, and in what a `?` or a pattern takes it out of; of a slice or an array that of its parts, in brackets."""
    if m := re.match(r'(?:\w+::)*(?:Result|Option)<(.*)>$', (kind or '').strip(), re.S): kind = (pieces(m[1]) or [''])[0]
    m = re.fullmatch(r"(?:&\s*)?(?:'\w+\s+)?(?:mut\s+)?(?:([\w:]+)(?:<.*>)?|\[(.*?)(?:;[^;\]]*)?\])", (kind or '').strip(), re.S)
    return '' if not m else m[1].split('::')[-1] if m[1] else f'[{inner(m[2])}]'

@functools.cache
def c_functions(path):
    """The functions that a file in C defines, each with the words of its body."""
    text = re.sub(r'/\*.*?\*/|//[^\n]*|"(?:\\.|[^"\\\n])*"', ' ', path.read_text(), flags=re.S)
    return {m[1]: set(re.findall(r'\w+', text[m.end():skip(text, m.end() - 1)])) for m in re.finditer(r'^\w[^;{}()]*\b(\w+)\([^;{}]*?\)\s*\{', text, re.M)}

class Sources:
    """The functions of the crates under a folder, and which a program can call: by names, without a compiler. A call's name is looked up in its
    file, by the file's `use` lines and in its crate; a method by the type of what it is called on, as far as that is told by parameters, `let`,
    patterns and fields. Where it is not told, every method of that name is taken to be called: so what is not among the callable is certainly
    not called, and a function that is may be one too many."""
    def __init__(self, folder):
        self.functions, self.fields, self.uses = [], {}, {}
        for path in sorted(folder.glob('*/src/**/*.rt')):
            crate, module, text = path.relative_to(folder).parts[0], path.stem, code(path.read_text())
            self.uses[crate, module] = imports(text)
            above = module if module in public_modules(folder / crate) else ''
            for kind, name, at in ((m[1], m[2], m.end() - 1) for m in re.finditer(r'^\s*(?:pub )?(struct|enum) (\w+)(?:<[^>]*>)?\s*[{(]', text, re.M)):
                body = text[at + 1:skip(text, at, '{}' if text[at] == '{' else '()') - 1]
                for n, part in enumerate(pieces(body)):
                    part = re.sub(r'#\[[^]]*\]|\bpub\b', '', part).strip()
                    if kind == 'struct':
                        field, _, of = part.partition(':')
                        self.fields[name, field.strip() if of else str(n)] = inner(of or field)
                    elif m := re.match(r'(\w+)\s*([({])(.*)[)}]$', part, re.S):
                        for k, one in enumerate(pieces(m[3])):
                            field, _, of = one.partition(':') if m[2] == '{' else (str(k), '', one)
                            self.fields[f'{name}::{m[1]}', field.strip()] = inner(of)
            blocks = [(m.start(), skip(text, m.end() - 1), m[1]) for m in re.finditer(IMPL, text, re.M)]
            for m in re.finditer(r'\bfn\s+(\w+)(?=[<(])', text):
                owner = next((name for start, end, name in blocks if start < m.start() < end), '')
                opens = generics(text, m.end())
                at = skip(text, opens, '()')
                takes, answers = text[opens + 1:at - 1], re.compile(r'\s*->\s*((?:\[[^]]*\]|[^{\[])*?)\s*(?=\b(?:requires|ensures|ghost)\b|\{)').match(text, at)
                if answers: at = answers.end()
                clauses = []
                while c := re.compile(r'\s*(?:requires|ensures|ghost)\b[^{]*\{').match(text, at):
                    at = skip(text, c.end() - 1)
                    clauses.append(text[c.end():at - 1])
                at = text.find('{', at)
                first, public = owner + m[1] == 'main' or text.endswith('extern "C" ', 0, m.start()), text.endswith(('pub ', 'pub extern "C" '), 0, m.start())
                answer = inner(answers[1]) if answers else ''
                before = re.search(r'(?:#\[[^]]*\]\s*|pub |extern "C" )*\Z', text[max(0, m.start() - 200):m.start()])[0]
                self.functions.append(Function(crate, module, owner, m[1], takes, answer, text[at:skip(text, at)], first, public, path, clauses, above,
                                               before + text[m.start():at]))
        self.calls = {}

    def named(self, crate, module, path):
        """The functions that a path in a file may mean."""
        *above, name = path
        owner = above.pop() if above and above[-1][:1].isupper() else ''
        home, first = above[0] if above else crate, owner or name
        if not above and first in self.uses[crate, module]:
            # as it is called there
            path = self.uses[crate, module][first]
            home, owner, name = path[0], owner and path[-1], name if owner else path[-1]
        # a module of the crate's own; what is neither is a library's of the kit
        own = home in ('crate', 'self', 'super') or (crate, home) in self.uses
        if own: home = crate
        within = above[-1] if len(above) > (not own) else ''
        some = [f for f in self.functions if (f.crate, f.owner, f.name) == (home, owner, name) and within in ('', 'crate', 'self', 'super', f.module)]
        return [f for f in some if f.crate == crate and f.module == module and not above] or some

    def types(self, f):
        """What is told of the types of a function's names."""
        env = {'self': {f.owner}, 'Self': {f.owner}}
        def put(name, kind):
            if kind: env.setdefault(name, set()).add(kind)
        for part in pieces(f.takes):
            name, _, kind = part.partition(':')
            put(name.replace('mut', '').strip(), inner(kind))
        for m in re.finditer(r'\b(?:(\w+)::)?(\w+)\s*([({])([^(){}]*)[)}]\s*(?==>|=(?!=)|\|)', f.body):
            of = (m[1].replace('Self', f.owner) + '::' if m[1] else '') + m[2]
            for k, one in enumerate(pieces(m[4])):
                field, _, name = one.partition(':') if m[3] == '{' else (str(k), '', one)
                put((name or field).strip(), self.fields.get((of, field.strip())))
        for _ in range(3):
            for m in re.finditer(r'\blet\s+(?:mut\s+)?(\w+)\s*(?::\s*([^=;]+))?=\s*(?:&\s*)?(?:mut\s+)?', f.body):
                if m[2]: put(m[1], inner(m[2]))
                else:
                    for kind in self.kinds(f, env, m.end()): put(m[1], kind)
        return env

    def kinds(self, f, env, at):
        """The types that an expression, from a place of a body on, may have by its calls and fields; none where that is not told."""
        m = re.compile(r'[\w:]+').match(f.body, at)
        if not m: return set()
        path, at = m[0].split('::'), m.end()
        if len(path) > 1 and path[0] == 'Self': path[0] = f.owner
        if f.body[at:at + 1] == '(':
            at = skip(f.body, at, '()')
            here = {g.answers for g in self.named(f.crate, f.module, path)}
            if not here and path[0][:1].isupper(): here = {path[0]}
        elif re.match(r'\s*\{', f.body[at:]) and path[-1][:1].isupper():
            at = skip(f.body, f.body.find('{', at))
            here = {path[-2] if len(path) > 1 and path[-2][:1].isupper() else path[-1]}
        else: here = set(env.get(path[-1], ()))
        while m := re.compile(r'\s*\.\s*(\w+)|\[|\?').match(f.body, at):
            at = m.end()
            if m[0] == '?': continue
            if not m[1]: at, here = skip(f.body, m.start(), '[]'), {kind[1:-1] for kind in here if kind[:1] == '['}
            elif f.body[at:at + 1] == '(':
                at = skip(f.body, at, '()')
                here = {g.answers for g in self.functions if g.owner in here and g.name == m[1]}
            else: here = {self.fields.get((kind, m[1]), '') for kind in here}
        return here - {''}

    def callees(self, f):
        """The functions that one may call."""
        if f in self.calls: return self.calls[f]
        found, env = set(), self.types(f)
        for m in re.finditer(r'(?<![\w.:])((?:\w+::)*\w+)\(', f.body):
            path = m[1].split('::')
            if path[0] == 'Self': path[0] = f.owner
            found.update(self.named(f.crate, f.module, path))
        for m in re.finditer(r'\.\s*(\w+)\(', f.body):
            at = m.start()
            # back to where what it is called on begins
            while at and (f.body[at - 1].isalnum() or f.body[at - 1] in '_.:)]' or f.body[at - 1].isspace() and f.body[at] in '. \n'):
                at -= 1
                deep = f.body[at] in ')]'
                while deep and at:
                    at -= 1
                    deep += (f.body[at] in ')]') - (f.body[at] in '([')
            here = self.kinds(Function(f.crate, f.module, f.owner, f.name, f.takes, f.answers, f.body[:m.start()]), env, at)
            some = [g for g in self.functions if g.owner and g.name == m[1]]
            found.update([g for g in some if g.owner in here] if here else some)
        self.calls[f] = found
        return found

    def callable(self, crate, names):
        """What a crate's `main` or its exported functions of these names may call, with what that may call and they themselves, as (crate, `Type::name`)."""
        ahead, seen = [f for f in self.functions if f.crate == crate and f.first and f.name in names], set()
        while ahead:
            f = ahead.pop()
            if f in seen: continue
            seen.add(f)
            ahead += self.callees(f)
        return {(f.crate, f.said) for f in seen}
