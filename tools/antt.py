"""What the tools share: the tree, crates.txt, the declarations of .antt files, the functions of .rt files, how many checks the machine can do."""
import io, os, pathlib, re, subprocess, tarfile
from collections import namedtuple

# ---- the tree: path -> text


def walk(root):
    """the files as they are now"""
    out = {}
    for folder, below, names in os.walk(root):
        below[:] = sorted(n for n in below if n not in ('.git', 'target', 'out'))
        for n in sorted(names):
            p = pathlib.Path(folder, n)
            out[str(p.relative_to(root))] = p.read_bytes().decode(errors='replace')
    return out


def at_commit(root, commit):
    """the files of a commit"""
    packed = subprocess.run(['git', 'archive', commit], cwd=root, capture_output=True, check=True).stdout
    with tarfile.open(fileobj=io.BytesIO(packed)) as t:
        return {m.name: t.extractfile(m).read().decode(errors='replace') for m in t if m.isfile()}


def lines_of(tree):
    """crate -> what follows its name before the colon, as `staticlib`, and the crates that it names"""
    lines = re.sub(r'#.*', '', tree.get('crates.txt', '')).split('\n')
    return {(head := l.split(':')[0].split())[0]: (head[1:], l.split(':')[1].split()) for l in lines if ':' in l}


def crates_of(tree):
    """crate -> the crates that it names"""
    return {crate: below for crate, (_, below) in lines_of(tree).items()}


def part(tree, crate, folder):
    """the files of crates/CRATE/FOLDER that a proof can see"""
    front = f'crates/{crate}/{folder}/'
    return {p: t for p, t in tree.items() if p.startswith(front) and p.endswith(('.antt', '.rt'))}


def is_program(tree, crate):
    return f'crates/{crate}/src/main.rt' in tree


def is_claims(crate):
    return crate == 'hbc_claims' or crate.startswith('hbc_claims_')


def is_archive(tree, crate):
    """a static library: exports alone, over a library's calls, and no crate can name it"""
    return 'staticlib' in lines_of(tree)[crate][0]


def is_layer(tree, crate):
    """a library that is called, not one of theorems and not an archive"""
    return not (is_program(tree, crate) or is_claims(crate) or is_archive(tree, crate))


# ---- .antt

# kind: abbrev, unfoldable, record, data, axiom, or law (a declaration with none of these marks); type: of a record or data its
# whole text; text: type and clauses with no comment and single spaces, under the sections that it stands in; fields: (name, type)
Declared = namedtuple('Declared', 'name kind pub line type text fields')
MARKS = r'((?:(?:unfoldable|abbrev|axiom|pub) )*)'


def spaced(text):
    return ' '.join(text.split())


def bare(text):
    """without comments, every line in its place"""
    def blank(m):
        return m.group(0) if m.group(0).startswith('"') else re.sub(r'[^\n]', '', m.group(0))
    while '{-' in text:  # innermost first: they nest
        plain = re.sub(r'\{-(?:(?!\{-|-\})[\s\S])*-\}', blank, text)
        if plain == text:
            break
        text = plain
    return re.sub(r'"(?:\\.|[^"\\\n])*"|(?<![^\s(){}.;,@«»])--[^\n]*', blank, text)


def indent_of(line):
    return len(line) - len(line.lstrip(' '))


def items(lines):
    """the declarations and clauses that start at the indentation of the first of LINES, each with what is indented below it"""
    out = []
    for n, line in lines:
        if out and (indent_of(line) > indent_of(lines[0][1]) or line.lstrip()[0] in ')}]'):
            out[-1].append((n, line))
        else:
            out.append([(n, line)])
    return out


def headed(item):
    """an item split after the line that ends in `where`"""
    for k, (_, line) in enumerate(item):
        if re.search(r'(^|\s)where$', line.rstrip()):
            return item[:k + 1], item[k + 1:]
    return item, []


def joined(lines):
    return spaced(' '.join(l for _, l in lines))


def declared(text):
    out = []

    def read(lines, around):
        at = None  # the signature that clauses belong to
        for item in items(lines):
            first = item[0][1].strip()
            if re.match(r'(pub )?(use|mod|open)\b|infix[lr]?\b', first):
                at = None
            elif re.match(r'(module|mutual)\b', first):
                head, body = headed(item) if first.startswith('module') else (item[:1], item[1:])
                if body:
                    read(body, around + ([joined(head)] if first.startswith('module') else []))
                at = None
            elif m := re.match(MARKS + r'(record|data) (\S+)', first):
                head, body = headed(item)
                fields = []
                for field in items(body) if body else []:
                    if f := re.match(r'(?:pub )?(\S+) : (.*)', joined(field)):
                        fields.append((f.group(1), f.group(2)))
                whole = ' '.join(around + [joined(item)])
                out.append(Declared(m.group(3), m.group(2), 'pub' in m.group(1), item[0][0], whole, whole, fields))
                at = None
            elif m := re.match(MARKS + r'(\S+)(?: \{[^}]*\})? :(?:\s|$)', first):
                marks = m.group(1).split()
                kind = next((k for k in ('unfoldable', 'abbrev', 'axiom') if k in marks), 'law')
                kind = 'abbrev' if 'abbrev' in marks else kind
                whole = ' '.join(around + [joined(item)])
                at = len(out)
                out.append(Declared(m.group(2), kind, 'pub' in marks, item[0][0], whole, whole, []))
            elif at is not None:
                out[at] = out[at]._replace(text=out[at].text + ' ' + joined(item))

    lines = [(n, l) for n, l in enumerate(bare(text).split('\n'), 1) if l.strip()]
    if lines:
        read(lines, [])
    return out


# ---- .rt

# path: its module and type, as in a module of proofs (io, ByteReader); pub: '', 'pub', 'pub(crate)'; clauses: (kind, line, text), a name left out
Function = namedtuple('Function', 'crate path name pub extern line head clauses')


def without_comments(text):
    return re.sub(r'"(?:\\.|[^"\\])*"|//[^\n]*', lambda m: m.group(0) if m.group(0)[0] == '"' else '', text)


def closed(text, at):
    """the place after the bracket that closes the one at AT"""
    pairs, depth = {'(': ')', '{': '}', '[': ']'}, 0
    opens, closes = text[at], pairs[text[at]]
    for k in range(at, len(text)):
        depth += (text[k] == opens) - (text[k] == closes)
        if depth == 0:
            return k + 1
    return len(text)


def functions(crate, path, text):
    text = without_comments(text)
    module = re.sub(r'(^|/)(lib|main|mod)$', '', path.split('/src/')[1][:-3]).replace('/', '.')
    types = [(m.start(), closed(text, m.end() - 1), m.group(1)) for m in re.finditer(r'^impl\b[^{\n]*?\b(\w+)(?:<[^{\n]*>)? \{', text, re.M)]
    out = []
    for m in re.finditer(r'^[ \t]*(pub(?:\([a-z]+\))? )?(?:const )?(extern "C" )?fn (\w+)', text, re.M):
        at = closed(text, text.index('(', m.end()))
        head, clauses = text[m.start():at], []
        while at < len(text) and text[at] not in '{;':
            k = re.compile(r'(ghost|requires|ensures)\*?(?:\s+\w+)?\s*\{').match(text, at)
            if k and text[at - 1].isspace():
                end = closed(text, k.end() - 1)
                clauses.append((k.group(1), text.count('\n', 0, at) + 1, spaced(text[k.end():end - 1])))
                at = end
            else:
                end = closed(text, at) if text[at] == '[' else at + 1  # an array's type has a semicolon
                head += '' if clauses else text[at:end]
                at = end
        of = [name for a, b, name in types if a < m.start() < b]
        out.append(Function(crate, '.'.join(([module] if module else []) + of), m.group(3), (m.group(1) or '').strip(), bool(m.group(2)),
                            text.count('\n', 0, m.start(3)) + 1, spaced(head), clauses))
    return out


def functions_of(tree, crate):
    return [f for p, t in part(tree, crate, 'src').items() if p.endswith('.rt') for f in functions(crate, p, t)]


# ---- the machine


def lanes():
    """how many `rt` side by side: each takes two processors and some gigabytes"""
    free = re.search(r'MemAvailable:\s+(\d+)', pathlib.Path('/proc/meminfo').read_text())
    return max(1, min(len(os.sched_getaffinity(0)) // 2, int(free.group(1)) // 5_000_000))
