"""Closes the reading list of docs/AUDIT.md: finds what its definitions cite, in turn, for the table that docs/tables writes there.

A row of the list names a file and definitions of it. Of each definition the words count that its file defines, or imports from the
specs of a crate of this repository; constructors and fields count as their type. A type of the code counts by its name.
"""
import os, re

HOME = os.path.dirname(os.path.dirname(os.path.abspath(__file__)))
ROW = re.compile(r'^\| *(?:`([\w/]+\.(?:antt|rt))`)? *\| (.*?) \|')
DEFINITION = re.compile(r"^(?:abbrev |unfoldable )*(?:pub )?(?:unfoldable )?(?:(record|data|inductive) )?([A-Za-z][\w'-]*)(?: [({].*?)? :(?: |$)")
USE = re.compile(r'^(?:pub )?use Rattle\.(\w+)\.specs\.([\w.]+)\.\{([^}]*)\}')


def listed():
    """The listed definitions, by file."""
    found, file = {}, None
    with open(os.path.join(HOME, 'docs', 'AUDIT.md'), encoding='utf-8') as text:
        for line in text.read().split('<!-- made by docs/tables -->')[0].split('\n'):
            row = ROW.match(line)
            if not row:
                file = None
                continue
            file = row[1] or file
            if file:
                found.setdefault(file, set()).update(re.findall(r'`([\w\'-]+)`', row[2]))
    return found


def blocks(path):
    """The definitions of a file: the text of each by its name, and the definition that each constructor and field belongs to."""
    texts, owner, name, base, kind = {}, {}, None, 0, None
    with open(path, encoding='utf-8') as text:
        for line in text:
            code = line.split('--')[0].rstrip()
            indent, words = len(code) - len(code.lstrip()), code.strip()
            if not words or words.startswith(('use ', 'pub use ', 'pub mod ', 'unfolding')):
                continue
            if words.endswith('mutual'):
                base, name = 2, None
                continue
            if indent == 0:
                base = 0
            begins = DEFINITION.match(words)
            if begins and indent == base:
                name, kind = begins[2], begins[1]
                owner[name] = name
            elif begins and kind and name and indent > base:
                owner.setdefault(begins[2], name)
            if name:
                texts[name] = texts.get(name, '') + '\n' + words
    return texts, owner


def imports(path):
    found = {}
    with open(path, encoding='utf-8') as text:
        for line in text:
            use = USE.match(line)
            if use and os.path.isdir(os.path.join(HOME, 'crates', use[1])):
                for name in use[3].split(','):
                    found[name.strip()] = (use[1], use[2])
    return found


def place_of(crate, module, name):
    """The file and the definition that an import stands for: what stands in code counts by its type's name alone."""
    path = f'{crate}/specs/{module}.antt'
    if os.path.exists(os.path.join(HOME, 'crates', path)):
        _, owner = blocks(os.path.join(HOME, 'crates', path))
        handed_on = imports(os.path.join(HOME, 'crates', path)).get(name)
        if name not in owner and handed_on:
            return place_of(*handed_on, name)
        return path, owner.get(name, name)
    parts = module.split('.')
    if parts[0] == 'declared' and len(parts) > 2:
        return f'{crate}/src/{parts[1]}.rt', parts[2]
    return path, name


def cited_by(file, name, texts, owner, brought):
    """The definitions that one cites, each with its file."""
    for word in sorted(set(re.findall(r"[A-Za-z][\w'-]*", texts[name]))):
        if word in brought:
            yield place_of(*brought[word], word)
        elif word in owner:
            yield file, owner[word]


def closure():
    """The listed definitions, and all others that they cite, in turn; each by file. What stands nowhere is an error."""
    found = listed()
    todo = [(file, name) for file, names in sorted(found.items()) for name in sorted(names)]
    known, more, read = set(todo), {}, {}
    while todo:
        file, name = todo.pop()
        path = os.path.join(HOME, 'crates', file)
        if not os.path.exists(path):
            raise SystemExit(f'docs/AUDIT.md: {file} is no file')
        if not file.endswith('.antt'):
            continue
        if file not in read:
            read[file] = (*blocks(path), imports(path))
        texts, owner, brought = read[file]
        if name not in texts:
            raise SystemExit(f'docs/AUDIT.md: {file} has no definition {name}')
        for place in cited_by(file, name, texts, owner, brought):
            if place not in known and os.path.exists(os.path.join(HOME, 'crates', place[0])):
                known.add(place)
                more.setdefault(place[0], set()).add(place[1])
                todo.append(place)
    return found, more


def rows():
    """The table of what the listed definitions cite besides."""
    found, more = closure()
    out = [f'The steps above list {sum(map(len, found.values()))} definitions in {len(found)} files. They cite {sum(map(len, more.values()))} others, in turn, which stand in {len(more)} files.', '']
    return [*out, '| File | Cited besides |', '|---|---|', *(f'| `{file}` | {", ".join(f"`{name}`" for name in sorted(more[file]))} |' for file in sorted(more)), '']
