"""What shorter proofs leave behind: lemmas and imports that nothing names, and lines that are too long."""
import re

from lemmas import Unread, declarations, depths, imports, named, words

WIDTH = 120


def without(text, declaration):
    """A file without a declaration and the comment right above it."""
    comment = re.search(r'(?:^ *--[^\n]*\n)*\Z', text[:declaration.start], re.M)
    front = text[:comment.start()].rstrip('\n')
    rest = text[declaration.end:].strip('\n')
    return '\n\n'.join(part for part in (front, rest) if part) + '\n'


def is_cited(declaration, file, texts, outside):
    """Whether anything names a declaration: its own file, and where others may import it, these and `outside`, the
    words of all other files."""
    text = texts[file]
    if named(declaration.name, imports(text[:declaration.start])[1] + text[declaration.end:]):
        return True
    others = (other for name, other in texts.items() if name != file)
    return 'pub' in declaration.modifiers and (
        declaration.name in outside or any(named(declaration.name, other) for other in others))


def without_uncited(texts, files, outside):
    """The texts without the lemmas of these files that nothing names any more; and the names of these lemmas."""
    texts, gone = dict(texts), []
    while True:
        found = next(((file, declaration) for file in files for declaration in declarations(texts[file])
                      if re.match(r"[a-zA-Z][\w'\-]*$", declaration.name)
                      and not is_cited(declaration, file, texts, outside)), None)
        if found is None:
            return texts, gone
        file, declaration = found
        texts[file] = without(texts[file], declaration)
        gone.append(f'{file}: {declaration.name}')


def local_name(item):
    """The name that an import gives in its file, and for an operator its signs."""
    name = item.split(' as ')[-1]
    return [part for part in name.split('◌') if part] or [name]


def without_imports(text, old):
    """A file without the imports that its old text used and that it does not use any more."""
    body, old_body = imports(text)[1], imports(old)[1]

    def is_left(item):
        parts = local_name(item)
        return all(part in body for part in parts) or not all(part in old_body for part in parts)

    lines = []
    for line in text.split('\n'):
        found = re.match(r'( *use [\w.]+\.\{)(.*)\}$', line)
        items = [item for item in found[2].split(', ') if is_left(item)] if found else []
        if items or not found:
            lines.append(f'{found[1]}{", ".join(items)}}}' if found else line)
    return '\n'.join(lines)


def outside_words(top, crate):
    """The words of all files of a repository that may name a lemma of a crate, but for its lemma files."""
    found = set()
    for path in [*(top / 'crates').glob('*/**/*'), *(top / 'docs').glob('**/*.md'), *(top / 'tests').glob('*/**/*')]:
        inside = path.relative_to(top).parts
        is_text = path.suffix in ('.antt', '.rt', '.md', '.edit', '.twin') and 'out' not in inside
        if is_text and path.is_file() and path not in crate:
            found |= set(re.findall(r"[\w'\-≤<+]+", path.read_text(encoding='utf-8'))) | words(
                path.read_text(encoding='utf-8'))
    return found


def breaks(line):
    """Where a line may be broken, the best place last: after the `=` of a clause, and behind a comma."""
    try:
        places = [(depth, token, end) for depth, token, _, end in depths(line, 0, len(line))]
    except Unread:
        return []
    indent = len(line) - len(line.lstrip())
    inside = [place for place in places if indent + 12 < place[2] < WIDTH - 2]
    equals = [end for depth, token, end in inside if token == '=' and depth == 0][:1]
    commas = sorted((-depth, end) for depth, token, end in inside if token == ',')
    whole = [end for end in equals if len(line) - end + indent + 4 <= WIDTH]
    return [end for _, end in commas] + whole


def broken(text):
    """A text whose lines have at most 120 characters, but for those that have no place for a break."""
    left, lines = text.split('\n')[::-1], []
    while left:
        line = left.pop()
        is_proof = len(line) > WIDTH and not re.match(r' *(?:--|(?:pub )?use )', line)
        place = breaks(line)[-1:] if is_proof else []
        lines.append(line[:place[0]].rstrip() if place else line)
        if place:
            indent = len(line) - len(line.lstrip()) + 4
            left.append(' ' * indent + line[place[0]:].strip())
    return '\n'.join(lines)
