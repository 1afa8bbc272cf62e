"""What the statements of lemma files are about: a body of such a name is no proof, and must stay."""
import re

from lemmas import RELATION, TYPE, declarations, lemma_files, words


def statement_words(text):
    """What the statements, the types and the `unfolding` lines of a file name, but for what they bind themselves:
    the body of such a name belongs to what is stated."""
    found = set()
    stated = [declaration.signature.split(' : ', 1)[1] for declaration in declarations(text)]
    stated += [match[0].split('\n', 1)[-1] for match in TYPE.finditer(text)]
    opened = [match[2] for match in re.finditer(r'^( *)unfolding (.*(?:\n\1 +\S.*)*)', text, re.M)]
    for part in [*stated, *opened]:
        bound = ' '.join(re.findall(r"(?:[({]|^ +)([^(){}:]+) : ", part, re.M)).split()
        found |= words(part) - set(bound)
    return found


def stated_in(texts, more=()):
    """What the statements of these files are about: the names in them, these other ones, and what the bodies of all
    these name, since a statement means something else if one of them does. What is shown to be equal, less or one of
    two needs no look: of such a body nothing is read."""
    found = set(more).union(*map(statement_words, texts))
    uses = {}
    for text in texts:
        for declaration in declarations(text):
            is_opened = {'abbrev', 'unfoldable'} & set(declaration.modifiers)
            if is_opened or not RELATION.search(declaration.result()):
                body = words(text[declaration.body:declaration.end])
                uses.setdefault(declaration.name, set()).update(body - {declaration.name})
            if is_opened:
                found.add(declaration.name)
    left = [name for name in found if name in uses]
    while left:
        new = uses[left.pop()] - found
        found |= new
        left += [name for name in new if name in uses]
    return found


def imported(text):
    """The names that a file imports, each with its module."""
    lines = re.findall(r'^ *(?:pub )?use ([\w.\-]+)\.\{((?:[^{}]|\n)*)\}', text, re.M)
    return {item.strip().split(' as ')[-1]: f'{module}.{item.strip().split(" as ")[0]}'
            for module, items in lines for item in items.split(',')}


def definitions(crate):
    """What the statements of the crate in a folder are about, and those of the crates beside it that import its lemma
    files: bodies of these names are no proofs."""
    texts = [path.read_text(encoding='utf-8') for path in [*lemma_files(crate), *(crate / 'specs').rglob('*.antt')]]
    more = set()
    for other in crate.parent.iterdir():
        for path in lemma_files(other) if other != crate else []:
            text = path.read_text(encoding='utf-8')
            taken = {name for name, whole in imported(text).items() if f'Rattle.{crate.name}.proofs.' in whole}
            more |= taken and taken & statement_words(text)
    return stated_in(texts, more)
