"""Whether two states of a crate promise the same: all but its proofs, and what its lemmas state."""
import re

from lemmas import TYPE, declarations, flat, lemma_files, words
from statements import definitions, imported, statement_words


def kept_files(crate):
    """The files of the crate in a folder that must not change: all but lemmas, answers, invariants and pages."""
    names = [path for path in sorted(crate.rglob('*')) if path.is_file()]
    for path in names:
        inside = path.relative_to(crate)
        is_proof = inside.parts[0] == 'proofs' and path.suffix == '.antt' and path.name != 'Lib.antt'
        if inside.parts[0] != 'out' and not is_proof and path.suffix != '.md':
            yield inside


def exported(text, stated):
    """The declarations of a file that others may import, or that statements are about: for each name what it states,
    and if a statement is about it, its body too."""
    found = {}
    for declaration in declarations(text):
        is_definition = declaration.name in stated or {'abbrev', 'unfoldable'} & set(declaration.modifiers)
        if is_definition or 'pub' in declaration.modifiers:
            whole = text[declaration.start:declaration.end] if is_definition else declaration.signature
            found.setdefault(declaration.name, []).append(flat(whole))
    for match in TYPE.finditer(text):
        found.setdefault(match[3], []).append(flat(match[0]))
    return found


def of_files(name, old, new, stated, above=None):
    """What differs between two texts of a lemma file, and the names that the second has no more. With the names that
    crates `above` import, only these are compared."""
    faults, gone = [], []
    if above is not None:
        before, after = exported(old, set()), exported(new, set())
        differ = [lemma for lemma in sorted(above) if before.get(lemma) != after.get(lemma)]
        return [f'{name}: {lemma} is not the same' for lemma in differ], gone
    before, after = exported(old, stated), exported(new, stated)
    for lemma, said in before.items():
        if lemma not in after:
            gone.append(lemma)
        elif said != after[lemma]:
            faults.append(f'{name}: {lemma} is not the same')
    faults += [f'{name}: {lemma} is new' for lemma in after if lemma not in before]
    # A statement means what its names mean: those of the parameters round it, and those that are imported.
    parameters = [re.findall(r'^ *module (?:.|\n)*? where$', text, re.M) for text in (old, new)]
    if parameters[0] != parameters[1]:
        faults.append(f'{name}: the parameters of its modules are not the same')
    before, after = imported(old), imported(new)
    for word in sorted(statement_words(new) & set(after)):
        if before.get(word) != after[word]:
            faults.append(f'{name}: {word} of its statements is imported from elsewhere')
    return faults, gone


def words_of(crates):
    """The words of the sources, definitions and proofs of the crates in a folder."""
    return set().union(*(words(path.read_text(encoding='utf-8')) for part in ('proofs', 'specs', 'src')
                         for path in crates.glob(f'*/{part}/**/*') if path.suffix in ('.antt', '.rt')))


def imported_above(crate):
    """The names that the crates beside a crate import from its lemma files, by file."""
    found = {}
    for other in crate.parent.iterdir():
        for path in other.glob('**/*.antt') if other != crate else []:
            for whole in imported(path.read_text(encoding='utf-8')).values():
                module, _, name = whole.rpartition('.')
                if module.startswith(f'Rattle.{crate.name}.proofs.'):
                    found.setdefault('/'.join(module.split('.')[2:]) + '.antt', set()).add(name)
    return found


def of_crate(old, new, is_above=False):
    """What differs between two states of a crate, each in a folder of crates; and the lemmas that are gone, each with
    its file. A lemma may be gone if no file of the crates beside the second names it. If only what crates above import
    counts, lists of lemma files are not compared, nor are lemmas that none of them names."""
    faults = []
    files = {*kept_files(old), *kept_files(new)}
    files -= {file for file in files if is_above and file.parts[0] == 'proofs'}
    above = imported_above(new) if is_above else None
    for file in sorted(files):
        texts = [(crate / file).read_bytes() if (crate / file).is_file() else None for crate in (old, new)]
        if texts[0] != texts[1]:
            faults.append(f'{new.name}/{file} is not the same')
    gone, stated = [], None
    names = {path.relative_to(crate) for crate in (old, new) for path in lemma_files(crate)}
    for file in sorted(names):
        texts = [(crate / file).read_text(encoding='utf-8') if (crate / file).is_file() else '' for crate in (old, new)]
        if texts[0] != texts[1]:
            stated = stated or definitions(old)
            named = above.get(file.as_posix(), set()) if is_above else None
            found, lost = of_files(f'{new.name}/{file}', *texts, stated, named)
            faults += found
            gone += [(file, lemma) for lemma in lost]
    left = words_of(new.parent) if gone else set()
    faults += [f'{new.name}/{file}: {lemma} is gone, and is still named' for file, lemma in gone if lemma in left]
    return faults, gone
