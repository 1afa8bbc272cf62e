"""The text of macros: the parts of a line, the arguments of a call, and a body with the arguments in place."""
import re

# A text in quotes, a comment, or what is between them.
PIECE = re.compile(r"""'(?:''|[^'])*'|"[^"]*"|;.*|[^'";]+|['"]""", re.S)
NAME = re.compile(r'[A-Za-z?_][\w?]*')
MOST_OF_NAME = 31
LONG_NAME = re.compile(rf'(?<![\w?])[A-Za-z?_][\w?]{{{MOST_OF_NAME},}}')
TOKEN = re.compile(r'[A-Za-z?_][\w?]*|\d[\w?]*|&+|[^\w?&]+')
QUOTED = re.compile(r"""'(?:''|[^'])*'|"[^"]*\"""")
# One or more & and a name after them, in a text or a comment.
JOINED = re.compile(r'(&+)([A-Za-z?_][\w?]*)')


class Wrong(Exception):
    """What is wrong with a call or a definition: a word for its kind, and why."""

    def __init__(self, kind, why):
        super().__init__(why)
        self.kind, self.why = kind, why


def pieces(line):
    """The pieces of a line: texts, the comment, and what is between them."""
    return PIECE.findall(line)


def without_comment(line):
    """A line without its comment."""
    if ';' not in line:
        return line.rstrip()
    if "'" not in line and '"' not in line:
        return line[: line.index(';')].rstrip()
    return ''.join(part for part in pieces(line) if part[0] != ';').rstrip()


def until_bracket(text, at):
    """The text inside the angle bracket that opens at a place, and the place after its end."""
    depth, start, made = 0, at, []
    while at < len(text):
        sign = text[at]
        if sign == '!' and at + 1 < len(text):
            made.append(text[at : at + 2] if depth > 1 else text[at + 1])
            at += 2
            continue
        depth += (sign == '<') - (sign == '>')
        at += 1
        if not depth:
            return ''.join(made)[1:], at
        made.append(sign)
    raise Wrong('OPEN', f'{text[start:]} is not closed by >')


def until_comma(text, at):
    """The argument that begins at a place without a bracket, and the place of its comma or of the end."""
    made = []
    while at < len(text) and text[at] != ',':
        quote = QUOTED.match(text, at)
        part = quote[0] if quote else text[at]
        at += len(part)
        if part == '!' and at < len(text):
            part = text[at]
            at += 1
        made.append(part)
    return ''.join(made).strip(), at


def bracketed(text, at):
    """The argument in brackets that begins at a place, and the place of its comma or of the end."""
    made, at = until_bracket(text, at)
    rest = re.match(r'[^,]*', text[at:])[0]
    if rest.strip():
        raise Wrong('FORM', f'{rest.strip()} follows a literal in angle brackets')
    return made, at + len(rest)


def split_arguments(text):
    """The arguments of a call, as pairs of the sign that they begin with (`<`, `%` or none) and the text."""
    text = text.strip()
    if not text:
        return []
    if not any(sign in text for sign in '<%!\'"'):
        return [('', part.strip()) for part in text.split(',')]
    found, at = [], 0
    while True:
        while at < len(text) and text[at].isspace():
            at += 1
        sign = text[at] if at < len(text) and text[at] in '<%' else ''
        made, at = bracketed(text, at) if sign == '<' else until_comma(text, at + len(sign))
        found.append((sign, made))
        if at >= len(text):
            return found
        at += 1


def open_parts(text, names):
    """The parts of a text between quotes and comments, of which names of parameters stay apart.

    A run of & loses one if it is beside a parameter, or longer than one: the rest is for bodies inside this one.
    """
    words = TOKEN.findall(text)
    are_names = [word.upper() in names for word in words]
    for at, word in enumerate(words):
        if word[0] == '&' and (len(word) > 1 or any(are_names[max(0, at - 1) : at + 2])):
            yield word[1:], False
        else:
            yield (word.upper(), True) if are_names[at] else (word, False)


def closed_parts(text, names):
    """The same of a text in quotes or of a comment: only a name with & before it is a parameter."""
    at = 0
    while True:
        found = JOINED.search(text, at)
        if not found:
            yield text[at:], False
            return
        is_one, name, end = len(found[1]) == 1, found[2].upper(), found.end()
        if not is_one or name not in names:
            yield text[at:end] if is_one else text[at : found.start()] + found[0][1:], False
            at = end
            continue
        yield text[at : found.start()], False
        yield name, True
        # The & after it only separates, unless it belongs to the next parameter.
        after = JOINED.match(text, end)
        is_next = after and (len(after[1]) > 1 or after[2].upper() in names)
        at = end + (text.startswith('&', end) and not is_next)


class Template:
    """A line of a body in which arguments take the place of the parameters, whose names have capitals here.

    Texts and comments have only parameters with an & before them; a comment of two semicolons is left out.
    """

    def __init__(self, line, names):
        whole = pieces(line)
        kept = [part for part in whole if part[:2] != ';;']
        split = [it for part in kept for it in (closed_parts if part[0] in '\'";' else open_parts)(part, names)]
        self.parts, self.is_cut, text = [], len(kept) < len(whole), ''
        for word, is_name in split:
            if is_name:
                self.parts += [text, word]
            text = '' if is_name else text + word
        # Texts and names in turn, a text last.
        self.parts.append(text)

    def put(self, given):
        """The line with these arguments."""
        if len(self.parts) == 1:
            made = self.parts[0]
        else:
            made = ''.join(given[part] if at % 2 else part for at, part in enumerate(self.parts))
        return made.rstrip() if self.is_cut else made
