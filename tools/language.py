"""The line language, as docs/LANGUAGE.md has it: names, values, words, and what keeps a line out of the grammar.

Everything is bytes, as in the program: a text is never looked at as UTF-8.
"""
import re

MOST_BYTES = 65_536  # of a line, without its end
MOST_LINES = 1_048_576
MOST_COLUMNS = 64
MOST_TEXT = 255
MOST_COUNT = 1_048_576
LEAST_INT, MOST_INT = -(2**63), 2**63 - 1
RESERVED = (b'where', b'and', b'set', b'sum')
NAME = re.compile(rb'[A-Za-z][A-Za-z0-9_]{0,31}\Z')
NUMBER = re.compile(rb'(?:0|-?[1-9][0-9]*)\Z')
CONTROL = re.compile(rb'[\x00-\x1f\x7f]')
WORD = re.compile(rb"(?:[^ ']+|'[^']*(?:'|\Z))+")
TEXT_BODY = re.compile(rb"[^']*(?:''[^']*)*")
OPERATORS = (b'=', b'<>', b'<', b'<=', b'>', b'>=')
MERGES = (b'classic', b'resort', b'partial', b'extend')


class Outside(Exception):
    """What keeps a line out of the grammar: at which byte of it, counted from 0, and why."""

    def __init__(self, at, why):
        super().__init__(at, why)
        self.at, self.why = at, why


def is_name(word):
    """Whether this is a name of a table or a column."""
    return bool(NAME.match(word)) and word not in RESERVED


def int_of(word):
    """The number that a word spells, or None."""
    if not NUMBER.match(word) or len(word) > 20:
        return None
    number = int(word)
    return number if LEAST_INT <= number <= MOST_INT else None


def written(value):
    """A number or a text as a line has it."""
    if isinstance(value, int):
        return b'%d' % value
    return b"'" + value.replace(b"'", b"''") + b"'"


def shown(word):
    """A word for a message, in quotes of its own and not too long."""
    text = word.decode('utf-8', 'backslashreplace')
    text = ''.join(c if c.isprintable() else c.encode('unicode_escape').decode() for c in text)
    return '"' + (text if len(text) <= 40 else text[:37] + '...') + '"'


def words_of(line):
    """The words of a line, each with the place of its first byte. A space parts words where no quote is open."""
    return [(found.start(), found.group()) for found in WORD.finditer(line)]


# ---- why a word isn't what is wanted

def why_no_name(word):
    """Why a word is no name."""
    if word in RESERVED:
        return f'{shown(word)} is a word of the language and no name'
    if not re.match(rb'[A-Za-z]', word):
        return f'{shown(word)} is no name: a name begins with a letter'
    wrong = re.search(rb'[^A-Za-z0-9_]', word)
    if wrong:
        return f'{shown(word)} is no name: it has {shown(wrong.group())}, and there are only letters, digits and _'
    return f'{shown(word)} is no name: it has {len(word)} bytes, of at most 32'


def why_no_int(word):
    """Why a word is no number."""
    if re.match(rb'\+[0-9]', word):
        return f'{shown(word)} is no number: no + stands before one'
    if re.match(rb'-?0[0-9]+\Z', word):
        return f'{shown(word)} is no number: it has leading zeros'
    if word == b'-0':
        return '"-0" is no number: write 0'
    if re.match(rb'-?[0-9]+\Z', word):
        return f'{shown(word)} is no number: it is outside {LEAST_INT} to {MOST_INT}'
    if re.match(rb'-?[0-9]*\.[0-9]+\Z', word):
        return f'{shown(word)} is no number: there are whole numbers alone'
    if word.upper() == b'NULL':
        return f'{shown(word)} is no value: there is no NULL'
    if word[:1] == b'"':
        return f'{shown(word)} is no value: a text stands in single quotes'
    return f'{shown(word)} is no value: a number is decimal, a text stands in single quotes'


def check_text(at, word):
    """Refuses a word that begins with a quote and isn't a text."""
    closing, end = TEXT_BODY.match(word, 1).end(), len(word)
    if closing == end:
        raise Outside(at, 'the quote that begins here is never closed')
    if closing + 1 != end:
        raise Outside(at + closing + 1, 'behind the closing quote a space or the end of the line has to stand')
    text = word[1:closing].replace(b"''", b"'")
    wrong = CONTROL.search(word)
    if wrong:
        raise Outside(at + wrong.start(), f'a text has no byte 0x{wrong.group()[0]:02x}')
    if len(text) > MOST_TEXT:
        raise Outside(at, f'a text has at most {MOST_TEXT} bytes, and this one {len(text)}')


def check_value(at, word):
    """Refuses a word that is no value."""
    if word[:1] == b"'":
        check_text(at, word)
    elif int_of(word) is None:
        raise Outside(at, why_no_int(word))


def check_name(at, word):
    """Refuses a word that is no name."""
    if not is_name(word):
        raise Outside(at, why_no_name(word))


# ---- statements, as words behind the session's number; `end` is where the line ends

class Words:
    """The words of a line that are still to be read."""

    def __init__(self, words, end):
        self.words, self.end, self.next = words, end, 0

    def take(self, wanted):
        """The next word, which has to be there."""
        if self.next == len(self.words):
            raise Outside(self.end, f'the line ends where {wanted} has to stand')
        self.next += 1
        return self.words[self.next - 1]

    def peek(self):
        """The next word, or None."""
        return self.words[self.next][1] if self.next < len(self.words) else None

    def literal(self, *spelled):
        """One of these words."""
        wanted = ' or '.join(f'"{word.decode()}"' for word in spelled)
        at, word = self.take(wanted)
        if word not in spelled:
            raise Outside(at, f'{shown(word)} stands where {wanted} has to stand{case_hint(word, spelled)}')
        return word

    def name(self, of):
        """A name."""
        check_name(*self.take(f'the name of {of}'))

    def value(self):
        """A value."""
        check_value(*self.take('a value'))

    def count(self, of):
        """A number of rows or pages."""
        at, word = self.take(f'a number of {of}')
        number = int_of(word)
        if number is None or not 1 <= number <= MOST_COUNT:
            raise Outside(at, f'{shown(word)} is no number from 1 to {MOST_COUNT}')

    def finish(self, behind):
        """Nothing more."""
        if self.next < len(self.words):
            at, word = self.words[self.next]
            raise Outside(at, f'{shown(word)} stands behind {behind}, where the line has to end')


def case_hint(word, spelled):
    """What to say where only the case of the letters is wrong."""
    return ': words are spelled in small letters' if word.lower() in spelled else ''


def check_column(at, word):
    """Refuses what is no column before an operator."""
    operator = re.search(rb'[=<>]', word)
    if operator:
        why = f'{shown(word)} is no name: an operator is a word of its own, with spaces around it'
        raise Outside(at + operator.start(), why)
    check_name(at, word)


def conditions(words):
    """Nothing, or `where` and comparisons that are joined by `and`."""
    if words.peek() is None:
        return
    words.literal(b'where')
    while True:
        check_column(*words.take('the name of a column'))
        at, word = words.take('an operator')
        if word not in OPERATORS:
            raise Outside(at, f'{shown(word)} is none of the operators = <> < <= > >=, which are words of their own')
        words.value()
        if words.peek() is None:
            return
        words.literal(b'and')


def create(words):
    """A table's name, and 1 to 64 columns."""
    words.name('a table')
    first = words.next
    while words.peek() is not None or words.next == first:
        at, word = words.take('a column as "name:int" or "name:text"')
        name, colon, kind = word.partition(b':')
        if not colon:
            raise Outside(at, f'{shown(word)} is no column: a column is name:int or name:text')
        check_name(at, name)
        if kind not in (b'int', b'text'):
            hint = case_hint(kind, (b'int', b'text'))
            raise Outside(at + len(name) + 1, f'{shown(kind)} is no kind{hint}: a kind is int or text')
    if len(words.words) - first > MOST_COLUMNS:
        at = words.words[first + MOST_COLUMNS][0]
        raise Outside(at, f'a table has at most {MOST_COLUMNS} columns, and this one {len(words.words) - first}')


def rows(words):
    """A table's name, and one value or more."""
    words.name('a table')
    words.value()
    while words.peek() is not None:
        words.value()


def select(words):
    """A table's name, `*` or columns, and conditions."""
    words.name('a table')
    if words.peek() == b'*':
        words.take('*')
    else:
        words.name('a column, or *,')
        while words.peek() not in (None, b'where'):
            words.name('a column')
    conditions(words)


def chosen(words):
    """A table's name, and conditions."""
    words.name('a table')
    conditions(words)


def folded(words):
    """A table, a column, and conditions."""
    words.name('a table')
    words.name('a column')
    conditions(words)


def group(words):
    """A table, a column, `sum`, a column, and conditions."""
    words.name('a table')
    words.name('a column')
    words.literal(b'sum')
    words.name('a column')
    conditions(words)


def join(words):
    """A table and a column, twice."""
    for of in ('a table', 'a column', 'a table', 'a column'):
        words.name(of)
    words.finish('the statement')


def update(words):
    """A table, `set`, a column and its value, and conditions."""
    words.name('a table')
    words.literal(b'set')
    words.name('a column')
    words.value()
    conditions(words)


def alone(words):
    """A statement of one word."""
    words.finish('the statement')


def merge(words):
    """A move of the first delta, or a step of a merge into main."""
    verb = words.literal(b'l1', b'begin', b'end')
    if verb == b'l1':
        words.name('a table')
        words.count('rows')
    elif verb == b'begin':
        words.name('a table')
        words.literal(*MERGES)
    words.finish('the statement')


def save(words):
    """A step of a savepoint."""
    if words.literal(b'begin', b'step', b'seal', b'flip', b'drop') == b'step':
        words.count('pages')
    words.finish('the statement')


def shape(words):
    """A table."""
    words.name('a table')
    words.finish('the statement')


SESSION_VERBS = {
    b'create': create, b'insert': rows, b'bulk': rows, b'select': select, b'count': chosen, b'sum': folded,
    b'min': folded, b'max': folded, b'group': group, b'join': join, b'update': update, b'delete': chosen,
    b'begin': alone, b'commit': alone, b'abort': alone,
}
STORE_VERBS = {b'merge': merge, b'save': save, b'shape': shape}


def session_of(at, word, crowd):
    """The session's number; in a crowd the store has none."""
    if word in SESSION_VERBS or word in STORE_VERBS or word.lower() in SESSION_VERBS:
        raise Outside(at, f'the session\'s number is missing before {shown(word)}')
    number = int_of(word)
    least = 1 if crowd else 0
    if number is not None and least <= number <= 16:
        return number
    if crowd and number == 0:
        raise Outside(at, 'in a crowd the store speaks for itself: a session is 1 to 16')
    if re.match(rb'0[0-9]+\Z', word):
        raise Outside(at, f'{shown(word)} is no session: the number has no leading zeros')
    raise Outside(at, f'{shown(word)} is no session: the first word of a line is a number from {least} to 16')


def verb_of(session, at, word):
    """What reads the statement that this word begins."""
    verbs, others = (STORE_VERBS, SESSION_VERBS) if session == 0 else (SESSION_VERBS, STORE_VERBS)
    if word in verbs:
        return verbs[word]
    if word in others:
        whose = 'a session 1 to 16' if session == 0 else 'session 0'
        raise Outside(at, f'{shown(word)} is a statement of {whose}')
    if word.lower() in verbs:
        raise Outside(at, f'{shown(word)} is no statement: words are spelled in small letters')
    spelled = ', '.join(sorted(verb.decode() for verb in verbs))
    raise Outside(at, f'{shown(word)} is no statement: here stands one of {spelled}')


def check_controls(line, words):
    """Refuses a byte that belongs to no word, and stands outside of texts."""
    if line.startswith(b'\xef\xbb\xbf'):
        raise Outside(0, 'a byte order mark stands before the line; take it away')
    if line.endswith(b'\r'):
        raise Outside(len(line) - 1, 'the line ends in a carriage return: only a line feed ends a line')
    for at, word in words:
        wrong = None if word[:1] == b"'" else CONTROL.search(word)
        if wrong:
            byte = wrong.group()[0]
            name = {9: 'a tab', 13: 'a carriage return'}.get(byte, f'the byte 0x{byte:02x}')
            raise Outside(at + wrong.start(), f'{name} belongs to no word: words are separated by spaces')


def check_line(line, crowd=False):
    """Raises Outside where the program answers `refused syntax`; a comment is none. The line stands without its end."""
    if not line or line.startswith(b'#'):
        return
    found = words_of(line)
    check_controls(line, found)
    words = Words(found, len(line))
    session = session_of(*words.take("the session's number"), crowd)
    verb_of(session, *words.take('a statement'))(words)
