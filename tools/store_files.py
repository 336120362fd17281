"""The files of a store, read as docs/FILES.md has them, and never written.

`read_store` gives what the files hold, or raises NoStore where no store is made, and Damage where the bytes aren't a
store's: in which file, at which offset, and why. Values are numbers and bytes. Words are those of docs/FILES.md.
"""
import collections
import itertools
import mmap
import os
import struct

import language

PAGE = 4096
HEAD = 6  # of a data page: the next page's number, and how many bytes are used
ROOM = PAGE - HEAD
MADE_BYTES = 3 * PAGE
MADE = 0x55
OPEN_GATE = 0xA7
SWITCH = b'\x05'
PAGES, LOGS = 'table.pages', ('table.redo', 'table.redo2')
KINDS = ('int', 'text')
FORMS = ('packed', 'runs', 'sparse')
MOST_TABLES, MOST_PARTS = 256, 8
MOST_ENTRIES = 2**30
MOST_ID = 2**31
MOST_PLACES = 2**31 - 1  # of a table's parts together
KEY = struct.Struct('>Q')
U32 = struct.Struct('<I')


class NoStore(Exception):
    """No store is made here, and why."""


class Damage(Exception):
    """The bytes aren't a store's: where, and why."""

    def __init__(self, file, offset, why):
        super().__init__(f'{file}, offset {offset:,}: {why}')
        self.file, self.offset, self.why = file, offset, why


Root = collections.namedtuple('Root', 'slot version length commits merges next offset image_length first_page file')
Column = collections.namedtuple('Column', 'name kind')
Chain = collections.namedtuple('Chain', 'data pages')
Vector = collections.namedtuple('Vector', 'form width keys own_keys dictionary_bytes vector_bytes')
Part = collections.namedtuple('Part', 'first_page pages bytes rows live vectors')


class Table:
    """A table: its columns, the parts of its main, and how many places its deltas have once the store is opened."""

    def __init__(self, name, columns):
        self.name, self.columns, self.parts = name, columns, []
        self.kinds = [KINDS.index(column.kind) for column in columns]
        self.second = self.first = self.logged = self.rows = 0


class Log:
    """What the log behind the image holds, and where it lies."""

    def __init__(self):
        self.frames = self.entries = self.commits = self.creates = self.merges = self.inserts = self.deletes = 0
        self.bytes = 0
        self.spans = []  # file, from, to


class Store:
    """All that the files hold."""

    def __init__(self, root):
        self.root, self.tables, self.log = root, [], Log()
        self.rows = {}  # by id: the table's number and the values, or the number alone
        self.next, self.commits, self.merges, self.length = root.next, root.commits, root.merges, root.length
        self.reached, self.page_file_bytes = [], 0

    def rows_of(self, table):
        """The rows of a table by ascending id."""
        return [values for _, (of, values) in sorted(self.rows.items()) if of == table]


# ---- bytes, and where they stand

class Cursor:
    """A place in some bytes. `where` tells of each of them the file and the offset, for what is said of damage."""

    def __init__(self, data, where, at=0, end=None):
        self.data, self.where, self.at = data, where, at
        self.end = len(data) if end is None else end

    def fail(self, why, at=None):
        """Says that the bytes at a place aren't a store's."""
        raise Damage(*self.where(self.at if at is None else at), why)

    def take(self, count, what):
        """The next bytes, so many."""
        start, self.at = self.at, self.at + count
        if self.at > self.end:
            self.fail(f'the bytes end within {what}', start)
        return self.data[start:self.at]

    def number(self, width, what):
        """The next number of so many bytes."""
        return int.from_bytes(self.take(width, what), 'little')


def file_bytes(path):
    """The bytes of a file; one that isn't there has none."""
    try:
        with open(path, 'rb') as it:
            return mmap.mmap(it.fileno(), 0, access=mmap.ACCESS_READ) if os.fstat(it.fileno()).st_size else b''
    except FileNotFoundError:
        return b''


def in_file(name):
    """Of bytes that are a whole file: where they stand."""
    return lambda at: (name, at)


# ---- pages

def check_made(data):
    """Says so where no store is made."""
    if not data:
        raise NoStore(f'there is no {PAGES}, or it is empty')
    if len(data) < MADE_BYTES:
        raise NoStore(f'{PAGES} has {len(data):,} bytes, of at least {MADE_BYTES:,}')
    if data[0] != MADE:
        raise NoStore(f'the first byte of {PAGES} is {data[0]:02x}, and not {MADE:02x}')


def read_root(data):
    """The root that the selector selects."""
    slot = 1 + data[1] % 2
    start = slot * PAGE
    fields = struct.unpack_from('<IIIIIQQII', data, start)
    root = Root(slot, *fields)
    if root.version == 1:
        root = root._replace(file=0)
    rules = (
        (root.version in (1, 2), 0, f'the root has version {root.version}, of 1 and 2'),
        (root.length <= MOST_ENTRIES, 4, f'the root has {root.length:,} entries, of at most {MOST_ENTRIES:,}'),
        (root.commits + root.merges <= root.length, 8, 'the root has more commits and merges than entries'),
        (1 <= root.next <= MOST_ID + 1, 16, f'the next row id is {root.next:,}, of 1 to {MOST_ID + 1:,}'),
        (root.offset <= 2**31 * root.length, 20, f'the log begins at {root.offset:,}, too far for so few entries'),
        ((root.image_length == 0) == (root.first_page == 0), 28, 'a directory has a length and a page, or neither'),
        (root.file in (0, 1), 40, f"the log's file is {root.file}, of 0 and 1"),
    )
    for holds, at, why in rules:
        if not holds:
            raise Damage(PAGES, start + at, why)
    return root


def read_chain(data, first, length, named):
    """The chain of so many bytes; `named` is the file and the offset of what names its first page."""
    pages, pieces, left, page = [], [], length, first
    if -(-length // ROOM) * PAGE > len(data):
        raise Damage(*named, f'a chain of {length:,} bytes is longer than the file')
    while left:
        start = page * PAGE
        if page < 3 or start + PAGE > len(data):
            raise Damage(*named, f'page {page:,} is no data page of the file')
        following, used = struct.unpack_from('<IH', data, start)
        wanted = min(left, ROOM)
        if used != wanted:
            raise Damage(PAGES, start + 4, f'page {page:,} has {used:,} bytes in use, where its chain needs {wanted:,}')
        pieces.append(data[start + HEAD:start + HEAD + used])
        pages.append(page)
        left, page, named = left - used, following, (PAGES, start)
    if page:
        raise Damage(*named, 'the chain goes on behind its end' if length else 'a chain of no bytes has a page')
    return Chain(b''.join(pieces), pages)


def in_chain(chain):
    """Of a chain's bytes: where they stand in the page file."""
    def where(at):
        """The file, and the offset of a byte of the chain."""
        index = min(at // ROOM, len(chain.pages) - 1)
        return PAGES, chain.pages[index] * PAGE + HEAD + at - index * ROOM
    return where


# ---- names, columns, values

def read_name(cursor, of):
    """A name."""
    at = cursor.at
    name = cursor.take(cursor.number(1, f'the name of {of}'), f'the name of {of}')
    if not language.is_name(name):
        cursor.fail(f'{language.shown(name)} is no name of {of}', at)
    return name


def read_columns(cursor):
    """The columns of a table."""
    at = cursor.at
    count = cursor.number(1, 'the columns')
    if not 1 <= count <= language.MOST_COLUMNS:
        cursor.fail(f'a table of {count} columns', at)
    columns = []
    for _ in range(count):
        kind = cursor.number(1, "a column's kind")
        if kind > 1:
            cursor.fail(f'{kind} is no kind of a column', cursor.at - 1)
        columns.append(Column(read_name(cursor, 'a column'), KINDS[kind]))
    if len({column.name for column in columns}) < count:
        cursor.fail('two columns have one name', at)
    return columns


def int_of_key(key):
    """The number that a key of eight bytes stands for."""
    return KEY.unpack(key)[0] - 2**63


def check_text(cursor, text, at):
    """Says that a text isn't one."""
    if language.CONTROL.search(text):
        cursor.fail('a text has a control byte', at)
    return text


def read_cell(cursor, kind):
    """A value of a row of an image."""
    if kind == 'int':
        return int_of_key(cursor.take(8, 'a number'))
    at = cursor.at
    return check_text(cursor, cursor.take(cursor.number(1, 'a text'), 'a text'), at)


# ---- parts

def read_dictionary(cursor, kind):
    """The keys of a dictionary, as values."""
    start = cursor.at
    count = cursor.number(4, "a dictionary's length")
    keys, before = [], b''
    for place in range(count):
        at = cursor.at
        shared = 0 if place % 16 == 0 else cursor.number(1, 'a key')
        rest = cursor.take(cursor.number(1, 'a key'), 'a key')
        key = before[:shared] + rest
        if shared > len(before) or place and key <= before:
            cursor.fail('the keys of a dictionary do not ascend', at)
        if place % 16 and shared < len(before) and rest[:1] == before[shared:shared + 1] and rest:
            cursor.fail('a key shares more of the one before than it says', at)
        if kind == 'int' and len(key) != 8 or len(key) > language.MOST_TEXT:
            cursor.fail(f'a key of {len(key)} bytes in a column of {kind}', at)
        keys.append(int_of_key(key) if kind == 'int' else check_text(cursor, key, at))
        before = key
    return keys, cursor.at - start


def width_of(reach):
    """How many bits a code has, where there are so many codes."""
    return (reach - 1).bit_length() if reach else 0


def read_bits(cursor, count, width, what):
    """So many numbers of so many bits; the bits behind them are 0."""
    start = cursor.at
    data = cursor.take((count * width + 7) // 8, what)
    if not width:
        return [0] * count
    mask, shifts, numbers = 2**width - 1, range(0, 64 * width, width), []
    for at in range(0, len(data), 8 * width):
        word = int.from_bytes(data[at:at + 8 * width], 'little')
        numbers += [word >> shift & mask for shift in shifts]
    if any(numbers[count:]):
        cursor.fail('bits behind the last one are set', start + len(data) - 1)
    return numbers[:count]


def read_runs(cursor, rows):
    """The codes of runs."""
    codes, last = [], None
    for _ in range(cursor.number(4, 'the runs')):
        at = cursor.at
        code, length = cursor.number(4, 'a run'), cursor.number(4, 'a run')
        if code == last or not length or length > rows - len(codes):
            cursor.fail('a run of the code before it, of no rows, or of too many', at)
        codes += [code] * length
        last = code
    if len(codes) < rows:
        cursor.fail(f'runs of {len(codes):,} rows, of {rows:,}')
    return codes


def read_sparse(cursor, rows, width):
    """The codes of a vector that leaves one out."""
    left_out = cursor.number(4, 'the code that is left out')
    marks = read_bits(cursor, rows, 1, 'the marks')
    others = iter(read_bits(cursor, sum(marks), width, 'the marked codes'))
    return [next(others) if mark else left_out for mark in marks], left_out


def least_form(codes, width):
    """Which form takes the fewest bits, and the code that a sparse vector leaves out."""
    counts = collections.Counter(codes)
    frequent = min(counts, key=lambda code: (-counts[code], code), default=0)
    runs = sum(1 for _ in itertools.groupby(codes))
    sizes = (len(codes) * width, 64 * runs, len(codes) + (len(codes) - counts[frequent]) * width)
    return sizes.index(min(sizes)), frequent


def read_vector(cursor, rows, reach):
    """The codes of a column, and their form."""
    start, width = cursor.at, width_of(reach)
    form, left_out = cursor.number(1, "a vector's form"), None
    if form == 0:
        codes = read_bits(cursor, rows, width, 'the codes')
    elif form == 1:
        codes = read_runs(cursor, rows)
    elif form == 2:
        codes, left_out = read_sparse(cursor, rows, width)
    else:
        cursor.fail(f'{form} is no form of a vector', start)
    if codes and max(codes) >= reach:
        cursor.fail(f'the code {max(codes):,} is outside the dictionaries, of {reach:,} keys', start)
    best, frequent = least_form(codes, width)
    if form != best:
        cursor.fail(f'the vector is {FORMS[form]}, where {FORMS[best]} takes the fewest bits', start)
    if form == 2 and left_out != frequent:
        cursor.fail(f'the code {left_out} is left out, where {frequent} is the most frequent, or least of these', start)
    return codes, FORMS[form], width, cursor.at - start


def read_vectors(cursor, columns, rows, keys):
    """The columns of a part; `keys` are those of the parts before, and of this one behind the call."""
    cells, vectors = [], []
    for column, known in zip(columns, keys):
        start, before = cursor.at, set(known)
        own, dictionary_bytes = read_dictionary(cursor, column.kind)
        if not before.isdisjoint(own):
            cursor.fail('a key stands in an earlier dictionary of the column too', start)
        first = len(known)
        known += own
        codes, form, width, vector_bytes = read_vector(cursor, rows, len(known))
        if len({code for code in codes if code >= first}) < len(own):
            cursor.fail('the dictionary has a key that no row of the part has', start)
        cells.append([known[code] for code in codes])
        vectors.append(Vector(form, width, len(known), len(own), dictionary_bytes, vector_bytes))
    return cells, vectors


def read_part(data, reference, columns, keys):
    """A part: what is told of it, the ids of its rows, and their values by columns."""
    named, first, length, rows, live = reference
    chain = read_chain(data, first, length, named)
    if not chain.pages:
        raise Damage(*named, 'a part of no bytes')
    cursor = Cursor(chain.data, in_chain(chain))
    if cursor.number(4, 'the rows of a part') != rows:
        cursor.fail(f'the part has another number of rows than the {rows:,} of the directory', 0)
    ids = struct.unpack(f'<{rows}I', cursor.take(4 * rows, 'the ids of a part'))
    if not all(1 <= identity <= MOST_ID for identity in ids):
        cursor.fail(f'a row id outside 1 to {MOST_ID:,}', 4)
    cells, vectors = read_vectors(cursor, columns, rows, keys)
    if cursor.at != cursor.end:
        cursor.fail('the part goes on behind its last column')
    return Part(first, chain.pages, length, rows, sum(live), vectors), ids, cells


# ---- the image

def read_reference(cursor):
    """What the directory says of a part."""
    named = cursor.where(cursor.at)
    first, length = cursor.number(4, 'a part'), cursor.number(8, 'a part')
    rows = cursor.number(4, 'a part')
    return named, first, length, rows, read_bits(cursor, rows, 1, 'the live marks')


def read_delta(cursor, columns):
    """The rows of a delta: where each stands, its id and its values."""
    rows = []
    for _ in range(cursor.number(4, 'the rows of a delta')):
        at = cursor.at
        identity = cursor.number(4, "a row's id")
        rows.append((at, identity, [read_cell(cursor, column.kind) for column in columns]))
    return rows


def add_row(store, cursor, at, identity, number, values):
    """Adds a row of the image."""
    if not 1 <= identity < store.root.next:
        cursor.fail(f'the row id {identity:,} is outside 1 to {store.root.next - 1:,}', at)
    if identity in store.rows:
        cursor.fail(f'the row id {identity:,} stands in the image twice', at)
    store.rows[identity] = (number, values)


def read_table(store, data, cursor):
    """A table of the directory, with its parts."""
    at = cursor.at
    table, number = Table(read_name(cursor, 'a table'), read_columns(cursor)), len(store.tables)
    if any(table.name == other.name for other in store.tables):
        cursor.fail('two tables have one name', at)
    store.tables.append(table)
    count = cursor.number(1, 'the parts')
    if count > MOST_PARTS:
        cursor.fail(f'{count} parts, of at most {MOST_PARTS}', cursor.at - 1)
    references = [read_reference(cursor) for _ in range(count)]
    second, first = read_delta(cursor, table.columns), read_delta(cursor, table.columns)
    for place, identity, values in second + first:
        add_row(store, cursor, place, identity, number, values)
    table.second, table.first = len(second), len(first)
    if sum(reference[3] for reference in references) > MOST_PLACES:
        cursor.fail(f'the parts of a table have more than {MOST_PLACES:,} rows', at)
    keys = [[] for _ in table.columns]
    for reference in references:
        add_part(store, data, cursor, table, number, reference, keys)


def add_part(store, data, cursor, table, number, reference, keys):
    """Reads a part of a table, and adds its live rows."""
    part, ids, cells = read_part(data, reference, table.columns, keys)
    table.parts.append(part)
    store.reached += part.pages
    named = Cursor(b'', lambda _: reference[0])
    rows = zip(*cells)
    for identity, live, values in zip(ids, reference[4], rows):
        if live:
            add_row(store, named, 0, identity, number, list(values))


def read_image(store, data):
    """The tables of the image, with all their rows."""
    root = store.root
    if not root.image_length:
        return
    named = (PAGES, root.slot * PAGE + 36)
    chain = read_chain(data, root.first_page, root.image_length, named)
    store.reached += chain.pages
    cursor = Cursor(chain.data, in_chain(chain))
    count = cursor.number(4, 'the number of tables')
    if count > MOST_TABLES or count > root.commits:
        cursor.fail(f'{count:,} tables, of at most {MOST_TABLES}, and {root.commits:,} commits', 0)
    for _ in range(count):
        read_table(store, data, cursor)
    if cursor.at != cursor.end:
        cursor.fail('the directory goes on behind its last table')


# ---- the log

def read_values(cursor):
    """The values of a row that an entry inserts."""
    count = cursor.number(1, 'the values of a row')
    values = []
    for _ in range(count):
        at = cursor.at
        kind = cursor.number(1, 'a value')
        if kind > 1:
            cursor.fail(f'{kind} is no kind of a value', at)
        values.append(read_cell(cursor, KINDS[kind]))
    return values


def quick_values(data, at, kinds):
    """The same of values of these kinds, all at once, and where they end; None where a byte isn't as it is mostly."""
    if data[at] != len(kinds):
        return None, at
    at, values = at + 1, []
    for kind in kinds:
        if data[at] != kind:
            return None, at
        if kind:
            end = at + 2 + data[at + 1]
            text = data[at + 2:end]
            if language.CONTROL.search(text):
                return None, at
            values.append(text)
            at = end
        else:
            values.append(KEY.unpack_from(data, at + 1)[0] - 2**63)
            at += 9
    return values, at


def values_of_insert(store, cursor, number):
    """The values of a row of this table."""
    if number < len(store.tables):
        try:
            values, end = quick_values(cursor.data, cursor.at, store.tables[number].kinds)
        except (IndexError, struct.error):
            values = None
        if values is not None and end <= cursor.end:
            cursor.at = end
            return values
    return read_values(cursor)


def apply_insert(store, cursor, at):
    """Reads and applies the insert of a row."""
    number, identity = cursor.number(2, 'an insert'), cursor.number(4, 'an insert')
    values = values_of_insert(store, cursor, number)
    if number >= len(store.tables):
        cursor.fail(f'a row of table {number}, of {len(store.tables)} tables', at)
    table = store.tables[number]
    others = (isinstance(value, int) == kind for value, kind in zip(values, table.kinds))
    if len(values) != len(table.kinds) or any(others):
        cursor.fail("a row whose values aren't of the table's columns", at)
    if not 1 <= identity <= MOST_ID or identity in store.rows:
        cursor.fail(f'a row of the id {identity:,}, which is there or outside 1 to {MOST_ID:,}', at)
    store.rows[identity] = (number, values)
    if identity >= store.next:
        store.next = identity + 1
    table.logged += 1
    store.log.inserts += 1


def apply_delete(store, cursor, at):
    """Reads and applies the delete of a row."""
    number, identity = cursor.number(2, 'a delete'), cursor.number(4, 'a delete')
    if store.rows.get(identity, (None,))[0] != number:
        cursor.fail(f'a delete of the row {identity:,} of table {number}, which is not there', at)
    del store.rows[identity]
    store.log.deletes += 1


def apply_commit(store, cursor, at):
    """Reads and applies a transaction."""
    count = cursor.number(4, 'a commit')
    if not count:
        cursor.fail('a commit of no operations', at)
    for _ in range(count):
        at = cursor.at
        kind = cursor.number(1, 'an operation')
        if kind not in (1, 2):
            cursor.fail(f'{kind} is no operation', at)
        (apply_insert if kind == 1 else apply_delete)(store, cursor, at)
    store.commits += 1
    store.log.commits += 1


def apply_create(store, cursor, at):
    """Reads and applies the making of a table."""
    table = Table(read_name(cursor, 'a table'), read_columns(cursor))
    if len(store.tables) == MOST_TABLES:
        cursor.fail(f'more than {MOST_TABLES} tables', at)
    if any(table.name == other.name for other in store.tables):
        cursor.fail(f'a table {language.shown(table.name)}, which is there', at)
    store.tables.append(table)
    store.commits += 1
    store.log.creates += 1


def apply_begun(store, cursor, at):
    """Reads and applies the begin of a merge."""
    number, table = cursor.number(4, 'a merge'), cursor.number(2, 'a merge')
    kind = cursor.number(1, 'a merge')
    if number != store.merges + 1 or table >= len(store.tables) or kind > 3:
        cursor.fail(f'merge {number} of table {table}, kind {kind}, behind {store.merges} merges', at)
    store.merges += 1
    store.log.merges += 1


def apply_ended(store, cursor, at):
    """Reads and applies the end of a merge."""
    number = cursor.number(4, "a merge's end")
    if not number or number != store.merges:
        cursor.fail(f'the end of merge {number}, behind {store.merges} merges', at)


ENTRIES = {1: apply_create, 2: apply_commit, 3: apply_begun, 4: apply_ended}


def apply_payload(store, cursor):
    """Reads and applies the entries that fill a frame."""
    while cursor.at < cursor.end:
        at = cursor.at
        kind = cursor.number(1, 'an entry')
        if kind not in ENTRIES:
            cursor.fail(f'{kind:02x} begins no entry', at)
        ENTRIES[kind](store, cursor, at)
        store.length += 1
        store.log.entries += 1


def next_frame(cursor):
    """The place and the length of the next frame's payload, or None before a closed gate."""
    start = cursor.at
    if cursor.number(1, 'the log, where a gate has to stand') != OPEN_GATE:
        return None
    length = cursor.number(4, "a frame's length")
    if not 1 <= length <= 2**30:
        cursor.fail(f'a frame of {length:,} bytes, of 1 to {2**30:,}', start)
    if length > cursor.end - cursor.at:
        cursor.fail(f'the file ends within a frame of {length:,} bytes', start)
    return cursor.at, length


def read_log_file(store, data, name, offset):
    """Applies the frames of one file of the log; tells whether they end in a Switch."""
    cursor = Cursor(data, in_file(name), min(offset, len(data)))
    while True:
        start = cursor.at
        frame = next_frame(cursor)
        if frame is None or data[frame[0]:frame[0] + frame[1]] == SWITCH:
            store.log.spans.append((name, offset, start))
            store.log.bytes += start - offset
            return frame is not None
        payload = Cursor(data, in_file(name), frame[0], frame[0] + frame[1])
        apply_payload(store, payload)
        cursor.at = payload.end
        store.log.frames += 1


def read_log(store, logs):
    """Applies the log behind the image."""
    first = store.root.file
    if read_log_file(store, logs[first], LOGS[first], store.root.offset):
        other = 1 - first
        if read_log_file(store, logs[other], LOGS[other], 0):
            raise Damage(*store.log.spans[-1][::2], 'a second Switch')


def check_whole(store, image_rows):
    """The limits of a whole journal."""
    at = store.log.spans[-1][::2]
    if store.length > MOST_ENTRIES:
        raise Damage(*at, f'a journal of {store.length:,} entries, of at most {MOST_ENTRIES:,}')
    if image_rows + store.log.inserts > MOST_ID:
        raise Damage(*at, f'a journal of {image_rows + store.log.inserts:,} rows, of at most {MOST_ID:,}')
    store.next = max(store.next, image_rows + store.log.inserts + 1)


def read_store(folder):
    """What the store in a folder holds."""
    pages = file_bytes(os.path.join(folder, PAGES))
    check_made(pages)
    store = Store(read_root(pages))
    store.page_file_bytes = len(pages)
    read_image(store, pages)
    image_rows = len(store.rows)
    read_log(store, [file_bytes(os.path.join(folder, name)) for name in LOGS])
    check_whole(store, image_rows)
    count = collections.Counter(number for number, _ in store.rows.values())
    for number, table in enumerate(store.tables):
        table.rows = count[number]
        table.first += table.logged
    return store


def logged_commits(folder):
    """Of a log whose page file is gone: how many commits its files hold, from their first bytes on."""
    commits = 0
    for name in LOGS:
        cursor = Cursor(file_bytes(os.path.join(folder, name)), in_file(name))
        try:
            frame = next_frame(cursor)
            while frame:
                commits += cursor.data[frame[0]] in (1, 2)
                cursor.at = frame[0] + frame[1]
                frame = next_frame(cursor)
        except Damage:
            pass
    return commits
