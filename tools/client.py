"""A client of a store: it starts the program, gives it a line at a time and reads the reply, for sixteen sessions.

Python's standard library and this one file are all that it needs. docs/CLIENT.md explains it, with an order book.

    with Client('vaqelosh', 'FOLDER') as client:
        client.ask(1, 'create T k:int v:text')
        client.insert(1, 'T', 5, 'a')
        client.transaction(lambda session: session.ask('update T set v \\'b\\' where k = 5'))
        print(client.ask(1, 'select T *').rows)
"""
import contextlib
import os
import re
import subprocess
import tempfile
import threading
import time

MOST_BYTES = 65_536  # of a line
MOST_LINES = 1_048_576  # of a run
SESSIONS = range(1, 17)
VALUE = re.compile(r"'((?:[^']|'')*)'|(-?[0-9]+)")
CHANGES = ('insert', 'bulk', 'update', 'delete', 'create', 'commit')
PAGES, LOGS = 'table.pages', ('table.redo', 'table.redo2')


class Refused(Exception):
    """A statement was refused, and changed nothing. `why` is the word behind `refused`."""

    def __init__(self, statement, reply):
        super().__init__(f'{statement[:200]}: {reply.text}')
        self.reply, self.why = reply, reply.text.split()[1]


class Conflict(Refused):
    """Another session changed the row first. The transaction is still open."""


class Ended(Exception):
    """The program has ended: with which status, and what it said. `in_doubt`: the statement may be in the store."""

    def __init__(self, status, message, statement, in_doubt):
        super().__init__(f'status {status} ({message or "nothing was said"}) at: {statement[:200]}')
        self.status, self.message, self.in_doubt = status, message, in_doubt


class Reply:
    """A reply: its first line behind the session, and the rows or groups below it."""

    def __init__(self, text, rows=None):
        self.text, self.rows = text, rows

    @property
    def commit(self):
        """The commit's number, or None where nothing was committed."""
        found = re.search(r'\Aok (?:[0-9]+ )?commit ([0-9]+)', self.text)
        return int(found.group(1)) if found else None

    @property
    def value(self):
        """What was asked for: of count, sum, min and max their value, of a change how many rows it changed."""
        found = values_of(self.text.partition(' ')[2])
        return found[0] if found and not self.text.startswith('ok commit') else None


def values_of(text):
    """The values of a row."""
    return tuple(int(number) if number else literal.replace("''", "'") for literal, number in VALUE.findall(text))


def written(value):
    """A value as a line has it: a number, a text, or bytes."""
    if isinstance(value, int) and not isinstance(value, bool):
        return str(value)
    if isinstance(value, bytes):
        value = value.decode('utf-8', 'surrogateescape')
    if not isinstance(value, str):
        raise TypeError(f'{value!r} is neither a number nor a text')
    return "'" + value.replace("'", "''") + "'"


class Session:
    """One of the sixteen sessions, in an open transaction."""

    def __init__(self, client, number):
        self.client, self.number, self.run = client, number, None

    def ask(self, statement):
        """A statement's reply. A transaction doesn't outlive the run in which it began."""
        with self.client.turn:
            if self.run not in (None, self.client.run):
                raise Ended(None, 'the program was started anew since the transaction began', statement, False)
            reply = self.client.ask(self.number, statement)
            self.run = self.client.run
            return reply

    def insert(self, table, *values):
        """Inserts a row."""
        return self.ask(f'insert {table} ' + ' '.join(map(written, values)))

    def rows(self, question):
        """The rows of a `select` or a `join`, or the groups of a `group`."""
        return self.ask(question).rows


class Client:
    """A store, and the program that works on it.

    Every method may be called by several threads. `upkeep` moves rows on, merges and saves after each so many commits;
    with 0 it never does. `make` is True for a new store, False for one that is there, None for either.
    """

    first_delta = 1000  # rows, with which it is moved on
    second_delta = 50_000  # rows, with which it is merged into main
    log_bytes = 2**20  # with which a savepoint is taken, if that is half of the page file too

    def __init__(self, program, folder='.', make=None, lines=MOST_LINES, upkeep=1000, words=()):
        self.program, self.folder, self.lines, self.upkeep_after = os.path.abspath(program), folder, lines, upkeep
        self.words, self.tables, self.commits = list(words), set(), 0
        self.process = self.errors = self.gone = None
        self.left = self.reserve = self.run = 0
        self.turn = threading.RLock()  # a line and its reply
        self.changed = threading.Condition(self.turn)
        self.free, self.opened = set(SESSIONS), set()
        self.keeping = threading.Lock()
        self.start(self.is_new() if make is None else make)

    # ---- the run

    def is_new(self):
        """Whether there is no store yet. A log without its page file is no reason to make one, which cuts the log."""
        there = [name for name in (PAGES, *LOGS) if os.path.exists(os.path.join(self.folder, name))]
        if there and PAGES not in there:
            why = f'{self.folder} has {there[0]} and no {PAGES}: look at it before you make a store there'
            raise FileNotFoundError(why)
        return not there

    def start(self, make=False):
        """Starts the program over the store."""
        self.errors = tempfile.TemporaryFile()
        command = [self.program, 'run', *(['--new'] if make else []), '--lines', str(self.lines), *self.words]
        pipe = subprocess.PIPE
        self.process = subprocess.Popen(command, cwd=self.folder, stdin=pipe, stdout=pipe, stderr=self.errors)
        self.left, self.reserve, self.gone = self.lines, min(self.lines // 16 + 16, self.lines // 2), None
        self.run += 1

    def close(self):
        """Ends the run; an open transaction is forgotten. The program's status."""
        with self.turn:
            if self.gone:
                return self.gone[0]
            with contextlib.suppress(OSError):
                self.process.stdin.close()
            self.process.stdout.read()
            return self.end('the end of the input', False, wanted=0)

    def end(self, statement, in_doubt, wanted=None):
        """Waits for the program's end, and says how it ended."""
        with contextlib.suppress(OSError):
            self.process.stdin.close()
        status = self.process.wait()
        self.process.stdout.close()
        self.errors.seek(0)
        message = self.errors.read().decode('utf-8', 'replace').strip()
        self.errors.close()
        self.gone = status, message
        self.opened.clear()
        self.changed.notify_all()
        if status == wanted:
            return status
        raise Ended(status, message, statement, in_doubt)

    def reopen(self):
        """Starts the program anew over the same store where it has ended; each thread that met Ended may call it."""
        with self.turn:
            if self.gone:
                self.start()

    def __enter__(self):
        return self

    def __exit__(self, *_):
        with contextlib.suppress(Ended):
            self.close()

    # ---- a line and its reply

    def ask(self, session, statement):
        """Gives a statement of a session to the program, and returns the reply. Raises Conflict, Refused or Ended."""
        line = f'{session} {statement}'.encode('utf-8', 'surrogateescape')
        if b'\n' in line or len(line) > MOST_BYTES:
            raise ValueError(f'a line has no line feed and at most {MOST_BYTES} bytes')
        with self.turn:
            self.make_room(session)
            verb = statement.split(maxsplit=1)[0] if statement.split() else ''
            reply = self.answer(line, statement, self.may_commit(session, verb))
            self.note(session, verb, statement, reply)
        if reply.text.startswith('refused'):
            raise (Conflict if reply.text.startswith('refused conflict') else Refused)(statement, reply)
        return reply

    def may_commit(self, session, verb):
        """Whether a statement commits something, so that it is in doubt where its reply is missing."""
        return verb == 'commit' if session in self.opened else verb in CHANGES

    def answer(self, line, statement, in_doubt):
        """Writes a line, and reads all lines of its reply: `rows m` and `groups m` have m more, any other none."""
        if self.gone:
            raise Ended(*self.gone, statement, False)
        self.left -= 1
        try:
            self.process.stdin.write(line + b'\n')
            self.process.stdin.flush()
        except OSError:
            self.end(statement, in_doubt)
        first = self.next_line(statement, in_doubt).partition(' ')[2]
        if first == 'fault disk':
            self.process.stdout.read()
            self.end(statement, in_doubt)
        words = first.split()
        if words[0] in ('rows', 'groups'):
            return Reply(first, [values_of(self.next_line(statement, in_doubt)) for _ in range(int(words[1]))])
        return Reply(first)

    def next_line(self, statement, in_doubt):
        """The next line of a reply. A line without its end is none: the program died while it wrote."""
        line = self.process.stdout.readline()
        if not line.endswith(b'\n'):
            self.end(statement, in_doubt)
        return line[:-1].decode('utf-8', 'surrogateescape')

    def note(self, session, verb, statement, reply):
        """Notes which sessions are in a transaction, which tables there are, and how much was committed."""
        if verb == 'begin' and reply.text == 'ok' and session:
            self.opened.add(session)
        elif verb in ('commit', 'abort') and reply.text.startswith('ok'):
            self.opened.discard(session)
            self.changed.notify_all()
        elif verb in CHANGES and reply.text.startswith('ok'):
            self.tables.add(statement.split(maxsplit=2)[1])
        self.commits += reply.commit is not None

    def make_room(self, session):
        """Goes on in a new run before the lines of this one are used up: as soon as no transaction is open."""
        while self.left < self.reserve and session and session not in self.opened and not self.gone:
            if not self.opened:
                self.close()
                self.start()
                return
            self.changed.wait()

    # ---- statements

    def insert(self, session, table, *values):
        """Inserts a row."""
        return self.ask(session, f'insert {table} ' + ' '.join(map(written, values)))

    def bulk(self, session, table, rows):
        """Inserts many rows, in as few lines as they fit; outside of a transaction each line is a commit of its own."""
        replies, begin, pending = [], f'bulk {table}', []
        length = room = MOST_BYTES - len(f'{session} {begin}')
        for row in rows:
            text = ' '.join(map(written, row))
            size = len(text.encode('utf-8', 'surrogateescape')) + 1
            if size > length:
                replies.append(self.ask(session, ' '.join([begin, *pending])))
                pending, length = [], room
            pending.append(text)
            length -= size
        return replies + ([self.ask(session, ' '.join([begin, *pending]))] if pending else [])

    # ---- transactions

    @contextlib.contextmanager
    def session(self):
        """A session that nobody else has meanwhile."""
        with self.changed:
            while not self.free:
                self.changed.wait()
            number = self.free.pop()
        try:
            yield Session(self, number)
        finally:
            with self.changed:
                self.free.add(number)
                self.changed.notify_all()

    def transaction(self, work, tries=100):
        """Does `work(session)` in a transaction, and commits it; what `work` returns.

        A conflict aborts the transaction, and the work is done anew, from a new snapshot. Any other exception aborts it
        and goes on. Ended tells in `in_doubt` whether the commit may be in the store; else nothing of the work is.
        """
        with self.session() as session:
            for attempt in range(tries):
                session.ask('begin')
                try:
                    result = work(session)
                    session.ask('commit')
                    break
                except Conflict:
                    session.ask('abort')
                    if attempt == tries - 1:
                        raise
                    time.sleep(min(0.001 * 2**min(attempt, 6), 0.05))
                except Ended:
                    raise
                except BaseException:
                    session.ask('abort')
                    raise
        if self.upkeep_after and self.commits >= self.upkeep_after:
            with contextlib.suppress(Ended):  # the work is done, whatever becomes of the upkeep; the next statement tells
                self.upkeep()
        return result

    # ---- upkeep: what nobody needs for a right answer, and everybody for a quick one

    def upkeep(self):
        """Moves rows on, merges and saves where it is worth it. One thread does it; others go on between its lines."""
        if not self.keeping.acquire(blocking=False):
            return
        try:
            self.commits = 0
            for table in sorted(self.tables):
                self.merge(table)
            sizes = [os.path.getsize(path) for path in map(self.path, (PAGES, *LOGS)) if os.path.exists(path)]
            if sum(sizes[1:]) > max(self.log_bytes, sizes[0] // 2):
                self.save()
        except Refused as it:
            if it.why not in ('memory', 'full', 'busy', 'saving', 'none', 'name'):
                raise
        finally:
            self.keeping.release()

    def path(self, name):
        """A file of the store."""
        return os.path.join(self.folder, name)

    def shape(self, table):
        """How many rows stand in the first delta, in the second, and in each part of main."""
        words = self.ask(0, f'shape {table}').text.split()
        return int(words[2]), int(words[4]), [int(word) for word in words[8:] if word != 'none']

    def merge(self, table):
        """Moves the first delta on where it has many rows, and merges the second into main where that has many."""
        in_first, in_second, parts = self.shape(table)
        if in_first >= self.first_delta:
            in_second += self.ask(0, f'merge l1 {table} 1048576').value
        if in_second >= self.second_delta:
            later = sum(parts[1:]) + in_second
            self.ask(0, f'merge begin {table} ' + ('partial' if parts and 2 * later < parts[0] else 'classic'))
            self.ask(0, 'merge end')

    def save(self, pages=64):
        """Takes a savepoint, so many pages at a time: the next opening is short, and the log's other file is free."""
        done, _, total = self.ask(0, 'save begin').text.split()[1:]
        while done != total:
            done = self.ask(0, f'save step {pages}').text.split()[1]
        self.ask(0, 'save seal')
        self.ask(0, 'save flip')
