"""Small files that are written by hand from the file format (docs/FORMAT.md), with what a recovery tells of each and the rows that it gives."""
import struct

SIZE = 512
LOST = 'lost_and_found'


# ---- pages, cells and records (1.5, 1.6 and 2.1 of the file format)

def varint(number):
    if number >= 1 << 56:
        return bytes(number >> (8 + 7 * i) & 0x7f | 0x80 for i in range(7, -1, -1)) + bytes([number & 0xff])
    groups = [number & 0x7f]
    while number := number >> 7:
        groups.append(number & 0x7f | 0x80)
    return bytes(reversed(groups))


def field(value):
    """The serial type and the body of a value; a number of one byte alone, which all of these files keep to."""
    if value is None:
        return b'\0', b''
    if isinstance(value, float):
        return b'\7', struct.pack('>d', value)
    if isinstance(value, int):
        return (bytes([8 + value]), b'') if value in (0, 1) else (b'\1', struct.pack('>b', value))
    body = value.encode() if isinstance(value, str) else value
    return varint(2 * len(body) + (13 if isinstance(value, str) else 12)), body


def record(*values):
    fields = [field(value) for value in values]
    types = b''.join(sort for sort, _ in fields)
    assert len(types) < 127
    return bytes([len(types) + 1]) + types + b''.join(body for _, body in fields)


def row(rowid, *values):
    """A cell of a table leaf whose payload is all local."""
    payload = record(*values)
    return varint(len(payload)) + varint(rowid) + payload


def entry(*values):
    """A cell of an index leaf."""
    payload = record(*values)
    return varint(len(payload)) + payload


def child(page, key):
    return struct.pack('>I', page) + varint(key)


def page(sort, cells, right=None, pointers=None, size=SIZE, at=0, count=None):
    """A page of a tree: its cells from its end on, first cell last. `pointers` stand in place of those of the cells."""
    bytes_ = bytearray(size)
    end, places = size, []
    for cell in cells:
        end -= len(cell)
        bytes_[end:end + len(cell)] = cell
        places.append(end)
    if pointers is not None:
        places = [places[i] for i in pointers]
    bytes_[at:at + 8] = struct.pack('>BHHHB', sort, 0, len(places) if count is None else count, end % 65536, 0)
    start = at + 8
    if right is not None:
        bytes_[start:start + 4] = struct.pack('>I', right)
        start += 4
    bytes_[start:start + 2 * len(places)] = struct.pack('>%dH' % len(places), *places)
    return bytes(bytes_)


LEAF, INTERIOR, INDEX = 13, 5, 10


def first(schema, pages, size=SIZE, trunk=0, free=0):
    """Page 1 with these rows of the schema, by cells or as (type, name, table, root, text)."""
    cells = [cell if isinstance(cell, bytes) else row(i + 1, *cell) for i, cell in enumerate(schema)]
    bytes_ = bytearray(page(LEAF, cells, size=size, at=100))
    bytes_[:100] = struct.pack('>16sHBBBBBBIIII', b'SQLite format 3\0', size, 1, 1, 0, 64, 32, 32, 1, pages, trunk, free) + bytes(60)
    bytes_[44:48], bytes_[56:60], bytes_[92:96] = b'\0\0\0\4', b'\0\0\0\1', b'\0\0\0\1'
    return bytes(bytes_)


def table(name, root, columns='a,b'):
    return 'table', name, name, root, 'CREATE TABLE %s(%s)' % (name, columns)


def file(schema, *pages, **header):
    return first(schema, len(pages) + 1, **header) + b''.join(pages)


ZEROS = bytes(SIZE)
T = table('t', 2)
TWO_ROWS = file([T], page(LEAF, [row(1, 5, 'x'), row(2, None, b'\0')]))


# ---- the files, what is told of them, and the rows of tables

class Case:
    def __init__(self, name, data, lines=(), status=0, said='', rows=None, script='', options=(), front='geometry 512 0 %d header', exact=True, same=None):
        self.name, self.data, self.status, self.said, self.rows = name, data, status, said, rows or {}
        self.script, self.options, self.exact, self.same = script, options, exact, same
        self.lines = ([front % (len(data) // SIZE) if '%' in front else front] if front else []) + list(lines)


def chained(rowid, length, content, then):
    """A cell of a table leaf whose payload of `length` bytes goes on at page `then`."""
    return varint(length) + varint(rowid) + content + struct.pack('>I', then)


def blob_record(length):
    """The first 39 bytes of a record of `length` bytes, NULL and a blob of zeros."""
    return (bytes([4, 0]) + varint(2 * (length - 4) + 12) + bytes(39))[:39]


def spread(number, next_page):
    return struct.pack('>I', next_page) + bytes(SIZE - 4)


PERSON = 'CREATE TABLE person(id INTEGER PRIMARY KEY AUTOINCREMENT UNIQUE, name TEXT NOT NULL, age INTEGER DEFAULT 0)'
NOTE = 'CREATE TABLE note(person INTEGER REFERENCES person(id), body TEXT)'
NOTE_BY, GROWN = 'CREATE INDEX note_by ON note(person)', 'CREATE VIEW grown AS SELECT name FROM person WHERE age > 17'
ORDINARY = [('table', 'person', 'person', 2, PERSON), ('index', 'sqlite_autoindex_person_1', 'person', 3, None),
            ('table', 'sqlite_sequence', 'sqlite_sequence', 4, 'CREATE TABLE sqlite_sequence(name,seq)'), ('table', 'note', 'note', 5, NOTE),
            ('index', 'note_by', 'note', 6, NOTE_BY), ('view', 'grown', 'grown', 0, GROWN)]
ORPHANS = [ZEROS, page(INTERIOR, [child(4, 1)], right=5), page(LEAF, [row(1, 7)]), page(LEAF, [row(2, 'q')])]
FREE = [page(LEAF, [row(1, 5, 'x')]), struct.pack('>III', 0, 1, 4) + bytes(500), page(LEAF, [row(9, 'z')])]
REAL = 'CREATE TABLE r(k REAL PRIMARY KEY, v)'
WORDS = 'CREATE TABLE w(b, a, PRIMARY KEY(a)) WITHOUT ROWID'
LONG_TEXT = 'CREATE TABLE t(a,b) -- ' + 'x' * 600


def long_schema():
    """A schema whose one text goes on at page 2, which is the root of its table too."""
    payload = record('table', 't', 't', 2, LONG_TEXT[:585])
    assert len(payload) == 600
    local = 92
    return first([varint(600) + varint(1) + payload[:local] + struct.pack('>I', 2)], 2) + struct.pack('>I', 0) + payload[local:]


CASES = [
    Case('no bytes', b'', ['orphans 0 0', 'result 1'], front='geometry 4096 0 0 empty'),
    Case('two rows', TWO_ROWS, ['table t 2 0 0 1', 'orphans 0 0', 'result 2'], rows={'t': [(1, 5, 'x'), (2, None, b'\0')]}, same=slice(100, 1024)),
    Case('600 bytes of a page of 4096', first([], 1, size=4096)[:600], status=4, said='no whole page: 600 bytes, page size 4096', front=''),
    Case('zeros', bytes(4096), status=4, said='no page size found', front=''),
    Case('a chain that runs into the root of another table', file([T, table('u', 5)], page(LEAF, [chained(1, 1700, bytes([4, 0]) + varint(2 * 1696 + 12) + bytes(172), 3)]),
        spread(3, 4), spread(4, 5), page(LEAF, [row(1, 1, 2)])), ['table t 0 0 0 1', 'cells 2 1 0 chain'], exact=False),
    Case('a child that is its own parent', file([T], page(INTERIOR, [child(2, 5)], right=3), page(LEAF, [row(1, 1, 2), row(2, 3, 4)])), ['table t 2 0 0 2'], exact=False),
    Case('two pages that name each other', file([T], page(INTERIOR, [child(2, 5)], right=3), page(INTERIOR, [], right=2)), ['table t 0 0 0 2'], exact=False),
    Case('two tables of one root', file([table('a', 2), table('b', 2)], page(LEAF, [row(1, 5, 'x'), row(2, 6, 'y')])), ['table a 2 0 0 1', 'table b 0 0 0 0'], exact=False),
    Case('one rowid on two pages', file([T], page(INTERIOR, [child(3, 7)], right=4), page(LEAF, [row(5, 1, 1), row(7, 2, 2)]), page(LEAF, [row(7, 3, 3), row(9, 4, 4)])),
        ['table t 3 1 0 3', 'clash t 4 0 3 1 0', 'orphans 0 0', 'lost lost_and_found 1', 'result 3'],
        rows={'t': [(5, 1, 1), (7, 2, 2), (9, 4, 4)], LOST: [(2, 4, 2, 7, 3, 3)]}),
    Case('names that are equal but for case', file([('table', 'u', 'u', 2, 'CREATE TABLE u(name TEXT UNIQUE COLLATE NOCASE)')],
        page(LEAF, [row(1, 'Ab'), row(2, 'aB'), row(3, None), row(4, None)])), ['table u 3 1 0 1', 'clash u 2 1 2 0 1'], exact=False,
        rows={'u': [(1, 'Ab'), (3, None), (4, None)], LOST: [(2, 2, 1, 2, 'aB')]}),
    Case('a key of REAL affinity', file([('table', 'r', 'r', 2, REAL), ('index', 'sqlite_autoindex_r_1', 'r', 3, None)], page(LEAF, [row(1, 1.5, 'x')]), page(INDEX, [entry(1.5, 1)])),
        ['unread r 1 1 real', 'orphans 0 0', 'lost lost_and_found 1', 'result 2'], rows={LOST: [(2, 2, 2, 1, 1.5, 'x')]}, script=REAL + '\n;\n'),
    Case('a table without rowids, its key in another order', file([('table', 'w', 'w', 2, WORDS)], page(INDEX, [bytes.fromhex('0403090f78')])), ['table w 1 0 0 1'], exact=False, rows={'w': [('x', 1)]}),
    Case('a primary key twice', file([('table', 'w', 'w', 2, WORDS)], page(INDEX, [entry(1, 'x'), entry(1, 'y')])), ['table w 1 1 0 1', 'clash w 2 1 2 0 0'], exact=False,
        rows={'w': [('x', 1)], LOST: [(2, 2, 2, None, 1, 'y')]}),
    Case('a tree that no row names', file([T], *ORPHANS), ['table t 0 0 0 0', 'orphans 1 3', 'lost lost_and_found 2', 'result 3'], rows={LOST: [(3, 4, 1, 1, 7), (3, 5, 1, 2, 'q')]}),
    Case('a view with the name of the table of lost cells', file([T, ('view', 'LOST_AND_FOUND', 'LOST_AND_FOUND', 0, 'CREATE VIEW LOST_AND_FOUND AS SELECT 1')], *ORPHANS),
        ['lost lost_and_found0 2'], exact=False, rows={LOST + '0': [(3, 4, 1, 1, 7), (3, 5, 1, 2, 'q')]}, script='CREATE VIEW LOST_AND_FOUND AS SELECT 1\n;\n'),
    Case('free pages', file([T], *FREE, trunk=3, free=2), ['table t 1 0 0 1', 'orphans 0 0', 'result 2'], rows={'t': [(1, 5, 'x')]}),
    Case('free pages of a freelist that is not believed', file([T], *FREE, trunk=3, free=2), ['table t 1 0 0 1', 'orphans 1 1', 'lost lost_and_found 1', 'result 3'],
        rows={LOST: [(4, 4, 1, 9, 'z')]}, options=['--freelist-corrupt']),
    Case('a trunk that counts too many', file([T], FREE[0], struct.pack('>III', 0, 0xffffffff, 4) + bytes(500), FREE[2], trunk=3, free=2), ['orphans 1 1', 'lost found 1'],
        exact=False, rows={'found': [(4, 4, 1, 9, 'z')]}, options=['--lost', 'found']),
    Case('an ordinary file', first(ORDINARY, 6, size=4096) + b''.join([page(LEAF, [row(1, None, 'Ann'), row(2, None, 'Bo', 41)], size=4096), page(INDEX, [entry(1, 1), entry(2, 2)], size=4096),
        page(LEAF, [row(1, 'person', 2)], size=4096), page(LEAF, [row(1, 1, 'hi')], size=4096), page(INDEX, [entry(1, 1)], size=4096)]),
        ['table person 2 0 0 1', 'table sqlite_sequence 1 0 0 1', 'table note 1 0 0 1', 'orphans 0 0', 'result 5'], front='geometry 4096 0 6 header',
        rows={'person': [(1, 'Ann', 0), (2, 'Bo', 41)], 'note': [(1, 1, 'hi')]}, script=NOTE_BY + '\n;\n' + GROWN + '\n;\n'),
    Case('300 pointers at one cell', first([T], 2, size=1024) + page(LEAF, [row(1, 5, 'x')], pointers=[0] * 300, size=1024), ['table t 1 0 0 1', 'cells 2 299 1 overlap'],
        front='geometry 1024 0 2 header', exact=False, rows={'t': [(1, 5, 'x')]}),
    # the words and the encoding
    Case('a page size that is none', TWO_ROWS, status=2, said='use: ', options=['--page-size', '1000'], front=''),
    Case('texts in UTF-16', TWO_ROWS[:59] + b'\2' + TWO_ROWS[60:], status=12, said='UTF-16 database', front=''),
    # pages that name pages with another use
    Case('a right-most pointer to page 1', file([T], page(INTERIOR, [], right=1)), ['table t 0 0 0 1', 'orphans 0 0', 'result 2']),
    Case('a root that is page 1', file([table('t', 1)]), ['table t 0 0 0 0', 'orphans 0 0', 'result 2']),
    Case('a root below 0', file([table('t', -1)]), ['table t 0 0 0 0', 'orphans 0 0', 'result 2']),
    Case('a chain to itself', file([T], page(LEAF, [chained(1, 1200, blob_record(1200) + bytes(145), 3)]), spread(3, 3)), ['table t 0 0 0 1', 'cells 2 1 0 chain', 'orphans 0 0', 'result 2']),
    Case('a chain that ends at once', file([T], page(LEAF, [chained(1, 478, blob_record(478), 0)]), ZEROS), ['table t 0 0 0 1', 'cells 2 1 0 chain', 'orphans 0 0', 'result 2']),
    Case('two cells with one chain', file([T], page(LEAF, [chained(1, 478, blob_record(478), 3), chained(2, 478, blob_record(478), 3)]), spread(3, 0)),
        ['table t 1 0 0 1', 'cells 2 1 1 chain', 'orphans 0 0', 'result 3'], rows={'t': [(1, None, bytes(474))]}),
    Case('a file that ends one byte too early', TWO_ROWS[:1023], ['left 511', 'table t 0 0 0 0', 'orphans 0 0', 'result 2'], front='geometry 512 0 1 header'),
    Case('a page of 65535 cells', file([T], page(LEAF, [row(1, 5, 'x')], count=65535)), ['table t 0 0 0 0', 'orphans 0 0', 'result 2']),
    Case('one child three times', file([T], page(INTERIOR, [child(3, 1), child(3, 2)], right=3), page(LEAF, [row(1, 5, 'x'), row(2, 6, 'y')])), ['table t 2 0 0 2', 'orphans 0 0', 'result 2']),
    Case('a payload of 2^64 - 1 bytes', file([T], page(LEAF, [b'\xff' * 9 + bytes([1, 3, 1, 0x0f, 5, 0x78])])), ['table t 0 0 0 1', 'cells 2 1 0 length', 'orphans 0 0', 'result 2']),
    Case('a schema whose text goes on at the root of its table', long_schema(), ['table t 0 0 0 0', 'orphans 0 0', 'result 3']),
]
CASES += [Case('two rows cut to %d bytes' % kept, TWO_ROWS[:kept], status=4, said='no whole page: %d bytes, page size 512' % kept, front='') for kept in (511, 100, 17)]
CASES += [Case('two rows cut to 16 bytes', TWO_ROWS[:16], status=4, said='no page size found', front='')]
