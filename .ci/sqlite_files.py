"""Databases that SQLite makes, for the checks of the repository."""
import sqlite3

WHOLE = [0, 1, -1, 2, 127, -128, 128, 32767, -32768, 2**23 - 1, -2**23, 2**31 - 1, -2**31, 2**47 - 1, -2**47, 2**63 - 1, -2**63]
LENGTHS = [0, 1, 10, 57, 58, 100, 477, 478, 1000, 4096, 20000]


def values(luck):
    """One value of some class and length."""
    sort = luck.randrange(5)
    if sort == 0:
        return None
    if sort == 1:
        return luck.choice(WHOLE)
    if sort == 2:
        return luck.choice([0.0, 1.5, -2.25, 1e300, 3.0])
    length = luck.choice(LENGTHS)
    if sort == 3:
        return ''.join(luck.choice('abcdefgh \u00e9\u4e16') for _ in range(length))
    return luck.randbytes(length)


def ordinary(path, size, luck):
    """Tables of every sort, on pages of this size."""
    db = sqlite3.connect(path)
    db.execute('PRAGMA page_size = %d' % size)
    db.execute('PRAGMA user_version = 7')
    db.execute('PRAGMA application_id = 99')
    db.execute('CREATE TABLE plain(a, b TEXT, c REAL, d BLOB, e INTEGER)')
    db.execute('CREATE TABLE person(id INTEGER PRIMARY KEY AUTOINCREMENT, name TEXT NOT NULL UNIQUE COLLATE NOCASE, age INTEGER DEFAULT 0)')
    db.execute('CREATE TABLE pair(x, y INTEGER, z TEXT COLLATE RTRIM, UNIQUE(y, z), UNIQUE(z))')
    db.execute('CREATE TABLE [word book](lang TEXT, word TEXT, n INT, PRIMARY KEY(word, lang)) WITHOUT ROWID')
    db.execute('CREATE TABLE keyed(k BLOB PRIMARY KEY, v)')
    db.execute('CREATE TABLE "of ""quotes"""("a b" UNIQUE, `c`)')
    db.execute('CREATE TABLE bare(a)')
    for i in range(400):
        db.execute('INSERT INTO plain VALUES (?,?,?,?,?)', [values(luck) for _ in range(5)])
        db.execute('INSERT INTO person(name, age) VALUES (?,?)', ['name %d%s' % (i * 7919 % 400, 'x' * (i % 90)), i])
        db.execute('INSERT INTO pair VALUES (?,?,?)', [values(luck), i % 20, None if i % 9 == 0 else 'z%d' % i])
        db.execute('INSERT INTO [word book] VALUES (?,?,?)', ['l%d' % (i % 3), 'w%d%s' % (i, 'y' * (i % 700)), i])
        db.execute('INSERT INTO keyed VALUES (?,?)', [b'%d' % (i * 31 % 400) + b'\0' * (i % 300), values(luck)])
        db.execute('INSERT INTO "of ""quotes""" VALUES (?,?)', [i if i % 2 else None, i])
    db.execute('DELETE FROM person WHERE id % 7 = 0')
    db.execute('CREATE INDEX by_age ON person(age)')
    db.execute("CREATE VIEW old AS SELECT name FROM person WHERE age > 17")
    db.execute('CREATE TRIGGER kept AFTER DELETE ON keyed BEGIN SELECT 1; END')
    db.commit()
    db.execute('VACUUM')
    db.close()


def many_tables(path, size, luck):
    """A schema of several levels, with texts on overflow pages."""
    db = sqlite3.connect(path)
    db.execute('PRAGMA page_size = %d' % size)
    for i in range(300):
        columns = ', '.join('c%d%s' % (j, ' UNIQUE' if j == i % 7 else '') for j in range(1 + i % 60))
        db.execute('CREATE TABLE t%d(%s)' % (i, columns))
        if i % 3 == 0:
            db.execute('INSERT INTO t%d(c0) VALUES (%d)' % (i, i))
    db.commit()
    db.close()


def long_row(path, size, luck):
    """A row of a million bytes."""
    db = sqlite3.connect(path)
    db.execute('PRAGMA page_size = %d' % size)
    db.execute('CREATE TABLE letter(id INTEGER PRIMARY KEY, body BLOB)')
    db.execute('INSERT INTO letter VALUES (1, ?)', [luck.randbytes(1000000)])
    db.execute('INSERT INTO letter VALUES (2, ?)', [b'short'])
    db.commit()
    db.close()


def of_columns(path, size, count):
    """A table of so many columns, with two rows."""
    db = sqlite3.connect(path)
    db.execute('PRAGMA page_size = %d' % size)
    db.execute('CREATE TABLE wide(%s)' % ', '.join('c%d' % i for i in range(count)))
    db.execute('INSERT INTO wide VALUES (%s)' % ','.join('?' * count), range(count))
    db.execute('INSERT INTO wide(c0, c%d) VALUES (1, ?)' % (count - 1), ['last'])
    db.commit()
    db.close()


def widest(path, size, luck):
    """A table of as many columns as a table that is built can have."""
    of_columns(path, size, 1996)


def too_wide(path, size, luck):
    """A table of as many columns as SQLite makes, which is not built."""
    of_columns(path, size, 2000)


def varied(path, size, luck):
    """A small schema of tables, columns and keys drawn by lot, with rows that SQLite lets in."""
    db = sqlite3.connect(path)
    db.execute('PRAGMA page_size = %d' % size)
    for t in range(luck.randrange(1, 6)):
        text, columns = table_text(t, luck)
        db.execute(text)
        for _ in range(luck.choice([0, 1, 5, 60])):
            row = [small_value(luck) for _ in range(columns)]
            if 'INTEGER PRIMARY KEY' in text:
                row[0] = None
            db.execute('INSERT OR IGNORE INTO t%d VALUES (%s)' % (t, ','.join('?' * columns)), row)
        if luck.randrange(3) == 0:
            db.execute('CREATE INDEX i%d ON t%d(c0)' % (t, t))
        if luck.randrange(3) == 0:
            db.execute('DELETE FROM t%d WHERE c0 %% 3 = 1' % t)
    if luck.randrange(2) == 0:
        db.execute('CREATE VIEW v AS SELECT * FROM t0')
    db.commit()
    db.close()


def table_text(t, luck):
    """The text of table `t`, and how many columns it has. Tables that are not built are left out: a key with a column of REAL affinity, and
    a table WITHOUT ROWID with a further key on the columns of its primary key."""
    count, lot = luck.choice([1, 2, 3, 7, 20]), luck.randrange(5)
    further = [' UNIQUE'] if lot != 1 else []
    parts = []
    for i in range(count):
        affinity = luck.choice(['', ' INT', ' TEXT', ' VARCHAR(10)', ' BLOB', ' NUMERIC(3, 2)'])
        collation = luck.choice(['', '', ' COLLATE NOCASE', ' COLLATE RTRIM', ' COLLATE BINARY'])
        parts.append('c%d%s%s%s' % (i, affinity, collation, luck.choice(['', '', ' DEFAULT 7'] + further)))
    constraints, behind = [], ''
    key = ', '.join('c%d' % i for i in luck.sample(range(count), luck.randrange(1, min(count, 3) + 1)))
    if lot == 0:
        parts[0] = 'c0 INTEGER PRIMARY KEY' + luck.choice(['', ' AUTOINCREMENT'])
    elif lot == 1:
        constraints = ['PRIMARY KEY(%s)' % key]
        behind = ' WITHOUT ROWID'
    elif lot == 2:
        constraints = ['PRIMARY KEY(%s)' % key, 'UNIQUE(c%d)' % (count - 1)]
    elif lot == 3:
        constraints = ['CONSTRAINT one UNIQUE(%s)' % key, 'CHECK (1)']
    return 'CREATE TABLE t%d(%s)%s' % (t, ', '.join(parts + constraints), behind), count


def small_value(luck):
    """A value that may stand in a key: none of class REAL."""
    sort = luck.randrange(5)
    if sort == 0:
        return None
    if sort < 3:
        return luck.choice(WHOLE) if sort == 1 else luck.randrange(100)
    text = luck.choice(['', 'a', 'A ', 'b\u00e9', 'word']) * luck.choice([1, 1, 3, 300])
    return text if sort == 3 else text.encode()
