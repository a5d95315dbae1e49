"""Ways to damage the bytes of a database, for the checks of the repository. Each takes the bytes, the page size and a source of luck."""
import struct
from random import Random

from sqlite_files import many_tables, ordinary


def change_bytes(data, size, luck):
    for _ in range(luck.choice([1, 3, 20, 200])):
        data[luck.randrange(len(data))] = luck.randrange(256)


def zero_pages(data, size, luck):
    for _ in range(luck.randrange(1, 6)):
        page = luck.randrange(len(data) // size)
        data[page * size:(page + 1) * size] = bytes(size)


def swap_pages(data, size, luck):
    for _ in range(luck.randrange(1, 6)):
        a, b = (luck.randrange(len(data) // size) * size for _ in range(2))
        data[a:a + size], data[b:b + size] = data[b:b + size], data[a:a + size]


def copy_pages(data, size, luck):
    for _ in range(luck.randrange(1, 6)):
        a, b = (luck.randrange(len(data) // size) * size for _ in range(2))
        data[a:a + size] = data[b:b + size]


def cut(data, size, luck):
    del data[luck.randrange(1, len(data)):]


def wipe_header(data, size, luck):
    data[0:100] = bytes(100)


def wipe_first_page(data, size, luck):
    data[0:size] = bytes(size)


def wrong_numbers(data, size, luck):
    """A few numbers of cells, of children or of overflow pages at their ends."""
    for _ in range(luck.randrange(1, 10)):
        at = luck.randrange(len(data) // size) * size + luck.choice([1, 3, 5, 8, 10, 12, size - 4])
        data[at:at + 2] = luck.choice([b'\0\0', b'\xff\xff', b'\0\1', b'\x7f\xff'])


DAMAGES = [change_bytes, zero_pages, swap_pages, copy_pages, cut, wipe_header, wipe_first_page, wrong_numbers]


def a_page(data, size, luck):
    """Where a page begins; the header of page 1 stands 100 bytes behind."""
    page = luck.randrange(len(data) // size)
    return page * size, page * size + (100 if page == 0 else 0)


def mix_headers(data, size, luck):
    """Page headers with the type, the counts or the pointers of another page."""
    for _ in range(luck.choice([1, 10, 100])):
        (_, to), (_, of) = a_page(data, size, luck), a_page(data, size, luck)
        length = luck.choice([1, 5, 8, 12, 40])
        data[to:to + length] = data[of:of + length]


def counts_at_their_ends(data, size, luck):
    for _ in range(luck.choice([1, 10, 100])):
        _, at = a_page(data, size, luck)
        data[at] = luck.choice([2, 5, 10, 13])
        data[at + 3:at + 5] = luck.choice([b'\0\0', b'\0\1', b'\xff\xff', struct.pack('>H', (size - 8) // 2), struct.pack('>H', size // 4)])


def pointers_at_their_ends(data, size, luck):
    """Cell pointers at the first and last bytes of a page, the same for many, or at one long cell."""
    for _ in range(luck.choice([1, 10, 100])):
        start, at = a_page(data, size, luck)
        count = luck.choice([1, 10, 100])
        place = luck.choice([0, 8, size - 1, size - 4, size // 2, 0xffff])
        data[at + 8:at + 8 + 2 * count] = struct.pack('>H', place) * count


def rings(data, size, luck):
    """Pages whose first four bytes name each other or themselves, as those of overflow chains and of the freelist do."""
    pages = len(data) // size
    for _ in range(luck.choice([1, 10, 100])):
        page = luck.randrange(pages)
        if page != 0:
            data[page * size:page * size + 4] = struct.pack('>I', luck.choice([page + 1, luck.randrange(pages) + 1, page, 0xffffffff, pages]))
    data[32:36] = struct.pack('>I', luck.randrange(pages + 2))


def long_payloads(data, size, luck):
    """Varints of nine bytes at places where cells begin."""
    for _ in range(luck.choice([1, 10, 100])):
        start, at = a_page(data, size, luck)
        place = start + struct.unpack('>H', data[at + 8:at + 10])[0] % size
        data[place:place + 9] = luck.choice([b'\xff' * 9, b'\x80' * 8 + b'\x01', b'\x81\x80\x80\x80\x00' + data[place + 5:place + 9]])


HOSTILE = DAMAGES + [mix_headers, counts_at_their_ends, pointers_at_their_ends, rings, long_payloads]


def damaged(number, whole, ways):
    """The bytes of a damaged file, and a word for what was done."""
    luck = Random(number)
    size, data = whole[number % len(whole)]
    data = bytearray(data)
    done = [ways[number // len(whole) % len(ways)]]
    while luck.randrange(3) == 0:
        done.append(luck.choice(ways))
    for damage in done:
        if len(data) > size:
            damage(data, size, luck)
    return bytes(data), ' and '.join(d.__name__ for d in done)


def whole_files(folder):
    """Databases that SQLite makes, each with its page size and its bytes."""
    whole = []
    for make, size in [(ordinary, 512), (ordinary, 1024), (ordinary, 4096), (many_tables, 1024)]:
        path = '%s/whole%d' % (folder, len(whole))
        make(path, size, Random(size))
        whole.append((size, open(path, 'rb').read()))
    return whole
