"""What is left of a damaged store, by request 10 of document 02, written from its sentences and from document 01's store and tree code."""


def reserve(h, s):
    """R(2^h, s)."""
    n, t = 1 << h, s.bit_length()
    if s == 0:
        return 0
    if 2 * s >= n:
        return n * (t - h + 1) + s * (n - 1) // 2 ** (t - 1) - t - 1
    return 2 ** t + 2 * s - -(-s // 2 ** (t - 1)) - t - 1 + s * (h - t)


def counts_in(bits, h, s):
    """The 2^h counts of sum s whose tree has exactly these bits; none at damage or stray bits."""
    if h == 0 or s == 0:
        return None if "1" in bits else [s] + [0] * (2 ** h - 1)
    t = s.bit_length()
    left = int(bits[:t], 2)
    if left > s:
        return None
    middle = t + reserve(h - 1, left)
    end = middle + reserve(h - 1, s - left)
    first, second = counts_in(bits[t:middle], h - 1, left), counts_in(bits[middle:end], h - 1, s - left)
    return None if first is None or second is None or "1" in bits[end:] else first + second


class Store:
    """The bytes of a store of so many pages and cells, whatever is in them."""

    def __init__(self, store, pages, cells):
        self.store, self.pages, self.cells = store, pages, cells
        self.hours = self.number(12, 4)

    def number(self, at, width):
        return int.from_bytes(self.store[at:at + width], "little")

    def has_header(self):
        """Else a repair is refused 18."""
        return self.store[:2] == b"\1\0" and self.store[10:12] == b"\0\0" and self.number(2, 2) == self.pages \
            and self.number(4, 2) == self.cells and self.hours <= 64 * self.pages

    def page(self, p, used, total):
        """The counts and the cells of a page that is kept beside these cells and this total of earlier ones; else none."""
        s, cell, chain, bits = self.number(16 + 6 * p, 4), self.number(20 + 6 * p, 2), [], ""
        for _ in range(-(-reserve(6, s) // 240)):
            if not 1 <= cell <= self.cells or cell in used:
                return None
            at = 16 + 6 * self.pages + 32 * (cell - 1)
            chain.append(cell)
            bits += format(int.from_bytes(self.store[at + 2:at + 32], "big"), "0240b")
            cell = self.number(at, 2)
        if cell != 0 or total + s >= 2 ** 32:
            return None
        counts = counts_in(bits, 6, s)
        if counts is None or any(counts[max(0, self.hours - 64 * p):]):
            return None
        return counts, chain


def repaired(store, pages, cells):
    """The hours of the repaired store, and the pages that are lost, a bit for each; none where the repair is refused."""
    damaged, counts, used, total, lost = Store(store, pages, cells), [], set(), 0, 0
    if not damaged.has_header():
        return None
    for p in range(pages):
        kept = damaged.page(p, used, total)
        if kept is None:
            lost |= 1 << p
        page, chain = kept or ([0] * 64, [])
        counts, used, total = counts + page, used | set(chain), total + sum(page)
    return counts[:damaged.hours], lost
