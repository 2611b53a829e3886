"""Files of records: random ones, good, torn or with a few mistakes, and large ones."""

# Ids that could be taken for something else, and those as short and as long as they may be.
IDS = (b"!", b"+", b"a", b"b", b"c", b"~", b"0", b"1", b"5", b"+1", b"!!", b"!a", b"++", b"getmail-seen", b"x" * 70,
       b"y" * 69, b'"', b"A1.b_2")
NUMBERS = (b"0", b"1", b"5", b"9", b"10", b"1700000000", b"18446744073709551615")
ODD_WORDS = (b"", b"00", b"01", b"-1", b"+5", b"18446744073709551616", b"99999999999999999999", b"1e3", b"2", b"x" * 71,
             b"\x7f", b"\x80", b"\x00", b"a\tb", b"\r", b"5 5", b"!", b"+", b"1_0", "٣".encode(), b"100000", b"100001")
OCTETS = b" \n!+0129a\x00\r\x7f"


class Builder:
    """A file that grows by groups and intents, nearly always good ones, as a list of lines."""

    def __init__(self, source):
        self.source = source
        self.version = source.choice((1, 2, 2))
        self.rows = {}
        self.has_intent = False
        self.lines = [b"getmail-seen %d" % self.version]
        ids = source.sample(IDS, source.choice((0, 1, 2, 3, 8)))
        for uid in ids + source.choices(ids, k=len(ids) > 2 and source.randrange(8) == 0):
            self.add(uid, source.choice(NUMBERS), source.choice((b"0", b"1")))

    def add(self, uid, second, state):
        self.rows[uid] = (second, state)
        self.lines.append(b"%b %b %b" % (uid, second, state))

    def may_name(self):
        """The ids that a group's row may name; now and then also those that it may not name again in version 1."""
        if self.version == 2 or self.source.randrange(8) == 0:
            return IDS
        return [uid for uid in IDS if self.rows.get(uid, (b"", b"0"))[1] == b"0"]

    def grow_by_group(self):
        place = len(self.lines)
        for _ in range(self.source.choice((1, 1, 1, 2, 3))):
            if names := self.may_name():
                uid = self.source.choice(names)
                second, state = self.rows.get(uid, (self.source.choice(NUMBERS), self.source.choice((b"0", b"1"))))
                if self.source.randrange(16) == 0:
                    second = self.source.choice(NUMBERS)
                self.add(uid, second, b"1" if uid in self.rows else state)
        if len(self.lines) > place:
            self.lines.insert(place, b"+ %d" % (len(self.lines) - place))
            self.has_intent = False

    def grow_by_intent(self):
        if self.version == 2 and self.rows and (not self.has_intent or self.source.randrange(8) == 0):
            uid = self.source.choice(tuple(self.rows))
            self.lines.append(b"! %b %b %b" % (uid, self.source.choice(NUMBERS), self.source.choice(NUMBERS)))
            self.has_intent = True

    def grow(self):
        for _ in range(self.source.choice((0, 1, 2, 3, 6))):
            self.source.choice((self.grow_by_group, self.grow_by_intent))()


def good_lines(source):
    builder = Builder(source)
    builder.grow()
    return builder.lines


def odd_word(source):
    return source.choice(ODD_WORDS + NUMBERS + IDS)


def with_changed_line(source, lines):
    """The lines with one left out, doubled, moved, or inserted from another file; or one field changed."""
    place = source.randrange(len(lines))
    line = lines[place]
    kind = source.randrange(6)
    if kind == 0:
        return lines[:place] + lines[place + 1:]
    if kind == 1:
        return lines[:place] + [line] + lines[place:]
    if kind == 2:
        rest = lines[:place] + lines[place + 1:]
        other = source.randrange(len(rest) + 1)
        return rest[:other] + [line] + rest[other:]
    if kind == 3:
        return lines[:place] + [source.choice(good_lines(source))] + lines[place:]
    fields = line.split(b" ")
    field = source.randrange(len(fields) + 1)
    changed = fields[:field] + [odd_word(source)] + fields[field + (kind == 4):]
    return lines[:place] + [b" ".join(changed)] + lines[place + 1:]


def with_changed_octet(source, data):
    """The file with an octet inserted, left out or changed, seldom one of its header."""
    place = source.randrange(min(len(data), source.choice((0, 15, 15, 15))), len(data) + 1)
    octet = bytes([source.choice(OCTETS) if source.randrange(4) else source.randrange(255)])
    return data[:place] + source.choice((b"", octet)) + data[place + source.randrange(2):]


def random_file(source):
    """One file; it has no octet 255, which separates the files that are read together."""
    lines = good_lines(source)
    kind = source.randrange(8)
    if kind in (0, 1):
        for _ in range(source.choice((1, 1, 2))):
            lines = with_changed_line(source, lines) or [b""]
    data = b"".join(line + b"\n" for line in lines)
    if kind == 2:
        for _ in range(source.choice((1, 1, 2, 4))):
            data = with_changed_octet(source, data)
    if kind == 4:
        data = data.replace(b"getmail-seen 2\n", b"getmail-seen 1\n", 1)
    if kind == 3 or source.randrange(12) == 0:
        data = data[:source.randrange(len(data) + 1)]
    return data


def row_of(number, octets=20):
    """A row of `octets` octets, whose id is this number with leading zeros."""
    return b"%0*d 5 0\n" % (octets - len(b" 5 0\n"), number)


def large_file(size, appended):
    """A good file of `size` octets, `appended` of them, at least 24, in groups and intents after its first rows."""
    header = b"getmail-seen 2\n"
    count, more = divmod(size - len(header) - appended, 20)
    first_rows = [row_of(number) for number in range(count)]
    if more:
        first_rows[-1] = row_of(count, 20 + more)
    ended, more = divmod(appended - 24, 46)
    groups = [b"+ 1\n%b! %015d 0 9\n" % (row_of(number), number) for number in range(count + 1, count + 1 + ended)]
    return b"".join((header, *first_rows, *groups, b"+ 1\n", row_of(count + 1 + ended, 20 + more)))
