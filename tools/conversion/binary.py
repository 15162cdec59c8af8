"""Compiled dictionaries of Apertium (`.bin`), rewritten as compiled ones of this program."""

KINDS = ("standard", "inconditional", "postblank", "preblank")
WHITE = "\t\n\r"
MARKS = {"+": "J", "#": "Q", "~": "A"}
LETTER = {"+": "L43", "#": "L35", "~": "L126"}


class Fault(Exception):
    """What of a compiled dictionary can't be read."""


class Bytes:
    """The bytes of a compiled dictionary, read from the front."""

    def __init__(self, data):
        """`data` are all bytes of the file."""
        self.data, self.at = data, 0

    def number(self):
        """The next number: the first two bits tell how many bytes follow its first one."""
        first = self.data[self.at]
        more = first >> 6
        value = first & 0x3F
        for byte in self.data[self.at + 1:self.at + 1 + more]:
            value = value << 8 | byte
        self.at += 1 + more
        return value

    def text(self):
        """The next text: its length, and then its characters."""
        return "".join(chr(self.number()) for _ in range(self.number()))

    def header(self, name):
        """Whether the header `name` comes next; then it is passed by, and its features are
        given, else None."""
        if self.data[self.at:self.at + 4] != name:
            return None
        features = int.from_bytes(self.data[self.at + 4:self.at + 12], "little")
        self.at += 12
        return features


class Section:
    """A transducer: its start, its final states, and its edges by state."""

    def __init__(self, data, pairs):
        """Reads it from `data`; `pairs` are the labels by number."""
        features = data.header(b"LTTD")
        weighted = bool(features)
        self.start = data.number()
        self.finals, base = set(), 0
        for _ in range(data.number()):
            base += data.number()
            self.finals.add(base)
            self.skip_weight(data, weighted)
        states = data.number()
        self.edges = []
        for state in range(states):
            row, label = [], 0
            for _ in range(data.number()):
                label += data.number()
                row.append((pairs[label], (data.number() + state) % states))
                self.skip_weight(data, weighted)
            self.edges.append(row)

    @staticmethod
    def skip_weight(data, weighted):
        """Passes a weight by: two numbers of the mantissa and one of the exponent."""
        if weighted:
            raise Fault("weights")


def read(path):
    """The alphabet and the sections by name of a compiled dictionary of Apertium."""
    with open(path, "rb") as file:
        data = Bytes(file.read())
    if data.header(b"LTTB") is None:
        raise Fault("no header LTTB")
    alphabet = data.text()
    tags = [f"<{data.text().strip('<>')}>" for _ in range(data.number())]
    count = len(tags)

    def symbol(number):
        """A side of a label: empty, a character or a tag in angle brackets."""
        if number == 0:
            return ""
        return chr(number) if number > 0 else tags[-number - 1]

    def side():
        """The next side of a pair."""
        return symbol(data.number() - count)

    pairs = [(side(), side()) for _ in range(data.number())]
    sections = {}
    for _ in range(data.number()):
        name = data.text()
        sections[name] = Section(data, pairs)
    return alphabet, sections


def partners(letter):
    """The letter and its partner by the table of case."""
    code = ord(letter)
    for low, high, step in ((0x41, 0x5A, 32), (0xC0, 0xDE, 32), (0x391, 0x3AB, 32),
                            (0x400, 0x40F, 80), (0x410, 0x42F, 32), (0x388, 0x38A, 37)):
        if low <= code <= high and code not in (0xD7, 0x3A2):
            return {letter, chr(code + step)}
        if low + step <= code <= high + step and code not in (0xF7, 0x3C2):
            return {letter, chr(code - step)}
    for low, high, parity in ((0x100, 0x12F, 0), (0x132, 0x137, 0), (0x14A, 0x177, 0),
                              (0x139, 0x148, 1), (0x179, 0x17E, 1)):
        if low <= code <= high:
            return {letter, chr(code + 1 if code % 2 == parity else code - 1)}
    for upper, lower in ((0x178, 0xFF), (0x386, 0x3AC), (0x38C, 0x3CC), (0x38E, 0x3CD),
                         (0x38F, 0x3CE)):
        if code in (upper, lower):
            return {chr(upper), chr(lower)}
    return {letter}


def side_spelt(side, marks):
    """A side of a label as it is written, and its place in the order of sides; `marks` are the
    characters that are marks on this side."""
    if side == "":
        return "-", (0,)
    if len(side) > 1:
        return "T" + side[1:-1], (2, side[1:-1].encode())
    if side == " ":
        return "B", (3,)
    if side in marks:
        return MARKS[side], (4 + "+#~".index(side),)
    return f"L{ord(side)}", (1, ord(side))


def joined(sections):
    """The states, edges and final states of one transducer for sections of one kind; the start
    is 0."""
    if len(sections) == 1 and sections[0].start == 0:
        return sections[0].edges, sections[0].finals
    edges, finals, starts, shift = [], set(), [], 1
    for section in sections:
        edges += [[(label, to + shift) for label, to in row] for row in section.edges]
        finals |= {state + shift for state in section.finals}
        starts.append(section.start + shift)
        shift += len(section.edges)
    first = [edge for start in starts for edge in edges[start - 1]]
    return [first] + edges, finals


def section_lines(kind, sections, marks):
    """The lines of one kind of sections, and what was left out of them."""
    rows, finals = joined(sections)
    lines, left_out = [], 0
    spelt = {}
    for state, row in enumerate(rows):
        out = []
        for label, to in row:
            if label not in spelt:
                left, left_order = side_spelt(label[0], marks[0])
                right, right_order = side_spelt(label[1], marks[1])
                bad = set(label) & set(WHITE) or label == ("", "")
                spelt[label] = None if bad else (left_order, right_order, f"{left} {right}")
            if spelt[label] is None:
                left_out += 1
            else:
                out.append(spelt[label][:2] + (to, f"{state} {spelt[label][2]} {to}"))
        lines += [text for *_, text in sorted(set(out))]
    head = f"section {kind} {len(rows)} {len(lines)} {len(finals)}"
    return [head] + lines + [str(state) for state in sorted(finals)], left_out


def compiled(path, way, marks):
    """The lines of the compiled form for a compiled dictionary of Apertium, and how many edges
    were left out. `way` is `lr` or `rl`; `marks` are the marks on the left and right sides."""
    alphabet, sections = read(path)
    closed = sorted({ord(each) for letter in alphabet if not letter.isspace()
                     for each in partners(letter)})
    lines = ["LTC2", f"way {way}", " ".join(["alphabet"] + [str(code) for code in closed])]
    left_out = 0
    for kind in KINDS:
        mine = [section for name, section in sections.items()
                if (name.partition("@")[2] or "standard") == kind]
        section, gone = section_lines(kind, mine, marks)
        lines += section
        left_out += gone
    return lines + ["end"], left_out
