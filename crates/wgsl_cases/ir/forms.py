"""Forms of values: each tells a value by chance, at once as naga's JSON and as `{:?}` shows it.

Both are told apart from the reader and from the printer: a form knows how `serde` writes a value of its type, and how
`Debug` prints one.
"""

import json
import random
import struct
from bisect import bisect_right
from collections import Counter
from fractions import Fraction
from typing import NamedTuple


class Told(NamedTuple):
    """A value as JSON and as `Debug` has it."""
    json: str
    debug: str


class Chance(random.Random):
    """Chance, with what forms share: how long lists may be, how often a member is left out that may be, how deep blocks
    nest, how many items a list that grows has, and which variants were told how often."""

    def __init__(self, seed, most=20, absent=0.1):
        super().__init__(seed)
        self.most, self.absent, self.depth, self.earlier, self.told = most, absent, 0, 0, Counter()

    def often(self, share):
        return self.random() < share


class Form:
    """How values of a type are told. `absent` is how `Debug` has the value of a member that is left out, or None where
    it must be there."""
    absent = None

    def tell(self, r):
        raise NotImplementedError

    def leave_out(self, r):
        """What is so where the member is left out."""


class Number(Form):
    """A number from `low` to `high`, both ends often."""

    def __init__(self, low, high):
        self.low, self.high = low, high

    def tell(self, r):
        small = r.randint(max(self.low, -9), min(self.high, 20))
        number = r.choice([self.low, self.high, small, small, small, r.randint(self.low, self.high)])
        return Told(str(number), str(number))


class Truth(Form):
    absent = "false"

    def tell(self, r):
        truth = r.choice(["true", "false"])
        return Told(truth, truth)


class Text(Form):
    """A label of a few characters: of words, with escapes, or from anywhere in Unicode."""

    def tell(self, r):
        label = "".join(self.character(r) for _ in range(r.choice([0, 1, 3, 8, 8, 30])))
        return Told(self.quoted(r, label), debug_of_text(label))

    @staticmethod
    def character(r):
        kind = r.random()
        if kind < 0.5:
            return r.choice("abcxyz_019")
        if kind < 0.7:
            return r.choice("\"\\/'\0\t\n\r\b\f\x7f\x85\u2028\ufeff {}[]:,|%")
        if kind < 0.8:
            return r.choice("\u0301\u200d\u202e\ud7ff\ue000\ufffd\uffff\U00010000\U0001f600\U0010ffff")
        code = r.choice([r.randrange(0x80, 0x800), r.randrange(0xE000, 0x110000)])
        return chr(code)

    @staticmethod
    def quoted(r, label):
        quoted = json.dumps(label, ensure_ascii=r.often(0.5))
        return quoted.replace("/", "\\/") if r.often(0.3) else quoted


def debug_of_text(text):
    """The text as `Debug` shows it, but with all characters that it tells by their numbers as themselves."""
    escapes = {"\\": "\\\\", '"': '\\"', "\n": "\\n", "\r": "\\r", "\t": "\\t", "\0": "\\0"}
    return '"' + "".join(escapes.get(c, c) for c in text) + '"'


class Handle(Form):
    """A handle."""

    def tell(self, r):
        index = r.choice([0, 1, r.randrange(20), r.randrange(20), 4294967294])
        return Told(str(index), self.shown(index))

    @staticmethod
    def shown(index):
        return f"ItemIndex {{ index: {index}, mark: PhantomData<_> }}"


class Maybe(Form):
    absent = "None"

    def __init__(self, form):
        self.form = form

    def tell(self, r):
        if r.often(0.4):
            return Told("null", "None")
        inner = self.form.tell(r)
        return Told(inner.json, f"Some({inner.debug})")


class Needed(Form):
    """A value that must be there, though it may be an empty one."""

    def __init__(self, form):
        self.form = form

    def tell(self, r):
        return self.form.tell(r)


class Listed(Form):
    """A list of values, most often a short one, between what `Debug` puts around it."""

    def __init__(self, form, before="[", after="]", most=4):
        self.form, self.before, self.after, self.most = form, before, after, most
        self.absent = before + after

    def items(self, r):
        return [self.form.tell(r) for _ in range(r.randint(0, min(self.most, r.most)))]

    def tell(self, r):
        items = self.items(r)
        inner = ", ".join(item.debug for item in items)
        return Told(list_of(item.json for item in items), self.before + inner + self.after)


class Fixed(Form):
    """A list of so many values."""

    def __init__(self, form, count):
        self.form, self.count = form, count

    def tell(self, r):
        items = [self.form.tell(r) for _ in range(self.count)]
        return Told(list_of(item.json for item in items), "[" + ", ".join(item.debug for item in items) + "]")


class NoneTold(Maybe):
    """A list of so many that may each be null, of which random modules have only nulls: what is read of one hangs on
    what it names."""

    def __init__(self, form, count):
        super().__init__(Fixed(Maybe(form), count))
        self.absent = "[" + ", ".join(["None"] * count) + "]"
        self.nulls = "[" + ",".join(["null"] * count) + "]"

    def tell(self, r):
        return Told(r.choice(["null", self.nulls]), self.absent)


class Growing(Listed):
    """A list whose items name earlier ones, by `Earlier`, as what stands after it does."""

    def items(self, r):
        r.earlier, items = 0, []
        for _ in range(r.randint(0, min(self.most, r.most))):
            items.append(self.form.tell(r))
            r.earlier += 1
        return items

    def leave_out(self, r):
        r.earlier = 0


class Earlier(Maybe):
    """The handle of an earlier item of a list that grows, or of any after it, or null."""

    def __init__(self):
        super().__init__(Handle())

    def tell(self, r):
        if r.earlier == 0 or r.often(0.4):
            return Told("null", "None")
        index = r.randrange(r.earlier)
        return Told(str(index), f"Some({Handle.shown(index)})")


class Distinct(Listed):
    """A list in which no value comes twice."""

    def items(self, r):
        return list({item.debug: item for item in super().items(r)}.values())


def arena(form, most=4):
    return Listed(form, "Arena { items: [", "] }", most)


def unique_arena(form):
    return Distinct(form, "UniqueArena { items: {", "} }", 8)


class Numbered(Form):
    """A map from handles, whose numbers are keys in JSON, in any order; it is read in the order of the numbers."""
    absent = "{}"

    def __init__(self, form):
        self.form = form

    def tell(self, r):
        keys = r.sample([0, 1, 2, 3, 9, 10, 11, 20, 100, 4294967294], r.randint(0, 5))
        items = {key: self.form.tell(r) for key in keys}
        inner = ", ".join(f"ItemIndex {{ index: {key}, mark: PhantomData<_> }}: {items[key].debug}" for key in sorted(keys))
        return Told(object_of((str(key), items[key].json) for key in keys), "{" + inner + "}")


class Paired(Form):
    """A map from values that can be no keys in JSON, as a list of pairs."""
    absent = "{}"

    def __init__(self, key, form):
        self.key, self.form = key, form

    def tell(self, r):
        keys = {key.debug: key for key in (self.key.tell(r) for _ in range(r.randint(0, 4)))}.values()
        pairs = [(key, self.form.tell(r)) for key in keys]
        inner = ", ".join(f"{key.debug}: {value.debug}" for key, value in pairs)
        return Told(list_of(list_of([key.json, value.json]) for key, value in pairs), "{" + inner + "}")


class Flags(Form):
    """A set of flags, as words with bars between them or as a number."""

    def __init__(self, name, *words):
        self.name, self.words = name, words
        self.absent = f"{name}(0)"

    def tell(self, r):
        bits = r.randrange(1 << len(self.words))
        words = [word for bit, word in enumerate(self.words) if bits >> bit & 1]
        if r.often(0.2):
            r.shuffle(words)
        told = str(bits) if r.often(0.3) else json.dumps(r.choice([" | ", " | ", "|"]).join(words))
        return Told(told, f"{self.name}({bits})")


class Double(Form):
    """The bits of a number of eight bytes."""

    def tell(self, r):
        text = some_number(r)
        if text is None:
            return told_by_bits(r.choice([0x7FF << 52, 0xFFF << 52, 0x7FF8 << 48, 0x7FF << 52 | 1, r.getrandbits(64)]))
        return Told(text, str(struct.unpack("<Q", struct.pack("<d", float(text)))[0]))


class Single(Form):
    """The bits of a number of four bytes: of the shortest text of one, or those that any number is read as."""

    def tell(self, r):
        bits = r.getrandbits(32)
        if r.often(0.3) and bits & INFINITE != INFINITE:
            return Told(shortest_text(bits), str(bits))
        text = some_number(r)
        bits = text and single_of(text)
        if bits is None or bits & INFINITE == INFINITE:
            return told_by_bits(r.choice([0x7F800000, 0xFF800000, 0x7FC00000, 0x7F800001, r.getrandbits(32)]))
        return Told(text, str(bits))


# the bits of the exponent of a number of four bytes that is not finite, and the bit of a sign
INFINITE, SIGN = 0x7F800000, 0x80000000


def single_of(text):
    """The bits of the number of four bytes that is nearest to this one, by fractions. Where the number of eight that it is
    read as is halfway between two, they are those whose shortest text is that number too, or else the even ones."""
    sign = SIGN if text.startswith("-") else 0
    number = Fraction(abs(float(text)))
    below, above = singles_around(number)
    if value(above) - number == number - value(below):
        even, odd = sorted((below, above), key=lambda bits: bits % 2)
        return sign | (odd if is_shortest(odd, number) and not is_shortest(even, number) else even)
    return sign | nearest(abs(Fraction(text)))


def is_shortest(bits, number):
    """Whether the shortest text of these bits is read as this number of eight bytes."""
    return bits != INFINITE and Fraction(float(shortest_text(bits))) == number


def nearest(number):
    """The bits of the number of four bytes that is nearest to this positive one; of two the even ones."""
    below, above = singles_around(number)
    return min(below, above, key=lambda bits: (abs(value(bits) - number), bits % 2))


def singles_around(number):
    """The bits of the greatest number of four bytes that is not above this positive one, and of the next one."""
    below = bisect_right(range(INFINITE), number, key=value) - 1
    return below, below + 1


def value(bits):
    """The value of a number of four bytes without a sign; that of infinity is what would come next."""
    return Fraction(2) ** 128 if bits == INFINITE else Fraction(struct.unpack("<f", struct.pack("<I", bits))[0])


def shortest_text(bits):
    """The text of fewest digits that is nearest to this number of four bytes."""
    number = struct.unpack("<f", struct.pack("<I", bits))[0]
    texts = (f"{number:.{digits}g}" for digits in range(1, 10))
    return next(text for text in texts if nearest(abs(Fraction(text))) == bits & ~SIGN)


class Half(Form):
    """The bits of a number of two bytes, which is how `half` writes one, or told as bits."""

    def tell(self, r):
        bits = r.choice([0, 0x8000, 0x7C00, 0xFC00, 0x7E01, 1, r.getrandbits(16)])
        return Told(str(bits), str(bits)) if r.often(0.5) else told_by_bits(bits)


def told_by_bits(bits):
    return Told(object_of([("bits", str(bits))]), str(bits))


NUMBERS = """
0 -0 0.0 -0.0 1 -1 1.5 0.1 -0.1 1e5 1E+2 12e-3 0.1e1 5e-324 -5e-324 4.9e-324 1e-400 1e22 1e23 16777217 16777219
2.2250738585072014e-308 2.225073858507201e-308 1.7976931348623157e308 -1.7976931348623157e308 9007199254740993
18446744073709551615 18446744073709551616 -9223372036854775808 -9223372036854775809 0.30000000000000004
0.1000000000000000055511151231257827 123456789012345678901234567890 3.4028234663852886e38 3.4028235677973362e38
1.401298464324817e-45 7.038531e-26 7.006492321624085e-46 1.1754943508222875e-38 1.1754942e-38 1.0000000596046448 1.00000017881393432
""".split()


def some_number(r):
    """The text of a number, or None for one that JSON lacks: known ones, any double in as many digits as it needs, in
    17, or in so few that it is another, and any single."""
    kind = r.random()
    if kind < 0.15:
        return None
    if kind < 0.5:
        return r.choice(NUMBERS)
    if kind < 0.75:
        bits = struct.pack("<Q", r.getrandbits(64))
        number = struct.unpack("<d", bits)[0]
    else:
        number = struct.unpack("<f", struct.pack("<I", r.getrandbits(32)))[0]
    if number != number or number in (float("inf"), float("-inf")):
        return None
    return r.choice([repr(number), f"{number:.17g}", f"{number:.9g}", f"{number:.3e}"])


# the names of all structs and variants
EVERY = set()


class Struct(Form):
    """An object with these members. Some that may be absent are, and some are there that the reader lets be: the
    others, with any value, and those that say nothing, with null."""

    def __init__(self, name, *members, others=(), nulls=(), unread=()):
        # each member by its name in JSON, its form, and its name in Rust where that is another; fields that no JSON
        # tells are unread, as `Debug` has them
        self.name, self.members = name, [member_of(*each) for each in members]
        self.others, self.nulls, self.unread = others, nulls, unread
        EVERY.add(name)

    def tell(self, r):
        r.told[self.name] += 1
        told = [(member, self.member(member, r)) for member in self.members]
        shown = ", ".join([*(f"{member.shown}: {value.debug}" for member, value in told), *self.unread])
        return Told(self.object(r, told), f"{self.name} {{ {shown} }}" if told else self.name)

    @staticmethod
    def member(member, r):
        if member.form.absent is not None and r.often(r.absent):
            member.form.leave_out(r)
            return Told(None, member.form.absent)
        return member.form.tell(r)

    def object(self, r, told):
        members = [(member.name, value.json) for member, value in told if value.json is not None]
        # an info has some known member, or none at all
        if members and r.often(0.1):
            members += [(name, some_json(r)) for name in self.others if r.often(0.5)]
        members += [(name, "null") for name in self.nulls if r.often(0.3)]
        if r.often(0.3):
            r.shuffle(members)
        return object_of(members)


class Member(NamedTuple):
    """A member of an object, its form, and how `Debug` names it."""
    name: str
    form: Form
    shown: str


def member_of(name, form, shown=None):
    return Member(name, form, shown or name)


def some_json(r):
    return r.choice(["null", "0", "-1.5", '""', '"x"', "[]", "{}", "[[0,null]]", '{"start":0,"end":"1"}'])


class Bare(NamedTuple):
    """A variant with members that may all be absent, told by its name alone, and how it is shown then."""
    name: str
    debug: str


def name_of(variant):
    """The name of a variant of an enum."""
    if isinstance(variant, str):
        return variant
    return variant.name if isinstance(variant, (Struct, Bare)) else variant[0]


class Enum(Form):
    """Variants without content, by their names alone or with null; with a value, by name and form; with members, as
    structs; and bare."""

    def __init__(self, name, *variants):
        self.name, self.variants = name, list(variants)
        EVERY.update(map(self.told_as, variants))

    def names(self):
        """The names of the variants, in naga's order."""
        return [name_of(variant) for variant in self.variants]

    def told_as(self, variant):
        return f"{self.name}::{name_of(variant)}"

    def tell(self, r):
        # most often the variant that was told least, so that rare ones are told too
        least = r.often(0.7) and min(self.variants, key=lambda variant: r.told[self.told_as(variant)])
        return self.of_variant(least or r.choice(self.variants), r)

    def of_variant(self, variant, r):
        r.told[self.told_as(variant)] += 1
        if isinstance(variant, str):
            told = object_of([(variant, "null")]) if r.often(0.2) else json.dumps(variant)
            return Told(told, variant)
        if isinstance(variant, Bare):
            return Told(json.dumps(variant.name), variant.debug)
        if isinstance(variant, Struct):
            told = variant.tell(r)
            return Told(object_of([(variant.name, told.json)]), told.debug)
        name, form = variant
        told = form.tell(r)
        return Told(object_of([(name, told.json)]), f"{name}({told.debug})")


class Short(Form):
    """One of several ways to tell a value."""

    def __init__(self, *forms):
        self.forms = forms

    def tell(self, r):
        return r.choice(self.forms).tell(r)


class Shown(Form):
    """Told as another form, but shown in a frame."""

    def __init__(self, form, frame):
        self.form, self.frame = form, frame
        self.absent = None if form.absent is None else frame.format(form.absent)

    def tell(self, r):
        told = self.form.tell(r)
        return Told(told.json, self.frame.format(told.debug))


def list_of(items):
    return "[" + ",".join(items) + "]"


def object_of(members):
    return "{" + ",".join(f"{json.dumps(name)}:{value}" for name, value in members) + "}"
