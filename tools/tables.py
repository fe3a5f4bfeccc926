"""The tables of the book, described once; every generator reads them here. docs/LAYOUT.md says the same in words.
A table more is an entry in EVERY, behind the others, since the addresses before it do not move."""
from dataclasses import dataclass, field


@dataclass
class Table:
    struct: str  # the struct of the code
    name: str  # the word that stands in the names of definitions, laws and functions
    record: str  # the meaning's record (meaning/specs/Records)
    about: str  # what a record is
    places: int
    quota: int  # records of one depository; also type_quota .. of meaning/specs/Records
    fields: list  # name and bytes; the bytes of each number where the field is an array
    said: str = ""  # what the named numbers are
    named: list = field(default_factory=list)  # numbers that a field may hold, by name, as document 01 names them
    wide: tuple = ()  # fields of one byte that are u32 in the struct, as a question has them
    part: bool = True  # part of the book; else only its places are read and stored, behind the book's end
    start: int = 0  # the address of the first place; set below

    @property
    def cap(self):
        """the name within a longer name, as in put_type"""
        return self.name.capitalize()

    @property
    def numbers(self):
        """each number of a place: the field, its place in an array or None, its bytes, its offset"""
        out, offset = [], 0
        for name, width in self.fields:
            for k, w in enumerate(width) if isinstance(width, list) else [(None, width)]:
                out.append((name, k, w, offset))
                offset += w
        return out

    @property
    def width(self):
        """the bytes of a place"""
        return sum(w for _, _, w, _ in self.numbers)

    @property
    def array(self):
        """the numbers that stand in an array"""
        return [x for x in self.numbers if x[1] is not None]

    @property
    def long(self):
        """whether the numbers of its array are read and stored apart from the others: more than a proof takes at once"""
        return len(self.numbers) > 14


EVERY = [
    Table(
        "RestrictionType", "type", "TypeRecord",
        "A restriction type of a depository: what becomes of an object that its rules match.",
        places=128, quota=16,
        fields=[("csd", 1), ("number", 1), ("object", 1), ("processing", 1), ("first", 4), ("last", 4)],
        said="Objects, then processings.",
        named=[("INSTRUCTION", 1), ("RESTRICTION", 2), ("REJECTION", 1), ("VALIDATION_HOLD", 2), ("PARTY_HOLD", 3)]),
    Table(
        "Rule", "rule", "Rule", "A rule of a type, with the criteria that its rows fill.",
        places=512, quota=64,
        fields=[("csd", 1), ("number", 1), ("object", 1), ("sequence", 1), ("sign", 1), ("criteria", 2), ("first", 4),
                ("last", 4)],
        said="Signs.", named=[("POSITIVE", 1), ("NEGATIVE", 2)]),
    Table(
        "Row", "row", "Row", "A row of a rule: its ten values, 0 where empty. They are no Options: any lent bytes are read, and a value is compared as it lies.",
        places=1024, quota=128,
        fields=[("csd", 1), ("number", 1), ("object", 1), ("sequence", 1), ("values", [1, 1, 1, 4, 3, 3, 2, 2, 2, 3])]),
    Table(
        "Period", "period", "Period",
        "An attribute period: the days on which a party, an account or a security has a code.",
        places=1024, quota=128,
        fields=[("csd", 1), ("kind", 1), ("number", 3), ("code", 2), ("first", 4), ("last", 4)],
        said="Kinds.", named=[("PARTY", 1), ("ACCOUNT", 2), ("SECURITY", 3)]),
    Table(
        "Kept", "instruction", "Kept",
        "A pending instruction that is kept: the days since which its holds are on, 0 where off, and the types remembered. The days are no Options: they are stored as they lie, and the written meaning has 0 for a hold that is off.",
        places=256, quota=32,
        fields=[("csd", 1), ("reference", 2), ("object", 1), ("role", 1), ("movement", 1), ("payment", 1),
                ("transaction", 4), ("currency", 3), ("party", 3), ("account", 3), ("security", 3), ("validating", 4),
                ("holding", 4), ("remembered", [1] * 13)],
        wide=("role", "movement", "payment"), part=False),  # prepared for request d
]

# those that are part of the book
TABLES = [table for table in EVERY if table.part]

# one behind the other; where the last part ends is the book's size
end = 0
for table in EVERY:
    table.start = end
    end += table.places * table.width
SIZE = sum(table.places * table.width for table in TABLES)
