#!/usr/bin/env python3
"""Writes the tables as values with their names (crates/records/specs/Tables), when a place is free (specs/Free, proofs/
Nobody), the tables' own facts (proofs/TableFacts), and the lists of a lone book by their tables (crates/book/proofs/
Lists). Laws are proved over any table and written by hand; here a table has a clause. The tables are described in
tools/tables.py."""
from output import noted
from tables import TABLES

R, B = "crates/records", "crates/book"
OF = [f"of_{t.name}s" for t in TABLES]


def each(text, separator=""):
    """the text for each table: OF its name, and NAME, CAP, STRUCT, RECORD as tools/tables.py has them"""
    words = lambda t: (("OF", f"of_{t.name}s"), ("NAME", t.name), ("CAP", t.cap), ("STRUCT", t.struct), ("RECORD", t.record))
    out = []
    for t in TABLES:
        line = text
        for old, new in words(t):
            line = line.replace(old, new)
        out.append(line)
    return separator.join(out)


def paired(tests):
    """a test of all, two by two"""
    while len(tests) > 1:
        two = [tests[k:k + 2] for k in range(0, len(tests), 2)]
        tests = [p[0] if len(p) == 1 else f"({p[0]} && {p[1]})" for p in two]
    return tests[0][1:-1]


def number(k, last):
    """the pattern of the k-th number, of which the last stands for all others"""
    return "n" if last and k == 0 else "zero" if k == 0 else f"(suc {number(k - 1, last)})"


# ---- a free place
noted("values", f"{R}/specs/Free.antt", f"""-- A free place is all zero (document 01, 'Records'): each of its numbers is 0. Assumes nothing.
use Rattle.std.specs.Prelude.{{ℕ, Bool, List, eqb}}
use Rattle.tables.specs.Count.{{every}}
use Rattle.places.specs.Layout.{{{each("NAME_numbers", ", ")}}}
{each("use Rattle.places.specs.declared.STRUCT.{STRUCT}" + chr(10))}
unfoldable pub all_zero : List ℕ → Bool
unfolding every
all_zero = every (λ n. eqb n 0)
{each(chr(10) + "unfoldable pub NAME_zero : STRUCT → Bool" + chr(10) + "unfolding all_zero" + chr(10) + "NAME_zero r = all_zero (NAME_numbers r)" + chr(10))}""")
noted("values", f"{R}/proofs/Nobody.antt", f"""-- A free place is nobody's.
use mathlib.Core.Path.{{◌≡◌}}
use mathlib.Core.Bool.{{true}}
use borrow.Author.Tests.{{eqb-true}}
use Rattle.tables.specs.Count.{{every}}
use Rattle.tables.proofs.Counts.{{ands}}
{each("use Rattle.places.specs.declared.STRUCT.{STRUCT}" + chr(10))}use Rattle.records.specs.Free.{{all_zero, {each("NAME_zero", ", ")}}}
{each(chr(10) + "pub NAME_nobody : (r : STRUCT) → NAME_zero r ≡ true → r.csd ≡ 0" + chr(10) + "unfolding NAME_zero all_zero every" + chr(10) + "NAME_nobody r e = eqb-true r.csd 0 (search ands)" + chr(10))}""")

# ---- the values
noted("values", f"{R}/specs/Tables.antt", f"""-- The book's tables, each a value (`tables/specs/Table`), and their names. Assumes nothing.
use Rattle.std.specs.Prelude.{{ℕ, ◌*◌, Bool, ◌&&◌, List, [], ◌∷◌}}
use Rattle.tables.specs.Table.{{Table}}
use Rattle.meaning.specs.Records as M
{each("use Rattle.places.specs.Layout.{NAME_places, NAME_base, NAME_width, NAME_widths, NAME_numbers, NAME_from, NAME_at, put_NAME}" + chr(10))}{each("use Rattle.places.specs.declared.STRUCT.{STRUCT}" + chr(10))}use Rattle.places.specs.Layout.{{instruction_places, instruction_base, instruction_widths, instruction_numbers, instruction_from, instruction_at, put_instruction}}
use Rattle.places.specs.declared.Kept.{{Kept}}
use Rattle.records.specs.Said.{{{each("NAME_of", ", ")}, instruction_of}}
use Rattle.records.specs.Free.{{all_zero, {each("NAME_zero", ", ")}}}

pub data TableName : Type 0 where
  {" ".join(OF)} : TableName

-- the struct of a place, and the meaning's record

abbrev pub Place : TableName → Type 0
{each("Place OF = STRUCT" + chr(10))}
abbrev pub Said : TableName → Type 0
{each("Said OF = M.RECORD" + chr(10))}
abbrev pub table : (k : TableName) → Table (Place k) (Said k)
{each('''table OF = record {
  start = NAME_base;
  places = NAME_places;
  quota = M.NAME_quota;
  widths = NAME_widths;
  shown = NAME_numbers;
  from = NAME_from;
  at = NAME_at;
  put = put_NAME;
  csd = λ r. r.csd;
  free = NAME_zero;
  rec = NAME_of;
}
''')}
-- the kept instructions, which stand behind the book (docs/LAYOUT.md)
abbrev pub kept : Table Kept M.Kept
kept = record {{
  start = instruction_base;
  places = instruction_places;
  quota = M.instruction_quota;
  widths = instruction_widths;
  shown = instruction_numbers;
  from = instruction_from;
  at = instruction_at;
  put = put_instruction;
  csd = λ r. r.csd;
  free = λ r. all_zero (instruction_numbers r);
  rec = instruction_of;
}}

-- ---- the tables' order in the book

abbrev pub rank : TableName → ℕ
{"".join(f"rank {o} = {k}" + chr(10) for k, o in enumerate(OF))}
-- the bytes of each
abbrev pub sizes : List ℕ
sizes = {each("NAME_places * NAME_width ∷ ")}[]

-- whether every table passes the test
abbrev pub every_table : (TableName → Bool) → Bool
every_table p = {paired([f"p {o}" for o in OF])}
""")

# ---- their own facts
noted("values", f"{R}/proofs/TableFacts.antt", f"""-- The tables' own facts: each is read and stored by its widths, a free place is nobody's, the tables stand one after the other in the book, and the quotas have room.
use Prim.Native.Nat.{{ℕ, zero, suc, ◌+◌, ◌*◌, ◌≤◌, ◌<◌}}
use mathlib.Core.Path.{{◌≡◌, refl}}
use mathlib.Core.Bool.{{Bool, true}}
use native.Mathlib.Omega.{{arith}}
use lib.ListN.{{length, get_or}}
use Rattle.tables.specs.Count.{{every}}
use Rattle.tables.specs.Table.{{end, start_of, Lies}}
use Rattle.tables.proofs.Counts.{{ands}}
use Rattle.places.specs.Layout.{{book_size, {each("NAME_at, put_NAME", ", ")}}}
use Rattle.records.specs.Free.{{all_zero, {each("NAME_zero", ", ")}}}
use Rattle.records.specs.Tables.{{TableName, {", ".join(OF)}, table, rank, sizes, every_table}}
use Rattle.records.proofs.Nobody.{{{each("NAME_nobody", ", ")}}}

pub lies : (k : TableName) → Lies (table k)
unfolding {each("NAME_at put_NAME NAME_zero", " ")} all_zero every
{each("lies OF = record { reads = λ b i. refl; stores = λ b i r. refl; nobody = NAME_nobody; blank = refl; empty = refl }" + chr(10))}
pub record InOrder (k : TableName) : Type 0 where
  pub known : rank k < length sizes
  pub starts : (table k).start ≡ start_of sizes (rank k)
  pub ends : end (table k) ≡ start_of sizes (rank k) + get_or sizes (rank k) 0

pub in_order : (k : TableName) → InOrder k
unfolding start_of
{each("in_order OF = record { known = omega arith; starts = refl; ends = refl }" + chr(10))}
pub whole_book : start_of sizes (length sizes) ≡ book_size
unfolding start_of
whole_book = refl

-- eight depositories' quotas have room
pub room : (k : TableName) → 8 * (table k).quota ≤ (table k).places
{each("room OF = omega arith" + chr(10))}
-- ---- a test of every table

pub every_table_lem : (p : TableName → Bool) → every_table p ≡ true → (k : TableName) → p k ≡ true
{each("every_table_lem p e OF = search ands" + chr(10))}
pub table_every : (p : TableName → Bool) → ((k : TableName) → p k ≡ true) → every_table p ≡ true
table_every p h = rw ({each("h OF", ", ")})

-- ---- the table of a rank

pub named : ℕ → TableName
{"".join(f"named {number(k, k == len(OF) - 1)} = {o}" + chr(10) for k, o in enumerate(OF))}
pub named_rank : (k : TableName) → named (rank k) ≡ k
unfolding named
{each("named_rank OF = refl" + chr(10))}""")

# ---- the lists of a lone book
other = "".join(f"with_other {o} {p} d l m = {'absurd (d refl)' if o == p else 'refl'}\n" for o in OF for p in OF)
noted("values", f"{B}/proofs/Lists.antt", f"""-- The lists of a lone book by their tables: a book is its lists, and a book with another list has that one and the others as they were.
use Prim.Native.Nat.{{ℕ, ◌≤◌}}
use mathlib.Core.Path.{{◌≡◌, refl}}
use mathlib.Core.Bool.{{true}}
use mathlib.Core.List.{{List, []}}
use lib.ListN.{{length}}
use borrow.Author.Tests.{{leb-true}}
use Rattle.tables.specs.Count.{{Same}}
use Rattle.tables.specs.Table.{{list_of}}
use Rattle.tables.proofs.Counts.{{ands}}
use Rattle.meaning.specs.Records as M
use Rattle.meaning.specs.Sound.{{quotas}}
use Rattle.meaning.specs.Edits.{{{each("with_NAMEs", ", ")}}}
use Rattle.meaning.specs.SameBook.{{SameBook}}
use Rattle.records.specs.Tables.{{TableName, {", ".join(OF)}, Said, table, rank}}
use Rattle.book.specs.Lone.{{{each("NAMEs_of", ", ")}, lone_book, list}}

pub lone_list : (k : TableName) (a : ℕ) (b : List ℕ) → list k (lone_book a b) ≡ list_of (table k) a b
unfolding {each("NAMEs_of", " ")}
{each("lone_list OF a b = refl" + chr(10))}
-- ---- a book is its lists

pub book_equal : (m n : M.Book) → ((k : TableName) → list k m ≡ list k n) → m ≡ n
book_equal m n h i = record {{ {each("NAMEs = h OF i", "; ")} }}

pub book_same : (m n : M.Book) → ((k : TableName) → Same (list k m) (list k n)) → SameBook m n
book_same m n h = record {{ {each("NAMEs = h OF", "; ")} }}

pub list_same : (m n : M.Book) → SameBook m n → (k : TableName) → Same (list k m) (list k n)
{each("list_same m n s OF = s.NAMEs" + chr(10))}
pub empty_list : (k : TableName) → [] ≡ list k M.empty
{each("empty_list OF = refl" + chr(10))}
-- a list of a book within its quotas is within the table's
pub quota_kept : (m : M.Book) → quotas m ≡ true → (k : TableName) → length (list k m) ≤ (table k).quota
unfolding quotas
{each("quota_kept m e OF = leb-true (length m.NAMEs) M.NAME_quota (search ands)" + chr(10))}
-- ---- a book with another list

abbrev pub with_list : (k : TableName) → List (Said k) → M.Book → M.Book
{each("with_list OF = with_NAMEs" + chr(10))}
pub with_that : (k : TableName) (l : List (Said k)) (m : M.Book) → list k (with_list k l m) ≡ l
{each("with_that OF l m = refl" + chr(10))}
pub with_other : (k j : TableName) → (rank k ≡ rank j → ⊥) → (l : List (Said k)) (m : M.Book) → list j (with_list k l m) ≡ list j m
{other}""")
