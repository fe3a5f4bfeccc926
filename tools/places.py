#!/usr/bin/env python3
"""Writes what differs between the tables only in sizes and names: the structs and reading (crates/places), storing
(crates/stores). The tables are described in tools/tables.py."""
from output import noted
from tables import EVERY, SIZE
from wrap import WIDTH

W = {1: "one", 2: "two", 3: "three", 4: "four"}
C = "crates/places"
S = "crates/stores"

def write(path, text):
    noted("places", path, text)

def ty(t, f, w):
    """the type of a field"""
    if isinstance(w, list):
        return f"[{'u8' if set(w) == {1} else 'u32'}; {len(w)}]"
    return "u8" if w == 1 and f not in t.wide else "u32"

def listed_at(t, b="b", at="at"):
    """the bytes of the array at a place"""
    return " ∷ ".join(f"number one {b} {at} {j}" for *_, j in t.array) + " ∷ []"

def stored(t, x):
    """a number of the record, as the code lists it for a store"""
    f, k, w, _ = x
    v = f"self.{f}" if k is None else f"self.{f}[{k}]"
    return f"{W[w].capitalize()}(" + (f"u32::from({v})" if w == 1 and k is None and f not in t.wide else v) + ")"

def opened(t):
    """the head of a table's impl of Store"""
    out = f"\nimpl Store for {t.struct} {{\n    ghost shown = {{ {t.name}_numbers }};\n    ghost put = {{ put_{t.name} }};\n    ghost stores = {{ {t.name}_stores }};\n"
    return out + "\n    fn write(self, b: &mut [u8], start: u32) {\n"

def rows(terms, sign):
    """the terms of a long list or sum in lines, of which each but the first begins with the sign"""
    out = ["   "]
    for k, term in enumerate(terms):
        more = f" {sign} {term}" if k else f" {term}"
        if len(out[-1]) + len(more) > WIDTH:
            out.append("   ")
        out[-1] += more
    return "\n".join(out)

layout = [(t.struct, t.name, t.places, t.quota, t.fields, t.numbers, t.width, t.start) for t in EVERY]

# ---- the code
code = open("tools/places.head.txt").read()
code = code.replace("BYTES", str(SIZE)).replace("READS", ", ".join(f"{n}_reads" for _, n, *_ in layout))
words = [f"{t.name}_{word}" for t in EVERY for word in ("base", "width", "places", "quota", "widths", "from", "at")]
code = code.replace("{LAYOUT}", "{%s}" % ", ".join(words + [f"zero_{t.name}" for t in EVERY if t.array]))
store = open("tools/stores.head.txt").read()
store = store.replace("LAYOUT", ", ".join(f"{n}_numbers, put_{n}" for _, n, *_ in layout)).replace("STORES", ", ".join(f"{n}_stores" for _, n, *_ in layout))
store = store.replace("STRUCTS", ", ".join(sorted(s for s, *_ in layout)))
for t, (s, n, places, quota, fields, nums, size, at0) in zip(EVERY, layout):
    named = "".join(f"    pub const {c}: u8 = {k};\n" for c, k in t.named)
    kept = "Numbers and no enum: a place of any lent bytes is read, so any number may stand there."
    named = f"    // {t.said} {kept}\n{named}\n" if named else ""
    code += f"\n// {t.about}\n#[derive(Clone, Copy, {'' if t.array else 'Default, '}PartialEq, Eq, Debug)]\npub struct {s} {{\n"
    for f, w in fields:
        code += f"    pub {f}: {ty(t, f, w)},\n"
    code += f"}}\n\nimpl {s} {{\n{named}"
    named = " No other function makes a record by this one: it\n    // stays, since document 01 names constructors without self, one for each record." if s == "Kept" else ""
    code += f"    // Each record has a `new` of its own, since their fields differ.{named}\n"
    code += f"    pub fn new(" + ", ".join(f"{f}: {ty(t, f, w)}" for f, w in fields) + f") -> {s}\n"
    code += "        ensures { result ≡ record { " + "; ".join(f"{f} = {f}" for f, _ in fields) + " } }\n    {\n"
    code += f"        {s} {{\n" + "".join(f"            {f},\n" for f, _ in fields) + "        }\n    }\n}\n"
    if t.array:
        code += f"\n// What stands at a free place. Not derived: a derive's contract speaks of each element, and callers need the array.\nimpl Default for {s} {{\n    ghost is_default = {{ λ r. r ≡ zero_{n} }};\n\n    fn default() -> {s} {{\n        {s} {{\n"
        code += "".join(f"            {f}: {f'[0; {len(w)}]' if isinstance(w, list) else '0'},\n" for f, w in fields) + "        }\n    }\n}\n"
    def read(f, k, w, j):
        r = f"place.{W[w]}({j})"
        return f"place.byte({j})" if w == 1 and k is None and f not in t.wide else r
    arr = t.array
    if t.long:
        code += f"\n// The {len(arr)} bytes of {arr[0][0]}.\nfn {arr[0][0]}_at(place: Bytes<'_>) -> [u8; {len(arr)}]\n    ensures {{ result ≡ {listed_at(t, 'place.entry.book.now', 'place.entry.start')} }}\n{{\n    [" + ", ".join(f"place.byte({j})" for *_, j in arr) + "]\n}\n"
    code += f"\nimpl Place for {s} {{\n"
    for c, word in (("START", "base"), ("WIDTH", "width"), ("PLACES", "places"), ("QUOTA", "quota")):
        code += f"    ghost {c} = {{ {n}_{word} }};\n"
    code += f"    ghost widths = {{ {n}_widths }};\n    ghost from = {{ {n}_from }};\n    ghost at = {{ {n}_at }};\n    ghost csd = {{ λ r. r.csd }};\n    ghost reads = {{ {n}_reads }};\n    ghost first = {{ λ b a. refl }};\n"
    for c, kind, number in (("START", "u16", at0), ("WIDTH", "u8", size), ("PLACES", "u16", places), ("QUOTA", "u16", quota)):
        code += f"    const {c}: {kind} = {number};\n"
    code += f"\n    #[inline(always)]\n    fn read(b: &[u8], start: u32) -> {s} {{\n        let place = Bytes {{ book: b, start }};\n"
    code += f"        {s} {{\n" + "".join(f"            {f}: {read(f, k, w, j)},\n" for f, k, w, j in nums if k is None)
    if t.long:
        code += f"            {arr[0][0]}: {arr[0][0]}_at(place),\n"
    elif arr:
        code += f"            {arr[0][0]}: [" + ", ".join(read(*x) for x in arr) + "],\n"
    code += "        }\n    }\n}\n"
    listed = [x for x in nums if x[1] is None] if t.long else nums
    store += opened(t) + "        put_numbers(b, start, &[" + ", ".join(stored(t, x) for x in listed) + "]);\n"
    if t.long:
        store += f"        put_bytes(b, start as usize + {arr[0][3]}, &self.{arr[0][0]});\n"
    store += "    }\n}\n"
write(f"{C}/src/lib.rt", code)
write(f"{S}/src/lib.rt", store)

# ---- the definitions
spec = """-- The book's tables: where each place starts, the numbers that stand there, and the record that they are.
use Rattle.std.specs.Prelude.{ℕ, ◌+◌, ◌*◌, List, [], ◌∷◌, get_or, drop, replicate}
use Rattle.tables.specs.Bytes.{Width, one, two, three, four, numbers, bytes_of, puts}
"""
for s, *_ in layout:
    spec += f"use Rattle.places.specs.declared.{s}.{{{s}}}\n"
spec += f"\n-- the book's size\nabbrev pub book_size : ℕ\nbook_size = {SIZE}\n"
for s, n, places, quota, fields, nums, size, at0 in layout:
    N = n.capitalize()
    spec += f"\n-- ---- {places} places of {size} bytes, from {at0}\n"
    spec += f"\nabbrev pub {n}_places : ℕ\n{n}_places = {places}\n"
    spec += f"\nabbrev pub {n}_quota : ℕ\n{n}_quota = {quota}\n"
    spec += f"\nabbrev pub {n}_base : ℕ\n{n}_base = {at0}\n\nabbrev pub {n}_width : ℕ\n{n}_width = {size}\n"
    spec += f"\nabbrev pub {n}_start : ℕ → ℕ\n{n}_start i = {n}_base + i * {n}_width\n"
    spec += f"\nabbrev pub {n}_widths : List Width\n{n}_widths =\n" + rows([W[x[2]] for x in nums] + ["[]"], "∷") + "\n"
    spec += f"\nabbrev pub {n}_from : List ℕ → {s}\n{n}_from v = record {{\n  "
    spec += ";\n  ".join(f"{f} = drop {k} v" if isinstance(w, list) else f"{f} = get_or v {k} 0" for k, (f, w) in enumerate(fields)) + ";\n}\n"
    terms = [f"r.{f}" if k is None else f"get_or r.{f} {k} 0" for f, k, w, j in nums] + ["[]"]
    spec += f"\nabbrev pub {n}_numbers : {s} → List ℕ\n{n}_numbers r =\n" + rows(terms, "∷") + "\n"
    spec += f"\nunfoldable pub {n}_at : List ℕ → ℕ → {s}\n{n}_at b i = {n}_from (numbers {n}_widths b ({n}_start i) 0)\n"
    spec += f"\nunfoldable pub put_{n} : List ℕ → ℕ → {s} → List ℕ\nput_{n} b i r = puts b ({n}_start i) 0 (bytes_of {n}_widths ({n}_numbers r))\n"
    zeros = [f"{f} = replicate {len(w)} 0" if isinstance(w, list) else f"{f} = 0" for f, w in fields]
    spec += f"\nabbrev pub zero_{n} : {s}\nzero_{n} = record {{\n  " + ";\n  ".join(zeros) + ";\n}\n"
write(f"{C}/specs/Layout.antt", spec)

# ---- what stands at a place
reads = """-- What stands at a place of each table: the record of the numbers that start at its address.
use Rattle.std.specs.Prelude.{ℕ, ◌+◌, ◌*◌, List, ◌≡◌, refl}
use Rattle.tables.specs.Bytes.{numbers}
"""
for s, n, *_ in layout:
    reads += f"use Rattle.places.specs.Layout.{{{n}_base, {n}_width, {n}_widths, {n}_from, {n}_at}}\n"
for s, n, *_ in layout:
    reads += f"\npub {n}_reads : (b : List ℕ) (i : ℕ) → {n}_at b i ≡ {n}_from (numbers {n}_widths b ({n}_base + i * {n}_width) 0)\n"
    reads += f"unfolding {n}_at\n{n}_reads b i = refl\n"
write(f"{C}/specs/Reads.antt", reads)

stores = """-- What a record stored at a place of each table leaves: its numbers from the place's address on.
use Rattle.std.specs.Prelude.{ℕ, ◌+◌, ◌*◌, List, ◌≡◌, refl}
use Rattle.tables.specs.Bytes.{bytes_of, puts}
"""
for s, n, *_ in layout:
    stores += f"use Rattle.places.specs.declared.{s}.{{{s}}}\nuse Rattle.places.specs.Layout.{{{n}_base, {n}_width, {n}_widths, {n}_numbers, put_{n}}}\n"
for s, n, *_ in layout:
    stores += f"\npub {n}_stores : (b : List ℕ) (i : ℕ) (r : {s})\n    → put_{n} b i r\n    ≡ puts b ({n}_base + i * {n}_width) 0 (bytes_of {n}_widths ({n}_numbers r))\n"
    stores += f"unfolding put_{n}\n{n}_stores b i r = refl\n"
write(f"{S}/specs/Stores.antt", stores)

# ---- storing: the numbers that a record's write lists are the record's
def stored_answer(struct, uses, body):
    write(f"{S}/proofs/{struct}Store/write/Answers.antt", f"""-- `stores::{struct}Store::write` meets its contract. Assumes nothing.
{uses}use Rattle.stores.proofs.{struct}Store.write.Goals as goal

pub returns : goal.returns
{body}""")

def long_law(t):
    """the law of a table whose array is stored behind its other numbers"""
    plain, (array, _, _, start), n = [x for x in t.numbers if x[1] is None], t.array[0], len(t.array)
    made = [f"x{j}" for f, _, w, j in plain if w == 1 and f not in t.wide]
    numbers = " ∷ ".join(f"{W[w].capitalize()} " + (f"x{j}" if f"x{j}" in made else f"r.{f}") for f, _, w, j in plain)
    eqs = "".join(f" → x{j} ≡ r.{f}" for f, _, w, j in plain if f"x{j}" in made)
    hs = [f"h{j}" for f, _, w, j in plain if f"x{j}" in made]
    return f"""-- The numbers of a record, and behind them the bytes of its array.
use Rattle.std.proofs.Common.{{ℕ, ◌+◌, ◌<◌, ◌≡◌, List, [], ◌∷◌, length, get_or, sym, ap, ◌∙◌, arith}}
use Rattle.tables.specs.Bytes.{{digits, bytes_of, puts}}
use Rattle.places.specs.Layout.{{{t.name}_widths, {t.name}_numbers}}
use Rattle.places.specs.declared.{t.struct}.{{{t.struct}}}
use Rattle.stores.specs.Numbers.{{bytes, all_bytes}}
use Rattle.stores.specs.declared.Number.TheVariants.{{One, Two, Three, Four}}
use Rattle.stores.proofs.Storing.{{puts_behind, ones, listed, listed_bytes}}

pub {t.name}_put : (b b0 b1 : List ℕ) (at {" ".join(made)} : ℕ) (r : {t.struct}) → length r.{array} ≡ {n} → ((i : ℕ) → get_or r.{array} i 0 < 256) → b1 ≡ puts b0 (at + {start}) 0 r.{array} → b0 ≡ puts b at 0 (all_bytes ({numbers} ∷ [])){eqs} → b1 ≡ puts b at 0 (bytes_of {t.name}_widths ({t.name}_numbers r))
unfolding bytes all_bytes bytes_of digits ones listed
{t.name}_put b b0 b1 at {" ".join(made)} r l h e1 e0 {" ".join(hs)} =
    let z : {n} ≡ 0 + {n} = omega arith in
    e1 ∙ ap (puts b0 (at + {start}) 0) (sym (listed_bytes {n} 0 r.{array} (l ∙ z) h))
    ∙ rw (e0, {", ".join(hs)}) (puts_behind _ (bytes_of (ones {n}) (listed {n} 0 r.{array})) b at)
"""

for t in EVERY:
    plain = [x for x in t.numbers if x[1] is None]
    made = sum(w == 1 and f not in t.wide for f, _, w, _ in plain)
    made = ["c.from.ensures"] + [f"c.from-{k}.ensures" for k in range(2, made + 1)]
    if t.long:
        write(f"{S}/proofs/{t.struct}Storing.antt", long_law(t))
        stored_answer(t.struct, f"""use Rattle.std.proofs.Common.{{rules}}
use Rattle.stores.proofs.{t.struct}Storing.{{{t.name}_put}}
""", f"""returns c =
    {t.name}_put _ _ _ _ {"_ " * len(made)}c.args.self (search rules) (search rules) c.put_bytes.ensures.0 c.put_numbers.ensures
        {" ".join(made)}
""")
    else:
        # the edit of a type leaves one number out: a fact of a call that is gone cannot be named
        by_name = t.name != "type"
        uses = "" if by_name else "use Rattle.std.proofs.Common.{◌∙◌, rules}\n"
        proof = f"rw (c.put_numbers.ensures, {', '.join(made)})" if by_name else "c.put_numbers.ensures ∙ search rules"
        stored_answer(t.struct, uses + """use Rattle.tables.specs.Bytes.{digits, bytes_of}
use Rattle.stores.specs.Numbers.{bytes, all_bytes}
""", f"""unfolding bytes all_bytes bytes_of digits
returns c = {proof}
""")

# ---- reading a long place: the search finds this alone, but gives up on a wrong reading at a limit; so the calls are
# named
for t in EVERY:
    if t.long:
        seen, calls = {}, []
        for f, k, w, _ in t.numbers:
            if k is None:
                name = "byte" if w == 1 and f not in t.wide else W[w]
                seen[name] = seen.get(name, 0) + 1
                calls.append(f"c.{name}" + (f"-{seen[name]}" if seen[name] > 1 else "") + ".ensures")
        calls.append(f"c.{t.array[0][0]}_at.ensures")
        write(f"{C}/proofs/{t.struct}Place/read/Answers.antt", f"""-- `places::{t.struct}Place::read` meets its contract; the calls are named, so that a wrong reading is refused for certain.
use Rattle.places.proofs.{t.struct}Place.read.Goals as goal

pub returns : goal.returns
returns c = rw ({", ".join(calls)})
""")
