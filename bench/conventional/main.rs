// A conventional restriction pre-check, written from document 01 and the readings of docs/DECISIONS.md alone. What
// request b of document 02 asks was added later, by who wrote it in crates/ too: of that it is no independent witness.
// What requests c and d ask was added after that from the papers alone (document 02 and REQUESTS.md), each by a helper
// of who wrote it in crates/: it was told the readings and which cases to try, and has not read crates/.
// Request d is read with PENDING=1 in the environment only, until it lands.
// It shares no code with crates/ and nothing about it is proved. It is built by
//     rustc -O --edition 2021 main.rs
// and run as `conventional flat|maps < LINES`.
//
// flat: five fixed tables of plain structs; soundness of the whole book is checked before every line.
// maps: hash maps for each depository; soundness is never checked.

use std::collections::{BTreeMap, BTreeSet, HashMap, HashSet};
use std::io::{self, BufRead, BufReader, BufWriter, Write};
use std::sync::LazyLock;

// Whether S, W and L are read. The tests run with it on.
static PENDING: LazyLock<bool> = LazyLock::new(|| cfg!(test) || std::env::var("PENDING").as_deref() == Ok("1"));

const CSDS: usize = 8;
const TYPE_QUOTA: usize = 16;
const RULE_QUOTA: usize = 64;
const ROW_QUOTA: usize = 128;
const PERIOD_QUOTA: usize = 128;
const PENDING_QUOTA: usize = 32;

const PARTY: u8 = 1;
const ACCOUNT: u8 = 2;
const SECURITY: u8 = 3;

const POSITIVE: u8 = 1;
const NEGATIVE: u8 = 2;

// ---------------------------------------------------------------- records

#[derive(Clone, Copy, Default, PartialEq, Eq)]
struct Type {
    csd: u8,
    number: u8,
    object: u8,
    processing: u8,
    first: u32,
    last: u32,
}

#[derive(Clone, Copy, Default, PartialEq, Eq)]
struct Rule {
    csd: u8,
    number: u8, // of its type
    object: u8,
    sequence: u8,
    sign: u8,
    criteria: u16,
    first: u32,
    last: u32,
}

// A value is 0 where it is empty. DELI and APMT are 1, RECE and FREE are 2.
// Transaction and currency are their letters as a big-endian number.
type Values = [u32; 10];

#[derive(Clone, Copy, Default, PartialEq, Eq)]
struct Row {
    csd: u8,
    number: u8,
    object: u8,
    sequence: u8,
    values: Values,
}

#[derive(Clone, Copy, Default, PartialEq, Eq)]
struct Period {
    csd: u8,
    kind: u8,
    code: u16,
    number: u32,
    first: u32,
    last: u32,
}

// Numbers of types, each its bit.
type Numbers = u128;

const TYPE_NUMBERS: Numbers = (1 << 100) - 2;

// A kept instruction. A field that is empty is 0.
#[derive(Clone, Copy, Default, PartialEq, Eq)]
struct Pending {
    csd: u8,
    reference: u16,
    object: u8,
    party_type: u8,
    movement: u8,
    payment: u8,
    transaction: u32,
    currency: u32,
    party: u32,
    account: u32,
    security: u32,
    // The days on which validation hold and party hold were put on, 0 for a hold that is off.
    holds: [u32; 2],
    // The types of which a negative rule matched at S or at a W.
    remembered: Numbers,
}

// What a rule is known by, without the depository.
#[derive(Clone, Copy)]
struct RuleKey {
    number: u8,
    object: u8,
    sequence: u8,
}

#[derive(Clone, Copy)]
struct Question {
    csd: u8,
    day: u32,
    object: u8,
    // Compared with a row's values; places 4 and 5 hold security and account, 6 to 8 are unused.
    values: Values,
    party: u32,
    account: u32,
    security: u32,
    // Hold indicator (0 where it is empty) and account default: 1 for Y, 2 for N. None where the line has no such
    // fields.
    wishes: Option<(u32, u32)>,
}

enum Line {
    AddType { day: u32, record: Type },
    EndType { csd: u8, day: u32, number: u8, object: u8, last: u32 },
    AddRule { day: u32, record: Rule },
    Reorder { csd: u8, rule: RuleKey, to: u8 },
    DeleteRule { csd: u8, rule: RuleKey },
    AddRow { record: Row },
    DeleteRow { record: Row },
    AddPeriod { day: u32, record: Period },
    EndPeriod { day: u32, record: Period }, // its last is the new last
    Ask(Question),
    Enter { reference: u16, question: Question },
    Start { csd: u8, day: u32 },
    Release { csd: u8, reference: u16, hold: u8 },
}

#[derive(Clone, Copy, Default)]
struct Deciding {
    number: u8,
    sequence: u8,
}

enum Answer {
    Kept,
    Refused(u8),
    // Rejection, validation hold, party hold; zeros where there is none. Then the status, where it is asked for.
    Verdict([Deciding; 3], Option<bool>),
}

// ---------------------------------------------------------------- reading a line

// A decimal number without a leading zero, from low to high.
fn number(field: &[u8], low: u32, high: u32) -> Option<u32> {
    if field.is_empty() || field.len() > 6 || field[0] == b'0' {
        return None;
    }
    let mut n = 0;
    for &b in field {
        if !b.is_ascii_digit() {
            return None;
        }
        n = n * 10 + u32::from(b - b'0');
    }
    (low <= n && n <= high).then_some(n)
}

fn small(field: &[u8], low: u8, high: u8) -> Option<u8> {
    number(field, low.into(), high.into()).map(|n| n as u8)
}

fn real_day(day: u32) -> bool {
    let (year, month, d) = (day / 10000, day / 100 % 100, day % 100);
    let length = match month {
        1 | 3 | 5 | 7 | 8 | 10 | 12 => 31,
        4 | 6 | 9 | 11 => 30,
        2 if year % 4 == 0 => 29,
        2 => 28,
        _ => 0,
    };
    (2000..=2099).contains(&year) && 1 <= d && d <= length
}

fn day(field: &[u8]) -> Option<u32> {
    if field.len() != 8 || !field.iter().all(u8::is_ascii_digit) {
        return None;
    }
    let n = field.iter().fold(0, |n, b| n * 10 + u32::from(b - b'0'));
    real_day(n).then_some(n)
}

fn good_code(code: u32) -> bool {
    (101..=9999).contains(&code) && code % 100 != 0
}

fn code(field: &[u8]) -> Option<u32> {
    number(field, 101, 9999).filter(|&n| good_code(n))
}

fn letters(field: &[u8], count: usize) -> Option<u32> {
    if field.len() != count || !field.iter().all(u8::is_ascii_uppercase) {
        return None;
    }
    Some(field.iter().fold(0, |n, &b| n << 8 | u32::from(b)))
}

fn one_of(field: &[u8], one: &[u8], two: &[u8]) -> Option<u32> {
    if field == one {
        Some(1)
    } else if field == two {
        Some(2)
    } else {
        None
    }
}

// The value of one filled criterion.
fn value(criterion: usize, field: &[u8]) -> Option<u32> {
    match criterion {
        0 => number(field, 1, 3),
        1 => one_of(field, b"DELI", b"RECE"),
        2 => one_of(field, b"APMT", b"FREE"),
        3 => letters(field, 4),
        4 | 5 => number(field, 1, 999_999),
        6..=8 => code(field),
        _ => letters(field, 3),
    }
}

fn value_or_empty(criterion: usize, field: &[u8]) -> Option<u32> {
    if field.is_empty() {
        Some(0)
    } else {
        value(criterion, field)
    }
}

fn rule_key(f: &[&[u8]]) -> Option<RuleKey> {
    Some(RuleKey { number: small(f[3], 1, 99)?, object: small(f[4], 1, 2)?, sequence: small(f[5], 1, 99)? })
}

fn reference(field: &[u8]) -> Option<u16> {
    number(field, 1, 9999).map(|n| n as u16)
}

// The fields from object on: nine, or eleven with the two wishes.
fn question(csd: u8, day: u32, f: &[&[u8]]) -> Option<Question> {
    let object = small(f[0], 1, 2)?;
    let mut values = [0; 10];
    values[0] = value(0, f[1])?;
    if object == 1 {
        values[1] = value(1, f[2])?;
        values[2] = value(2, f[3])?;
    } else if !f[2].is_empty() || !f[3].is_empty() {
        return None;
    }
    values[3] = value_or_empty(3, f[4])?;
    values[9] = value_or_empty(9, f[5])?;
    let party = number(f[6], 1, 999_999)?;
    let account = number(f[7], 1, 999_999)?;
    let security = number(f[8], 1, 999_999)?;
    values[4] = security;
    values[5] = account;
    let wishes = match f.get(9..) {
        Some([indicator, default]) => {
            let wish = |field| one_of(field, b"Y", b"N");
            Some((if indicator.is_empty() { 0 } else { wish(indicator)? }, wish(default)?))
        }
        _ => None,
    };
    Some(Question { csd, day, object, values, party, account, security, wishes })
}

// The fields of a line that has the right number of them; None is refusal 5.
fn fields(letter: u8, f: &[&[u8]]) -> Option<Line> {
    let csd = small(f[1], 1, 8)?;
    let today = day(f[2])?;
    let line = match letter {
        b'T' => {
            let record = Type {
                csd,
                number: small(f[3], 1, 99)?,
                object: small(f[4], 1, 2)?,
                processing: small(f[5], 1, 3)?,
                first: day(f[6])?,
                last: day(f[7])?,
            };
            if record.processing == 3 && record.object == 2 || record.first > record.last {
                return None;
            }
            Line::AddType { day: today, record }
        }
        b'E' => {
            let (number, object) = (small(f[3], 1, 99)?, small(f[4], 1, 2)?);
            Line::EndType { csd, day: today, number, object, last: day(f[5])? }
        }
        b'R' => {
            let key = rule_key(f)?;
            let record = Rule {
                csd,
                number: key.number,
                object: key.object,
                sequence: key.sequence,
                sign: match f[6] {
                    b"P" => POSITIVE,
                    b"N" => NEGATIVE,
                    _ => return None,
                },
                criteria: number(f[7], 1, 1023)? as u16,
                first: day(f[8])?,
                last: day(f[9])?,
            };
            if record.first > record.last {
                return None;
            }
            Line::AddRule { day: today, record }
        }
        b'O' => Line::Reorder { csd, rule: rule_key(f)?, to: small(f[6], 1, 99)? },
        b'D' => Line::DeleteRule { csd, rule: rule_key(f)? },
        b'M' | b'N' => {
            let key = rule_key(f)?;
            let mut values = [0; 10];
            for (i, v) in values.iter_mut().enumerate() {
                *v = value_or_empty(i, f[6 + i])?;
            }
            let record = Row { csd, number: key.number, object: key.object, sequence: key.sequence, values };
            if letter == b'M' {
                Line::AddRow { record }
            } else {
                Line::DeleteRow { record }
            }
        }
        b'A' | b'Z' => {
            let record = Period {
                csd,
                kind: match f[3] {
                    b"P" => PARTY,
                    b"A" => ACCOUNT,
                    b"S" => SECURITY,
                    _ => return None,
                },
                number: number(f[4], 1, 999_999)?,
                code: code(f[5])? as u16,
                first: day(f[6])?,
                last: day(f[7])?,
            };
            if letter == b'Z' {
                Line::EndPeriod { day: today, record }
            } else if record.first > record.last {
                return None;
            } else {
                Line::AddPeriod { day: today, record }
            }
        }
        b'S' => Line::Enter { reference: reference(f[3])?, question: question(csd, today, &f[4..])? },
        b'W' => Line::Start { csd, day: today },
        b'L' => Line::Release { csd, reference: reference(f[3])?, hold: small(f[4], 2, 3)? },
        _ => Line::Ask(question(csd, today, &f[3..])?),
    };
    Some(line)
}

// Refusals 2 to 5.
fn read(bytes: &[u8]) -> Result<Line, u8> {
    let allowed = |b: &u8| b.is_ascii_digit() || b.is_ascii_uppercase() || *b == b',';
    if bytes.is_empty() || bytes.len() > 80 || !bytes.iter().all(allowed) {
        return Err(2);
    }
    // At most 16 fields are kept; all are counted.
    let mut kept: [&[u8]; 16] = [b""; 16];
    let mut count = 0;
    for field in bytes.split(|&b| b == b',') {
        if count < kept.len() {
            kept[count] = field;
        }
        count += 1;
    }
    if kept[0].len() != 1 {
        return Err(3);
    }
    let letter = kept[0][0];
    let wanted = 1 + match letter {
        b'T' | b'A' | b'Z' => 7,
        b'E' | b'D' => 5,
        b'R' => 9,
        b'O' => 6,
        b'M' | b'N' => 15,
        b'Q' => 11,
        b'S' if *PENDING => 12,
        b'W' if *PENDING => 2,
        b'L' if *PENDING => 4,
        _ => return Err(3),
    };
    let longer = letter == b'Q' && count == wanted + 2;
    if count != wanted && !longer {
        return Err(4);
    }
    fields(letter, &kept[..count]).ok_or(5)
}

// ---------------------------------------------------------------- shared by both books

trait Book {
    fn answer(&mut self, bytes: &[u8]) -> Answer;
}

// E and Z: the new last day lies between the record's first day and its present last.
fn end(first: u32, present: &mut u32, last: u32) -> Result<(), u8> {
    if last < first || last > *present {
        return Err(9);
    }
    *present = last;
    Ok(())
}

fn filled(values: &Values) -> u16 {
    (0..10).fold(0, |set, i| set | u16::from(values[i] != 0) << i)
}

fn matches(values: &Values, q: &Question, covered: impl Fn(u8, u32, u32) -> bool) -> bool {
    values.iter().enumerate().all(|(i, &v)| {
        v == 0
            || match i {
                6 => covered(PARTY, q.party, v),
                7 => covered(ACCOUNT, q.account, v),
                8 => covered(SECURITY, q.security, v),
                _ => v == q.values[i],
            }
    })
}

// Rejection comes before the holds and hides them. On party hold is what is not rejected and is held by a rule, by the
// indicator or, where that is empty, by the account's default.
fn verdict(mut decided: [Deciding; 3], q: &Question) -> Answer {
    let rejected = decided[0].number != 0;
    if rejected {
        decided[1] = Deciding::default();
        decided[2] = Deciding::default();
    }
    let status = q.wishes.map(|(indicator, default)| {
        let wished = if indicator == 0 { default } else { indicator };
        !rejected && (decided[2].number != 0 || wished == 1)
    });
    Answer::Verdict(decided, status)
}

// ---------------------------------------------------------------- flat

struct Flat {
    types: Vec<Type>,
    rules: Vec<Rule>,
    rows: Vec<Row>,
    periods: Vec<Period>,
    pending: Vec<Pending>,
    // Room for the sorted copies that the soundness check makes.
    sorted_types: Vec<(u8, u8, u8)>,
    sorted_rules: Vec<((u8, u8, u8, u8), u16)>,
    sorted_rows: Vec<(u8, u8, u8, u8, Values)>,
    sorted_periods: Vec<((u8, u8, u32, u16), u32, u32)>,
    sorted_pending: Vec<(u8, u16)>,
}

fn ranges_of_type(t: &Type) -> bool {
    (1..=8).contains(&t.csd)
        && (1..=99).contains(&t.number)
        && (1..=2).contains(&t.object)
        && (1..=3).contains(&t.processing)
        && !(t.processing == 3 && t.object == 2)
        && real_day(t.first)
        && real_day(t.last)
        && t.first <= t.last
}

fn ranges_of_key(csd: u8, number: u8, object: u8, sequence: u8) -> bool {
    (1..=8).contains(&csd) && (1..=99).contains(&number) && (1..=2).contains(&object) && (1..=99).contains(&sequence)
}

fn ranges_of_rule(r: &Rule) -> bool {
    ranges_of_key(r.csd, r.number, r.object, r.sequence)
        && (r.sign == POSITIVE || r.sign == NEGATIVE)
        && (1..=1023).contains(&r.criteria)
        && real_day(r.first)
        && real_day(r.last)
        && r.first <= r.last
}

fn all_letters(v: u32, count: u32) -> bool {
    (0..4).all(|i| {
        let b = (v >> (8 * i)) as u8;
        if i < count {
            b.is_ascii_uppercase()
        } else {
            b == 0
        }
    })
}

fn ranges_of_row(r: &Row) -> bool {
    ranges_of_key(r.csd, r.number, r.object, r.sequence)
        && r.values.iter().enumerate().all(|(i, &v)| {
            v == 0
                || match i {
                    0 => v <= 3,
                    1 | 2 => v <= 2,
                    3 => all_letters(v, 4),
                    4 | 5 => v <= 999_999,
                    6..=8 => good_code(v),
                    _ => all_letters(v, 3),
                }
        })
}

fn ranges_of_period(p: &Period) -> bool {
    (1..=8).contains(&p.csd)
        && (1..=3).contains(&p.kind)
        && (1..=999_999).contains(&p.number)
        && good_code(p.code.into())
        && real_day(p.first)
        && real_day(p.last)
        && p.first <= p.last
}

fn ranges_of_pending(p: &Pending) -> bool {
    let sides = if p.object == 1 { 1..=2 } else { 0..=0 };
    (1..=8).contains(&p.csd)
        && (1..=9999).contains(&p.reference)
        && (1..=2).contains(&p.object)
        && (1..=3).contains(&p.party_type)
        && sides.contains(&p.movement)
        && sides.contains(&p.payment)
        && (p.transaction == 0 || all_letters(p.transaction, 4))
        && (p.currency == 0 || all_letters(p.currency, 3))
        && (1..=999_999).contains(&p.party)
        && (1..=999_999).contains(&p.account)
        && (1..=999_999).contains(&p.security)
        && p.holds.iter().all(|&day| day == 0 || real_day(day))
        && !(p.holds[1] != 0 && p.object == 2)
        && p.remembered & !TYPE_NUMBERS == 0
}

fn no_twins<T: PartialEq>(sorted: &[T]) -> bool {
    sorted.windows(2).all(|w| w[0] != w[1])
}

fn free_place<T: Default + PartialEq>(table: &[T]) -> Option<usize> {
    table.iter().position(|r| *r == T::default())
}

impl Pending {
    fn new(reference: u16, q: &Question) -> Pending {
        Pending {
            csd: q.csd,
            reference,
            object: q.object,
            party_type: q.values[0] as u8,
            movement: q.values[1] as u8,
            payment: q.values[2] as u8,
            transaction: q.values[3],
            currency: q.values[9],
            party: q.party,
            account: q.account,
            security: q.security,
            ..Pending::default()
        }
    }

    fn question(&self, day: u32) -> Question {
        let &Pending { csd, object, transaction, currency, party, account, security, .. } = self;
        let (party_type, movement, payment) = (self.party_type.into(), self.movement.into(), self.payment.into());
        let values = [party_type, movement, payment, transaction, security, account, 0, 0, 0, currency];
        Question { csd, day, object, values, party, account, security, wishes: None }
    }

    // Puts on the holds that are decided and off, and remembers the types.
    fn take(&mut self, day: u32, judged: &Judged) {
        for (hold, by) in self.holds.iter_mut().zip(&judged.decided[1..]) {
            if *hold == 0 && by.number != 0 {
                *hold = day;
            }
        }
        self.remembered |= judged.exempt;
    }
}

// What the rules of a book say: what decides, and the types of which a negative rule matched.
struct Judged {
    decided: [Deciding; 3],
    exempt: Numbers,
}

// Which rules are met.
enum Met {
    Current,
    // At the start of a day: those whose first current day is that day, but none of the types passed over.
    New { passed: Numbers },
}

impl Flat {
    fn new() -> Flat {
        Flat {
            types: vec![Type::default(); CSDS * TYPE_QUOTA],
            rules: vec![Rule::default(); CSDS * RULE_QUOTA],
            rows: vec![Row::default(); CSDS * ROW_QUOTA],
            periods: vec![Period::default(); CSDS * PERIOD_QUOTA],
            pending: vec![Pending::default(); CSDS * PENDING_QUOTA],
            sorted_types: Vec::new(),
            sorted_rules: Vec::new(),
            sorted_rows: Vec::new(),
            sorted_periods: Vec::new(),
            sorted_pending: Vec::new(),
        }
    }

    // Every place is free (all zero) or a record that obeys the papers. Sorts, so it is near-linear.
    fn sound(&mut self) -> bool {
        if self.types.len() != CSDS * TYPE_QUOTA
            || self.rules.len() != CSDS * RULE_QUOTA
            || self.rows.len() != CSDS * ROW_QUOTA
            || self.periods.len() != CSDS * PERIOD_QUOTA
            || self.pending.len() != CSDS * PENDING_QUOTA
        {
            return false;
        }
        let (mut types, mut rules, mut rows, mut periods, mut pending) = ([0; 9], [0; 9], [0; 9], [0; 9], [0; 9]);

        self.sorted_types.clear();
        for t in self.types.iter().filter(|t| **t != Type::default()) {
            if !ranges_of_type(t) {
                return false;
            }
            types[t.csd as usize] += 1;
            self.sorted_types.push((t.csd, t.number, t.object));
        }

        self.sorted_rules.clear();
        for r in self.rules.iter().filter(|r| **r != Rule::default()) {
            if !ranges_of_rule(r) {
                return false;
            }
            rules[r.csd as usize] += 1;
            self.sorted_rules.push(((r.csd, r.number, r.object, r.sequence), r.criteria));
        }

        self.sorted_rows.clear();
        for r in self.rows.iter().filter(|r| **r != Row::default()) {
            if !ranges_of_row(r) {
                return false;
            }
            rows[r.csd as usize] += 1;
            self.sorted_rows.push((r.csd, r.number, r.object, r.sequence, r.values));
        }

        self.sorted_periods.clear();
        for p in self.periods.iter().filter(|p| **p != Period::default()) {
            if !ranges_of_period(p) {
                return false;
            }
            periods[p.csd as usize] += 1;
            self.sorted_periods.push(((p.csd, p.kind, p.number, p.code / 100), p.first, p.last));
        }

        self.sorted_pending.clear();
        for p in self.pending.iter().filter(|p| **p != Pending::default()) {
            if !ranges_of_pending(p) {
                return false;
            }
            pending[p.csd as usize] += 1;
            self.sorted_pending.push((p.csd, p.reference));
        }

        // Quotas.
        if types.iter().any(|&n| n > TYPE_QUOTA)
            || rules.iter().any(|&n| n > RULE_QUOTA)
            || rows.iter().any(|&n| n > ROW_QUOTA)
            || periods.iter().any(|&n| n > PERIOD_QUOTA)
            || pending.iter().any(|&n| n > PENDING_QUOTA)
        {
            return false;
        }

        // Keys and periods.
        self.sorted_types.sort_unstable();
        self.sorted_rules.sort_unstable();
        self.sorted_rows.sort_unstable();
        self.sorted_periods.sort_unstable();
        self.sorted_pending.sort_unstable();
        if !no_twins(&self.sorted_types)
            || self.sorted_rules.windows(2).any(|w| w[0].0 == w[1].0)
            || !no_twins(&self.sorted_rows)
            || self.sorted_periods.windows(2).any(|w| w[0].0 == w[1].0 && w[1].1 <= w[0].2)
            || !no_twins(&self.sorted_pending)
        {
            return false;
        }

        // Every rule has its type, every row its rule with that rule's criteria filled.
        // Both lists are sorted by the same key, so one pass over each is enough.
        let mut i = 0;
        for ((csd, number, object, _), _) in &self.sorted_rules {
            let key = (*csd, *number, *object);
            while i < self.sorted_types.len() && self.sorted_types[i] < key {
                i += 1;
            }
            if self.sorted_types.get(i) != Some(&key) {
                return false;
            }
        }
        let mut i = 0;
        for (csd, number, object, sequence, values) in &self.sorted_rows {
            let key = (*csd, *number, *object, *sequence);
            while i < self.sorted_rules.len() && self.sorted_rules[i].0 < key {
                i += 1;
            }
            if self.sorted_rules.get(i) != Some(&(key, filled(values))) {
                return false;
            }
        }
        true
    }

    fn find_type(&self, csd: u8, number: u8, object: u8) -> Option<usize> {
        self.types.iter().position(|t| t.csd == csd && t.number == number && t.object == object)
    }

    fn find_rule(&self, csd: u8, k: RuleKey) -> Option<usize> {
        self.rules.iter().position(|r| {
            r.csd == csd && r.number == k.number && r.object == k.object && r.sequence == k.sequence
        })
    }

    fn find_pending(&self, csd: u8, reference: u16) -> Option<usize> {
        self.pending.iter().position(|p| p.csd == csd && p.reference == reference)
    }

    fn rows_of(&self, csd: u8, k: RuleKey) -> impl Iterator<Item = &Row> {
        self.rows.iter().filter(move |r| {
            r.csd == csd && r.number == k.number && r.object == k.object && r.sequence == k.sequence
        })
    }

    fn apply(&mut self, line: Line) -> Result<(), u8> {
        match line {
            Line::AddType { day, record } => {
                if record.first <= day {
                    return Err(6);
                }
                if self.find_type(record.csd, record.number, record.object).is_some() {
                    return Err(8);
                }
                if self.types.iter().filter(|t| t.csd == record.csd).count() >= TYPE_QUOTA {
                    return Err(10);
                }
                let place = free_place(&self.types).expect("room below the quota");
                self.types[place] = record;
            }
            Line::EndType { csd, day, number, object, last } => {
                if last < day {
                    return Err(6);
                }
                let place = self.find_type(csd, number, object).ok_or(7)?;
                let t = &mut self.types[place];
                end(t.first, &mut t.last, last)?;
            }
            Line::AddRule { day, record } => {
                if record.first <= day {
                    return Err(6);
                }
                let t = &self.types[self.find_type(record.csd, record.number, record.object).ok_or(7)?];
                let key = RuleKey { number: record.number, object: record.object, sequence: record.sequence };
                if self.find_rule(record.csd, key).is_some() {
                    return Err(8);
                }
                if record.first < t.first || t.last < record.last {
                    return Err(13);
                }
                if self.rules.iter().filter(|r| r.csd == record.csd).count() >= RULE_QUOTA {
                    return Err(10);
                }
                let place = free_place(&self.rules).expect("room below the quota");
                self.rules[place] = record;
            }
            Line::Reorder { csd, rule, to } => {
                let place = self.find_rule(csd, rule).ok_or(7)?;
                if self.find_rule(csd, RuleKey { sequence: to, ..rule }).is_some() {
                    return Err(8);
                }
                self.rules[place].sequence = to;
                for r in &mut self.rows {
                    if r.csd == csd
                        && r.number == rule.number
                        && r.object == rule.object
                        && r.sequence == rule.sequence
                    {
                        r.sequence = to;
                    }
                }
            }
            Line::DeleteRule { csd, rule } => {
                let place = self.find_rule(csd, rule).ok_or(7)?;
                if self.rows_of(csd, rule).next().is_some() {
                    return Err(9);
                }
                self.rules[place] = Rule::default();
            }
            Line::AddRow { record } => {
                let key = RuleKey { number: record.number, object: record.object, sequence: record.sequence };
                let rule = self.find_rule(record.csd, key).ok_or(7)?;
                if self.rows.contains(&record) {
                    return Err(8);
                }
                if filled(&record.values) != self.rules[rule].criteria {
                    return Err(9);
                }
                if self.rows.iter().filter(|r| r.csd == record.csd).count() >= ROW_QUOTA {
                    return Err(10);
                }
                let place = free_place(&self.rows).expect("room below the quota");
                self.rows[place] = record;
            }
            Line::DeleteRow { record } => {
                let place = self.rows.iter().position(|r| *r == record).ok_or(7)?;
                self.rows[place] = Row::default();
            }
            Line::AddPeriod { day, record } => {
                if record.first <= day {
                    return Err(6);
                }
                let clash = |p: &Period| {
                    p.csd == record.csd
                        && p.kind == record.kind
                        && p.number == record.number
                        && p.code / 100 == record.code / 100
                        && p.first <= record.last
                        && record.first <= p.last
                };
                if self.periods.iter().any(clash) {
                    return Err(8);
                }
                if self.periods.iter().filter(|p| p.csd == record.csd).count() >= PERIOD_QUOTA {
                    return Err(10);
                }
                let place = free_place(&self.periods).expect("room below the quota");
                self.periods[place] = record;
            }
            Line::EndPeriod { day, record } => {
                if record.last < day {
                    return Err(6);
                }
                let named = |p: &&mut Period| Period { last: record.last, ..**p } == record;
                let p = self.periods.iter_mut().find(named).ok_or(7)?;
                end(p.first, &mut p.last, record.last)?;
            }
            Line::Start { csd, day } => {
                for place in 0..self.pending.len() {
                    let p = &self.pending[place];
                    if p.csd != csd {
                        continue;
                    }
                    let judged = self.judged(&p.question(day), Met::New { passed: p.remembered });
                    if judged.decided[0].number != 0 {
                        self.pending[place] = Pending::default();
                    } else {
                        self.pending[place].take(day, &judged);
                    }
                }
            }
            Line::Release { csd, reference, hold } => {
                let place = self.find_pending(csd, reference).ok_or(7)?;
                let day = &mut self.pending[place].holds[hold as usize - 2];
                if *day == 0 {
                    return Err(7);
                }
                *day = 0;
            }
            Line::Ask(_) | Line::Enter { .. } => unreachable!("these are judged"),
        }
        Ok(())
    }

    // S: kept unless it is rejected.
    fn enter(&mut self, reference: u16, q: &Question) -> Result<Answer, u8> {
        if self.find_pending(q.csd, reference).is_some() {
            return Err(14);
        }
        if self.pending.iter().filter(|p| p.csd == q.csd).count() >= PENDING_QUOTA {
            return Err(15);
        }
        let judged = self.judged(q, Met::Current);
        if judged.decided[0].number == 0 {
            let place = free_place(&self.pending).expect("room below the quota");
            self.pending[place] = Pending::new(reference, q);
            self.pending[place].take(q.day, &judged);
        }
        Ok(verdict(judged.decided, q))
    }

    fn judge(&self, q: &Question) -> Answer {
        verdict(self.judged(q, Met::Current).decided, q)
    }

    fn judged(&self, q: &Question, met: Met) -> Judged {
        let covered = |kind: u8, number: u32, code: u32| {
            self.periods.iter().any(|p| {
                p.csd == q.csd
                    && p.kind == kind
                    && p.number == number
                    && u32::from(p.code) == code
                    && p.first <= q.day
                    && q.day <= p.last
            })
        };
        let mut judged = Judged { decided: [Deciding::default(); 3], exempt: 0 };
        for t in &self.types {
            if t.csd != q.csd || t.object != q.object || q.day < t.first || t.last < q.day {
                continue;
            }
            if matches!(met, Met::New { passed } if passed >> t.number & 1 == 1) {
                continue;
            }
            let mut sequence = 0;
            let mut exempt = false;
            for r in &self.rules {
                if r.csd != q.csd || r.number != t.number || r.object != t.object || q.day < r.first || r.last < q.day {
                    continue;
                }
                if matches!(met, Met::New { .. }) && r.first.max(t.first) != q.day {
                    continue;
                }
                let key = RuleKey { number: r.number, object: r.object, sequence: r.sequence };
                if !self.rows_of(q.csd, key).any(|row| matches(&row.values, q, covered)) {
                    continue;
                }
                if r.sign == NEGATIVE {
                    exempt = true;
                    break;
                }
                if sequence == 0 || r.sequence < sequence {
                    sequence = r.sequence;
                }
            }
            if exempt {
                judged.exempt |= 1 << t.number;
                continue;
            }
            let d = &mut judged.decided[t.processing as usize - 1];
            if sequence != 0 && (d.number == 0 || t.number < d.number) {
                *d = Deciding { number: t.number, sequence };
            }
        }
        judged
    }
}

impl Book for Flat {
    fn answer(&mut self, bytes: &[u8]) -> Answer {
        if !self.sound() {
            return Answer::Refused(1);
        }
        match read(bytes) {
            Err(n) => Answer::Refused(n),
            Ok(Line::Ask(q)) => self.judge(&q),
            Ok(Line::Enter { reference, question }) => self.enter(reference, &question).unwrap_or_else(Answer::Refused),
            Ok(line) => match self.apply(line) {
                Ok(()) => Answer::Kept,
                Err(n) => Answer::Refused(n),
            },
        }
    }
}

// ---------------------------------------------------------------- maps

struct MapRule {
    sign: u8,
    criteria: u16,
    first: u32,
    last: u32,
    rows: HashSet<Values>,
}

struct MapType {
    processing: u8,
    first: u32,
    last: u32,
    rules: BTreeMap<u8, MapRule>, // by sequence
}

struct MapPending {
    question: Question, // its day is S's
    // The days on which validation hold and party hold were put on, where they are on.
    holds: [Option<u32>; 2],
    remembered: BTreeSet<u8>,
}

#[derive(Default)]
struct Depository {
    types: HashMap<(u8, u8), MapType>, // by object and type
    // By kind, number and attribute; each list is short.
    periods: HashMap<(u8, u32, u16), Vec<Period>>,
    pending: HashMap<u16, MapPending>, // by reference
    rules_held: usize,
    rows_held: usize,
    periods_held: usize,
}

impl Depository {
    fn apply(&mut self, line: Line) -> Result<(), u8> {
        match line {
            Line::AddType { day, record } => {
                if record.first <= day {
                    return Err(6);
                }
                let key = (record.object, record.number);
                if self.types.contains_key(&key) {
                    return Err(8);
                }
                if self.types.len() >= TYPE_QUOTA {
                    return Err(10);
                }
                let Type { processing, first, last, .. } = record;
                self.types.insert(key, MapType { processing, first, last, rules: BTreeMap::new() });
            }
            Line::EndType { day, number, object, last, .. } => {
                if last < day {
                    return Err(6);
                }
                let t = self.types.get_mut(&(object, number)).ok_or(7)?;
                end(t.first, &mut t.last, last)?;
            }
            Line::AddRule { day, record } => {
                if record.first <= day {
                    return Err(6);
                }
                let t = self.types.get_mut(&(record.object, record.number)).ok_or(7)?;
                if t.rules.contains_key(&record.sequence) {
                    return Err(8);
                }
                if record.first < t.first || t.last < record.last {
                    return Err(13);
                }
                if self.rules_held >= RULE_QUOTA {
                    return Err(10);
                }
                let Rule { sign, criteria, first, last, .. } = record;
                t.rules.insert(record.sequence, MapRule { sign, criteria, first, last, rows: HashSet::new() });
                self.rules_held += 1;
            }
            Line::Reorder { rule, to, .. } => {
                let t = self.types.get_mut(&(rule.object, rule.number)).ok_or(7)?;
                if !t.rules.contains_key(&rule.sequence) {
                    return Err(7);
                }
                if t.rules.contains_key(&to) {
                    return Err(8);
                }
                let moved = t.rules.remove(&rule.sequence).expect("found above");
                t.rules.insert(to, moved);
            }
            Line::DeleteRule { rule, .. } => {
                let t = self.types.get_mut(&(rule.object, rule.number)).ok_or(7)?;
                if !t.rules.get(&rule.sequence).ok_or(7)?.rows.is_empty() {
                    return Err(9);
                }
                t.rules.remove(&rule.sequence);
                self.rules_held -= 1;
            }
            Line::AddRow { record } => {
                let rule = self.rule(&record).ok_or(7)?;
                if rule.rows.contains(&record.values) {
                    return Err(8);
                }
                if filled(&record.values) != rule.criteria {
                    return Err(9);
                }
                if self.rows_held >= ROW_QUOTA {
                    return Err(10);
                }
                self.rule(&record).ok_or(7)?.rows.insert(record.values);
                self.rows_held += 1;
            }
            Line::DeleteRow { record } => {
                if !self.rule(&record).ok_or(7)?.rows.remove(&record.values) {
                    return Err(7);
                }
                self.rows_held -= 1;
            }
            Line::AddPeriod { day, record } => {
                if record.first <= day {
                    return Err(6);
                }
                let key = (record.kind, record.number, record.code / 100);
                let list = self.periods.get(&key).map_or(&[][..], |list| list);
                if list.iter().any(|p| p.first <= record.last && record.first <= p.last) {
                    return Err(8);
                }
                if self.periods_held >= PERIOD_QUOTA {
                    return Err(10);
                }
                self.periods.entry(key).or_default().push(record);
                self.periods_held += 1;
            }
            Line::EndPeriod { day, record } => {
                if record.last < day {
                    return Err(6);
                }
                let key = (record.kind, record.number, record.code / 100);
                let list = self.periods.get_mut(&key).ok_or(7)?;
                let p = list.iter_mut().find(|p| p.code == record.code && p.first == record.first).ok_or(7)?;
                end(p.first, &mut p.last, record.last)?;
            }
            Line::Start { day, .. } => {
                let mut pending = std::mem::take(&mut self.pending);
                pending.retain(|_, p| self.start(p, day));
                self.pending = pending;
            }
            Line::Release { reference, hold, .. } => {
                let p = self.pending.get_mut(&reference).ok_or(7)?;
                p.holds[hold as usize - 2].take().ok_or(7)?;
            }
            Line::Ask(_) | Line::Enter { .. } => unreachable!("these are judged"),
        }
        Ok(())
    }

    // S: kept unless it is rejected.
    fn enter(&mut self, reference: u16, q: Question) -> Result<Answer, u8> {
        if self.pending.contains_key(&reference) {
            return Err(14);
        }
        if self.pending.len() >= PENDING_QUOTA {
            return Err(15);
        }
        let mut remembered = BTreeSet::new();
        let decided = self.judged(&q, false, &mut remembered);
        let [rejection, holds @ ..] = decided;
        if rejection.number == 0 {
            let holds = holds.map(|by| (by.number != 0).then_some(q.day));
            self.pending.insert(reference, MapPending { question: q, holds, remembered });
        }
        Ok(verdict(decided, &q))
    }

    // W for one kept instruction: whether it stays.
    fn start(&self, p: &mut MapPending, day: u32) -> bool {
        let q = Question { day, ..p.question };
        let [rejection, holds @ ..] = self.judged(&q, true, &mut p.remembered);
        for (hold, by) in p.holds.iter_mut().zip(holds) {
            if by.number != 0 {
                hold.get_or_insert(day);
            }
        }
        rejection.number == 0
    }

    fn rule(&mut self, row: &Row) -> Option<&mut MapRule> {
        self.types.get_mut(&(row.object, row.number))?.rules.get_mut(&row.sequence)
    }

    fn judge(&self, q: &Question) -> Answer {
        verdict(self.judged(q, false, &mut BTreeSet::new()), q)
    }

    // What decides. The types in `remembered` are passed over, and those of which a negative rule matches are put into
    // it. Where `new` is asked, only rules whose first current day is the question's count.
    fn judged(&self, q: &Question, new: bool, remembered: &mut BTreeSet<u8>) -> [Deciding; 3] {
        let covered = |kind: u8, number: u32, code: u32| {
            self.periods.get(&(kind, number, (code / 100) as u16)).is_some_and(|list| {
                list.iter().any(|p| u32::from(p.code) == code && p.first <= q.day && q.day <= p.last)
            })
        };
        let mut decided = [Deciding::default(); 3];
        for (&(object, number), t) in &self.types {
            if object != q.object || q.day < t.first || t.last < q.day || remembered.contains(&number) {
                continue;
            }
            let hit = |r: &MapRule| {
                r.first <= q.day
                    && q.day <= r.last
                    && (!new || r.first == q.day || t.first == q.day)
                    && r.rows.iter().any(|values| matches(values, q, covered))
            };
            if t.rules.values().any(|r| r.sign == NEGATIVE && hit(r)) {
                remembered.insert(number);
                continue;
            }
            // The map is sorted by sequence.
            if let Some((&sequence, _)) = t.rules.iter().find(|(_, r)| r.sign == POSITIVE && hit(r)) {
                let d = &mut decided[t.processing as usize - 1];
                if d.number == 0 || number < d.number {
                    *d = Deciding { number, sequence };
                }
            }
        }
        decided
    }
}

#[derive(Default)]
struct Maps {
    depositories: [Depository; CSDS],
}

fn csd_of(line: &Line) -> u8 {
    match line {
        Line::AddType { record, .. } => record.csd,
        Line::AddRule { record, .. } => record.csd,
        Line::AddRow { record } | Line::DeleteRow { record } => record.csd,
        Line::AddPeriod { record, .. } | Line::EndPeriod { record, .. } => record.csd,
        Line::EndType { csd, .. } | Line::Reorder { csd, .. } | Line::DeleteRule { csd, .. } => *csd,
        Line::Ask(q) | Line::Enter { question: q, .. } => q.csd,
        Line::Start { csd, .. } | Line::Release { csd, .. } => *csd,
    }
}

impl Book for Maps {
    fn answer(&mut self, bytes: &[u8]) -> Answer {
        let line = match read(bytes) {
            Err(n) => return Answer::Refused(n),
            Ok(line) => line,
        };
        let depository = &mut self.depositories[csd_of(&line) as usize - 1];
        match line {
            Line::Ask(q) => depository.judge(&q),
            Line::Enter { reference, question } => {
                depository.enter(reference, question).unwrap_or_else(Answer::Refused)
            }
            line => match depository.apply(line) {
                Ok(()) => Answer::Kept,
                Err(n) => Answer::Refused(n),
            },
        }
    }
}

// ---------------------------------------------------------------- the program

fn print(out: &mut impl Write, answer: &Answer) -> io::Result<()> {
    match answer {
        Answer::Kept => writeln!(out, "K"),
        Answer::Refused(n) => writeln!(out, "F,{n}"),
        Answer::Verdict([r, v, p], status) => writeln!(
            out,
            "V,{},{},{},{},{},{},{}{}",
            if r.number != 0 { 'R' } else { 'A' },
            r.number,
            r.sequence,
            v.number,
            v.sequence,
            p.number,
            p.sequence,
            match status {
                None => "",
                Some(true) => ",Y",
                Some(false) => ",N",
            }
        ),
    }
}

fn run(book: &mut dyn Book) -> io::Result<()> {
    let mut input = BufReader::with_capacity(1 << 16, io::stdin().lock());
    let mut output = BufWriter::with_capacity(1 << 16, io::stdout().lock());
    let mut line = Vec::new();
    loop {
        // Answers go out before the program may have to wait for more input.
        if !input.buffer().contains(&b'\n') {
            output.flush()?;
        }
        line.clear();
        if input.read_until(b'\n', &mut line)? == 0 {
            return output.flush();
        }
        if line.last() == Some(&b'\n') {
            line.pop();
        }
        print(&mut output, &book.answer(&line))?;
    }
}

fn main() -> io::Result<()> {
    match std::env::args().nth(1).as_deref() {
        Some("flat") => run(&mut Flat::new()),
        Some("maps") => run(&mut Maps::default()),
        _ => {
            eprintln!("usage: conventional flat|maps < LINES");
            std::process::exit(2);
        }
    }
}

// ---------------------------------------------------------------- does the soundness check see damage?
// rustc --test --edition 2021 main.rs, then run what it makes.

#[cfg(test)]
mod tests {
    use super::*;

    fn book() -> Flat {
        let mut book = Flat::new();
        for line in [
            "T,2,20170206,9,1,3,20170207,20991231",
            "T,2,20170206,4,2,2,20170207,20991231",
            "R,2,20170206,9,1,5,P,4,20170207,20991231",
            "R,2,20170206,9,1,6,N,8,20170207,20991231",
            "M,2,20170206,9,1,5,,,FREE,,,,,,,",
            "M,2,20170206,9,1,5,,,APMT,,,,,,,",
            "A,2,20170206,P,7,101,20170301,20170331",
            "A,2,20170206,P,7,102,20170401,20170430",
            "M,2,20170206,9,1,6,,,,CORP,,,,,,",
        ] {
            assert!(matches!(book.answer(line.as_bytes()), Answer::Kept), "{line}");
        }
        // One on party hold, one that remembers type 9, one of object 2.
        for line in [
            "S,2,20170207,1,1,2,DELI,FREE,TRAD,EUR,11,20,30",
            "S,2,20170207,2,1,2,RECE,APMT,CORP,,11,20,30",
            "S,2,20170207,9999,2,2,,,,EUR,11,20,30",
        ] {
            let answer = book.answer(line.as_bytes());
            assert!(matches!(answer, Answer::Verdict([Deciding { number: 0, .. }, ..], None)), "{line}");
        }
        assert!(book.pending[0].holds == [0, 20170207] && book.pending[1].remembered == 1 << 9);
        book
    }

    fn damaged(name: &str, damage: impl Fn(&mut Flat)) {
        let mut book = book();
        assert!(book.sound());
        damage(&mut book);
        assert!(!book.sound(), "{name}");
        assert!(matches!(book.answer(b"noise"), Answer::Refused(1)), "{name}");
    }

    #[test]
    fn damage_is_seen() {
        damaged("size", |b| b.rows.push(Row::default()));
        damaged("csd", |b| b.types[1].csd = 9);
        damaged("type number", |b| b.types[1].number = 100);
        damaged("party hold of object 2", |b| b.types[1].processing = 3);
        damaged("no such day", |b| b.types[1].first = 20170229);
        damaged("first after last", |b| b.types[1].last = 20170206);
        damaged("free place not zero", |b| b.types[77].last = 1);
        damaged("free row not zero", |b| b.rows[1023].values[9] = 1);
        damaged("type twice", |b| b.types[5] = b.types[0]);
        damaged("rule twice", |b| b.rules[511] = Rule { sign: NEGATIVE, ..b.rules[0] });
        damaged("row twice", |b| b.rows[9] = b.rows[0]);
        damaged("rule without its type", |b| b.types[0] = Type::default());
        damaged("rule of another depository's type", |b| b.rules[1].csd = 3);
        damaged("row without its rule", |b| b.rules[0] = Rule::default());
        damaged("row with other criteria", |b| b.rules[0].criteria = 2);
        damaged("row with more criteria", |b| b.rows[0].values[0] = 1);
        damaged("no criteria", |b| b.rules[1].criteria = 0);
        damaged("sign", |b| b.rules[1].sign = 3);
        damaged("value", |b| b.rows[0].values[2] = 3);
        damaged("code of value 0", |b| b.periods[0].code = 200);
        damaged("kind", |b| b.periods[0].kind = 4);
        damaged("number", |b| b.periods[0].number = 1_000_000);
        damaged("periods share a day", |b| b.periods[0].last = 20170401);
        damaged("type quota", |b| {
            for n in 0..17 {
                b.types[20 + n as usize] = Type { csd: 5, number: 10 + n, ..b.types[0] };
            }
        });
        damaged("period quota", |b| {
            for n in 0..129 {
                b.periods[100 + n as usize] = Period { csd: 5, number: 10 + n, ..b.periods[0] };
            }
        });
    }

    #[test]
    fn damage_in_kept_records_is_seen() {
        damaged("size", |b| b.pending.push(Pending::default()));
        damaged("a place less", |b| b.pending.truncate(255));
        damaged("csd 0", |b| b.pending[0].csd = 0);
        damaged("csd 9", |b| b.pending[0].csd = 9);
        damaged("reference 0", |b| b.pending[0].reference = 0);
        damaged("reference 10000", |b| b.pending[0].reference = 10000);
        damaged("reference twice", |b| b.pending[255] = Pending { reference: 2, ..b.pending[0] });
        damaged("object 0", |b| b.pending[2].object = 0);
        damaged("object 3", |b| b.pending[2].object = 3);
        damaged("party type 0", |b| b.pending[0].party_type = 0);
        damaged("party type 4", |b| b.pending[0].party_type = 4);
        damaged("movement empty for object 1", |b| b.pending[0].movement = 0);
        damaged("movement 3", |b| b.pending[0].movement = 3);
        damaged("payment empty for object 1", |b| b.pending[0].payment = 0);
        damaged("payment 3", |b| b.pending[0].payment = 3);
        damaged("movement filled for object 2", |b| b.pending[2].movement = 1);
        damaged("payment filled for object 2", |b| b.pending[2].payment = 2);
        damaged("object 2 in place of 1", |b| b.pending[1].object = 2);
        damaged("transaction of three letters", |b| b.pending[0].transaction >>= 8);
        damaged("transaction in small letters", |b| b.pending[0].transaction |= 0x20);
        damaged("currency of four letters", |b| b.pending[0].currency = b.pending[0].transaction);
        damaged("currency with a digit", |b| b.pending[0].currency = 0x45_55_31);
        damaged("party 0", |b| b.pending[0].party = 0);
        damaged("party 1000000", |b| b.pending[0].party = 1_000_000);
        damaged("account 0", |b| b.pending[0].account = 0);
        damaged("account 1000000", |b| b.pending[0].account = 1_000_000);
        damaged("security 0", |b| b.pending[0].security = 0);
        damaged("security 1000000", |b| b.pending[0].security = 1_000_000);
        damaged("validation hold on no such day", |b| b.pending[0].holds[0] = 20170229);
        damaged("validation hold of 1", |b| b.pending[2].holds[0] = 1);
        damaged("party hold on no such day", |b| b.pending[0].holds[1] = 21000101);
        damaged("party hold of object 2", |b| b.pending[2].holds[1] = 20170207);
        damaged("type 0 remembered", |b| b.pending[0].remembered |= 1);
        damaged("type 100 remembered", |b| b.pending[1].remembered |= 1 << 100);
        damaged("type 127 remembered", |b| b.pending[1].remembered |= 1 << 127);
        damaged("free place with a hold", |b| b.pending[77].holds[1] = 20170207);
        damaged("free place with a memory", |b| b.pending[255].remembered = 1 << 9);
        damaged("free place with a reference", |b| b.pending[255].reference = 7);
        damaged("quota", |b| {
            for n in 0..33 {
                b.pending[100 + n as usize] = Pending { csd: 5, reference: 10 + n, ..b.pending[0] };
            }
        });
        damaged("quota of the depository that has others", |b| {
            for n in 0..30 {
                b.pending[100 + n as usize] = Pending { reference: 10 + n, ..b.pending[0] };
            }
        });
    }

    // No answer shows the day of a hold. One that is on keeps its day; one put on by W has W's.
    #[test]
    fn days_of_holds() {
        let (mut flat, mut maps) = (Flat::new(), Maps::default());
        let mut holds = |line: &str| {
            assert!(!matches!(flat.answer(line.as_bytes()), Answer::Refused(_)), "{line}");
            assert!(!matches!(maps.answer(line.as_bytes()), Answer::Refused(_)), "{line}");
            let days = flat.pending[0].holds;
            let mapped = maps.depositories[1].pending.get(&1).map_or([None; 2], |p| p.holds);
            assert!(days == mapped.map(|day| day.unwrap_or(0)), "{line}");
            days
        };
        for line in [
            "T,2,20170206,9,1,3,20170207,20991231",
            "R,2,20170206,9,1,5,P,4,20170207,20991231",
            "R,2,20170206,9,1,6,P,1,20170210,20991231",
            "M,2,20170206,9,1,5,,,FREE,,,,,,,",
            "M,2,20170206,9,1,6,2,,,,,,,,,",
            "T,2,20170206,8,1,2,20170210,20991231",
            "R,2,20170206,8,1,1,P,1,20170210,20991231",
            "M,2,20170206,8,1,1,2,,,,,,,,,",
        ] {
            assert!(holds(line) == [0, 0]);
        }
        assert!(holds("S,2,20170208,1,1,2,DELI,FREE,,EUR,11,20,30") == [0, 20170208]);
        assert!(holds("W,2,20170207") == [0, 20170208]);
        assert!(holds("W,2,20170210") == [20170210, 20170208]);
        assert!(holds("L,2,20170301,1,3") == [20170210, 0]);
        assert!(holds("W,2,20170211") == [20170210, 0]);
        assert!(holds("W,2,20170207") == [20170210, 20170207]);
        assert!(holds("L,2,20170301,1,2") == [0, 20170207]);
        assert!(holds("W,2,20170210") == [20170210, 20170207]);
    }

    // What is not asked of kept records.
    #[test]
    fn other_kept_records_are_sound() {
        let sound = |name: &str, change: &dyn Fn(&mut Flat)| {
            let mut book = book();
            change(&mut book);
            assert!(book.sound(), "{name}");
        };
        sound("remembered types that are not held", &|b| b.pending[0].remembered = TYPE_NUMBERS);
        sound("a hold that no type sets", &|b| b.pending[0].holds = [20000229, 20991231]);
        sound("validation hold of object 2", &|b| b.pending[2].holds[0] = 20170207);
        sound("no transaction, no currency", &|b| (b.pending[0].transaction, b.pending[0].currency) = (0, 0));
        sound("a gap", &|b| b.pending[1] = Pending::default());
        sound("a reference of two depositories", &|b| b.pending[255] = Pending { csd: 8, ..b.pending[0] });
        sound("32 of each depository", &|b| {
            for place in 0..256 {
                let (csd, reference) = (1 + place as u8 % 8, 1 + place as u16 / 8);
                b.pending[place] = Pending { csd, reference, ..b.pending[0] };
            }
        });
    }
}
