// Every call on one cone of a list that akmuzrel exports, and the list's scaling and step, beside the
// crate's three files over the stand-in. What is due: document 01's refusal table for lists, read here
// in Rust; else what the files make of the cone's own numbers alone, as compare/calls.rs has it for the
// bare call of that kind, put back into the whole buffers. So whatever is not the cone's own must keep
// its bits, the row of records too. The list's step is the least of what the files tell of each cone,
// or, where a = 0 and b < 0, document 02, item 3. The list's scaling is that of cone 0, 1, .. one by one
// up to the first that tells false, whose index it tells too: document 02, item 1.
//
// Marks are document 02, item 4, read here: which call sets one, and which is refused on one, by what
// the bare call of the cone's kind reads of what is stored. Every other call goes on from what earlier
// calls have left of a list, so that the exports themselves have set its marks: such a list began
// fresh, or with numbers of any kind and bytes that are no marks, and never with Identity or Scaled.
// The marks that it should have are kept beside it by the rule alone, and all are compared after each
// call. After a late false all must be as it was: what the files write there is not compared.
//
// Otherwise as compare/calls.rs, which is taken in as a module: results spoiled on purpose, SPOIL, the
// first difference of a call with the smallest input found, and the last line 'N passed, M failed'.
#![allow(confusable_idents, mixed_script_confusables, uncommon_codepoints)]

// the program that stands in that file is not run here
#[macro_use]
#[allow(dead_code, unused_attributes)]
#[path = "calls.rs"]
pub mod calls;

use calls::random::Random;
use calls::{
    chosen, find, names, way, Call, Compared, Due, Equal, Lent, Mended, Name, Places, Spoil,
    Square, Taste, Verdict, P,
};
use std::ops::Range;

// struct akm_cone
#[repr(C)]
#[derive(Clone, Copy, Debug, PartialEq)]
pub struct Record {
    pub start: usize,
    pub kind: usize,
    pub dimension: usize,
}

const NONNEGATIVE: usize = 0;
const SECOND_ORDER: usize = 1;

// enum akm_mark; any other byte counts as fresh
const FRESH: u8 = 0;
const IDENTITY: u8 = 1;
const SCALED: u8 = 2;

// what is stored from call to call, beside the marks
const STORED: [&str; 6] = ["w", "lambda", "u", "v", "eta", "d"];

// the ways of a second-order scaling
const TRUE: &str = "update_scaling: true";
const FALSE: [&str; 2] = ["update_scaling: early false", "update_scaling: late false"];

// before and behind the row; no cone
const GUARD: Record = Record {
    start: 0xdead_beef,
    kind: 7,
    dimension: 0xdead_beef,
};

#[derive(Clone)]
pub struct Input {
    pub row: Vec<Record>,
    pub k: usize,
    pub lent: Lent,
    // which of the lists begun it goes on with
    pub begun: Option<usize>,
}

// The row in memory and the cone's index, for C.
pub struct Row {
    list: *mut Record,
    length: usize,
    k: usize,
}

// A call on a list lends what the bare call of the second-order cone lends, η and d as vectors. The
// list's scaling also lends the cone's index, which lies among the lent numbers, by its bits.
pub struct Listed<'a> {
    pub name: &'static str,
    soc: &'a Call,
    nn: Option<&'a Call>,
    v: Vec<Name>,
    pub o: Vec<Name>,
    native: fn(&Row, &mut Places) -> u8,
}

// The arguments behind the row and the index in C's order, as in compare/calls.rs.
macro_rules! lists {
    ($bare:ident: $($f:ident [$($words:tt)*];)*) => {
        vec![$(Listed::new($bare, stringify!($f), |row, l| {
            native!(@ l $f (row.list, row.length, row.k) (*mut Record, usize, usize) $($words)*)
        })),*]
    };
}

pub fn all(bare: &[Call]) -> Vec<Listed<'_>> {
    let mut all = lists![bare:
        // calls: written by tools/surface
        akm_list_margins [v 0 o 0 o 1];
        akm_list_scaled_unit_shift [v 0 a 0];
        akm_list_unit_initialization [v 0 v 1];
        akm_list_set_identity_scaling [v 0 v 1 v 2 v 3 v 4 m];
        akm_list_update_scaling [v 0 v 1 v 2 v 3 v 4 v 5 v 6 v 7 m t];
        akm_list_get_hs [v 0 v 1 v 2 v 3 m];
        akm_list_mul_hs [v 0 v 1 v 2 v 3 m];
        akm_list_affine_ds [v 0 v 1 m];
        akm_list_combined_ds_shift [v 0 v 1 v 2 a 0 v 3 v 4 m];
        akm_list_ds_from_dz_offset [v 0 v 1 v 2 v 3 v 4 v 5 m];
        akm_list_step_length [v 0 v 1 v 2 v 3 a 0 o 0 o 1];
        akm_list_mul_w [v 0 v 1 a 0 a 1 v 2 v 3 m];
        akm_list_mul_winv [v 0 v 1 a 0 a 1 v 2 v 3 m];
        akm_list_circ_op [v 0 v 1 v 2];
        akm_list_inv_circ_op [v 0 v 1 v 2];
        akm_list_lambda_inv_circ_op [v 0 v 1 v 2 m];
        akm_list_standing [v 0 t];
        // end
    ];
    all.push(Listed::new(bare, "akm_list_square_hs", |row, l| {
        extern "C" {
            fn akm_list_square_hs(
                square: *mut Square,
                list: *mut Record,
                list_len: usize,
                k: usize,
                w: P,
                w_len: usize,
                eta: P,
                eta_len: usize,
                marks: *mut u8,
                marks_len: usize,
            );
        }
        let ((w, n), (eta, cones), (m, m_len)) = (l.v[0], l.v[1], l.m);
        let Row { list, length, k } = *row;
        let mut square = Square::spoiled();
        unsafe { akm_list_square_hs(&mut square, list, length, k, w, n, eta, cones, m, m_len) };
        l.rows = square.rows;
        square.no
    }));
    all.push(Listed::new(bare, "akm_whole_step_length", |row, l| {
        native!(@ l akm_whole_step_length (row.list, row.length) (*mut Record, usize) v 0 v 1 v 2 v 3 a 0 o 0 o 1)
    }));
    all.push(Listed::new(bare, "akm_whole_update_scaling", |row, l| {
        native!(@ l akm_whole_update_scaling (row.list, row.length) (*mut Record, usize) v 0 v 1 v 2 v 3 v 4 v 5 v 6 v 7 m t o 0)
    }));
    all
}

// ---- what is due

// Document 01, "Refusal numbers": the count, then record by record the dimension, the start, the total.
// A kind that is none counts as a dimension out of range.
fn refusal_of_row(row: &[Record]) -> u8 {
    if row.len() > 256 {
        return 2;
    }
    let mut total = 0;
    for c in row {
        let least = if c.kind == SECOND_ORDER { 2 } else { 0 };
        if c.kind > SECOND_ORDER || !(least..=4096).contains(&c.dimension) {
            return 1;
        }
        if c.start != total {
            return 3;
        }
        total += c.dimension;
        if total > 65_536 {
            return 2;
        }
    }
    0
}

impl<'a> Listed<'a> {
    fn new(
        bare: &'a [Call],
        name: &'static str,
        native: fn(&Row, &mut Places) -> u8,
    ) -> Listed<'a> {
        let end = name
            .trim_start_matches("akm_list")
            .trim_start_matches("akm_whole");
        let of = |cone: &str| bare.iter().find(|call| call.name == format!("{cone}{end}"));
        let soc = of("akm_soc").unwrap();
        let (by_cone, mut o): (Vec<Name>, Vec<Name>) = soc
            .o
            .iter()
            .partition(|name| ["eta", "d"].contains(&name.name));
        if name == "akm_whole_update_scaling" {
            o.extend(names("cone!"));
        }
        Listed {
            name,
            soc,
            nn: of("akm_nn"),
            v: [&soc.v[..], &by_cone].concat(),
            o,
            native,
        }
    }

    fn whole(&self) -> bool {
        self.name.starts_with("akm_whole")
    }

    fn scaling(&self) -> bool {
        self.name == "akm_whole_update_scaling"
    }

    fn square(&self) -> bool {
        self.name == "akm_list_square_hs"
    }

    // Document 02, item 4: what stores or reads w or lambda is lent the marks.
    pub fn marked(&self) -> bool {
        ["w", "lambda"]
            .iter()
            .any(|name| find(&self.soc.v, name).is_some())
    }

    // Document 02, item 4: what reads stored w, η or d is refused on a fresh cone, what reads lambda
    // unless the cone is scaled.
    fn unfit(&self, c: &Record, mark: u8) -> bool {
        let call = self.of(c).unwrap_or(self.soc);
        let reads = |name: &str| {
            let mut lent = call.v.iter().chain(&call.o);
            lent.any(|x| x.name == name && !x.written)
        };
        let fresh = ![IDENTITY, SCALED].contains(&mark);
        reads("lambda") && mark != SCALED || ["w", "eta", "d"].into_iter().any(reads) && fresh
    }

    // Document 02, item 4: the mark that the call on cone k sets, by what it has told.
    fn mark(&self, k: usize, due: &mut Due) {
        match self.soc.name {
            "akm_soc_set_identity_scaling" => due.lent.m[k] = IDENTITY,
            "akm_soc_update_scaling" if due.lent.t == 1 => due.lent.m[k] = SCALED,
            _ => {}
        }
    }

    // the bare call of the cone's kind
    fn of(&self, c: &Record) -> Option<&'a Call> {
        match c.kind {
            SECOND_ORDER => Some(self.soc),
            _ => self.nn,
        }
    }

    // Document 01, "The list and its buffers": how many numbers of buffer j are the cone's. What is a
    // cone's lies behind what is of the cones before it.
    fn share(&self, j: usize, c: &Record) -> usize {
        match (self.v[j].name, c.kind) {
            ("eta" | "d", _) => 1,
            (_, SECOND_ORDER) => self.soc.length(j, c.dimension),
            _ => c.dimension,
        }
    }

    // the cone's own range; a row that is refused can have any dimensions
    fn own(&self, j: usize, row: &[Record], k: usize) -> Range<usize> {
        let shares = row[..k].iter().map(|c| self.share(j, c));
        let start = shares.fold(0, usize::saturating_add);
        start..start.saturating_add(self.share(j, &row[k]))
    }

    fn length(&self, j: usize, row: &[Record]) -> usize {
        row.iter().map(|c| self.share(j, c)).sum()
    }

    fn refusal(&self, input: &Input) -> u8 {
        let Input { row, k, lent, .. } = input;
        let no = refusal_of_row(row);
        if no > 0 {
            return no;
        }
        if !self.whole() && *k >= row.len() {
            return 4;
        }
        if self.square() && (row[*k].kind != SECOND_ORDER || row[*k].dimension > 4) {
            return 7;
        }
        if (0..self.v.len()).any(|j| lent.v[j].len() != self.length(j, row)) {
            return 5;
        }
        if self.marked() && lent.m.len() != row.len() {
            return 5;
        }
        match self.soc.limit_refusal(lent) {
            0 if self.marked() && !self.whole() && self.unfit(&row[*k], lent.m[*k]) => 8,
            no => no,
        }
    }

    // What the bare call of cone k is lent, and put back.
    fn taken(&self, call: &Call, row: &[Record], k: usize, lent: &Lent) -> Lent {
        let buffer = |name: &Name| {
            let j = find(&self.v, name.name)?;
            Some(&lent.v[j][self.own(j, row, k)])
        };
        let one = |name: &Name| match find(&self.o, name.name) {
            Some(j) => lent.o[j],
            None => buffer(name).unwrap()[0],
        };
        Lent {
            v: call
                .v
                .iter()
                .map(|name| buffer(name).unwrap().to_vec())
                .collect(),
            o: call.o.iter().map(one).collect(),
            a: lent.a.clone(),
            t: lent.t,
            m: vec![],
            rows: lent.rows,
        }
    }

    fn put(&self, call: &Call, own: &Lent, row: &[Record], k: usize, lent: &mut Lent) {
        for (j, name) in self.v.iter().enumerate() {
            let to = &mut lent.v[j][self.own(j, row, k)];
            if let Some(i) = find(&call.v, name.name) {
                to.copy_from_slice(&own.v[i]);
            } else if let Some(i) = find(&call.o, name.name) {
                to[0] = own.o[i];
            }
        }
        for (j, name) in self.o.iter().enumerate() {
            if let Some(i) = find(&call.o, name.name) {
                lent.o[j] = own.o[i];
            }
        }
        (lent.t, lent.rows) = (own.t, own.rows);
    }

    // What the call on cone k makes of all as it is by now.
    fn made(&self, row: &[Record], k: usize, due: &mut Due) {
        let call = self.of(&row[k]).unwrap();
        let own = call.due(&self.taken(call, row, k, &due.lent));
        assert_eq!(own.no, 0);
        self.put(call, &own.lent, row, k, &mut due.lent);
        for (j, name) in self.v.iter().enumerate() {
            let range = self.own(j, row, k);
            if let Some(i) = find(&call.v, name.name) {
                let placed = |run: &Range<usize>| range.start + run.start..range.start + run.end;
                due.v[j].extend(own.v[i].iter().map(placed));
            } else if find(&call.o, name.name).is_some_and(|i| own.o[i] != Equal::Bits) {
                due.v[j].push(range);
            }
        }
        for (j, name) in self.o.iter().enumerate() {
            if let Some(i) = find(&call.o, name.name) {
                due.o[j] = own.o[i];
            }
        }
        due.told = own.told;
        self.mark(k, due);
    }

    // Document 02, item 1. A cone's index is told with a false only: else what was lent is left.
    fn whole_scaling(&self, input: &Input, due: &mut Due) {
        (due.lent.t, due.told) = (1, true);
        for k in 0..input.row.len() {
            self.made(&input.row, k, due);
            if due.lent.t == 0 {
                due.lent.o[0] = f64::from_bits(k as u64);
                return;
            }
        }
    }

    // Which way the scaling of cone k takes.
    pub fn way(&self, k: usize, input: &Input) -> Option<&'static str> {
        let call = self.of(input.row.get(k)?)?;
        match self.soc.name {
            "akm_soc_update_scaling" => {
                Some(way(call, &self.taken(call, &input.row, k, &input.lent)).unwrap_or(TRUE))
            }
            _ => None,
        }
    }

    // The cone at which the list's scaling ends, and which of its two falses that tells.
    pub fn end(&self, input: &Input) -> Option<(usize, &'static str)> {
        (0..input.row.len()).find_map(|k| Some((k, self.way(k, input).filter(|way| *way != TRUE)?)))
    }

    // Document 01: each cone gets the caller's limit, and each side's least is the answer.
    fn whole_step(&self, input: &Input, due: &mut Due) {
        let steps = |k| {
            let call = self.of(&input.row[k]).unwrap();
            call.due(&self.taken(call, &input.row, k, &input.lent))
                .lent
                .o
        };
        let steps: Vec<_> = (0..input.row.len()).map(steps).collect();
        for side in 0..2 {
            let least = steps
                .iter()
                .map(|o| o[side])
                .reduce(|a, b| chosen(a, b, b < a));
            due.lent.o[side] = least.unwrap_or(input.lent.a[0]);
            due.o[side] = Equal::Value;
        }
    }

    // the cone that is named, or all; of the list's scaling those up to its end
    fn reached(&self, input: &Input) -> Range<usize> {
        let end = match self.scaling() {
            true => self.end(input).map(|(k, _)| k + 1),
            false => None,
        };
        match self.whole() {
            true => 0..end.unwrap_or(input.row.len()),
            false => input.k..input.k + 1,
        }
    }

    fn count(&self, input: &Input, mended: &mut Mended) {
        for k in self.reached(input) {
            if let Some(call) = self.of(&input.row[k]) {
                mended.count(call, &self.taken(call, &input.row, k, &input.lent));
            }
        }
    }

    pub fn due(&self, input: &Input) -> Due {
        let mut due = Due::kept(self.refusal(input), self.name, &input.lent);
        if due.no > 0 {
            return due;
        }
        if self.scaling() {
            self.whole_scaling(input, &mut due);
        } else if self.whole() {
            self.whole_step(input, &mut due);
        } else {
            self.made(&input.row, input.k, &mut due);
        }
        due
    }
}

// ---- inputs

// one behind the other
pub fn tiled(cones: impl IntoIterator<Item = (usize, usize)>) -> Vec<Record> {
    let mut start = 0;
    let record = |(kind, dimension)| {
        let record = Record {
            start,
            kind,
            dimension,
        };
        start += dimension;
        record
    };
    cones.into_iter().map(record).collect()
}

// Few cones for the most part; now and then about 256 cones, or about 65,536 entries.
fn row(random: &mut Random) -> Vec<Record> {
    let dimensions: Vec<usize> = match random.below(4096) {
        0 => {
            let mut most = vec![4096; 16];
            most[15] -= random.below(3);
            most.push(random.below(4));
            most
        }
        1 => {
            let mut most = vec![256; 256];
            most[random.below(256)] += random.below(4);
            most[random.below(256)] -= random.below(4);
            most
        }
        2..=24 => (0..255 + random.below(3))
            .map(|_| random.below(4))
            .collect(),
        _ => (0..random.below(9)).map(|_| random.dimension()).collect(),
    };
    tiled(dimensions.into_iter().map(|n| {
        let kind = random.below(2);
        let few = kind == SECOND_ORDER && n < 2;
        (kind, if few { n + 2 } else { n })
    }))
}

// a row that may be refused
fn damage_row(random: &mut Random, row: &mut Vec<Record>) {
    let huge = [1 << 32, 1 << 63, usize::MAX, usize::MAX - 4095][random.below(4)];
    if random.one_in(16) {
        let (many, last) = (15 + random.below(3), random.below(4));
        let cones = (0..many)
            .map(|_| (random.below(2), 4096))
            .collect::<Vec<_>>();
        *row = tiled(cones.into_iter().chain([(NONNEGATIVE, last)]));
    }
    for _ in 0..1 + random.below(2) {
        if row.is_empty() {
            return;
        }
        let (i, other) = (random.below(row.len()), random.below(row.len()));
        let c = &mut row[i];
        match random.below(12) {
            0..=1 => c.start = c.start.wrapping_add(1),
            2 => c.start = c.start.wrapping_sub(1),
            3 => c.start = c.start.wrapping_add(huge),
            4 => c.kind = [2, 256, 257, usize::MAX][random.below(4)],
            5 => c.kind = c.kind.wrapping_add(huge),
            6 => c.kind ^= 1,
            7 => (c.kind, c.dimension) = (SECOND_ORDER, random.below(2)),
            8 => c.dimension = 4097,
            9 => c.dimension = c.dimension.wrapping_add(huge),
            10 => {
                c.dimension = c
                    .dimension
                    .wrapping_add(1)
                    .wrapping_sub(2 * random.below(2))
            }
            _ => row.swap(i, other),
        }
    }
}

// Which way the scaling of each cone is to take, if any will not do: true up to a second-order cone
// that tells one of the two falses, or true of all. Left to chance, few lists would get far.
fn ways(random: &mut Random, row: &[Record]) -> Vec<Option<&'static str>> {
    let mut ways = vec![None; row.len()];
    let cones: Vec<usize> = (0..row.len())
        .filter(|k| row[*k].kind == SECOND_ORDER)
        .collect();
    if random.one_in(4) {
        return ways;
    }
    let end = random.below(cones.len() + 1);
    cones[..end].iter().for_each(|k| ways[*k] = Some(TRUE));
    if let Some(k) = cones.get(end) {
        ways[*k] = Some(FALSE[random.below(2)]);
    }
    ways
}

// Bytes as marks, fit ones for the most part, or none.
fn byte(random: &mut Random) -> u8 {
    match random.below(16) {
        0..=1 => FRESH,
        2..=5 => IDENTITY,
        6..=13 => SCALED,
        _ => no_mark(random),
    }
}

fn no_mark(random: &mut Random) -> u8 {
    [3, 3, 255, 255, 128, 3 + random.below(253) as u8][random.below(6)]
}

// A list as the calls made so far have left it.
struct Begun {
    row: Vec<Record>,
    stored: [Vec<f64>; 6],
    marks: Vec<u8>,
    calls: usize,
}

impl Begun {
    fn new(random: &mut Random) -> Begun {
        let row = row(random);
        let entries: usize = row.iter().map(|c| c.dimension).sum();
        let fresh = random.below(3) > 0;
        let stored = STORED.map(|name| {
            let n = match name {
                "eta" | "d" => row.len(),
                _ => entries,
            };
            match fresh {
                true => vec![(name == "d") as u8 as f64; n],
                false => (0..n).map(|_| random.number(Taste::Mixed)).collect(),
            }
        });
        let mark = |_: &Record| match fresh || random.one_in(4) {
            true => FRESH,
            false => no_mark(random),
        };
        Begun {
            marks: row.iter().map(mark).collect(),
            row,
            stored,
            calls: 10 + random.below(90),
        }
    }
}

// So many are open at a time, and a call takes any: what is made of one list, and in which order, is
// left to chance.
#[derive(Default)]
pub struct Open(Vec<Begun>);

impl Open {
    const MOST: usize = 32;
}

impl Listed<'_> {
    // A list that an earlier call has left, or a new one.
    fn next(&self, random: &mut Random, open: &mut Open) -> Input {
        let at = random.below(Open::MOST);
        while open.0.len() <= at {
            open.0.push(Begun::new(random));
        }
        if open.0[at].calls == 0 {
            open.0[at] = Begun::new(random);
        }
        let list = &mut open.0[at];
        list.calls -= 1;
        let k = random.below(list.row.len().max(1));
        let mut input = self.fitting(random, list.row.clone(), k, Some(at));
        for (name, x) in std::iter::zip(STORED, &list.stored) {
            if let Some(j) = find(&self.v, name) {
                input.lent.v[j].clone_from(x);
            }
        }
        input.lent.m.clone_from(&list.marks);
        input
    }

    // any list, whatever earlier calls have left
    pub fn single(&self, random: &mut Random) -> Input {
        let row = row(random);
        let k = random.below(row.len().max(1));
        let input = self.fitting(random, row, k, None);
        self.damaged(random, input)
    }

    fn damaged(&self, random: &mut Random, mut input: Input) -> Input {
        let mut aside = Random(!random.0);
        if random.one_in(6) {
            damage_row(random, &mut input.row);
        }
        if random.one_in(12) {
            let (n, k) = (input.row.len(), input.k);
            input.k = [n, n + 1, 256, k | 1 << 32, k | 1 << 63, usize::MAX][random.below(6)];
        }
        if random.one_in(6) {
            self.damage_length(random, &mut input.lent);
        }
        if self.marked() && aside.one_in(16) {
            let n = input.lent.m.len();
            let length = [n.saturating_sub(1), n + 1, 0, aside.below(14)][aside.below(4)];
            let more = byte(&mut aside);
            input.lent.m.resize(length, more);
        }
        input
    }

    // The numbers of a cone that the call reads go together; the others are of any kind. The marks are
    // drawn aside, so that they change no other draw.
    pub fn fitting(
        &self,
        random: &mut Random,
        row: Vec<Record>,
        k: usize,
        begun: Option<usize>,
    ) -> Input {
        let mut aside = Random(!random.0);
        let m = row.iter().map(|_| byte(&mut aside)).collect();
        let taste = [Taste::Any, Taste::Any, Taste::Any, Taste::Special][random.below(4)];
        let v = (0..self.v.len()).map(|j| self.length(j, &row));
        let v = v.map(|n| (0..n).map(|_| random.number(taste)).collect());
        let v = v.collect();
        let o = self.o.iter().map(|_| random.number(taste)).collect();
        let Lent { a, t, rows, .. } = random.fitting(self.soc, 2);
        let mut lent = Lent {
            v,
            a,
            o,
            t,
            m,
            rows,
        };
        let mut wanted = vec![None; row.len()];
        if self.scaling() {
            // no index of a list, and no byte of it that of a small number
            lent.o[0] = f64::from_bits(random.bits() | 0x8080_8080_8080_8080);
            wanted = ways(random, &row);
        } else if self.name == "akm_list_update_scaling"
            && begun.is_some()
            && row.get(k).is_some_and(|c| c.kind == SECOND_ORDER)
        {
            wanted[k] = Some([TRUE, FALSE[0], FALSE[1]][random.below(3)]);
        }
        for i in 0..row.len() {
            let named = self.whole() || i == k;
            if let Some(call) = self.of(&row[i]).filter(|_| named) {
                let mut own = random.fitting(call, row[i].dimension);
                // a late false is one in some 23
                for _ in 0..200 {
                    if wanted[i].is_none() || way(call, &own) == wanted[i] {
                        break;
                    }
                    own = random.fitting(call, row[i].dimension);
                }
                self.put(call, &own, &row, i, &mut lent);
                lent.a = own.a;
            }
        }
        Input {
            row,
            k,
            lent,
            begun,
        }
    }

    // lengths that may be wrong
    fn damage_length(&self, random: &mut Random, l: &mut Lent) {
        let (j, other) = (random.below(l.v.len()), random.below(l.v.len()));
        let n = l.v[j].len();
        let length = match random.below(6) {
            0..=1 => n.saturating_sub(1),
            2..=3 => n + 1,
            4 => l.v[other].len(),
            _ => random.below(14),
        };
        let more = random.number(Taste::Mixed);
        l.v[j].resize(length, more);
    }

    // a cone is dropped, or has another dimension, and its numbers with it
    fn cut(&self, input: &Input, i: usize, dimension: Option<usize>) -> Input {
        let mut cut = input.clone();
        let c = input.row[i];
        for (j, x) in cut.lent.v.iter_mut().enumerate() {
            let Range { start, end } = self.own(j, &input.row, i);
            let range = start.min(x.len())..end.min(x.len());
            let share = dimension.map_or(0, |dimension| self.share(j, &Record { dimension, ..c }));
            let mut rest = x[range.clone()].to_vec();
            rest.resize(share, 1.0);
            x.splice(range, rest);
        }
        let less = c.dimension.wrapping_sub(dimension.unwrap_or(0));
        cut.row[i].dimension = dimension.unwrap_or(0);
        for c in &mut cut.row[i + 1..] {
            c.start = c.start.wrapping_sub(less);
        }
        if dimension.is_none() {
            cut.row.remove(i);
            cut.k -= (cut.k > i) as usize;
            if i < cut.lent.m.len() {
                cut.lent.m.remove(i);
            }
        }
        cut
    }
}

impl Compared for Listed<'_> {
    type Input = Input;
    type Left = Open;

    fn name(&self) -> &str {
        self.name
    }

    fn spoils(&self) -> Vec<Spoil> {
        let mut spoils = vec![
            Spoil::Bit,
            Spoil::Number,
            Spoil::Guard,
            Spoil::Refused,
            Spoil::Unwritten,
        ];
        if self.scaling() {
            spoils.push(Spoil::One);
        }
        if self.marked() {
            spoils.extend([Spoil::Mark, Spoil::LastMark, Spoil::BehindMarks]);
        }
        spoils
    }

    fn input(&self, random: &mut Random, open: &mut Open) -> Input {
        match random.one_in(2) {
            true => self.single(random),
            false => {
                let input = self.next(random, open);
                self.damaged(random, input)
            }
        }
    }

    // A damaged row is another list.
    fn leave(&self, input: &Input, verdict: Verdict, open: &mut Open) {
        let begun = input.begun.map(|at| &mut open.0[at]);
        let Some(list) = begun.filter(|list| verdict.due == 0 && list.row == input.row) else {
            return;
        };
        let Lent { mut v, m, .. } = verdict.left;
        for (name, x) in std::iter::zip(STORED, &mut list.stored) {
            if let Some(j) = find(&self.v, name) {
                std::mem::swap(x, &mut v[j]);
            }
        }
        if self.marked() {
            list.marks = m;
        }
    }

    fn verdict(&self, input: &Input, memory: &mut Vec<f64>, spoil: Spoil) -> Verdict {
        let due = self.due(input);
        let mut row = [&[GUARD], &input.row[..], &[GUARD]].concat();
        let place = Row {
            list: row[1..].as_mut_ptr(),
            length: input.row.len(),
            k: input.k,
        };
        let native = |l: &mut Places| (self.native)(&place, l);
        let found = calls::lend(&input.lent, memory, native, &due, spoil);
        let mut verdict = calls::compare(&self.v, &self.o, &due, found);
        if row != [&[GUARD], &input.row[..], &[GUARD]].concat() {
            verdict.first = Some("the row of records was written to".to_string());
        }
        verdict
    }

    // Cones are dropped and shortened, buffers are emptied, and numbers become plainer.
    fn shrink(&self, mut input: Input, fails: &mut dyn FnMut(&Input) -> bool) -> Input {
        loop {
            let mut smaller = false;
            for i in (0..input.row.len()).rev() {
                let n = input.row[i].dimension;
                let shorter = [0, 2, 4, 5, n / 2, n.saturating_sub(1)];
                let shorter = shorter.into_iter().filter(|m| *m < n && *m <= 4096);
                for dimension in std::iter::once(None).chain(shorter.map(Some)) {
                    let cut = self.cut(&input, i, dimension);
                    if fails(&cut) {
                        input = cut;
                        smaller = true;
                        break;
                    }
                }
            }
            for j in 0..self.v.len() {
                let mut less = input.clone();
                less.lent.v[j].clear();
                if !input.lent.v[j].is_empty() && fails(&less) {
                    input = less;
                    smaller = true;
                }
            }
            for (i, mark) in (0..input.lent.m.len()).flat_map(|i| [(i, SCALED), (i, FRESH)]) {
                let mut other = input.clone();
                other.lent.m[i] = mark;
                if input.lent.m[i] > mark && fails(&other) {
                    input = other;
                    smaller = true;
                }
            }
            let (row, k) = (input.row.clone(), input.k);
            let mut fails = |lent: &Lent| {
                fails(&Input {
                    row: row.clone(),
                    k,
                    lent: lent.clone(),
                    begun: None,
                })
            };
            if !calls::plainer(&mut input.lent, &mut fails) && !smaller {
                return input;
            }
        }
    }

    fn print(&self, input: &Input) {
        let kind = |kind| match kind {
            NONNEGATIVE => "nonnegative".to_string(),
            SECOND_ORDER => "second-order".to_string(),
            other => format!("kind {other}"),
        };
        println!("    row of {}", input.row.len());
        for c in input.row.iter().take(32) {
            println!(
                "        from {}, {} of {}",
                c.start,
                kind(c.kind),
                c.dimension
            );
        }
        if !self.whole() {
            println!("    k = {}", input.k);
        }
        if self.marked() {
            let marks = &input.lent.m;
            let more = if marks.len() > 32 { ", .." } else { "" };
            let shown = &marks[..marks.len().min(32)];
            println!("    marks [{}] = {shown:?}{more}", marks.len());
        }
        calls::print(&self.v, &self.soc.a, &self.o, &input.lent);
    }
}

// How often a call, of either kind of cone, met each mark: where nothing but the mark decided, of the
// list's scaling each cone that it reached. How often where earlier calls had left the list. How often an
// unfit mark stood behind another refusal, by that; with 4, where no cone is named, no mark of the list
// being set. And how often the marks' length alone was wrong, of them for the nonnegative offset.
struct Met {
    rows: Vec<(String, [[[u64; Met::MARKS.len()]; 2]; 2])>,
    behind: [u64; 8],
    length: [u64; 2],
}

impl Met {
    const MARKS: [&'static str; 6] = ["0", "1", "2", "3", "255", "other"];

    fn new(calls: &[Listed]) -> Met {
        let rows = calls.iter().flat_map(|call| match call.soc.name {
            "akm_soc_update_scaling" => [TRUE, FALSE[0], FALSE[1]]
                .map(|way| row_of(call, Some(way)))
                .to_vec(),
            _ => vec![row_of(call, None)],
        });
        Met {
            rows: rows.map(|name| (name, [[[0; 6]; 2]; 2])).collect(),
            behind: [0; 8],
            length: [0; 2],
        }
    }

    fn count(&mut self, call: &Listed, input: &Input, due: u8) {
        let Input { row, k, lent, .. } = input;
        let cone = |k: usize| Some((row.get(k)?, *lent.m.get(k)?));
        let unset = |mark: &u8| ![IDENTITY, SCALED].contains(mark);
        if due == 5 && call.marked() {
            let mut fit = input.clone();
            fit.lent.m.resize(row.len(), SCALED);
            if call.refusal(&fit) != 5 {
                self.length[0] += 1;
                self.length[1] += (!call.whole()
                    && call.name.ends_with("offset")
                    && row[*k].kind == NONNEGATIVE) as u64;
            }
        }
        if ![0, 8].contains(&due) {
            self.behind[due as usize] += match due {
                4 => call.marked() && lent.m.iter().all(unset),
                _ => cone(*k).is_some_and(|(c, mark)| call.unfit(c, mark)),
            } as u64;
            return;
        }
        for k in match due {
            0 => call.reached(input),
            _ => *k..k + 1,
        } {
            let Some((c, mark)) = cone(k) else {
                continue;
            };
            let name = row_of(call, call.way(k, input));
            let line = self.rows.iter_mut().find(|(row, _)| *row == name).unwrap();
            let column = [0, 1, 2, 3, 255].iter().position(|x| *x == mark);
            let column = column.unwrap_or(Met::MARKS.len() - 1);
            line.1[0][1 - c.kind][column] += 1;
            line.1[1][1 - c.kind][column] += input.begun.is_some() as u64;
        }
    }

    fn print(&self) {
        for (at, what) in [
            "calls on a cone by its mark",
            "of them where the calls themselves have left the list",
        ]
        .into_iter()
        .enumerate()
        {
            print!("{what:56}");
            for kind in ["s", "n"] {
                (Met::MARKS.iter()).for_each(|mark| print!(" {:>8}", format!("{kind} {mark}")));
            }
            println!();
            for (name, counts) in &self.rows {
                print!("{name:56}");
                for times in counts[at].iter().flatten() {
                    match *times {
                        0 => print!(" {:>8}", "-"),
                        _ => print!(" {times:8}"),
                    }
                }
                println!();
            }
        }
        let behind: Vec<_> = (1..8)
            .map(|no| format!("{no}: {}", self.behind[no]))
            .collect();
        println!(
            "an unfit mark behind another refusal, by that: {}",
            behind.join(", ")
        );
        let [all, offset] = self.length;
        println!("refused with 5 for the marks alone: {all}, of them {offset} nonnegative offsets");
    }
}

fn row_of(call: &Listed, way: Option<&str>) -> String {
    match way {
        Some(way) => format!("{}{}", call.name, way.trim_start_matches("update_scaling")),
        None => call.name.to_string(),
    }
}

// How the list's scaling ended: true of all, and how many of these had no second-order cone, which alone
// can tell false; else of either false how often at cone 0, 1, .., at a later one, and at a list's last.
#[derive(Default)]
struct Ends {
    all_true: u64,
    sure: u64,
    at: [[u64; Ends::COLUMNS]; 2],
}

impl Ends {
    const COLUMNS: usize = 10;

    fn count(&mut self, call: &Listed, input: &Input) {
        let Some((k, way)) = call.end(input) else {
            self.all_true += 1;
            self.sure += input.row.iter().all(|c| c.kind == NONNEGATIVE) as u64;
            return;
        };
        let line = &mut self.at[(way == FALSE[1]) as usize];
        line[k.min(Ends::COLUMNS - 2)] += 1;
        line[Ends::COLUMNS - 1] += (k + 1 == input.row.len()) as u64;
    }

    fn print(&self) {
        let Ends { all_true, sure, at } = self;
        println!(
            "the list's scaling: {all_true} all true, {sure} of them without a second-order cone"
        );
        print!("{:30}", "false at cone");
        (0..Ends::COLUMNS - 2).for_each(|k| print!(" {k:>8}"));
        println!(" {:>8} {:>8}", "later", "the last");
        for (way, line) in std::iter::zip(FALSE, at) {
            print!("{way:30}");
            line.iter().for_each(|times| print!(" {times:8}"));
            println!();
        }
    }
}

const COLUMNS: [&str; 13] = [
    "done",
    "second-order",
    "nonnegative",
    "no NaN",
    "refused 1",
    "2, cones",
    "2, entries",
    "3",
    "4",
    "5",
    "6",
    "7",
    "8",
];

fn main() {
    let bare = calls::all();
    let calls = all(&bare);
    let mut lines = vec![[0u64; COLUMNS.len()]; calls.len()];
    let (mut mended, mut ends) = (Mended::default(), Ends::default());
    let mut met = Met::new(&calls);
    let (passed, failed) = calls::run(&calls, calls::arguments(3_000_000), |at, input, verdict| {
        let line = &mut lines[at];
        met.count(&calls[at], input, verdict.due);
        match verdict.due {
            0 => {
                line[0] += 1;
                calls[at].count(input, &mut mended);
                if calls[at].scaling() {
                    ends.count(&calls[at], input);
                }
                if !calls[at].whole() {
                    line[2 - input.row[input.k].kind] += 1;
                }
                line[3] += verdict.numbers as u64;
            }
            1 => line[4] += 1,
            2 if input.row.len() > 256 => line[5] += 1,
            2 => line[6] += 1,
            no => line[4 + no as usize] += 1,
        }
    });
    print!("{:30}", "call");
    COLUMNS.iter().for_each(|column| print!(" {column:>12}"));
    println!();
    for (call, line) in std::iter::zip(&calls, lines) {
        print!("{:30}", call.name);
        for (column, times) in std::iter::zip(COLUMNS, line) {
            // what this call cannot come to
            let none = match column {
                "second-order" | "4" => call.whole(),
                "nonnegative" => call.whole() || call.square(),
                "6" => find(&call.soc.a, "limit").is_none(),
                "7" => !call.square(),
                "8" => !call.marked(),
                _ => false,
            };
            match none && times == 0 {
                true => print!(" {:>12}", "-"),
                false => print!(" {times:12}"),
            }
        }
        println!();
    }
    ends.print();
    met.print();
    mended.print();
    println!("{passed} passed, {failed} failed");
    std::process::exit((failed > 0) as i32);
}
