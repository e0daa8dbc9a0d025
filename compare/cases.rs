// Writes recorded cases for the program replay, and what it must write of them: docs/CASES.md has the
// format. The answers are what compare/calls.rs and compare/lists.rs hold the exports to: those of the
// crate's three files over the stand-in, document 01's refusals, and what document 02 has changed: the
// step of item 3, the late false and the marks of item 4. A case whose answer hangs on which of two
// opposite zeros a least or greatest takes is left out, since Rust may take either. The same cases are
// written in every run.
//
// cases STDIN STDOUT
#![allow(confusable_idents, mixed_script_confusables, uncommon_codepoints)]

// the programs that stand in those files are not run here
#[macro_use]
#[allow(dead_code, unused_attributes)]
#[path = "lists.rs"]
mod lists;

use clarabel::algebra::SECOND;
use lists::calls::random::Random;
use lists::calls::{find, way, Call, Compared, Due, Lent, Name};
use lists::{tiled, Input, Listed};
use std::collections::BTreeMap;
use std::fmt::Write;
use std::sync::atomic::Ordering;

// What replay has room for.
const ENTRIES: usize = 64;
const RECORDS: usize = 260;
const WORDS: usize = 1400;

// ---- a case, and its answer

// docs/CASES.md: the number of an operation is its place here.
const OPERATIONS: [&str; 22] = [
    "margins",
    "scaled_unit_shift",
    "unit_initialization",
    "set_identity_scaling",
    "update_scaling",
    "get_hs",
    "square_hs",
    "mul_hs",
    "affine_ds",
    "combined_ds_shift",
    "ds_from_dz_offset",
    "step_length",
    "mul_w",
    "mul_winv",
    "circ_op",
    "inv_circ_op",
    "lambda_inv_circ_op",
    "standing",
    "step",
    "residual",
    "residual_shifted",
    "sqrt_residual",
];

// A call's number: of the numbers from 0 on, then by the kind of the call and its operation.
fn number_of(name: &str) -> u64 {
    let numbers = ["akm_sqrt", "akm_least", "akm_greatest"];
    if let Some(at) = numbers.iter().position(|x| *x == name) {
        return at as u64;
    }
    let operation = |name: &str| OPERATIONS.iter().position(|x| *x == name).unwrap() as u64;
    for (kind, of) in [
        (0x100, "akm_soc_"),
        (0x200, "akm_nn_"),
        (0x300, "akm_list_"),
    ] {
        if let Some(name) = name.strip_prefix(of) {
            return kind + operation(name);
        }
    }
    match name {
        "akm_sqrt_soc_residual" => 0x100 + operation("sqrt_residual"),
        "akm_whole_step_length" => 0x312,
        "akm_whole_update_scaling" => 0x313,
        _ => unreachable!(),
    }
}

struct Case {
    call: u64,
    a: Vec<f64>,
    k: usize,
    row: Vec<[usize; 3]>,
    slices: Vec<Vec<f64>>,
}

// A number's bits. The NaN that an operation makes has another sign on another machine: it is written without one.
fn bits(x: f64) -> u64 {
    match x.to_bits() {
        0xfff8_0000_0000_0000 => 0x7ff8_0000_0000_0000,
        b => b,
    }
}

impl Case {
    fn fits(&self) -> bool {
        let numbers: usize = self.slices.iter().map(|x| 1 + x.len()).sum();
        self.slices.iter().all(|x| x.len() <= ENTRIES)
            && self.row.len() <= RECORDS
            && 5 + 3 * self.row.len() + numbers <= WORDS
    }

    fn text(&self) -> String {
        let a = |k| self.a.get(k).map_or(0, |x: &f64| bits(*x));
        let mut words = vec![self.call, a(0), a(1), self.k as u64, self.row.len() as u64];
        words.extend(self.row.iter().flatten().map(|x| *x as u64));
        for x in &self.slices {
            words.push(x.len() as u64);
            words.extend(x.iter().map(|x| bits(*x)));
        }
        let words: Vec<_> = words.iter().map(|w| format!("{w:x}")).collect();
        words.join(" ")
    }
}

// A number that a bare call is lent is a slice of one; any other of its `o` is its answer.
fn lent(name: &Name) -> bool {
    ["eta", "d"].contains(&name.name)
}

// The marks of a call that is lent them are its last slice, each a word and so the double with its bits.
fn slices(o: &[Name], l: &Lent, marked: bool) -> Vec<Vec<f64>> {
    let ones = std::iter::zip(o, &l.o).filter(|(name, _)| lent(name));
    let marks = l.m.iter().map(|mark| f64::from_bits(u64::from(*mark)));
    l.v.iter()
        .cloned()
        .chain(ones.map(|(_, x)| vec![*x]))
        .chain(marked.then(|| marks.collect()))
        .collect()
}

fn number(text: &mut String, x: f64) {
    match x.is_nan() {
        true => text.push_str(" NaN"),
        false => write!(text, " {:016x}", x.to_bits()).unwrap(),
    }
}

// The refusal's number, the answer's values, and what the slices hold. A refusal has no values, but for the
// square block a matrix of +0.
fn answer(name: &str, o: &[Name], due: &Due, marked: bool) -> String {
    let mut text = due.no.to_string();
    if due.no == 0 {
        let value = |name: &Name| !lent(name) && name.name != "cone";
        let values = std::iter::zip(o, &due.lent.o).filter(|(name, _)| value(name));
        values.for_each(|(_, x)| number(&mut text, *x));
    }
    if due.told {
        write!(text, " {}", due.lent.t).unwrap();
    }
    // of a false of the list's scaling the cone's index too, which lies there by its bits
    if let Some(j) = find(o, "cone").filter(|_| due.told && due.lent.t == 0) {
        write!(text, " {}", due.lent.o[j].to_bits()).unwrap();
    }
    if name.ends_with("square_hs") {
        let rows = due.lent.rows.iter().flatten();
        rows.for_each(|x| number(&mut text, if due.no == 0 { *x } else { 0.0 }));
    }
    for x in slices(o, &due.lent, false) {
        text.push_str(" |");
        x.iter().for_each(|x| number(&mut text, *x));
    }
    if marked {
        text.push_str(" |");
        for mark in &due.lent.m {
            write!(text, " {mark}").unwrap();
        }
    }
    text
}

// ---- which cases are kept

// A call of either kind, bare or on a list.
trait Recorded: Compared {
    fn case(&self, input: &Self::Input) -> Case;
    fn answer(&self, input: &Self::Input) -> String;
    // which way it took, and of how many entries
    fn drawer(&self, input: &Self::Input) -> String;
    // the mark that is refused, and of which kind of cone
    fn unfit(&self, _input: &Self::Input) -> String {
        String::new()
    }
}

impl Recorded for Call {
    fn case(&self, l: &Lent) -> Case {
        Case {
            call: number_of(self.name),
            a: l.a.clone(),
            k: 0,
            row: vec![],
            slices: slices(&self.o, l, false),
        }
    }

    fn answer(&self, l: &Lent) -> String {
        answer(self.name, &self.o, &self.due(l), false)
    }

    fn drawer(&self, l: &Lent) -> String {
        let n = l.v.first().map_or(0, |x| x.len());
        match way(self, l) {
            Some(way) => way.to_string(),
            None if l.v.is_empty() => format!("{:?} {:?}", l.a[0].classify(), l.a[1].classify()),
            None if n > 12 => "long".to_string(),
            None => n.to_string(),
        }
    }
}

impl Recorded for Listed<'_> {
    fn case(&self, input: &Input) -> Case {
        let record = |c: &lists::Record| [c.start, c.kind, c.dimension];
        Case {
            call: number_of(self.name),
            a: input.lent.a.clone(),
            k: input.k,
            row: input.row.iter().map(record).collect(),
            slices: slices(&[], &input.lent, self.marked()),
        }
    }

    fn answer(&self, input: &Input) -> String {
        answer(self.name, &self.o, &self.due(input), self.marked())
    }

    fn unfit(&self, input: &Input) -> String {
        let mark = input.lent.m[input.k];
        format!("{} {}", input.row[input.k].kind, mark.min(3))
    }

    fn drawer(&self, input: &Input) -> String {
        // the list's scaling names no cone: where it ended, and by which false
        if self.name == "akm_whole_update_scaling" {
            let end = self.end(input).map(|(k, way)| (k.min(3), way));
            return format!("{end:?}");
        }
        let cone = |c: &lists::Record| (c.kind, c.dimension.min(6));
        format!(
            "{:?} {:?}",
            input.row.get(input.k).map(cone),
            self.way(input.k, input)
        )
    }
}

// A case is kept while its drawer has room: which drawer is told by the call, the refusal, the way that it
// took, and whether there is a NaN in the answer.
struct Drawers {
    lines: Vec<(String, String)>,
    drawers: BTreeMap<(u64, String), usize>,
    refusals: [usize; 9],
    left_out: usize,
}

impl Drawers {
    fn offer<C: Recorded>(&mut self, call: &C, input: &C::Input) {
        let case = call.case(input);
        if !case.fits() {
            return;
        }
        let texts = [false, true].map(|second| {
            SECOND.store(second, Ordering::Relaxed);
            call.answer(input)
        });
        let no = texts[0].as_bytes()[0] - b'0';
        let drawer = match no {
            0 => format!("{} {}", call.drawer(input), texts[0].contains("NaN")),
            8 => format!("8 {}", call.unfit(input)),
            no => format!("{no} {}", case.row.len() > 8),
        };
        let kept = self.drawers.entry((case.call, drawer)).or_default();
        // many small cases rather than few large ones
        let numbers: usize = case.slices.iter().map(|x| x.len()).sum();
        let room = match numbers {
            0..=60 => 2,
            61..=150 => 1,
            _ => case.row.is_empty() as usize,
        };
        if *kept >= room {
            return;
        }
        if texts[0] != texts[1] {
            self.left_out += 1;
            return;
        }
        *kept += 1;
        self.refusals[no as usize] += 1;
        let [text, _] = texts;
        self.lines.push((case.text(), text));
    }
}

// Rows at the edge of what a list may be; the slices are empty.
fn edges(call: &Listed, random: &mut Random) -> Vec<Input> {
    let full = [(0, 4096); 16];
    let rows = [
        vec![(0, 0); 256],
        vec![(0, 0); 257],
        full.to_vec(),
        [&full[..], &[(1, 2)]].concat(),
    ];
    let edge = |row| Input {
        row: tiled(row),
        ..call.fitting(random, vec![], 0, None)
    };
    rows.into_iter().map(edge).collect()
}

// ---- lines that are damaged

// A line and what is wrong with it.
fn damaged() -> Vec<(String, &'static str)> {
    let long = |n: usize| format!("100 0 0 0 0 {n:x}{}", " 3ff0000000000000".repeat(n));
    vec![
        (
            "0 3ff0000000000000 0 0 g".to_string(),
            "a byte that is no digit",
        ),
        (
            "0 3FF0000000000000 0 0 0".to_string(),
            "a byte that is no digit",
        ),
        ("0\t0 0 0 0".to_string(), "a byte that is no digit"),
        ("-1 0 0 0 0".to_string(), "a byte that is no digit"),
        ("0 0 0 0 0\r".to_string(), "a byte that is no digit"),
        (String::new(), "an empty word"),
        (" 0 0 0 0 0".to_string(), "an empty word"),
        ("0 0 0 0 0 ".to_string(), "an empty word"),
        ("0 0  0 0 0".to_string(), "an empty word"),
        (
            "0 03ff0000000000000 0 0 0".to_string(),
            "a word of over 16 digits",
        ),
        (
            "0 10000000000000000 0 0 0".to_string(),
            "a word of over 16 digits",
        ),
        (format!("0{}", " 0".repeat(WORDS)), "over 1,400 words"),
        (format!("0{}", " 0".repeat(100_000)), "over 1,400 words"),
        ("3 0 0 0 0".to_string(), "no such call"),
        ("116 0 0 0 0 0".to_string(), "no such call"),
        ("206 0 0 0 0 0 0".to_string(), "no such call"),
        ("314 0 0 0 0 0".to_string(), "no such call"),
        ("ffffffffffffffff 0 0 0 0".to_string(), "no such call"),
        ("0".to_string(), "words are missing"),
        ("0 0 0 0".to_string(), "words are missing"),
        ("100 0 0 0 0".to_string(), "words are missing"),
        ("100 0 0 0 0 2 0".to_string(), "words are missing"),
        ("300 0 0 0 1 0 0".to_string(), "words are missing"),
        ("10e 0 0 0 0 0 0".to_string(), "words are missing"),
        (long(ENTRIES + 1), "a slice of over 64 entries"),
        (
            "100 0 0 0 0 ffffffffffffffff".to_string(),
            "a slice of over 64 entries",
        ),
        (
            format!(
                "300 0 0 0 {:x}{} 0",
                RECORDS + 1,
                " 0".repeat(3 * RECORDS + 3)
            ),
            "a row of over 260 records",
        ),
        (
            "300 0 0 0 ffffffffffffffff 0".to_string(),
            "a row of over 260 records",
        ),
        ("0 0 0 0 0 0".to_string(), "words are left over"),
        ("100 0 0 0 0 2 0 0 0".to_string(), "words are left over"),
        (
            "107 0 0 0 0 0 0 0 0".to_string(),
            "a lent number that is not one entry",
        ),
        (
            "106 0 0 0 0 0 2 0 0".to_string(),
            "a lent number that is not one entry",
        ),
        (
            "103 0 0 0 0 0 0 0 1 0 0".to_string(),
            "a lent number that is not one entry",
        ),
    ]
}

fn main() {
    let paths: Vec<_> = std::env::args().skip(1).collect();
    let [stdin, stdout] = &paths[..] else {
        panic!("cases STDIN STDOUT")
    };
    let mut drawers = Drawers {
        lines: vec![],
        drawers: BTreeMap::new(),
        refusals: [0; 9],
        left_out: 0,
    };
    let mut random = Random(6);
    let bare = lists::calls::all();
    for call in &bare {
        for _ in 0..6000 {
            drawers.offer(call, &call.input(&mut random, &mut ()));
        }
    }
    for call in &lists::all(&bare) {
        for input in edges(call, &mut random) {
            drawers.offer(call, &input);
        }
        for _ in 0..6000 {
            drawers.offer(call, &call.single(&mut random));
        }
    }

    // the damaged lines stand among the others
    let mut lines = drawers.lines;
    let cases = lines.len();
    let damaged = damaged();
    let apart = cases / damaged.len();
    let mut input = String::new();
    let mut output = String::new();
    let mut number = 0;
    let mut damaged = damaged.iter();
    for (k, (case, answer)) in lines.drain(..).enumerate() {
        if k % apart == apart - 1 {
            if let Some((line, what)) = damaged.next() {
                number += 1;
                writeln!(input, "{line}").unwrap();
                writeln!(output, "line {number}: damaged: {what}").unwrap();
            }
        }
        number += 1;
        writeln!(input, "{case}").unwrap();
        writeln!(output, "{answer}").unwrap();
    }
    write!(input, "0 0 0 0 0").unwrap();
    writeln!(output, "line {}: damaged: no line end", number + 1).unwrap();
    assert!(damaged.next().is_none());
    std::fs::write(stdin, &input).expect("the cases are written");
    std::fs::write(stdout, &output).expect("the answers are written");

    let mut by_call: BTreeMap<u64, usize> = BTreeMap::new();
    for ((call, _), n) in &drawers.drawers {
        *by_call.entry(*call).or_default() += n;
    }
    println!(
        "{cases} cases of {} calls, {} left out for a zero of either sign; {} bytes and {}",
        by_call.values().filter(|n| **n > 0).count(),
        drawers.left_out,
        input.len(),
        output.len()
    );
    println!("by refusal, from 0: {:?}", drawers.refusals);
}
