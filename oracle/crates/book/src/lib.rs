//! Reads 01's book, line by line, with refusals 1 to 5.

pub const MAX_FIELDS: u64 = 31;
pub const MAX_INSTRUCTIONS: usize = 2048;

/// 01's refusal: its number and the text line, counted from 1.
#[derive(Debug, Clone, Copy, PartialEq, Eq)]
pub struct Refusal {
    pub number: u32,
    pub line: usize,
}

/// Operands are the numbers of earlier constructor lines, counted from 0.
#[derive(Debug, Clone, PartialEq, Eq)]
pub enum Instruction {
    Zero,
    One,
    All,
    Test(u32, bool),
    Set(u32, bool),
    Dup,
    Top,
    Or(usize, usize),
    And(usize, usize),
    Union(Vec<usize>),
    Inter(Vec<usize>),
    Xor(usize, usize),
    Minus(usize, usize),
    Not(usize),
    Seq(usize, usize),
    Star(usize),
    Next(usize),
    Until(usize, usize),
    Empty(usize),
    Live(usize),
    Pruned(usize),
    Why(usize),
}

impl Instruction {
    pub fn is_query(&self) -> bool {
        matches!(self, Instruction::Empty(_) | Instruction::Live(_) | Instruction::Pruned(_) | Instruction::Why(_))
    }
}

pub struct Reader<'a> {
    rest: &'a [u8],
    pub fields: u32,
    pub budget: u64,
    constructors: Vec<bool>, // for each line read, whether it is a constructor line
}

/// A number without leading zeros, at most 2^64 - 1.
fn number(word: &[u8]) -> Option<u64> {
    if word.is_empty() || (word.len() > 1 && word[0] == b'0') { return None; }
    let mut n: u64 = 0;
    for &b in word {
        if !b.is_ascii_digit() { return None; }
        n = n.checked_mul(10)?.checked_add(u64::from(b - b'0'))?;
    }
    Some(n)
}

/// The text before the next byte 10, and what follows it.
fn split_line(text: &[u8]) -> Option<(&[u8], &[u8])> {
    let end = text.iter().position(|&b| b == b'\n')?;
    Some((&text[..end], &text[end + 1..]))
}

fn header(line: &[u8]) -> Option<(u64, u64)> {
    let words: Vec<&[u8]> = line.split(|&b| b == b' ').collect();
    match words[..] {
        [b"fields", n, b"budget", b] => Some((number(n)?, number(b)?)),
        _ => None,
    }
}

impl<'a> Reader<'a> {
    pub fn new(text: &'a [u8]) -> Result<Self, Refusal> {
        let bad = Refusal { number: 1, line: 1 };
        let (line, rest) = split_line(text).ok_or(bad)?;
        let (fields, budget) = header(line).ok_or(bad)?;
        if fields > MAX_FIELDS { return Err(Refusal { number: 2, line: 1 }); }
        Ok(Reader { rest, fields: fields as u32, budget, constructors: vec![] })
    }

    /// The text line of the instruction read last, counted from 1.
    pub fn line(&self) -> usize { self.constructors.len() + 1 }

    pub fn next(&mut self) -> Result<Option<Instruction>, Refusal> {
        if self.rest.is_empty() { return Ok(None); }
        let refuse = |number| Refusal { number, line: self.constructors.len() + 2 };
        if self.constructors.len() == MAX_INSTRUCTIONS { return Err(refuse(3)); }
        let (line, rest) = split_line(self.rest).ok_or(refuse(3))?;
        let words: Vec<&[u8]> = line.split(|&b| b == b' ').collect();
        let numbers: Option<Vec<u64>> = words[1..].iter().map(|w| number(w)).collect();
        let numbers = numbers.ok_or(refuse(3))?;
        let any = |_: usize| true;
        let form: &dyn Fn(usize) -> bool = match words[0] {
            b"zero" | b"one" | b"all" | b"dup" | b"top" => &|n| n == 0,
            b"not" | b"star" | b"next" | b"empty" | b"live" | b"pruned" | b"why" => &|n| n == 1,
            b"test" | b"set" | b"or" | b"and" | b"xor" | b"minus" | b"seq" | b"until" => &|n| n == 2,
            b"union" | b"inter" => &any,
            _ => return Err(refuse(3)),
        };
        if !form(numbers.len()) { return Err(refuse(3)); }
        if matches!(words[0], b"test" | b"set") {
            if numbers[0] >= u64::from(self.fields) || numbers[1] > 1 { return Err(refuse(5)); }
        } else {
            let named = |&n: &u64| usize::try_from(n).ok().and_then(|n| self.constructors.get(n)) == Some(&true);
            if !numbers.iter().all(named) { return Err(refuse(4)); }
        }
        let at = |i: usize| numbers[i] as usize;
        let bit = || (numbers[0] as u32, numbers[1] == 1);
        let list = || numbers.iter().map(|&n| n as usize).collect::<Vec<_>>();
        use Instruction::*;
        let instruction = match words[0] {
            b"zero" => Zero,
            b"one" => One,
            b"all" => All,
            b"dup" => Dup,
            b"top" => Top,
            b"test" => Test(bit().0, bit().1),
            b"set" => Set(bit().0, bit().1),
            b"or" => Or(at(0), at(1)),
            b"and" => And(at(0), at(1)),
            b"union" => Union(list()),
            b"inter" => Inter(list()),
            b"xor" => Xor(at(0), at(1)),
            b"minus" => Minus(at(0), at(1)),
            b"not" => Not(at(0)),
            b"seq" => Seq(at(0), at(1)),
            b"star" => Star(at(0)),
            b"next" => Next(at(0)),
            b"until" => Until(at(0), at(1)),
            b"empty" => Empty(at(0)),
            b"live" => Live(at(0)),
            b"pruned" => Pruned(at(0)),
            b"why" => Why(at(0)),
            _ => unreachable!(),
        };
        self.rest = rest;
        self.constructors.push(!instruction.is_query());
        Ok(Some(instruction))
    }
}
