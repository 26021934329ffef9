//! Importing a BLIF model as document 02 says (U3): text to lines, lines to joined lines with the number of the first of them, to words, to what a
//! line says, to a model, to its sheet; or the ground for refusing and its place.
use crate::limits::{fields, Range, H, K, N, T};
use crate::writer::{self, Node, Records};
use std::collections::{HashMap, HashSet};

/// The most bytes of a text.
pub const TEXT: usize = 65_536;
/// The most bytes of a name.
pub const NAME: usize = 31;
/// The most operands of a table.
pub const OPERANDS: usize = fields(1, T.1).operands.1 as usize;

/// What the caller gives beside the text: K, T, H, a table's picoseconds and a level's.
#[derive(Clone, Copy, Debug, PartialEq)]
pub struct Caller {
    pub leaves: u32,
    pub top: u32,
    pub horizon: u32,
    pub table: u32,
    pub level: u32,
}

/// The ways in which an import is refused.
#[derive(Clone, Copy, Debug, PartialEq, Eq, PartialOrd, Ord)]
pub enum Ground {
    // 11, before any line.
    Leaves,
    Top,
    Horizon,
    NoTableTime,
    NoLevelTime,
    Delay,
    LongText,
    // 9: the line is outside the subset.
    NoModel,
    ModelWords,
    SecondModel,
    LateInputs,
    LateOutputs,
    NamesWithoutWord,
    LatchWords,
    LatchValue,
    EndWords,
    AfterEnd,
    RowWords,
    RowWidth,
    RowByte,
    RowValue,
    NoSuchLine,
    NoEnd,
    // 10: a name.
    TableReadsUndefined,
    LatchReadsUndefined,
    DefinedBefore,
    RepeatedOnLine,
    OutputUndefined,
    // 11: a limit.
    LongName,
    ManyOperands,
    ManyNodes,
    NoNodes,
}

impl Ground {
    /// Document 02's number.
    pub fn number(self) -> u64 {
        match self {
            _ if (Ground::NoModel..=Ground::NoEnd).contains(&self) => 9,
            _ if (Ground::TableReadsUndefined..=Ground::OutputUndefined).contains(&self) => 10,
            _ => 11,
        }
    }
}

/// The ground and the line, from 1; 0 for what the caller gives.
pub type Refusal = (Ground, u64);

pub type Word = Vec<u8>;

impl Caller {
    /// d: the quotient of the picoseconds, rounded up.
    fn delay(&self) -> u64 {
        (u64::from(self.table) + u64::from(self.level) - 1) / u64::from(self.level)
    }

    /// What is out of range, if anything is.
    fn fault(&self) -> Option<Ground> {
        let outside = |value: u32, (low, high): Range| value < low || value > high;
        match self {
            _ if outside(self.leaves, K) => Some(Ground::Leaves),
            _ if outside(self.top, T) => Some(Ground::Top),
            _ if outside(self.horizon, H) => Some(Ground::Horizon),
            _ if self.table == 0 => Some(Ground::NoTableTime),
            _ if self.level == 0 => Some(Ground::NoLevelTime),
            _ if self.delay() > u64::from(self.top) => Some(Ground::Delay),
            _ => None,
        }
    }
}

/// The lines of a text: what stands between bytes 10, and after the last of them where that is not empty.
fn lines(text: &[u8]) -> Vec<&[u8]> {
    let mut all: Vec<&[u8]> = text.split(|&byte| byte == 10).collect();
    if all.last().is_some_and(|last| last.is_empty()) {
        all.pop();
    }
    all
}

/// A line without its comment or the backslash that is its last byte, and whether that backslash joins the next line.
fn content(line: &[u8]) -> (&[u8], bool) {
    if let Some(comment) = line.iter().position(|&byte| byte == b'#') {
        return (&line[..comment], false);
    }
    match line.strip_suffix(b"\\") {
        Some(rest) => (rest, true),
        None => (line, false),
    }
}

/// The joined lines, each with the number of the first.
fn joined(lines: &[&[u8]]) -> Vec<(u64, Vec<u8>)> {
    let mut all: Vec<(u64, Vec<u8>)> = Vec::new();
    let mut joins = false;
    for (index, line) in lines.iter().enumerate() {
        let (content, joins_next) = content(line);
        match all.last_mut() {
            Some(last) if joins => last.1.extend(content),
            _ => all.push((index as u64 + 1, content.to_vec())),
        }
        joins = joins_next;
    }
    all
}

/// The words of a joined line.
fn words(line: &[u8]) -> Vec<Word> {
    line.split(|&byte| byte == 32 || byte == 9).filter(|word| !word.is_empty()).map(<[u8]>::to_vec).collect()
}

/// How far the model is: which lines may come.
enum Stage {
    BeforeModel,
    /// Before any `.names` or `.latch`.
    Head,
    /// After a `.names` with so many inputs, and its rows.
    Table(usize),
    Latch,
    AfterEnd,
}

/// What a line of the subset says.
enum Statement<'a> {
    Model(&'a [Word]),
    Inputs(&'a [Word]),
    Outputs(&'a [Word]),
    /// The operands and the name that is defined.
    Names(&'a [Word], &'a [Word]),
    /// The input and the name that is defined.
    Latch(&'a [Word], &'a [Word]),
    Row,
    End,
}

/// What the words of a line say, or why the line is outside the subset. There is a word.
fn statement<'a>(stage: &Stage, words: &'a [Word]) -> Result<Statement<'a>, Ground> {
    let rest = &words[1..];
    match (stage, words[0].as_slice()) {
        (Stage::AfterEnd, _) => Err(Ground::AfterEnd),
        (Stage::BeforeModel, b".model") if rest.len() == 1 => Ok(Statement::Model(rest)),
        (Stage::BeforeModel, b".model") => Err(Ground::ModelWords),
        (Stage::BeforeModel, _) => Err(Ground::NoModel),
        (_, b".model") => Err(Ground::SecondModel),
        (Stage::Head, b".inputs") => Ok(Statement::Inputs(rest)),
        (Stage::Head, b".outputs") => Ok(Statement::Outputs(rest)),
        (_, b".inputs") => Err(Ground::LateInputs),
        (_, b".outputs") => Err(Ground::LateOutputs),
        (_, b".names") if rest.is_empty() => Err(Ground::NamesWithoutWord),
        (_, b".names") => {
            let (operands, output) = rest.split_at(rest.len() - 1);
            Ok(Statement::Names(operands, output))
        }
        (_, b".latch") => latch(rest),
        (_, b".end") if rest.is_empty() => Ok(Statement::End),
        (_, b".end") => Err(Ground::EndWords),
        (Stage::Table(width), _) => row(*width, words),
        _ => Err(Ground::NoSuchLine),
    }
}

/// A latch: its input, its output and at most an initial value.
fn latch(rest: &[Word]) -> Result<Statement<'_>, Ground> {
    if rest.len() != 2 && rest.len() != 3 {
        return Err(Ground::LatchWords);
    }
    if rest.len() == 3 && ![b"0", b"1", b"2", b"3"].iter().any(|value| rest[2] == *value) {
        return Err(Ground::LatchValue);
    }
    Ok(Statement::Latch(&rest[..1], &rest[1..2]))
}

/// A row: 0, 1 or - for each input in one word, where there are any, then 0 or 1 as its own word.
fn row(width: usize, words: &[Word]) -> Result<Statement<'_>, Ground> {
    if words.len() != 1 + usize::from(width > 0) {
        return Err(Ground::RowWords);
    }
    let (inputs, value) = words.split_at(words.len() - 1);
    if inputs.iter().any(|word| word.len() != width) {
        return Err(Ground::RowWidth);
    }
    if inputs.iter().flatten().any(|byte| !b"01-".contains(byte)) {
        return Err(Ground::RowByte);
    }
    if value[0] != b"0" && value[0] != b"1" {
        return Err(Ground::RowValue);
    }
    Ok(Statement::Row)
}

impl<'a> Statement<'a> {
    /// The names that the line reads, those that it defines, and those that it only names.
    fn names(&self) -> [&'a [Word]; 3] {
        match *self {
            Statement::Model(name) => [&[], &[], name],
            Statement::Inputs(names) => [&[], names, &[]],
            Statement::Outputs(names) => [&[], &[], names],
            Statement::Names(operands, output) | Statement::Latch(operands, output) => [operands, output, &[]],
            Statement::Row | Statement::End => [&[], &[], &[]],
        }
    }
}

/// A model as far as its lines have been taken.
struct Model {
    stage: Stage,
    nodes: Vec<Node>,
    ids: HashMap<Word, usize>,
    /// The names that are put out, each with its line.
    outputs: Vec<(u64, Word)>,
}

impl Model {
    /// A name read before it is defined, or defined twice.
    fn name_fault(&self, statement: &Statement) -> Option<Ground> {
        let [reads, defines, _] = statement.names();
        if reads.iter().any(|name| !self.ids.contains_key(name)) {
            let table = matches!(statement, Statement::Names(..));
            return Some(if table { Ground::TableReadsUndefined } else { Ground::LatchReadsUndefined });
        }
        if defines.iter().any(|name| self.ids.contains_key(name)) {
            return Some(Ground::DefinedBefore);
        }
        let different: HashSet<&Word> = defines.iter().collect();
        (different.len() < defines.len()).then_some(Ground::RepeatedOnLine)
    }

    /// A limit that the line exceeds.
    fn limit_fault(&self, statement: &Statement) -> Option<Ground> {
        let [reads, defines, _] = statement.names();
        match statement {
            _ if statement.names().concat().iter().any(|name| name.len() > NAME) => Some(Ground::LongName),
            _ if reads.len() > OPERANDS => Some(Ground::ManyOperands),
            _ if self.nodes.len() + defines.len() > N.1 as usize => Some(Ground::ManyNodes),
            Statement::End if self.nodes.is_empty() => Some(Ground::NoNodes),
            _ => None,
        }
    }

    /// Defines a name: the next node. Its q is 0 (U5).
    fn define(&mut self, name: &Word, kind: u32, delay: u32, latency: u32, reads: &[Word]) {
        let operands = reads.iter().map(|name| self.ids[name] as u32).collect();
        self.ids.insert(name.clone(), self.nodes.len());
        self.nodes.push(Node { kind, output: 0, delay, latency, clock_to_q: 0, operands });
    }

    /// Takes a line without fault, d being `delay`.
    fn take(&mut self, line: u64, statement: &Statement, delay: u32) {
        match *statement {
            Statement::Model(_) => self.stage = Stage::Head,
            Statement::Inputs(names) => names.iter().for_each(|name| self.define(name, 0, 0, 0, &[])),
            Statement::Outputs(names) => self.outputs.extend(names.iter().map(|name| (line, name.clone()))),
            Statement::Names(operands, output) => {
                match operands.len() {
                    0 => self.define(&output[0], 0, 0, 0, &[]),
                    _ => self.define(&output[0], 1, delay, 0, operands),
                }
                self.stage = Stage::Table(operands.len());
            }
            Statement::Latch(input, output) => {
                self.define(&output[0], 2, 0, 1, input);
                self.stage = Stage::Latch;
            }
            Statement::Row => {}
            Statement::End => self.stage = Stage::AfterEnd,
        }
    }

    /// Judges a line by 9, 10, 11 in that order and takes it.
    fn line(&mut self, line: u64, words: &[Word], delay: u32) -> Result<(), Ground> {
        let statement = statement(&self.stage, words)?;
        if let Some(ground) = self.name_fault(&statement).or_else(|| self.limit_fault(&statement)) {
            return Err(ground);
        }
        self.take(line, &statement, delay);
        Ok(())
    }

    /// Marks the outputs, or gives the first line that puts out an undefined name.
    fn mark_outputs(&mut self) -> Result<(), Refusal> {
        for (line, name) in &self.outputs {
            let id = *self.ids.get(name).ok_or((Ground::OutputUndefined, *line))?;
            self.nodes[id].output = 1;
        }
        Ok(())
    }
}

/// The records of the sheet of a text, or the refusal by 9, 10 or 11.
pub fn records(text: &[u8], caller: &Caller) -> Result<Records, Refusal> {
    let longer = (text.len() > TEXT).then_some(Ground::LongText);
    if let Some(ground) = caller.fault().or(longer) {
        return Err((ground, 0));
    }
    let lines = lines(text);
    let mut model = Model { stage: Stage::BeforeModel, nodes: Vec::new(), ids: HashMap::new(), outputs: Vec::new() };
    for (number, line) in joined(&lines) {
        let words = words(&line);
        if !words.is_empty() {
            model.line(number, &words, caller.delay() as u32).map_err(|ground| (ground, number))?;
        }
    }
    if !matches!(model.stage, Stage::AfterEnd) {
        return Err((Ground::NoEnd, lines.len() as u64 + 1));
    }
    model.mark_outputs()?;
    let Caller { leaves, top, horizon, .. } = *caller;
    // No differences; P is 1, and there are no windows (U8).
    Ok(Records { leaves, top, horizon, nodes: model.nodes, differences: Vec::new(), period: 1, windows: Vec::new() })
}

/// What importing into a buffer of `room` bytes gives, of those records or that refusal: number, place and, where the number is 0, the sheet.
pub fn outcome(records: &Result<Records, Refusal>, room: usize) -> (u64, u64, Option<Vec<u8>>) {
    match records {
        Err((ground, line)) => (ground.number(), *line, None),
        Ok(records) => writer::outcome(records, room),
    }
}
