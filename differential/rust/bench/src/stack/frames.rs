//! The stack that the machine code of the library can take at most, whatever the input: its instructions are followed along all
//! branches, with the height of the stack at each.

use super::RETURN;
use std::collections::{HashMap, HashSet};
use std::process::{exit, Command};

/// The functions that may call themselves, and how often one of them can stand on the stack. A segment writer calls the long-run writer
/// beside it, and that calls the segment writer again with a run of at most 15, which is not passed on.
const WRITERS: [&str; 4] = [
    "::segment::encode_segment",
    "::segment::encode_long_sequence",
    "::segment::put_segment",
    "::segment::put_long_sequence",
];
const LEVELS: usize = 2;

/// What is called of the C library. It takes no stack but its return address.
const OUTSIDE: [&str; 4] = ["memcpy", "memset", "memmove", "bcmp"];

enum Step {
    Push,
    Pop,
    Down(usize),
    Up(usize),
    Call(String),
    /// To an address of the function, always or by a test.
    Jump {
        to: usize,
        always: bool,
    },
    /// To one of the addresses in the function's table, as a `match` of four cases does.
    Table(Vec<usize>),
    /// To another function, which then returns in this one's place.
    Leave {
        to: String,
        always: bool,
    },
    Return,
    /// Touches so many bytes below the stack's end, which a function may do that calls nothing after.
    Below(usize),
    /// Takes so many bytes from r11; and compares the stack's end with r11. A loop that takes a large frame in parts, and touches each, has both.
    Limit(usize),
    AtLimit,
    Other,
}

/// The steps of a function, each with its address.
type Code = Vec<(usize, Step)>;

pub struct Frames {
    functions: HashMap<String, Code>,
}

fn stop(why: &str) -> ! {
    eprintln!("The stack cannot be read from the machine code: {why}.");
    exit(1)
}

/// What `objdump` prints of the library.
fn objdump(arguments: &[&str]) -> String {
    let library =
        std::env::var_os("RDP6_LIBRARY").unwrap_or_else(|| stop("call differential/bench, which finds the library"));
    let asked = Command::new("objdump").args(arguments).arg(library).output();
    let output = asked.unwrap_or_else(|why| stop(&format!("objdump of Debian's package binutils does not run, {why}")));
    if !output.status.success() {
        stop(String::from_utf8_lossy(&output.stderr).trim());
    }
    String::from_utf8_lossy(&output.stdout).into_owned()
}

fn hexadecimal(text: &str) -> Option<usize> {
    usize::from_str_radix(text.trim_start_matches("0x"), 16).ok()
}

/// The addresses in the table of each function that has one. An entry is the distance from the table to the address. Its relocation counts from
/// the entry itself, whose offset is therefore subtracted.
fn tables() -> HashMap<String, Vec<usize>> {
    let mut tables: HashMap<String, Vec<usize>> = HashMap::new();
    let mut name = String::new();
    for line in objdump(&["-r"]).lines() {
        if let Some(section) = line.strip_prefix("RELOCATION RECORDS FOR [") {
            name = section.trim_end_matches("]:").to_owned();
        } else if let Some(function) = name.strip_prefix(".rodata.") {
            let words: Vec<&str> = line.split_whitespace().collect();
            let [offset, "R_X86_64_PC32", target] = words[..] else { continue };
            let distance = target.strip_prefix(".text.").and_then(|target| target.strip_prefix(function)?.strip_prefix('+'));
            let address = || Some(hexadecimal(distance?)? - hexadecimal(offset)?);
            let address = address().unwrap_or_else(|| stop(&format!("{name} has an entry {line}")));
            tables.entry(function.to_owned()).or_default().push(address);
        }
    }
    tables
}

/// How far below the stack's end the operand `-0x..(%rsp)` of an instruction lies.
fn below(operands: &str) -> Option<usize> {
    let (before, _) = operands.split_once("(%rsp")?;
    hexadecimal(before.rsplit([',', ' ']).next()?.strip_prefix('-')?)
}

/// What an instruction does to the stack; none of what is not foreseen here, as a call by a pointer.
fn step(instruction: &str) -> Option<Step> {
    let (name, operands) = instruction.split_once(char::is_whitespace).unwrap_or((instruction, ""));
    let operands = operands.trim();
    let (target, function) = operands.split_once(" <").unwrap_or((operands, ""));
    let constant =
        |register: &str| operands.strip_prefix('$').and_then(|rest| hexadecimal(rest.strip_suffix(register)?));
    let step = match name {
        "jmp" if operands.starts_with("*%") => Step::Table(Vec::new()),
        _ if operands.contains('*') => return None,
        "push" => Step::Push,
        "pop" => Step::Pop,
        "ret" => Step::Return,
        "call" => Step::Call(function.trim_end_matches('>').to_owned()),
        _ if name.starts_with('j') => Step::Jump { to: hexadecimal(target)?, always: name == "jmp" },
        "sub" if operands.ends_with(",%rsp") => Step::Down(constant(",%rsp")?),
        "add" if operands.ends_with(",%rsp") => Step::Up(constant(",%rsp")?),
        "sub" if operands.ends_with(",%r11") => constant(",%r11").map_or(Step::Other, Step::Limit),
        "cmp" if operands == "%r11,%rsp" => Step::AtLimit,
        _ if operands.ends_with(",%rsp") || operands == "%rsp" || name == "leave" => return None,
        _ => below(operands).map_or(Step::Other, Step::Below),
    };
    Some(step)
}

/// Has each loop that takes the stack down to a limit take it at once. Such a loop is `sub $LIMIT,%r11` behind a copy of the stack's end; then,
/// again and again, `sub $PART,%rsp`, a store there, the comparison with r11 and a jump back. Whether it is so; if not, it is not understood.
fn unroll(code: &mut Code) -> bool {
    for at in 0..code.len() {
        if matches!(code[at].1, Step::AtLimit) {
            let [.., (_, Step::Limit(limit)), (begin, Step::Down(part)), (_, Step::Other)] = code[..at] else {
                return false;
            };
            let Some((_, Step::Jump { to, always: false })) = code.get(at + 1) else { return false };
            if *to != begin || limit % part != 0 {
                return false;
            }
            code[at - 2].1 = Step::Down(limit);
            code[at + 1].1 = Step::Other;
        }
    }
    true
}

/// The relocation of a call or a jump, such as `.text.rle_encoder::compress_8bpp_channel-0x4`, says where it goes.
fn relocate(step: &mut Step, relocation: &str) {
    let name = relocation.rsplit_once("-0x").map_or(relocation, |(name, _)| name);
    let to = name.strip_prefix(".text.").unwrap_or(name).to_owned();
    match step {
        Step::Call(callee) => *callee = to,
        Step::Jump { always, .. } => *step = Step::Leave { to, always: *always },
        _ => {}
    }
}

impl Frames {
    pub fn of_library() -> Frames {
        let mut functions: HashMap<String, Code> = HashMap::new();
        let mut name = String::new();
        for line in objdump(&["-d", "-r", "--no-show-raw-insn"]).lines() {
            if let Some((_, function)) = line.strip_suffix(">:").and_then(|line| line.split_once('<')) {
                name = function.to_owned();
                continue;
            }
            let code = functions.entry(name.clone()).or_default();
            if let Some((_, relocation)) = line.split_once("R_X86_64_PLT32\t") {
                code.iter_mut().last().into_iter().for_each(|(_, step)| relocate(step, relocation));
            } else if let Some((address, instruction)) = line.split_once(":\t") {
                let step = || step(instruction.trim()).unwrap_or_else(|| stop(&format!("it has `{instruction}`")));
                code.extend(hexadecimal(address.trim()).map(|address| (address, step())));
            }
        }
        let tables = tables();
        for (name, code) in &mut functions {
            if !unroll(code) {
                stop(&format!("{name} takes the stack in a loop that is not understood"));
            }
            let addresses: HashSet<usize> = code.iter().map(|(address, _)| *address).collect();
            let jumps: Vec<&mut Step> =
                code.iter_mut().map(|(_, step)| step).filter(|step| matches!(step, Step::Table(_))).collect();
            if 1 < jumps.len() {
                stop(&format!("{name} has several jumps by a table"));
            }
            for jump in jumps {
                let targets = tables.get(name).filter(|targets| targets.iter().all(|target| addresses.contains(target)));
                let targets = targets.unwrap_or_else(|| stop(&format!("{name} has a jump by a table that is not understood")));
                *jump = Step::Table(targets.clone());
            }
        }
        Frames { functions }
    }

    /// The most that a call of this function takes, its return address with it.
    pub fn most(&self, name: &str) -> usize {
        self.most_within(name, &mut Vec::new())
    }

    fn most_within<'a>(&'a self, name: &'a str, callers: &mut Vec<&'a str>) -> usize {
        if OUTSIDE.contains(&name) {
            return RETURN;
        }
        let code = self.functions.get(name).unwrap_or_else(|| stop(&format!("there is no {name}")));
        let levels = callers.iter().filter(|&&caller| caller == name).count();
        if 0 < levels && !WRITERS.iter().any(|writer| name.ends_with(writer)) {
            stop(&format!("{name} calls itself"));
        }
        if levels == LEVELS {
            return 0;
        }
        callers.push(name);
        let most = heights(code).into_iter().map(|(at, height)| match &code[at].1 {
            Step::Call(callee) => height + self.most_within(callee, callers),
            Step::Leave { to, .. } => height + self.most_within(to, callers).saturating_sub(RETURN),
            Step::Below(bytes) => height + bytes,
            _ => height,
        });
        let most = RETURN + most.max().unwrap_or(0);
        callers.pop();
        most
    }
}

/// Every place that can be reached, with the bytes that the function has taken of the stack when it comes there.
fn heights(code: &Code) -> HashSet<(usize, usize)> {
    let places: HashMap<usize, usize> = code.iter().enumerate().map(|(at, (address, _))| (*address, at)).collect();
    let mut reached = HashSet::new();
    let mut left = vec![(0, 0)];
    while let Some((at, height)) = left.pop() {
        if !reached.insert((at, height)) {
            continue;
        }
        let next = match &code[at].1 {
            Step::Push => Some(height + RETURN),
            Step::Pop => Some(height - RETURN),
            Step::Down(bytes) => Some(height + bytes),
            Step::Up(bytes) => Some(height - bytes),
            Step::Jump { always: true, .. } | Step::Leave { always: true, .. } | Step::Table(_) | Step::Return => None,
            _ => Some(height),
        };
        match &code[at].1 {
            Step::Jump { to, .. } => left.push((places[to], height)),
            Step::Table(targets) => left.extend(targets.iter().map(|target| (places[target], height))),
            _ => {}
        }
        left.extend(next.map(|height| (at + 1, height)));
    }
    reached
}
