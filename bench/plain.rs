//! plain: what tomex prints for `run`, `times`, `all`, `explore` and `rows`, by a program that is
//! written for speed, uses only the standard library, and is neither verified nor a part of tomex.
//! It is there to be timed beside it: `compare.py` does that. It is built by
//!
//!     rustc --edition 2021 -O -C codegen-units=1 -C panic=abort -o plain plain.rs
//!
//! and called as tomex is:
//!
//!     plain run IMAGE [--base N] [--size N] [--limit N]
//!     plain times STUDY ROW PROGRAM
//!     plain all|explore|rows STUDY [--workers N]
//!     plain check STUDY
//!
//! `all` runs each configuration on the machine that goes cycle by cycle. `explore` and `rows`
//! evaluate the recurrence instead: one evaluation serves all configurations that differ only in
//! what the program never waited for, and in it a block of the program that comes back in a known
//! state isn't evaluated again. `explore` then runs the front on the machine too. `check` compares the machine, the recurrence and the recurrence by
//! blocks on each configuration. The rules of the machine are in docs/MACHINE.md.
//!
//! Inputs are trusted to be right: what tomex refuses may be taken here. Of TOML it reads as much
//! as studies need: tables, whole numbers, texts without escapes, and lists on one line.

use std::collections::HashMap;
use std::fmt::Write as _;
use std::hash::{BuildHasherDefault, Hasher};
use std::io::Write as _;
use std::process::ExitCode;
use std::sync::Mutex;

/// Why there is no result.
type Refusal = String;

// ---------------------------------------------------------------------------- Instructions

#[derive(Clone, Copy, Debug, PartialEq, Eq)]
#[rustfmt::skip]
enum Operation {
    Lui, Auipc, Jal, Jalr, Beq, Bne, Blt, Bge, Bltu, Bgeu,
    Lb, Lh, Lw, Lbu, Lhu, Sb, Sh, Sw,
    Addi, Slti, Sltiu, Xori, Ori, Andi, Slli, Srli, Srai,
    Add, Sub, Sll, Slt, Sltu, Xor, Srl, Sra, Or, And,
    Mul, Mulh, Mulhsu, Mulhu, Div, Divu, Rem, Remu,
    Fence, Ecall, Ebreak, Illegal,
}

use Operation::*;

/// Which operands an instruction has, and how its text shows them.
#[derive(Clone, Copy)]
enum Form {
    Upper,
    Jump,
    Branch,
    Offset,
    Store,
    Immediate,
    Shift,
    Register,
    Whole,
}

/// The kinds of reservation stations.
#[derive(Clone, Copy, Debug, PartialEq, Eq)]
enum Pool {
    Alu,
    Mul,
    Div,
    Load,
    Store,
    Bru,
}

const POOL_NAMES: [&str; 6] = ["alu", "mul", "div", "load", "store", "bru"];

/// The kinds of units, by their numbers. Loads and stores share those of memory.
const UNIT_NAMES: [&str; 5] = ["alu", "mul", "div", "mem", "bru"];
const MEM: usize = 3;
const BRU: usize = 4;

impl Pool {
    fn unit(self) -> usize {
        match self {
            Pool::Alu | Pool::Mul | Pool::Div => self as usize,
            Pool::Load | Pool::Store => MEM,
            Pool::Bru => BRU,
        }
    }

    fn is_memory(self) -> bool {
        matches!(self, Pool::Load | Pool::Store)
    }
}

impl Operation {
    fn of(word: u32) -> Operation {
        const BRANCHES: [Operation; 8] = [Beq, Bne, Illegal, Illegal, Blt, Bge, Bltu, Bgeu];
        const LOADS: [Operation; 8] = [Lb, Lh, Lw, Illegal, Lbu, Lhu, Illegal, Illegal];
        const IMMEDIATES: [Operation; 8] = [Addi, Slli, Slti, Sltiu, Xori, Srli, Ori, Andi];
        const REGISTERS: [Operation; 8] = [Add, Sll, Slt, Sltu, Xor, Srl, Or, And];
        const PRODUCTS: [Operation; 8] = [Mul, Mulh, Mulhsu, Mulhu, Div, Divu, Rem, Remu];
        let (funct3, funct7) = ((word >> 12 & 7) as usize, word >> 25);
        match (word & 0x7f, funct7) {
            (0x37, _) => Lui,
            (0x17, _) => Auipc,
            (0x6f, _) => Jal,
            (0x67, _) if funct3 == 0 => Jalr,
            (0x63, _) => BRANCHES[funct3],
            (0x03, _) => LOADS[funct3],
            (0x23, _) if funct3 < 3 => [Sb, Sh, Sw][funct3],
            (0x13, 32) if funct3 == 5 => Srai,
            (0x13, _) if funct7 == 0 || (funct3 != 1 && funct3 != 5) => IMMEDIATES[funct3],
            (0x33, 0) => REGISTERS[funct3],
            (0x33, 1) => PRODUCTS[funct3],
            (0x33, 32) if funct3 == 0 => Sub,
            (0x33, 32) if funct3 == 5 => Sra,
            (0x0f, _) if funct3 == 0 => Fence,
            (0x73, _) if word == 0x73 => Ecall,
            (0x73, _) if word == 0x0010_0073 => Ebreak,
            _ => Illegal,
        }
    }

    fn form(self) -> Form {
        match self {
            Lui | Auipc => Form::Upper,
            Jal => Form::Jump,
            Beq | Bne | Blt | Bge | Bltu | Bgeu => Form::Branch,
            Jalr | Lb | Lh | Lw | Lbu | Lhu => Form::Offset,
            Sb | Sh | Sw => Form::Store,
            Addi | Slti | Sltiu | Xori | Ori | Andi => Form::Immediate,
            Slli | Srli | Srai => Form::Shift,
            Fence | Ecall | Ebreak | Illegal => Form::Whole,
            _ => Form::Register,
        }
    }

    /// None for instructions that take no station.
    fn pool(self) -> Option<Pool> {
        Some(match self {
            Mul | Mulh | Mulhsu | Mulhu => Pool::Mul,
            Div | Divu | Rem | Remu => Pool::Div,
            Lb | Lh | Lw | Lbu | Lhu => Pool::Load,
            Sb | Sh | Sw => Pool::Store,
            Jalr | Beq | Bne | Blt | Bge | Bltu | Bgeu => Pool::Bru,
            Fence | Ecall | Ebreak | Illegal => return None,
            _ => Pool::Alu,
        })
    }

    /// How many bytes an access touches.
    fn bytes(self) -> u8 {
        match self {
            Lb | Lbu | Sb => 1,
            Lh | Lhu | Sh => 2,
            _ => 4,
        }
    }
}

#[derive(Clone, Copy)]
struct Instruction {
    operation: Operation,
    pool: Option<Pool>,
    /// A register that the form doesn't have is x0.
    destination: u8,
    first: u8,
    second: u8,
    bytes: u8,
    immediate: i32,
}

fn decode(word: u32) -> Instruction {
    let operation = Operation::of(word);
    let form = operation.form();
    let register = |low: u32| (word >> low & 31) as u8;
    let (destination, first, second) = match form {
        Form::Upper | Form::Jump => (register(7), 0, 0),
        Form::Immediate | Form::Shift | Form::Offset => (register(7), register(15), 0),
        Form::Register => (register(7), register(15), register(20)),
        Form::Store | Form::Branch => (0, register(15), register(20)),
        Form::Whole => (0, 0, 0),
    };
    Instruction {
        operation,
        pool: operation.pool(),
        destination,
        first,
        second,
        bytes: operation.bytes(),
        immediate: immediate_of(word, form),
    }
}

fn immediate_of(word: u32, form: Form) -> i32 {
    let bits = |low: u32, count: u32| (word >> low & ((1 << count) - 1)) as i32;
    let sign = word as i32 >> 31;
    match form {
        Form::Upper => (word & 0xffff_f000) as i32,
        Form::Jump => sign << 20 | bits(12, 8) << 12 | bits(20, 1) << 11 | bits(21, 10) << 1,
        Form::Branch => sign << 12 | bits(7, 1) << 11 | bits(25, 6) << 5 | bits(8, 4) << 1,
        Form::Store => sign << 11 | bits(25, 6) << 5 | bits(7, 5),
        Form::Immediate | Form::Offset => word as i32 >> 20,
        Form::Shift => bits(20, 5),
        Form::Register | Form::Whole => 0,
    }
}

impl Instruction {
    /// The result of an operation of the pools alu, mul and div.
    fn compute(&self, pc: u32, a: u32, b: u32) -> u32 {
        let immediate = self.immediate as u32;
        match self.operation {
            Lui => immediate,
            Auipc => pc.wrapping_add(immediate),
            Jal => pc.wrapping_add(4),
            Addi => a.wrapping_add(immediate),
            Slti => ((a as i32) < self.immediate) as u32,
            Sltiu => (a < immediate) as u32,
            Xori => a ^ immediate,
            Ori => a | immediate,
            Andi => a & immediate,
            Slli => a << (immediate & 31),
            Srli => a >> (immediate & 31),
            Srai => (a as i32 >> (immediate & 31)) as u32,
            operation => of_registers(operation, a, b),
        }
    }

    /// Where the program goes on after a branch.
    fn target(&self, pc: u32, a: u32, b: u32) -> u32 {
        let is_taken = match self.operation {
            Beq => a == b,
            Bne => a != b,
            Blt => (a as i32) < b as i32,
            Bge => a as i32 >= b as i32,
            Bltu => a < b,
            Bgeu => a >= b,
            _ => return a.wrapping_add(self.immediate as u32) & !1,
        };
        pc.wrapping_add(if is_taken { self.immediate as u32 } else { 4 })
    }

    fn text(&self) -> String {
        let name = format!("{:?}", self.operation).to_lowercase();
        let (d, a, b, i) = (self.destination, self.first, self.second, self.immediate);
        match self.operation.form() {
            Form::Upper => format!("{name} x{d},{}", i as u32 >> 12),
            Form::Jump => format!("{name} x{d},{i}"),
            Form::Branch => format!("{name} x{a},x{b},{i}"),
            Form::Offset => format!("{name} x{d},{i}(x{a})"),
            Form::Store => format!("{name} x{b},{i}(x{a})"),
            Form::Immediate | Form::Shift => format!("{name} x{d},x{a},{i}"),
            Form::Register => format!("{name} x{d},x{a},x{b}"),
            Form::Whole => name,
        }
    }
}

fn of_registers(operation: Operation, a: u32, b: u32) -> u32 {
    let signed = |word: u32| word as i32 as i64;
    match operation {
        Add => a.wrapping_add(b),
        Sub => a.wrapping_sub(b),
        Sll => a << (b & 31),
        Slt => ((a as i32) < b as i32) as u32,
        Sltu => (a < b) as u32,
        Xor => a ^ b,
        Srl => a >> (b & 31),
        Sra => (a as i32 >> (b & 31)) as u32,
        Or => a | b,
        And => a & b,
        Mul => a.wrapping_mul(b),
        Mulh => ((signed(a) * signed(b)) >> 32) as u32,
        Mulhsu => ((signed(a) * b as i64) >> 32) as u32,
        Mulhu => ((a as u64 * b as u64) >> 32) as u32,
        Div | Divu if b == 0 => u32::MAX,
        Rem | Remu if b == 0 => a,
        Div => (a as i32).wrapping_div(b as i32) as u32,
        Divu => a / b,
        Rem => (a as i32).wrapping_rem(b as i32) as u32,
        Remu => a % b,
        _ => 0,
    }
}

// ---------------------------------------------------------------------------- Programs

/// A window of bytes. An address below the base wraps to an offset far above the size.
#[derive(Clone, PartialEq)]
struct Memory {
    base: u32,
    bytes: Vec<u8>,
}

impl Memory {
    /// The bytes from an address on, if all of them are in the window.
    fn get(&self, address: u32, count: usize) -> Option<&[u8]> {
        let from = address.wrapping_sub(self.base) as usize;
        self.bytes.get(from..from.wrapping_add(count))
    }

    fn get_mut(&mut self, address: u32, count: usize) -> Option<&mut [u8]> {
        let from = address.wrapping_sub(self.base) as usize;
        self.bytes.get_mut(from..from.wrapping_add(count))
    }

    fn load(&self, operation: Operation, address: u32) -> Option<u32> {
        let byte = || Some(self.get(address, 1)?[0]);
        let half = || Some(u16::from_le_bytes(self.get(address, 2)?.try_into().ok()?));
        match operation {
            Lw => Some(u32::from_le_bytes(self.get(address, 4)?.try_into().ok()?)),
            Lh => half().map(|value| value as i16 as u32),
            Lhu => half().map(u32::from),
            Lb => byte().map(|value| value as i8 as u32),
            _ => byte().map(u32::from),
        }
    }

    fn store(&mut self, operation: Operation, address: u32, value: u32) -> Option<()> {
        let value = value.to_le_bytes();
        match operation {
            Sw => self.get_mut(address, 4)?.copy_from_slice(&value),
            Sh => self.get_mut(address, 2)?.copy_from_slice(&value[..2]),
            _ => self.get_mut(address, 1)?[0] = value[0],
        }
        Some(())
    }
}

#[derive(Clone, PartialEq)]
struct Registers([u32; 32]);

impl Registers {
    // The masks spare a test for the bounds.
    fn get(&self, number: u8) -> u32 {
        self.0[number as usize & 31]
    }

    fn set(&mut self, number: u8, value: u32) {
        self.0[number as usize & 31] = value;
        self.0[0] = 0;
    }
}

/// A program as it is loaded.
struct Image {
    memory: Memory,
    entry: u32,
    /// The words up to the last one that the file sets; those after it are zero, so illegal.
    code: Vec<Instruction>,
}

impl Image {
    fn read(file: &str, base: u32, size: usize) -> Result<Image, Refusal> {
        let bytes = std::fs::read(file).map_err(|error| format!("{file}: {error}"))?;
        let window = vec![0; size];
        let mut memory = Memory {
            base,
            bytes: window,
        };
        let (entry, end) = if bytes.starts_with(b"\x7fELF") {
            load_elf(&bytes, &mut memory)?
        } else {
            let window = memory.bytes.get_mut(..bytes.len());
            window.ok_or("image: too large")?.copy_from_slice(&bytes);
            (base, bytes.len())
        };
        if end == 0 || entry % 4 != 0 || memory.get(entry, 4).is_none() {
            return Err("image: empty, or a wrong entry".into());
        }
        let words = memory.bytes[..end.next_multiple_of(4)].chunks_exact(4);
        let words = words.map(|word| u32::from_le_bytes(word.try_into().unwrap()));
        let code = words.map(decode).collect();
        Ok(Image {
            memory,
            entry,
            code,
        })
    }

    fn fetch(&self, pc: u32) -> Option<&Instruction> {
        let word = pc.wrapping_sub(self.memory.base) / 4;
        self.code.get(word as usize)
    }

    /// The registers at the start: the stack begins at the end of memory.
    fn registers(&self) -> Registers {
        let mut registers = Registers([0; 32]);
        let Memory { base, bytes } = &self.memory;
        let end = base.wrapping_add(bytes.len() as u32);
        registers.set(2, end & !15);
        registers
    }
}

/// Loads an ELF file's segments; gives the entry, and the offset at which the last one ends.
fn load_elf(file: &[u8], memory: &mut Memory) -> Result<(u32, usize), Refusal> {
    let word = |at: usize| -> Result<u32, Refusal> {
        let bytes = file.get(at..at + 4).ok_or("image: truncated")?;
        Ok(u32::from_le_bytes(bytes.try_into().unwrap()))
    };
    if file.len() < 52 || file[4..7] != [1, 1, 1] || file[16..20] != [2, 0, 243, 0] {
        return Err("image: not an executable for RISC-V of 32 bits".into());
    }
    let (table, count) = (word(28)? as usize, word(44)? as usize & 0xffff);
    let mut end = 0;
    for header in (0..count).map(|number| table + 32 * number) {
        let (offset, address) = (word(header + 4)? as usize, word(header + 8)?);
        let (in_file, in_memory) = (word(header + 16)? as usize, word(header + 20)? as usize);
        const LOAD: u32 = 1;
        if word(header)? != LOAD || in_memory == 0 {
            continue;
        }
        let segment = memory.get_mut(address, in_memory).ok_or("image: segment")?;
        if in_file > 0 {
            let bytes = file.get(offset..offset + in_file);
            let set = segment.get_mut(..in_file).ok_or("image: segment")?;
            set.copy_from_slice(bytes.ok_or("image: truncated")?);
        }
        end = end.max((address - memory.base) as usize + in_memory);
    }
    Ok((word(24)?, end))
}

/// How a program ends.
struct End {
    operation: Operation,
    pc: u32,
    steps: usize,
    registers: Registers,
    memory: Memory,
}

const MOST_STEPS: usize = 262_144;

/// Runs a program in order. `visit` sees each step: its instruction, its pc, and the address that it
/// accesses if it is an access.
fn run_in_order(
    image: &Image,
    limit: usize,
    mut visit: impl FnMut(&Instruction, u32, u32),
) -> Result<End, Refusal> {
    let mut memory = image.memory.clone();
    let mut registers = image.registers();
    let mut pc = image.entry;
    for steps in 1..=limit {
        let fault = || format!("fault at {pc:08x}");
        let instruction = image.fetch(pc).ok_or_else(fault)?;
        let operation = instruction.operation;
        let base = registers.get(instruction.first);
        let address = base.wrapping_add(instruction.immediate as u32);
        visit(instruction, pc, address);
        if matches!(operation, Ecall | Ebreak) {
            return Ok(End {
                operation,
                pc,
                steps,
                registers,
                memory,
            });
        }
        pc = execute(instruction, pc, &mut registers, &mut memory).ok_or_else(fault)?;
    }
    Err("too long".into())
}

/// Carries out an instruction; gives the address of the next one, or none if it faults.
#[inline(always)]
fn execute(
    instruction: &Instruction,
    pc: u32,
    registers: &mut Registers,
    memory: &mut Memory,
) -> Option<u32> {
    let Instruction {
        operation,
        destination,
        ..
    } = *instruction;
    let a = registers.get(instruction.first);
    let b = registers.get(instruction.second);
    let address = a.wrapping_add(instruction.immediate as u32);
    let mut next = pc.wrapping_add(4);
    match instruction.pool {
        Some(Pool::Load) => registers.set(destination, memory.load(operation, address)?),
        Some(Pool::Store) => memory.store(operation, address, b)?,
        Some(Pool::Bru) => {
            registers.set(destination, next);
            next = instruction.target(pc, a, b);
        }
        Some(_) => {
            registers.set(destination, instruction.compute(pc, a, b));
            if operation == Jal {
                next = pc.wrapping_add(instruction.immediate as u32);
            }
        }
        None if operation == Illegal => return None,
        None => {}
    }
    (next % 4 == 0).then_some(next)
}

// ---------------------------------------------------------------------------- Configurations

/// The parts of a configuration, by their numbers: stations of six pools, units of five kinds, buses
/// and the issue width.
const UNIT_PARTS: usize = 6;
const BUSES: usize = 11;
const WIDTH: usize = 12;
const PARTS: usize = 13;
const MOST: [u64; PARTS] = [16, 16, 16, 16, 16, 16, 8, 8, 8, 8, 1, 8, 4];
/// Parts and latencies.
const FIELDS: usize = PARTS + 5;

#[derive(Clone, Copy)]
struct Configuration {
    /// The counts of all parts, and then the five latencies.
    fields: [u8; FIELDS],
    cost: u64,
}

impl Configuration {
    fn with(mut self, choice: &Choice) -> Configuration {
        for (field, value) in &choice.values {
            self.fields[*field] = *value;
        }
        self.cost += choice.cost;
        self
    }

    fn stations(&self, pool: Pool) -> usize {
        self.fields[pool as usize] as usize
    }

    fn units(&self, unit: usize) -> u8 {
        self.fields[UNIT_PARTS + unit]
    }

    fn latency(&self, unit: usize) -> u64 {
        self.fields[PARTS + unit] as u64
    }

    fn buses(&self) -> u8 {
        self.fields[BUSES]
    }

    fn width(&self) -> u8 {
        self.fields[WIDTH]
    }
}

// ---------------------------------------------------------------------------- Studies

enum Value {
    Number(u64),
    Text(String),
    List(Vec<Value>),
}

impl Value {
    /// Reads the value at the head of a text, and leaves what comes after it.
    fn read(text: &mut &str) -> Option<Value> {
        *text = text.trim_start();
        if let Some(rest) = text.strip_prefix('"') {
            let (word, rest) = rest.split_once('"')?;
            *text = rest;
            return Some(Value::Text(word.into()));
        }
        if let Some(rest) = text.strip_prefix('[') {
            *text = rest;
            return Value::read_list(text);
        }
        let length = text
            .find(|c: char| !c.is_ascii_alphanumeric())
            .unwrap_or(text.len());
        let (digits, rest) = text.split_at(length);
        *text = rest;
        Some(Value::Number(number(digits)?))
    }

    fn read_list(text: &mut &str) -> Option<Value> {
        let mut items = vec![];
        loop {
            *text = text.trim_start().trim_start_matches(',').trim_start();
            if let Some(rest) = text.strip_prefix(']') {
                *text = rest;
                return Some(Value::List(items));
            }
            items.push(Value::read(text)?);
        }
    }

    fn number(&self) -> Option<u64> {
        match self {
            Value::Number(number) => Some(*number),
            _ => None,
        }
    }

    fn text(&self) -> Option<String> {
        match self {
            Value::Text(text) => Some(text.clone()),
            _ => None,
        }
    }

    /// A list of pairs.
    fn ranges(&self) -> Option<Vec<(u32, usize)>> {
        let range = |value: &Value| match value.numbers()?[..] {
            [address, length] => Some((address as u32, length as usize)),
            _ => None,
        };
        match self {
            Value::List(items) => items.iter().map(range).collect(),
            _ => None,
        }
    }

    fn numbers(&self) -> Option<Vec<u64>> {
        match self {
            Value::List(items) => items.iter().map(Value::number).collect(),
            _ => None,
        }
    }
}

/// A number, decimal or hexadecimal.
fn number(text: &str) -> Option<u64> {
    match text.strip_prefix("0x") {
        Some(digits) => u64::from_str_radix(digits, 16).ok(),
        None => text.parse().ok(),
    }
}

/// A table of a study, by its head: `axes`, or `unit.mul` for one of the list of that name.
struct Table {
    head: String,
    values: HashMap<String, Value>,
}

impl Table {
    fn new(head: &str) -> Table {
        Table {
            head: head.into(),
            values: HashMap::new(),
        }
    }

    /// All tables of a study, in its order. Those of the lists are there, empty if need be.
    fn read_all(text: &str) -> Result<Vec<Table>, Refusal> {
        let mut tables: Vec<Table> = vec![];
        for (index, line) in text.lines().enumerate() {
            let refuse = || format!("study: line {}", index + 1);
            let line = line.trim();
            if let Some(head) = line.strip_prefix('[') {
                let head = head.trim_start_matches('[').split(']').next();
                tables.push(Table::new(head.unwrap_or_default()));
            } else if !line.is_empty() && !line.starts_with('#') {
                let (key, value) = read_line(line).ok_or_else(refuse)?;
                let table = tables.last_mut().ok_or_else(refuse)?;
                table.values.insert(key.into(), value);
            }
        }
        let mut heads = UNIT_NAMES.map(|name| format!("unit.{name}")).to_vec();
        heads.extend(["axes".into(), "prices".into()]);
        heads.retain(|head| tables.iter().all(|table| table.head != *head));
        tables.extend(heads.iter().map(|head| Table::new(head)));
        Ok(tables)
    }

    /// The value of a key, or a default if the key isn't there.
    fn get<T>(
        &self,
        key: &str,
        default: T,
        read: impl Fn(&Value) -> Option<T>,
    ) -> Result<T, Refusal> {
        match self.values.get(key) {
            Some(value) => read(value).ok_or(format!("study: {}: {key}", self.head)),
            None => Ok(default),
        }
    }

    fn number(&self, key: &str, default: u64) -> Result<u64, Refusal> {
        self.get(key, default, Value::number)
    }

    fn text(&self, key: &str) -> Result<String, Refusal> {
        self.get(key, String::new(), Value::text)
    }
}

/// A key and its value, and a comment if there is one.
fn read_line(line: &str) -> Option<(&str, Value)> {
    let (key, mut rest) = line.split_once('=')?;
    let value = Value::read(&mut rest)?;
    let rest = rest.trim();
    (rest.is_empty() || rest.starts_with('#')).then_some((key.trim(), value))
}

struct Program {
    name: String,
    image: Image,
    limit: usize,
    weight: u64,
    /// Address and length of each range of memory that the report shows.
    watch: Vec<(u32, usize)>,
}

impl Program {
    fn of(table: &Table) -> Result<Program, Refusal> {
        let (base, size) = (table.number("base", 0)?, table.number("size", 65_536)?);
        Ok(Program {
            name: table.text("name")?,
            image: Image::read(&table.text("file")?, base as u32, size as usize)?,
            limit: table.number("limit", MOST_STEPS as u64)? as usize,
            weight: table.number("weight", 1)?,
            watch: table.get("watch", vec![], Value::ranges)?,
        })
    }

    fn end(&self) -> Result<End, Refusal> {
        run_in_order(&self.image, self.limit, |_, _, _| {})
    }
}

struct Study {
    programs: Vec<Program>,
    rows: Vec<Configuration>,
    /// Whether reports show widths and weights: if the study has one of these keys.
    is_wide: bool,
}

impl Study {
    fn read(file: &str) -> Result<Study, Refusal> {
        let text = std::fs::read_to_string(file).map_err(|error| format!("{file}: {error}"))?;
        let tables = Table::read_all(&text)?;
        let programs = tables.iter().filter(|table| table.head == "program");
        let is_wide = |key: &String| key == "width" || key == "weight";
        Ok(Study {
            programs: programs.map(Program::of).collect::<Result<_, _>>()?,
            rows: grid(&lists(&tables)?),
            is_wide: tables.iter().any(|table| table.values.keys().any(is_wide)),
        })
    }
}

/// A choice of one of the study's lists: values of some fields, and what they cost.
struct Choice {
    values: Vec<(usize, u8)>,
    cost: u64,
}

/// The study's thirteen lists.
fn lists(tables: &[Table]) -> Result<Vec<Vec<Choice>>, Refusal> {
    let mut lists = vec![];
    for (pool, name) in POOL_NAMES.iter().enumerate() {
        lists.push(count_choices(tables, pool, name, name)?);
    }
    for (unit, name) in UNIT_NAMES.iter().enumerate() {
        let head = format!("unit.{name}");
        let options = tables.iter().filter(|table| table.head == head);
        let choices = options.map(|table| unit_choice(table, unit));
        lists.push(choices.collect::<Result<_, _>>()?);
    }
    lists.push(count_choices(tables, BUSES, "buses", "bus")?);
    lists.push(count_choices(tables, WIDTH, "width", "width")?);
    Ok(lists)
}

/// The first table of this head; there is one.
fn table<'a>(tables: &'a [Table], head: &str) -> &'a Table {
    tables
        .iter()
        .find(|table| table.head == head)
        .expect("a table that was made")
}

/// The choices of a count of a part, by the keys of its list and of its price.
fn count_choices(
    tables: &[Table],
    part: usize,
    axis: &str,
    price: &str,
) -> Result<Vec<Choice>, Refusal> {
    let counts = table(tables, "axes").get(axis, vec![1], Value::numbers)?;
    let price = table(tables, "prices").number(price, 0)?;
    if counts.iter().any(|count| !(1..=MOST[part]).contains(count)) {
        return Err(format!("study: axes: {axis}"));
    }
    let choice = |count: &u64| {
        let (values, cost) = (vec![(part, *count as u8)], count * price);
        Choice { values, cost }
    };
    Ok(counts.iter().map(choice).collect())
}

/// An option of a kind of units.
fn unit_choice(table: &Table, unit: usize) -> Result<Choice, Refusal> {
    let part = UNIT_PARTS + unit;
    let (units, latency) = (table.number("units", 1)?, table.number("latency", 1)?);
    if !(1..=MOST[part]).contains(&units) || !(1..=64).contains(&latency) {
        return Err(format!("study: {}", table.head));
    }
    let values = vec![(part, units as u8), (PARTS + unit, latency as u8)];
    let cost = table.number("price", 0)?;
    Ok(Choice { values, cost })
}

/// The product of lists, the last one fastest.
fn grid(lists: &[Vec<Choice>]) -> Vec<Configuration> {
    let fields = [1; FIELDS];
    let mut rows = vec![Configuration { fields, cost: 0 }];
    for list in lists {
        let choices = |row: Configuration| list.iter().map(move |choice| row.with(choice));
        rows = rows.into_iter().flat_map(choices).collect();
    }
    rows
}

// ---------------------------------------------------------------------------- The machine, by cycles

/// A place is a station's number over all pools: 16 times its pool and its number there. A set of
/// places has a bit for each.
const PLACES: usize = 96;
/// The first place of each unit's stations: a set of these has 32 bits at most.
const FIRST_PLACES: [usize; 5] = [0, 16, 32, FIRST_ACCESS, 80];
/// Those of the units of memory: loads, and then stores.
const FIRST_ACCESS: usize = 48;
const FIRST_STORE: usize = 64;
const STORES: u32 = 0xffff_0000;
/// Of a register that no station is to write.
const NO_WRITER: u8 = 255;
/// Why a call on the machine can't fail: it does what a run in order did.
const RUN_ENDED: &str = "the program's run in order ended";

#[derive(Clone, Copy)]
struct Station {
    /// Who is older: how many instructions had issued.
    order: u32,
    instruction: Instruction,
    pc: u32,
    first: u32,
    second: u32,
    result: u32,
    address: u32,
    /// How many of these aren't there yet: two operands, and of an access the address, for which
    /// it also has to be clear of `blockers`.
    missing: u8,
    is_base_missing: bool,
    /// Older accesses to the same bytes that haven't finished.
    blockers: u32,
}

impl Station {
    fn of(instruction: Instruction, pc: u32) -> Station {
        Station {
            order: 0,
            instruction,
            pc,
            first: 0,
            second: 0,
            result: 0,
            address: 0,
            missing: 0,
            is_base_missing: false,
            blockers: 0,
        }
    }
}

struct Machine<'a> {
    image: &'a Image,
    config: &'a Configuration,
    memory: &'a mut Memory,
    registers: Registers,
    /// The place that is to write each register.
    writers: [u8; 32],
    stations: [Station; PLACES],
    /// The places that wait for the result of each as their first operand, and as their second.
    first_waiters: [u128; PLACES],
    second_waiters: [u128; PLACES],
    free: [u32; 6],
    all_free: [u32; 6],
    /// What may start, by unit.
    ready: [u32; 5],
    /// What has finished, and waits for a bus.
    unsent: u128,
    /// What finishes in each of the next 64 cycles, and in which of them anything does.
    finishes: [u128; 64],
    finish_cycles: u64,
    /// Loads and stores without an address, in program order: a ring, its head and its tail.
    queue: [u8; 32],
    head: usize,
    tail: usize,
    /// Accesses with an address that haven't finished.
    accesses: u32,
    pc: u32,
    cycle: u64,
    last_end: u64,
    issued: u32,
    waits_for_branch: bool,
    has_stopped: bool,
}

/// The members of a set, the least first.
fn members(mut set: u128) -> impl Iterator<Item = usize> {
    std::iter::from_fn(move || {
        let least = set.trailing_zeros() as usize;
        (set != 0).then(|| {
            set &= set - 1;
            least
        })
    })
}

impl<'a> Machine<'a> {
    fn new(image: &'a Image, memory: &'a mut Memory, config: &'a Configuration) -> Machine<'a> {
        memory.bytes.copy_from_slice(&image.memory.bytes);
        let empty = Station::of(decode(0), 0);
        let all_free = std::array::from_fn(|pool| (1 << config.fields[pool]) - 1);
        Machine {
            image,
            config,
            memory,
            registers: image.registers(),
            writers: [NO_WRITER; 32],
            stations: [empty; PLACES],
            first_waiters: [0; PLACES],
            second_waiters: [0; PLACES],
            free: all_free,
            all_free,
            ready: [0; 5],
            unsent: 0,
            finishes: [0; 64],
            finish_cycles: 0,
            queue: [0; 32],
            head: 0,
            tail: 0,
            accesses: 0,
            pc: image.entry,
            cycle: 0,
            last_end: 0,
            issued: 0,
            waits_for_branch: false,
            has_stopped: false,
        }
    }

    /// Runs the program to its end; gives its cycles.
    fn run(&mut self) -> u64 {
        let mut was_active = true;
        while !self.has_stopped || self.free != self.all_free {
            self.cycle += 1;
            if !was_active {
                // After a cycle in which nothing happened nothing does before the next finish.
                let ahead = self.finish_cycles.rotate_right(self.cycle as u32 & 63);
                self.cycle += ahead.trailing_zeros() as u64;
            }
            was_active = self.make_cycle();
        }
        self.last_end
    }

    /// Makes a cycle; true if something happened in it. In this order no phase sees what another
    /// one does in the same cycle, except that an issue sees those before it.
    fn make_cycle(&mut self) -> bool {
        let started = self.start_ready();
        let computed = self.compute_address();
        let issued = self.issue();
        let sent = self.send_results();
        let finished = self.finish();
        started | computed | issued | sent | finished
    }

    fn arrive(&mut self, place: usize) {
        let station = &mut self.stations[place];
        station.missing -= 1;
        if station.missing == 0 {
            self.mark_ready(place);
        }
    }

    fn mark_ready(&mut self, place: usize) {
        const UNITS: [usize; 6] = [0, 1, 2, MEM, MEM, BRU];
        let unit = UNITS[place / 16];
        self.ready[unit] |= 1 << (place - FIRST_PLACES[unit]);
    }

    fn oldest(&self, set: u128) -> usize {
        members(set)
            .min_by_key(|place| self.stations[*place].order)
            .unwrap_or(0)
    }

    /// Starts what is ready, the oldest first if a kind of unit hasn't enough.
    fn start_ready(&mut self) -> bool {
        if self.ready == [0; 5] {
            return false;
        }
        for unit in 0..5 {
            let mut waiting = self.ready[unit];
            if waiting == 0 {
                continue;
            }
            let first_place = FIRST_PLACES[unit];
            let units = self.config.units(unit) as u32;
            if waiting.count_ones() <= units {
                while waiting != 0 {
                    self.start(first_place + waiting.trailing_zeros() as usize, unit);
                    waiting &= waiting - 1;
                }
            } else {
                for _ in 0..units {
                    let place = self.oldest((waiting as u128) << first_place);
                    waiting &= !(1 << (place - first_place));
                    self.start(place, unit);
                }
            }
            self.ready[unit] = waiting;
        }
        true
    }

    #[inline(always)]
    fn start(&mut self, place: usize, unit: usize) {
        let station = &mut self.stations[place];
        let (instruction, pc) = (station.instruction, station.pc);
        let operation = instruction.operation;
        if unit == MEM && place < FIRST_STORE {
            let loaded = self.memory.load(operation, station.address);
            station.result = loaded.expect(RUN_ENDED);
        } else if unit == MEM {
            let stored = self
                .memory
                .store(operation, station.address, station.second);
            stored.expect(RUN_ENDED);
        } else if unit == BRU {
            station.result = pc.wrapping_add(4);
            self.pc = instruction.target(pc, station.first, station.second);
        } else {
            station.result = instruction.compute(pc, station.first, station.second);
        }
        let finish = (self.cycle + self.config.latency(unit) - 1) as usize & 63;
        self.finishes[finish] |= 1 << place;
        self.finish_cycles |= 1 << finish;
    }

    /// Computes the address of the next access in program order, if its base is there.
    fn compute_address(&mut self) -> bool {
        if self.head == self.tail {
            return false;
        }
        let place = self.queue[self.head & 31] as usize;
        let station = &self.stations[place];
        if station.is_base_missing {
            return false;
        }
        self.head += 1;
        let Instruction {
            immediate, bytes, ..
        } = station.instruction;
        let address = station.first.wrapping_add(immediate as u32);
        let is_store = place >= FIRST_STORE;
        let older = self.accesses & if is_store { u32::MAX } else { STORES };
        let blockers = members(older as u128).fold(0, |blockers, access| {
            let other = &self.stations[FIRST_ACCESS + access];
            let overlaps = overlap(address, bytes, other.address, other.instruction.bytes);
            blockers | (overlaps as u32) << access
        });
        self.accesses |= 1 << (place - FIRST_ACCESS);
        let station = &mut self.stations[place];
        station.address = address;
        station.blockers = blockers;
        if blockers == 0 {
            self.arrive(place);
        }
        true
    }

    fn issue(&mut self) -> bool {
        let mut has_issued = false;
        for _ in 0..self.config.width() {
            if self.waits_for_branch || self.has_stopped || !self.issue_next() {
                break;
            }
            has_issued = true;
        }
        has_issued
    }

    /// Issues the next instruction, if a station of its pool is free.
    fn issue_next(&mut self) -> bool {
        let instruction = *self.image.fetch(self.pc).expect(RUN_ENDED);
        let Some(pool) = instruction.pool else {
            self.last_end = self.cycle;
            self.issued += 1;
            self.has_stopped = instruction.operation != Fence;
            self.pc = self.pc.wrapping_add(4);
            return true;
        };
        let free = self.free[pool as usize];
        if free == 0 {
            return false;
        }
        self.free[pool as usize] = free & (free - 1);
        self.issued += 1;
        self.fill(
            pool as usize * 16 + free.trailing_zeros() as usize,
            pool,
            instruction,
        );
        if pool == Pool::Bru {
            self.waits_for_branch = true;
        } else {
            let is_jump = instruction.operation == Jal;
            self.pc = self.pc.wrapping_add(if is_jump {
                instruction.immediate as u32
            } else {
                4
            });
        }
        true
    }

    fn fill(&mut self, place: usize, pool: Pool, instruction: Instruction) {
        let first_writer = self.writers[instruction.first as usize & 31] as usize;
        let second_writer = self.writers[instruction.second as usize & 31] as usize;
        let mut missing = 0;
        let is_base_missing = first_writer < PLACES;
        if is_base_missing {
            self.first_waiters[first_writer] |= 1 << place;
            missing += 1;
        }
        if second_writer < PLACES {
            self.second_waiters[second_writer] |= 1 << place;
            missing += 1;
        }
        if pool.is_memory() {
            self.queue[self.tail & 31] = place as u8;
            self.tail += 1;
            missing += 1;
        }
        self.stations[place] = Station {
            order: self.issued,
            first: self.registers.get(instruction.first),
            second: self.registers.get(instruction.second),
            missing,
            is_base_missing,
            ..Station::of(instruction, self.pc)
        };
        if instruction.destination != 0 {
            self.writers[instruction.destination as usize & 31] = place as u8;
        }
        if missing == 0 {
            self.mark_ready(place);
        }
    }

    /// Sends results that were there before this cycle, the oldest first if there are too few buses.
    fn send_results(&mut self) -> bool {
        if self.unsent == 0 {
            return false;
        }
        let buses = self.config.buses() as u32;
        if self.unsent.count_ones() <= buses {
            for place in members(std::mem::take(&mut self.unsent)) {
                self.send(place);
            }
        } else {
            for _ in 0..buses {
                let place = self.oldest(self.unsent);
                self.unsent &= !(1 << place);
                self.send(place);
            }
        }
        self.last_end = self.cycle;
        true
    }

    fn send(&mut self, place: usize) {
        let Station {
            result,
            instruction,
            ..
        } = self.stations[place];
        let writer = &mut self.writers[instruction.destination as usize & 31];
        if *writer == place as u8 {
            *writer = NO_WRITER;
            self.registers.set(instruction.destination, result);
        }
        for waiter in members(std::mem::take(&mut self.first_waiters[place])) {
            self.stations[waiter].first = result;
            self.stations[waiter].is_base_missing = false;
            self.arrive(waiter);
        }
        for waiter in members(std::mem::take(&mut self.second_waiters[place])) {
            self.stations[waiter].second = result;
            self.arrive(waiter);
        }
        self.free[place / 16] |= 1 << (place % 16);
    }

    /// Finishes what finishes in this cycle.
    fn finish(&mut self) -> bool {
        let now = self.cycle as usize & 63;
        if self.finish_cycles >> now & 1 == 0 {
            return false;
        }
        self.finish_cycles &= !(1 << now);
        for place in members(std::mem::take(&mut self.finishes[now])) {
            match place / 16 {
                3 | 4 => self.unblock(place),
                5 => self.waits_for_branch = false,
                _ => {}
            }
            if self.stations[place].instruction.destination != 0 {
                self.unsent |= 1 << place;
            } else {
                self.free[place / 16] |= 1 << (place % 16);
                self.last_end = self.cycle;
            }
        }
        true
    }

    /// An access has finished: it blocks none any more.
    fn unblock(&mut self, place: usize) {
        let bit = 1 << (place - FIRST_ACCESS);
        self.accesses &= !bit;
        for access in members(self.accesses as u128) {
            let other = &mut self.stations[FIRST_ACCESS + access];
            if other.blockers & bit != 0 {
                other.blockers &= !bit;
                if other.blockers == 0 {
                    self.arrive(FIRST_ACCESS + access);
                }
            }
        }
    }
}

/// Whether two ranges share a byte.
fn overlap(a: u32, a_bytes: u8, b: u32, b_bytes: u8) -> bool {
    let end = |from: u32, bytes: u8| from as u64 + bytes as u64;
    (a as u64) < end(b, b_bytes) && (b as u64) < end(a, a_bytes)
}

// ---------------------------------------------------------------------------- Steps and blocks

/// What the recurrence reads of a step.
#[derive(Clone, Copy)]
struct Step {
    pool: Option<Pool>,
    first: u8,
    second: u8,
    destination: u8,
}

/// What it reads of an access to memory.
#[derive(Clone, Copy)]
struct Access {
    address: u32,
    bytes: u8,
    is_store: bool,
}

impl Access {
    fn conflicts(&self, other: &Access) -> bool {
        (self.is_store || other.is_store)
            && overlap(self.address, self.bytes, other.address, other.bytes)
    }
}

/// A program's run: its steps in order, and of these the accesses.
#[derive(Default)]
struct Trace {
    steps: Vec<Step>,
    accesses: Vec<Access>,
}

impl Trace {
    fn push(&mut self, instruction: &Instruction, address: u32) {
        let Instruction {
            pool,
            first,
            second,
            destination,
            bytes,
            ..
        } = *instruction;
        self.steps.push(Step {
            pool,
            first,
            second,
            destination,
        });
        if pool.is_some_and(Pool::is_memory) {
            let is_store = pool == Some(Pool::Store);
            self.accesses.push(Access {
                address,
                bytes,
                is_store,
            });
        }
    }
}

/// How many accesses before a block its own are compared with. With four most programs are made of
/// a few different blocks, and most states can be kept.
const WINDOW: usize = 4;
/// A block ends with a branch, or after as many steps: its conflicts are bits of a word.
const LONGEST_BLOCK: usize = 64 - WINDOW;

/// A run cut into blocks. Two have one number if their steps are equal in all that the recurrence
/// reads but the bytes of accesses, and if each access conflicts with the same ones of those before
/// it, back to the window before the block.
struct Blocks {
    numbers: Vec<u32>,
    /// The first step and the first access of each block, and at the end those of none.
    starts: Vec<(usize, usize)>,
    different: usize,
}

impl Blocks {
    fn of(trace: &Trace) -> Blocks {
        let mut known: HashMap<Vec<u64>, u32, BuildHasherDefault<QuickHasher>> = HashMap::default();
        let mut blocks = Blocks {
            numbers: vec![],
            starts: vec![(0, 0)],
            different: 0,
        };
        let mut key = vec![];
        let (mut step, mut access) = (0, 0);
        while step < trace.steps.len() {
            key.clear();
            (step, access) = push_block(trace, step, access, &mut key);
            blocks.starts.push((step, access));
            let number = known.get(&key).copied().unwrap_or_else(|| {
                let number = known.len() as u32;
                known.insert(key.clone(), number);
                number
            });
            blocks.numbers.push(number);
        }
        blocks.different = known.len();
        blocks
    }
}

/// Pushes all by which blocks are compared of the one at these steps; gives the places after it.
fn push_block(trace: &Trace, from: usize, access: usize, key: &mut Vec<u64>) -> (usize, usize) {
    let window = access.saturating_sub(WINDOW);
    let mut access = access;
    let longest = trace.steps[from..].iter().take(LONGEST_BLOCK);
    for (count, step) in longest.enumerate() {
        let pool = step.pool.map_or(6, |pool| pool as u8);
        key.push(u32::from_le_bytes([pool, step.first, step.second, step.destination]) as u64);
        if step.pool.is_some_and(Pool::is_memory) {
            let this = &trace.accesses[access];
            let older = &trace.accesses[window..access];
            let push_bit = |bits, other: &Access| bits << 1 | other.conflicts(this) as u64;
            key.push(older.iter().fold(0, push_bit));
            access += 1;
        }
        if step.pool == Some(Pool::Bru) {
            return (from + count + 1, access);
        }
    }
    ((from + LONGEST_BLOCK).min(trace.steps.len()), access)
}

/// A quick hash of words. Nobody chooses keys that collide, and a run has thousands of blocks.
#[derive(Default)]
struct QuickHasher(u64);

impl Hasher for QuickHasher {
    fn write(&mut self, bytes: &[u8]) {
        for word in bytes.chunks_exact(8) {
            self.write_u64(u64::from_le_bytes(word.try_into().unwrap()));
        }
    }

    fn write_u64(&mut self, word: u64) {
        self.0 = (self.0.rotate_left(5) ^ word).wrapping_mul(0x517c_c1b7_2722_0a95);
    }

    fn write_usize(&mut self, word: usize) {
        self.write_u64(word as u64);
    }

    fn finish(&self) -> u64 {
        self.0
    }
}

// ---------------------------------------------------------------------------- The recurrence

/// Of each part whether a run waited for it, and the most of it that were in use at once; and which
/// kinds of units it used.
#[derive(Clone, Default, PartialEq)]
struct Demands {
    is_awaited: [bool; PARTS],
    peaks: [u8; PARTS],
    is_used: [bool; 5],
}

impl Demands {
    fn note(&mut self, part: usize, waited: bool, in_use: u8) {
        self.is_awaited[part] |= waited;
        self.peaks[part] = self.peaks[part].max(in_use);
    }
}

/// A step's cycles, and its station.
struct Times {
    issue: u64,
    address: Option<u64>,
    start: u64,
    finish: u64,
    end: u64,
    station: Option<(Pool, usize)>,
}

impl Times {
    /// Of a step that only issues.
    fn all_at(cycle: u64) -> Times {
        Times {
            issue: cycle,
            address: None,
            start: cycle,
            finish: cycle,
            end: cycle,
            station: None,
        }
    }
}

/// What the recurrence has to know of the steps so far. All times are cycles.
struct State {
    /// Of each cycle from `first_cycle` on: how many operations of each kind start, and how many
    /// results are sent. Eight bytes, so that a state is compared by words.
    reserved: Vec<[u8; 8]>,
    first_cycle: u64,
    /// The end of each register's youngest writer, and of each station's last instruction.
    results: [u64; 32],
    stations: [[u64; 16]; 6],
    issue: u64,
    /// How many have issued in that cycle.
    issued: u8,
    address: u64,
    branch_finish: u64,
    last_end: u64,
    /// Accesses that may not have finished: their numbers and finishes; and how many there were.
    under_way: Vec<(usize, u64)>,
    accesses: usize,
}

impl State {
    fn new() -> State {
        State {
            reserved: vec![],
            first_cycle: 0,
            results: [0; 32],
            stations: [[0; 16]; 6],
            issue: 0,
            issued: 0,
            address: 0,
            branch_finish: 0,
            last_end: 0,
            under_way: vec![],
            accesses: 0,
        }
    }

    /// Becomes a copy, in the memory that it has.
    fn copy_from(&mut self, other: &State) {
        let mut reserved = std::mem::take(&mut self.reserved);
        reserved.clone_from(&other.reserved);
        let mut under_way = std::mem::take(&mut self.under_way);
        under_way.clone_from(&other.under_way);
        *self = State {
            reserved,
            under_way,
            ..*other
        };
    }

    fn clear(&mut self) {
        self.reserved.clear();
        self.under_way.clear();
        let (reserved, under_way) = (
            std::mem::take(&mut self.reserved),
            std::mem::take(&mut self.under_way),
        );
        *self = State {
            reserved,
            under_way,
            ..State::new()
        };
    }

    /// The first cycle in which the next step may issue.
    fn next_issue(&self, config: &Configuration) -> u64 {
        let by_width = self.issue + (self.issued >= config.width()) as u64;
        by_width.max(self.branch_finish + 1)
    }

    /// Times the next step, and notes what it demands.
    #[inline(always)]
    fn step(
        &mut self,
        step: &Step,
        accesses: &[Access],
        config: &Configuration,
        demands: &mut Demands,
    ) -> Times {
        let earliest = self.next_issue(config);
        let by_width = earliest > self.issue.max(self.branch_finish + 1);
        let Some(pool) = step.pool else {
            self.issue_at(earliest, by_width, demands);
            self.last_end = self.last_end.max(earliest);
            return Times::all_at(earliest);
        };
        let (issue, station) = self.find_station(pool, earliest, config, demands);
        self.issue_at(issue, by_width, demands);
        let operands = self.result(step.first).max(self.result(step.second));
        let mut before = issue.max(operands);
        if pool.is_memory() {
            before = before.max(self.access(issue, step.first, accesses));
        }
        let unit = pool.unit();
        demands.is_used[unit] = true;
        let start = self.reserve(unit, config.units(unit), before + 1, demands);
        let finish = start + config.latency(unit) - 1;
        self.note_finish(pool, finish);
        let end = self.send(step.destination, finish, config, demands);
        self.stations[pool as usize][station] = end;
        self.last_end = self.last_end.max(end);
        Times {
            issue,
            address: pool.is_memory().then_some(self.address),
            start,
            finish,
            end,
            station: Some((pool, station)),
        }
    }

    fn result(&self, register: u8) -> u64 {
        self.results[register as usize & 31]
    }

    /// The first cycle in which a station of the pool is free, and the least number of one.
    fn find_station(
        &self,
        pool: Pool,
        earliest: u64,
        config: &Configuration,
        demands: &mut Demands,
    ) -> (u64, usize) {
        let ends = &self.stations[pool as usize][..config.stations(pool)];
        let first_free = ends.iter().fold(u64::MAX, |least, end| least.min(*end)) + 1;
        let issue = earliest.max(first_free);
        let station = ends.iter().take_while(|end| **end >= issue).count();
        demands.note(pool as usize, first_free > earliest, station as u8 + 1);
        (issue, station)
    }

    /// Notes an issue, and whether the width put it off.
    fn issue_at(&mut self, cycle: u64, by_width: bool, demands: &mut Demands) {
        self.issued = if cycle == self.issue {
            self.issued + 1
        } else {
            1
        };
        self.issue = cycle;
        demands.note(WIDTH, by_width, self.issued);
        if cycle - self.first_cycle >= 512 {
            self.forget_before(cycle);
        }
    }

    /// Times the address of the next access; gives the cycle after which it may access memory.
    fn access(&mut self, issue: u64, base: u8, accesses: &[Access]) -> u64 {
        let address = issue.max(self.result(base)).max(self.address) + 1;
        self.address = address;
        // An access starts after its address: what has finished by then holds no later one.
        self.under_way.retain(|(_, finish)| *finish > address);
        let this = &accesses[self.accesses];
        let mut after = address;
        for (number, finish) in &self.under_way {
            if accesses[*number].conflicts(this) {
                after = after.max(*finish);
            }
        }
        after
    }

    /// Notes a finish that later steps may wait for: that of a branch or an access.
    fn note_finish(&mut self, pool: Pool, finish: u64) {
        if pool.is_memory() {
            self.under_way.push((self.accesses, finish));
            self.accesses += 1;
        } else if pool == Pool::Bru {
            self.branch_finish = finish;
        }
    }

    /// Times a step's end: the cycle in which its result has a bus, if it has one.
    fn send(
        &mut self,
        destination: u8,
        finish: u64,
        config: &Configuration,
        demands: &mut Demands,
    ) -> u64 {
        if destination == 0 {
            return finish;
        }
        let end = self.reserve(BUSES - UNIT_PARTS, config.buses(), finish + 1, demands);
        self.results[destination as usize & 31] = end;
        end
    }

    /// Takes one of the units of a kind, or of the buses, in the first cycle in which one is left.
    #[inline(always)]
    fn reserve(&mut self, line: usize, count: u8, earliest: u64, demands: &mut Demands) -> u64 {
        let mut cycle = earliest;
        loop {
            let place = (cycle - self.first_cycle) as usize;
            if place >= self.reserved.len() {
                self.reserved.resize(place + 64, [0; 8]);
            }
            let taken = &mut self.reserved[place][line];
            if *taken < count {
                *taken += 1;
                demands.note(UNIT_PARTS + line, cycle > earliest, *taken);
                return cycle;
            }
            cycle += 1;
        }
    }

    /// Goes to a later place of the run, before which there were that many accesses: what is
    /// under way is as far back there.
    fn move_to(&mut self, accesses: usize) {
        for (number, _) in &mut self.under_way {
            *number += accesses - self.accesses;
        }
        self.accesses = accesses;
    }

    /// No step will start or end before this cycle.
    fn forget_before(&mut self, cycle: u64) {
        let places = (cycle - self.first_cycle) as usize;
        self.reserved.drain(..places.min(self.reserved.len()));
        self.first_cycle = cycle;
    }

    fn reserved_in(&self, cycle: u64) -> [u8; 8] {
        let place = (cycle - self.first_cycle) as usize;
        self.reserved.get(place).copied().unwrap_or_default()
    }
}

/// A state's times relative to the next issue; what is over by then is 0.
struct Relative<'a> {
    state: &'a State,
    config: &'a Configuration,
    next: u64,
}

impl<'a> Relative<'a> {
    fn of(state: &'a State, config: &'a Configuration) -> Relative<'a> {
        Relative {
            state,
            config,
            next: state.next_issue(config),
        }
    }

    /// How many cycles are ahead in which something ends.
    fn ahead(&self) -> u64 {
        (self.state.last_end + 1).saturating_sub(self.next)
    }

    fn after(&self, cycle: u64) -> u64 {
        cycle.saturating_sub(self.next)
    }

    /// Of the next issue: how many have issued in its cycle, and whether the width holds it.
    fn width(&self) -> (u8, bool) {
        let State {
            issue,
            issued,
            branch_finish,
            ..
        } = *self.state;
        let is_held = self.next > issue.max(branch_finish + 1);
        (if self.next == issue { issued } else { 0 }, is_held)
    }

    /// The accesses that a later one may have to wait for: how far back each is, and its finish.
    fn accesses(&self) -> impl Iterator<Item = (usize, u64)> + '_ {
        // The next address is computed after the next issue and the last address, and what it
        // accesses is accessed after that.
        let first_access = self.next.max(self.state.address) + 2;
        let under_way = self.state.under_way.iter();
        under_way
            .filter(move |(_, finish)| *finish >= first_access)
            .map(|(number, finish)| (self.state.accesses - number, finish - self.next))
    }

    /// Whether later steps can see no difference between two states, apart from their cycles.
    fn looks_like(&self, other: &Relative) -> bool {
        let (a, b) = (self.state, other.state);
        let same = |x: u64, y: u64| self.after(x) == other.after(y);
        let are_ends_same = |pool: usize| {
            let count = self.config.fields[pool] as usize;
            let ends = a.stations[pool][..count]
                .iter()
                .zip(&b.stations[pool][..count]);
            ends.into_iter().all(|(x, y)| same(*x + 1, *y + 1))
        };
        self.ahead() == other.ahead()
            && same(a.address, b.address)
            && self.width() == other.width()
            && (1..32).all(|register| same(a.results[register], b.results[register]))
            && (0..6).all(are_ends_same)
            && (1..self.ahead())
                .all(|k| a.reserved_in(self.next + k) == b.reserved_in(other.next + k))
            && self.accesses().eq(other.accesses())
    }

    /// A state isn't kept if a block doesn't show all conflicts with what is under way, or if it
    /// reaches far ahead: it would take long to compare, and hardly come again.
    fn can_be_kept(&self) -> bool {
        self.ahead() <= 257 && self.accesses().all(|(back, _)| back <= WINDOW)
    }
}

// ---------------------------------------------------------------------------- Blocks evaluated once

/// A program's run as all configurations share it.
struct Run {
    end: End,
    trace: Trace,
    blocks: Blocks,
}

impl Run {
    fn of(program: &Program) -> Result<Run, Refusal> {
        let mut trace = Trace::default();
        let end = run_in_order(&program.image, program.limit, |instruction, _, address| {
            trace.push(instruction, address)
        })?;
        let blocks = Blocks::of(&trace);
        Ok(Run { end, trace, blocks })
    }

    fn all(study: &Study) -> Result<Vec<Run>, Refusal> {
        study.programs.iter().map(Run::of).collect()
    }
}

/// Whether it pays to look for states: a block that is known adds 1, one that is evaluated takes 2.
/// Without credit there is a pause of some blocks, and the next one is four times as long: on a
/// machine with long latencies it may be that no state ever comes back.
struct Credit {
    left: i64,
    pause: u64,
    next_pause: u64,
}

impl Credit {
    const FULL: i64 = 64;
    const MOST: i64 = 1000;
    const FIRST_PAUSE: u64 = 64;

    fn new() -> Credit {
        Credit {
            left: Credit::FULL,
            pause: 0,
            next_pause: Credit::FIRST_PAUSE,
        }
    }

    fn add(&mut self, blocks: usize) {
        self.left = (self.left + blocks as i64).min(Credit::MOST);
    }

    /// A block was evaluated: whether its last state is to be looked for.
    fn spend(&mut self) -> bool {
        self.pause = self.pause.saturating_sub(1);
        if self.pause == 0 {
            self.left -= 2;
        }
        self.pause == 0
    }

    fn pause_if_spent(&mut self) {
        if self.left <= 0 {
            self.left = Credit::FULL;
            self.pause = self.next_pause;
            self.next_pause *= 4;
        }
    }
}

/// What a block does to a state: it leads to a kept one after some cycles.
#[derive(Clone, Copy)]
enum Passage {
    Unknown,
    Known { state: u8, cycles: u32 },
}

const MOST_STATES: usize = 32;

/// Evaluates a program's run on one configuration after the other.
struct Evaluator<'a> {
    run: &'a Run,
    /// The state before the next block, if `is_exact`; else that looks like the kept one `current`.
    state: State,
    is_exact: bool,
    current: Option<usize>,
    /// The cycle of the next issue.
    time: u64,
    demands: Demands,
    /// The first `kept_count` are the kept states; the others are memory to use again.
    kept: Vec<State>,
    kept_count: usize,
    /// Of each kept state a row, with a passage for each different block.
    passages: Vec<Passage>,
    credit: Credit,
}

impl<'a> Evaluator<'a> {
    fn new(run: &'a Run) -> Evaluator<'a> {
        Evaluator {
            run,
            state: State::new(),
            is_exact: true,
            current: None,
            time: 0,
            demands: Demands::default(),
            kept: vec![],
            kept_count: 0,
            passages: vec![],
            credit: Credit::new(),
        }
    }

    /// The cycles of the run on a configuration, and what it demands. A block that is known demands
    /// nothing new: it was evaluated from a state that looks the same, on this configuration.
    fn evaluate(&mut self, config: &Configuration) -> (u64, Demands) {
        self.begin(config);
        let blocks = self.run.blocks.numbers.len();
        let mut block = self.pass_known(0);
        while block < blocks {
            self.evaluate_block(block, config);
            block = self.pass_known(block + 1);
        }
        let last = match self.current {
            Some(current) if !self.is_exact => &self.kept[current],
            _ => &self.state,
        };
        let cycles = self.time + last.last_end - last.next_issue(config);
        (cycles, self.demands.clone())
    }

    /// The same without blocks.
    fn evaluate_steps(&mut self, config: &Configuration) -> (u64, Demands) {
        let Run { trace, .. } = self.run;
        let mut demands = Demands::default();
        self.state.clear();
        for step in &trace.steps {
            self.state.step(step, &trace.accesses, config, &mut demands);
        }
        (self.state.last_end, demands)
    }

    /// Forgets the last configuration.
    fn begin(&mut self, config: &Configuration) {
        self.state.clear();
        self.is_exact = true;
        self.time = self.state.next_issue(config);
        self.demands = Demands::default();
        self.credit = Credit::new();
        self.forget();
        self.current = self.keep(config);
    }

    fn forget(&mut self) {
        self.kept_count = 0;
        self.passages.clear();
    }

    /// Goes on over the blocks that are known; gives the first that isn't.
    fn pass_known(&mut self, from: usize) -> usize {
        let (Some(mut current), 0) = (self.current, self.credit.pause) else {
            return from;
        };
        let Blocks {
            numbers, different, ..
        } = &self.run.blocks;
        let mut block = from;
        while let Some(number) = numbers.get(block) {
            let Passage::Known { state, cycles } =
                self.passages[current * different + *number as usize]
            else {
                break;
            };
            current = state as usize;
            self.time += cycles as u64;
            block += 1;
        }
        if block > from {
            self.current = Some(current);
            self.is_exact = false;
            self.credit.add(block - from);
        }
        block
    }

    /// Evaluates a block, and notes where it leads.
    fn evaluate_block(&mut self, block: usize, config: &Configuration) {
        let Run { trace, blocks, .. } = self.run;
        let (first_step, first_access) = blocks.starts[block];
        let (end_step, _) = blocks.starts[block + 1];
        let from = self.current.take();
        if let (Some(from), false) = (from, self.is_exact) {
            self.state.copy_from(&self.kept[from]);
            self.state.move_to(first_access);
            self.is_exact = true;
        }
        let before = self.state.next_issue(config);
        let (state, demands) = (&mut self.state, &mut self.demands);
        for step in &trace.steps[first_step..end_step] {
            state.step(step, &trace.accesses, config, demands);
        }
        let cycles = self.state.next_issue(config) - before;
        self.time += cycles;
        if self.credit.spend() {
            self.current = self.keep(config);
            if let (Some(from), Some(to)) = (from, self.current) {
                let (state, cycles) = (to as u8, cycles as u32);
                let place = from * blocks.different + blocks.numbers[block] as usize;
                self.passages[place] = Passage::Known { state, cycles };
            }
            self.credit.pause_if_spent();
        }
    }

    /// The kept state that looks like this one; if there is none, this one is kept.
    fn keep(&mut self, config: &Configuration) -> Option<usize> {
        let now = Relative::of(&self.state, config);
        if !now.can_be_kept() {
            return None;
        }
        let looks_same = |kept: &State| Relative::of(kept, config).looks_like(&now);
        if let Some(known) = self.kept[..self.kept_count].iter().position(looks_same) {
            return Some(known);
        }
        if self.kept_count == MOST_STATES {
            self.forget();
            self.credit.left = 0;
            return None;
        }
        let next = now.next;
        self.state.forget_before(next);
        if self.kept_count == self.kept.len() {
            self.kept.push(State::new());
        }
        self.kept[self.kept_count].copy_from(&self.state);
        self.kept_count += 1;
        let places = self.kept_count * self.run.blocks.different;
        self.passages.resize(places, Passage::Unknown);
        Some(self.kept_count - 1)
    }
}

// ---------------------------------------------------------------------------- Plateaus

/// Configurations on which a run takes the same cycles: each field is at least so much, and at most
/// by its span more.
struct Plateau {
    least: [u8; FIELDS],
    spans: [u8; FIELDS],
    cycles: u64,
}

impl Plateau {
    /// What a run waited for has to be the same, and of what it didn't its peak is enough. The
    /// latency of units that it doesn't use may be any.
    fn of(config: &Configuration, cycles: u64, demands: &Demands) -> Plateau {
        let mut plateau = Plateau {
            least: config.fields,
            spans: [0; FIELDS],
            cycles,
        };
        for part in 0..PARTS {
            if !demands.is_awaited[part] {
                plateau.least[part] = demands.peaks[part];
                plateau.spans[part] = u8::MAX - demands.peaks[part];
            }
        }
        for unit in 0..5 {
            if !demands.is_used[unit] {
                plateau.least[PARTS + unit] = 0;
                plateau.spans[PARTS + unit] = u8::MAX;
            }
        }
        plateau
    }

    /// Compares all fields at once: a loop that stops at the first wouldn't be made of vectors.
    fn has(&self, config: &Configuration) -> bool {
        let fits = |field: usize| {
            config.fields[field].wrapping_sub(self.least[field]) <= self.spans[field]
        };
        (0..FIELDS).fold(true, |all, field| all & fits(field))
    }
}

/// Plateaus on which the same fields have one value each, found by these values in a table of their places.
struct Group {
    /// All bits of a field that has one value, none of the others.
    mask: [u8; FIELDS],
    slots: Vec<u32>,
    count: usize,
}

/// No place.
const EMPTY: u32 = u32::MAX;

impl Group {
    fn new(mask: [u8; FIELDS]) -> Group {
        Group {
            mask,
            slots: vec![EMPTY; 16],
            count: 0,
        }
    }

    /// The slot at which the search for a configuration begins.
    fn first_slot(&self, fields: &[u8; FIELDS]) -> usize {
        let mut words = [0u64; 3];
        for (place, (field, mask)) in fields.iter().zip(&self.mask).enumerate() {
            words[place / 8] |= u64::from(field & mask) << (8 * (place % 8));
        }
        let sum = words[0].wrapping_mul(0x9e37_79b9_7f4a_7c15)
            ^ words[1].wrapping_mul(0xc2b2_ae3d_27d4_eb4f).rotate_left(32)
            ^ words[2].wrapping_mul(0x1656_67b1_9e37_79f9);
        (sum.wrapping_mul(0x9e37_79b9_7f4a_7c15) >> 40) as usize & (self.slots.len() - 1)
    }

    fn find(&self, plateaus: &[Plateau], config: &Configuration) -> Option<usize> {
        let mut slot = self.first_slot(&config.fields);
        while self.slots[slot] != EMPTY {
            let place = self.slots[slot] as usize;
            if plateaus[place].has(config) {
                return Some(place);
            }
            slot = (slot + 1) & (self.slots.len() - 1);
        }
        None
    }

    fn add(&mut self, plateaus: &[Plateau], place: usize) {
        self.count += 1;
        if 2 * self.count > self.slots.len() {
            let twice = vec![EMPTY; 2 * self.slots.len()];
            for place in std::mem::replace(&mut self.slots, twice) {
                if place != EMPTY {
                    self.put(plateaus, place as usize);
                }
            }
        }
        self.put(plateaus, place);
    }

    fn put(&mut self, plateaus: &[Plateau], place: usize) {
        let mut slot = self.first_slot(&plateaus[place].least);
        while self.slots[slot] != EMPTY {
            slot = (slot + 1) & (self.slots.len() - 1);
        }
        self.slots[slot] = place as u32;
    }
}

/// The answers to so many rows before are tried first: in a grid the one so far back often has most choices of the next
/// row.
const HINTS: usize = 64;

/// What a worker knows of a program.
struct Knowledge<'a> {
    evaluator: Evaluator<'a>,
    plateaus: Vec<Plateau>,
    groups: Vec<Group>,
    /// The places of the last answers.
    hints: [usize; HINTS],
    asked: usize,
}

impl<'a> Knowledge<'a> {
    fn new(run: &'a Run) -> Knowledge<'a> {
        Knowledge {
            evaluator: Evaluator::new(run),
            plateaus: vec![],
            groups: vec![],
            hints: [0; HINTS],
            asked: 0,
        }
    }

    /// The place of a plateau on which a configuration lies. Groups that have one move forward.
    fn find(&mut self, config: &Configuration) -> Option<usize> {
        let now = self.asked % HINTS;
        for hint in [self.hints[(now + HINTS - 1) % HINTS], self.hints[now]] {
            if self.plateaus.get(hint).is_some_and(|it| it.has(config)) {
                return Some(hint);
            }
        }
        for group in 0..self.groups.len() {
            if let Some(place) = self.groups[group].find(&self.plateaus, config) {
                self.groups.swap(group, group / 2);
                return Some(place);
            }
        }
        None
    }

    fn learn(&mut self, config: &Configuration) -> usize {
        let (cycles, demands) = self.evaluator.evaluate(config);
        let plateau = Plateau::of(config, cycles, &demands);
        let mask = plateau
            .spans
            .map(|span| if span == 0 { u8::MAX } else { 0 });
        let place = self.plateaus.len();
        self.plateaus.push(plateau);
        let group = self.groups.iter().position(|group| group.mask == mask);
        let group = group.unwrap_or_else(|| {
            self.groups.push(Group::new(mask));
            self.groups.len() - 1
        });
        self.groups[group].add(&self.plateaus, place);
        place
    }

    fn cycles(&mut self, config: &Configuration) -> u64 {
        let place = match self.find(config) {
            Some(place) => place,
            None => self.learn(config),
        };
        self.hints[self.asked % HINTS] = place;
        self.asked += 1;
        self.plateaus[place].cycles
    }
}

// ---------------------------------------------------------------------------- All rows

/// The cycles of each program on each row, row by row.
struct Survey(Vec<u64>);

/// Fills a survey by workers, each of which takes the next few rows that nobody has. `new_worker`
/// makes what finds the cycles of a program, by its number, on a configuration.
fn survey<F>(
    rows: &[Configuration],
    programs: usize,
    workers: usize,
    new_worker: impl Fn() -> F + Sync,
) -> Survey
where
    F: FnMut(usize, &Configuration) -> u64,
{
    const ROWS_AT_ONCE: usize = 4;
    let mut totals = vec![0; rows.len() * programs];
    let stretches = totals
        .chunks_mut(ROWS_AT_ONCE * programs)
        .zip(rows.chunks(ROWS_AT_ONCE));
    let stretches = Mutex::new(stretches);
    let work = || {
        let mut cycles_of = new_worker();
        loop {
            let stretch = stretches.lock().expect("no worker panics").next();
            let Some((totals, rows)) = stretch else {
                return;
            };
            for (totals, row) in totals.chunks_mut(programs).zip(rows) {
                for (program, total) in totals.iter_mut().enumerate() {
                    *total = cycles_of(program, row);
                }
            }
        }
    };
    std::thread::scope(|scope| {
        for _ in 1..workers {
            scope.spawn(work);
        }
        work();
    });
    Survey(totals)
}

/// Of these rows, by the machine that goes cycle by cycle.
fn survey_by_machine(study: &Study, rows: &[Configuration], workers: usize) -> Survey {
    survey(rows, study.programs.len(), workers, || {
        let images = study.programs.iter().map(|program| &program.image);
        let mut memories: Vec<(&Image, Memory)> =
            images.map(|image| (image, image.memory.clone())).collect();
        move |program, config| {
            let (image, memory) = &mut memories[program];
            Machine::new(image, memory, config).run()
        }
    })
}

/// By the recurrence, shared between rows.
fn survey_by_recurrence(study: &Study, runs: &[Run], workers: usize) -> Survey {
    survey(&study.rows, runs.len(), workers, || {
        let mut knowledge: Vec<Knowledge> = runs.iter().map(Knowledge::new).collect();
        move |program, config| knowledge[program].cycles(config)
    })
}

impl Survey {
    /// The cycles of all programs on each row, each times its weight.
    fn cycles(&self, study: &Study) -> Vec<u64> {
        let weights: Vec<u64> = study
            .programs
            .iter()
            .map(|program| program.weight)
            .collect();
        let weighted = |totals: &[u64]| {
            let products = weights
                .iter()
                .zip(totals)
                .map(|(weight, total)| weight * total);
            products.sum()
        };
        self.0.chunks(weights.len()).map(weighted).collect()
    }
}

/// The rows that no other one dominates, by cost and then number.
fn front(rows: &[Configuration], cycles: &[u64]) -> Vec<usize> {
    let mut order: Vec<usize> = (0..rows.len()).collect();
    order.sort_unstable_by_key(|row| (rows[*row].cost, cycles[*row], *row));
    let mut front: Vec<usize> = vec![];
    for row in order {
        let is_on = front.last().is_none_or(|last| {
            let is_equal = cycles[row] == cycles[*last] && rows[row].cost == rows[*last].cost;
            cycles[row] < cycles[*last] || is_equal
        });
        if is_on {
            front.push(row);
        }
    }
    front
}

/// True if the middle one of three points, by rising cost, is above the line from the first to the last.
fn is_above(first: (u64, u64), middle: (u64, u64), last: (u64, u64)) -> bool {
    let cost = |from: (u64, u64), to: (u64, u64)| i128::from(to.0) - i128::from(from.0);
    let cycles = |from: (u64, u64), to: (u64, u64)| i128::from(to.1) - i128::from(from.1);
    cycles(first, middle) * cost(first, last) > cycles(first, last) * cost(first, middle)
}

/// Cost and cycles of the rows of the front that no mix of two others beats.
fn hull(front: &[usize], rows: &[Configuration], cycles: &[u64]) -> Vec<(u64, u64)> {
    let mut hull: Vec<(u64, u64)> = vec![];
    for row in front {
        let point = (rows[*row].cost, cycles[*row]);
        if hull.last() == Some(&point) {
            continue;
        }
        while hull.len() > 1 && is_above(hull[hull.len() - 2], hull[hull.len() - 1], point) {
            hull.pop();
        }
        hull.push(point);
    }
    hull
}

// ---------------------------------------------------------------------------- Reports

/// A record that is made without growing: each field ends with a comma, which the end of a record replaces.
struct Line {
    bytes: [u8; Line::MOST],
    length: usize,
}

impl Line {
    /// More than the numbers of a row, or a step, take. Lengths are cut to it, so that no bound needs a test.
    const MOST: usize = 512;

    fn new() -> Line {
        Line {
            bytes: [0; Line::MOST],
            length: 0,
        }
    }

    #[inline(always)]
    fn push(&mut self, byte: u8) {
        self.bytes[self.length % Line::MOST] = byte;
        self.length += 1;
    }

    fn text(&mut self, text: &[u8]) {
        self.bytes[self.length..self.length + text.len()].copy_from_slice(text);
        self.length += text.len();
    }

    /// A number below 100.
    #[inline(always)]
    fn small(&mut self, number: u8) {
        if number >= 10 {
            self.push(b'0' + number / 10);
        }
        self.push(b'0' + number % 10);
        self.push(b',');
    }

    #[inline(always)]
    fn number(&mut self, number: u64) {
        let mut digits = 1;
        let mut rest = number;
        while rest >= 10 {
            rest /= 10;
            digits += 1;
        }
        let mut place = self.length + digits;
        self.length = place;
        rest = number;
        for _ in 0..digits {
            place -= 1;
            self.bytes[place % Line::MOST] = b'0' + (rest % 10) as u8;
            rest /= 10;
        }
        self.push(b',');
    }

    fn row(&mut self, study: &Study, row: usize, cycles: u64) {
        let config = &study.rows[row];
        self.number(row as u64);
        self.number(config.cost);
        self.number(cycles);
        for stations in &config.fields[..UNIT_PARTS] {
            self.small(*stations);
        }
        for unit in 0..5 {
            self.small(config.fields[UNIT_PARTS + unit]);
            self.small(config.fields[PARTS + unit]);
        }
        self.number(config.buses() as u64);
        if study.is_wide {
            self.number(config.width() as u64);
        }
    }

    fn times(&mut self, times: &Times) {
        self.number(times.issue);
        match times.address {
            Some(address) => self.number(address),
            None => self.text(b"-,"),
        }
        self.number(times.start);
        self.number(times.finish);
        self.number(times.end);
        match times.station {
            Some((pool, number)) => {
                self.text(POOL_NAMES[pool as usize].as_bytes());
                self.number(number as u64);
            }
            None => self.text(b"-,"),
        }
    }

    /// The record.
    fn ended(&mut self) -> &[u8] {
        self.bytes[self.length - 1] = b'\n';
        &self.bytes[..self.length]
    }
}

/// A text of CSV: each field ends with a comma, which the end of a record replaces.
struct Report(Vec<u8>);

impl Report {
    fn number(&mut self, number: u64) {
        let mut digits = [0; 20];
        let (mut first, mut rest) = (digits.len(), number);
        loop {
            first -= 1;
            digits[first] = b'0' + (rest % 10) as u8;
            rest /= 10;
            if rest == 0 {
                break;
            }
        }
        self.0.extend_from_slice(&digits[first..]);
        self.0.push(b',');
    }

    fn text(&mut self, text: &str) {
        let quotes = if text.contains(',') { "\"" } else { "" };
        for part in [quotes, text, quotes, ","] {
            self.0.extend_from_slice(part.as_bytes());
        }
    }

    fn texts(&mut self, texts: &[&str]) {
        for text in texts {
            self.text(text);
        }
    }

    fn end_record(&mut self) {
        self.0.pop();
        self.0.push(b'\n');
    }

    /// A report that begins with the columns of a configuration.
    fn of_rows(study: &Study) -> Report {
        let mut report = Report(vec![]);
        report.texts(&["row", "cost", "cycles"]);
        report.texts(&POOL_NAMES);
        for name in UNIT_NAMES {
            report.text(&format!("{name}_units"));
            report.text(&format!("{name}_latency"));
        }
        report.text("buses");
        if study.is_wide {
            report.text("width");
        }
        report
    }

    fn row(&mut self, study: &Study, row: usize, cycles: u64) {
        let mut line = Line::new();
        line.row(study, row, cycles);
        self.0.extend_from_slice(&line.bytes[..line.length]);
    }

    fn end_of_program(&mut self, program: &Program, end: &End) {
        self.text(end_name(end));
        let registers = end
            .registers
            .0
            .iter()
            .enumerate()
            .filter(|(_, value)| **value != 0);
        self.words(registers.map(|(number, value)| format!("x{number}={value:08x}")));
        self.words(program.watch.iter().map(|(address, length)| {
            let bytes = end.memory.get(*address, *length).unwrap_or_default();
            let digits: String = bytes.iter().map(|byte| format!("{byte:02x}")).collect();
            format!("{address:08x}:{digits}")
        }));
    }

    /// A field of words, `-` if there are none.
    fn words(&mut self, words: impl Iterator<Item = String>) {
        let text = words.collect::<Vec<_>>().join(" ");
        self.text(if text.is_empty() { "-" } else { &text });
    }
}

fn end_name(end: &End) -> &'static str {
    if end.operation == Ecall {
        "ecall"
    } else {
        "ebreak"
    }
}

/// A report of the front. `again` makes the survey of its rows, in their order.
fn front_report(
    study: &Study,
    ends: &[End],
    survey: &Survey,
    again: impl Fn(&[Configuration]) -> Option<Survey>,
) -> Vec<u8> {
    let cycles = survey.cycles(study);
    let front = front(&study.rows, &cycles);
    let rows: Vec<Configuration> = front.iter().map(|row| study.rows[*row]).collect();
    let again = again(&rows);
    let mut report = Report::of_rows(study);
    report.text("program");
    if study.is_wide {
        report.text("weight");
    }
    report.texts(&["steps", "program_cycles", "end", "regs", "watch"]);
    report.end_record();
    for (place, row) in front.into_iter().enumerate() {
        for (index, program) in study.programs.iter().enumerate() {
            let total = match &again {
                Some(again) => again.0[place * study.programs.len() + index],
                None => survey.0[row * study.programs.len() + index],
            };
            report.row(study, row, cycles[row]);
            report.text(&program.name);
            if study.is_wide {
                report.number(program.weight);
            }
            report.number(ends[index].steps as u64);
            report.number(total);
            report.end_of_program(program, &ends[index]);
            report.end_record();
        }
    }
    report.0
}

fn rows_report(study: &Study, survey: &Survey) -> Vec<u8> {
    let cycles = survey.cycles(study);
    let front = front(&study.rows, &cycles);
    let hull = hull(&front, &study.rows, &cycles);
    let mut is_on_front = vec![false; study.rows.len()];
    let mut is_on_hull = vec![false; study.rows.len()];
    for row in front {
        let point = (study.rows[row].cost, cycles[row]);
        is_on_front[row] = true;
        is_on_hull[row] = hull
            .binary_search_by_key(&point.0, |on| on.0)
            .is_ok_and(|at| hull[at] == point);
    }
    let mut report = Report::of_rows(study);
    for program in &study.programs {
        report.text(&format!("{}_cycles", program.name));
    }
    report.text("front");
    report.text("hull");
    report.end_record();
    report.0.reserve(study.rows.len() * 80);
    for (row, totals) in survey.0.chunks(study.programs.len()).enumerate() {
        let mut line = Line::new();
        line.row(study, row, cycles[row]);
        for total in totals {
            line.number(*total);
        }
        line.small(is_on_front[row] as u8);
        line.small(is_on_hull[row] as u8);
        report.0.extend_from_slice(line.ended());
    }
    report.0
}

// ---------------------------------------------------------------------------- Commands

/// The text of `run`: the registers, and how the program ended.
fn run_text(image: &Image, limit: usize) -> Result<Vec<u8>, Refusal> {
    let end = run_in_order(image, limit, |_, _, _| {})?;
    let mut text = String::new();
    for (number, value) in end.registers.0.iter().enumerate() {
        let _ = writeln!(text, "x{number}={value:08x}");
    }
    let End { pc, steps, .. } = end;
    let _ = writeln!(text, "{} at {pc:08x} after {steps}", end_name(&end));
    Ok(text.into_bytes())
}

/// The text of `times`: each step's cycles.
fn times_text(study: &Study, row: &str, program: &str) -> Result<Vec<u8>, Refusal> {
    let row: usize = row.parse().map_err(|_| "no number of a row")?;
    let config = study.rows.get(row).ok_or("no such row")?;
    let program = study.programs.iter().find(|other| other.name == program);
    let Program { image, limit, .. } = program.ok_or("no such program")?;
    let mut trace = Trace::default();
    let mut places = vec![];
    run_in_order(image, *limit, |instruction, pc, address| {
        trace.push(instruction, address);
        places.push((pc - image.memory.base) as usize / 4);
    })?;
    // A step's text is that of its place in the program, so each is made once.
    let mut texts: Vec<Option<Vec<u8>>> = vec![None; image.code.len()];
    let (mut state, mut demands) = (State::new(), Demands::default());
    let mut report = Report(b"step,pc,instr,issue,addr,start,finish,end,station\n".to_vec());
    report.0.reserve(64 * trace.steps.len());
    for (index, (step, place)) in trace.steps.iter().zip(places).enumerate() {
        let text = texts[place].get_or_insert_with(|| {
            let mut text = Report(vec![]);
            text.text(&format!("{:08x}", image.memory.base + 4 * place as u32));
            text.text(&image.code[place].text());
            text.0
        });
        let times = state.step(step, &trace.accesses, config, &mut demands);
        let mut line = Line::new();
        line.number(index as u64 + 1);
        line.text(text);
        line.times(&times);
        report.0.extend_from_slice(line.ended());
    }
    report.0.extend_from_slice(b"total,-,-,-,-,-,-,");
    report.number(state.last_end);
    report.text("-");
    report.end_record();
    Ok(report.0)
}

fn all_text(study: &Study, workers: usize) -> Result<Vec<u8>, Refusal> {
    let ends = study.programs.iter().map(Program::end);
    let ends: Vec<End> = ends.collect::<Result<_, _>>()?;
    let survey = survey_by_machine(study, &study.rows, workers);
    Ok(front_report(study, &ends, &survey, |_| None))
}

/// As tomex does, the machine runs the front again.
fn explore_text(study: &Study, workers: usize) -> Result<Vec<u8>, Refusal> {
    let runs = Run::all(study)?;
    let survey = survey_by_recurrence(study, &runs, workers);
    let ends: Vec<End> = runs.into_iter().map(|run| run.end).collect();
    Ok(front_report(study, &ends, &survey, |rows| {
        Some(survey_by_machine(study, rows, workers))
    }))
}

fn rows_text(study: &Study, workers: usize) -> Result<Vec<u8>, Refusal> {
    let runs = Run::all(study)?;
    let survey = survey_by_recurrence(study, &runs, workers);
    Ok(rows_report(study, &survey))
}

/// Compares, on each row, the machine with the recurrence and with the run in order, and the
/// recurrence with that by blocks.
fn check_text(study: &Study) -> Result<Vec<u8>, Refusal> {
    for (program, run) in study.programs.iter().zip(Run::all(study)?) {
        let mut memory = program.image.memory.clone();
        let mut evaluator = Evaluator::new(&run);
        for (row, config) in study.rows.iter().enumerate() {
            let mut machine = Machine::new(&program.image, &mut memory, config);
            let cycles = machine.run();
            let is_end_same = machine.registers == run.end.registers && memory == run.end.memory;
            let by_steps = evaluator.evaluate_steps(config);
            if !is_end_same || cycles != by_steps.0 || evaluator.evaluate(config) != by_steps {
                return Err(format!("program {}, row {row}: differs", program.name));
            }
        }
    }
    let (rows, programs) = (study.rows.len(), study.programs.len());
    Ok(format!("{rows} rows, {programs} programs: same\n").into())
}

/// The number after an option.
fn option(words: &[String], name: &str, default: u64) -> Result<u64, Refusal> {
    let Some(place) = words.iter().position(|word| word == name) else {
        return Ok(default);
    };
    let value = words.get(place + 1).and_then(|word| number(word));
    value.ok_or(format!("{name} without a number"))
}

fn carry_out(words: &[String]) -> Result<Vec<u8>, Refusal> {
    let workers = option(words, "--workers", 1)? as usize;
    let borrowed: Vec<&str> = words.iter().map(String::as_str).collect();
    match borrowed[..] {
        ["run", image, ..] => {
            let base = option(words, "--base", 0)?;
            let size = option(words, "--size", 65_536)?;
            let limit = option(words, "--limit", MOST_STEPS as u64)?;
            let image = Image::read(image, base as u32, size as usize)?;
            run_text(&image, limit as usize)
        }
        ["times", study, row, program] => times_text(&Study::read(study)?, row, program),
        ["all", study, ..] => all_text(&Study::read(study)?, workers),
        ["explore", study, ..] => explore_text(&Study::read(study)?, workers),
        ["rows", study, ..] => rows_text(&Study::read(study)?, workers),
        ["check", study] => check_text(&Study::read(study)?),
        _ => Err("run IMAGE, times STUDY ROW PROGRAM, or all, explore, rows, check STUDY".into()),
    }
}

fn main() -> ExitCode {
    let words: Vec<String> = std::env::args().skip(1).collect();
    let written = carry_out(&words).and_then(|text| {
        std::io::stdout()
            .write_all(&text)
            .map_err(|error| error.to_string())
    });
    match written {
        Ok(()) => ExitCode::SUCCESS,
        Err(refusal) => {
            eprintln!("plain: {refusal}");
            ExitCode::FAILURE
        }
    }
}
