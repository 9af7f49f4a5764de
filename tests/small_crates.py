"""Three small crates, of which the last lends lines, and their twins: what the tests of tools/walk read and make."""

LOW = """// Types, and a line that is lent.
#[repr(C)]
pub struct Line {
    pub amount: i64, // in grains
    pub records: u32,
}

pub enum Found {
    At(usize),
    Nothing,
}

pub struct Settled {
    pub found: Found,
    pub ufe: [i64; 2],
    pub whole: bool,
}

pub fn layout() -> u32
    ensures { λ r. ⌜ r ≡ 1 ⌝ }
{
    1
}
"""
MIDDLE = """ghost use mathlib.Core.Path.{_≡_};
mod text;
use low::Line;
use low::Found;

// By value.
pub fn line_with(line: Line, grains: i64) -> Line
    requires { ⌜ Room line ⌝ }
    ensures { λ r. ⌜ r ≡ record { amount = 1 } ⌝ }
{
    if grains == 0 { return line; }
    line
}

pub fn settled(lines: &mut [Line]) -> low::Settled {
    answer(lines)
}

pub fn part(file: &[u8]) -> &[u8] {
    &file[1..]
}

fn unused(found: Found) -> usize {
    0
}
"""
TOP = """ghost use mathlib.Core.Path.{_≡_};
use low::Found;
use low::Line;
use low::Settled;
use middle::part;

// Touches one line.
fn post_line(lines: &mut [Line], member: usize)
    requires { ⌜ member < length (now lines) ⌝ }
{
    lines[member] = middle::line_with(lines[member], 1);
}

#[no_mangle]
pub extern "C" fn settle(
    file: &[u8],
    lines: &mut [Line],
) -> Settled
    ensures first { λ r. ⌜ r ≡ { 1 } ⌝ }
    ensures second { λ r. ⌜ r ≡ 2 ⌝ }
{
    post_line(lines, at(file));
    middle::settled(lines)
}

fn at(file: &[u8]) -> usize {
    0
}

fn found(file: &[u8]) -> Found {
    Found::Nothing
}
"""
TWIN_OF_LOW = """ghost use Prim.Native.Nat.{_≤_};
pub type Line = [i16; 8];

pub enum Found {
    At(usize),
    Nothing,
}

pub struct Settled {
    pub found: Found,
    pub ufe: [i64; 2],
    pub whole: bool,
}



pub fn nothing() -> u32 {
    0
}
"""
TWIN_OF_MIDDLE = """ghost use Prim.Native.Nat.{_≤_};
mod text;
use low::Line;
use low::Found;



pub fn settled(lines: &mut [Line]) -> low::Settled
{
    low::Settled { found: low::Found::Nothing, ufe: [0; 2], whole: false }
}




"""
TWIN_OF_TOP = """ghost use Prim.Native.Nat.{_≤_};
use low::Line;
use low::Settled;

fn post_line(lines: &mut [Line], member: usize)
    requires { ⌜ 0 ≤ 0 ⌝ }
{
}

#[no_mangle]
pub extern "C" fn settle(
    file: &[u8],
    lines: &mut [Line],
) -> Settled
    ensures first { λ _. ⌜ 0 ≤ 0 ⌝ }
    ensures second { λ _. ⌜ 0 ≤ 0 ⌝ }
{
    post_line(lines, at(file));
    middle::settled(lines)
}

fn at(file: &[u8]) -> usize
{
    0
}


"""
