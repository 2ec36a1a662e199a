"""Times a walk over a page of characters, beside the reading of its commands alone.

It copies the crates into a scratch folder, adds a program there that does both over a page of 20,000,000 commands, has it proved and
built (`rt run`, which takes minutes the first time; a second argument names the folder, so that it is kept), and prints the least
nanoseconds a command of several runs (the first argument says how many). The canvas adds up the places of its marks. On a machine that does
other work the least times are too large, and their quotient is what tells something.
"""

import os
import re
import shutil
import subprocess
import sys
import tempfile

TOP = os.path.dirname(os.path.dirname(os.path.abspath(__file__)))
COMMANDS = 20_000_000

PROGRAM = '''//! Times a walk over a page of characters, beside `next_cmd` alone over the same bytes.
#![tactic(auto)]

ghost use Rattle.std.specs.Prelude.{◌<◌, ◌^◌, length};
ghost use Rattle.dvi_doc.specs.View.{IsRead};

use dv_base::{Conv, MemShelf, Units};
use dvi_doc::Doc;
use dvi_ops::{Cmd, next_cmd};
use font_set::{Fonts, Want};
use vf_expand::Walker;
use positions::{Canvas, GlyphMark, NoFault, RuleMark, SpecialMark};
use std::alloc::{AllocError, Global};
use std::process::ExitCode;
use std::rt::Clock;
use std::time::Instant;

/// A canvas that adds up its marks.
#[derive(Drop)]
struct Sum {
    total: i64,
}

impl Canvas for Sum {
    type Fault = NoFault;

    ghost can = { λ c m. Unit {0} };

    ghost takes = { λ a b ms. Unit {0} };

    ghost refuses = { λ a b ms m f. Unit {0} };

    fn glyph(&mut self, mark: &GlyphMark) -> Result<(), NoFault> {
        self.total = self.total.wrapping_add(mark.x);
        Ok(())
    }

    fn rule(&mut self, mark: &RuleMark) -> Result<(), NoFault> {
        self.total = self.total.wrapping_add(mark.x);
        Ok(())
    }

    fn special(&mut self, mark: &SpecialMark<'_>) -> Result<(), NoFault> {
        self.total = self.total.wrapping_add(mark.x);
        Ok(())
    }

    ghost starts = { λ c. tt };

    ghost chains = { λ a b c xs ys h k. tt };

    ghost refused_later = { λ a b c xs ys m f h k. tt };
}

const UNITS: [u8; 13] = [
    2, 0x01, 0x83, 0x92, 0xc0, 0x1c, 0x3b, 0, 0, 0, 0, 0x03, 0xe8,
];

const TFM: [u8; 56] = [
    0, 14, 0, 2, 0, 65, 0, 65, 0, 2, 0, 1, 0, 1, 0, 1, 0, 0, 0, 0, 0, 0, 0, 0, 0, 0, 0, 0, 0, 0xa0,
    0, 0, 1, 0, 0, 0, 0, 0, 0, 0, 0, 8, 0, 0, 0, 0, 0, 0, 0, 0, 0, 0, 0, 0, 0, 0,
];

fn document(alloc: Global, piece: &[u8], count: u32) -> Result<Vec<u8>, AllocError> {
    let mut bytes = Vec::from_slice(alloc, &[247])?;
    bytes.extend_from_slice(&UNITS)?;
    bytes.extend_from_slice(&[0, 139])?;
    bytes.extend_from_slice(&[0; 40])?;
    bytes.extend_from_slice(&[255; 4])?;
    bytes.push(171)?;
    for _ in 0..count {
        bytes.extend_from_slice(piece)?;
    }
    bytes.push(140)?;
    let post = u32::try_from(bytes.len()).unwrap_or(0);
    bytes.extend_from_slice(&[248, 0, 0, 0, 15])?;
    bytes.extend_from_slice(&UNITS[1..])?;
    bytes.extend_from_slice(&[0, 0, 0, 1, 0, 0, 0, 1, 0, 0, 0, 1])?;
    bytes.extend_from_slice(&[243, 0, 0, 0, 0, 0, 0, 0x0a, 0, 0, 0, 0x0a, 0, 0, 0, 3])?;
    bytes.extend_from_slice(b"one")?;
    bytes.push(249)?;
    bytes.extend_from_slice(&post.to_be_bytes())?;
    bytes.extend_from_slice(&[2, 223, 223, 223, 223])?;
    Ok(bytes)
}

fn commands(bytes: &[u8]) -> i64 {
    let mut at = 0;
    let mut sum = 0i64;
    while at < bytes.len() {
        match next_cmd(bytes, at) {
            Ok((cmd, end)) => {
                if let Cmd::Set(z) = cmd {
                    sum = sum.wrapping_add(z);
                }
                at = end;
            }
            Err(_) => return sum,
        }
    }
    sum
}

/// A push, characters, and a pop.
const LINE: [u8; 100] = [
    141, 65, 65, 65, 65, 65, 65, 65, 65, 65, 65, 65, 65, 65, 65, 65, 65, 65, 65, 65, 65, 65, 65,
    65, 65, 65, 65, 65, 65, 65, 65, 65, 65, 65, 65, 65, 65, 65, 65, 65, 65, 65, 65, 65, 65, 65, 65,
    65, 65, 65, 65, 65, 65, 65, 65, 65, 65, 65, 65, 65, 65, 65, 65, 65, 65, 65, 65, 65, 65, 65, 65,
    65, 65, 65, 65, 65, 65, 65, 65, 65, 65, 65, 65, 65, 65, 65, 65, 65, 65, 65, 65, 65, 65, 65, 65,
    65, 65, 65, 65, 142,
];

/// Nanoseconds since a moment.
fn since(clock: &impl Clock, start: &Instant) -> Option<u64> {
    let spent = start.elapsed(clock).ok()?;
    u64::try_from(spent.as_nanos()).ok()
}

/// Reads all commands, and answers the nanoseconds.
fn read(clock: &impl Clock, bytes: &[u8]) -> Option<(i64, u64)> {
    let start = Instant::now(clock).ok()?;
    let sum = commands(bytes);
    Some((sum, since(clock, &start)?))
}

/// Walks over the first page, and answers the nanoseconds.
fn walk(
    alloc: Global,
    clock: &impl Clock,
    shelf: &mut MemShelf,
    doc: &Doc<'_>,
) -> Option<(i64, u64)>
    requires read { IsRead doc.now }
    requires short { length doc.now.bytes < 2 ^ 31 }
{
    if doc.pages().is_empty() {
        return None;
    }
    let units = Units {
        num: 25_400_000,
        den: 473_628_672,
        mag: 1_000,
        dpi: 300,
    };
    let conv = Conv::new(&units)?;
    let mut fonts = Fonts::new(alloc, units, conv, Want::Packets);
    let Ok(()) = fonts.load_page(shelf, doc, 0) else {
        return None;
    };
    let mut walker = Walker::new(alloc, conv, conv, 2).ok()?;
    let mut canvas = Sum { total: 0 };
    let start = Instant::now(clock).ok()?;
    match walker.page(doc, 0, &fonts, &mut canvas) {
        Ok(()) => Some((canvas.total, since(clock, &start)?)),
        Err(_) => None,
    }
}

/// Times both on one document.
fn timed(alloc: Global, clock: &impl Clock, bytes: &[u8]) -> Option<(i64, u64, u64)> {
    if bytes.len() > 67_000_000 {
        return None;
    }
    let Ok(doc) = Doc::read(alloc, bytes) else {
        return None;
    };
    if doc.pages().is_empty() {
        return None;
    }
    let mut shelf = MemShelf::new(alloc);
    shelf.add("one.tfm", &TFM).ok()?;
    let (sum, reading) = read(clock, doc.body(0))?;
    let (total, walking) = walk(alloc, clock, &mut shelf, &doc)?;
    Some((sum.wrapping_add(total), reading, walking))
}

/// Times a page of 20,000,000 commands, and prints the nanoseconds of reading and of walking.
fn case<R: Print + Clock>(rt: &R, alloc: Global, name: &str, piece: &[u8]) -> Option<()> {
    let bytes = document(alloc, piece, 200_000).ok()?;
    let (sum, reading, walking) = timed(alloc, rt, &bytes)?;
    println!(rt; "{name} {reading} {walking} {sum}").ok()
}

fn main(rt: HostRuntime) -> ExitCode {
    for _ in 0..5 {
        if case(&rt, rt.alloc(), "characters", &LINE).is_none() {
            return ExitCode::from(1);
        }
        if case(&rt, rt.alloc(), "nops", &[138; 100]).is_none() {
            return ExitCode::from(1);
        }
    }
    ExitCode::from(0)
}
'''

PROOFS = {
    "proofs/Lib.antt": "",
    "proofs/walk/Answers.antt": '''use Rattle.walk_bench.proofs.walk.Goals as goal

pub page-requires-clause-can : goal.page-requires-clause-can
page-requires-clause-can g c = λ p is mark fits among. tt
''',
    "proofs/commands/Invariants.antt": '''use Rattle.std.proofs.Common.{◌-◌, length}
use Rattle.walk_bench.proofs.commands.Given as goal

abbrev pub decreases-loop-at : goal.decreases-loop-at
decreases-loop-at l = length l.bytes - l.at
''',
}


def build(folder):
    """The program in a copy of the crates; its path."""
    crates = os.path.join(folder, "crates")
    skip = shutil.ignore_patterns("out")
    shutil.copytree(os.path.join(TOP, "crates"), crates, ignore=skip, dirs_exist_ok=True)
    here = os.path.join(crates, "walk_bench")
    for name, text in {"src/main.rt": PROGRAM, **PROOFS}.items():
        path = os.path.join(here, name)
        os.makedirs(os.path.dirname(path), exist_ok=True)
        with open(path, "w") as file:
            file.write(text)
    with open(os.path.join(TOP, "crates.txt")) as file:
        lines = file.read()
    with open(os.path.join(folder, "crates.txt"), "w") as file:
        file.write(lines + "walk_bench: vf_expand font_set positions dvi_doc dvi_ops dv_base\n")
    shutil.copy(os.path.join(TOP, "HANDLES"), folder)
    subprocess.run(["git", "init", "-q", folder], check=True)
    subprocess.run(["rt", "run"], cwd=here, check=True, stdout=subprocess.DEVNULL)
    return os.path.join(here, "out", "walk_bench")


def main():
    runs = int(sys.argv[1]) if len(sys.argv) > 1 else 3
    folder = sys.argv[2] if len(sys.argv) > 2 else tempfile.mkdtemp()
    program = build(folder)
    least = {}
    for _ in range(runs):
        out = subprocess.run([program], check=True, capture_output=True, text=True).stdout
        for name, reading, walking in re.findall(r"^(\w+) (\d+) (\d+) ", out, re.M):
            old = least.get(name, (10**18, 10**18))
            least[name] = (min(old[0], int(reading)), min(old[1], int(walking)))
    for name, (reading, walking) in least.items():
        read, walk = reading / COMMANDS, walking / COMMANDS
        print(f"{name}: reading {read:.1f} ns a command, the walk {walk:.1f} ns, {walk / read:.1f} times")


main()
