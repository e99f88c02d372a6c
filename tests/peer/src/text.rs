//! Plans as planners print them: a line `(aN)` for each step, and comment lines that begin with a semicolon.

use crate::decode::check;
use crate::random::Random;
use crate::task::MAX_STEPS;
use crate::walk::{walk, Walked};
use crate::{refuse, Refusal};

/// The length of the longest text.
pub const MAX_TEXT: usize = 65_536;

enum Line {
    Comment,
    Step(u8),
}

/// A line with its newline, if it has one of the two forms.
fn line(bytes: &[u8]) -> Option<Line> {
    let bytes = bytes.strip_suffix(b"\n")?;
    if bytes.first() == Some(&b';') {
        return Some(Line::Comment);
    }
    let digits = bytes.strip_prefix(b"(a")?.strip_suffix(b")")?;
    let decimal = !digits.is_empty() && digits.iter().all(u8::is_ascii_digit);
    if !decimal || (digits.len() > 1 && digits[0] == b'0') {
        return None;
    }
    let number = std::str::from_utf8(digits).expect("digits");
    Some(Line::Step(number.parse().unwrap_or(u8::MAX)))
}

/// The plan in a text, of any length, or refusal 12.
pub fn parse(text: &[u8]) -> Result<Vec<u8>, Refusal> {
    if text.len() > MAX_TEXT {
        return refuse(12, 0);
    }
    let mut plan = Vec::new();
    for (number, bytes) in text.split_inclusive(|&byte| byte == b'\n').enumerate() {
        match line(bytes) {
            Some(Line::Comment) => {}
            Some(Line::Step(step)) => plan.push(step),
            None => return refuse(12, number),
        }
    }
    Ok(plan)
}

/// The output, where the plan is not too long and the area not too short.
fn fit(steps: usize, output: Vec<u8>, room: usize) -> Result<Vec<u8>, Refusal> {
    if steps > MAX_STEPS {
        return refuse(10, 0);
    }
    if room < output.len() {
        return refuse(9, 0);
    }
    Ok(output)
}

/// The plan in a text, for an area of `room` bytes, or a refusal (12, 10, 9).
pub fn read(text: &[u8], room: usize) -> Result<Vec<u8>, Refusal> {
    let plan = parse(text)?;
    fit(plan.len(), plan, room)
}

/// The text of a plan, for an area of `room` bytes, or a refusal (10, 9).
pub fn write(plan: &[u8], room: usize) -> Result<Vec<u8>, Refusal> {
    let text: String = plan.iter().map(|step| format!("(a{step})\n")).collect();
    fit(plan.len(), text.into_bytes(), room)
}

/// The walk of the plan in a text, or the refusal (1 to 6, 12, 10, 11).
pub fn walk_text(file: &[u8], text: &[u8]) -> Result<Walked, Refusal> {
    check(file)?;
    walk(file, &parse(text)?)
}

/// A random text by seed: mostly steps and comments, now and then a damaged line, a long number or a long text.
pub fn text(seed: u64) -> Vec<u8> {
    let r = &mut Random::new(seed);
    let lines = match r.below(40) {
        0 => r.between(2_040, 2_060),
        1 => r.between(8_000, 14_000),
        _ => r.below(12),
    };
    let damage = r.chance(30);
    let mut text = Vec::new();
    for number in 0..lines {
        if damage && r.below(lines) == number {
            text.extend(damaged(r));
        } else if r.chance(15) {
            text.extend(comment(r));
        } else {
            text.extend(step(r));
        }
    }
    if r.chance(10) {
        text.pop();
    }
    text
}

fn step(r: &mut Random) -> Vec<u8> {
    let number = match r.below(12) {
        0 => r.between(250, 260).to_string(),
        1 => (0..r.between(1, 40))
            .map(|_| r.pick(&['1', '9', '4']))
            .collect(),
        _ => r.below(6).to_string(),
    };
    format!("(a{number})\n").into_bytes()
}

fn comment(r: &mut Random) -> Vec<u8> {
    let mut bytes = vec![b';'];
    bytes.extend((0..r.below(20)).map(|_| r.pick(&[b';', b' ', b'(', b'a', 0, 13, 200])));
    bytes.push(b'\n');
    bytes
}

fn damaged(r: &mut Random) -> Vec<u8> {
    let whole = [
        "\n",
        "(a)\n",
        "(a01)\n",
        "(a00)\n",
        " (a1)\n",
        "(a1) \n",
        "(a1)\r\n",
        "(A1)\n",
        "(a1\n",
        "a1)\n",
        "(a-1)\n",
        "(a1)(a2)\n",
        "(a1) ; done\n",
        "(a1;)\n",
        "\t(a1)\n",
        "(a1\0)\n",
        "(b1)\n",
        "()\n",
    ];
    if r.chance(70) {
        return r.pick(&whole).as_bytes().to_vec();
    }
    let mut bytes = step(r);
    let at = r.below(bytes.len());
    bytes[at] = r.pick(&[b'\n', b' ', b'a', b'0', 0, 255, b')', b'(']);
    bytes
}
