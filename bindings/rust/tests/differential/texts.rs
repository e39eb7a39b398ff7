//! Texts near a plan's alist, in its two forms and between them.
use crate::inputs::Draft;
use crate::random::Random;
use crate::reference;
use crate::reference::alist::Form;

pub const FORMS: [Form; 2] = [Form::Padded, Form::Unpadded];

/// The text that a plan should have in a form; of a refused plan any.
pub fn text_of(plan: &Draft, form: Form) -> Vec<u8> {
    match reference::plan::check(&plan.lent()) {
        Ok(()) => reference::alist::text_in(&plan.lent(), form).into_bytes(),
        Err(_) => b"4 2\n1 2\n".to_vec(),
    }
}

// Lines, without their line feeds.
type Lines = Vec<Vec<u8>>;

fn lines_of(plan: &Draft, form: Form) -> Lines {
    let mut lines: Lines = text_of(plan, form).split(|&byte| byte == b'\n').map(<[u8]>::to_vec).collect();
    lines.pop();
    lines
}

// The lines of both forms, of a mixture of them, and of each form but for one short list (or line, where none is short).
fn line_choices(random: &Random, plan: &Draft) -> [Lines; 5] {
    let [padded, unpadded] = FORMS.map(|form| lines_of(plan, form));
    let lines = 0..padded.len();
    let short: Vec<usize> = lines.clone().filter(|&k| padded[k] != unpadded[k]).collect();
    let one = if short.is_empty() { 0 } else { random.choice(&short) };
    let mixed = |padded_at: &dyn Fn(usize) -> bool| -> Lines {
        lines.clone().map(|k| if padded_at(k) { padded[k].clone() } else { unpadded[k].clone() }).collect()
    };
    [mixed(&|_| true), mixed(&|_| false), mixed(&|_| random.once_in(2)), mixed(&|k| k == one), mixed(&|k| k != one)]
}

// Ends of a line that have one line feed, none, and several.
const ONE: [&[u8]; 7] = [b"\n", b"\n", b"\r\n", b" \n", b"\n\r", b"\t \r\n", b" \n \t"];
const NONE: [&[u8]; 5] = [b"", b" ", b"\t", b"\r", b" \r\r"];
const SEVERAL: [&[u8]; 5] = [b"\n\n", b"\n \n", b"\r\n\r\n", b"\n\n\n\n", b"\n\t\n "];

// A text of lines and the end of each.
fn joined<'a>(lines: &[Vec<u8>], end: impl Fn(usize) -> &'a [u8]) -> Vec<u8> {
    lines.iter().enumerate().flat_map(|(k, line)| [line, end(k)].concat()).collect()
}

// A text whose lines end with a line feed, but for one of them.
fn joined_but_for(lines: &[Vec<u8>], place: usize, end: &[u8]) -> Vec<u8> {
    joined(lines, |k| if k == place { end } else { b"\n" })
}

// The lines with the line feeds that they should have: alone, after CR, after a space, among any blanks.
fn right_ends(random: &Random, lines: &[Vec<u8>]) -> [Vec<u8>; 4] {
    [joined(lines, |_| b"\n"), joined(lines, |_| b"\r\n"), joined(lines, |_| b" \n"), joined(lines, |_| random.choice(&ONE))]
}

// The lines with line feeds missing: all of them, some, one, the last.
fn missing_line_feeds(random: &Random, lines: &[Vec<u8>]) -> [Vec<u8>; 4] {
    let last = lines.len() - 1;
    [
        joined(lines, |_| b" "),
        joined(lines, |_| random.choice(&[b"\n", b" "])),
        joined_but_for(lines, random.below(last), random.choice(&NONE)),
        joined_but_for(lines, last, random.choice(&NONE)),
    ]
}

// The lines with more line feeds: at the begin, at a line's end, at the text's end, anywhere.
fn extra_line_feeds(random: &Random, lines: &[Vec<u8>]) -> [Vec<u8>; 4] {
    let (text, last) = (joined(lines, |_| b"\n"), lines.len() - 1);
    let (before, after) = text.split_at(random.below(text.len()));
    [
        [random.choice(&[&b"\n"[..], b"\r\n", b" \n "]), &text].concat(),
        joined_but_for(lines, random.below(last), random.choice(&SEVERAL)),
        joined_but_for(lines, last, random.choice(&SEVERAL)),
        [before, b"\n", after].concat(),
    ]
}

/// Both forms and mixtures of them, with right line feeds, with missing and with extra ones.
pub fn lines(random: &Random, plan: &Draft) -> Vec<Vec<u8>> {
    let makers = [right_ends, missing_line_feeds, extra_line_feeds];
    let texts = |lines: Lines| makers.map(|make| make(random, &lines)).concat();
    line_choices(random, plan).into_iter().flat_map(texts).collect()
}

// Exchanges each blank for other blanks, with some at the text's begin and end. Line feeds are blanks in the padded form; in
// the unpadded form they stay, with other blanks around them.
fn other_blanks(random: &Random, text: &[u8], form: Form) -> Vec<u8> {
    let blanks: &[&[u8]] = match form {
        Form::Padded => &[b" ", b"\t", b"\n", b"\r", b"\r\n", b"  ", b" \t\r\n ", b"\n\n\n"],
        Form::Unpadded => &[b" ", b"\t", b"\r", b"  ", b"\t\t", b" \t\r ", b"\r\r\r"],
    };
    let mut new = random.choice(&[random.choice(blanks), b""]).to_vec();
    for &byte in text {
        match (byte, form) {
            (b' ', _) | (b'\n', Form::Padded) => new.extend(random.choice(blanks)),
            (b'\n', Form::Unpadded) => new.extend(random.choice(&ONE)),
            _ => new.push(byte),
        }
    }
    new
}

// One change to a text: most make a token wrong, some do not.
fn change(random: &Random, text: &mut Vec<u8>, form: Form) {
    let place = random.below(text.len() + 1);
    let digit = b'0' + random.below(10) as u8;
    let foreign = random.choice(&[0, 11, 12, b'+', b'-', b'.', b'/', b':', b'a', 0x85, 0xA0, 255, b' ', b'\t', b'\r', b'\n']);
    match random.below(10) {
        0 => text.truncate(place),
        1 => text.extend(random.choice(&[&b"1"[..], b"0", b" 0\n", b"\n0", b"x", b"  \t\r\n", b"\0"])),
        2 => text.insert(place, digit),
        3 => text.insert(place, b'0'),
        4 => text.insert(place, foreign),
        5 if place < text.len() => text[place] = foreign,
        6 if place < text.len() => text[place] = digit,
        7 if place < text.len() => drop(text.remove(place)),
        8 => grow_token(random, text),
        _ => *text = other_blanks(random, text, form),
    }
}

// A token becomes a number that is equal to it modulo 2^32 or 2^64, or gets zeros before or behind it.
fn grow_token(random: &Random, text: &mut Vec<u8>) {
    let blank = |byte: &u8| b" \t\r\n".contains(byte);
    let begins: Vec<usize> = (0..text.len()).filter(|&k| !blank(&text[k]) && (k == 0 || blank(&text[k - 1]))).collect();
    if begins.is_empty() {
        return;
    }
    let begin = random.choice(&begins);
    let length = text[begin..].iter().position(blank).unwrap_or(text.len() - begin);
    let token = text[begin..begin + length].to_vec();
    let number = std::str::from_utf8(&token).ok().and_then(|token| token.parse::<u64>().ok()).map(u128::from);
    let zeros = vec![b'0'; random.between(1, 30)];
    let grown = match (number, random.below(4)) {
        (Some(n), 0) => (n + (1 << 32)).to_string().into_bytes(),
        (Some(n), 1) => (n + (1 << 64)).to_string().into_bytes(),
        (_, 2) => [zeros, token].concat(),
        _ => [token, zeros].concat(),
    };
    text.splice(begin..begin + length, grown);
}

/// The text of a form itself, cut, with other blanks, and changed.
pub fn changed(random: &Random, plan: &Draft, form: Form) -> Vec<Vec<u8>> {
    let text = text_of(plan, form);
    let mut other = other_blanks(random, &text, form);
    let mut texts = vec![text.clone(), text[..text.len() - 1].to_vec(), other.clone()];
    for _ in 0..3 {
        change(random, &mut other, form);
        texts.push(other.clone());
    }
    for _ in 0..4 {
        let mut other = text.clone();
        change(random, &mut other, form);
        texts.push(other);
    }
    texts
}

/// Every text that is one byte away from that of a tiny plan in a form, or cut from it.
pub fn neighbours(plan: &Draft, form: Form) -> Vec<Vec<u8>> {
    let text = text_of(plan, form);
    let with = |from: usize, bytes: &[u8], to: usize| [&text[..from], bytes, &text[to..]].concat();
    let mut texts = vec![];
    for place in 0..=text.len() {
        texts.extend([with(place, b"", text.len()), with(0, b"", place)]);
        texts.extend((0..=255).map(|byte| with(place, &[byte], place)));
    }
    for place in 0..text.len() {
        texts.push(with(place, b"", place + 1));
        texts.extend((0..=255).map(|byte| with(place, &[byte], place + 1)));
    }
    texts
}
