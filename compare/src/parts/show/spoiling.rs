//! Every way in which an input is not well made. A few inputs stay well made, as where a digit becomes another digit.

use crate::random::Random;

/// A way: from an input to another.
pub type Way = fn(&mut Random, &mut Vec<u8>);

pub const WAYS: [Way; 25] = [
    lower_case,
    strange_byte,
    sign,
    prefixed,
    cr_lf,
    one_cr,
    no_last_line_feed,
    digit_more,
    digit_less,
    after_the_end,
    truncated,
    nothing,
    line_feeds,
    long,
    padded,
    large_side,
    random_bytes,
    random_digits,
    byte_changed,
    line_gone,
    line_doubled,
    empty_line,
    lines_joined,
    lines_swapped,
    byte_inserted,
];

/// Bytes that are no digit.
const STRANGE: &[u8] = b"+- \r\0\t.@G`gz/:xX_,\x7f\x80\xff\x0b\x0c";

/// The longest input.
const LONGEST: u64 = 100_000;

pub fn spoil(random: &mut Random, input: &mut Vec<u8>) {
    random.pick(&WAYS)(random, input);
}

/// A place in the input.
fn place(random: &mut Random, input: &[u8]) -> usize {
    random.below(input.len().max(1) as u64) as usize
}

/// A place of a line feed, and of one that is picked.
fn line_feed(random: &mut Random, input: &[u8]) -> usize {
    let places: Vec<usize> = (0..input.len()).filter(|&i| input[i] == b'\n').collect();
    random.pick(&places)
}

/// The lines, without their line feeds.
fn lines(input: &[u8]) -> Vec<Vec<u8>> {
    let mut lines: Vec<Vec<u8>> = input.split(|&byte| byte == b'\n').map(<[u8]>::to_vec).collect();
    lines.pop();
    lines
}

/// The lines, a line feed after each.
fn put_together(lines: &[Vec<u8>], input: &mut Vec<u8>) {
    input.clear();
    for line in lines {
        input.extend(line);
        input.push(b'\n');
    }
}

/// Does something to one of the lines, which are at least one.
fn with_a_line(random: &mut Random, input: &mut Vec<u8>, each: impl Fn(&mut Random, &mut Vec<Vec<u8>>, usize)) {
    let mut lines = lines(input);
    let at = random.below(lines.len() as u64) as usize;
    each(random, &mut lines, at);
    put_together(&lines, input);
}

fn digit(random: &mut Random) -> u8 {
    random.pick(b"0123456789ABCDEF")
}

fn lower_case(random: &mut Random, input: &mut Vec<u8>) {
    let letters: Vec<usize> = (0..input.len()).filter(|&i| input[i].is_ascii_uppercase()).collect();
    if letters.is_empty() || random.below(4) == 0 {
        let at = place(random, input);
        input[at] = random.pick(b"abcdef");
    } else {
        let at = random.pick(&letters);
        input[at] = input[at].to_ascii_lowercase();
    }
}

fn strange_byte(random: &mut Random, input: &mut Vec<u8>) {
    let at = place(random, input);
    input[at] = random.pick(STRANGE);
}

/// A sign or a space where a number starts.
fn sign(random: &mut Random, input: &mut Vec<u8>) {
    let mut starts = vec![0, 4, 8, 24];
    starts.extend((0..input.len()).filter(|&i| i > 0 && input[i - 1] == b'\n'));
    let at = random.pick(&starts);
    input[at] = random.pick(b"+- ");
}

fn prefixed(random: &mut Random, input: &mut Vec<u8>) {
    let before = random.pick(&[&b" "[..], b"0x", b"+", b"\n", b"0", b"\xEF\xBB\xBF", b"\0"]);
    input.splice(0..0, before.iter().copied());
}

fn cr_lf(_: &mut Random, input: &mut Vec<u8>) {
    let with_cr = lines(input).into_iter().map(|line| [line, vec![b'\r']].concat());
    put_together(&with_cr.collect::<Vec<_>>(), input);
}

/// A carriage return before a line feed, or instead of it.
fn one_cr(random: &mut Random, input: &mut Vec<u8>) {
    let at = line_feed(random, input);
    if random.below(2) == 0 {
        input.insert(at, b'\r');
    } else {
        input[at] = b'\r';
    }
}

fn no_last_line_feed(_: &mut Random, input: &mut Vec<u8>) {
    input.pop();
}

fn digit_more(random: &mut Random, input: &mut Vec<u8>) {
    with_a_line(random, input, |random, lines, i| {
        let at = random.below(lines[i].len() as u64 + 1) as usize;
        let digit = digit(random);
        lines[i].insert(at, digit);
    });
}

fn digit_less(random: &mut Random, input: &mut Vec<u8>) {
    with_a_line(random, input, |random, lines, i| {
        if !lines[i].is_empty() {
            let at = place(random, &lines[i]);
            lines[i].remove(at);
        }
    });
}

fn after_the_end(random: &mut Random, input: &mut Vec<u8>) {
    let ends: [&[u8]; 9] = [b"\n", b"0", b"\0", b" ", b"00\n", b"\n\n", b"F\n", b"\r\n", b"\x1a"];
    if random.below(4) == 0 {
        let again = input.clone();
        input.extend(again);
    } else {
        input.extend(random.pick(&ends));
    }
}

fn truncated(random: &mut Random, input: &mut Vec<u8>) {
    let at = place(random, input);
    input.truncate(at);
}

fn nothing(_: &mut Random, input: &mut Vec<u8>) {
    input.clear();
}

fn line_feeds(random: &mut Random, input: &mut Vec<u8>) {
    *input = vec![b'\n'; random.pick(&[1, 1, 2, 3, 17, 41, 121])];
}

/// Longer than any good input, up to 100,000 bytes.
fn long(random: &mut Random, input: &mut Vec<u8>) {
    let most = random.pick(&[200, 5000, 5000, 5000, LONGEST]);
    longer(random, input, most);
}

/// Longer by zeros, line feeds, itself or any bytes, to at most so many bytes.
pub fn longer(random: &mut Random, input: &mut Vec<u8>, most: u64) {
    let near = [4095, 4096, 4097, 8192, most]
        .into_iter()
        .filter(|&length| length <= most);
    let near = near.collect::<Vec<u64>>();
    let length = match random.below(2) {
        0 => random.pick(&near),
        _ => 122 + random.below(most - 121),
    } as usize;
    let way = random.below(4);
    let own = input.clone();
    while input.len() < length {
        match way {
            0 => input.push(b'0'),
            1 => input.push(b'\n'),
            2 => input.extend(&own),
            _ => input.push(random.next() as u8),
        }
    }
    input.truncate(length);
}

/// A padding bit of a row that is not zero, where the width leaves any.
fn padded(random: &mut Random, input: &mut Vec<u8>) {
    let width = std::str::from_utf8(&input[..4])
        .ok()
        .and_then(|text| usize::from_str_radix(text, 16).ok());
    let padding = width.map_or(0, |width| 3 - (width + 3) % 4);
    let mut lines = lines(input);
    if padding == 0 || lines.len() < 2 {
        return strange_byte(random, input);
    }
    let row = 1 + random.below(lines.len() as u64 - 1) as usize;
    if let Some(last) = lines[row].last_mut() {
        let value = (*last as char).to_digit(16).unwrap_or(0) | 1 << random.below(padding as u64);
        *last = format!("{value:X}").as_bytes()[0];
    }
    put_together(&lines, input);
}

/// A side above 16, the rows as they were or as many and as long as the side asks.
fn large_side(random: &mut Random, input: &mut Vec<u8>) {
    let side = random.pick(&[17, 17, 18, 20, 31, 32, 64, 256, 4096, 0x7FFF, 0x8000, 0xFFFF]);
    let tall = random.below(2) == 0;
    let at = if tall { 4 } else { 0 };
    input.splice(at..at + 4, format!("{side:04X}").into_bytes());
    if random.below(2) == 0 && side <= 256 {
        let mut lines = lines(input);
        let row = lines.get(1).cloned().unwrap_or_default();
        if tall {
            lines.resize(1 + side, row);
        } else {
            lines[1..].iter_mut().for_each(|row| row.resize((side + 3) / 4, b'0'));
        }
        put_together(&lines, input);
    }
}

fn random_bytes(random: &mut Random, input: &mut Vec<u8>) {
    let length = random.below(200);
    *input = (0..length).map(|_| random.next() as u8).collect();
}

fn random_digits(random: &mut Random, input: &mut Vec<u8>) {
    let (length, line) = (random.below(200), 2 + random.below(50));
    let byte = |random: &mut Random| if random.below(line) == 0 { b'\n' } else { digit(random) };
    *input = (0..length).map(|_| byte(random)).collect();
}

fn byte_changed(random: &mut Random, input: &mut Vec<u8>) {
    let at = place(random, input);
    input[at] = random.next() as u8;
}

fn byte_inserted(random: &mut Random, input: &mut Vec<u8>) {
    let at = place(random, input);
    let any = random.next() as u8;
    let byte = random.pick(&[b'\n', b'0', b' ', b'\0', any]);
    input.insert(at, byte);
}

fn line_gone(random: &mut Random, input: &mut Vec<u8>) {
    with_a_line(random, input, |_, lines, i| {
        lines.remove(i);
    });
}

fn line_doubled(random: &mut Random, input: &mut Vec<u8>) {
    with_a_line(random, input, |_, lines, i| lines.insert(i, lines[i].clone()));
}

fn empty_line(random: &mut Random, input: &mut Vec<u8>) {
    with_a_line(random, input, |_, lines, i| lines.insert(i, Vec::new()));
}

fn lines_joined(random: &mut Random, input: &mut Vec<u8>) {
    let at = line_feed(random, input);
    input.remove(at);
}

fn lines_swapped(random: &mut Random, input: &mut Vec<u8>) {
    with_a_line(random, input, |random, lines, i| {
        let j = random.below(lines.len() as u64) as usize;
        lines.swap(i, j);
    });
}
