//! The oracle's own reader and writer of sheets, by rules 100 to 111, and texts to try them with:
//! lines are found by searching for CR LF, fields by hand, numbers by their digits.

use crate::cases::random::Random;

/// The count that is answered and the bytes that are given, or the number that refuses.
pub type Made = Result<(usize, Vec<u8>), u8>;

#[derive(Clone, Copy, PartialEq)]
pub enum Rows {
    Devices,
    Jobs,
}

fn lines(text: &[u8]) -> Vec<&[u8]> {
    let mut lines = Vec::new();
    let mut rest = text;
    while let Some(end) = rest.windows(2).position(|pair| pair == b"\r\n") {
        lines.push(&rest[..end]);
        rest = &rest[end + 2..];
    }
    if !rest.is_empty() {
        lines.push(rest);
    }
    lines
}

/// The fields of a line, or nothing where a quote is stray or open.
fn fields(line: &[u8]) -> Option<Vec<Vec<u8>>> {
    let mut fields = Vec::new();
    let mut rest = line;
    loop {
        let mut field = Vec::new();
        if let Some(mut inner) = rest.strip_prefix(b"\"") {
            loop {
                let close = inner.iter().position(|&byte| byte == b'"')?;
                field.extend(&inner[..close]);
                inner = &inner[close + 1..];
                match inner.strip_prefix(b"\"") {
                    Some(more) => {
                        field.push(b'"');
                        inner = more;
                    }
                    None => break,
                }
            }
            rest = inner;
        } else {
            let end = rest.iter().position(|&byte| byte == b',');
            let (bare, more) = rest.split_at(end.unwrap_or(rest.len()));
            if bare.contains(&b'"') {
                return None;
            }
            field.extend(bare);
            rest = more;
        }
        fields.push(field);
        match rest {
            [] => return Some(fields),
            [b',', more @ ..] => rest = more,
            _ => return None,
        }
    }
}

fn number(field: &[u8], most: u32) -> Option<u32> {
    if field.is_empty() || !field.iter().all(u8::is_ascii_digit) {
        return None;
    }
    let first = field.iter().position(|&digit| digit != b'0');
    let digits = &field[first.unwrap_or(field.len() - 1)..];
    if digits.len() > 5 {
        return None;
    }
    let value = digits
        .iter()
        .fold(0, |value, digit| value * 10 + u32::from(digit - b'0'));
    (value <= most).then_some(value)
}

/// The first field where it is text, and the numbers.
type Row = (Vec<u8>, Vec<u32>);

fn rows(text: &[u8], kind: Rows) -> Result<Vec<Row>, u8> {
    let (texts, narrow) = match kind {
        Rows::Devices => (1, 0),
        Rows::Jobs => (0, 3),
    };
    let mut rows = Vec::new();
    for line in lines(text) {
        let fields = fields(line).ok_or(27)?;
        if fields.len() != texts + 4 {
            return Err(28);
        }
        let value = |(place, field): (usize, &Vec<u8>)| {
            number(field, if place == narrow { 255 } else { 65_535 })
        };
        let values: Option<Vec<u32>> = fields[texts..].iter().enumerate().map(value).collect();
        let name = fields[..texts].concat();
        rows.push((name, values.ok_or(29)?));
    }
    Ok(rows)
}

fn is_sign(byte: &u8) -> bool {
    byte.is_ascii_digit() || byte.is_ascii_uppercase()
}

/// Signs, one at least, and spaces behind them: eight bytes.
fn is_part_number(number: &[u8]) -> bool {
    let signs = number.iter().take_while(|byte| is_sign(byte)).count();
    number.len() == 8 && signs > 0 && number[signs..].iter().all(|&byte| byte == b' ')
}

fn judge(numbers: &[Vec<u8>]) -> Result<(), u8> {
    if numbers.len() > 64 || !numbers.iter().all(|number| is_part_number(number)) {
        return Err(21);
    }
    let mut sorted = numbers.to_vec();
    sorted.sort();
    match sorted.windows(2).any(|pair| pair[0] == pair[1]) {
        true => Err(22),
        false => Ok(()),
    }
}

fn pair(number: u32) -> [u8; 2] {
    (number as u16).to_be_bytes()
}

pub fn import_devices(text: &[u8]) -> Made {
    let rows = rows(text, Rows::Devices)?;
    let mut numbers = Vec::new();
    let mut catalogue = Vec::new();
    for (name, values) in &rows {
        let mut number = name.clone();
        number.resize(number.len().max(8), b' ');
        catalogue.extend(&number);
        catalogue.push(values[0] as u8);
        values[1..]
            .iter()
            .for_each(|&power| catalogue.extend(pair(power)));
        numbers.push(number);
    }
    judge(&numbers)?;
    Ok((rows.len(), catalogue))
}

pub fn import_jobs(text: &[u8]) -> Made {
    let rows = rows(text, Rows::Jobs)?;
    if rows.len() > 16 {
        return Err(12);
    }
    let mut records = Vec::new();
    for (_, values) in &rows {
        values[..3]
            .iter()
            .for_each(|&time| records.extend(pair(time)));
        records.push(values[3] as u8);
    }
    Ok((rows.len(), records))
}

fn read_pair(bytes: &[u8]) -> u32 {
    u32::from(bytes[0]) * 256 + u32::from(bytes[1])
}

fn counted(text: String) -> Made {
    Ok((text.len(), text.into_bytes()))
}

pub fn export_devices(catalogue: &[u8]) -> Made {
    let parts: Vec<&[u8]> = catalogue.chunks(15).collect();
    if parts.last().is_some_and(|part| part.len() < 15) {
        return Err(21);
    }
    let numbers: Vec<Vec<u8>> = parts.iter().map(|part| part[..8].to_vec()).collect();
    judge(&numbers)?;
    let mut text = String::new();
    for part in parts {
        let number = String::from_utf8_lossy(&part[..8]);
        text += &format!("\"{}\",{}", number.trim_end_matches(' '), part[8]);
        for at in [9, 11, 13] {
            text += &format!(",{}", read_pair(&part[at..]));
        }
        text += "\r\n";
    }
    counted(text)
}

pub fn export_jobs(records: &[u8]) -> Made {
    let records: Vec<&[u8]> = records.chunks(7).collect();
    if records.len() > 16 {
        return Err(12);
    }
    if records.last().is_some_and(|record| record.len() < 7) {
        return Err(1);
    }
    let mut text = String::new();
    for record in records {
        for at in [0, 2, 4] {
            text += &format!("{},", read_pair(&record[at..]));
        }
        text += &format!("{}\r\n", record[6]);
    }
    counted(text)
}

/// A line for each job: its number, its start and its margin.
pub fn plan_text(starts_and_margins: &[(u32, i64)]) -> Vec<u8> {
    let mut text = String::new();
    for (job, (start, margin)) in starts_and_margins.iter().enumerate() {
        text += &format!("{job},{start},{margin}\r\n");
    }
    text.into_bytes()
}

// ---- texts and tables to try

fn part_number(random: &mut Random) -> Vec<u8> {
    let length = random.within(1, 8);
    let signs = b"0123456789ABCXYZ00";
    (0..length).map(|_| random.pick(signs)).collect()
}

fn drawn_number(random: &mut Random, most: u32) -> String {
    let value = match random.within(1, 12) {
        1 => most,
        2 => 0,
        3 if random.one_in(4) => most + 1,
        4 if random.one_in(6) => 65_536 + random.within(0, 9) as u32,
        _ => random.within(0, u64::from(most)) as u32,
    };
    let zeros = if random.one_in(8) {
        random.within(1, 30)
    } else {
        0
    };
    format!("{}{value}", "0".repeat(zeros as usize))
}

fn drawn_line(random: &mut Random, kind: Rows) -> Vec<u8> {
    let mut fields: Vec<Vec<u8>> = Vec::new();
    let most = match kind {
        Rows::Devices => {
            fields.push(part_number(random));
            [255, 65_535, 65_535, 65_535]
        }
        Rows::Jobs => [65_535, 65_535, 65_535, 255],
    };
    for most in most {
        fields.push(drawn_number(random, most).into_bytes());
    }
    if random.one_in(60) {
        fields.push(b"1".to_vec());
    }
    if random.one_in(60) {
        fields.pop();
    }
    if kind == Rows::Devices && random.one_in(12) {
        fields[0].extend(vec![b' '; random.index(9)]);
    }
    for field in &mut fields {
        if random.one_in(5) {
            *field = [b"\"", &field[..], b"\""].concat();
        }
    }
    fields.join(&b',')
}

/// A text whose lines are good or nearly so, and bytes of which a few are changed.
pub fn draw_text(random: &mut Random, kind: Rows) -> Vec<u8> {
    let few = random.within(0, 6);
    let near = match kind {
        Rows::Devices => random.within(62, 67),
        Rows::Jobs => random.within(14, 18),
    };
    let count = random.pick(&[few, few, few, near]);
    let mut text = Vec::new();
    for _ in 0..count {
        text.extend(drawn_line(random, kind));
        text.extend(b"\r\n");
    }
    if random.one_in(4) {
        text.truncate(text.len().saturating_sub(2));
    }
    if random.one_in(2) {
        return text;
    }
    let marks = b"\",\r\n \"\"0aA+-9;\x00\xff";
    for _ in 0..random.within(1, 3) {
        let at = random.index(text.len() + 1);
        match random.within(1, 4) {
            1 => text.insert(at, random.pick(marks)),
            2 if at < text.len() => drop(text.remove(at)),
            3 if at < text.len() => text[at] = random.pick(marks),
            _ => {
                let line = random.pick(&[&b"\r\n"[..], b"\"\"", b"\n", b",", b"\"A\r\n\""]);
                text.splice(at..at, line.iter().copied());
            }
        }
    }
    text
}

/// The bytes of a catalogue, or of job records: good ones, changed, cut or too many.
pub fn draw_table(random: &mut Random, kind: Rows) -> Vec<u8> {
    let few = random.within(0, 8);
    let near = random.within(62, 66);
    let mut bytes = Vec::new();
    match kind {
        Rows::Devices => {
            for _ in 0..random.pick(&[few, few, near]) {
                let mut number = part_number(random);
                number.resize(8, b' ');
                bytes.extend(number);
                let record = random.bytes(7);
                bytes.extend(record);
            }
        }
        Rows::Jobs => {
            let length = 7 * random.within(0, 18) as usize;
            bytes = random.bytes(length);
        }
    }
    match random.within(1, 8) {
        1 => bytes.push(b'A'),
        2 => drop(bytes.pop()),
        3 if !bytes.is_empty() => {
            let at = random.index(bytes.len());
            bytes[at] = random.pick(b" a0A\x00\"");
        }
        4 if bytes.len() >= 30 => bytes.copy_within(0..8, 15),
        _ => {}
    }
    bytes
}

#[cfg(test)]
mod tests {
    use super::*;

    #[test]
    fn what_was_exported_is_imported_again() {
        let mut came = 0;
        for stream in 0..3_000 {
            let mut random = Random::new(5, stream);
            let catalogue = draw_table(&mut random, Rows::Devices);
            if let Ok((_, text)) = export_devices(&catalogue) {
                assert_eq!(import_devices(&text), Ok((catalogue.len() / 15, catalogue)));
                came += 1;
            }
            let records = draw_table(&mut random, Rows::Jobs);
            if let Ok((_, text)) = export_jobs(&records) {
                assert_eq!(import_jobs(&text), Ok((records.len() / 7, records)));
            }
        }
        assert!(came > 500, "only {came} catalogues were exported");
    }
}
