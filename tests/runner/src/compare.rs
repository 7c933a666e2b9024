//! What is asked of the product on one stream: the oracle's answers, nothing else written, and the laws that hold between streams.

use crate::across;
use crate::prng::Dice;
use crate::product::{Lent, Subject};
use oracle::held::{step, State};
use oracle::stream::{lines, whole_stream_refusal};
use oracle::tables::Tables;
use std::time::{Duration, Instant};

/// At least so many bytes before and after the lent room have to stay as they are.
const MARGIN: usize = 64;

/// What a call left behind: its number, the room, and the pattern that the room was filled with.
struct Left {
    number: i64,
    room: Vec<u8>,
    pattern: Vec<u8>,
}

/// One call: the stream lies between other bytes, the room is filled with a pattern, both start at any address. Fails if a byte was
/// changed that was not lent for writing.
fn call(subject: Subject, stream: &[u8], room: usize, dice: &mut Dice) -> Result<Left, String> {
    let (from, start) = (MARGIN + dice.below(16), MARGIN + dice.below(16));
    let around = *dice.pick(b"\n0F");
    let mut stream_before = vec![around; from + stream.len() + MARGIN];
    stream_before[from..from + stream.len()].copy_from_slice(stream);
    let words = (start + room + MARGIN).div_ceil(8);
    let room_before: Vec<u8> = (0..words).flat_map(|_| dice.next().to_le_bytes()).collect();
    let (stream_at, room_at) = (from..from + stream.len(), start..start + room);
    let mut lent = Lent { stream_buffer: stream_before.clone(), stream_at, room_buffer: room_before.clone(), room_at };
    let number = subject.answer(&mut lent);
    if lent.stream_buffer != stream_before {
        return Err("the stream was written to".to_string());
    }
    let lent_room = lent.room_buffer;
    if lent_room[..start] != room_before[..start] || lent_room[start + room..] != room_before[start + room..] {
        return Err(format!("bytes outside the room of {room} were written to"));
    }
    Ok(Left { number, room: lent_room[start..start + room].to_vec(), pattern: room_before[start..start + room].to_vec() })
}

/// The call gives exactly what is expected: the number, the answers, and every other byte of the room as it was.
fn expect(subject: Subject, stream: &[u8], room: usize, expected: &Result<Vec<u8>, i64>, dice: &mut Dice) -> Result<(), String> {
    let Left { number, room: after, pattern } = call(subject, stream, room, dice)?;
    let (wanted_number, answers): (i64, &[u8]) = match expected {
        Ok(answers) => (answers.len() as i64, answers),
        Err(number) => (*number, &[]),
    };
    if number != wanted_number {
        let given = &after[..usize::try_from(number).unwrap_or(0).min(room)];
        return Err(format!("room {room}: returned {number}, expected {wanted_number}\n{}", line_by_line(stream, given, answers)));
    }
    if after[..answers.len()] != *answers {
        return Err(format!("room {room}: another answer\n{}", line_by_line(stream, &after, answers)));
    }
    match (answers.len()..room).find(|&at| after[at] != pattern[at]) {
        Some(at) => Err(format!("room {room}: byte {at} was written to, the answers being {} bytes", answers.len())),
        None => Ok(()),
    }
}

/// A line as it can be printed, cut where no frame is so long.
pub fn readable(line: &[u8]) -> String {
    let cut = &line[..line.len().min(600)];
    let rest = if cut.len() < line.len() { format!(" .. {} bytes", line.len()) } else { String::new() };
    cut.escape_ascii().to_string() + &rest
}

/// The first line on which two answers differ.
fn line_by_line(stream: &[u8], given: &[u8], expected: &[u8]) -> String {
    let show = |bytes: Option<&&[u8]>| bytes.map_or("nothing".to_string(), |line| readable(line));
    let (stream, given, expected) = (lines(stream), lines(given), lines(expected));
    for at in 0..stream.len() {
        if given.get(at) != expected.get(at) {
            let (frame, got, wanted) = (show(stream.get(at)), show(given.get(at)), show(expected.get(at)));
            return format!("  line {}: {frame}\n  given:    {got}\n  expected: {wanted}", at + 1);
        }
    }
    "  no line differs".to_string()
}

/// What the oracle says to a stream: its answers, and the state after each accepted correction that is to be loaded afresh.
struct Expected {
    answers: Vec<u8>,
    corrected: Vec<(usize, String, State)>,
}

/// The oracle's answers, or its refusal of the whole stream in a room that is long enough. Of long histories some corrections are taken.
fn expected(stream: &[u8], dice: &mut Dice) -> Result<Expected, i64> {
    if let Some(number) = whole_stream_refusal(stream, usize::MAX) {
        return Err(number);
    }
    let all = lines(stream);
    let some = 1 + all.len() / 12;
    let mut state = State::Nothing;
    let mut expected = Expected { answers: vec![], corrected: vec![] };
    for (at, line) in all.into_iter().enumerate() {
        let answer = step(&mut state, line);
        expected.answers.extend(answer.bytes().chain([b'\n']));
        let correction = line.starts_with(b"05") || line.starts_with(b"06");
        if correction && answer.starts_with("00") && dice.once_in(some) {
            expected.corrected.push((at + 1, answer, state.clone()));
        }
    }
    Ok(expected)
}

/// All comparisons on one stream.
pub fn judge(subject: Subject, stream: &[u8], dice: &mut Dice) -> Result<(), String> {
    let (answers, corrected) = match expected(stream, dice) {
        Ok(Expected { answers, corrected }) => (Ok(answers), corrected),
        Err(number) => (Err(number), vec![]),
    };
    let exact = 33 * lines(stream).len();
    expect(subject, stream, exact, &answers, dice)?;
    let larger = exact + if dice.once_in(64) { 100_000 } else { 1 + dice.below(100) };
    expect(subject, stream, larger, &answers, dice)?;
    if exact > 0 {
        let short = answers.as_ref().err().copied().unwrap_or(-3);
        for room in [exact - 1, dice.below(exact), 0] {
            expect(subject, stream, room, &Err(short), dice)?;
        }
    }
    let Ok(answers) = answers else { return Ok(()) };
    last_line_feed(subject, stream, &answers, dice)?;
    struck_out(subject, stream, &answers, dice)?;
    edges_struck_out(subject, stream, &answers, dice)?;
    ends_exchanged(subject, stream, &answers, dice)?;
    corrected.iter().try_for_each(|(line, answer, state)| fresh_load(subject, *line, answer, state, dice))
}

/// "text after the last line feed, if there is any, is a line too": without its last line feed the stream says the same.
fn last_line_feed(subject: Subject, stream: &[u8], answers: &[u8], dice: &mut Dice) -> Result<(), String> {
    match stream.split_last() {
        Some((b'\n', shorter)) if shorter.last().is_some_and(|&byte| byte != b'\n') => {
            let room = 33 * lines(shorter).len();
            expect(subject, shorter, room, &Ok(answers.to_vec()), dice).map_err(|why| format!("without the last line feed: {why}"))
        }
        _ => Ok(()),
    }
}

/// Only these lines, which the other ones must not matter to: their answers stay.
fn kept_alone(subject: Subject, stream: &[u8], answers: &[u8], kept: &[usize], dice: &mut Dice) -> Result<(), String> {
    let (frames, answered) = (lines(stream), lines(answers));
    if kept.len() == frames.len() {
        return Ok(());
    }
    let put = |from: &[&[u8]]| -> Vec<u8> { kept.iter().flat_map(|&at| [from[at], b"\n"].concat()).collect() };
    let (stream, answers) = (put(&frames), put(&answered));
    expect(subject, &stream, 33 * kept.len(), &Ok(answers), dice)
}

/// "Refused: [...] nothing held changes": with the refused lines struck out the other answers stay.
fn struck_out(subject: Subject, stream: &[u8], answers: &[u8], dice: &mut Dice) -> Result<(), String> {
    let answered = lines(answers);
    let kept: Vec<usize> = (0..answered.len()).filter(|&at| answered[at].starts_with(b"00")).collect();
    kept_alone(subject, stream, answers, &kept, dice).map_err(|why| format!("refused lines struck out: {why}"))
}

/// Frame 0C asks: with its lines struck out, refused ones too, the other answers stay.
fn edges_struck_out(subject: Subject, stream: &[u8], answers: &[u8], dice: &mut Dice) -> Result<(), String> {
    let frames = lines(stream);
    let kept: Vec<usize> = (0..frames.len()).filter(|&at| !frames[at].starts_with(b"0C")).collect();
    kept_alone(subject, stream, answers, &kept, dice).map_err(|why| format!("0C lines struck out: {why}"))
}

/// "two point numbers (4 each) in either order": with the two exchanged in each 0C line, refused ones too, all answers stay.
fn ends_exchanged(subject: Subject, stream: &[u8], answers: &[u8], dice: &mut Dice) -> Result<(), String> {
    let asks = |line: &[u8]| line.len() == 10 && line.starts_with(b"0C");
    let frames = lines(stream);
    if !frames.iter().any(|line| asks(line)) {
        return Ok(());
    }
    let exchanged = |line: &&[u8]| if asks(line) { [&line[..2], &line[6..], &line[2..6]].concat() } else { line.to_vec() };
    let stream: Vec<u8> = frames.iter().flat_map(|line| exchanged(line).into_iter().chain([b'\n'])).collect();
    // A stream of the full length without its last line feed has no room for one.
    let stream = if stream.len() > 65_535 { &stream[..stream.len() - 1] } else { &stream };
    expect(subject, stream, 33 * frames.len(), &Ok(answers.to_vec()), dice).map_err(|why| format!("ends exchanged: {why}"))
}

/// The frames that load these tables.
fn load_frames(tables: &Tables) -> String {
    let mut frames = format!("01{:04X}\n", tables.tolerance);
    for place in &tables.points {
        frames += &format!("02{:08X}{:08X}{:08X}\n", place.x as i32, place.y as i32, place.z as i32);
    }
    for ring in &tables.polygons {
        frames += "03";
        ring.iter().for_each(|entry| frames += &format!("{entry:04X}"));
        frames += "\n";
    }
    frames + "04\n"
}

/// Two points to be asked for: those of a step of some ring, or any two.
fn some_ends(tables: &Tables, dice: &mut Dice) -> [usize; 2] {
    let any = [dice.below(tables.points.len()), dice.below(tables.points.len())];
    if dice.once_in(4) {
        return any;
    }
    across::step(dice, &tables.polygons).unwrap_or(any)
}

/// Demand 3: the report after an accepted correction is the one that a fresh load of the corrected tables gives, and so are finding,
/// position and part of a polygon. "After any correction it equals the list made afresh": so are the users of an edge, asked for from
/// either end.
fn fresh_load(subject: Subject, line: usize, answer: &str, state: &State, dice: &mut Dice) -> Result<(), String> {
    let tables = state.tables();
    let polygon = dice.below(tables.polygons.len());
    let question = format!("07{polygon:04X}");
    let asked = step(&mut state.clone(), question.as_bytes());
    // A fresh load has all stamps 0.
    let asked = if asked.len() == 32 { format!("{}00000000{}", &asked[..8], &asked[16..]) } else { asked };
    let [a, b] = some_ends(&tables, dice);
    let (edge, from_the_other) = (format!("0C{a:04X}{b:04X}"), format!("0C{b:04X}{a:04X}"));
    let across = step(&mut state.clone(), edge.as_bytes());
    let loads = 1 + tables.points.len() + tables.polygons.len();
    let answers = "00\n".repeat(loads) + &format!("{answer}\n{asked}\n{across}\n{across}\n");
    let stream = load_frames(&tables) + &format!("{question}\n{edge}\n{from_the_other}\n");
    expect(subject, stream.as_bytes(), 33 * (loads + 4), &Ok(answers.into_bytes()), dice)
        .map_err(|why| format!("fresh load of the tables after line {line}: {why}"))
}

/// The stream with as many lines dropped as leave some comparison failing, and as can be tried within a few seconds.
pub fn shrink(stream: &[u8], fails: impl Fn(&[u8]) -> bool) -> Vec<u8> {
    let put = |lines: &[Vec<u8>]| -> Vec<u8> { lines.iter().flat_map(|line| line.iter().copied().chain([b'\n'])).collect() };
    let mut kept: Vec<Vec<u8>> = lines(stream).into_iter().map(<[u8]>::to_vec).collect();
    if !fails(&put(&kept)) {
        return stream.to_vec();
    }
    let begun = Instant::now();
    let in_time = || begun.elapsed() < Duration::from_secs(5);
    let mut piece = kept.len().div_ceil(2);
    while piece > 0 && in_time() {
        let mut at = 0;
        while at < kept.len() && in_time() {
            let mut fewer = kept.clone();
            fewer.drain(at..(at + piece).min(kept.len()));
            if fails(&put(&fewer)) {
                kept = fewer;
            } else {
                at += piece;
            }
        }
        piece = if piece == 1 { 0 } else { piece.div_ceil(2) };
    }
    put(&kept)
}
