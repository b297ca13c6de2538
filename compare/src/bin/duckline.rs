//! The program duckline with the comparison Rust: frames on standard input (480 samples of
//! the key, then 480 of each channel of the bed, f32 little-endian), a line for each on
//! standard output. `--bed LAYOUT`: a bed of stereo, 5.1 or 7.1.

use std::io::{self, Read, Write};

use compare::driver::{Answer, Chain, Refusal};
use compare::surround;

/// Bytes of 480 samples.
const STRAND: usize = 1920;

fn samples(bytes: &[u8]) -> Vec<f32> {
    let number = |b: &[u8]| f32::from_le_bytes([b[0], b[1], b[2], b[3]]);
    bytes.chunks_exact(4).map(number).collect()
}

fn line(number: u64, answer: Result<Answer, Refusal>) -> String {
    match answer {
        Ok(a) => {
            let [key, bed] = a.strands.map(|s| u8::from(s.speech_active));
            let hundredths = (a.status.reduction_db * 100.0).round() as i64;
            format!("{number} {} {key} {bed} {hundredths}\n", a.status.state)
        }
        Err(refusal) => format!("{number} refused {refusal}\n"),
    }
}

/// Reads until the buffer is full or the input ends; how many bytes were read.
fn fill(input: &mut impl Read, buffer: &mut [u8]) -> io::Result<usize> {
    let mut full = 0;
    while full < buffer.len() {
        match input.read(&mut buffer[full..])? {
            0 => break,
            n => full += n,
        }
    }
    Ok(full)
}

fn main() -> io::Result<()> {
    let mut input = io::BufReader::with_capacity(1 << 16, io::stdin().lock());
    let mut output = io::BufWriter::new(io::stdout().lock());
    let arguments: Vec<String> = std::env::args().skip(1).collect();
    let layout = match &arguments[..] {
        [] => "mono",
        [option, layout] if option == "--bed" => layout,
        _ => return Err(io::Error::other("only --bed LAYOUT can be given")),
    };
    let unknown = || io::Error::other(format!("{layout} is no layout"));
    let places = surround::named(layout).ok_or_else(unknown)?;
    let mut chain = Chain::default();
    if places.len() > 1 {
        chain.set_layout(places).expect("a usual layout");
    }
    let mut frame = vec![0; (1 + places.len()) * STRAND];
    for number in 1.. {
        let read = fill(&mut input, &mut frame)?;
        if read < frame.len() {
            if read > 0 {
                writeln!(output, "short {read}")?;
            }
            break;
        }
        let answer = chain.frame(&samples(&frame[..STRAND]), &samples(&frame[STRAND..]));
        output.write_all(line(number, answer).as_bytes())?;
    }
    output.flush()
}
