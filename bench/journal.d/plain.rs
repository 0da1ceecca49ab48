// The work of bench/journal in plain Rust: the same calls on the file, the same bytes cut into the same vectors.
//
// `append FILE COUNT` begins a journal in a new file and adds so many bodies of 200 bytes; `mount FILE` reads one back.
use std::env;
use std::fs::{File, OpenOptions};
use std::io::{Error, ErrorKind, Result};
use std::os::unix::fs::FileExt;

const BODY: usize = 200;

fn opened(path: &str) -> Result<File> {
    OpenOptions::new().read(true).write(true).create(true).truncate(false).open(path)
}

fn write_through(file: &File, at: u64, bytes: &[u8]) -> Result<()> {
    file.write_all_at(bytes, at)?;
    file.sync_data()
}

fn append(path: &str, count: u64) -> Result<()> {
    let file = opened(path)?;
    write_through(&file, 0, b"GCSJ0001")?;
    write_through(&file, 8, &[0])?;
    let mut end = 8;
    let mut record = Vec::with_capacity(BODY + 5);
    for _ in 0..count {
        record.clear();
        record.extend((BODY as u32).to_be_bytes());
        record.extend([b'x'; BODY]);
        record.push(0);
        write_through(&file, end + 1, &record)?;
        write_through(&file, end, &[1])?;
        end += 5 + BODY as u64;
    }
    println!("end {end}");
    Ok(())
}

fn first_record(bytes: &[u8]) -> Option<(&[u8], &[u8])> {
    let (&gate, rest) = bytes.split_first()?;
    let (length, rest) = rest.split_first_chunk::<4>()?;
    let length = u32::from_be_bytes(*length) as usize;
    if gate != 1 || rest.len() <= length {
        return None;
    }
    Some(rest.split_at(length))
}

fn mount(path: &str) -> Result<()> {
    let file = opened(path)?;
    file.sync_data()?;
    let mut bytes = vec![0; file.metadata()?.len() as usize];
    file.read_exact_at(&mut bytes, 0)?;
    if !bytes.starts_with(b"GCSJ0001") {
        return Err(Error::from(ErrorKind::InvalidData));
    }
    let mut bodies = Vec::new();
    let mut rest = &bytes[8..];
    while let Some((body, behind)) = first_record(rest) {
        bodies.push(body.to_vec());
        rest = behind;
    }
    let end = bytes.len() - rest.len();
    if rest.first() != Some(&0) {
        write_through(&file, end as u64, &[0])?;
    }
    println!("bodies {} end {end}", bodies.len());
    Ok(())
}

fn main() -> Result<()> {
    let words: Vec<String> = env::args().skip(1).collect();
    match words.iter().map(String::as_str).collect::<Vec<_>>()[..] {
        ["append", path, count] => append(path, count.parse().map_err(|_| ErrorKind::InvalidInput)?),
        ["mount", path] => mount(path),
        _ => Err(Error::from(ErrorKind::InvalidInput)),
    }
}
