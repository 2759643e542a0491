//! Whole runs of crashbpf over logs that this program makes: images a second, and peak memory.
//!
//! Usage: runs CRASHBPF FOLDER, where FOLDER takes the logs and the checker.

use std::io::Write;
use std::path::{Path, PathBuf};
use std::process::{Command, Stdio};
use std::time::{Duration, Instant};
use std::{env, fs, io, thread};

const SECTOR: usize = 512;

const FLUSH: u64 = 1;

/// `mov64 r1, 0; call 1; jne r0, 0, +2; mov64 r0, 0; exit; ldxb r0, [r0+0]; mov64 r0, 0; exit`: reads
/// the first byte of sector 0, and finds every image good.
const CHECKER: [u8; 64] = [
    0xb7, 1, 0, 0, 0, 0, 0, 0, 0x85, 0, 0, 0, 1, 0, 0, 0, 0x55, 0, 2, 0, 0, 0, 0, 0, 0xb7, 0, 0, 0,
    0, 0, 0, 0, 0x95, 0, 0, 0, 0, 0, 0, 0, 0x71, 0, 0, 0, 0, 0, 0, 0, 0xb7, 0, 0, 0, 0, 0, 0, 0,
    0x95, 0, 0, 0, 0, 0, 0, 0,
];

/// A log: its super block, and then its entries.
struct LogBytes {
    entries: u64,
    bytes: Vec<u8>,
}

impl LogBytes {
    fn new() -> LogBytes {
        LogBytes {
            entries: 0,
            bytes: vec![0; SECTOR],
        }
    }

    /// Appends an entry that writes `count` sectors from `sector` on, each byte `fill`.
    fn push(&mut self, sector: u64, count: u64, flags: u64, fill: u8) {
        let mut header = [0; SECTOR];
        header[..8].copy_from_slice(&sector.to_le_bytes());
        header[8..16].copy_from_slice(&count.to_le_bytes());
        header[16..24].copy_from_slice(&flags.to_le_bytes());
        self.bytes.extend_from_slice(&header);
        let end = self.bytes.len() + SECTOR * count as usize;
        self.bytes.resize(end, fill);
        self.entries += 1;
    }

    fn finish(mut self) -> Vec<u8> {
        self.bytes[..8].copy_from_slice(&0x6a73_6677_7368_72u64.to_le_bytes());
        self.bytes[8..16].copy_from_slice(&1u64.to_le_bytes());
        self.bytes[16..24].copy_from_slice(&self.entries.to_le_bytes());
        self.bytes[24..28].copy_from_slice(&(SECTOR as u32).to_le_bytes());
        self.bytes
    }
}

/// That many writes of one sector each, spread over the first 64 sectors, in that many epochs.
fn epochs(writes: u64, epochs: u64) -> Vec<u8> {
    let mut log = LogBytes::new();
    for write in 0..writes {
        log.push(write * 37 % 64, 1, 0, (write % 251) as u8 + 1);
        if (write + 1) % (writes / epochs) == 0 {
            log.push(0, 0, FLUSH, 0);
        }
    }
    log.finish()
}

/// A log near 64 MiB: eight writes of 16,000 sectors each.
fn long() -> Vec<u8> {
    let mut log = LogBytes::new();
    for write in 0..8 {
        log.push(0, 16_000, 0, write + 1);
    }
    log.finish()
}

/// What a run took, what it printed last, and the most memory that it had, in KiB, as far as it was
/// seen: it is looked at every millisecond.
struct Taken {
    time: Duration,
    last: String,
    memory: u64,
}

/// The peak of a process's memory, in KiB.
fn peak(process: u32) -> Option<u64> {
    let status = fs::read_to_string(format!("/proc/{process}/status")).ok()?;
    let line = status.lines().find(|line| line.starts_with("VmHWM:"))?;
    line.split_whitespace().nth(1)?.parse().ok()
}

fn run(program: &Path, words: &[&str]) -> io::Result<Taken> {
    let start = Instant::now();
    let mut child = Command::new(program)
        .args(words)
        .stdout(Stdio::piped())
        .spawn()?;
    let process = child.id();
    let watch = thread::spawn(move || {
        let mut memory = 0;
        while let Some(seen) = peak(process) {
            memory = seen;
            thread::sleep(Duration::from_millis(1));
        }
        memory
    });
    let mut text = String::new();
    if let Some(mut out) = child.stdout.take() {
        io::Read::read_to_string(&mut out, &mut text)?;
    }
    child.wait()?;
    let time = start.elapsed();
    let memory = watch.join().unwrap_or(0);
    let last = text.lines().last().unwrap_or("").to_string();
    Ok(Taken { time, last, memory })
}

/// The number of images in the last line of a report, `images N ..`.
fn images(last: &str) -> f64 {
    let number = last.split(' ').nth(1).and_then(|word| word.parse().ok());
    number.unwrap_or(0.0)
}

fn explore(program: &Path, folder: &Path, name: &str, asked: &str) -> io::Result<()> {
    let log = folder.join(name);
    let checker = folder.join("checker.bpf");
    let mut words = vec!["explore"];
    let (log, checker) = (log.display().to_string(), checker.display().to_string());
    words.extend([log.as_str(), checker.as_str(), "--checked", "100"]);
    words.extend(asked.split(' '));
    let taken = run(program, &words)?;
    let count = images(&taken.last);
    println!(
        "explore {name} {asked}: {count} images, {:.0} images/s, {:.2} s, {} MiB",
        count / taken.time.as_secs_f64(),
        taken.time.as_secs_f64(),
        taken.memory / 1024
    );
    Ok(())
}

fn main() -> io::Result<()> {
    let words: Vec<PathBuf> = env::args_os().skip(1).map(PathBuf::from).collect();
    let [program, folder] = words.as_slice() else {
        eprintln!("usage: runs CRASHBPF FOLDER");
        return Ok(());
    };
    fs::create_dir_all(folder)?;
    fs::write(folder.join("checker.bpf"), CHECKER)?;
    fs::write(folder.join("epochs.log"), epochs(400, 20))?;
    let long = long();
    fs::write(folder.join("long.log"), &long)?;
    explore(program, folder, "epochs.log", "--sectors 64 --bound 1")?;
    explore(program, folder, "epochs.log", "--sectors 64 --bound 2")?;
    explore(program, folder, "epochs.log", "--sectors 16384 --bound 1 --cuts flush")?;
    let path = folder.join("long.log").display().to_string();
    let words = ["images", path.as_str(), "--sectors", "16384", "--cuts", "mark"];
    let taken = run(program, &words)?;
    println!(
        "images long.log, no cut: {:.2} s for {} MiB, {} MiB",
        taken.time.as_secs_f64(),
        long.len() >> 20,
        taken.memory / 1024
    );
    io::stdout().flush()
}
