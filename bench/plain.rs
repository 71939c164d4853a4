// The yardstick: a plain program that gives the same answers to the same scripts, as fast as one would write it by hand, with no checks
// of what a script asks and no proofs. It reads `volume`, `write` and `read` lines, and one `iiadm` line for each master.
// It compares blocks where they lie, copies a chunk once and only before its first write, and gives each answer by one write.
use std::collections::HashMap;
use std::fs::File;
use std::io::{BufRead, BufReader, Write};
use std::os::fd::FromRawFd;

const BLOCK: usize = 512;
const CHUNK: usize = 64 * BLOCK;
const MOST: usize = 1_048_576;

struct Volume {
    bytes: Vec<u8>,
    // The shadow of this volume, and the master of it.
    shadow: Option<usize>,
    master: Option<usize>,
    // Which chunks of a shadow are its own; the others are read from the master.
    own: Vec<bool>,
}

struct Host {
    names: HashMap<Vec<u8>, usize>,
    volumes: Vec<Volume>,
    blocks: usize,
}

fn number(word: &[u8]) -> usize {
    word.iter().fold(0, |n, digit| 10 * n + usize::from(digit - b'0'))
}

fn hex(digit: u8) -> u8 {
    if digit.is_ascii_digit() { digit - b'0' } else { digit - b'a' + 10 }
}

fn pattern(block: &[u8]) -> &[u8] {
    if block[16..] != block[..BLOCK - 16] {
        return block;
    }
    let mut len = 16;
    while len > 1 && block[len / 2..len] == block[..len / 2] {
        len /= 2;
    }
    &block[..len]
}

fn push_number(text: &mut Vec<u8>, mut number: usize) {
    let mut digits = [0; 20];
    let mut at = digits.len();
    loop {
        at -= 1;
        digits[at] = b'0' + (number % 10) as u8;
        number /= 10;
        if number == 0 {
            break;
        }
    }
    text.extend_from_slice(&digits[at..]);
}

fn push_run(text: &mut Vec<u8>, count: usize, block: &[u8]) {
    text.push(b' ');
    push_number(text, count);
    text.push(b'*');
    for byte in pattern(block) {
        text.push(b"0123456789abcdef"[usize::from(byte / 16)]);
        text.push(b"0123456789abcdef"[usize::from(byte % 16)]);
    }
}

impl Host {
    // A block of a volume, where it lies.
    fn block(&self, volume: usize, at: usize) -> &[u8] {
        let volume = &self.volumes[volume];
        let bytes = match volume.master {
            Some(master) if !volume.own[at / 64] => &self.volumes[master].bytes,
            _ => &volume.bytes,
        };
        &bytes[BLOCK * at..BLOCK * (at + 1)]
    }

    fn read(&self, volume: usize, at: usize, len: usize, text: &mut Vec<u8>) {
        text.extend_from_slice(b"data");
        let mut place = at;
        while place < at + len {
            let block = self.block(volume, place);
            let mut end = place + 1;
            while end < at + len && self.block(volume, end) == block {
                end += 1;
            }
            push_run(text, end - place, block);
            place = end;
        }
        text.push(b'\n');
    }

    // Copies the chunks of a range of a master to its shadow, where they are not copied yet.
    fn save(&mut self, master: usize, shadow: usize, at: usize, len: usize) {
        let [from, to] = self.volumes.get_disjoint_mut([master, shadow]).unwrap();
        for chunk in at / 64..(at + len).div_ceil(64) {
            if !to.own[chunk] {
                let end = from.bytes.len().min(CHUNK * (chunk + 1));
                to.bytes[CHUNK * chunk..end].copy_from_slice(&from.bytes[CHUNK * chunk..end]);
                to.own[chunk] = true;
            }
        }
    }

    fn write(&mut self, volume: usize, at: usize, len: usize, byte: u8) {
        if let Some(shadow) = self.volumes[volume].shadow {
            self.save(volume, shadow, at, len);
        }
        if let Some(master) = self.volumes[volume].master {
            self.save(master, volume, at, len);
        }
        self.volumes[volume].bytes[BLOCK * at..BLOCK * (at + len)].fill(byte);
    }

    fn add(&mut self, name: &[u8], blocks: usize) -> &'static [u8] {
        if self.names.contains_key(name) {
            return b"refused Exists\n";
        }
        if self.blocks + blocks > MOST {
            return b"refused Limit 1048576\n";
        }
        self.names.insert(name.to_vec(), self.volumes.len());
        self.volumes.push(Volume { bytes: vec![0; BLOCK * blocks], shadow: None, master: None, own: Vec::new() });
        self.blocks += blocks;
        b"ok\n"
    }

    fn enable(&mut self, master: usize, shadow: usize) {
        self.volumes[master].shadow = Some(shadow);
        self.volumes[shadow].master = Some(master);
        self.volumes[shadow].own = vec![false; self.volumes[master].bytes.len().div_ceil(CHUNK)];
    }

    fn answer(&mut self, line: &[u8], text: &mut Vec<u8>) {
        let mut words = line.split(|byte| *byte == b' ');
        let (first, _, name) = (words.next().unwrap(), words.next(), words.next().unwrap());
        match first {
            b"volume" => text.extend_from_slice(self.add(name, number(words.next().unwrap()))),
            b"iiadm" => {
                let (master, shadow) = (words.nth(1).unwrap(), words.next().unwrap());
                self.enable(self.names[master], self.names[shadow]);
                text.extend_from_slice(b"ok\n");
            }
            _ => {
                let (at, len) = (number(words.next().unwrap()), number(words.next().unwrap()));
                let volume = self.names[name];
                match words.next() {
                    Some(digits) => {
                        self.write(volume, at, len, 16 * hex(digits[0]) + hex(digits[1]));
                        text.extend_from_slice(b"ok\n");
                    }
                    None => self.read(volume, at, len, text),
                }
            }
        }
    }
}

fn main() {
    let mut host = Host { names: HashMap::new(), volumes: Vec::new(), blocks: 0 };
    // Standard output with no buffer of its own.
    let mut out = unsafe { File::from_raw_fd(1) };
    let mut input = BufReader::with_capacity(16384, std::io::stdin());
    let (mut line, mut text) = (Vec::new(), Vec::new());
    while input.read_until(b'\n', &mut line).unwrap() > 0 {
        if line.last() == Some(&b'\n') {
            line.pop();
        }
        text.clear();
        host.answer(&line, &mut text);
        out.write_all(&text).unwrap();
        line.clear();
    }
}
