//! The algorithms of `crates/bench_codes` in plain Rust, to compare times with:
//! `baseline codes keys`. Both programs write the same lines to standard output.
use std::time::Instant;

fn say(subject: &str, call: &str, start: Instant, answer: u64) {
    let spent = start.elapsed().as_nanos();
    println!("{subject} {call} {answer}");
    eprintln!("{subject} {call} {spent}");
}

#[derive(Clone, Copy)]
enum Pattern {
    Mixed,
    Repeated,
    Rare,
    Ascending,
}

fn scattered(x: u64) -> u64 {
    let y = (x ^ (x >> 31)).wrapping_mul(0x9e37_79b9_7f4a_7c15);
    let z = (y ^ (y >> 29)).wrapping_mul(0xbf58_476d_1ce4_e5b9);
    z ^ (z >> 32)
}

fn drawn(x: u64, reach: u32) -> u32 {
    (scattered(x) % u64::from(reach)) as u32
}

fn code_at(pattern: Pattern, i: u32, reach: u32) -> u32 {
    match pattern {
        Pattern::Mixed => drawn(u64::from(i), reach),
        Pattern::Repeated => drawn(u64::from(i / 100), reach),
        Pattern::Rare => {
            if drawn(u64::from(i), 20) == 0 {
                drawn(u64::from(i) << 32, reach)
            } else {
                0
            }
        }
        Pattern::Ascending => i.min(reach - 1),
    }
}

/// Codes of `width` bits each, and eight zero bytes behind them.
struct BitList {
    bytes: Vec<u8>,
    len: u32,
    width: u8,
}

struct BitWriter {
    bytes: Vec<u8>,
    word: u64,
    bits: u32,
}

impl BitWriter {
    fn with_capacity(bytes: usize) -> Self {
        BitWriter {
            bytes: Vec::with_capacity(bytes),
            word: 0,
            bits: 0,
        }
    }

    fn put(&mut self, value: u32, width: u8) {
        self.word |= u64::from(value) << self.bits;
        self.bits += u32::from(width);
        if self.bits >= 32 {
            self.bytes
                .extend_from_slice(&(self.word as u32).to_le_bytes());
            self.word >>= 32;
            self.bits -= 32;
        }
    }

    fn finish(mut self) -> Vec<u8> {
        let rest = self.word.to_le_bytes();
        self.bytes
            .extend_from_slice(&rest[..(self.bits as usize + 7) / 8]);
        self.bytes.extend_from_slice(&[0; 8]);
        self.bytes
    }
}

fn word_at(bytes: &[u8], at: usize) -> u64 {
    u64::from_le_bytes(bytes[at..at + 8].try_into().unwrap())
}

impl BitList {
    fn from_codes(codes: impl Iterator<Item = u32>, len: usize, width: u8) -> Self {
        let mut writer = BitWriter::with_capacity((len * usize::from(width) + 7) / 8 + 8);
        for code in codes {
            writer.put(code, width);
        }
        BitList {
            bytes: writer.finish(),
            len: len as u32,
            width,
        }
    }

    fn get(&self, i: u32) -> u32 {
        let bit = u64::from(i) * u64::from(self.width);
        let word = word_at(&self.bytes, (bit / 8) as usize);
        ((word >> (bit % 8)) & ((1u64 << self.width) - 1)) as u32
    }

    fn word(&self, k: u32) -> u64 {
        word_at(&self.bytes, 8 * k as usize)
    }

    fn bytes_of(&self, out: &mut Vec<u8>) {
        out.extend_from_slice(&self.bytes[..self.bytes.len() - 8]);
    }

    fn from_bytes(bytes: &[u8], rows: u32, width: u8) -> Option<(BitList, usize)> {
        let bits = u64::from(rows) * u64::from(width);
        let count = ((bits + 7) / 8) as usize;
        if bytes.len() < count {
            return None;
        }
        if bits % 8 != 0 && bytes[(bits / 8) as usize] >> (bits % 8) != 0 {
            return None;
        }
        let mut own = Vec::with_capacity(count + 8);
        own.extend_from_slice(&bytes[..count]);
        own.extend_from_slice(&[0; 8]);
        let list = BitList {
            bytes: own,
            len: rows,
            width,
        };
        Some((list, count))
    }

    fn codes(&self) -> Vec<u32> {
        let mut codes = Vec::with_capacity(self.len as usize);
        for i in 0..self.len {
            codes.push(self.get(i));
        }
        codes
    }
}

#[derive(Clone, Copy)]
struct Run {
    code: u32,
    end: u32,
}

struct Runs {
    runs: Vec<Run>,
    len: u32,
}

impl Runs {
    fn from_codes(codes: &[u32]) -> Self {
        let mut runs = Vec::new();
        let len = codes.len() as u32;
        if codes.is_empty() {
            return Runs { runs, len };
        }
        let mut current = codes[0];
        for i in 1..codes.len() {
            if codes[i] != current {
                runs.push(Run {
                    code: current,
                    end: i as u32,
                });
                current = codes[i];
            }
        }
        runs.push(Run {
            code: current,
            end: len,
        });
        Runs { runs, len }
    }

    fn get(&self, i: u32) -> u32 {
        let mut low = 0;
        let mut high = self.runs.len() - 1;
        while low < high {
            let middle = low + (high - low) / 2;
            if self.runs[middle].end <= i {
                low = middle + 1;
            } else {
                high = middle;
            }
        }
        self.runs[low].code
    }

    fn places_in(&self, ranges: &[(u32, u32)], out: &mut Vec<u32>) {
        let mut from = 0;
        for run in &self.runs {
            if is_in(run.code, ranges) {
                append_range(from, run.end, out);
            }
            from = run.end;
        }
    }

    fn bytes_of(&self, out: &mut Vec<u8>) {
        out.extend_from_slice(&(self.runs.len() as u32).to_le_bytes());
        let mut from = 0;
        for run in &self.runs {
            let entry = u64::from(run.end - from) << 32 | u64::from(run.code);
            out.extend_from_slice(&entry.to_le_bytes());
            from = run.end;
        }
    }

    fn from_bytes(bytes: &[u8], rows: u32, width: u8) -> Option<(Runs, usize)> {
        if bytes.len() < 4 {
            return None;
        }
        let count = read_word(bytes) as usize;
        let entries = &bytes[4..];
        if entries.len() / 8 < count {
            return None;
        }
        let mut runs: Vec<Run> = Vec::with_capacity(count);
        let mut end = 0;
        for k in 0..count {
            let code = read_word(&entries[8 * k..]);
            let length = read_word(&entries[8 * k + 4..]);
            if length == 0 || length > rows - end || u64::from(code) >> width != 0 {
                return None;
            }
            if runs.last().is_some_and(|run| run.code == code) {
                return None;
            }
            end += length;
            runs.push(Run { code, end });
        }
        if end != rows {
            return None;
        }
        Some((Runs { runs, len: rows }, 4 + 8 * count))
    }
}

struct Sparse {
    left_out: u32,
    marks: BitList,
    others: BitList,
    ranks: Vec<u32>,
}

fn ranks_of(marks: &BitList) -> Vec<u32> {
    let blocks = marks.len / 64 + 1;
    let mut ranks = Vec::with_capacity(blocks as usize + 1);
    let mut before = 0;
    for k in 0..blocks {
        ranks.push(before);
        before += marks.word(k).count_ones();
    }
    ranks.push(before);
    ranks
}

impl Sparse {
    fn leaving_out(codes: &[u32], width: u8, left_out: Frequency) -> Self {
        let left = left_out.code;
        let marks = BitList::from_codes(
            codes.iter().map(|code| u32::from(*code != left)),
            codes.len(),
            1,
        );
        let others = BitList::from_codes(
            codes.iter().copied().filter(|code| *code != left),
            codes.len() - left_out.count as usize,
            width,
        );
        let ranks = ranks_of(&marks);
        Sparse {
            left_out: left,
            marks,
            others,
            ranks,
        }
    }

    fn get(&self, i: u32) -> u32 {
        let word = self.marks.word(i / 64);
        if word >> (i % 64) & 1 == 0 {
            return self.left_out;
        }
        let before = word & ((1u64 << (i % 64)) - 1);
        self.others
            .get(self.ranks[(i / 64) as usize] + before.count_ones())
    }

    fn marks_from(&self, row: u32) -> u64 {
        self.marks.word(row / 64) >> (row % 64)
    }

    fn next_mark(&self, row: u32) -> u32 {
        let mut at = row;
        let mut rest = self.marks_from(at);
        while rest == 0 {
            at = (at / 64 + 1) * 64;
            rest = self.marks_from(at);
        }
        at + rest.trailing_zeros()
    }

    fn places_in(&self, ranges: &[(u32, u32)], out: &mut Vec<u32>) {
        if is_in(self.left_out, ranges) {
            out.reserve(self.marks.len as usize);
            let mut from = 0;
            for rank in 0..self.others.len {
                let mark = self.next_mark(from);
                let end = mark + u32::from(is_in(self.others.get(rank), ranges));
                append_range(from, end, out);
                from = mark + 1;
            }
            append_range(from, self.marks.len, out);
            return;
        }
        for k in 0..self.marks.len / 64 + 1 {
            let mut rank = self.ranks[k as usize];
            let mut rest = self.marks.word(k);
            while rest != 0 {
                if is_in(self.others.get(rank), ranges) {
                    out.push(64 * k + rest.trailing_zeros());
                }
                rank += 1;
                rest &= rest - 1;
            }
        }
    }

    fn codes(&self) -> Vec<u32> {
        let mut codes = Vec::with_capacity(self.marks.len as usize);
        let mut from = 0;
        for rank in 0..self.others.len {
            let mark = self.next_mark(from);
            codes.resize(mark as usize, self.left_out);
            codes.push(self.others.get(rank));
            from = mark + 1;
        }
        codes.resize(self.marks.len as usize, self.left_out);
        codes
    }

    fn bytes_of(&self, out: &mut Vec<u8>) {
        out.extend_from_slice(&self.left_out.to_le_bytes());
        self.marks.bytes_of(out);
        self.others.bytes_of(out);
    }

    fn from_bytes(bytes: &[u8], rows: u32, width: u8) -> Option<(Sparse, usize)> {
        if bytes.len() < 4 {
            return None;
        }
        let left_out = read_word(bytes);
        if u64::from(left_out) >> width != 0 {
            return None;
        }
        let behind = &bytes[4..];
        let (marks, marks_len) = BitList::from_bytes(behind, rows, 1)?;
        let ranks = ranks_of(&marks);
        let marked = ranks[ranks.len() - 1];
        let (others, others_len) = BitList::from_bytes(&behind[marks_len..], marked, width)?;
        let sparse = Sparse {
            left_out,
            marks,
            others,
            ranks,
        };
        let top = most_frequent(&sparse.codes());
        if top.code != left_out || top.count != rows - marked {
            return None;
        }
        Some((sparse, 4 + marks_len + others_len))
    }
}

fn is_in(code: u32, ranges: &[(u32, u32)]) -> bool {
    ranges
        .iter()
        .any(|range| range.0 <= code && code < range.1)
}

fn append_range(from: u32, to: u32, out: &mut Vec<u32>) {
    for i in from..to {
        out.push(i);
    }
}

fn read_word(bytes: &[u8]) -> u32 {
    u32::from_le_bytes(bytes[..4].try_into().unwrap())
}

#[derive(Clone, Copy)]
struct Frequency {
    code: u32,
    count: u32,
}

fn most_frequent(codes: &[u32]) -> Frequency {
    let greatest = codes.iter().copied().max().unwrap_or(0) as usize;
    if greatest / 4 > codes.len() {
        return longest_run(codes);
    }
    let mut counts = vec![0u32; greatest + 1];
    for code in codes {
        counts[*code as usize] += 1;
    }
    let mut best = 0;
    for i in 1..counts.len() {
        if counts[i] > counts[best] {
            best = i;
        }
    }
    Frequency {
        code: best as u32,
        count: counts[best],
    }
}

fn longest_run(codes: &[u32]) -> Frequency {
    let mut sorted = codes.to_vec();
    sorted.sort_unstable();
    let mut best = Frequency { code: 0, count: 0 };
    let mut run = best;
    for code in sorted {
        let count = if run.code == code { run.count + 1 } else { 1 };
        run = Frequency { code, count };
        if run.count > best.count {
            best = run;
        }
    }
    best
}

fn count_runs(codes: &[u32]) -> u32 {
    let mut count = u32::from(!codes.is_empty());
    for i in 1..codes.len() {
        if codes[i] != codes[i - 1] {
            count += 1;
        }
    }
    count
}

fn width_of(reach: u32) -> u8 {
    (0..32)
        .find(|width| u64::from(reach) <= 1u64 << width)
        .unwrap_or(32)
}

/// How many codes a block has.
const BLOCK: u32 = 1024;

/// Packed codes, and the least and the greatest of each block.
struct Packed {
    list: BitList,
    bounds: Vec<(u32, u32)>,
}

impl Packed {
    fn of(list: BitList) -> Self {
        let mut bounds = Vec::with_capacity((list.len as usize + 1023) / 1024);
        for start in (0..list.len).step_by(BLOCK as usize) {
            let (mut least, mut greatest) = (u32::MAX, 0);
            for i in start..list.len.min(start + BLOCK) {
                let code = list.get(i);
                least = least.min(code);
                greatest = greatest.max(code);
            }
            bounds.push((least, greatest));
        }
        Packed { list, bounds }
    }

    fn keep_in(&self, ranges: &[(u32, u32)], mask: &mut [u64]) {
        for k in 0..mask.len() as u32 {
            let (least, greatest) = self.bounds[(64 * k / BLOCK) as usize];
            if ranges.iter().any(|range| range.0 <= least && greatest < range.1) {
                continue;
            }
            let mut bits = 0;
            if ranges.iter().any(|range| range.0 <= greatest && least < range.1) {
                for i in (64 * k..self.list.len.min(64 * k + 64)).rev() {
                    bits = bits << 1 | u64::from(is_in(self.list.get(i), ranges));
                }
            }
            mask[k as usize] &= bits;
        }
    }
}

enum Shape {
    Packed(Packed),
    Runs(Runs),
    Sparse(Sparse),
}

struct CodeVec {
    shape: Shape,
    width: u8,
}

fn choose(codes: &[u32], width: u8) -> (u8, Frequency) {
    let top = most_frequent(codes);
    let rows = codes.len() as u32;
    (least(rows, width, count_runs(codes), rows - top.count), top)
}

fn least(rows: u32, width: u8, runs: u32, exceptions: u32) -> u8 {
    let packed = u64::from(rows) * u64::from(width);
    let runs = 64 * u64::from(runs);
    let sparse = u64::from(rows) + u64::from(exceptions) * u64::from(width);
    if packed <= runs && packed <= sparse {
        0
    } else if runs <= sparse {
        1
    } else {
        2
    }
}

impl CodeVec {
    fn from_codes(codes: &[u32], reach: u32) -> Self {
        let width = width_of(reach);
        let (form, top) = choose(codes, width);
        let shape = match form {
            0 => Shape::Packed(Packed::of(BitList::from_codes(
                codes.iter().copied(),
                codes.len(),
                width,
            ))),
            1 => Shape::Runs(Runs::from_codes(codes)),
            _ => Shape::Sparse(Sparse::leaving_out(codes, width, top)),
        };
        CodeVec { shape, width }
    }

    fn len(&self) -> u32 {
        match &self.shape {
            Shape::Packed(vector) => vector.list.len,
            Shape::Runs(vector) => vector.len,
            Shape::Sparse(vector) => vector.marks.len,
        }
    }

    fn get(&self, i: u32) -> u32 {
        match &self.shape {
            Shape::Packed(vector) => vector.list.get(i),
            Shape::Runs(vector) => vector.get(i),
            Shape::Sparse(vector) => vector.get(i),
        }
    }

    fn places_in(&self, ranges: &[(u32, u32)], out: &mut Vec<u32>) {
        match &self.shape {
            Shape::Packed(vector) => {
                for i in 0..vector.list.len {
                    if is_in(vector.list.get(i), ranges) {
                        out.push(i);
                    }
                }
            }
            Shape::Runs(vector) => vector.places_in(ranges, out),
            Shape::Sparse(vector) => vector.places_in(ranges, out),
        }
    }

    fn keep_in(&self, ranges: &[(u32, u32)], mask: &mut [u64]) {
        if let Shape::Packed(vector) = &self.shape {
            return vector.keep_in(ranges, mask);
        }
        for k in 0..mask.len() as u32 {
            let mut bits = 0;
            for i in (64 * k..self.len().min(64 * k + 64)).rev() {
                bits = bits << 1 | u64::from(is_in(self.get(i), ranges));
            }
            mask[k as usize] &= bits;
        }
    }

    fn bytes_of(&self, out: &mut Vec<u8>) {
        match &self.shape {
            Shape::Packed(vector) => {
                out.push(0);
                vector.list.bytes_of(out);
            }
            Shape::Runs(vector) => {
                out.push(1);
                vector.bytes_of(out);
            }
            Shape::Sparse(vector) => {
                out.push(2);
                vector.bytes_of(out);
            }
        }
    }

    fn from_bytes(bytes: &[u8], rows: u32, reach: u32) -> Option<(CodeVec, usize)> {
        let width = width_of(reach);
        let behind = &bytes[1..];
        let (shape, count) = match *bytes.first()? {
            0 => {
                let (vector, count) = BitList::from_bytes(behind, rows, width)?;
                (Shape::Packed(Packed::of(vector)), count)
            }
            1 => {
                let (vector, count) = Runs::from_bytes(behind, rows, width)?;
                (Shape::Runs(vector), count)
            }
            2 => {
                let (vector, count) = Sparse::from_bytes(behind, rows, width)?;
                (Shape::Sparse(vector), count)
            }
            _ => return None,
        };
        let (form, codes) = match &shape {
            Shape::Packed(vector) => (0, vector.list.codes()),
            Shape::Runs(vector) => {
                let runs = 64 * vector.runs.len() as u64;
                let least = vector.runs.iter().all(|run| run.code < reach)
                    && runs <= u64::from(rows)
                    && runs < u64::from(rows) * u64::from(width);
                return least.then_some((CodeVec { shape, width }, 1 + count));
            }
            Shape::Sparse(vector) => {
                let codes = vector.codes();
                let least = codes.iter().all(|code| *code < reach)
                    && least(rows, width, count_runs(&codes), vector.others.len) == 2;
                return least.then_some((CodeVec { shape, width }, 1 + count));
            }
        };
        if !codes.iter().all(|code| *code < reach) || choose(&codes, width).0 != form {
            return None;
        }
        Some((CodeVec { shape, width }, 1 + count))
    }
}

/// A mask in which every place stands.
fn every_place(len: u32) -> Vec<u64> {
    let mut mask = vec![u64::MAX; len as usize / 64];
    if len % 64 != 0 {
        mask.push((1 << (len % 64)) - 1);
    }
    mask
}

fn time_codes(subject: &str, pattern: Pattern, count: u32, reach: u32) {
    let mut codes = Vec::with_capacity(count as usize);
    for i in 0..count {
        codes.push(code_at(pattern, i, reach));
    }
    let start = Instant::now();
    let vector = CodeVec::from_codes(&codes, reach);
    say(subject, "from_codes", start, u64::from(vector.width));
    let start = Instant::now();
    let mut sum = 0u64;
    for i in 0..vector.len() {
        sum = sum.wrapping_add(u64::from(vector.get(i)));
    }
    say(subject, "get", start, sum);
    let mut places = Vec::new();
    let start = Instant::now();
    vector.places_in(&[(reach / 4, reach / 2)], &mut places);
    say(subject, "places_in", start, places.len() as u64);
    let mut places = Vec::new();
    let start = Instant::now();
    vector.places_in(&[(0, reach / 2)], &mut places);
    say(subject, "places_in_low", start, places.len() as u64);
    let places = |mask: &[u64]| mask.iter().map(|word| u64::from(word.count_ones())).sum();
    let mut mask = every_place(vector.len());
    let start = Instant::now();
    vector.keep_in(&[(reach / 4, reach / 2)], &mut mask);
    say(subject, "keep_in", start, places(&mask));
    let mut mask = every_place(vector.len());
    let start = Instant::now();
    vector.keep_in(&[(0, reach / 4), (reach / 2, reach)], &mut mask);
    say(subject, "keep_in_but", start, places(&mask));
    let mut mask = every_place(vector.len());
    let start = Instant::now();
    vector.keep_in(&[(reach / 2, reach / 2 + 1)], &mut mask);
    say(subject, "keep_one", start, places(&mask));
    let mut bytes = Vec::new();
    let start = Instant::now();
    vector.bytes_of(&mut bytes);
    say(subject, "bytes_of", start, bytes.len() as u64);
    let start = Instant::now();
    let size = CodeVec::from_bytes(&bytes, vector.len(), reach).map_or(0, |found| found.1);
    say(subject, "from_bytes", start, size as u64);
    let start = Instant::now();
    let packed = BitList::from_codes(codes.iter().copied(), codes.len(), vector.width);
    say(subject, "pack", start, u64::from(packed.len));
}

fn int_keys(count: u32) -> Vec<Vec<u8>> {
    (0..count)
        .map(|i| ((1u64 << 63) + 3 * u64::from(i)).to_be_bytes().to_vec())
        .collect()
}

fn text_keys(count: u32) -> Vec<Vec<u8>> {
    (0..count)
        .map(|i| format!("Customer#{i:09}").into_bytes())
        .collect()
}

/// The bytes of all keys behind one another, as the program has those that it looks up.
struct KeyList {
    bytes: Vec<u8>,
    ends: Vec<usize>,
}

impl KeyList {
    fn of(keys: &[Vec<u8>]) -> Self {
        let mut list = KeyList {
            bytes: Vec::new(),
            ends: Vec::new(),
        };
        for key in keys {
            list.bytes.extend_from_slice(key);
            list.ends.push(list.bytes.len());
        }
        list
    }

    fn key(&self, i: usize) -> &[u8] {
        let start = if i == 0 { 0 } else { self.ends[i - 1] };
        &self.bytes[start..self.ends[i]]
    }
}

fn find(keys: &[Vec<u8>], key: &[u8]) -> Option<usize> {
    keys.binary_search_by(|other| other.as_slice().cmp(key)).ok()
}

fn time_keys(subject: &str, keys: Vec<Vec<u8>>) {
    let list = KeyList::of(&keys);
    let start = Instant::now();
    let sorted: Vec<Vec<u8>> = (0..keys.len()).map(|i| list.key(i).to_vec()).collect();
    say(subject, "from_sorted", start, sorted.len() as u64);
    let start = Instant::now();
    let count = sorted.len() as u64;
    let mut sum = 0u64;
    for i in 0..count {
        let place = i.wrapping_mul(2_654_435_761) % count;
        if let Some(code) = find(&sorted, list.key(place as usize)) {
            sum = sum.wrapping_add(code as u64 ^ i);
        }
    }
    say(subject, "find", start, sum);
}

fn number(argument: Option<String>, else_this: u32) -> u32 {
    argument.map_or(else_this, |text| text.parse().expect("a number"))
}

fn main() {
    let mut arguments = std::env::args().skip(1);
    let codes = number(arguments.next(), 1000);
    let keys = number(arguments.next(), 100);
    for (name, reach) in [
        ("width_1", 1 << 1),
        ("width_4", 1 << 4),
        ("width_9", 1 << 9),
        ("width_17", 1 << 17),
        ("width_32", u32::MAX),
    ] {
        time_codes(name, Pattern::Mixed, codes, reach);
    }
    time_codes("runs", Pattern::Repeated, codes, 1 << 9);
    time_codes("sparse", Pattern::Rare, codes, 1 << 9);
    time_codes("ascending", Pattern::Ascending, codes, codes.max(1));
    time_keys("int", int_keys(keys));
    time_keys("text", text_keys(keys));
}
