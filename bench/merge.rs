//! What a plain program takes to merge 20,000 rows into columns, each with a dictionary in first-seen order and
//! the places of each key: the work of a merge of the first delta, on the tables of bench/statements.
//! It prints a line for each table, the least of nine rounds, in milliseconds.
use std::collections::HashMap;
use std::hash::{BuildHasherDefault, Hasher};
use std::time::Instant;

/// A fast hasher: eight bytes at a time, each multiplied to 128 bits whose halves are joined.
#[derive(Default)]
struct Fold(u64);

impl Fold {
    fn take(&mut self, word: u64) {
        let product = u128::from(self.0 ^ word ^ 0x243f_6a88_85a3_08d3) * 0x9e37_79b9_7f4a_7c15;
        self.0 = product as u64 ^ (product >> 64) as u64;
    }
}

impl Hasher for Fold {
    fn finish(&self) -> u64 {
        self.0
    }

    fn write(&mut self, bytes: &[u8]) {
        for chunk in bytes.chunks(8) {
            let mut word = [0; 8];
            word[..chunk.len()].copy_from_slice(chunk);
            self.take(u64::from_le_bytes(word));
        }
    }
}

type Codes<K> = HashMap<K, u32, BuildHasherDefault<Fold>>;

enum Value {
    Int(i64),
    Text(String),
}

struct Row {
    id: u32,
    values: Vec<Value>,
}

enum Dictionary {
    Ints(Codes<i64>, Vec<i64>),
    Texts(Codes<String>, Vec<String>),
}

struct Column {
    dictionary: Dictionary,
    codes: Vec<u32>,
    places: Vec<Vec<u32>>,
}

impl Column {
    fn new(like: &Value) -> Self {
        let dictionary = match like {
            Value::Int(_) => Dictionary::Ints(HashMap::default(), Vec::new()),
            Value::Text(_) => Dictionary::Texts(HashMap::default(), Vec::new()),
        };
        Column { dictionary, codes: Vec::new(), places: Vec::new() }
    }

    fn push(&mut self, value: &Value) {
        let code = match (&mut self.dictionary, value) {
            (Dictionary::Ints(codes, keys), Value::Int(number)) => *codes.entry(*number).or_insert_with(|| {
                keys.push(*number);
                keys.len() as u32 - 1
            }),
            (Dictionary::Texts(codes, keys), Value::Text(text)) => match codes.get(text) {
                Some(code) => *code,
                None => {
                    keys.push(text.clone());
                    codes.insert(text.clone(), keys.len() as u32 - 1);
                    keys.len() as u32 - 1
                }
            },
            _ => unreachable!("a column has one kind"),
        };
        if code as usize == self.places.len() {
            self.places.push(Vec::new());
        }
        self.places[code as usize].push(self.codes.len() as u32);
        self.codes.push(code);
    }
}

/// Draws of a linear congruential generator.
struct Draws(u64);

impl Draws {
    fn below(&mut self, reach: i64) -> i64 {
        self.0 = self.0.wrapping_mul(6364136223846793005).wrapping_add(1442695040888963407);
        (self.0 >> 33) as i64 % reach
    }
}

fn sale(id: u32, draws: &mut Draws) -> Vec<Value> {
    let region = ["east", "north", "south", "west"][draws.below(4) as usize];
    vec![
        Value::Int(id.into()),
        Value::Int(1 + draws.below(365)),
        Value::Text(region.to_string()),
        Value::Text(format!("p{}", draws.below(500))),
        Value::Int(1 + draws.below(20)),
        Value::Int(100 + draws.below(9900)),
        Value::Int(draws.below(2)),
        Value::Text(String::new()),
    ]
}

fn customer(id: u32, draws: &mut Draws) -> Vec<Value> {
    let state = ["open", "closed"][draws.below(2) as usize];
    vec![
        Value::Int(id.into()),
        Value::Int(draws.below(10)),
        Value::Int(draws.below(1000)),
        Value::Int(draws.below(60000) * 1000),
        Value::Text(format!("Customer#{id:09}")),
        Value::Text(format!("city {}", draws.below(250))),
        Value::Text(state.to_string()),
        Value::Text(format!("note {}", draws.below(30000))),
    ]
}

/// Merges the rows into columns and gives them back, and says how long that took.
fn merged(rows: Vec<Row>) -> f64 {
    let mut columns: Vec<Column> = rows[0].values.iter().map(Column::new).collect();
    let mut ids = Vec::new();
    let start = Instant::now();
    for (place, column) in columns.iter_mut().enumerate() {
        for row in &rows {
            column.push(&row.values[place]);
        }
    }
    ids.extend(rows.iter().map(|row| row.id));
    drop(rows);
    let took = start.elapsed().as_secs_f64() * 1e3;
    std::hint::black_box((&columns[0].codes, &ids));
    took
}

fn least(table: &str, row: fn(u32, &mut Draws) -> Vec<Value>) {
    let mut least = f64::MAX;
    for _ in 0..9 {
        let mut draws = Draws(1);
        let rows = (0..20000).map(|id| Row { id, values: row(id, &mut draws) }).collect();
        least = least.min(merged(rows));
    }
    println!("merge in plain Rust, 20,000 rows of {table}: {least:.2} ms");
}

fn main() {
    least("sales", sale);
    least("customers", customer);
}
