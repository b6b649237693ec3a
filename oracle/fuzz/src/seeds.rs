//! Writes cases as the fuzzer reads them: `seeds FOLDER N`.

use cases::{Case, SEED, case};

fn main() {
    let arguments: Vec<String> = std::env::args().collect();
    let [_, folder, cases] = &arguments[..] else { panic!("usage: seeds FOLDER N") };
    for index in 0..cases.parse().expect("N is a number") {
        let Case { words, count, root, rows } = case(SEED, index);
        let head = [words.len() as u64, rows.len() as u64, count, root];
        let file = head.iter().chain(&words).chain(&rows);
        let bytes: Vec<u8> = file.flat_map(|word| word.to_le_bytes()).collect();
        if bytes.len() <= 4096 {
            std::fs::write(format!("{folder}/{index}"), bytes).expect("the folder can be written");
        }
    }
}
