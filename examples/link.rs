//! Solves the sheet on standard input from its root, with limit 0, and prints the answer.
//!     rustc --edition 2021 examples/link.rs -C link-arg=target/staticlib/libkgs.a -o target/link && target/link < samples/worked.kgs
mod kgs;

fn main() {
    let mut sheet = Vec::new();
    std::io::Read::read_to_end(&mut std::io::stdin(), &mut sheet).expect("a sheet to read");
    let root = sheet.get(8..12).map_or(0, |b| u32::from_le_bytes([b[0], b[1], b[2], b[3]]));
    let solution = kgs::solve(&sheet, root, 0);
    if solution.refusal.number != 0 {
        println!("refused {}", solution.refusal.number);
    }
    solution.labels[..solution.action_count as usize].iter().for_each(|label| println!("label {label}"));
    solution.payoffs[..solution.payoff_count as usize].iter().for_each(|payoff| println!("payoff {payoff}"));
    std::process::exit((solution.refusal.number != 0) as i32);
}
