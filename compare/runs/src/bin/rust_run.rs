//! Reads a scenario from standard input and prints what the Rust does: rust_run < SCENARIO

use runs::original::Original;
use runs::scenario::Scenario;
use runs::side::Side;
use std::io::Read;

fn main() {
    let mut text = String::new();
    std::io::stdin().read_to_string(&mut text).expect("text on standard input");
    let scenario = Scenario::parse(&text).unwrap_or_else(|e| {
        eprintln!("rust_run: {e}");
        std::process::exit(2)
    });
    let mut side = Original::default();
    print!("{}", side.run(&scenario, &[]).print());
    if let Some(said) = side.said {
        println!("# {said}");
    }
}
