//! Prints how much of the stack each function that starts from a text and the views use at most, and on which text:
//! `cargo run --offline --bin stack`.
use replay::harness::stack::most;

fn main() {
    println!("| called | bytes of stack | text |\n|---|---|---|");
    for (called, bytes, text) in most() {
        println!("| {called} | {bytes} | {text} |");
    }
}
