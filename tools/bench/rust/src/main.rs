//! Runs one operation of the Rust crate `rlp` many times: `rlp_bench OPERATION TIMES`. The operations
//! and their inputs are those of `crates/rlp_bench`, and so is the printed sum of the results.

mod inputs;
mod reading;
mod writing;

use inputs::Inputs;

fn main() {
    let mut args = std::env::args().skip(1);
    let (Some(operation), Some(times)) = (args.next(), args.next()) else {
        return println!("rlp_bench OPERATION TIMES");
    };
    let Ok(times) = times.parse::<usize>() else {
        return println!("not a number of times: {times}");
    };
    let inputs = Inputs::new();
    match writing::run(&inputs, &operation, times).or_else(|| reading::run(&inputs, &operation, times)) {
        Some(sum) => println!("{sum}"),
        None => println!("no operation {operation}"),
    }
}
