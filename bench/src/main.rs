//! Compares the planner library with a second implementation, and times both beside a plain pass over the bytes.

mod brought;
mod carried;
mod cases;
mod clock;
mod compare;
mod damage;
mod deals;
mod library;
mod machine;
mod pass;
mod plain;
mod program;
mod random;
mod reference;
mod rows;
mod sample;
mod timing;

const USAGE: &str = "usage: yolkgorge-bench [--quick] [--only TEXT] | --compare N";

fn main() {
    let words: Vec<String> = std::env::args().skip(1).collect();
    let words: Vec<&str> = words.iter().map(String::as_str).collect();
    match words[..] {
        [] => bench(240, ""),
        ["--quick"] => bench(24, ""),
        ["--only", text] => bench(240, text),
        ["--quick", "--only", text] => bench(24, text),
        ["--compare", count] => match count.parse() {
            Ok(count) if compare::run(count) => {}
            Ok(_) => std::process::exit(1),
            Err(_) => fail(),
        },
        _ => fail(),
    }
}

fn fail() -> ! {
    eprintln!("{USAGE}");
    std::process::exit(2);
}

fn bench(rounds: usize, only: &str) {
    machine::print();
    println!(
        "- times: processor time per call; {rounds} rounds of each program in turn, about 0.5 ms each (fewer where one call"
    );
    println!("  is longer); the median of the fastest tenth");
    println!("- plain pass: reads once each byte that the call must look at, writes once each byte that it must leave");
    println!("  written; works out nothing");
    rows::Bench { rounds, only: only.to_string() }.all();
}
