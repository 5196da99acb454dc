//! The original's side of the comparison. The published lib.rs names a module `tests` that is not among
//! its files; this folder stands in that place, and so reads the tree's private links while no line of the
//! published files is changed.
mod choices;
mod claims;
mod commands;
mod cursor;
mod random;
mod record;
mod systematic;
mod world;

use random::{Random, large_run, random_run, small_plan};
use record::Writer;

/// A few thousand commands: the first part command by command.
fn sample(w: &mut Writer, r: &mut Random) {
    w.plain = true;
    systematic::all_orders(w, 3);
    systematic::cursor_ways(w, 1);
    for slots in [4, 5, 6, 7, 8] {
        let plan = random::Plan { slots, commands: 80, ..small_plan(r) };
        random_run(w, &plan, r);
    }
    w.plain = false;
    for _ in 0..20 {
        let plan = small_plan(r);
        random_run(w, &plan, r);
    }
    large_run(w, 3, 100, r);
}

fn part(name: &str, w: &mut Writer, r: &mut Random, commands: u64) {
    match name {
        "orders" => (1..=5).for_each(|n| systematic::all_orders(w, n)),
        "six" => systematic::all_orders(w, 6),
        "seven" => systematic::each_first(w, 7),
        "cursors" => (0..=5).for_each(|n| systematic::cursor_ways(w, n)),
        "random" => {
            while w.commands() < commands {
                let plan = small_plan(r);
                random_run(w, &plan, r);
            }
        }
        "large" => {
            while w.commands() < commands {
                large_run(w, w.runs, 2000, r);
            }
        }
        "sample" => sample(w, r),
        "claims" => claims::check(),
        _ => panic!("no such part: {name}"),
    }
}

/// PART SEED COMMANDS EXPECTED [RUN]: the input on standard output, what is expected in a file, and the
/// counts on standard error.
#[unsafe(no_mangle)]
pub extern "C" fn compare_original() {
    let args: Vec<String> = std::env::args().collect();
    let number = |i: usize| args[i].parse::<u64>().expect("a number");
    let only = (args.len() > 5).then(|| number(5));
    let mut w = Writer::new(&args[4], only);
    part(&args[1], &mut w, &mut Random(number(2)), number(3));
    w.finish();
    eprint!("{}: {} runs, {} commands; by op", args[1], w.runs, w.commands());
    for (op, count) in w.by_op.iter().enumerate().filter(|x| *x.1 > 0) {
        eprint!(" {op}:{count}");
    }
    eprintln!();
}
