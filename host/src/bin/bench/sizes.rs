//! The least module count beside planning: how many lists are sized within the cut-off, for the end that planning finds and for earlier ones.
use crate::child::{call, Side, Took};
use crate::options::Options;
use depot_host::lists::List;

/// By when the lists are to end, in percent of the end in their own cabinets.
const BY: [u32; 3] = [100, 80, 60];

pub fn measure(options: &Options) {
    let cutoff = options.cutoff;
    println!(
        "the least module count beside planning, cut-off {} s; seconds of the processor, sums over the lists that both solve",
        cutoff.as_secs_f64()
    );
    println!(
        "{:<10} {:>7} {:>5} {:>8} {:>8} {:>10} {:>10} {:>9}",
        "lists", "memory", "by", "planned", "sized", "planning", "sizing", "longest"
    );
    for group in &options.groups {
        for memory in options.memory_or(&[1 << 20]) {
            let plan = |list| call(Side::Library, list, memory, cutoff);
            let planned: Vec<(&List, Took)> = group.lists.iter().filter_map(|list| plan(list).map(|took| (list, took))).collect();
            for percent in BY {
                let by = |end: u16| (u32::from(end) * percent / 100) as u16;
                let size = |(list, took): &(&List, Took)| {
                    call(Side::Size { by: by(took.end) }, list, memory, cutoff).map(|sized| (took.seconds, sized.seconds))
                };
                let both: Vec<(f64, f64)> = planned.iter().filter_map(size).collect();
                let longest = both.iter().map(|(_, sizing)| *sizing).fold(0.0, f64::max);
                println!(
                    "{:<10} {memory:>7} {percent:>4}% {:>8} {:>8} {:>10.4} {:>10.4} {longest:>9.4}",
                    group.name,
                    format!("{}/{}", planned.len(), group.lists.len()),
                    format!("{}/{}", both.len(), planned.len()),
                    both.iter().map(|(planning, _)| planning).sum::<f64>(),
                    both.iter().map(|(_, sizing)| sizing).sum::<f64>(),
                );
            }
        }
    }
}
