//! The tables that the bench prints.

use crate::measure::Times;

/// The head of the table of speeds, with how it was measured.
pub fn print_head() {
    println!("Speed of one call in MB/s (10^6 bytes a second), the best of several rounds;");
    println!("what takes over 0.3 s is called once.");
    println!("library: nurl_read in libnurl.a; oracle: the independent reader in Rust;");
    println!("plain: the sum of all bytes. All three in turns, in one run, on the same source.");
    println!("Both readers fill the same lent tables, which are just long enough; they are");
    println!("allocated and filled once before the first call and not cleared between calls.");
    println!();
    println!(
        "{:<12} {:>8} {:>10} {:>10} {:>10} {:>15} {:>14}",
        "class", "bytes", "library", "oracle", "plain", "library/oracle", "library/plain"
    );
}

/// A line of the table of speeds.
pub fn print_speeds(class: &str, size: usize, times: Times) {
    let [library, oracle, plain] = times.map(|time| size as f64 / time / 1e6);
    println!(
        "{class:<12} {size:>8} {library:>10.3} {oracle:>10.3} {plain:>10.1} {:>15.4} {:>14.6}",
        library / oracle,
        library / plain
    );
}

/// How times grow from the second to the third size of each class.
pub fn print_growth(classes: &[(&str, [Times; 3])]) {
    println!();
    println!("Time at 1 MiB over time at 64 KiB (16 where time is in proportion to size)");
    println!("{:<12} {:>10} {:>10}", "class", "library", "oracle");
    for (class, [_, middle, large]) in classes {
        let library = large[0] / middle[0];
        let oracle = large[1] / middle[1];
        println!("{class:<12} {library:>10.1} {oracle:>10.1}");
    }
}
