//! A record whose stamps do not rise: the line with the same stamp, or the lines that look exchanged.

/// What is said of sample `place`, the first whose stamp is not above the one before it.
pub fn hint(stamps: &[u32], lines: &[usize], place: usize) -> String {
    let stamp = stamps[place];
    let above = stamps.iter().position(|&other| other >= stamp).expect("its own is one");
    if stamps[above] == stamp {
        return same(lines[above]);
    }
    let early = range(lines[above], lines[place - 1]);
    let late = range(lines[place], lines[last_of_run(stamps, place, stamps[above])]);
    format!("lines {early} and {late} look exchanged: rig sort puts samples in order")
}

/// What is said of a sample whose stamp one before it has, on this line.
pub fn same(line: usize) -> String {
    format!("its stamp is that of line {line}")
}

/// The last sample from `first` on up to which all stamps rise and are below `bound`.
fn last_of_run(stamps: &[u32], first: usize, bound: u32) -> usize {
    let mut last = first;
    while last + 1 < stamps.len() && stamps[last] < stamps[last + 1] && stamps[last + 1] < bound {
        last += 1;
    }
    last
}

/// Two lines, or the one that both are.
fn range(first: usize, last: usize) -> String {
    if first == last {
        return first.to_string();
    }
    format!("{first} to {last}")
}
