//! What takes no memory, and what is drawn anew: apart from other tests, whose memory would count.
#![forbid(unsafe_code)]
use kotskhin::{
    Attributes, DEFAULT_LIMIT, Error, Instruments, Kind, Plan, Writer, now, unique_instance,
};
use std::collections::HashSet;

/// Kilobytes of memory that the process has.
fn resident() -> usize {
    let told = std::fs::read_to_string("/proc/self/status").unwrap_or_default();
    let line = told.lines().find_map(|line| line.strip_prefix("VmRSS:"));
    line.and_then(|size| size.trim().strip_suffix(" kB")?.parse().ok())
        .expect("the system tells it")
}

/// `hold` may stand where a request is served: the same set has one number, and nothing is kept for each call.
#[test]
fn the_same_set_again_takes_no_memory() -> Result<(), Error> {
    let mut instruments = Instruments::new();
    instruments.add("app", "requests", "1", Kind::Counter)?;
    let plan = Plan::build(&instruments, DEFAULT_LIMIT)?;
    let mut writer = Writer::start(&plan, "shop", 1, 100)?;
    let mut served = || {
        let number = writer.hold(0, &Attributes::new([("route", "/")])?)?;
        writer.measure_held(number, 1)
    };
    for _ in 0..1000 {
        served()?;
    }
    let before = resident();
    for _ in 0..200_000 {
        served()?;
    }
    let grown = resident().saturating_sub(before);
    assert!(grown < 8192, "it grew by {grown} kB");
    Ok(())
}

#[test]
fn instances_are_drawn_anew() -> std::io::Result<()> {
    let drawn: HashSet<u128> = (0..8)
        .map(|_| unique_instance())
        .collect::<Result<_, _>>()?;
    assert_eq!(drawn.len(), 8);
    let (before, after) = (now(), now());
    assert!(before > 1 << 60 && after >= before, "{before} {after}");
    Ok(())
}
