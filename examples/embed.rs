//! Fills in bench case K from Rust, checks its processors at other steps as a planner's proposal, keeps its tasks in the order in which they
//! saturate, and runs a release clock with its periods. On x86-64, after `scripts/library`:
//!     cargo run --offline --manifest-path bindings/rust/Cargo.toml --example embed
use eelbasket::{
    check_proposal, find, margin, quick, Clock, Edition, Kept, Policy, Refusal, Station, Task,
};

/// Bench case K: an elastic task, then rigid ones.
fn case_k() -> [Task; 7] {
    let rigid = |c| Task::new(c, 1000, 1000, 0);
    let first = Task::new(3000, 4000, 5000, 10000);
    [
        first,
        rigid(450),
        rigid(320),
        rigid(350),
        rigid(300),
        rigid(230),
        rigid(650),
    ]
}

/// Prints the tasks that are due at a tick.
fn release(clock: &mut Clock, tick: u32) -> Result<(), Refusal> {
    print!("tick {tick} releases");
    while let Some(task) = clock.call(tick)? {
        print!(" {task}");
    }
    println!();
    Ok(())
}

/// Prints what the checker says of processors at a step.
fn check(tasks: &[Task], station: Station, step: u32, processors: &[u16]) {
    match check_proposal(tasks, station, step, processors) {
        Ok(loads) => println!("at step {step} these processors have loads {loads:?}"),
        Err(refusal) => println!(
            "at step {step} these processors are refused by {}: {refusal}",
            refusal.number()
        ),
    }
}

/// Prints what the quick finder and the margin say, which serve no first fit.
fn pool(tasks: &[Task], station: Station) -> Result<(), Refusal> {
    let looked = quick(tasks, station, &mut [0; 7], &mut [0; 7]);
    if let Err(refusal) = looked.answer {
        println!(
            "the quick finder is refused by {}: {refusal}",
            refusal.number()
        );
    }
    let pooled = Station {
        policy: Policy::Pooled,
        ..station
    };
    let margin = margin(tasks, pooled, 0)?;
    println!("pooled, the same tasks have a margin of {margin} parts at step 0");
    let charged = Station {
        edition: Edition::Charge,
        ..pooled
    };
    let looked = quick(tasks, charged, &mut [0; 7], &mut [0; 7]);
    println!(
        "by their charges they fit at step {}, found in {} looks",
        looked.answer?, looked.looks
    );
    Ok(())
}

/// Keeps tasks in the order in which they saturate, while one joins and one leaves.
fn keep(tasks: &[Task], station: Station) -> Result<(), Refusal> {
    let mut kept = Kept::default();
    for task in tasks {
        kept.join(station.w, station.q, *task)?;
    }
    kept.join(station.w, station.q, Task::new(1, 10, 20, 10000))?;
    kept.leave(station.w, station.q, 1)?;
    let (count, order) = (kept.tasks().len(), kept.order());
    println!(
        "one joined and task 1 left: {count} tasks, of which {order:?} saturate in this order"
    );
    Ok(())
}

fn main() -> Result<(), Refusal> {
    let tasks = case_k();
    let station = Station::new(Policy::FirstFit, 3);
    let plan = find(&tasks, station)?;
    println!("step {}", plan.step);
    for (task, granted) in plan.granted.iter().enumerate() {
        println!(
            "task {task}: period {} on processor {}",
            granted.period, granted.processor
        );
    }
    let processors: Vec<u16> = plan
        .granted
        .iter()
        .map(|granted| granted.processor)
        .collect();
    check(&tasks, station, plan.step, &processors);
    check(&tasks, station, 7, &processors); // where first fit fails
    check(&tasks, station, 4, &processors);
    pool(&tasks, station)?;
    keep(&tasks, station)?;
    let periods: Vec<u32> = plan.granted.iter().map(|granted| granted.period).collect();
    let mut clock = Clock::start(&periods, u32::MAX - 5)?;
    for tick in [u32::MAX - 5, 993, 994, 4280] {
        release(&mut clock, tick)?;
    }
    if let Err(refusal) = Clock::start(&[1000, 0], 0) {
        println!(
            "a period of 0 is refused by {}: {refusal}",
            refusal.number()
        );
    }
    Ok(())
}
