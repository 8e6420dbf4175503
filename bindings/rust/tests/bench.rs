//! "Bench settings to try", with document 01's answers, and what the requests give for them.

use eelbasket::{
    check, check_proposal, filled, find, margin, quick, relief, relief_into, Clock, Edition,
    Granted, Kept, Looked, Plan, Policy, Refusal, Relief, Sheet, Station, Task, LONGEST_SHEET,
    MOST_TASKS,
};

/// Case B's task.
const SIX: Task = Task::new(6, 10, 20, 1000);

/// The bench case D.
const CASE_D: [Task; 2] = [Task::new(6, 10, 11, 1000), Task::new(6, 10, 30, 1000)];

/// The bench case J.
const CASE_J: [Task; 2] = [Task::new(1, 1, 1_000_000_000, 1); 2];

/// The bench case K.
fn case_k() -> Vec<Task> {
    let mut tasks = vec![Task::new(3000, 4000, 5000, 10000)];
    tasks.extend([450, 320, 350, 300, 230, 650].map(|c| Task::new(c, 1000, 1000, 0)));
    tasks
}

fn any(periods: &[u32]) -> Vec<Granted> {
    periods.iter().map(|&period| Granted { period, processor: 0 }).collect()
}

fn looked(tasks: &[Task], station: Station) -> Looked {
    quick(tasks, station, &mut vec![0; tasks.len()], &mut vec![0; tasks.len()])
}

/// A case that both finders accept, with the looks of the quick one.
fn accepted(tasks: &[Task], station: Station, step: u32, periods: &[u32], looks: u32) {
    assert_eq!(find(tasks, station), Ok(Plan { step, granted: any(periods) }));
    assert_eq!(looked(tasks, station), Looked { answer: Ok(step), looks });
}

fn refused(tasks: &[Task], station: Station, refusal: Refusal, looks: u32) {
    assert_eq!(find(tasks, station), Err(refusal));
    assert_eq!(looked(tasks, station), Looked { answer: Err(refusal), looks });
}

#[test]
fn cases_a_to_j() {
    let one = Station::new(Policy::Pooled, 1);
    accepted(&[], one, 0, &[], 1);
    accepted(&[SIX; 2], one, 100, &[12, 12], 2);
    accepted(&[Task::new(5, 10, 20, 0), Task::new(8, 10, 40, 3000)], one, 100, &[10, 16], 2);
    accepted(&CASE_D, one, 146, &[11, 14], 3);
    accepted(&[SIX; 3], Station::new(Policy::GlobalEdf, 2), 100, &[12, 12, 12], 2);
    refused(&[SIX; 3], Station::new(Policy::GlobalRm, 2), Refusal::PolicyWithdrawn, 0);
    refused(&[Task::new(1, 3, 3, 0); 3], one, Refusal::NoStepPasses, 1);
    accepted(&CASE_J, one, 500_000, &[2, 2], 2);
}

#[test]
fn cases_in_the_second_edition() {
    let one = Station { edition: Edition::Charge, ..Station::new(Policy::Pooled, 1) };
    accepted(&[], one, 0, &[], 1);
    accepted(&[SIX; 2], one, 55, &[12, 12], 8);
    accepted(&CASE_D, one, 139, &[11, 14], 9);
    accepted(&[SIX; 3], Station { policy: Policy::GlobalEdf, m: 2, ..one }, 55, &[12; 3], 8);
    accepted(&CASE_J, one, 1, &[2, 2], 20);
    accepted(&[SIX; 2], Station { policy: Policy::OneCoreRm, ..one }, 172, &[15, 15], 8);
    accepted(&[SIX; 2], Station { w: 1, ..one }, 267, &[16, 16], 8);
    accepted(&[SIX; 2], Station { q: 5, ..one }, 1, &[15, 15], 9);
    refused(&[Task::new(1, 3, 3, 0); 3], one, Refusal::NoStepPasses, 1);
    assert_eq!([54, 55].map(|step| margin(&[SIX; 2], one, step)), [Ok(-90_910), Ok(0)]);
}

#[test]
fn another_edition_is_refused() {
    let one = Station::new(Policy::Pooled, 1);
    for number in [0, 3, 257, u16::MAX] {
        let station = Station { edition: Edition::of(number), ..one };
        refused(&[SIX; 2], station, Refusal::Misset, 0);
        assert_eq!(margin(&[SIX; 2], station, 0), Err(Refusal::Misset));
        assert_eq!(check_proposal(&[SIX], station, 0, &[1]), Err(Refusal::Misset));
    }
    accepted(&[SIX; 2], Station { edition: Edition::Further(2), ..one }, 55, &[12, 12], 8);
}

#[test]
fn case_k_by_first_fit() {
    let station = Station::new(Policy::FirstFit, 3);
    let plan = find(&case_k(), station).expect("case K is accepted");
    assert_eq!(plan.step, 5);
    let periods: Vec<u32> = plan.granted.iter().map(|granted| granted.period).collect();
    assert_eq!(periods, [4286, 1000, 1000, 1000, 1000, 1000, 1000]);
    let processors: Vec<u16> = plan.granted.iter().map(|granted| granted.processor).collect();
    assert_eq!(processors, [1, 2, 2, 3, 1, 2, 3]);
    let refusal = Err(Refusal::PolicyNotServed);
    assert_eq!(looked(&case_k(), station), Looked { answer: refusal, looks: 0 });
    assert_eq!(find(&case_k(), Station { edition: Edition::Charge, ..station }), Ok(plan));
}

#[test]
fn case_i_is_relieved_by_a_processor_or_by_any_task() {
    let tasks = [Task::new(1, 3, 3, 0); 3];
    let relieved = Relief { least: None, more: Some(0), without: vec![Some(0); 3] };
    assert_eq!(relief(&tasks, Station::new(Policy::Pooled, 1)), Ok(relieved));
    let eased = Relief { least: Some(0), more: Some(0), without: vec![Some(0); 2] };
    assert_eq!(relief(&tasks[1..], Station::new(Policy::Pooled, 1)), Ok(eased));
    let mut without = [7; 4];
    let told = relief_into(&tasks, Station::new(Policy::Pooled, 1), &mut without);
    assert_eq!((told, without), (Ok((None, Some(0))), [1, 1, 1, 7]));
    without = [7; 4];
    let short = relief_into(&tasks, Station::new(Policy::Pooled, 1), &mut without[..2]);
    assert_eq!((short, without), (Err(Refusal::OutputTooShort(3)), [7; 4]));
}

#[test]
fn case_k_as_a_proposal() {
    let station = Station::new(Policy::FirstFit, 3);
    let at = |step, proposal: &[u16]| check_proposal(&case_k(), station, step, proposal);
    let placed = [1, 2, 2, 3, 1, 2, 3];
    assert_eq!(at(5, &placed), Ok(vec![1_000_000; 3]));
    assert_eq!(at(4, &placed), Err(Refusal::ProcessorOverfull(1)));
    // where first fit fails
    assert_eq!(at(u32::MAX, &placed), Ok(vec![900_000, 1_000_000, 1_000_000]));
    assert_eq!(at(5, &placed[..6]), Err(Refusal::OutputTooShort(7)));
    assert_eq!(at(5, &[1, 2, 4, 3, 0, 2, 3]), Err(Refusal::ProcessorOutOfRange(2)));
    let charged = Station { edition: Edition::Charge, ..Station::new(Policy::Pooled, 1) };
    assert_eq!(check_proposal(&[SIX; 2], charged, 55, &[1, 1]), Ok(vec![1_000_000]));
    let refusal = Err(Refusal::ProcessorOverfull(1));
    assert_eq!(check_proposal(&[SIX; 2], charged, 54, &[1, 1]), refusal);
}

#[test]
fn a_kept_table_there_and_back() {
    // saturated at 300, never, and at 150 and 100
    let [slow, rigid, quicker, quickest] = [1000, 0, 2000, 3000].map(|e| Task { e, ..SIX });
    let mut kept = Kept::default();
    for task in [slow, rigid, quicker, quickest] {
        assert_eq!(kept.join(0, 1, task), Ok(()));
    }
    assert_eq!(
        (kept.tasks(), kept.order()),
        (&[slow, rigid, quicker, quickest][..], &[3, 2, 0][..])
    );
    assert_eq!(kept.leave(0, 1, 0), Ok(()));
    assert_eq!((kept.tasks(), kept.order()), (&[rigid, quicker, quickest][..], &[2, 1][..]));
    let before = kept;
    assert_eq!(kept.join(0, 0, SIX), Err(Refusal::Misset));
    assert_eq!(kept.join(0, 1, Task { c: 11, ..SIX }), Err(Refusal::BadRecord(3)));
    assert_eq!(kept.leave(0, 3, 0), Err(Refusal::BadRecord(0)));
    for record in [3, usize::MAX] {
        assert_eq!(kept.leave(0, 1, record), Err(Refusal::NoSuchRecord(record)));
    }
    assert_eq!(kept, before);
    for _ in 3..MOST_TASKS {
        assert_eq!(kept.join(0, 1, rigid), Ok(()));
    }
    assert_eq!(kept.join(0, 1, rigid), Err(Refusal::TooManyTasks(32)));
    assert_eq!((kept.tasks().len(), kept.order()), (32, &[2, 1][..]));
    // a count that says more than there is room for
    (kept.table.n, kept.index.n) = (33, usize::MAX);
    assert_eq!(kept.leave(0, 1, 0), Err(Refusal::TooManyTasks(33)));
    assert_eq!((kept.tasks().len(), kept.order().len()), (32, 32));
}

#[test]
fn case_l_at_the_limits() {
    let light = Task::new(1, 1000, 1000, 0);
    let one = Station::new(Policy::Pooled, 1);
    accepted(&[light; 32], one, 0, &[1000; 32], 1);
    refused(&[light; 33], one, Refusal::TooManyTasks(33), 0);
    accepted(&[Task::new(1, 10, 1_000_000_000, 0)], one, 0, &[10], 1);
    refused(&[light, Task::new(1, 10, 1_000_000_001, 0)], one, Refusal::BadRecord(1), 0);
    accepted(&[SIX; 2], Station::new(Policy::Pooled, 16), 0, &[10, 10], 1);
    refused(&[SIX; 2], Station::new(Policy::Pooled, 17), Refusal::Misset, 0);
}

#[test]
fn case_b_on_one_core_with_swaps_and_with_notches() {
    let one = Station::new(Policy::Pooled, 1);
    accepted(&[SIX; 2], Station::new(Policy::OneCoreRm, 1), 186, &[15, 15], 2);
    assert_eq!(margin(&[SIX; 2], Station::new(Policy::OneCoreRm, 1), 186), Ok(427));
    accepted(&[SIX; 2], Station { w: 1, ..one }, 300, &[16, 16], 2);
    refused(&[SIX; 2], Station { w: 3, ..one }, Refusal::BadRecord(0), 0);
    accepted(&[SIX; 2], Station { q: 5, ..one }, 100, &[15, 15], 2);
    refused(&[SIX; 2], Station { q: 0, ..one }, Refusal::Misset, 0);
}

#[test]
fn a_sheet_there_and_back() {
    let station = Station::new(Policy::Pooled, 1);
    let unfilled = Sheet { settings_count: 2, station, tasks: vec![SIX; 2], results: Vec::new() };
    let bytes = unfilled.bytes().expect("a sheet that can be written");
    assert_eq!(Sheet::read(&bytes), Ok(unfilled.clone()));
    assert_eq!(check(&bytes), Err(Refusal::NoResults));
    let full = filled(&bytes).expect("a sheet that can be filled in");
    assert_eq!(check(&full), Ok(()));
    assert_eq!(Sheet::read(&full), Ok(Sheet { results: any(&[12, 12]), ..unfilled }));
    assert_eq!(Sheet::read(&full[..full.len() - 1]), Err(Refusal::SheetEnds(full.len() - 1)));
}

#[test]
fn a_sheet_of_each_settings_count() {
    let (policy, edition) = (Policy::of(700), Edition::of(9));
    let station = Station { policy, m: 300, w: 4, q: 5, edition };
    let sheet = Sheet { settings_count: 5, station, tasks: vec![SIX], results: Vec::new() };
    let read = |settings_count| {
        let bytes = Sheet { settings_count, ..sheet.clone() }.bytes()?;
        assert_eq!(bytes.len(), 6 + 2 * settings_count + 16);
        Sheet::read(&bytes).map(|sheet| (sheet.settings_count, sheet.station))
    };
    let share = Edition::Share;
    assert_eq!(read(2), Ok((2, Station { w: 0, q: 1, edition: share, ..station })));
    assert_eq!(read(3), Ok((3, Station { q: 1, edition: share, ..station })));
    assert_eq!(read(4), Ok((4, Station { edition: share, ..station })));
    assert_eq!(read(5), Ok((5, station)));
    assert_eq!([1, 6, usize::MAX].map(read), [Err(Refusal::WrongSettingsCount); 3]);
    let tasks = vec![SIX; MOST_TASKS];
    let longest = Sheet { tasks, results: vec![Granted::default(); MOST_TASKS], ..sheet.clone() };
    assert_eq!(longest.bytes().map(|bytes| bytes.len()), Ok(LONGEST_SHEET));
}

#[test]
fn a_clock_over_the_turn() {
    let mut clock = Clock::start(&[4286, 1000], u32::MAX - 5).expect("good periods");
    assert_eq!(clock.call(u32::MAX - 5), Ok(Some(0)));
    assert_eq!(clock.call(u32::MAX - 5), Ok(Some(1)));
    assert_eq!(clock.call(u32::MAX - 5), Ok(None));
    assert_eq!(clock.call(993), Ok(None));
    assert_eq!(clock.call(994), Ok(Some(1)));
    assert_eq!(Clock::start(&[1, 0], 0), Err(Refusal::BadPeriod(1)));
}

#[test]
fn every_refusal_has_its_number_its_place_and_its_words() {
    for number in 1..=19 {
        let refusal = Refusal::of(number, 3).expect("a number of the documents");
        assert_eq!(refusal.number(), number);
        assert!(refusal.place() == 3 || refusal.place() == 0);
        assert!(!refusal.to_string().is_empty());
    }
    assert_eq!(Refusal::of(0, 0), None);
    assert_eq!(Refusal::of(20, 0), None);
    assert!(Refusal::BadRecord(3).to_string().starts_with("task 3 is not good: C is 0, or "));
    assert_eq!(Refusal::SheetEnds(7).to_string(), "the sheet ends at byte 7, where more is due");
}

#[test]
fn the_limits_are_those_of_the_header() {
    let header = include_str!("../../../include/eelbasket.h");
    for (name, limit) in [("MOST_TASKS", MOST_TASKS), ("LONGEST_SHEET", LONGEST_SHEET)] {
        let line = format!("#define EELBASKET_{name} {limit}\n");
        assert!(header.contains(&line), "the header has no line {line}");
    }
}

/// The calls that a text names, each with a parenthesis behind it, in its order.
fn calls(text: &str) -> Vec<&str> {
    let fronts = text.split("eelbasket_").skip(1).filter_map(|rest| rest.split('(').next());
    fronts
        .filter(|name| name.bytes().all(|byte| byte == b'_' || byte.is_ascii_lowercase()))
        .collect()
}

#[test]
fn the_calls_are_those_of_the_header() {
    let header = calls(include_str!("../../../include/eelbasket.h"));
    assert_eq!(header.len(), 20);
    assert_eq!(calls(include_str!("../src/boundary.rs")), header);
}
