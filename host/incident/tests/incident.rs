//! The replay on short runs, and that each of its checks can fail.

use rrezhbuta::limits::{RECORD_BYTES, RECORD_LIMIT};
use rrezhbuta::{ProcessId, Siginfo, Signal, Tables, Target};
use rrezhbuta_incident::failure::Failure;
use rrezhbuta_incident::flood::{flood, Bounds, Counts, FACET, SENDS_A_LOOK};
use rrezhbuta_incident::kill::{gone, kill, Means};
use rrezhbuta_incident::mesh::{facets_claimed, file_claiming};
use rrezhbuta_incident::page::{grouped, rows};
use rrezhbuta_incident::replay::{kill_by_either, replay, CLAIM, TURNS_AFTER};
use rrezhbuta_incident::room::{Room, Work, LOADER, OPERATOR, TECHNICIANS, VIEWER};
use std::time::Duration;

const HOUR: Duration = Duration::from_secs(3600);

fn sends(sends: u64) -> Bounds {
    Bounds { sends, time: HOUR }
}

fn counts(sent: u64, kept: u64, refused: u64) -> Counts {
    Counts {
        sent,
        kept,
        refused,
    }
}

fn work(turns: u64) -> Work {
    Work {
        sends: turns,
        takes: turns,
    }
}

/// A room with the viewer's queue full.
fn flooded() -> Room {
    let mut room = Room::open().unwrap();
    flood(&mut room, CLAIM, &sends(100), |_| ()).unwrap();
    room
}

fn said<T>(result: Result<T, Failure>) -> String {
    result.err().expect("a failure").to_string()
}

#[test]
fn the_header_claims_what_the_file_has_not() {
    let file = file_claiming(4_294_967_295);
    assert_eq!(file.len(), 84);
    assert_eq!(file[80..], [0xFF; 4]);
    assert_eq!(facets_claimed(&file), Some(4_294_967_295));
    assert_eq!(facets_claimed(&file_claiming(258)[..84]), Some(258));
    assert_eq!(facets_claimed(&file[..83]), None);
}

#[test]
fn the_counts_of_a_short_run() {
    let report = replay(&sends(1000), |_| ()).unwrap();
    assert_eq!((report.file_bytes, report.claimed), (84, CLAIM));
    assert_eq!(report.counts, counts(1000, 32, 968));
    assert_eq!(report.work, work(250));
    assert_eq!(report.work_after, work(TURNS_AFTER));
}

#[test]
fn a_run_ends_with_its_time_and_with_the_facets() {
    let now = Bounds {
        sends: u64::MAX,
        time: Duration::ZERO,
    };
    let mut told = Vec::new();
    let mut room = Room::open().unwrap();
    let found = flood(&mut room, CLAIM, &now, |counts| told.push(*counts)).unwrap();
    assert_eq!(found, counts(SENDS_A_LOOK, 32, SENDS_A_LOOK - 32));
    assert_eq!(told, [found]);
    let mut room = Room::open().unwrap();
    let found = flood(&mut room, 40, &sends(u64::MAX), |_| ()).unwrap();
    assert_eq!(found, counts(40, 32, 8));
}

#[test]
fn the_flood_leaves_all_others_as_they_were() {
    let (before, after) = (Room::open().unwrap().tables, flooded().tables);
    assert!(after.processes() == before.processes());
    assert!(after.threads() == before.threads());
    assert!(after.thread_buffer() == before.thread_buffer());
    let (used, rest) = after.process_buffer().split_at(RECORD_LIMIT * RECORD_BYTES);
    assert!(rest.iter().all(|&byte| byte == 0));
    for (value, bytes) in (0..).zip(used.chunks(RECORD_BYTES)) {
        let info = Siginfo::from_bytes(bytes).unwrap();
        let found = (info.target, info.signal, info.sender, info.value);
        let viewer = Target::Process(VIEWER);
        assert_eq!(found, (viewer, FACET, LOADER, value));
    }
}

#[test]
fn kill_lands_by_either_send() {
    for means in [Means::Kill, Means::Sigqueue] {
        let mut room = flooded();
        kill(&mut room.tables, means, VIEWER).unwrap();
        kill(&mut room.tables, means, LOADER).unwrap();
        let live = rows(&room.tables, &[LOADER, VIEWER]);
        assert_eq!(live, [""; 0]);
        room.turn().unwrap();
    }
}

#[test]
fn killing_changes_nothing_else() {
    let mut room = flooded();
    kill_by_either(&mut room.tables).unwrap();
    let mut without = Room::open().unwrap();
    without.tables.end_process(VIEWER).unwrap();
    without.tables.end_process(LOADER).unwrap();
    assert!(room.tables == without.tables);
}

#[test]
fn a_queue_that_is_not_full_is_no_incident() {
    let failure = said(replay(&sends(10), |_| ()));
    assert_eq!(failure, "10 were kept, not 32");
}

#[test]
fn a_refused_technician_ends_the_replay() {
    let mut room = Room::open().unwrap();
    room.tables.end_process(TECHNICIANS[1]).unwrap();
    assert!(said(room.turn()).starts_with("a technician's send was refused"));
    assert_eq!(room.work, work(0));
    let failure = said(flood(&mut room, CLAIM, &sends(100), |_| ()));
    assert!(failure.starts_with("a technician's send was refused"));
}

#[test]
fn a_technician_who_takes_something_else_ends_the_replay() {
    let mut room = Room::open().unwrap();
    let to = Target::Process(TECHNICIANS[1]);
    let message = Signal(34);
    room.tables.sigqueue(OPERATOR, to, message, 0).unwrap();
    assert!(said(room.turn()).starts_with("a technician took another message"));
    room.tables.kill(OPERATOR, to, Signal::INT).unwrap();
    room.work = Work::default();
    assert_eq!(said(room.turn()), "a technician took End(Signal(2))");
}

#[test]
fn a_loader_that_may_not_send_ends_the_replay() {
    let mut room = Room::open().unwrap();
    room.tables.end_process(VIEWER).unwrap();
    let failure = said(flood(&mut room, CLAIM, &sends(100), |_| ()));
    assert_eq!(failure, "the loader's send gave Err(ESRCH)");
}

#[test]
fn a_kill_that_does_not_land_is_found() {
    let mut room = flooded();
    let live = said(gone(&mut room.tables, VIEWER));
    assert_eq!(live, "process 120 is still there");
    let failure = said(kill(&mut room.tables, Means::Kill, ProcessId(999)));
    assert_eq!(failure, "KILL to 999 did not land: Err(ESRCH)");
    room.tables.end_process(LOADER).unwrap();
    assert!(said(kill_by_either(&mut room.tables)).starts_with("KILL to 110 did not land"));
}

#[test]
fn the_tables_are_shown_in_few_rows() {
    let shown = rows(&flooded().tables, &[VIEWER]);
    let zeros = "0000000000000000";
    assert_eq!(
        shown,
        [
            "Pid: 120  Uid: 1001 1001 1001  Session: 101  State: running",
            &format!("ShdPnd: 0000008000000000  SigIgn: {zeros}  SigCgt: {zeros}"),
            "Queued: 40 value 0 from 110 uid 1001",
            "... 30 more ...",
            "Queued: 40 value 31 from 110 uid 1001",
            &format!("Tid: 220  SigPnd: {zeros}  SigBlk: fffffffffffbfeff"),
        ]
    );
    assert_eq!(rows(&Tables::new(), &[VIEWER]), [""; 0]);
}

#[test]
fn a_short_queue_is_shown_whole() {
    let mut room = Room::open().unwrap();
    flood(&mut room, 3, &sends(3), |_| ()).unwrap();
    let queued = |row: &&String| row.starts_with("Queued: ");
    assert_eq!(
        rows(&room.tables, &[VIEWER]).iter().filter(queued).count(),
        3
    );
}

#[test]
fn the_report_is_one_page() {
    let page = replay(&sends(5000), |_| ()).unwrap().to_string();
    assert!(page.contains("claims 4,294,967,295 facets"));
    assert!(page.contains("sent 5,000, kept 32, refused 4,968 (errno 11 each time)"));
    assert!(page.contains("queued sends 1,250, takes 1,250, refused 0"));
    assert!(page.contains("The room goes on: queued sends 1,000, takes 1,000, refused 0"));
    assert_eq!(page.matches("Pid: 120").count(), 2);
    assert!(page.lines().count() <= 60);
    assert!(page.lines().all(|line| line.len() <= 110));
}

#[test]
fn large_numbers_have_commas() {
    let said = [0, 999, 1000, 123_456, 4_294_967_295].map(grouped);
    assert_eq!(said, ["0", "999", "1,000", "123,456", "4,294,967,295"]);
}
