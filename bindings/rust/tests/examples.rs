//! Runs and checks examples of the checkout.
use semper::{check, contents, run, version, Status};
use std::fs;
use std::path::PathBuf;

/// The bytes of a file of the folder examples.
fn example(name: &str) -> Vec<u8> {
    let path = PathBuf::from(env!("CARGO_MANIFEST_DIR"))
        .join("../../examples")
        .join(name);
    fs::read(&path).unwrap_or_else(|error| panic!("{}: {error}", path.display()))
}

#[test]
fn the_version_is_one() {
    assert_eq!(version(), 1);
}

#[test]
fn a_run_writes_the_report_of_the_example() {
    let (status, report) = run(&example("derive_and_revoke.trace"), 0);
    assert_eq!(status, Status::Done);
    assert_eq!(report, example("derive_and_revoke.report"));
}

#[test]
fn a_text_that_is_longer_than_the_first_buffer_comes_whole() {
    let trace = long_trace(400);
    let (status, report) = run(&trace, 7);
    assert_eq!(status, Status::Done);
    assert!(report.len() > 8192);
    assert_eq!(check(&report), (Status::Done, b"ok\n".to_vec()));
}

/// A trace of one VPE with so many calls.
fn long_trace(calls: usize) -> Vec<u8> {
    let mut text = String::from("semper trace 1\nkernels 1\npe 0 0\nvpe 0 0\n");
    text += "root 0 0 mem 0 4096 7\n";
    text += &"call 0 derive 0 1 0 1024 1\n".repeat(calls);
    text += "end\n";
    text.into_bytes()
}

#[test]
fn a_check_accepts_the_report_of_each_example() {
    for name in [
        "derive_and_revoke",
        "revoke_of_three_kernels",
        "shared_memory",
        "shared_file",
    ] {
        let (status, text) = check(&example(&format!("{name}.report")));
        assert_eq!(
            (status, text.as_slice()),
            (Status::Done, b"ok\n".as_slice()),
            "{name}"
        );
    }
}

#[test]
fn a_changed_byte_is_refused() {
    let mut report = example("derive_and_revoke.report");
    let place = report
        .windows(6)
        .position(|it| it == b"made 2")
        .expect("it has two keys")
        + 5;
    report[place] = b'3';
    let (status, text) = check(&report);
    assert_eq!(status, Status::ReportRefused);
    assert_eq!(status.number(), 9);
    assert_eq!(text, b"report refused: line 15: NotCanonical\n");
}

#[test]
fn a_text_that_is_no_trace_is_refused() {
    assert_eq!(
        run(b"", 0),
        (
            Status::TraceRefused,
            b"trace refused: line 1: Missing\n".to_vec()
        )
    );
}

#[test]
fn memory_is_told_as_the_program_tells_it() {
    let (status, text) = contents(&example("shared_memory.report"));
    assert_eq!(
        (status, text),
        (Status::Done, example("shared_memory.contents"))
    );
}

#[test]
fn each_status_has_its_number() {
    for status in Status::ALL {
        assert_eq!(Status::from_number(status.number()), Some(status));
    }
    assert_eq!(Status::from_number(10), None);
}

#[test]
fn threads_may_call_at_a_time() {
    let trace = example("obtain_across_kernels.trace");
    let report = example("obtain_across_kernels.report");
    std::thread::scope(|scope| {
        for _ in 0..4 {
            scope.spawn(|| {
                for _ in 0..20 {
                    assert_eq!(run(&trace, 0), (Status::Done, report.clone()));
                }
            });
        }
    });
}
