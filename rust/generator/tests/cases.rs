//! The second program prints what the stored cases say.

use generator::cases::CASES;

#[test]
fn stored_cases() {
    for stored in CASES {
        let case = stored.parse().expect("a case");
        let mut out = Vec::new();
        second::lister(&case.input, &mut out).expect("a list takes all");
        assert_eq!(
            String::from_utf8_lossy(&out),
            case.prints,
            "{}",
            stored.name
        );
    }
}

#[test]
fn every_stored_file_is_a_case() {
    let folder = concat!(env!("CARGO_MANIFEST_DIR"), "/cases");
    let files = std::fs::read_dir(folder).expect("the cases").count();
    assert_eq!(files, CASES.len());
}
