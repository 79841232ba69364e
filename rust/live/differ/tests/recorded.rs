//! The recorded answers are what the original says today.
use differ::record;

#[test]
fn recording_again_gives_the_same_files() {
    for record in &record::ALL {
        let held = std::fs::read_to_string(replay::harness::vector::line::file(record.file))
            .expect(record.file);
        assert!(
            record.render() == held,
            "{}: run `cargo run --release --bin record` in rust/live",
            record.file
        );
    }
}
