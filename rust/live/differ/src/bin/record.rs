//! Writes the files of recorded answers below vectors/ from the original.
use differ::record;

fn main() {
    for record in &record::ALL {
        let path = replay::harness::vector::line::file(record.file);
        let all = record.render();
        let answers = all.lines().filter(|line| !line.starts_with("# "));
        println!("{} answers in {}", answers.count(), path.display());
        std::fs::write(&path, all).expect("vectors/ can be written");
    }
}
