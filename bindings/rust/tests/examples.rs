//! The plan of each example, printed as ./standplan prints it, is the one stored beside it.
use standplan::{plan, waits};
use std::{fmt::Write, fs, path::Path};

#[test]
fn stored_plans() {
    let folder = Path::new(env!("CARGO_MANIFEST_DIR")).join("../../examples");
    let mut seen = 0;
    for entry in fs::read_dir(folder).unwrap() {
        let path = entry.unwrap().path();
        if path.extension() != Some("sheet".as_ref()) {
            continue;
        }
        let sheet = fs::read(&path).unwrap();
        let (plan, waits) = (plan(&sheet, true).unwrap(), waits(&sheet).unwrap());
        let mut text = format!("verdict {}\nwaits {}\n", plan.verdict.number(), waits.count);
        for a in 0..plan.n {
            for i in (0..plan.n).filter(|&i| waits.maps[i] >> a & 1 == 1) {
                writeln!(text, "wait {a} {i}").unwrap();
            }
        }
        for v in 0..plan.n {
            for (a, offset) in plan.deciding(v) {
                writeln!(text, "start {v} {a} {offset}").unwrap();
            }
        }
        assert_eq!(text, fs::read_to_string(path.with_extension("plan")).unwrap(), "{}", path.display());
        seen += 1;
    }
    assert!(seen >= 3);
}
