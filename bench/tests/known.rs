//! Sheets and records with known answers.

fn text(sheet: &str) -> String {
    let mut out = Vec::new();
    plain::plan_sheet(sheet.as_bytes(), &mut out);
    String::from_utf8(out).unwrap()
}

const TWO_STEPS: &str = "T 0 0\nT 2 4\n";
const FOUR_STEPS: &str = "T 0 10\nT 1 12\nT 2 20\nT 4 60\n";

#[test]
fn plans() {
    let plan = |steps: &str, jobs: &str| text(&format!("{steps}{jobs}P\n"));
    assert_eq!(plan(FOUR_STEPS, ""), "energy 0\n");
    assert_eq!(plan(TWO_STEPS, "J 0 2 2 1\nJ 0 4 2 2\n"), "0 5040\n1 5040\n0 5040\n1 5040\nenergy 40320\n");
    assert_eq!(plan(FOUR_STEPS, "J 0 2 3 1\n"), "1 5040\n2 5040\nenergy 161280\n");
    assert_eq!(plan(FOUR_STEPS, "J 3 4 4 1\n"), "0 15120\n3 5040\nenergy 453600\n");
    assert_eq!(plan(FOUR_STEPS, "J 3 4 5 1\n"), "refused 32 6\n");
    assert_eq!(plan(FOUR_STEPS, "J 0 1 2 1\nJ 0 3 1 2\n"), "2 5040\n0 5040\n1 5040\nenergy 211680\n");
    assert_eq!(plan(TWO_STEPS, "J 0 11 1 1\nJ 1 11 1 2\n"), "0 4582\n1 458\n0 45818\n1 4582\nenergy 20160\n");
    assert_eq!(plan("T 0 0\nT 7 7\nT 11 19\n", "J 0 1 1 1\nJ 0 1 10 2\n"), "2 5040\nenergy 95760\n");
}

#[test]
fn refusals() {
    assert_eq!(text(""), "refused 30 1\n");
    assert_eq!(text("P\n"), "refused 32 1\n");
    assert_eq!(text(TWO_STEPS), "refused 30 3\n");
    assert_eq!(text("T 0 0\nT 2 4\nP"), "refused 30 3\n");
    assert_eq!(text("T 0 0\nT 2 4\nP\nP\n"), "refused 30 4\n");
    assert_eq!(text("T 0 0\nT 2 4\nP\n\n"), "refused 30 4\n");
    assert_eq!(text("T 0 0\nT 2 04\nP\n"), "refused 30 2\n");
    assert_eq!(text("T 0 0\nT 11 4\nP\n"), "refused 32 3\n");
    assert_eq!(text("T 0 0\nT 11 4\nQ\n"), "refused 30 3\n");
    assert_eq!(text(&format!("T 0 0\nT 2 4\nP\n{}\n", "x".repeat(64))), "refused 31 4\n");
    assert_eq!(text(&format!("T 0 0\nT 2 4\nP\n{}\n", "x".repeat(63))), "refused 30 4\n");
    assert_eq!(text(&"x".repeat(32_769)), "refused 33 0\n");
    assert_eq!(text(&"x".repeat(32_768)), "refused 30 1\n");
}

#[test]
fn records() {
    let record = [1, 4, 0, 0xb0, 0x27, 1, 0xb0, 0x27, 0, 0xb0, 0x27, 1, 0xb0, 0x27];
    for (tick, answer) in [(0, 0), (5_039, 0), (5_040, 1), (20_159, 1), (20_160, 29), (u64::MAX, 29)] {
        assert_eq!(plain::step_at(&record, tick), answer);
    }
    assert_eq!(plain::step_at(&[], 0), 25);
    assert_eq!(plain::step_at(&[128], 0), 27);
    assert_eq!(plain::step_at(&[1, 0x80, 0], 0), 26);
    assert_eq!(plain::step_at(&[1, 0, 0], 0), 28);
}
