//! Copies of the ordinary Rust calls, each with one slip planted: an exact text replaced by another.

use std::{env, fs, path::Path};

/// The slip's name, the text as it is right, and the slip.
const SLIPS: [(&str, &str, &str); 13] = [
    // paper 01, Slips we have seen in schedulers
    ("OneSlotPastTheBudget", "            p.remaining.0 -= 1;\n            p.total.0 += 1;\n            if p.remaining.0 == 0 {", "            let had = p.remaining.0;\n            p.remaining.0 = had.saturating_sub(1);\n            p.total.0 += 1;\n            if had == 0 {"),
    ("FitAtTheNewDeadlineOnly", "if t.policy == EARLIEST_DEADLINE && !fits(t) {", "if t.policy == EARLIEST_DEADLINE && !demand_is_within(t, now + away.0, away.0) {"),
    ("FullBudgetInTheFit", "left.checked_sub(p.remaining.0)", "left.checked_sub(p.budget.0)"),
    ("LateInTheSlotThatSpendsIt", "end(p, SPENT);", "end(p, if t.policy == FIXED_PRIORITY && p.deadline.0 <= t.now.0 + 1 { LATE } else { SPENT });"),
    ("ClosingInsideTheGap", "    if t.now.0 < p.next.0 {\n        return 7;\n    }\n    *p = closed_place(p.total);", "    *p = closed_place(p.total);"),
    ("PartOfTheRecordThenRefused", "    if start > record.len() || record.len() - start < n.0 as usize {\n        return 11;", "    if start > record.len() || record.len() - start < n.0 as usize {\n        if let Some(byte) = record.get_mut(start) {\n            *byte = 0;\n        }\n        return 11;"),
    // paper 01, the useless builds
    ("RefusesAll", "    if now + away.0 > LAST_TICK {\n        return 8;\n    }", "    if true {\n        return 8;\n    }"),
    ("ElectsTheSamePlaceAlways", "leader.map_or(true, |(_, best)| rank < best)", "leader.is_none() && rank < u64::MAX"),
    ("LeavesTheTableAlone", "*byte = give_slot(t) as u8;", "*byte = number(elect(t)) as u8;"),
    ("AllInTheFirstSlot", "    for byte in &mut record[start..start + n.0 as usize] {\n        *byte = give_slot(t) as u8;\n    }", "    let whose = (0..n.0).map(|_| give_slot(t)).last();\n    record[start..start + n.0 as usize].fill(whose.unwrap_or(NOBODY) as u8);"),
    ("InventsTotals", "p.total.0 += 1;", "p.total.0 += 2;"),
    // ties and ends
    ("TieToTheHigherPlace", "rank < best)", "rank <= best)"),
    ("GapForgottenAtArrival", "    p.next = Instant(now + p.gap.0);\n", "    p.next = Instant(now);\n"),
];

fn main() {
    let source = Path::new("../ordinary/src/lib.rs");
    println!("cargo:rerun-if-changed=build.rs");
    println!("cargo:rerun-if-changed={}", source.display());
    let text = fs::read_to_string(source).expect("the ordinary calls");
    let mut out = String::new();
    let mut names = String::new();
    for (name, right, slip) in SLIPS {
        assert_eq!(text.matches(right).count(), 1, "{name}: the text to replace stands there once");
        out += &format!(
            "#[allow(dead_code)]\nmod {} {{\n{}\n}}\nordinary_engine!({name}, {});\n",
            name.to_lowercase(),
            text.replace(right, slip),
            name.to_lowercase()
        );
        names += &format!("(\"{name}\", &{name} as &dyn crate::engine::Engine), ");
    }
    out += &format!("pub fn slips() -> Vec<(&'static str, &'static dyn crate::engine::Engine)> {{ vec![{names}] }}\n");
    fs::write(Path::new(&env::var("OUT_DIR").expect("cargo's folder")).join("slips.rs"), out).expect("the slips written");
}
