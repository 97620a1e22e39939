//! The numbers and texts of the replies are those of docs/REPLIES.md, read from its tables, and lead there and back.
use std::fs;
use zidlemowo::{Abort, Reason, Refusal, Reply};

/// The rows of the table below a heading: a number, and the entries behind it.
fn rows(heading: &str) -> Vec<(u32, Vec<String>)> {
    let path = concat!(env!("CARGO_MANIFEST_DIR"), "/../docs/REPLIES.md");
    let text = fs::read_to_string(path).expect("docs/REPLIES.md");
    let section = text.split("\n## ").find(|section| section.starts_with(heading)).expect(heading);
    let entries = section.lines().filter(|line| line.starts_with('|'));
    let split = entries.map(|line| line.trim_matches('|').split('|').map(|entry| entry.trim().to_owned()).collect::<Vec<_>>());
    split.filter_map(|row| Some((row[0].parse().ok()?, row[1..].to_vec()))).collect()
}

/// A row's name, as the enums write it.
fn capital(name: &str) -> String {
    name.trim_matches('`').split('_').map(|word| word[..1].to_uppercase() + &word[1..]).collect()
}

#[test]
fn aborts_are_the_documents() {
    let rows = rows("Reasons of an abort");
    assert_eq!(rows.iter().map(|row| row.0).collect::<Vec<_>>(), Reason::ALL.map(Reason::number));
    for (number, entries) in rows {
        let reason = Reason::from_number(number).expect("a reason");
        assert_eq!(format!("{reason:?}"), capital(&entries[0]));
        let names_a_cell = entries[2] != "none";
        for cell in 0..40 {
            let abort = Abort::new(reason, cell);
            assert_eq!(abort.is_some(), cell < if names_a_cell { 32 } else { 1 }, "{reason:?} of cell {cell}");
            let Some(abort) = abort else { continue };
            assert_eq!((abort.reason(), abort.cell()), (reason, names_a_cell.then_some(cell)));
            assert_eq!((abort.number(), abort.text()), (number, reason.text()));
            let printed = if names_a_cell { format!("abort {number} cell {cell}") } else { format!("abort {number}") };
            assert_eq!(Reply::Aborted(abort).to_string(), printed);
            assert_eq!(abort.to_string(), format!("{printed} ({})", reason.text()));
        }
    }
}

/// An abort of each reason, at a cell where one is named.
fn aborts(cell: u32) -> [Abort; 4] {
    [Abort::Torn { cell }, Abort::Overtaken { cell }, Abort::Spent { cell }, Abort::GaveUp]
}

#[test]
fn refusals_are_the_documents() {
    let rows = rows("Refusals");
    assert_eq!(rows.iter().map(|row| row.0).collect::<Vec<_>>(), Refusal::ALL.map(Refusal::number));
    for (number, entries) in rows {
        let refusal = Refusal::from_number(number).expect("a refusal");
        assert_eq!(format!("{refusal:?}"), capital(&entries[0]));
        assert_eq!(refusal.to_string(), format!("refused {number} ({})", refusal.text()));
    }
}

#[test]
fn kinds_are_the_documents() {
    let words = rows("Kinds of reply").into_iter().map(|(kind, entries)| (kind, entries[0].clone()));
    let first = |words: String| words.split([':', ' ']).next().unwrap_or_default().to_owned();
    let documented: Vec<(u32, String)> = words.map(|(kind, words)| (kind, first(words))).collect();
    let ended = [Reply::Committed, Reply::Aborted(Abort::GaveUp), Reply::Refused(Refusal::NoCell)];
    let replies = [[Reply::Done, Reply::Value(7)].as_slice(), &ended, &[Reply::Unset]].concat();
    assert_eq!(documented, replies.iter().map(|reply| (reply.kind(), first(reply.to_string()))).collect::<Vec<_>>());
}

/// A row of the table of texts: its kind, its detail and its text.
fn worded(reply: Reply) -> (u32, Vec<String>) {
    let detail = if let Reply::Value(_) = reply { "any".to_owned() } else { reply.detail().to_string() };
    (reply.kind(), vec![detail, reply.text().to_owned()])
}

#[test]
fn texts_are_the_documents() {
    let others = [Reply::Done, Reply::Value(7), Reply::Committed];
    let replies =
        others.into_iter().chain(aborts(7).map(Reply::Aborted)).chain(Refusal::ALL.map(Reply::Refused)).chain([Reply::Unset]);
    let (said, documented) = (replies.map(worded).collect::<Vec<_>>(), rows("In words"));
    assert_eq!(said.len(), documented.len());
    for (text, row) in said.into_iter().zip(documented) {
        assert_eq!(text, row, "left is the library's text, right is docs/REPLIES.md's");
    }
}

#[test]
fn every_reply_leads_to_its_numbers_and_back() {
    let values = [0, 1, 65_535, u32::MAX].map(Reply::Value);
    let aborts = (0..32).flat_map(aborts).map(Reply::Aborted);
    let refusals = Refusal::ALL.map(Reply::Refused);
    let others = [Reply::Done, Reply::Committed, Reply::Unset];
    for reply in others.into_iter().chain(values).chain(aborts).chain(refusals) {
        assert_eq!(Reply::from_numbers(reply.kind(), reply.detail(), reply.cell()), Some(reply));
        let Reply::Aborted(abort) = reply else { continue };
        assert_eq!((reply.detail(), reply.cell()), (abort.number(), abort.cell().unwrap_or(0)));
    }
}

#[test]
fn numbers_that_stand_for_nothing_give_nothing() {
    for number in (0..1_000).chain([u32::MAX]) {
        assert_eq!(Reason::from_number(number).map_or(number, Reason::number), number);
        assert_eq!(Reason::from_number(number).is_some(), [1, 2, 3, 5].contains(&number));
        assert_eq!(Refusal::from_number(number).map_or(number, Refusal::number), number);
        assert_eq!(Reply::from_numbers(5, number, 0).is_some(), number == 0);
        assert_eq!(Reply::from_numbers(6, number, 0), None);
        assert_eq!(Reply::from_numbers(0, number, 0).is_some(), number == 0);
        assert_eq!(Reply::from_numbers(2, number, 0).is_some(), number == 0);
        assert_eq!(Reply::from_numbers(4, number, 0).is_some(), Refusal::from_number(number).is_some());
        for cell in [0, 1, 31, 32, 65_536, u32::MAX] {
            let names = Reason::from_number(number).map_or(0, |reason| if reason == Reason::GaveUp { 1 } else { 32 });
            assert_eq!(Reply::from_numbers(3, number, cell).is_some(), cell < names, "abort {number} of cell {cell}");
            // Nothing but an abort names a cell.
            assert!([0, 1, 2, 4, 5].iter().all(|&kind| cell == 0 || Reply::from_numbers(kind, number, cell).is_none()));
        }
    }
}
