//! The wrapper against the sample shows of examples/.
use super::*;
use std::{fs, vec, vec::Vec};

fn sample(name: &str) -> Vec<u8> {
    let path = std::format!("{}/../../examples/{name}.asc", env!("CARGO_MANIFEST_DIR"));
    fs::read(&path).unwrap_or_else(|e| panic!("{path}: {e}"))
}

/// An emptied store, loaded with a sample.
fn loaded(desk: Desk, name: &str) -> (Vec<u8>, Totals, Vec<Report>) {
    let stream = sample(name);
    let mut store = vec![0xa5; desk.needed().unwrap()];
    let mut list = vec![0; stream.len() + 1];
    desk.empty(&mut store).unwrap();
    let totals = desk.load(&mut store, &stream, &mut list).unwrap();
    let reports = totals.stored(&list).collect();
    (store, totals, reports)
}

fn written(desk: Desk, store: &[u8]) -> Vec<u8> {
    let mut out = vec![0; MOST_STREAM];
    let n = desk.write(store, &mut out).unwrap();
    out.truncate(n);
    out
}

fn conditions(reports: &[Report]) -> Vec<u32> {
    reports.iter().map(|r| r.condition).collect()
}

#[test]
fn lengths() {
    assert_eq!(Desk::HOUSE.needed(), Ok(35_136));
    assert_eq!(Desk::LARGEST.needed(), Ok(846_592));
    assert_eq!(Desk::LARGEST.limits(), [512, 512, 600, 200, 96, 63, 63, 8, 4]);
    assert_eq!(Desk::of(Desk::HOUSE.limits()), Desk::HOUSE);
}

#[test]
fn the_worked_show() {
    let (store, totals, reports) = loaded(Desk::HOUSE, "worked");
    assert_eq!(totals, Totals { reports: 2, blank: 1, obeyed: 6, passed: 1, dropped: 1, closing: 43 });
    assert_eq!(totals.records(), 9);
    assert_eq!(reports, [Report { record: 6, condition: 172, column: 14 }, Report { record: 7, condition: 43, column: 9 }]);
    let stream = b"IDENT 3:0\r\nCLEAR ALL\r\nPATCH 1 1<5@HFF\r\nCUE 2.5 1\r\nUP 3\r\nCHAN 1@HFF 2@H8F\r\nENDDATA\r\n";
    assert_eq!(written(Desk::HOUSE, &store), stream);
}

#[test]
fn levels_are_the_very_bytes_of_the_store() {
    let (store, ..) = loaded(Desk::HOUSE, "worked");
    let levels = Desk::HOUSE.look_up(&store, 1, 2, 5).unwrap().unwrap();
    let place = Desk::HOUSE.find(&store, 1, 2, 5).unwrap().unwrap();
    assert_eq!(levels.as_ptr(), store[place..].as_ptr());
    assert_eq!((levels.len(), levels[0], levels[1], levels[2]), (96, 0xff, 0x8f, 0));
    assert_eq!(Desk::HOUSE.cues(&store).unwrap().next().unwrap().levels.as_ptr(), levels.as_ptr());
    for (page, whole, tenths) in [(2, 2, 5), (1, 2, 0), (0, 2, 5), (64, 2, 5), (1, 2, 10), (1, 0, 0)] {
        assert_eq!(Desk::HOUSE.look_up(&store, page, whole, tenths), Ok(None));
    }
}

#[test]
fn cues_come_by_page_and_number() {
    let (store, totals, reports) = loaded(Desk::HOUSE, "house");
    assert_eq!((totals.closing, reports.len()), (0, 0));
    let named = |m: Memory| std::format!("{} {}", m.number, m.page);
    let cues: Vec<_> = Desk::HOUSE.cues(&store).unwrap().map(named).collect();
    assert_eq!(cues, ["0.5 1", "1 1", "2 1", "3 1", "4 1", "4.5 1", "6 1", "99 1", "1 2", "2 2"]);
    let groups: Vec<_> = Desk::HOUSE.groups(&store).unwrap().map(named).collect();
    assert_eq!(groups, ["1 1", "2 1"]);
    let submasters: Vec<_> = Desk::HOUSE.submasters(&store).unwrap().map(named).collect();
    assert_eq!(submasters, ["1 1", "2 1", "24 1", "1 2"]);
    for m in Desk::HOUSE.cues(&store).unwrap() {
        let levels = Desk::HOUSE.look_up(&store, m.page, m.number.whole, m.number.tenths).unwrap().unwrap();
        assert_eq!((levels.as_ptr(), levels.len()), (m.levels.as_ptr(), m.levels.len()));
    }
}

#[test]
fn heads_and_patch() {
    let (store, ..) = loaded(Desk::HOUSE, "house");
    let cue =
        |page, whole, tenths| Desk::HOUSE.cues(&store).unwrap().find(|m| m.page == page && m.number == Number { whole, tenths }).unwrap();
    let storm = cue(1, 1, 0);
    assert_eq!(storm.up, Some(Fade { fade: 0, delay: 0 }));
    assert_eq!(storm.down, Some(Fade { fade: 25, delay: 5 }));
    assert_eq!((storm.followon, storm.link), (Some(30), None));
    let cell = cue(1, 4, 0);
    assert_eq!((cell.up, cell.down), (Some(Fade { fade: 900, delay: 100 }), Some(Fade { fade: 600, delay: 0 })));
    assert_eq!(cue(1, 99, 0).link, Some(Number { whole: 0, tenths: 5 }));
    let blackout = cue(1, 3, 0);
    assert!(blackout.up.is_none() && blackout.levels.iter().all(|&level| level == 0));
    let patch: Vec<_> = Desk::HOUSE.patch(&store).unwrap().collect();
    assert_eq!(patch.len(), 21);
    assert_eq!(patch[1], Patched { page: 1, dimmer: 2, channel: 1, level: 0xff });
    assert_eq!(patch[20], Patched { page: 1, dimmer: 63, channel: 33, level: 0xff });
}

#[test]
fn a_desk_of_another_maker() {
    let (store, totals, reports) = loaded(Desk::HOUSE, "foreign");
    assert_eq!((totals.records(), totals.passed, totals.closing, reports.len()), (41, 13, 0, 0));
    let levels = Desk::HOUSE.look_up(&store, 1, 2, 0).unwrap().unwrap();
    assert_eq!(levels[..4], [0xff, 0xff, 0x9c, 0x4a]);
}

#[test]
fn each_condition_is_met() {
    let mut met = Vec::new();
    let small = Desk::of([12, 12, 3, 1, 6, 1, 1, 1, 1]);
    let bare = Desk::of([6, 6, 10, 0, 0, 1, 1, 1, 1]);
    let runs =
        [(Desk::HOUSE, "faults"), (Desk::HOUSE, "long_record"), (Desk::HOUSE, "other_version"), (small, "small_desk"), (bare, "bare_desk")];
    for (desk, name) in runs {
        let (_, totals, reports) = loaded(desk, name);
        let found = conditions(&reports);
        assert_eq!(found.last(), Some(&totals.closing), "{name}");
        met.extend(found);
    }
    met.sort_unstable();
    let with_text: Vec<u32> = (1..1000).filter(|&c| !condition_text(c).is_empty()).collect();
    assert_eq!(met, with_text);
    assert_eq!(met.iter().filter(|&&c| severity(c) == 'E').count(), 3);
}

#[test]
fn columns_are_of_the_record_as_received() {
    let stream = b"CUE \x80x\n\t\x01 SUB\t\xe9 0\n  CLEAR\nCUE\n";
    let mut store = vec![0; 35_136];
    let mut list = [0; 9];
    let totals = Desk::HOUSE.load(&mut store, stream, &mut list).unwrap();
    let told: Vec<_> = totals.stored(&list).map(|r| (r.record, r.condition, r.column)).collect();
    let expected = [(1, 701, 0), (1, 41, 6), (2, 701, 0), (2, 702, 0), (2, 44, 10), (3, 151, 3), (4, 41, 0), (4, 100, 0)];
    assert_eq!(told, expected);
    assert_eq!(list[1], 1 << 46 | 41 << 32 | 6 << 25);
    assert!(list[..8].iter().all(|word| word % (1 << 25) == 0));
}

#[test]
fn a_full_list_keeps_the_count() {
    let stream = sample("worked");
    let mut store = vec![0; 35_136];
    let mut list = [7; 1];
    let totals = Desk::HOUSE.load(&mut store, &stream, &mut list).unwrap();
    assert_eq!((totals.reports, totals.stored(&list).count()), (2, 1));
    Desk::HOUSE.empty(&mut store).unwrap();
    assert_eq!(Desk::HOUSE.load(&mut store, &stream, &mut []).unwrap(), totals);
}

#[test]
fn written_and_read_again() {
    for name in ["worked", "house", "foreign", "faults", "noise"] {
        let (store, ..) = loaded(Desk::HOUSE, name);
        let stream = written(Desk::HOUSE, &store);
        let mut again = vec![0; 35_136];
        let totals = Desk::HOUSE.load(&mut again, &stream, &mut []).unwrap();
        assert_eq!((totals.reports, totals.closing, totals.records()), (0, 0, totals.obeyed), "{name}");
        assert_eq!(written(Desk::HOUSE, &again), stream, "{name}");
        assert!(Desk::HOUSE.cues(&store).unwrap().eq(Desk::HOUSE.cues(&again).unwrap()), "{name}");
        assert!(Desk::HOUSE.patch(&store).unwrap().eq(Desk::HOUSE.patch(&again).unwrap()), "{name}");
    }
}

#[test]
fn refused_and_untouched() {
    let house = Desk::HOUSE;
    let none = Desk { channels: 0, ..house };
    let (good, ..) = loaded(house, "worked");
    let length = written(house, &good).len();
    let mut bad = good.clone();
    bad[0] &= 0x7f;
    let r4 = Refused::R4a(1);
    let mut list = [7; 4];
    let mut store = good.clone();

    assert_eq!(house.load(&mut store, &vec![b'!'; MOST_STREAM + 1], &mut list), Err(Refused::R1));
    assert_eq!(none.load(&mut store, b"", &mut list), Err(Refused::R2));
    assert_eq!(house.load(&mut store[..35_135], b"", &mut list), Err(Refused::R3));
    assert_eq!((store.clone(), list), (good.clone(), [7; 4]));
    let mut damaged = bad.clone();
    assert_eq!(house.load(&mut damaged, b"", &mut list), Err(r4));
    assert_eq!((damaged, list), (bad.clone(), [7; 4]));

    assert_eq!(none.needed(), Err(Refused::R2));
    assert_eq!((none.empty(&mut store), house.empty(&mut store[..9])), (Err(Refused::R2), Err(Refused::R3)));
    assert_eq!(store, good);

    let mut out = vec![7; length - 1];
    assert_eq!(house.write(&good, &mut out), Err(Refused::R6(length)));
    assert_eq!((none.write(&good, &mut out), house.write(&[], &mut out)), (Err(Refused::R2), Err(Refused::R3)));
    assert_eq!(house.write(&bad, &mut out), Err(r4));
    assert_eq!(out, vec![7; length - 1]);

    assert_eq!((none.look_up(&good, 1, 1, 0), house.look_up(&[], 1, 1, 0)), (Err(Refused::R2), Err(Refused::R3)));
    assert_eq!(house.look_up(&bad, 1, 1, 0), Err(r4));
    assert_eq!((house.cues(&bad).err(), house.patch(&[]).err()), (Some(r4), Some(Refused::R3)));
    assert_eq!((none.groups(&good).err(), house.submasters(&bad).err()), (Some(Refused::R2), Some(r4)));
}

/// Damages of all three sorts: the first of each is told, R4a ahead of R4b ahead of R4c, wherever they stand.
#[test]
fn what_is_out_of_form_and_where() {
    let house = Desk::HOUSE;
    let (mut store, ..) = loaded(house, "house");
    let told = |store: &[u8]| house.look_up(store, 1, 1, 0).map(|_| ());
    let (slot, patch) = (24 + 96, (200 + 40 + 2 * 24) * (24 + 96));
    store[patch + 3 * 191] = 0xff;
    assert_eq!(told(&store), Err(Refused::R4c(192)));
    store[patch + 3 * 6 + 2] |= 1;
    assert_eq!(told(&store), Err(Refused::R4c(7)));
    store.copy_within(200 * slot..201 * slot, 201 * slot);
    assert_eq!(told(&store), Err(Refused::R4b(202)));
    store.copy_within(8 * slot..9 * slot, 9 * slot);
    assert_eq!(told(&store), Err(Refused::R4b(10)));
    store[287 * slot + 119] = 1;
    assert_eq!(told(&store), Err(Refused::R4a(288)));
    store[5 * slot + 23] = 1;
    assert_eq!(told(&store), Err(Refused::R4a(6)));
}

#[test]
fn refusals_in_words() {
    use Refused::*;
    for refused in [R1, R2, R3, R4a(3), R4b(5), R4c(7), R5, R6(9), R7] {
        assert_eq!(std::format!("R{:X}", refused.number()), refused.name().to_uppercase());
    }
    assert_eq!(R4a(3).to_string(), "slot 3 is out of form for this desk");
    assert_eq!(R4b(5).to_string(), "slot 5 has the number and page of an earlier one");
    assert_eq!(R4c(7).to_string(), "patch entry 7 is out of form for this desk");
    assert_eq!(R7.to_string(), "the desk has no groups, or no submasters, and a load with translation needs both");
}

/// The only way to R5: a show too long to write, which a large desk can keep.
#[test]
fn a_show_too_long_to_write() {
    let desk = Desk::LARGEST;
    let mut store = vec![0; desk.needed().unwrap()];
    for cue in 1..=600 {
        let mut stream = std::format!("CUE {cue}\n");
        for channel in 1..=512 {
            stream += &std::format!("CHAN {channel}@HFF\n");
        }
        desk.load(&mut store, stream.as_bytes(), &mut []).unwrap();
    }
    assert_eq!(desk.write(&store, &mut [0; 8]), Err(Refused::R5));
}

/// An emptied store, loaded with translation.
fn translated(desk: Desk, stream: &str) -> (Vec<u8>, Totals, Vec<Report>) {
    let mut store = vec![0; desk.needed().unwrap()];
    let mut list = vec![0; stream.len() + 1];
    let totals = desk.translate(&mut store, stream.as_bytes(), &mut list).unwrap();
    let reports = totals.stored(&list).collect();
    (store, totals, reports)
}

/// The kept memories of a kind as whole numbers and pages.
fn named(desk: Desk, store: &[u8], kind: Kind) -> Vec<(u32, u32)> {
    desk.memories(store, kind).unwrap().map(|m| (m.number.whole, m.page)).collect()
}

/// The wholes of the numbers that the cues link to.
fn links(desk: Desk, store: &[u8]) -> Vec<Option<u32>> {
    desk.cues(store).unwrap().map(|m| m.link.map(|link| link.whole)).collect()
}

/// Each kind by itself, whatever its records bear; a refused one uses no number, and CLEAR restarts none.
#[test]
fn numbered_anew() {
    let desk = Desk::of([4, 4, 3, 2, 2, 2, 1, 2, 1]);
    let stream = "CUE 1000\nSUB 77\nGROUP 0 9\nCUE 10.25 9\nSUB\nSUB x 0\nCUE prelude\nGROUP\nSUB 1\nCUE 1\nENDDATA\n";
    let (store, totals, reports) = translated(desk, stream);
    assert_eq!(named(desk, &store, Kind::Cue), [(1, 1), (2, 1), (3, 1)]);
    assert_eq!(named(desk, &store, Kind::Group), [(1, 1), (2, 1)]);
    assert_eq!(named(desk, &store, Kind::Submaster), [(1, 1), (2, 1), (1, 2), (2, 2)]);
    assert_eq!(reports, [Report { record: 10, condition: 21, column: 0 }]);
    assert_eq!(totals, Totals { reports: 1, blank: 0, obeyed: 10, passed: 0, dropped: 1, closing: 21 });

    let (store, _, reports) = translated(desk, "CUE 9\nCUE 9\nCUE 9\nCUE 9\nCLEAR CUES 60\nCUE 9\nENDDATA\n");
    assert_eq!((named(desk, &store, Kind::Cue), conditions(&reports)), (vec![(4, 1)], vec![21]));
    let (_, _, reports) = translated(desk, &("SUB 1\n".repeat(4) + "SUB 1\n SUB\nENDDATA\n"));
    let beyond = [Report { record: 5, condition: 44, column: 5 }, Report { record: 6, condition: 44, column: 0 }];
    assert_eq!(reports, beyond);
}

/// The thousandth cue is the first of page 2, and one beyond the last page is refused.
#[test]
fn a_thousand_cues_anew() {
    let desk = Desk { cue_pages: 2, ..Desk::LARGEST };
    let stream = "CUE 1\n".repeat(500) + "CLEAR CUES\n" + &"CUE 1\n".repeat(500) + "ENDDATA\n";
    let (store, totals, _) = translated(desk, &stream);
    let cues = named(desk, &store, Kind::Cue);
    assert_eq!((cues.len(), cues[0], cues[498], cues[499], totals.closing), (500, (501, 1), (999, 1), (1, 2), 0));
    let one = Desk { cue_pages: 1, ..desk };
    let (store, totals, reports) = translated(one, &stream);
    assert_eq!((named(one, &store, Kind::Cue).len(), totals.dropped), (499, 1));
    assert_eq!(reports, [Report { record: 1001, condition: 21, column: 0 }]);
}

/// Ahead of its cue or behind it, and by value; a number that several bear is the last one's, and a cue's last LINK stands.
#[test]
fn links_follow_the_renumbering() {
    let stream = "CUE 1000\nLINK 20\nCUE 20.0\nLINK 1000\nCUE 7\nLINK 0.5\nCUE 0.5 9\nLINK 7\nCUE 07\nLINK 99\nLINK 020\nENDDATA\n";
    let (store, totals, reports) = translated(Desk::HOUSE, stream);
    assert_eq!(links(Desk::HOUSE, &store), [Some(2), Some(1), Some(4), Some(5), Some(2)]);
    assert_eq!((totals.obeyed, totals.closing, reports.len()), (12, 0, 0));
}

/// A number that no cue bears: the record is obeyed and the link removed, which is reported when the load ends, ahead of 0100.
#[test]
fn links_that_are_lost() {
    let stream = "CUE 1\nLINK 99\nCUE 2\nLINK 10.25\nCUE 10.25\nLINK 2\nCUE\x01 4\nLINK here";
    let (store, totals, reports) = translated(Desk::HOUSE, stream);
    assert_eq!(links(Desk::HOUSE, &store), [None, None, Some(2), None]);
    let lost = Report { record: 8, condition: 41, column: 0 };
    let others = [Report { record: 7, condition: 702, column: 0 }, Report { record: 8, condition: 100, column: 0 }];
    assert_eq!(reports, [others[0], lost, lost, lost, others[1]]);
    assert_eq!(totals, Totals { reports: 5, blank: 0, obeyed: 8, passed: 0, dropped: 0, closing: 100 });
}

/// What is kept already is overwritten under its number; links that stood before stay.
#[test]
fn translated_on_top_of_a_show() {
    let house = Desk::HOUSE;
    let (mut store, ..) = loaded(house, "house");
    assert_eq!(links(house, &store)[7], Some(0));
    house.translate(&mut store, b"CUE 500\nCHAN 3@H01\nENDDATA\n", &mut []).unwrap();
    assert_eq!(house.cues(&store).unwrap().len(), 10);
    assert_eq!(house.look_up(&store, 1, 1, 0).unwrap().map(|levels| levels[..4].to_vec()), Some(vec![0, 0, 1, 0]));
    assert_eq!(links(house, &store)[7], Some(0));
}

/// R7 comes after R4c, and every lent byte is as it was.
#[test]
fn translation_refused_and_untouched() {
    let house = Desk::HOUSE;
    let (good, ..) = loaded(house, "worked");
    let mut list = [7; 4];
    let mut store = good.clone();
    assert_eq!(house.translate(&mut store, &vec![b'!'; MOST_STREAM + 1], &mut list), Err(Refused::R1));
    assert_eq!(Desk { channels: 0, ..house }.translate(&mut store, b"", &mut list), Err(Refused::R2));
    assert_eq!(house.translate(&mut store[..35_135], b"", &mut list), Err(Refused::R3));
    assert_eq!((store, list), (good, [7; 4]));
    for desk in [Desk { groups: 0, ..house }, Desk { submasters: 0, ..house }, Desk { groups: 0, submasters: 0, ..house }] {
        let needed = desk.needed().unwrap();
        let mut store = vec![0; needed];
        desk.load(&mut store, b"CUE 1\nCHAN 1@HFF\nENDDATA\n", &mut []).unwrap();
        let good = store.clone();
        assert_eq!(desk.translate(&mut store, b"CUE 2\nENDDATA\n", &mut list), Err(Refused::R7));
        assert_eq!((store.clone(), list), (good, [7; 4]));
        store[needed - 1] = 1;
        let bad = store.clone();
        assert!(matches!(desk.translate(&mut store, b"", &mut list), Err(Refused::R4c(192))));
        assert_eq!((store, list), (bad, [7; 4]));
    }
}

/// The slots that are listed of a kind, and how many are kept, where `room` can be listed; what is past them has to stay as it was.
fn listed(desk: Desk, store: &[u8], kind: u32, room: usize) -> Result<(Vec<u32>, usize), u32> {
    let (mut slots, mut count) = (vec![77; room], [88, 99]);
    let answer = calls::memories(&desk.limits(), store, kind, &mut slots, &mut count);
    if answer != 0 {
        assert_eq!((slots, count), (vec![77; room], [88, 99]));
        return Err(answer);
    }
    let stored = room.min(count[0]);
    assert!(slots[stored..].iter().all(|&slot| slot == 77) && count[1] == 99);
    slots.truncate(stored);
    Ok((slots, count[0]))
}

#[test]
fn slots_are_listed_by_page_and_number() {
    let house = Desk::HOUSE;
    let (store, ..) = loaded(house, "house");
    assert_eq!(listed(house, &store, Kind::Cue.number(), 768), Ok(((1..=10).collect(), 10)));
    assert_eq!(listed(house, &store, Kind::Group.number(), 768), Ok((vec![201, 202], 2)));
    assert_eq!(listed(house, &store, Kind::Submaster.number(), 768), Ok((vec![241, 242, 264, 265], 4)));
    let slots: Vec<u32> = house.submasters(&store).unwrap().map(|m| m.slot).collect();
    assert_eq!(slots, [241, 242, 264, 265]);

    let mut store = vec![0; 35_136];
    house.load(&mut store, b"CUE 9\nCUE 2\nCUE 2 2\nCUE 1.5\nCUE 0.1 2\nENDDATA\n", &mut []).unwrap();
    assert_eq!(listed(house, &store, 0, 768), Ok((vec![4, 2, 1, 5, 3], 5)));
    assert_eq!(listed(house, &store, 0, 5), Ok((vec![4, 2, 1, 5, 3], 5)));
    assert_eq!(listed(house, &store, 0, 3), Ok((vec![4, 2, 1], 5)));
    assert_eq!(listed(house, &store, 0, 0), Ok((vec![], 5)));
    assert_eq!(listed(house, &store, 1, 768), Ok((vec![], 0)));
    let mut slots = [77; 2];
    assert_eq!(calls::memories(&house.limits(), &store, 0, &mut slots, &mut []), 0);
    assert_eq!(slots, [4, 2]);
    for kind in [3, 4, 255, u32::MAX] {
        assert_eq!(listed(house, &store, kind, 5), Err(calls::NOT_KEPT));
    }
}

/// A walk knows how far it has to go, and one over a full table is over every slot.
#[test]
fn a_walk_over_the_largest_desk() {
    let desk = Desk::LARGEST;
    let mut store = vec![0; desk.needed().unwrap()];
    let cues: Vec<_> = (1..=600).rev().map(|cue| std::format!("CUE {cue}\nCHAN {}@H7F\n", cue % 512 + 1)).collect();
    let submasters = (1..=8).flat_map(|page| (1..=96).map(move |n| std::format!("SUB {n} {page}\n")));
    let stream: Vec<_> = cues.into_iter().chain(submasters).collect();
    desk.load(&mut store, stream.concat().as_bytes(), &mut []).unwrap();
    let mut walk = desk.cues(&store).unwrap();
    assert_eq!(walk.len(), 600);
    for cue in 1..=600 {
        let m = walk.next().unwrap();
        assert_eq!((m.slot, m.page, m.number), (601 - cue, 1, Number { whole: cue, tenths: 0 }));
        assert_eq!((m.levels[cue as usize % 512], walk.len()), (0x7f, 600 - cue as usize));
    }
    assert_eq!((walk.next(), walk.next()), (None, None));
    assert_eq!(desk.submasters(&store).unwrap().len(), MOST_SLOTS);
    assert_eq!(desk.submasters(&store).unwrap().last().map(|m| (m.slot, m.page, m.number.whole)), Some((1568, 8, 96)));
}

/// The values of a slot's head, and where its levels begin; both have to stay as they were where that is not answered.
fn slot_told(desk: Desk, store: &[u8], slot: u32) -> Result<([u32; 16], usize), u32> {
    let (mut values, mut place) = ([77; 17], [88, 99]);
    let answer = calls::head(&desk.limits(), store, slot, &mut values);
    assert_eq!(calls::levels(&desk.limits(), store, slot, &mut place), answer);
    assert_eq!((values[16], place[1]), (77, 99));
    if answer != 0 {
        assert_eq!((values, place[0]), ([77; 17], 88));
        return Err(answer);
    }
    Ok((*values.first_chunk().unwrap(), place[0]))
}

fn patch_told(desk: Desk, store: &[u8], page: u32, dimmer: u32) -> Result<[u32; 3], u32> {
    let mut values = [77; 4];
    let answer = calls::patch(&desk.limits(), store, page, dimmer, &mut values);
    assert_eq!(values[3], 77);
    if answer != 0 {
        assert_eq!(values, [77; 4]);
        return Err(answer);
    }
    Ok(*values.first_chunk().unwrap())
}

#[test]
fn slots_and_dimmers_one_by_one() {
    let house = Desk::HOUSE;
    let (store, ..) = loaded(house, "house");
    assert_eq!(slot_told(house, &store, 2), Ok(([1, 1, 1, 0, 0, 0, 0, 1, 0, 0, 1, 25, 5, 1, 30, 0], 144)));
    assert_eq!(slot_told(house, &store, 8), Ok(([1, 1, 99, 0, 1, 0, 5, 1, 10, 0, 1, 10, 0, 0, 0, 0], 864)));
    assert_eq!(slot_told(house, &store, 288), Ok(([0; 16], 287 * 120 + 24)));
    assert_eq!((house.memory(&store, 288), house.memory(&store, 289), house.memory(&store, 0)), (Ok(None), Ok(None), Ok(None)));
    assert_eq!(house.memory(&store, 8).unwrap(), house.cues(&store).unwrap().nth(7));
    for slot in [0, 289, 1_000, u32::MAX] {
        assert_eq!(slot_told(house, &store, slot), Err(calls::NOT_KEPT));
    }
    assert_eq!((patch_told(house, &store, 1, 63), patch_told(house, &store, 1, 192)), (Ok([33, 255, 0]), Ok([0; 3])));
    assert_eq!(house.patched(&store, 1, 63), Ok(Some(Patched { page: 1, dimmer: 63, channel: 33, level: 255 })));
    for (page, dimmer) in [(0, 1), (1, 0), (1, 193), (2, 1), (u32::MAX, 1), (1, u32::MAX), (u32::MAX, u32::MAX)] {
        assert_eq!(patch_told(house, &store, page, dimmer), Err(calls::NOT_KEPT));
        assert_eq!(house.patched(&store, page, dimmer), Ok(None));
    }
    let mut short = [77; 3];
    assert_eq!((calls::head(&house.limits(), &store, 8, &mut short), short), (0, [1, 1, 99]));
    assert_eq!((calls::patch(&house.limits(), &store, 1, 63, &mut short[..1]), short), (0, [33, 1, 99]));
    assert_eq!((calls::levels(&house.limits(), &store, 8, &mut []), calls::head(&house.limits(), &store, 8, &mut [])), (0, 0));
}

/// Of a store in no good form the bits are told as they stand; only the list of memories is refused.
#[test]
fn readers_of_a_damaged_store() {
    let house = Desk::HOUSE;
    let damaged = vec![0xff; 35_136];
    let (number, time) = ([1_023, 15], (1 << 26) - 1);
    let head = [1, 63, number[0], number[1], 1, number[0], number[1], 1, time, time, 1, time, time, 1, time, (1 << 23) - 1];
    assert_eq!(slot_told(house, &damaged, 1), Ok((head, 24)));
    assert_eq!(slot_told(house, &damaged, 288), Ok((head, 34_464)));
    assert_eq!((slot_told(house, &damaged, 289), patch_told(house, &damaged, 1, 193)), (Err(calls::NOT_KEPT), Err(calls::NOT_KEPT)));
    assert_eq!(patch_told(house, &damaged, 1, 192), Ok([1_023, 255, 63]));
    assert_eq!(house.memory(&damaged, 1).unwrap().map(|m| (m.page, m.followon, m.levels.len())), Some((63, Some(time), 96)));
    assert_eq!(listed(house, &damaged, 0, 9), Err(0x14a));
    assert_eq!(listed(house, &damaged, 3, 9), Err(0x14a));

    let (mut store, ..) = loaded(house, "house");
    store[34_560 + 3 * 6 + 2] |= 1;
    assert_eq!(listed(house, &store, 2, 9), Err(0x74c));
    store.copy_within(120..123, 1_080);
    assert_eq!(listed(house, &store, 2, 9), Err(0xa4b));
}

#[test]
fn readers_refused() {
    let house = Desk::HOUSE;
    let none = Desk { patch_pages: 0, ..house };
    let (store, ..) = loaded(house, "house");
    for (desk, store, number, refused) in [(none, &store[..], 2, Refused::R2), (house, &store[..35_135], 3, Refused::R3)] {
        assert_eq!((listed(desk, store, 0, 9), listed(desk, store, 9, 9)), (Err(number), Err(number)));
        assert_eq!((slot_told(desk, store, 1), slot_told(desk, store, 0)), (Err(number), Err(number)));
        assert_eq!((patch_told(desk, store, 1, 1), patch_told(desk, store, 0, 0)), (Err(number), Err(number)));
        assert_eq!((desk.memory(store, 1), desk.patched(store, 1, 1)), (Err(refused), Err(refused)));
        assert_eq!((desk.memories(store, Kind::Cue).err(), desk.patch(store).err()), (Some(refused), Some(refused)));
    }
}

/// Memories are compared by what they keep, wherever they stand.
#[test]
fn the_same_memory_in_another_slot() {
    let shows: [&[u8]; 3] = [b"CUE 1\nCUE 2\nUP 3\n", b"CUE 2\nUP 3\nCUE 1\n", b"CUE 2\nUP 3\nCUE 1\nCHAN 1@H01\n"];
    let [a, b, c] = shows.map(|show| {
        let mut store = vec![0; 35_136];
        Desk::HOUSE.load(&mut store, show, &mut []).unwrap();
        store
    });
    let cues = |store| Desk::HOUSE.cues(store).unwrap();
    assert!(cues(&a).eq(cues(&b)) && cues(&a).map(|m| m.slot).ne(cues(&b).map(|m| m.slot)));
    assert!(cues(&b).map(|m| m.slot).eq(cues(&c).map(|m| m.slot)) && cues(&b).ne(cues(&c)));
}

/// Table C-1 of the standard: a level's percentage, sixteen levels a row.
const TABLE_C_1: [[u32; 16]; 16] = [
    [0, 0, 1, 1, 2, 2, 2, 3, 3, 4, 4, 4, 5, 5, 5, 6],
    [6, 7, 7, 7, 8, 8, 9, 9, 9, 10, 10, 11, 11, 11, 12, 12],
    [13, 13, 13, 14, 14, 15, 15, 15, 16, 16, 16, 17, 17, 18, 18, 18],
    [19, 19, 20, 20, 20, 21, 21, 22, 22, 22, 23, 23, 24, 24, 24, 25],
    [25, 25, 26, 26, 27, 27, 27, 28, 28, 29, 29, 29, 30, 30, 31, 31],
    [31, 32, 32, 33, 33, 33, 34, 34, 35, 35, 35, 36, 36, 36, 37, 37],
    [38, 38, 38, 39, 39, 40, 40, 40, 41, 41, 42, 42, 42, 43, 43, 44],
    [44, 44, 45, 45, 45, 46, 46, 47, 47, 47, 48, 48, 49, 49, 49, 50],
    [50, 51, 51, 51, 52, 52, 53, 53, 53, 54, 54, 55, 55, 55, 56, 56],
    [56, 57, 57, 58, 58, 58, 59, 59, 60, 60, 60, 61, 61, 62, 62, 62],
    [63, 63, 64, 64, 64, 65, 65, 65, 66, 66, 67, 67, 67, 68, 68, 69],
    [69, 69, 70, 70, 71, 71, 71, 72, 72, 73, 73, 73, 74, 74, 75, 75],
    [75, 76, 76, 76, 77, 77, 78, 78, 78, 79, 79, 80, 80, 80, 81, 81],
    [82, 82, 82, 83, 83, 84, 84, 84, 85, 85, 85, 86, 86, 87, 87, 87],
    [88, 88, 89, 89, 89, 90, 90, 91, 91, 91, 92, 92, 93, 93, 93, 94],
    [94, 95, 95, 95, 96, 96, 96, 97, 97, 98, 98, 98, 99, 99, 100, 100],
];

#[test]
fn percents() {
    let told: Vec<u32> = (0..=255).map(percent).collect();
    assert_eq!(told, TABLE_C_1.concat());
}

/// The conditions that a load can report, and the closing number 0, with severity and text.
const CONDITIONS: [(u32, char, &str); 23] = [
    (0, 'I', "Data stream successfully processed"),
    (21, 'W', "Cue memory exhausted"),
    (22, 'W', "Group memory exhausted"),
    (41, 'W', "Invalid cue or group number"),
    (42, 'W', "Cue or group number too large"),
    (43, 'W', "Page out of range"),
    (44, 'W', "Submaster number out of range"),
    (51, 'W', "Groups not supported"),
    (52, 'W', "Submasters not supported"),
    (91, 'E', "Encountered record longer than 80 characters"),
    (99, 'E', "Ident mismatch prohibits processing"),
    (100, 'E', "Data stream terminated without ENDDATA"),
    (151, 'W', "Undefined standard keyword"),
    (152, 'W', "Wrong secondary keyword"),
    (171, 'W', "Invalid integer"),
    (172, 'W', "Invalid hexadecimal value"),
    (201, 'W', "Channel out of range"),
    (203, 'W', "Dimmer out of range"),
    (221, 'W', "Invalid level"),
    (231, 'W', "Patch page skipped"),
    (241, 'W', "Invalid time"),
    (701, 'W', "Ignored character with high-bit set"),
    (702, 'W', "Ignored non-printing character"),
];

#[test]
fn conditions_in_words() {
    for condition in (0..10_000).chain([1 << 14, 1 << 16, u32::MAX]) {
        let named = CONDITIONS.iter().find(|row| row.0 == condition);
        assert_eq!(&*condition_text(condition), named.map_or("", |row| row.2));
        assert_eq!(severity(condition), named.map_or(if (70..150).contains(&condition) { 'E' } else { 'W' }, |row| row.1));
    }
    assert_eq!(CONDITIONS.iter().map(|row| row.2.len()).max(), Some(MOST_TEXT));
    let (mut out, mut length) = ([b'~'; 46], [0]);
    assert_eq!((calls::condition_text(91, &mut out[..43], &mut length), length), (6, [44]));
    assert_eq!(out, [b'~'; 46]);
    assert_eq!((calls::condition_text(91, &mut out, &mut length), length), (0, [44]));
    assert_eq!(&out, b"Encountered record longer than 80 characters~~");
    assert_eq!((calls::condition_text(1, &mut [], &mut length), length), (0, [0]));
}

#[test]
fn times_in_words() {
    let times = [
        (0, "0"),
        (1, "0.1"),
        (30, "3"),
        (599, "59.9"),
        (600, "1:00"),
        (905, "1:30.5"),
        (35_999, "59:59.9"),
        (36_000, "1:00:00"),
        (72_105, "2:00:10.5"),
        (35_999_999, "999:59:59.9"),
        (36_000_000, "999:60:00"),
        (36_024_050, "999:100:05"),
        (36_564_000, "999:999:60"),
        (36_573_399, "999:999:999.9"),
        (u32::MAX, "999:999:425840389.5"),
    ];
    for (tenths, text) in times {
        assert_eq!(&*time_text(tenths), text);
    }
    assert_eq!(std::format!("[{:>8}|{:<6}]", time_text(905), time_text(1)), "[  1:30.5|0.1   ]");
    let (mut out, mut length) = ([b'~'; 7], [0, 99]);
    assert_eq!((calls::time_text(905, &mut out[..5], &mut length), length), (6, [6, 99]));
    assert_eq!(&out, b"~~~~~~~");
    assert_eq!((calls::time_text(905, &mut out[..6], &mut length), length), (0, [6, 99]));
    assert_eq!(&out, b"1:30.5~");
    assert_eq!((calls::time_text(5, &mut out, &mut []), calls::time_text(5, &mut [], &mut [])), (0, 6));
}
