//! What explanations say, held against the library on random images: good ones, damaged ones, and tangles of jumps and pushes.

mod makers;
mod predicted;

use super::needs::{chain, needs, RETURN_ADDRESS};
use super::paths::{Path, Reach};
use super::{header, jumps, limit_rules, of_image, of_limits, reading, turns, words, Lang};
use crate::code::{Code, Flow};
use crate::limits::limits_refused;
use gate_host::{check, decode, turn, Area, Limits, Refusal, Refused, Turn, MARKS_ENOUGH};
use gate_twin::Instruction;
use makers::Case;

const CASES: u64 = 20_000;

/// Every case that limits do not rule out, with the number of its refusal, 0 where it is accepted.
fn cases() -> impl Iterator<Item = (Case, Result<u16, Refused>)> {
    (0..CASES).map(makers::case).map(|case| {
        let verdict = check(&case.image, &case.limits, &mut [0; MARKS_ENOUGH]);
        let need = verdict.map(|accepted| accepted.need);
        (case, need)
    })
}

/// The cases that are refused so, at this offset.
fn refused(refusal: Refusal) -> impl Iterator<Item = (Case, usize)> {
    cases().filter_map(move |(case, verdict)| match verdict {
        Err(refused) if refused.refusal == refusal => Some((case, refused.offset.into())),
        _ => None,
    })
}

/// So many cases at least, so that a test cannot pass for want of them.
fn enough(count: usize) {
    assert!(count >= 30, "only {count} cases");
}

/// The limits of a case with a stack area that is enough for every need, and mostly apart from the grants.
fn with_large_stack(limits: &Limits) -> Limits {
    Limits { stack: Area { low: 0x5000, high: 0x7FFF }, ..*limits }
}

#[test]
fn every_number_is_met_and_its_place_is_the_librarys() {
    let mut met = [0; 17];
    for (case, verdict) in cases() {
        let number = verdict.map_or_else(|refused| refused.refusal.number(), |_| 0);
        met[usize::from(number)] += 1;
        let mut marks = [0; MARKS_ENOUGH];
        let (found, depths) = (check(&case.image, &case.limits, &mut marks), predicted::verdict(&case.image, &case.limits));
        assert_eq!(depths.as_ref().map(|(accepted, _)| *accepted).map_err(|refused| *refused), found, "{case:?}");
        for (offset, depth) in depths.into_iter().flat_map(|(_, depths)| depths) {
            assert_eq!(i32::from(marks[offset]), depth + 1, "{case:?}");
        }
    }
    // With marks enough there is no 5.
    let rare: Vec<usize> = (0..17).filter(|&number| number != 5 && met[number] < 30).collect();
    assert!(rare.is_empty(), "{rare:?} are rare: {met:?}");
}

#[test]
fn every_explanation_is_whole_in_both_languages() {
    for (case, verdict) in cases() {
        for (lang, why, to_do) in [(Lang::En, "  Why: ", "  To do: "), (Lang::Fr, "  Cause : ", "  À faire : ")] {
            let text = match limits_refused(&case.limits) {
                true => of_limits(lang, &case.limits),
                false => of_image(lang, "name", &case.image, &case.limits).1,
            };
            let count = |what: &str| text.lines().filter(|line| line.starts_with(what)).count();
            let wanted = usize::from(verdict.is_err());
            assert_eq!((count(why), count(to_do)), (wanted, wanted), "{case:?}: {text}");
        }
    }
}

#[test]
fn limits_and_layouts_break_a_rule_where_the_library_says_so() {
    let mut counts = [0; 2];
    for (case, verdict) in cases() {
        let refusal = verdict.err().map(|refused| refused.refusal);
        let broken = !limit_rules::broken(Lang::En, &case.limits).is_empty();
        assert_eq!(broken, refusal == Some(Refusal::Limits), "{case:?}");
        match refusal {
            Some(Refusal::NotSlu) => assert!(!header::not_slu(Lang::En, &case.image).is_empty(), "{case:?}"),
            Some(Refusal::UnknownVersion) => assert!(!header::unknown_version(Lang::En, &case.image).is_empty(), "{case:?}"),
            _ => {}
        }
        let layout = gate_host::layout(&case.image);
        if matches!(layout, Ok(_) | Err(Refusal::Layout)) {
            let broken = !header::layout(Lang::En, &case.image).is_empty();
            assert_eq!(broken, layout.is_err(), "{case:?}");
            counts[usize::from(broken)] += 1;
        }
    }
    counts.into_iter().for_each(enough);
}

#[test]
fn layouts_at_the_borders_break_a_rule_where_the_library_says_so() {
    // How many routines, and the length of each.
    let tables: [(usize, usize); 10] =
        [(0, 0), (1, 0), (1, 1), (1, 4_095), (1, 4_096), (1, 4_097), (32, 1), (32, 128), (33, 1), (31, 133)];
    let mut counts = [0; 2];
    for base in [0x7FFF, 0x8000, 0xEFFF, 0xF000, 0xF001, 0xFFE0, 0xFFFF] {
        for (routines, length) in tables {
            for missing in [0, 1] {
                let code = vec![0x9D; (routines * length).saturating_sub(missing)];
                let image = gate_twin::slu::image(2, base, &vec![length; routines], &code);
                let broken = !header::layout(Lang::En, &image).is_empty();
                assert_eq!(broken, gate_host::layout(&image).is_err(), "base {base:04X}, {routines} times {length}");
                counts[usize::from(broken)] += 1;
            }
        }
    }
    assert!(counts[0] > 20 && counts[1] > 20, "{counts:?}");
}

/// Whether a path is one by the twin's decoder, and its depth at the end.
fn walk(code: &Code, routine: usize, path: &Path) -> Option<i32> {
    let starts = &code.routines[routine].starts;
    let mut depth = 0;
    for pair in path.starts.windows(2) {
        let [from, to] = [pair[0], pair[1]].map(|number| &starts[number]);
        let (instruction, length) = gate_twin::decode(from.bytes).ok()?;
        let next = from.offset + length;
        let falls = !matches!(instruction, Instruction::Jump(0, _) | Instruction::Ret);
        let jump = match instruction {
            Instruction::Jump(_, offset) | Instruction::BitJump { offset, .. } => next.checked_add_signed(offset.into()),
            _ => None,
        };
        if !(falls && to.offset == next || jump == Some(to.offset)) {
            return None;
        }
        depth += gate_twin::depth_change(instruction);
    }
    (path.starts.first() == Some(&0)).then_some(depth)
}

#[test]
fn paths_that_disagree_are_real_and_meet() {
    let mut count = 0;
    for (case, offset) in refused(Refusal::DepthsDisagree) {
        let code = Code::read(&case.image).unwrap();
        let routine = code.routine_of(offset).unwrap();
        let [one, other] = Reach::explore(&code, &code.routines[routine]).disagreement().unwrap();
        assert_eq!(one.starts.last(), other.starts.last(), "{case:?}");
        assert_eq!([&one, &other].map(|path| walk(&code, routine, path)), [Some(one.depth), Some(other.depth)], "{case:?}");
        assert_ne!(one.depth, other.depth, "{case:?}");
        count += 1;
    }
    enough(count);
}

#[test]
fn what_is_not_reached_has_nothing_that_leads_there() {
    let mut count = 0;
    for (case, offset) in refused(Refusal::Unreached) {
        let code = Code::read(&case.image).unwrap();
        let routine = &code.routines[code.routine_of(offset).unwrap()];
        let (reach, number) = (Reach::explore(&code, routine), routine.start_at(offset).unwrap());
        assert!(!routine.starts[number - 1].flow.falls(), "{case:?}");
        let jumps = routine.starts.iter().enumerate().filter(|(_, start)| start.flow.jump() == Some(code.address(offset)));
        assert!(jumps.into_iter().all(|(jump, _)| reach.path(jump).is_none()), "{case:?}");
        count += 1;
    }
    enough(count);
}

/// What is said of these routines in English.
fn said_of(routines: &[&[u8]]) -> String {
    let limits = Limits { grant: Area { low: 0, high: 0xFF }, stack: Area { low: 0x300, high: 0x3FF }, second: Area::NONE };
    of_image(Lang::En, "name", &gate_twin::slu::image_of(2, 0x8000, routines), &limits).1
}

#[test]
fn a_chain_says_where_each_routine_needs_most() {
    // The example of depths and needs of docs/FORMAT.md.
    let second = [0x52, 0x03, 0x6B, 0x03, 0xCD, 0x80, 0x00, 0x7B, 0x03, 0x5B, 0x03, 0x81];
    let text = said_of(&[&[0x89, 0x85, 0x81], &second, &[0x88, 0xCD, 0x80, 0x03, 0x84, 0x81]]);
    let chain = "
        2  the address that main returns to
        3  routine 3 of 3 (main), 8010 CALL $8003: depth 1, and 2 for the return address
        5  routine 2 of 3, 8007 CALL $8000: depth 3, and 2 for the return address
        2  routine 1 of 3, 8000 PUSHW X: its greatest depth
       12  in all, the need
";
    assert!(text.ends_with(chain), "{text}");
}

#[test]
fn a_long_path_has_its_middle_left_out() {
    let text = said_of(&[&[vec![0x88; 60], vec![0x81]].concat()]);
    // 60 pushes and RET are 61 lines.
    assert!(
        text.contains(
            "\n    800B   11  PUSH A               +1\n    .. lines left out: 37\n    8031   49  PUSH A               +1\n"
        ),
        "{text}"
    );
}

#[test]
fn the_path_to_a_depth_out_of_range_is_real() {
    let mut count = 0;
    for (case, offset) in refused(Refusal::DepthRange) {
        let code = Code::read(&case.image).unwrap();
        let number = code.routine_of(offset).unwrap();
        let routine = &code.routines[number];
        let start = routine.start_at(offset).unwrap();
        let path = Reach::explore(&code, routine).path(start).unwrap();
        assert_eq!((path.starts.last(), walk(&code, number, &path)), (Some(&start), Some(path.depth)), "{case:?}");
        let range = 0..=255;
        let after = path.depth + routine.starts[start].pushed;
        let returns = routine.starts[start].flow == Flow::Returns && path.depth != 0;
        assert!(returns || !range.contains(&path.depth) || !range.contains(&after), "{case:?}");
        count += 1;
    }
    enough(count);
}

#[test]
fn needs_and_chains_are_the_librarys() {
    let [mut accepted, mut small] = [0; 2];
    for (case, verdict) in cases() {
        let need = match verdict {
            Ok(need) => Some(need),
            Err(Refused { refusal: Refusal::Stack, .. }) => None,
            Err(_) => continue,
        };
        let limits = with_large_stack(&case.limits);
        if limits_refused(&limits) {
            continue;
        }
        *if need.is_some() { &mut accepted } else { &mut small } += 1;
        let code = Code::read(&case.image).unwrap();
        let needs = needs(&code);
        for (last, need) in needs.iter().enumerate() {
            // The routines up to one are an image of their own, with that one as main.
            let lengths: Vec<usize> = code.routines[..=last].iter().map(|routine| routine.range.len()).collect();
            let bytes = &code.layout.code[..code.routines[last].range.end];
            let image = gate_twin::slu::image(code.layout.version, code.layout.base, &lengths, bytes);
            let found = check(&image, &limits, &mut [0; MARKS_ENOUGH]).unwrap().need;
            assert_eq!(need.bytes + RETURN_ADDRESS, i32::from(found), "{case:?}");
        }
        let links = chain(&needs).into_iter().map(|number| needs[number]);
        let sum: i32 = links.map(|link| link.depth + link.calls.map_or(0, |_| RETURN_ADDRESS)).sum();
        let whole = check(&case.image, &limits, &mut [0; MARKS_ENOUGH]).unwrap().need;
        assert_eq!((RETURN_ADDRESS + sum, need.unwrap_or(whole)), (whole.into(), whole), "{case:?}");
    }
    [accepted, small].into_iter().for_each(enough);
}

#[test]
fn a_jump_goes_back_where_the_library_finds_no_turn() {
    let [mut none, mut within] = [0; 2];
    for (case, _) in cases().filter(|(_, verdict)| verdict.is_ok()) {
        let found = turn(&case.image, &case.limits, &mut [0; MARKS_ENOUGH]).unwrap();
        let code = Code::read(&case.image).unwrap();
        assert_eq!(turns::first_back(&code).is_some(), found == Turn::None, "{case:?}");
        *if found == Turn::None { &mut none } else { &mut within } += 1;
    }
    [none, within].into_iter().for_each(enough);
}

#[test]
fn the_first_jump_that_goes_back_is_named() {
    let said = |routines: &[&[u8]]| said_of(routines).lines().nth(3).unwrap_or_default().to_string();
    let named = |jump: &str| format!("  Turn: none, a jump goes back: {jump}");
    assert_eq!(said(&[&[0x26, 0xFE, 0x81], &[0x9D, 0x20, 0xFD]]), named("8000 JRNE $8000"));
    assert_eq!(said(&[&[0x26, 0x00, 0x81], &[0x9D, 0x20, 0xFD]]), named("8004 JRA $8003"));
    assert_eq!(said(&[&[0x9D, 0x21, 0xFD, 0x81]]), named("8001 JRF $8000"));
    assert_eq!(said(&[&[0x72, 0x01, 0x00, 0x10, 0xFB, 0x81]]), named("8000 BTJF $0010,#0,$8000"));
    assert_eq!(said(&[&[0x81], &[0xCD, 0x80, 0x00, 0x81]]), "  Turn: at most 3 steps");
    assert_eq!(said(&[&[0x81]]), "  Turn: at most 1 step");
}

#[test]
fn what_is_missing_makes_an_instruction_whole() {
    let mut count = 0;
    for (case, offset) in refused(Refusal::Truncated) {
        let code = Code::read(&case.image).unwrap();
        let stuck = code.routines[code.routine_of(offset).unwrap()].stuck.unwrap();
        let Some((mnemonic, length)) = reading::whole(stuck.bytes) else {
            assert!(stuck.bytes == [0x72] || stuck.bytes == [0x90], "{case:?}");
            continue;
        };
        let mut whole = stuck.bytes.to_vec();
        whole.resize(length, 0xFF);
        let decoded = decode(&whole, 0).unwrap();
        assert!(decoded.length == length && decoded.text.as_str().starts_with(&mnemonic), "{case:?}");
        assert_eq!(decode(&whole[..length - 1], 0), Err(Refusal::Truncated), "{case:?}");
        count += 1;
    }
    enough(count);
}

#[test]
fn the_distances_that_are_proposed_lead_to_starts() {
    let mut count = 0;
    for (case, offset) in refused(Refusal::IntoInstruction) {
        let code = Code::read(&case.image).unwrap();
        let routine = &code.routines[code.routine_of(offset).unwrap()];
        let jump = &routine.starts[routine.start_at(offset).unwrap()];
        for byte in routine.starts.iter().filter_map(|to| jumps::distance_byte(jump, to)) {
            let mut image = case.image.clone();
            let end = image.len() - code.layout.code.len() + jump.end();
            image[end - 1] = byte;
            let again = check(&image, &case.limits, &mut [0; MARKS_ENOUGH]).err();
            let still = again.filter(|again| matches!(again.refusal, Refusal::IntoInstruction | Refusal::Jump));
            assert_ne!(still.map(|still| still.offset.into()), Some(offset), "{case:?}");
            count += 1;
        }
    }
    enough(count);
}

#[test]
fn causes_are_the_librarys_in_english_and_others_in_french() {
    for number in (1..=16).filter(|&number| number != 5) {
        assert_eq!(words::cause(Lang::En, number), gate_host::number_text(number));
        assert_ne!(words::cause(Lang::Fr, number), gate_host::number_text(number));
    }
}

#[test]
fn bytes_are_counted_as_each_language_counts() {
    assert_eq!([0, 1, 2].map(|count| words::bytes(Lang::En, count)), ["0 bytes", "1 byte", "2 bytes"]);
    assert_eq!([0, 1, 2].map(|count| words::bytes(Lang::Fr, count)), ["0 octet", "1 octet", "2 octets"]);
}
