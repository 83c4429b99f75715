//! Demand 3 at its edges: streams for which one of its premises fails (theorem_rehearse/specs/Needs.antt), and one where all hold.
mod common;

use common::{prep_fed, Ran};

/// No groups and no submasters: channels, dimmers, cues and cue pages.
fn sized(channels: u32, dimmers: u32, cues: u32, pages: u32) -> String {
    format!("{channels},{dimmers},{cues},0,0,{pages},1,1,1")
}

fn rehearse(small: String, large: String, stream: &str) -> Ran {
    prep_fed(&["rehearse", "-", "--small", &small, "--large", &large], stream.as_bytes())
}

/// What stands behind the room of the two desks.
#[track_caller]
fn ends(ran: Ran, text: &str) {
    let from = ran.out.find("ROOM\n").expect("the room of both desks");
    assert_eq!((ran.status, &ran.out[from..], ran.err.as_str()), (1, text, ""));
}

const LARGE_HAD_ROOM: &str = "  The large desk had room, so every cue, group and submaster of the small desk is on the large one,\n  \
                              with the same times, link and levels on channels 1 to 4.\n";
const LARGE_RAN_OUT: &str = "  The large desk ran out of room, so nothing is sure of the memories: what is above is what is there.\n";
const BOTH_HAD_ROOM: &str = "  The small desk had room too, so it keeps every memory of the large one that lies within its limits.\n";
const SMALL_RAN_OUT: &str = "  The small desk ran out of room, so it may lack memories that lie within its limits.\n";
const AS_MANY: &str = "  Both desks have as many channels, so every dimmer of the small desk is patched as on the large one.\n";
const MORE: &str = "  The large desk has more channels, so a dimmer of the small desk may be patched in another way there:\n  each that is stands above.\n";

#[test]
fn the_large_desk_is_full() {
    let ran = rehearse(sized(4, 4, 2, 1), sized(4, 4, 2, 2), "CUE 1 2\nCUE 2 2\nCUE 3\nENDDATA\n");
    let text = "ROOM\n  small: had room for all that it was given\n  large: ran out of room, for cues once (0021), for groups never (0022)\n\n\
                LACKING ON THE SMALL 2\n  cue 1 page 2: the small desk has cue pages up to 1\n  cue 2 page 2: the small desk has cue pages up to 1\n\n\
                DIFFERENT ON THE SMALL 1\n  cue 3 page 1: kept by the small desk alone\n\nSURE\n";
    ends(ran, &format!("{text}{LARGE_RAN_OUT}{AS_MANY}"));
}

#[test]
fn the_small_desk_is_full() {
    let ran = rehearse(sized(4, 4, 1, 1), sized(4, 4, 2, 1), "CUE 1\nCUE 2\nENDDATA\n");
    let text =
        "ROOM\n  small: ran out of room, for cues once (0021), for groups never (0022)\n  large: had room for all that it was given\n\n\
                LACKING ON THE SMALL 1\n  cue 2 page 1: no room; the small desk takes 1 cue\n\nSURE\n";
    ends(ran, &format!("{text}{LARGE_HAD_ROOM}{SMALL_RAN_OUT}{AS_MANY}"));
}

#[test]
fn the_large_desk_has_more_channels() {
    let ran = rehearse(sized(4, 4, 1, 1), sized(5, 4, 1, 1), "PATCH 1 1<1@50\nPATCH 1 5<1@50\nCUE 1\nCHAN 4@50 5@100\nENDDATA\n");
    let text =
        "ROOM\n  small: had room for all that it was given\n  large: had room for all that it was given\n\nLACKING ON THE SMALL 2\n  \
                cue 1 page 1: channels above 4: 5@HFF 100%\n  dimmer 1 page 1: channel 5@H80 50%, but the small desk has channels up to 4; \
                there it is channel 1@H80 50%\n\nSURE\n";
    ends(ran, &format!("{text}{LARGE_HAD_ROOM}{BOTH_HAD_ROOM}{MORE}"));
}

#[test]
fn all_premises_hold() {
    let stream = "PATCH 1 3<1@50 3<5@50\nPATCH 2 1<1@50\nCUE 1\nCHAN 2@HFF\nCUE 2 2\nENDDATA\n";
    let ran = rehearse(sized(4, 4, 2, 1), sized(4, 5, 3, 2), stream);
    let text =
        "ROOM\n  small: had room for all that it was given\n  large: had room for all that it was given\n\nLACKING ON THE SMALL 2\n  \
                cue 2 page 2: the small desk has cue pages up to 1\n  \
                dimmer 5 page 1: channel 3@H80 50%, but the small desk has dimmers up to 4\n\nSURE\n";
    ends(ran, &format!("{text}{LARGE_HAD_ROOM}{BOTH_HAD_ROOM}{AS_MANY}"));
}

#[test]
fn kinds_that_the_small_desk_lacks() {
    let small = "4,4,2,0,0,1,1,1,1".to_string();
    let large = "4,4,2,1,2,1,1,2,2".to_string();
    let ran = rehearse(small, large, "GROUP 1\nSUB 2\nSUB 1 2\nPATCH 2 1<1@100\nENDDATA\n");
    let text =
        "ROOM\n  small: had room for all that it was given\n  large: had room for all that it was given\n\nLACKING ON THE SMALL 4\n  \
                group 1 page 1: the small desk has no groups\n  submaster 2 page 1: the small desk has no submasters\n  \
                submaster 1 page 2: the small desk has no submasters\n  \
                dimmer 1 page 2: channel 1@HFF 100%, but the small desk has patch pages up to 1\n\nSURE\n";
    ends(ran, &format!("{text}{LARGE_HAD_ROOM}{BOTH_HAD_ROOM}{AS_MANY}"));
}
