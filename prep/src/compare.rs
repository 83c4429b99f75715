//! Two shows side by side: what differs, memory by memory, channel by channel, dimmer by dimmer.
use crate::desk;
use crate::kind::Kind;
use crate::show::Show;
use crate::words::{counted, level, summary};
use sphairune::{time_text, Fade, Memory, Patched};

/// The list, and whether anything differs. What a desk does not keep is not compared, and so it is told of each show what that is.
pub fn compare(a: &Show, b: &Show) -> (String, bool) {
    let kinds = Kind::ALL.map(|kind| (kind.name(), of_kind(kind, a, b)));
    let mut text = format!("COMPARE\n  A {}\n  B {}\nDESK {}\n\n", summary(a), summary(b), desk::described(a.desk));
    let patch = of_patch(a, b);
    let mut counts = Vec::new();
    for (name, differences) in kinds.into_iter().chain([("patched dimmer", patch)]) {
        if !differences.is_empty() {
            counts.push(counted(differences.len(), name));
            text += &format!("{}S\n{}\n", name.to_uppercase(), differences.concat());
        }
    }
    match counts.is_empty() {
        true => (text + "SAME the desk keeps the same of both\n", false),
        false => (text + &format!("DIFFER {}\n", counts.join(", ")), true),
    }
}

/// Entries of two sorted lists that bear the same name, side by side.
pub fn paired<T: Copy, K: Ord>(a: &[T], b: &[T], name: impl Fn(&T) -> K) -> Vec<(Option<T>, Option<T>)> {
    let (mut a, mut b) = (a.iter().copied().peekable(), b.iter().copied().peekable());
    let mut pairs = Vec::new();
    loop {
        let first = match (a.peek(), b.peek()) {
            (None, None) => return pairs,
            (Some(x), None) => name(x),
            (None, Some(y)) => name(y),
            (Some(x), Some(y)) => name(x).min(name(y)),
        };
        pairs.push((a.next_if(|x| name(x) == first), b.next_if(|y| name(y) == first)));
    }
}

/// Memories of a kind by page and number.
pub fn memories<'a>(kind: Kind, a: &'a Show, b: &'a Show) -> Vec<(Option<Memory<'a>>, Option<Memory<'a>>)> {
    paired(&kind.kept(a), &kind.kept(b), |m| (m.page, m.number))
}

/// Dimmers by page and number.
pub fn dimmers(a: &Show, b: &Show) -> Vec<(Option<Patched>, Option<Patched>)> {
    paired(&a.patch(), &b.patch(), |p| (p.page, p.dimmer))
}

fn of_kind(kind: Kind, a: &Show, b: &Show) -> Vec<String> {
    memories(kind, a, b).into_iter().filter_map(|pair| difference(kind, pair)).collect()
}

fn difference(kind: Kind, pair: (Option<Memory>, Option<Memory>)) -> Option<String> {
    match pair {
        (Some(a), None) => Some(format!("  {}: only in A\n", kind.named(&a))),
        (None, Some(b)) => Some(format!("  {}: only in B\n", kind.named(&b))),
        (Some(a), Some(b)) if a != b => Some(format!("  {}\n{}", kind.named(&a), changes(&a, &b))),
        _ => None,
    }
}

/// What differs between two memories of one name: the times and the link, then the levels of the channels that both have.
pub fn changes(a: &Memory, b: &Memory) -> String {
    let fade = |f: Option<Fade>| f.map(|f| f.fade);
    let delay = |f: Option<Fade>| Some(f.map_or(0, |f| f.delay));
    let link = |m: &Memory| m.link.map_or("none".into(), |cue| cue.to_string());
    let values = [
        ("up", time(fade(a.up)), time(fade(b.up))),
        ("up delay", time(delay(a.up)), time(delay(b.up))),
        ("down", time(fade(a.down)), time(fade(b.down))),
        ("down delay", time(delay(a.down)), time(delay(b.down))),
        ("followon", time(a.followon), time(b.followon)),
        ("link", link(a), link(b)),
    ];
    let mut text: String = values.iter().filter(|(_, x, y)| x != y).map(|(what, x, y)| format!("    {what}: {x} -> {y}\n")).collect();
    for (channel, (&x, &y)) in (1..).zip(a.levels.iter().zip(b.levels)).filter(|(_, (x, y))| x != y) {
        text += &format!("    channel {channel}: {} -> {}\n", level(x), level(y));
    }
    text
}

fn time(tenths: Option<u32>) -> String {
    tenths.map_or("none".into(), |tenths| time_text(tenths).to_string())
}

fn of_patch(a: &Show, b: &Show) -> Vec<String> {
    let pairs = dimmers(a, b);
    let different = pairs.into_iter().filter(|(a, b)| a != b);
    different.filter_map(|(a, b)| Some(format!("  {}: {} -> {}\n", dimmer(&a.or(b)?), patched(a), patched(b)))).collect()
}

/// `dimmer 5 page 1`.
pub fn dimmer(p: &Patched) -> String {
    format!("dimmer {} page {}", p.dimmer, p.page)
}

/// `channel 1@HFF 100%`, or that there is none.
pub fn patched(p: Option<Patched>) -> String {
    p.map_or("not patched".into(), |p| format!("channel {}@{}", p.channel, level(p.level)))
}
