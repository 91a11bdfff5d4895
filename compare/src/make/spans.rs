//! Spans: as a text would have them, or shared, or anywhere.
use crate::random::Random;
use crate::tree::Node;

pub fn give(root: &mut Node, r: &mut Random) {
    let mut at = 0;
    match r.below(10) {
        0..=4 => text(root, &mut at),
        5 => root.each_mut(&mut |x| {
            x.span = (at, at);
            at += 1;
        }),
        6 => few(root, r),
        7 => {
            // Like a text, but some nodes stand on a span that is taken.
            text(root, &mut at);
            let mut last = (0, 1);
            root.each_mut(&mut |x| {
                if r.percent(30) {
                    x.span = last;
                } else {
                    last = x.span;
                }
            });
        }
        8 => root.each_mut(&mut |x| x.span = (0, 0)),
        _ => root.each_mut(&mut |x| {
            let ends = [0, 1, 65535, 65536, 1 << 31, u32::MAX];
            let pair = [(); 2].map(|_| if r.percent(30) { *r.pick(&ends) } else { r.next() as u32 });
            x.span = (pair[0].min(pair[1]), pair[0].max(pair[1]));
        }),
    }
}

/// Names that stand together: all those of a part of the tree on the span of that part.
pub fn share(root: &mut Node, r: &mut Random) {
    let parts = *r.pick(&[2, 10, 30, 60]);
    together(root, root.span, parts, r);
}

/// So many of a hundred nodes are a part of their own.
fn together(node: &mut Node, around: (u32, u32), parts: usize, r: &mut Random) {
    let span = if r.percent(parts) { node.span } else { around };
    if matches!(node.value, Some((0, _))) {
        node.span = span;
    }
    node.children.iter_mut().for_each(|c| together(c, span, parts, r));
}

/// Each node around its children, no two with one span.
pub fn text(node: &mut Node, at: &mut u32) {
    let begin = *at;
    *at += 1;
    node.children.iter_mut().for_each(|c| text(c, at));
    node.span = (begin, *at);
    *at += 1;
}

fn few(root: &mut Node, r: &mut Random) {
    let most = r.range(1, 6);
    root.each_mut(&mut |x| {
        let begin = r.below(most) as u32;
        x.span = (begin, begin + r.below(2) as u32);
    });
}
