//! Where the backbones and drops of a layout lie, in the sheet's units.

use backbone::{End, Label, Sheet, Site, Stroke, Strokes};

/// A straight line between two places, each x and y.
#[derive(Clone, Copy)]
pub struct Line {
    pub from: (u32, u32),
    pub to: (u32, u32),
}

/// The lines of a label: its backbone, and a drop for each of its sites, in their order. That of a site on its backbone has no
/// length: it says where the site meets the backbone, and no line is drawn.
pub struct LabelLines {
    pub backbone: Line,
    pub drops: Vec<Line>,
}

/// The lines of a lawful layout's labels: its proved strokes. Labels and backbones both come by rising slot.
pub fn of_strokes(sheet: &Sheet, labels: &[Label], strokes: Strokes) -> Vec<LabelLines> {
    let (mut backbones, mut drops) = (Vec::new(), Vec::new());
    for stroke in strokes {
        let [from, to] = stroke.ends().map(End::units);
        match stroke {
            Stroke::Bone { .. } => backbones.push(Line { from, to }),
            Stroke::Drop { .. } => drops.push(Line { from, to }),
        }
    }
    let drops_of = |label: &Label| label.sites.iter().map(|site| drop_of(sheet.sites()[*site], &drops)).collect();
    labels.iter().zip(backbones).map(|(label, backbone)| LabelLines { backbone, drops: drops_of(label) }).collect()
}

/// The drop that begins at a site. A site on its backbone has no stroke.
fn drop_of(site: Site, drops: &[Line]) -> Line {
    let from = (site.x, site.y);
    drops.iter().copied().find(|drop| drop.from == from).unwrap_or(Line { from, to: from })
}

/// The lines of labels that break a rule. The library gives no strokes of such a layout (refusal 13), and a picture is there
/// to show what is wrong with it.
pub fn of_labels(sheet: &Sheet, labels: &[Label]) -> Vec<LabelLines> {
    let lines = |label: &Label| {
        let height = label.height;
        let sites = label.sites.iter().map(|site| sheet.sites()[*site]);
        let drops = sites.map(|Site { x, y, .. }| Line { from: (x, y), to: (x, height) }).collect();
        LabelLines { backbone: Line { from: (label.left_end, height), to: (sheet.width(), height) }, drops }
    };
    labels.iter().map(lines).collect()
}
