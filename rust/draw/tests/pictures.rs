//! Pictures are held to the layouts that they show, stroke by stroke, and to what they promise a reader.

mod common;

use backbone::{judge, End, Layout, Rule, Sheet, Stroke};
use common::{elements, example_names, example_picture, folder, hold_texts_apart, strokes, Element};
use draw::{compare, examples, picture, sheet_and_layout, Options, Side};
use model::random::{any_stored, sheet_of, small_sheet, Random, Shape};
use model::rounding::Rounding;
use model::rules::{lawful, layout_words};
use model::sheet::read;

#[test]
fn examples_are_as_drawn() {
    let files = examples::files(&folder()).unwrap();
    assert!(files.len() >= 24, "a dozen sheets, as words and as pictures: {}", files.len());
    for (path, content) in files {
        let stored = std::fs::read_to_string(&path).unwrap_or_default();
        assert!(stored == content, "{} is not as drawn: run `backbone draw --all examples`", path.display());
    }
}

/// The strokes that a layout asks for, by the definitions of document 01.
fn wanted(words: &[u32], slots: &[u8]) -> (Vec<[u32; 4]>, Vec<[u32; 4]>) {
    let sheet = read(backbone::split_stored(words).0).unwrap();
    let tied = || sheet.sites.iter().zip(slots.iter().map(|slot| sheet.slots[usize::from(*slot)]));
    let off = tied().filter(|(site, height)| site.y != *height);
    let mut drops: Vec<[u32; 4]> = off.map(|(site, height)| [site.x, site.y, site.x, height]).collect();
    let mut backbones: Vec<[u32; 4]> = Vec::new();
    for (slot, height) in sheet.slots.iter().enumerate() {
        let own = sheet.sites.iter().zip(slots).filter(|(_, own)| usize::from(**own) == slot);
        if let Some(least) = own.map(|(site, _)| site.x).min() {
            let left = if sheet.two_sided { 0 } else { least };
            backbones.push([left, *height, sheet.width, *height]);
        }
    }
    drops.sort_unstable();
    backbones.sort_unstable();
    (backbones, drops)
}

/// The strokes that the library gives for these ties, if they are lawful: backbones and drops, in units.
fn proved(words: &[u32], slots: &[u8]) -> Option<[Vec<[u32; 4]>; 2]> {
    let sheet = read(backbone::split_stored(words).0).unwrap();
    let slot_of: Vec<usize> = slots.iter().map(|slot| usize::from(*slot)).collect();
    let stored = [sheet.words(), layout_words(&sheet, &slot_of)].concat();
    let (mut backbones, mut drops) = (Vec::new(), Vec::new());
    for stroke in backbone::strokes(&stored).ok()? {
        let [(x, y), (to_x, to_y)] = stroke.ends().map(End::units);
        let of_kind = if matches!(stroke, Stroke::Bone { .. }) { &mut backbones } else { &mut drops };
        of_kind.push([x, y, to_x, to_y]);
    }
    backbones.sort_unstable();
    drops.sort_unstable();
    Some([backbones, drops])
}

/// Both panels of a picture, or the one. Its lines are what the ties ask for, and where these are lawful the library's
/// strokes.
fn hold_strokes(name: &str, panel: &[Element], words: &[u32], slots: &[u8]) {
    let (backbones, drops) = wanted(words, slots);
    assert_eq!(strokes(panel, "backbone"), backbones, "{name}");
    assert_eq!(strokes(panel, "drop"), drops, "{name}");
    if let Some(proved) = proved(words, slots) {
        assert_eq!([backbones, drops], proved, "{name}");
    }
}

#[test]
fn examples_have_the_strokes_of_their_layouts() {
    let mut seen = 0;
    for name in example_names() {
        let record = sheet::parse(&std::fs::read_to_string(folder().join(&name).with_extension("txt")).unwrap());
        let words = record.unwrap().words;
        let (_, layout) = sheet_and_layout(&words).unwrap();
        let elements = elements(&example_picture(&name));
        // The picture of rounded lengths has two panels: the best layout, and the rival's.
        let frames: Vec<usize> = (0..elements.len()).filter(|index| elements[*index].is("frame")).collect();
        assert_eq!(frames.len(), if name == "rounding" { 2 } else { 1 }, "{name}");
        let end = frames.get(1).copied().unwrap_or(elements.len());
        match &layout {
            Some(layout) => hold_strokes(&name, &elements[..end], &words, &layout.slots),
            None => assert!(strokes(&elements, "backbone").is_empty() && strokes(&elements, "drop").is_empty()),
        }
        if frames.len() == 2 {
            let rival = model::rounding::lay_out(&read(&words).unwrap(), Rounding::TenthMillimetre).unwrap();
            let slots: Vec<u8> = rival.into_iter().map(|slot| slot as u8).collect();
            hold_strokes(&name, &elements[end..], &words, &slots);
        }
        seen += strokes(&elements[..end], "drop").len();
    }
    assert!(seen >= 50, "{seen}");
}

/// A unit is 25.4/576 mm on paper, and as many times as large in the picture as that says.
#[test]
fn pictures_are_true_to_scale() {
    for name in example_names() {
        let picture = example_picture(&name);
        let elements = elements(&picture);
        let view: Vec<f64> = elements[0].text("viewBox").split(' ').map(|number| number.parse().unwrap()).collect();
        let in_pixel = elements[0].number("width") / view[2];
        assert!((in_pixel - elements[0].number("height") / view[3]).abs() < 1e-5, "{name}");
        let said = common::text_boxes(&picture)
            .into_iter()
            .find_map(|(words, _)| Some(words.split_once("drawn ")?.1.to_string()));
        let (times, one) = said.as_deref().and_then(|said| said.split_once(" : ")).expect("a scale");
        let times = times.parse::<f64>().unwrap() / one.parse::<f64>().unwrap();
        let scales: Vec<&str> = picture.split(" scale(").skip(1).map(|rest| rest.split(')').next().unwrap()).collect();
        for scale in scales {
            let millimetres = scale.parse::<f64>().unwrap() * in_pixel;
            assert!((millimetres / (times * 25.4 / 576.0) - 1.0).abs() < 1e-4, "{name}: {millimetres} and {times}");
        }
    }
}

/// The scale bar is as long as it says: its pixels, in millimetres of the sheet.
#[test]
fn scale_bars_are_true() {
    for name in example_names() {
        let picture = example_picture(&name);
        let elements = elements(&picture);
        let bar = elements.iter().find(|element| element.is("bar")).expect("a scale bar");
        let pixels: f64 = bar.text("d").split('h').nth(1).unwrap().split('m').next().unwrap().parse().unwrap();
        let (words, _) =
            common::text_boxes(&picture).into_iter().find(|(words, _)| words.contains(" mm, drawn")).unwrap();
        let (millimetres, rest) = words.split_once(" mm, drawn ").unwrap();
        let (times, one) = rest.split_once(" : ").unwrap();
        let times = times.parse::<f64>().unwrap() / one.parse::<f64>().unwrap();
        let wanted = millimetres.parse::<f64>().unwrap() * times * 96.0 / 25.4;
        assert!((pixels - wanted).abs() < 0.01, "{name}: {pixels} {wanted}");
    }
}

#[test]
fn texts_of_examples_do_not_overlap() {
    example_names().iter().for_each(|name| hold_texts_apart(&example_picture(name)));
}

/// A sheet with 32 sites and a layout with 21 labels: sites on their backbones, which are `apart` units apart.
fn crowded(width: u32, apart: u32, x: impl Fn(u32) -> u32) -> (Sheet, Layout) {
    let mut text = format!("head one-sided fewest gap 1 width {width}\n");
    (0..21).for_each(|slot| text += &format!("slot {}\n", 5 + slot * apart));
    // Slot and colour go together, so that the layout is lawful; each eighth slot has the same colour.
    let mut sites: Vec<(u32, u32, u32)> = (0..32).map(|site| (site % 21 % 8, x(site), site % 21)).collect();
    sites.sort_unstable();
    for colour in 0..8 {
        text += &format!("colour unbounded \"kind {colour}\"\n");
        let own = sites.iter().filter(|(its, _, _)| *its == colour);
        own.for_each(|(_, x, slot)| text += &format!("site {x} {}\n", 5 + slot * apart));
    }
    let sheet = Sheet::from_words(&sheet::encode(&text).unwrap()).unwrap();
    let slots = sites.iter().map(|(_, _, slot)| *slot as u8).collect();
    let mut layout = Layout { labels: 21, length: 0, slots };
    layout.length = backbone::true_numbers(&backbone::labels(&sheet, &layout)).1;
    (sheet, layout)
}

fn names_of(sheet: &Sheet) -> sheet::Names {
    let names = |count: usize, what: &str| -> Vec<Option<String>> {
        (0..count).map(|number| Some(format!("the {what} of number {number}"))).collect()
    };
    sheet::Names { colours: names(sheet.bounds().len(), "kind"), sites: names(sheet.sites().len(), "part") }
}

#[test]
fn texts_of_32_sites_and_21_labels_do_not_overlap() {
    let crowds = [
        crowded(1600, 40, |site| 40 + site * 47),
        // All backbones and sites within a few pixels of each other: flat, narrow, and in a corner.
        crowded(16383, 1, |site| site),
        crowded(16383, 2, |site| 16383 - site),
        crowded(31, 800, |site| site),
        crowded(31, 1, |site| site),
        crowded(16383, 700, |site| 8000 + site),
    ];
    for (sheet, layout) in crowds {
        assert_eq!(judge(&[sheet.words(), layout.words()].concat()), Ok(None), "it is lawful");
        for is_stretched in [false, true] {
            let options = Options { names: names_of(&sheet), is_stretched, ..Options::default() };
            let drawn = picture(&sheet, Some(&layout), &options).unwrap();
            hold_texts_apart(&drawn);
            let elements = elements(&drawn);
            assert_eq!(strokes(&elements, "backbone").len(), 21);
            assert_eq!(elements.iter().filter(|element| element.is("site")).count(), 32);
            hold_strokes("crowd", &elements, &sheet.words(), &layout.slots);
        }
    }
}

/// Stored sheets with any ties, broken rules and all.
#[test]
fn texts_of_any_layout_do_not_overlap() {
    let mut random = Random::new(83);
    for round in 0..300 {
        let shape = Shape {
            slots: random.between(1, 48) as usize,
            colours: random.between(1, 8) as usize,
            sites: random.between(0, 32) as usize,
            width: random.pick(&[31, 100, 255, 1600, 16383]),
            gap: random.between(1, 40),
            height: random.pick(&[60, 400, 900, 16383]),
        };
        let plain = sheet_of(shape, &mut random);
        let slot_of: Vec<usize> = plain.sites.iter().map(|_| random.below(shape.slots as u32) as usize).collect();
        let words = [plain.words(), layout_words(&plain, &slot_of)].concat();
        let (sheet, layout) = sheet_and_layout(&words).unwrap();
        let options = Options { names: names_of(&sheet), is_stretched: round % 3 == 0, ..Options::default() };
        let drawn = picture(&sheet, layout.as_ref(), &options).unwrap();
        hold_texts_apart(&drawn);
        hold_strokes("any", &elements(&drawn), &words, &layout.unwrap().slots);
    }
}

/// Lawful layouts of sheets of either side.
#[test]
fn lawful_layouts_are_drawn_by_their_strokes() {
    let mut random = Random::new(85);
    let (mut sides, mut on_backbone) = ([0; 2], 0);
    for _ in 0..4_000 {
        let words = any_stored(&mut random);
        let Ok((plain, slot_of)) = lawful(&words) else { continue };
        let (sheet, layout) = sheet_and_layout(&words).unwrap();
        let drawn = elements(&picture(&sheet, layout.as_ref(), &Options::default()).unwrap());
        hold_strokes("lawful", &drawn, &words, &layout.unwrap().slots);
        sides[usize::from(plain.two_sided)] += 1;
        on_backbone += plain.sites.iter().zip(slot_of).filter(|(site, slot)| site.y == plain.slots[*slot]).count();
    }
    assert!(sides.iter().all(|pictures| *pictures > 100) && on_backbone > 100, "{sides:?} {on_backbone}");
}

#[test]
fn a_picture_may_stand_in_any_page() {
    for name in example_names() {
        let picture = example_picture(&name);
        assert!(!picture.contains(" id=") && !picture.contains("<script") && !picture.contains("<style"), "{name}");
        assert!(!picture.contains("href") && !picture.contains("url("), "{name}");
        assert!(picture.len() < 40_000, "{name} is small: {}", picture.len());
    }
}

#[test]
fn names_are_escaped_and_shown() {
    let text = "head one-sided fewest gap 2 width 8\nslot 2\ncolour unbounded \"nuts & <bolts>\"\nsite 6 4 \"a 'b' \\\"c\\\"\"\n";
    let record = sheet::parse(text).unwrap();
    let (sheet, layout) = sheet_and_layout(&record.words).unwrap();
    let mut options = Options { names: record.names, ..Options::default() };
    let drawn = picture(&sheet, layout.as_ref(), &options).unwrap();
    let texts: Vec<String> = common::text_boxes(&drawn).into_iter().map(|(words, _)| words).collect();
    assert!(texts.iter().any(|words| words == "nuts &amp; &lt;bolts&gt;"), "{texts:?}");
    assert!(texts.iter().any(|words| words == "a &#39;b&#39; &quot;c&quot;"), "{texts:?}");
    options.names.sites[0] = Some("bell \u{7} and \u{FFFF}".to_string());
    let drawn = picture(&sheet, layout.as_ref(), &options).unwrap();
    assert!(drawn.contains("bell \u{FFFD} and \u{FFFD}"), "what XML has no form for is replaced");
}

#[test]
fn each_label_has_its_length() {
    let drawn = example_picture("a");
    // Sheet A by hand: 8 - 2 and drops of 2 and 4; 8 - 4 and a drop of 3.
    assert!(drawn.contains(">slot 0, length 12<") && drawn.contains(">slot 2, length 7<"));
    assert!(drawn.contains(">labels 2, length 19 (0.838 mm)<"));
}

/// The example by hand: backbones of 720 and 660; four drops of the rivets, 218 together, and one of the pins, 22; 24 for each.
#[test]
fn a_charge_is_told_and_counted() {
    let drawn = example_picture("charge");
    assert!(drawn.contains(">one-sided, fewest, gap 30 (1.32 mm), width 800 (35.3 mm), charge 24 (1.06 mm)<"));
    assert!(drawn.contains(">labels 2, length 1740 (76.7 mm)<"));
    assert!(drawn.contains(">slot 0, length 1034<") && drawn.contains(">slot 2, length 706<"));
    assert!(drawn.contains("; backbone 720, drops 218, charges 96, length 1034<"));
    assert!(drawn.contains("; backbone 660, drops 22, charges 24, length 706<"));
    let plain = example_picture("uncharged");
    assert!(plain.contains("; backbone 720, drops 178, length 898<") && !plain.contains("charge"));
    let of_0 = std::fs::read_to_string(folder().join("a.txt")).unwrap().replacen("slot", "charge 0\nslot", 1);
    let (sheet, layout) = sheet_and_layout(&sheet::encode(&of_0).unwrap()).unwrap();
    let drawn = picture(&sheet, layout.as_ref(), &Options::default()).unwrap();
    assert!(
        drawn.contains(", charge 0 (") && drawn.contains(", charges 0, length 12<"),
        "a charge of 0 that has its word"
    );
}

#[test]
fn broken_rules_say_what_is_wrong_in_red() {
    const RED: &str = "#d4001a";
    let words_in_red = |name: &str| {
        let elements = elements(&example_picture(name));
        let texts = elements.into_iter().filter(|element| element.name == "text" && element.text("fill") == RED);
        texts.map(|text| text.inside).collect::<Vec<String>>().join(" ")
    };
    assert!(!example_picture("tractor").contains(RED));
    assert!(words_in_red("crossing").contains("rule 4 is broken: the vertical of site 1 meets the backbone at slot 1"));
    assert!(words_in_red("near_site").contains("site 1 lies 12 above the backbone at slot 1, less than the gap 20"));
    let near_tip = "site 0 lies on the row of the backbone at slot 1, 16 left of its tip, less than the gap 20";
    assert!(words_in_red("near_tip").contains(near_tip));
    assert!(words_in_red("false_length").contains("states 2 labels and length 499, but has 2 labels and length 500"));
    assert!(words_in_red("no_layout").contains("no layout obeys rules 1 to 5"));
}

/// Each broken rule is named with its first place, whatever the ties.
#[test]
fn every_broken_rule_is_told() {
    let mut random = Random::new(84);
    let mut met = [0; 7];
    for _ in 0..2_000 {
        let plain = small_sheet(&mut random);
        if plain.slots.is_empty() {
            continue;
        }
        let spread = random.between(1, plain.slots.len() as u32);
        let slot_of: Vec<usize> = plain.sites.iter().map(|_| random.below(spread) as usize).collect();
        let mut stored = layout_words(&plain, &slot_of);
        stored[0] ^= u32::from(random.one_in(3));
        let words = [plain.words(), stored].concat();
        let rule = judge(&words).unwrap().map_or(0, Rule::number);
        let (sheet, layout) = sheet_and_layout(&words).unwrap();
        let drawn = picture(&sheet, layout.as_ref(), &Options::default()).unwrap();
        for number in 1..=6 {
            assert_eq!(drawn.contains(&format!("rule {number} is broken: ")), rule == number);
        }
        hold_texts_apart(&drawn);
        met[usize::from(rule)] += 1;
    }
    assert!(met.iter().all(|times| *times > 10), "{met:?}");
}

#[test]
fn a_comparison_marks_the_ties_that_differ() {
    let words = sheet::encode(&std::fs::read_to_string(folder().join("a.txt")).unwrap()).unwrap();
    let sheet = Sheet::from_words(&words).unwrap();
    let best = sheet.lay_out().unwrap();
    // Document 01: slots 2, 2, 0 give the same count and length, and come later.
    let other = Layout { slots: vec![2, 2, 0], ..best.clone() };
    let sides = |one, other| [Side { title: "engine", layout: one }, Side { title: "best", layout: other }];
    let drawn = compare(&sheet, sides(Some(&other), Some(&best)), &Options::default()).unwrap();
    hold_texts_apart(&drawn);
    let parts = elements(&drawn);
    let second = parts.iter().rposition(|element| element.is("frame")).unwrap();
    hold_strokes("engine", &parts[..second], &words, &other.slots);
    hold_strokes("best", &parts[second..], &words, &best.slots);
    assert_eq!(strokes(&parts[..second], "differs"), wanted(&words, &other.slots).1);
    assert_eq!(strokes(&parts[second..], "differs"), wanted(&words, &best.slots).1);
    let mut one_apart = best.clone();
    one_apart.slots[1] = 1;
    let drawn = compare(&sheet, sides(Some(&one_apart), Some(&best)), &Options::default()).unwrap();
    assert_eq!(strokes(&elements(&drawn), "differs"), [[6, 6, 6, 2], [6, 6, 6, 5]], "site 1 alone");
    assert_eq!(elements(&drawn).iter().filter(|element| element.is("ring")).count(), 2);
    let drawn = compare(&sheet, sides(None, Some(&best)), &Options::default()).unwrap();
    assert!(strokes(&elements(&drawn), "differs").is_empty());
    assert_eq!(strokes(&elements(&drawn), "backbone").len(), 2, "a claim that there is none has no strokes");
}

/// One scale for both sides, however many labels each has.
#[test]
fn a_comparison_has_one_scale() {
    let (sheet, many) = crowded(300, 20, |site| 5 + 9 * site);
    let few = Layout { labels: 1, length: 0, slots: vec![0; 32] };
    let sides = [Side { title: "many", layout: Some(&many) }, Side { title: "one", layout: Some(&few) }];
    let drawn = compare(&sheet, sides, &Options::default()).unwrap();
    hold_texts_apart(&drawn);
    let scales: Vec<&str> = drawn.split(" scale(").skip(1).filter_map(|rest| rest.split(')').next()).collect();
    assert!(scales.len() == 2 && scales[0] == scales[1], "{scales:?}");
}

#[test]
fn sheets_with_little_on_them_are_drawn() {
    for text in ["", "slot 3\n", "colour unbounded\n", "slot 3\ncolour bound 0\nsite 0 0\n"] {
        let words = sheet::encode(&format!("head one-sided fewest gap 2 width 8\n{text}")).unwrap();
        let (sheet, layout) = sheet_and_layout(&words).unwrap();
        hold_texts_apart(&picture(&sheet, layout.as_ref(), &Options::default()).unwrap());
    }
}

#[test]
fn a_layout_that_is_not_in_form_is_refused() {
    let words = sheet::encode(&std::fs::read_to_string(folder().join("a.txt")).unwrap()).unwrap();
    let sheet = Sheet::from_words(&words).unwrap();
    for slots in [vec![], vec![0, 0], vec![0, 0, 3], vec![0; 4]] {
        let layout = Layout { labels: 1, length: 1, slots };
        assert_eq!(picture(&sheet, Some(&layout), &Options::default()), Err(backbone::Refusal::BadLayout));
    }
}
