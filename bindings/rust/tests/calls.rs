//! The calls over DejaVu Sans, where it is there: cuts of all kinds, their forms, joins and refusals.
use fontcut::{join, needed, version, Argument, Error, Font, Form, Kind, NoGlyph, Ranges, Wanted};

const DEJAVU: &str = "/usr/share/fonts/truetype/dejavu/DejaVuSans.ttf";

fn letters(text: &str) -> Ranges {
    text.chars().collect()
}

fn dejavu() -> Option<Vec<u8>> {
    std::fs::read(DEJAVU).ok()
}

fn has_table(file: &[u8], tag: &[u8; 4]) -> bool {
    let count = usize::from(u16::from_be_bytes([file[4], file[5]]));
    (0..count).any(|entry| file[12 + 16 * entry..].starts_with(tag))
}

#[test]
fn cuts_and_joins() -> Result<(), Error> {
    let file = match dejavu() {
        Some(file) => file,
        None => return Ok(()),
    };
    let font = Font::new(&file)?;
    for kind in [Kind::Full, Kind::Lean, Kind::Layout, Kind::Variable] {
        let (one, two) = (
            font.cut(kind, &letters("Hello"))?,
            font.cut(kind, &letters("world"))?,
        );
        assert_eq!(font.cut_size(kind, &letters("Hello"))?, one.len() as u64);
        let both = join(kind, [&two, &one])?;
        assert_eq!(
            both,
            font.cut(
                kind,
                &letters("Hello world")
                    .iter()
                    .filter(|it| *it.start() != 0x20)
                    .collect()
            )?
        );
        let cut = Font::new(&both)?;
        assert_eq!((both.kind(), both.font().bytes()), (kind, cut.bytes()));
        assert_eq!(Vec::from(both.clone()), both.clone().into_bytes());
        assert_eq!(cut.form(kind)?, Some(Form::Current));
        assert!(cut.belongs_to(kind, &font)?);
        assert!(!font.belongs_to(kind, &cut)?);
        assert_eq!(cut.codes()?, letters("Helowrd"));
    }
    assert_eq!(font.form(Kind::Full)?, None);
    Ok(())
}

#[test]
fn cuts_for_many_sets() -> Result<(), Error> {
    let file = match dejavu() {
        Some(file) => file,
        None => return Ok(()),
    };
    let font = Font::new(&file)?;
    let sets = [
        letters("Hello"),
        letters(""),
        Ranges::all(),
        letters("Hello"),
    ];
    for kind in [Kind::Full, Kind::Lean, Kind::Layout, Kind::Variable] {
        let cuts = font.cuts(kind, &sets)?;
        for (set, cut) in sets.iter().zip(&cuts) {
            assert_eq!(*cut, font.cut(kind, set)?);
        }
        assert_eq!(cuts.len(), sets.len());
        assert_eq!(font.cuts(kind, [])?, []);
    }
    Ok(())
}

#[test]
fn a_lean_cut_joins_with_lean_cuts_alone() -> Result<(), Error> {
    let file = match dejavu() {
        Some(file) => file,
        None => return Ok(()),
    };
    let font = Font::new(&file)?;
    let (lean, full) = (
        font.cut(Kind::Lean, &letters("a"))?,
        font.cut(Kind::Full, &letters("b"))?,
    );
    let refused = join(Kind::Lean, [&lean, &full]).unwrap_err();
    assert_eq!(
        (refused.number(), refused.text(), refused.file()),
        (20, "not a cut: second", Some(1))
    );
    assert_eq!(refused.to_string(), "file 2: not a cut: second");
    let refused = join(Kind::Full, [&lean, &full]).unwrap_err();
    assert_eq!(
        (refused.number(), refused.argument()),
        (21, Argument::Table(*b"hmtx"))
    );
    Ok(())
}

#[test]
fn layout_cuts_have_the_tables_of_layout() -> Result<(), Error> {
    let file = match dejavu() {
        Some(file) => file,
        None => return Ok(()),
    };
    let font = Font::new(&file)?;
    let cut = font.cut(Kind::Layout, &letters("fi"))?;
    for tag in [b"GDEF", b"GPOS", b"GSUB"] {
        assert!(has_table(&cut, tag));
    }
    assert_eq!(cut.font().form(Kind::Layout)?, Some(Form::Current));
    let refused = join(Kind::Layout, [&cut, &font.cut(Kind::Lean, &letters("a"))?]).unwrap_err();
    assert_eq!((refused.number(), refused.file()), (21, Some(1)));
    // Nothing varies in this font.
    assert_eq!(
        font.cut(Kind::Variable, &letters("fi"))?.into_bytes(),
        cut.into_bytes()
    );
    Ok(())
}

/// The kinds of cuts that are for glyphs by number, too.
const BY_NUMBER: [Kind; 3] = [Kind::Lean, Kind::Layout, Kind::Variable];

fn wanted(text: &str, glyphs: &[u16]) -> Wanted {
    let (codes, glyphs) = (letters(text), glyphs.to_vec());
    Wanted { codes, glyphs }
}

#[test]
fn cuts_for_glyphs() -> Result<(), Error> {
    let file = match dejavu() {
        Some(file) => file,
        None => return Ok(()),
    };
    let font = Font::new(&file)?;
    let (some, more) = (wanted("fi", &[700, 36, 36]), wanted("", &[68]));
    for kind in BY_NUMBER {
        let cuts = font.exact_cuts(kind, [&some, &more, &some])?;
        let one = font.exact_cut(kind, &some)?;
        assert_eq!(
            cuts,
            [one.clone(), font.exact_cut(kind, &more)?, one.clone()]
        );
        assert_eq!(font.exact_cut_size(kind, &some)?, one.len() as u64);
        assert_eq!(font.exact_cuts(kind, [])?, []);
        let both = wanted("if", &[68, 36, 700]);
        assert_eq!(join(kind, &cuts)?, font.exact_cut(kind, &both)?);
        assert_eq!(one.font().form(kind)?, Some(Form::Current));
        assert!(one.font().belongs_to(kind, &font)?);
        assert_eq!(one.font().codes()?, letters("fi"));
        let kept = one.font().kept_glyphs(kind)?;
        assert!([0, 36, 700].iter().all(|glyph| kept.contains(glyph)));
        assert_eq!(font.exact_cut(kind, &wanted("fi", &kept))?, one);
    }
    Ok(())
}

#[test]
fn closures_and_everything() -> Result<(), Error> {
    let file = match dejavu() {
        Some(file) => file,
        None => return Ok(()),
    };
    let font = Font::new(&file)?;
    for kind in BY_NUMBER {
        let closed = font.closure(kind, &wanted("fi", &[]))?;
        let cut = font.cut(kind, &letters("fi"))?;
        assert_eq!(font.exact_cut(kind, &wanted("fi", &closed))?, cut);
        assert_eq!(font.closure(kind, &wanted("fi", &closed))?, closed);
        let ligature = font.glyphs(['\u{FB01}'])[0];
        assert_eq!(closed.contains(&ligature), kind != Kind::Lean);
        let all = font.exact_cut(kind, &font.everything())?;
        assert_eq!(all, all.font().exact_cut(kind, &all.font().everything())?);
        assert_eq!(all.font().codes()?, font.codes()?);
    }
    assert_eq!(font.closure(Kind::Full, &wanted("A", &[]))?, [0, 36]);
    let full = font.cut(Kind::Full, &letters("A"))?;
    assert_eq!(full.font().kept_glyphs(Kind::Full)?, [0, 36]);
    Ok(())
}

#[test]
fn glyphs_that_are_refused() -> Result<(), Error> {
    let file = match dejavu() {
        Some(file) => file,
        None => return Ok(()),
    };
    let font = Font::new(&file)?;
    let count = font.info().glyph_count;
    let (good, bad) = (wanted("A", &[9]), wanted("A", &[9, count, u16::MAX]));
    for kind in BY_NUMBER {
        for refused in [
            font.exact_cut(kind, &bad).unwrap_err(),
            font.exact_cut_size(kind, &bad).unwrap_err(),
            font.exact_cuts(kind, [&good, &bad]).unwrap_err(),
            font.closure(kind, &bad).unwrap_err(),
        ] {
            assert_eq!(
                (refused.number(), refused.to_string(), refused.argument()),
                (
                    102,
                    format!("no glyph {count}"),
                    Argument::Number(u32::from(count))
                )
            );
        }
    }
    for refused in [
        font.exact_cut(Kind::Full, &good).unwrap_err(),
        font.exact_cut_size(Kind::Full, &bad).unwrap_err(),
        font.exact_cuts(Kind::Full, [&good]).unwrap_err(),
        font.closure(Kind::Full, &good).unwrap_err(),
    ] {
        assert_eq!(
            (refused.number(), refused.text(), refused.file()),
            (104, "no glyphs by number in full cuts", None)
        );
    }
    let characters = wanted("A", &[]);
    assert_eq!(
        font.exact_cut(Kind::Full, &characters)?,
        font.cut(Kind::Full, &characters.codes)?
    );
    Ok(())
}

#[test]
fn refusals() {
    let refused = Font::new(b"no font").unwrap_err();
    assert_eq!(
        (refused.number(), refused.text(), refused.argument()),
        (2, "truncated", Argument::File)
    );
    let refused = join(Kind::Full, Vec::<Vec<u8>>::new()).unwrap_err();
    assert_eq!(
        (refused.number(), refused.text(), refused.file()),
        (24, "nothing to join", None)
    );
}

#[test]
fn numbers_of_a_font_and_its_glyphs() -> Result<(), Box<dyn std::error::Error>> {
    let file = match dejavu() {
        Some(file) => file,
        None => return Ok(()),
    };
    let font = Font::new(&file)?;
    let count = font.info().glyph_count;
    let last = font.metrics(&[count - 1])?;
    assert_eq!(font.metrics(&[count - 1, 0])?[0], last[0]);
    for (given, index) in [(vec![count], 0), (vec![0, u16::MAX, count], 1)] {
        let glyph = given[index];
        assert_eq!(font.metrics(&given).unwrap_err(), NoGlyph { index, glyph });
    }
    assert_eq!(
        NoGlyph { index: 1, glyph: 9 }.to_string(),
        "item 1: the font has no glyph 9"
    );
    assert!(font.glyphs(Vec::<char>::new()).is_empty());
    assert_eq!(font.metrics(&[])?, []);
    assert_eq!(font.glyphs([u32::MAX, 0xD800, 0x11_0000]), [0, 0, 0]);
    Ok(())
}

#[test]
fn the_version_is_that_of_the_crate() {
    let (first, second, third) = version();
    assert_eq!(
        format!("{first}.{second}.{third}"),
        env!("CARGO_PKG_VERSION")
    );
}

/// U+514E with U+E0101 has glyph 16650 of its own in VL Gothic, and 4002 alone, as fontTools reads its table.
#[test]
fn glyphs_of_sequences() -> Result<(), Box<dyn std::error::Error>> {
    let Ok(file) = std::fs::read("/usr/share/fonts/truetype/vlgothic/VL-Gothic-Regular.ttf") else {
        return Ok(());
    };
    let font = Font::new(&file)?;
    let text = "\u{514E}\u{E0101} \u{514E}";
    let glyphs = font.variants(text)?;
    assert_eq!(
        (glyphs.as_slice(), font.glyphs(['\u{514E}'])),
        (&[16650][..], vec![4002])
    );
    assert_eq!(font.variants("\u{514E} \u{E0101}")?, []);
    let mut wanted = Wanted {
        codes: needed(text)?,
        glyphs,
    };
    wanted.glyphs = font.closure(Kind::Layout, &wanted)?;
    assert_eq!(
        font.cut_text(Kind::Layout, text)?,
        font.exact_cut(Kind::Layout, &wanted)?
    );
    Ok(())
}

#[test]
fn texts_and_lists() -> Result<(), Error> {
    for (text, wanted) in [
        ("", ""),
        ("\n\u{85}", "U+A, U+20, U+85"),
        ("e\n\u{301}", "U+A, U+20, U+65, U+301, U+25CC"),
        ("(\u{5D0}", "U+20, U+28-29, U+5D0"),
        ("\u{1F600}", "U+20, U+1F600"),
    ] {
        assert_eq!(needed(text)?.to_string(), wanted);
    }
    for (list, wanted) in [
        ("", ""),
        ("U+41-5A, 61;u+3B1 # U+1", "U+41-5A, U+61, U+3B1"),
        ("all", "U+0-10FFFF"),
        ("U+41 36 1401\n", "U+41"),
    ] {
        assert_eq!(list.parse::<Ranges>()?.to_string(), wanted);
    }
    for (list, place, text) in [
        ("zz", 0, "bad word zz"),
        ("41,\u{E9};42", 3, "bad word \u{E9}"),
        ("unicode-range:42-41", 14, "bad word 42-41"),
    ] {
        let refused = list.parse::<Ranges>().unwrap_err();
        assert_eq!(
            (refused.number(), refused.text(), refused.argument()),
            (106, text, Argument::Number(place))
        );
    }
    Ok(())
}

#[test]
fn sets_of_codes() {
    let mut set = letters("acb");
    assert_eq!(set.iter().collect::<Vec<_>>(), [0x61..=0x63]);
    set.insert(0x65..=0x70);
    set.insert(0x64..=0x64);
    assert_eq!(set.to_string(), "U+61-70");
    set.insert(0x10_FFF0..=u32::MAX);
    assert!(set.contains(0x10_FFFF) && set.contains(0x70) && !set.contains(0x71));
    assert_eq!(Ranges::all().iter().collect::<Vec<_>>(), [0..=0x10_FFFF]);
    #[allow(clippy::reversed_empty_ranges)]
    set.insert(9..=1);
    assert_eq!(set.to_string(), "U+61-70, U+10FFF0-10FFFF");
}
