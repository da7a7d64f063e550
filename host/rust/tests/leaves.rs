//! The printed leaf of the scope document, and what a leaf tells in each state.
use novlizeb::{Kind, LayoutParams, Leaf, Mask, PageRect, Point, Rect, Refusal, Unit};

/// The sheet of the scope document's show program.
fn show_params() -> LayoutParams {
    LayoutParams {
        glyph_min_area: 1,
        glyph_max_extent_frac: 1.0,
        xheight_min_area: 1,
        xheight_fallback_px: 1.0,
        rule_min_len_xh: 4.0,
        rule_max_thick_xh: 0.5,
        rule_run_xh: 4.0,
        graphic_min_xh: 8.0,
        smear_xh: 1.0,
        line_min_glyphs: 1,
        line_min_height_xh: 0.5,
        line_max_height_xh: 3.0,
        block_min_overlap: 0.5,
        block_gap_margin_lines: 0.5,
        block_max_gap_lines: 3.0,
        column_gap_xh: 1.0,
        column_cover_frac: 0.0,
        shear_min_deg: 0.0,
    }
}

fn printed_leaf() -> Mask {
    Mask::from_text("......\n.#.#..\n.#.#..\n......").unwrap()
}

#[test]
fn the_printed_leaf() {
    let mut leaf = Leaf::new();
    leaf.level(&printed_leaf(), 0.0, &show_params(), 64).unwrap();
    leaf.segment(&show_params()).unwrap();
    let sheet = "000100060004000600044000000000000000\n01000100010003000200000002000000040002000\n020001000100030002001\n05000100010001000200000002000\n05000300010003000200000002000\n0600010003\n07000000040000000000000000000000000000000400000000\n";
    assert_eq!(leaf.sheet().unwrap(), sheet);
    let figures = leaf.figures().unwrap();
    assert_eq!(figures.unit, Unit::Measured(2.0));
    assert_eq!((figures.ink, figures.of(Kind::Glyph)), (4, 4));
    assert_eq!(leaf.lines().unwrap()[0].bbox, Rect { x0: 1, y0: 1, x1: 3, y1: 2 });
    assert_eq!(leaf.glyphs().unwrap()[1].line, Some(0));
    assert_eq!((leaf.columns().unwrap()[0].first, leaf.columns().unwrap()[0].last), (1, 3));
    assert_eq!(leaf.dots(Kind::Glyph, Rect { x0: 0, y0: 0, x1: 5, y1: 3 }).unwrap().len(), 4);
    assert_eq!(leaf.summary().unwrap().lines, 1.0);
    assert_eq!(leaf.twenty_line_measure().unwrap(), 0);
}

#[test]
fn states() {
    let mut leaf = Leaf::new();
    assert_eq!(leaf.segment(&show_params()), Err(Refusal::Empty));
    assert_eq!(leaf.frame(), Err(Refusal::Empty));
    assert_eq!(leaf.figures(), Err(Refusal::NotSegmented));
    leaf.level(&printed_leaf(), 0.0, &show_params(), 64).unwrap();
    assert_eq!(leaf.figures(), Err(Refusal::NotSegmented));
    assert_eq!(leaf.level(&printed_leaf(), 0.0, &show_params(), 64), Err(Refusal::NotEmpty));
    leaf.segment(&show_params()).unwrap();
    let first = leaf.figures().unwrap();
    leaf.segment(&LayoutParams { line_min_glyphs: 3, ..show_params() }).unwrap();
    assert_eq!(leaf.figures().unwrap().lines, 0);
    leaf.segment(&show_params()).unwrap();
    assert_eq!(leaf.figures().unwrap(), first);
    leaf.clear();
    assert_eq!(leaf.figures(), Err(Refusal::NotSegmented));
    let (shape, ink, kinds) = (leaf.shape(), leaf.ink().to_vec(), leaf.kinds().to_vec());
    assert_eq!(leaf.level(&Mask::new(2, 2, vec![2; 4]), 0.0, &show_params(), 64), Err(Refusal::MaskByte));
    assert_eq!((leaf.shape(), leaf.ink(), leaf.kinds()), (shape, &ink[..], &kinds[..]));
    leaf.level(&printed_leaf(), 10.0, &show_params(), 64).unwrap();
    assert!(leaf.frame().unwrap().height > 4);
}

#[test]
fn refusals() {
    let mut leaf = Leaf::new();
    let params = show_params();
    assert_eq!(leaf.level(&Mask::new(0, 4, vec![]), 0.0, &params, 64), Err(Refusal::Sides));
    assert_eq!(leaf.level(&Mask::new(8193, 1, vec![0; 8193]), 0.0, &params, 64), Err(Refusal::Sides));
    assert_eq!(leaf.level(&Mask::new(u32::MAX, u32::MAX, vec![]), 0.0, &params, u32::MAX), Err(Refusal::Sides));
    assert_eq!(leaf.level(&Mask::new(2, 2, vec![0; 3]), 0.0, &params, 64), Err(Refusal::MaskLength));
    assert_eq!(leaf.level(&Mask::new(2, 2, vec![0, 1, 2, 0]), 0.0, &params, 64), Err(Refusal::MaskByte));
    assert_eq!(leaf.level(&printed_leaf(), 45.1, &params, 64), Err(Refusal::Skew));
    assert_eq!(leaf.level(&printed_leaf(), f64::NAN, &params, 64), Err(Refusal::Skew));
    assert_eq!(leaf.level_by(&printed_leaf(), 1.0, f64::INFINITY, &params, 64), Err(Refusal::Slope));
    assert_eq!(leaf.level(&printed_leaf(), 0.0, &LayoutParams { smear_xh: -1.0, ..params }, 64), Err(Refusal::Params));
    assert_eq!(leaf.level(&printed_leaf(), 0.0, &params, 0), Err(Refusal::Capacity));
    assert_eq!(leaf.level(&printed_leaf(), 0.0, &params, 65536), Err(Refusal::Capacity));
    leaf.level(&printed_leaf(), 0.0, &params, 1).unwrap();
    assert_eq!(leaf.segment(&params), Err(Refusal::Components));
    assert_eq!(leaf.to_page(6, 0), Err(Refusal::Outside));
    assert_eq!(leaf.rect_to_page(Rect { x0: 2, y0: 0, x1: 1, y1: 0 }), Err(Refusal::Outside));
    assert_eq!(leaf.level_gray(&[0; 23]), Err(Refusal::TooShort));
    assert_eq!(leaf.level_gray(&[7; 24]), Ok(vec![7; 24]));
}

#[test]
fn the_way_back() {
    let mut leaf = Leaf::new();
    leaf.level_by(&Mask::new(4, 2, vec![0; 8]), 20.0, 0.5, &show_params(), 1).unwrap();
    let frame = leaf.frame().unwrap();
    assert_eq!((frame.width, frame.height), (6, 4));
    assert_eq!(leaf.to_page(3, 3), Ok(Point { x: 3, y: 1 }));
    assert_eq!(leaf.to_page(0, 0), Ok(Point { x: -2, y: 0 }));
    assert!(matches!(leaf.rect_to_page(Rect { x0: 3, y0: 3, x1: 3, y1: 3 }), Ok(PageRect { x0: 3, y0: 1, x1: 3, y1: 1 })));
}
