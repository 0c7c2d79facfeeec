//! Drawings: what must be in a picture, in a page and in the terminal.

mod common;

use common::{answer, noise, Scratch, BED};

#[test]
fn picture() {
    let scratch = Scratch::with_bed();
    let answer = scratch.kbmap("draw bed.map -o bed.svg");
    assert_eq!((answer.status, answer.text()), (0, "bed.svg: order 2, 4 by 4 pixels, 4 tiles\n"));
    let svg = String::from_utf8(scratch.get("bed.svg")).unwrap();
    for title in [
        "bed.map: a bed of order 2, 4 by 4 pixels, 4 tiles",
        "account 5, staff; columns 0 to 1, rows 0 to 1; 4 pixels",
        "account 9, student; column 3, row 1; 1 pixel",
        "account 9, student; column 0, row 2; 1 pixel",
        "account 9, student; columns 2 to 3, rows 2 to 3; 4 pixels",
        "nobody's; 6 pixels in all, 37.5 %",
    ] {
        assert_eq!(svg.matches(&format!("<title>{title}</title>")).count(), 1, "{title}");
    }
    assert!(svg.contains(r#"<rect x="2" y="2" width="2" height="2">"#));
    for word in ["column →", "← row", ">nobody's<", ">staff<", ">student<", ">25.0 %<"] {
        assert!(svg.contains(word), "{word}");
    }
    balanced(&svg);
}

/// Every element that begins ends, in the right order; no text has a stray < or &.
fn balanced(svg: &str) {
    let mut open = Vec::new();
    for part in svg.split('<').skip(1) {
        let (tag, text) = part.split_once('>').expect("an element ends");
        assert!(!text.replace("&lt;", "").replace("&gt;", "").replace("&amp;", "").contains('&'), "{text}");
        let name = tag.trim_start_matches('/').split([' ', '/']).next().unwrap();
        match (tag.starts_with('/'), tag.ends_with('/')) {
            (true, _) => assert_eq!(open.pop(), Some(name)),
            (false, false) => open.push(name),
            (false, true) => (),
        }
    }
    assert!(open.is_empty());
}

/// All 63 accounts, every order: each tile has its title, and what is shown of a little is never nothing.
#[test]
fn pictures_of_all_orders() {
    let scratch = Scratch::new();
    for order in 0..=7 {
        let scanned = scratch.fed("scan - -o bed.map", &noise(1 << order));
        assert_eq!(scanned.status, 0);
        let svg = scratch.kbmap("draw bed.map --svg -o -");
        let text = svg.text();
        balanced(text);
        let tiles = scanned.text().rsplit(", ").next().unwrap().split(' ').next().unwrap().parse::<usize>().unwrap();
        assert_eq!(text.matches("<title>account ").count(), tiles);
    }
}

#[test]
fn large_pictures_are_announced() {
    let scratch = Scratch::new();
    assert_eq!(scratch.fed("scan - -o bed.map", &noise(512)).status, 0);
    let answer = scratch.kbmap("draw bed.map --svg -o /dev/null");
    assert_eq!(answer.status, 0);
    assert!(answer.err.contains(" tiles: the picture takes about 29 MB, and long to open"), "{}", answer.err);
}

/// One file: nothing in it is fetched, and its data are the tiles.
#[test]
fn page() {
    let scratch = Scratch::with_bed();
    let answer = scratch.kbmap("draw bed.map -o bed.html");
    assert_eq!((answer.status, answer.text()), (0, "bed.html: order 2, 4 by 4 pixels, 4 tiles\n"));
    let html = String::from_utf8(scratch.get("bed.html")).unwrap();
    for outside in ["http:", "https:", "src=", "href=", "url(", "@import"] {
        assert!(!html.contains(outside), "{outside}");
    }
    assert!(!html.contains("{{") && html.contains("<title>bed.map</title>"));
    assert!(html.contains("<td>student</td><td>3</td><td>6</td><td>37.5 %</td>"));
    assert!(html.contains("<td>nobody's</td><td></td><td>6</td><td>37.5 %</td>"));
    let (_, data) = html.split_once(r#"<script type="application/json" id="data">"#).unwrap();
    let (data, _) = data.split_once("</script>").unwrap();
    assert!(data.starts_with(r#"{"side":4,"sides":[1,2,4,8,16,32,64,128,256,512,1024],"accounts":[{"account":5,"#));
    // Column, row, size and account of (0, 0, 1, 5), (3, 1, 0, 9), (0, 2, 0, 9) and (2, 2, 1, 9), in base64.
    assert!(data.ends_with(r#""tiles":"AAAAAAEFAAMAAQAJAAAAAgAJAAIAAgEJ"}"#), "{data}");
}

#[test]
fn page_of_a_strange_name() {
    let scratch = Scratch::new();
    scratch.put("{{data}}<script>.map", &BED);
    let html = scratch.kbmap("draw {{data}}<script>.map --html -o -");
    assert!(html.text().contains("<h1>{{data}}&lt;script&gt;.map</h1>"));
}

#[test]
fn terminal() {
    let scratch = Scratch::with_bed();
    let plain = scratch.kbmap("draw bed.map");
    assert!(plain.status == 0 && !plain.text().contains('\x1b'));
    assert!(plain.text().contains("\n1   5  5  .  9\n"));
    assert!(scratch.kbmap("draw bed.map -o - --colour").text().contains("\x1b[48;2;"));
    assert_eq!(
        scratch.fed("draw -", &BED).text().lines().next(),
        Some("standard input: order 2, 4 by 4 pixels, 4 tiles")
    );
}

/// A bed too wide for the width is drawn in blocks, and a block of several accounts is nobody's cell but mixed.
#[test]
fn terminal_width() {
    let scratch = Scratch::new();
    assert_eq!(scratch.fed("scan - -o bed.map", &noise(64)).status, 0);
    let drawn = scratch.kbmap("draw bed.map");
    assert!(drawn.text().contains("a cell is a block of 4 by 4 pixels"));
    assert!(drawn.text().contains("\n60  ## ## ## "));
    assert!(drawn.text().lines().skip(3).take(17).all(|line| line.len() <= 80));
    let wide = scratch.kbmap("draw bed.map --width 200");
    assert!(!wide.text().contains("##"));
}

/// The text without what sets colours.
fn without_colours(text: &str) -> String {
    let mut parts = text.split("\x1b[");
    let first = parts.next().unwrap().to_owned();
    parts.fold(first, |text, part| text + part.split_once('m').unwrap().1)
}

/// No line of a drawing is longer than asked, from 20 columns on; less is taken as 20.
#[test]
fn narrow_terminals() {
    let scratch = Scratch::new();
    for order in [0, 1, 3, 6, 10] {
        let name = "a-long-name-of-a-bed.map";
        assert_eq!(scratch.fed(&format!("scan - -o {name}"), &noise(1 << order)).status, 0);
        for (asked, width) in [(1, 20), (20, 20), (35, 35), (36, 36)] {
            for colour in ["", "--colour"] {
                let drawn = scratch.kbmap(&format!("draw {name} --width {asked} {colour}"));
                assert_eq!(drawn.status, 0);
                let text = without_colours(drawn.text());
                let longest = text.lines().map(|line| line.chars().count()).max().unwrap();
                assert!(longest <= width, "order {order}, {asked} columns: {longest}\n{text}");
            }
        }
    }
}

/// A bed of order 10 with single pixels of account 7, every 51 columns and rows: 21 by 21 of them.
fn scattered() -> Vec<u8> {
    let mut picture = b"P5\n1024 1024\n63\n".to_vec();
    picture.extend((0..1 << 20).map(|at| if at % 1024 % 51 == 0 && at / 1024 % 51 == 0 { 7 } else { 0 }));
    picture
}

/// A pixel of a large bed has a unit of the picture at least, and soft edges, so that none is left out.
#[test]
fn small_pixels() {
    let scratch = Scratch::new();
    assert_eq!(scratch.fed("scan - -o bed.map", &scattered()).status, 0);
    let large = scratch.kbmap("draw bed.map --svg -o -");
    assert_eq!(large.text().matches(r#" width="1" height="1"><title>account 7"#).count(), 441);
    assert!(large.text().contains(r#"<rect x="64" y="112" width="1024" height="1024" fill="url(#free)">"#));
    assert!(large.text().contains(" scale(1)") && !large.text().contains("crispEdges"));
    for (side, scale, crisp) in [(512, 2.0, false), (256, 2.5, true), (64, 10.0, true), (1, 640.0, true)] {
        assert_eq!(scratch.fed("scan - -o bed.map", &noise(side)).status, 0);
        let drawn = scratch.kbmap("draw bed.map --svg -o -");
        assert!(drawn.text().contains(&format!(" scale({scale})")), "{side}");
        assert_eq!(drawn.text().contains("crispEdges"), crisp, "{side}");
    }
}

/// The legends say that colours are shared, and whether by accounts that touch.
#[test]
fn shared_colours() {
    let scratch = Scratch::new();
    let cases: [(&[u8], bool, bool); 3] = [
        (b"P2 4 4 63 1 2 3 4 5 6 7 8 9 10 0 0 0 0 0 0", false, false),
        (b"P2 4 4 63 1 2 3 4 5 6 7 8 9 10 11 0 0 0 0 0", true, false),
        (&noise(64), true, true),
    ];
    for (picture, shared, touching) in cases {
        assert_eq!(scratch.fed("scan - -o bed.map", picture).status, 0);
        for style in ["--svg", "--html", "--colour"] {
            let drawn = scratch.kbmap(&format!("draw bed.map {style} -o -"));
            assert_eq!(drawn.text().contains(" accounts share 10 colours"), shared, "{style}");
            assert_eq!(drawn.text().contains("some accounts that touch share a colour"), touching, "{style}");
        }
    }
}

/// A name's letters that XML does not allow, or that would steer a terminal, are not passed on.
#[cfg(unix)]
#[test]
fn wild_names() {
    let scratch = Scratch::new();
    let name = "b\u{ffff}\u{1b}[2J\n.map";
    scratch.put(name, &BED);
    let called = |words: &[&str]| answer(scratch.command(env!("CARGO_BIN_EXE_kbmap")).args(words), b"");
    for style in ["--svg", "--html"] {
        let drawn = called(&["draw", name, style, "-o", "-"]);
        assert!(drawn.text().contains("<title>b\u{fffd}\u{fffd}[2J\u{fffd}.map"), "{style}");
        assert!(!drawn.text().contains(['\u{ffff}', '\u{1b}']), "{style}");
    }
    let seen = "b\u{ffff}\\x1b[2J\\x0a.map";
    for words in [
        &["draw", name][..],
        &["check", name],
        &["show", name],
        &["preview", name, "0", "0", "5"],
        &["claim", name, "0", "0", "5"],
    ] {
        let said = called(words);
        assert!(said.text().starts_with(seen) && said.status == 0, "{said:?}");
    }
    let no_such = called(&["check", "\u{1b}c"]);
    assert_eq!(no_such.err, "kbmap: \\x1bc: No such file or directory\n");
    for words in [&["\u{1b}c"][..], &["-\u{1b}c"], &["at", name, "\u{1b}c", "0"], &["check", name, "\u{1b}c"]] {
        let said = called(words);
        assert!(said.status == 2 && said.err.contains("\\x1bc") && !said.err.contains('\u{1b}'), "{said:?}");
    }
}
