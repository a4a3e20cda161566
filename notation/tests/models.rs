//! Models: handed in, told and drawn.

use notation::{document, facts, model, picture, Names, Vocabulary};
use reasoner::random::{Case, Rng};
use std::collections::BTreeMap;
use std::fs;

fn desk() -> Vocabulary {
    let text = b"Declaration(Class(:Data)) Declaration(Class(<http://x.y/a&b#c>))
        Declaration(ObjectProperty(:uses)) Declaration(ObjectProperty(:knows))
        Declaration(DataProperty(:days))";
    Vocabulary::parse(text).expect("a vocabulary")
}

#[test]
fn lines_and_words() {
    let words = [1, 2, 0, 0, 0, 3, 1, 1, 59, 2, 2, 1, 1, 2, 3, 1, 1, 2, 0, 0];
    let lines = "value 1 1 59\nedge 1 1 2\nmember 1 2\n";
    let read = |bytes: &[u8]| model(&desk(), bytes).expect("a model");
    assert_eq!(read(lines.as_bytes()), words);
    assert_eq!(read(format!("outside 1 4\n{lines}").as_bytes()), words);
    assert_eq!(
        read(format!("differs 2 1 4\r\n\n {}", lines.replace('\n', " \r\n")).as_bytes()),
        words
    );
    assert_eq!(read(&words.map(u32::to_le_bytes).concat()), words);
    assert_eq!(read(b""), [0, 1, 0, 0, 0]);
    assert_eq!(read(b"outside 1 1\n"), [0, 1, 0, 0, 0]);
    assert_eq!(
        facts(desk().names(), &words),
        ["x1 has :days 59", "x1 has :uses x2", "x2 is in :Data"]
    );
}

#[test]
fn what_is_no_model() {
    let cases: [(&[u8], &str); 9] = [
        (b"compliant\n", "line 1, column 1: expected \"member CLASS INDIVIDUAL\", \"edge ROLE FROM TO\" or \"value FEATURE INDIVIDUAL VALUE\", found \"compliant\""),
        (b"member 1 1\noutside 1 1", "line 2, column 1: expected \"member"),
        (b"member 1 1\n edge 1 1", "line 2, column 2: expected \"member"),
        (b"member 3 1", "line 1, column 8: expected the number of a class, from 1 to 2, found \"3\""),
        (b"edge 0 1 1", "line 1, column 6: expected the number of a role, from 1 to 2, found \"0\""),
        (b"value 2 1 1", "line 1, column 7: expected the number of a feature, from 1 to 1, found \"2\""),
        (b"edge 1 1 513", "line 1, column 10: expected an individual, from 1 to 512, found \"513\""),
        (b"value 1 1 -1", "line 1, column 11: expected a value, from 0 to 4294967295, found \"-1\""),
        (b"\0\0\0", "line 1, column 1: words have 4 bytes each, and here are 3 bytes"),
    ];
    for (bytes, expected) in cases {
        let found = model(&desk(), bytes).expect_err("a mistake").to_string();
        assert!(found.starts_with(expected), "{found}\n{expected}");
    }
    let long = "member 1 1\n".repeat(140_001);
    assert_eq!(
        model(&desk(), long.as_bytes()).expect_err("a mistake").to_string(),
        "line 140001, column 1: a model has at most 140000 records"
    );
    assert!(model(&desk(), &long.as_bytes()[11..]).is_ok());
}

/// The elements of a picture, in order, with their attributes and, for texts, what they say. It is
/// read as XML: what is open is closed, and no sign stands where it may not.
fn elements(svg: &str) -> Vec<(String, BTreeMap<String, String>, String)> {
    let mut all: Vec<(String, BTreeMap<String, String>, String)> = Vec::new();
    let mut open: Vec<usize> = Vec::new();
    let mut rest = svg;
    while let Some(start) = rest.find('<') {
        let text = &rest[..start];
        assert!(!text.contains('>') && !text.contains(|c: char| c < ' ' && c != '\n'), "{text:?}");
        for (at, _) in text.match_indices('&') {
            assert!(["&amp;", "&lt;", "&gt;"].iter().any(|sign| text[at..].starts_with(sign)));
        }
        if let Some(&inside) = open.last() {
            all[inside].2.push_str(text.trim_matches('\n'));
        }
        let end = start + rest[start..].find('>').expect("a tag ends");
        let tag = &rest[start + 1..end];
        rest = &rest[end + 1..];
        if let Some(name) = tag.strip_prefix('/') {
            let closed = open.pop().expect("it was opened");
            assert_eq!(all[closed].0, name);
            continue;
        }
        let (name, attributes) = tag.trim_end_matches('/').split_once(' ').unwrap_or((tag, ""));
        let mut fields = BTreeMap::new();
        let mut quoted = attributes.split('"');
        while let (Some(key), Some(value)) = (quoted.next(), quoted.next()) {
            let key = key.trim().strip_suffix('=').expect("a key");
            assert!(fields.insert(key.to_owned(), value.to_owned()).is_none());
        }
        if !tag.ends_with('/') {
            open.push(all.len());
        }
        all.push((name.to_owned(), fields, String::new()));
    }
    assert!(open.is_empty() && rest == "\n", "{rest}");
    all
}

/// Left, top, right and bottom of each box, and of the picture.
fn boxes(svg: &str) -> (Vec<[usize; 4]>, [usize; 2]) {
    let elements = elements(svg);
    let number = |fields: &BTreeMap<String, String>, key: &str| -> usize {
        fields[key].parse().expect("a whole number")
    };
    let size = ["width", "height"].map(|key| number(&elements[0].1, key));
    let is_box =
        |fields: &BTreeMap<String, String>| fields.get("fill").is_some_and(|f| f == "none");
    let boxes = elements.iter().filter(|(name, fields, _)| name == "rect" && is_box(fields));
    let sides = boxes.map(|(_, fields, _)| {
        let [x, y, width, height] = ["x", "y", "width", "height"].map(|key| number(fields, key));
        [x, y, x + width, y + height]
    });
    (sides.collect(), size)
}

/// Holds a picture to what any must be: legal, with a box for each individual, inside, and apart.
fn hold(svg: &str, individuals: u32) {
    let (boxes, [width, height]) = boxes(svg);
    assert_eq!(boxes.len(), individuals as usize, "{svg}");
    for (place, one) in boxes.iter().enumerate() {
        assert!(one[2] < width && one[3] < height, "{svg}");
        for other in &boxes[..place] {
            let apart =
                one[2] < other[0] || other[2] < one[0] || one[3] < other[1] || other[3] < one[1];
            assert!(apart, "{one:?} {other:?}\n{svg}");
        }
    }
}

fn texts(svg: &str) -> Vec<String> {
    elements(svg).into_iter().filter(|one| one.0 == "text").map(|one| one.2).collect()
}

#[test]
fn the_heart_rate() {
    let text = fs::read("../examples/heart_rate.txt").expect("the example");
    let read = document(&text).expect("a document");
    let lines = b"outside 1 4\nedge 1 1 2\nedge 2 1 3\nedge 3 1 4\nmember 5 2\nmember 1 3\nmember 2 3\nvalue 1 4 59\n";
    let words = model(&read.vocabulary, lines).expect("a model");
    let svg = picture(read.vocabulary.names(), &words);
    hold(&svg, 4);
    assert_eq!(
        texts(&svg),
        [
            "x1",
            ":purpose",
            ":uses",
            ":storage",
            "x2",
            ":Research",
            "x3",
            ":Data",
            ":HeartRate",
            "x4",
            ":days = 59"
        ]
    );
    let arrows = elements(&svg).into_iter().filter(|one| one.0 == "path").count();
    assert_eq!(arrows, 2 * 3);
}

#[test]
fn no_tree() {
    let lines = b"edge 1 1 2\nedge 2 1 2\nedge 2 1 2\nedge 1 2 1\nedge 1 3 3\nmember 2 3\nvalue 1 3 7\nvalue 1 3 0";
    let words = model(&desk(), lines).expect("a model");
    let svg = picture(desk().names(), &words);
    hold(&svg, 3);
    assert_eq!(
        texts(&svg),
        [
            "x1",
            ":uses, :knows",
            "x2",
            ":uses → x1",
            "x3",
            "&lt;http://x.y/a&amp;b#c&gt;",
            ":days = 0",
            ":days = 7",
            ":uses → x3"
        ]
    );
}

#[test]
fn long_and_odd_names() {
    let name = format!("<http://example.org/{}#Data>", "a".repeat(80));
    let names =
        Names { classes: vec![name.clone(), "\u{1}\"'\u{ffff}".to_owned()], ..Names::default() };
    let words = [1, 1, 0, 0, 0, 1, 1, 1, 0, 2, 1, 2, 1, 0, 3, 1, 9, 1, 0, 0];
    let svg = picture(&names, &words);
    hold(&svg, 1);
    let shown = format!("…{}#Data&gt;", "a".repeat(33));
    assert_eq!(texts(&svg), ["x1", &shown, " \"'\u{fffd}", "class 9"]);
    assert!(svg.contains("<title>&lt;http://example.org/aaaa"));
}

#[test]
fn countermodels_and_any_words() {
    for seed in 0..3_000 {
        let case = Case::any(seed);
        let vocabulary = Vocabulary::of_words(case.v.clone());
        let individuals = case.m.get(1).map_or(1, |&count| count.clamp(1, 512));
        hold(&picture(vocabulary.names(), &case.m), individuals);
        let told = facts(vocabulary.names(), &case.m);
        assert!(told.len() <= case.m.len() / 5);
    }
}

#[test]
fn the_largest_models() {
    let names = desk();
    let tree: String = (2..=512).map(|one| format!("edge 1 {} {one}\n", one / 2)).collect();
    let star: String = (2..=512).map(|one| format!("edge 1 1 {one}\n")).collect();
    let path: String = (2..=512).map(|one| format!("edge 1 {} {one}\n", one - 1)).collect();
    let mut rng = Rng::new(4);
    let mut any = || 1 + rng.below(512);
    let tangle: String = (0..20_000).map(|_| format!("edge 2 {} {}\n", any(), any())).collect();
    for lines in [tree, star, path, tangle] {
        let words = model(&names, lines.as_bytes()).expect("a model");
        hold(&picture(names.names(), &words), words[1]);
    }
}
