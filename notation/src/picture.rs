//! A model as a picture. Individual 1 stands at the top left, and whom a role reaches stands to the
//! right: a countermodel is a tree. Each individual has a band of the picture for itself and all to
//! whom its arrows lead, so that nothing lies over anything else.

use crate::model::{name, records, Fact, MOST_INDIVIDUALS};
use crate::names::Names;
use std::collections::{BTreeMap, BTreeSet, VecDeque};
use std::fmt::Write as _;

// Lengths are in pixels.
const FONT: usize = 13;
/// A little over the width of a letter, in a font whose letters are all of one width.
const LETTER: usize = 8;
const LINE: usize = 18;
const HEAD: usize = 24;
const PADDING: usize = 8;
const GAP: usize = 16;
const ARROW: usize = 8;
/// The letters of a name that are shown. The whole name comes up where the pointer rests on it.
const LONGEST: usize = 40;

/// A model as an SVG: individuals as boxes with their classes and values in them, roles as arrows.
/// The head of individual 1 is dark. One arrow leads to an individual, from where it is reached first;
/// another way to it is a line in the box that it leaves, such as ":knows → x1".
///
/// Any words give a picture. Let the proved library accept them first.
#[must_use]
pub fn picture(names: &Names, countermodel: &[u32]) -> String {
    Picture::of(names, countermodel).draw()
}

/// A line in a box, or what is written at an arrow.
#[derive(Clone)]
struct Label {
    shown: String,
    /// All of it, where not all is shown.
    whole: Option<String>,
}

impl Label {
    /// Of a long name the end is shown: the ends of IRIs differ.
    fn new(text: String) -> Self {
        let length = text.chars().count();
        if length <= LONGEST {
            return Self { shown: text, whole: None };
        }
        let end = text.chars().skip(length + 1 - LONGEST);
        Self { shown: std::iter::once('…').chain(end).collect(), whole: Some(text) }
    }

    fn and(mut self, more: &str) -> Self {
        self.shown += more;
        self.whole = self.whole.map(|whole| whole + more);
        self
    }

    fn width(&self) -> usize {
        LETTER * self.shown.chars().count()
    }

    fn draw(&self, x: usize, y: usize, svg: &mut String) {
        let title = self
            .whole
            .as_ref()
            .map_or_else(String::new, |whole| format!("<title>{}</title>", escaped(whole)));
        let _ = writeln!(svg, "<text x=\"{x}\" y=\"{y}\">{title}{}</text>", escaped(&self.shown));
    }
}

/// What XML allows in a text.
fn escaped(text: &str) -> String {
    let mut safe = String::new();
    for letter in text.chars() {
        match letter {
            '&' => safe.push_str("&amp;"),
            '<' => safe.push_str("&lt;"),
            '>' => safe.push_str("&gt;"),
            '\0'..=' ' => safe.push(' '),
            '\u{fffe}' | '\u{ffff}' => safe.push('\u{fffd}'),
            _ => safe.push(letter),
        }
    }
    safe
}

/// An individual, and where it stands. Others are told by place, from 0.
#[derive(Default)]
struct Individual {
    lines: Vec<Label>,
    arrows: Vec<(usize, Label)>,
    /// How many arrows lead to it, one after another.
    column: usize,
    top: usize,
    /// The height of its box and of all to whom its arrows lead.
    band: usize,
}

impl Individual {
    fn width(&self) -> usize {
        let head = LETTER * "x512".len();
        self.lines.iter().map(Label::width).fold(head, usize::max) + 2 * PADDING
    }

    fn height(&self) -> usize {
        match self.lines.len() {
            0 => HEAD,
            lines => HEAD + LINE * lines + PADDING,
        }
    }
}

/// The sides of the boxes of a column.
#[derive(Clone, Copy, Default)]
struct Column {
    left: usize,
    right: usize,
}

struct Picture {
    individuals: Vec<Individual>,
    /// All of them, each behind the one whose arrow leads to it.
    order: Vec<usize>,
    columns: Vec<Column>,
    width: usize,
    height: usize,
}

/// The roles by which one individual reaches others.
type Reached = BTreeMap<usize, Vec<Label>>;

impl Picture {
    fn of(names: &Names, model: &[u32]) -> Self {
        let count = model.get(1).map_or(1, |&count| count.clamp(1, MOST_INDIVIDUALS)) as usize;
        let mut picture = Self {
            individuals: (0..count).map(|_| Individual::default()).collect(),
            order: Vec::new(),
            columns: Vec::new(),
            width: 0,
            height: 0,
        };
        let reached = picture.fill(names, model);
        picture.lead(&reached);
        picture.place_columns();
        picture.place_bands();
        picture
    }

    /// Puts classes and values into the boxes; gives what each reaches.
    fn fill(&mut self, names: &Names, model: &[u32]) -> Vec<Reached> {
        let count = self.individuals.len();
        let place = |one: u32| (one as usize).checked_sub(1).filter(|&place| place < count);
        let mut reached = vec![Reached::new(); count];
        let facts: BTreeSet<Fact> = records(model).into_iter().collect();
        for fact in facts {
            match fact {
                Fact::Member(class, one) => {
                    let Some(one) = place(one) else { continue };
                    let class = Label::new(name(&names.classes, "class", class));
                    self.individuals[one].lines.push(class);
                }
                Fact::Value(feature, one, value) => {
                    let Some(one) = place(one) else { continue };
                    let feature = Label::new(name(&names.features, "feature", feature));
                    self.individuals[one].lines.push(feature.and(&format!(" = {value}")));
                }
                Fact::Edge(role, one, other) => {
                    let (Some(one), Some(other)) = (place(one), place(other)) else { continue };
                    let role = Label::new(name(&names.roles, "role", role));
                    reached[one].entry(other).or_default().push(role);
                }
            }
        }
        reached
    }

    /// Draws an arrow to each individual that can be reached, the nearest first.
    fn lead(&mut self, reached: &[Reached]) {
        let count = self.individuals.len();
        let mut is_there = vec![false; count];
        let mut waiting = VecDeque::new();
        for root in 0..count {
            if !is_there[root] {
                is_there[root] = true;
                waiting.push_back(root);
            }
            while let Some(one) = waiting.pop_front() {
                self.order.push(one);
                for (&other, roles) in &reached[one] {
                    if is_there[other] {
                        let number = other + 1;
                        let ways =
                            roles.iter().map(|role| role.clone().and(&format!(" → x{number}")));
                        self.individuals[one].lines.extend(ways);
                    } else {
                        is_there[other] = true;
                        waiting.push_back(other);
                        self.individuals[other].column = self.individuals[one].column + 1;
                        self.individuals[one].arrows.push((other, joined(roles)));
                    }
                }
            }
        }
    }

    fn place_columns(&mut self) {
        let count = self.individuals.iter().map(|one| one.column + 1).max().unwrap_or(0);
        let mut widths = vec![(0, 0); count];
        for one in &self.individuals {
            let (widest, label) = &mut widths[one.column];
            *widest = one.width().max(*widest);
            *label = one.arrows.iter().map(|arrow| arrow.1.width()).fold(*label, usize::max);
        }
        let mut left = GAP;
        for (widest, label) in widths {
            let right = left + widest;
            self.columns.push(Column { left, right });
            self.width = right + GAP;
            left = right + GAP + PADDING + label + PADDING + ARROW;
        }
    }

    fn place_bands(&mut self) {
        for &one in self.order.iter().rev() {
            let arrows = &self.individuals[one].arrows;
            let bands =
                arrows.iter().map(|arrow| self.individuals[arrow.0].band + GAP).sum::<usize>();
            let individual = &mut self.individuals[one];
            individual.band = individual.height().max(bands.saturating_sub(GAP));
        }
        self.height = GAP;
        for place in 0..self.order.len() {
            let one = self.order[place];
            if self.individuals[one].column == 0 {
                self.individuals[one].top = self.height;
                self.height += self.individuals[one].band + GAP;
            }
            let mut top = self.individuals[one].top;
            for arrow in 0..self.individuals[one].arrows.len() {
                let other = self.individuals[one].arrows[arrow].0;
                self.individuals[other].top = top;
                top += self.individuals[other].band + GAP;
            }
        }
    }

    fn draw(&self) -> String {
        let Self { width, height, .. } = self;
        let count = self.individuals.len();
        let many = if count == 1 { "individual" } else { "individuals" };
        // By half a pixel, so that a line of one pixel falls on pixels.
        let mut svg = format!(
            "<svg xmlns=\"http://www.w3.org/2000/svg\" width=\"{width}\" height=\"{height}\" \
             viewBox=\"-.5 -.5 {width} {height}\" font-family=\"monospace\" font-size=\"{FONT}\">\n\
             <title>A model of {count} {many}</title>\n\
             <rect x=\"-.5\" y=\"-.5\" width=\"{width}\" height=\"{height}\" fill=\"#fff\"/>\n"
        );
        for (one, number) in self.individuals.iter().zip(1..) {
            self.draw_box(one, number, &mut svg);
            for (other, label) in &one.arrows {
                self.draw_arrow(one, &self.individuals[*other], label, &mut svg);
            }
        }
        svg.push_str("</svg>\n");
        svg
    }

    fn draw_box(&self, one: &Individual, number: usize, svg: &mut String) {
        let (x, y) = (self.columns[one.column].left, one.top);
        let (width, height) = (one.width(), one.height());
        let [head, letters] = if number == 1 { ["#1f3a5f", "#fff"] } else { ["#dde4ec", "#111"] };
        let _ = writeln!(
            svg,
            "<rect x=\"{x}\" y=\"{y}\" width=\"{width}\" height=\"{HEAD}\" fill=\"{head}\"/>\n\
             <rect x=\"{x}\" y=\"{y}\" width=\"{width}\" height=\"{height}\" fill=\"none\" stroke=\"#1f3a5f\"/>\n\
             <text x=\"{}\" y=\"{}\" fill=\"{letters}\" font-weight=\"bold\">x{number}</text>",
            x + PADDING,
            y + LINE - 1,
        );
        for (line, place) in one.lines.iter().zip(1..) {
            line.draw(x + PADDING, y + HEAD + LINE * place - 3, svg);
        }
    }

    /// From the head of one box to the head of another: right, down and right.
    fn draw_arrow(&self, one: &Individual, other: &Individual, label: &Label, svg: &mut String) {
        let column = self.columns[one.column];
        let [from, to] = [one, other].map(|end| end.top + HEAD / 2);
        let (start, bend) = (column.left + one.width(), column.right + GAP);
        let tip = self.columns[other.column].left;
        let _ = writeln!(
            svg,
            "<path d=\"M{start} {from}H{bend}V{to}H{}\" fill=\"none\" stroke=\"#1f3a5f\"/>\n\
             <path d=\"M{tip} {to}l-{ARROW} -4v8z\" fill=\"#1f3a5f\"/>",
            tip - ARROW,
        );
        label.draw(bend + PADDING, to - 5, svg);
    }
}

/// Several roles that reach the same individual share an arrow.
fn joined(roles: &[Label]) -> Label {
    match roles {
        [one] => one.clone(),
        _ => {
            let whole = |role: &Label| role.whole.clone().unwrap_or_else(|| role.shown.clone());
            Label::new(roles.iter().map(whole).collect::<Vec<_>>().join(", "))
        }
    }
}
