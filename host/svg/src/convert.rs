//! The walk over a document: each shape that is filled becomes a draw, and all that cannot be held is told.

use scene::place::MOST_DRAWS;
use scene::{Draw, FillRule, Scene};
use text::Fault;

use crate::affine::{self, Affine};
use crate::clip::Clip;
use crate::ids::Ids;
use crate::length::{share, Length};
use crate::outline::Bounds;
use crate::page::{page, Page};
use crate::paint::{self, Place};
use crate::places;
use crate::problem::Problem;
use crate::shape::{self, SHAPES};
use crate::style::{url, Style};
use crate::xml::{self, Element};

/// What a conversion is asked for.
#[derive(Clone, Copy, Debug, Default, PartialEq, Eq)]
pub struct Options {
    /// The surface in pixels, in place of the document's own size.
    pub size: Option<(u16, u16)>,
    /// R, G, B, A, not premultiplied.
    pub background: [u8; 4],
}

/// The scene of what can be held, and what cannot.
#[derive(Clone, Debug)]
pub struct Converted {
    pub scene: Scene,
    pub problems: Vec<Problem>,
}

/// The scene of an SVG document, or why it has none at all.
pub fn convert(document: &[u8], options: &Options) -> Result<Converted, Problem> {
    let root = xml::read(document)?;
    if root.name != "svg" || !root.is_svg {
        return Err(root.problem("the document is no SVG"));
    }
    let page = page(&root, options.size).map_err(|what| root.problem(what))?;
    let mut walker = Walker {
        ids: Ids::of(&root),
        page,
        scene: Scene::new(page.width, page.height, options.background),
        owners: Vec::new(),
        problems: Vec::new(),
    };
    walker.container(&root, &Context { map: page.map, style: Style::default(), opacity: 1.0, clip: Clip::default() });
    walker.judge(&root)?;
    Ok(Converted { scene: walker.scene, problems: walker.problems })
}

/// What holds where an element stands.
#[derive(Clone)]
struct Context {
    /// From user units to pixels, row 0 at the top.
    map: Affine,
    style: Style,
    opacity: f64,
    clip: Clip,
}

struct Walker<'a> {
    ids: Ids<'a>,
    page: Page,
    scene: Scene,
    /// The element of each draw.
    owners: Vec<&'a Element>,
    problems: Vec<Problem>,
}

/// Elements that say nothing of the picture.
const WORDS: [&str; 3] = ["title", "desc", "metadata"];

/// Elements that are not drawn where they stand.
const UNDRAWN: [&str; 11] = [
    "defs",
    "linearGradient",
    "radialGradient",
    "clipPath",
    "mask",
    "marker",
    "pattern",
    "filter",
    "symbol",
    "view",
    "cursor",
];

impl<'a> Walker<'a> {
    fn tell(&mut self, element: &Element, what: impl Into<String>) {
        self.problems.push(element.problem(what));
    }

    /// A value, or its error told.
    fn told<T>(&mut self, element: &Element, result: Result<T, String>) -> Option<T> {
        result.map_err(|what| self.tell(element, what)).ok()
    }

    /// An element of the picture.
    fn element(&mut self, element: &'a Element, context: &Context) {
        let name = element.name.as_str();
        match name {
            _ if !element.is_svg || WORDS.contains(&name) || UNDRAWN.contains(&name) => {}
            "g" | "a" => self.container(element, context),
            "line" => drop(self.entered(element, context)),
            "style" if element.text.trim().is_empty() => {}
            "style" => self.tell(element, "style sheets cannot be held: only style attributes"),
            _ if SHAPES.contains(&name) => self.shape(element, context),
            _ => self.tell(element, format!("{name} cannot be held")),
        }
    }

    /// A group, or the root.
    fn container(&mut self, element: &'a Element, context: &Context) {
        let context = match self.entered(element, context) {
            None => return,
            Some(context) => context,
        };
        let own_opacity = share(context.style.get("opacity").unwrap_or("1")).unwrap_or(1.0);
        let before = self.scene.draws.len();
        element.children.iter().for_each(|child| self.element(child, &context));
        let shapes = self.scene.draws.len() - before;
        if own_opacity > 0.0 && own_opacity < 1.0 && shapes > 1 {
            self.tell(
                element,
                format!("opacity of a group with {shapes} shapes cannot be held: only of a single shape"),
            );
        }
    }

    /// What holds within an element; none if it is not drawn at all. What of its style cannot be held is told.
    fn entered(&mut self, element: &'a Element, context: &Context) -> Option<Context> {
        let style = context.style.of(element);
        if style.get("display") == Some("none") {
            return None;
        }
        let own = self.told(element, affine::transform(element.attribute("transform").unwrap_or("")))?;
        let map = context.map.after(&own);
        let opacity = share(style.get("opacity").unwrap_or("1"));
        let opacity =
            context.opacity * self.told(element, opacity.map_err(|what| format!("opacity: {what}"))).unwrap_or(1.0);
        self.unheld_properties(element, &style);
        let mut clip = context.clip.clone();
        if let Some(value) = style.get_unless("clip-path", "none") {
            clip = self.clipped(element, value, &clip, &map);
        }
        Some(Context { map, style, opacity, clip })
    }

    /// Tells the properties of an element's own that the format has no place for.
    fn unheld_properties(&mut self, element: &Element, style: &Style) {
        for (name, nothing) in
            [("filter", "none"), ("mask", "none"), ("mix-blend-mode", "normal"), ("transform", "none")]
        {
            if let Some(value) = style.get_unless(name, nothing) {
                self.tell(element, format!("{name} '{value}' cannot be held"));
            }
        }
        if !(SHAPES.contains(&element.name.as_str()) || element.name == "line") || is_hidden(style) {
            return;
        }
        if has_stroke(style) {
            self.tell(element, "stroke cannot be held: make a path of it in the editor");
        }
        for name in ["marker-start", "marker-mid", "marker-end"] {
            if let Some(value) = style.get_unless(name, "none") {
                self.tell(element, format!("{name} '{value}' cannot be held"));
            }
        }
    }

    /// The clip within an element that has a clip path.
    fn clipped(&mut self, element: &'a Element, value: &str, clip: &Clip, map: &Affine) -> Clip {
        let path = url(value).and_then(|(id, _)| self.ids.get(id)).filter(|path| path.name == "clipPath");
        let path = match path {
            Some(path) => path,
            None => {
                self.tell(element, format!("clip-path '{value}' cannot be held: it is no clipPath of this document"));
                return clip.clone();
            }
        };
        let units = match path.attribute("clipPathUnits") {
            Some("objectBoundingBox") => self.bounds_of_shape(element).map(|bounds| bounds.unit_map()),
            _ => Some(Affine::IDENTITY),
        };
        if Style::default().of(path).get_unless("clip-path", "none").is_some() {
            self.tell(element, format!("{}: a clip path of a clip path cannot be held", path.label()));
        }
        match units {
            Some(units) => {
                let (clip, faults) = clip.within(path, &self.page.viewport, &map.after(&units));
                faults.into_iter().for_each(|what| self.tell(element, what));
                clip
            }
            None => {
                self.tell(element, format!("{}: clipPathUnits of this element's bounds cannot be held", path.label()));
                clip.clone()
            }
        }
    }

    /// The bounds of an element that is a shape.
    fn bounds_of_shape(&self, element: &Element) -> Option<Bounds> {
        let is_shape = SHAPES.contains(&element.name.as_str());
        shape::outline(element, &self.page.viewport).ok().filter(|_| is_shape)?.bounds()
    }

    fn shape(&mut self, element: &'a Element, context: &Context) {
        let context = match self.entered(element, context) {
            None => return,
            Some(context) => context,
        };
        for child in element.children.iter().filter(|child| child.is_svg && !WORDS.contains(&child.name.as_str())) {
            self.tell(child, format!("{} within {} cannot be held", child.name, element.name));
        }
        if is_hidden(&context.style) || context.style.get("fill") == Some("none") {
            return;
        }
        let draw = self.draw(element, &context);
        let draw = match self.told(element, draw) {
            Some(Some(draw)) => draw,
            _ => return,
        };
        if self.scene.draws.len() == MOST_DRAWS {
            self.tell(element, "a draw too many: a scene holds 64");
            return;
        }
        self.scene.draws.push(draw);
        self.owners.push(element);
    }

    /// The draw of a shape; none if there is nothing to fill.
    fn draw(&self, element: &Element, context: &Context) -> Result<Option<Draw>, String> {
        let outline = shape::outline(element, &self.page.viewport)?;
        let bounds = match outline.bounds() {
            None => return Ok(None),
            Some(bounds) => bounds,
        };
        let style = &context.style;
        let flip = Affine::new([1.0, 0.0, 0.0, -1.0, 0.0, f64::from(self.page.height)]);
        let fill_opacity =
            share(style.get("fill-opacity").unwrap_or("1")).map_err(|what| format!("fill-opacity: {what}"))?;
        let place = Place {
            ids: &self.ids,
            viewport: self.page.viewport,
            bounds,
            map: flip.after(&context.map),
            opacity: context.opacity * fill_opacity,
        };
        let painted = match paint::fill(style, &place)? {
            None => return Ok(None),
            Some(painted) => painted,
        };
        let placed = places::placed(&outline.mapped(&context.map), self.page.height)?;
        let scissors = context.clip.scissors(self.page.height)?;
        Ok(Some(Draw {
            fill_rule: fill_rule(style)?,
            scissoring: scissors.is_some(),
            scissors: scissors.unwrap_or_default(),
            matrix: placed.matrix,
            path: placed.path,
            ..painted
        }))
    }

    /// What the rules refuse of the scene, at the element that it comes from.
    fn judge(&self, root: &Element) -> Result<(), Problem> {
        match Fault::of(&self.scene.bytes()) {
            None => Ok(()),
            Some(fault) => {
                let owner = self.owners.get(fault.draw as usize).copied().unwrap_or(root);
                Err(owner.problem(fault.to_string()))
            }
        }
    }
}

fn is_hidden(style: &Style) -> bool {
    matches!(style.get("visibility"), Some("hidden" | "collapse"))
}

/// Whether a style draws a stroke.
fn has_stroke(style: &Style) -> bool {
    let zero = Ok(Length::Units(0.0));
    let is_zero = |name: &str| style.get(name).map_or(false, |value| Length::read(value) == zero);
    style.get_unless("stroke", "none").is_some() && !is_zero("stroke-width") && !is_zero("stroke-opacity")
}

fn fill_rule(style: &Style) -> Result<FillRule, String> {
    match style.get("fill-rule") {
        None | Some("nonzero") => Ok(FillRule::NonZero),
        Some("evenodd") => Ok(FillRule::EvenOdd),
        Some(other) => Err(format!("fill-rule '{other}' is not known")),
    }
}
