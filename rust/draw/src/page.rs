//! The whole picture: panels side by side, and below them the scale bar and the parts.

use crate::balloons::{self, Balloons};
use crate::column::{Column, SPACING};
use crate::frame::Frame;
use crate::heading::{title, Heading};
use crate::parts::{bar_width, scale_bar, Parts};
use crate::plan::Plan;
use crate::scale::{depth, Limits, Scale, MILLIMETRES_IN_PIXEL};
use crate::text::escape;
use crate::{marks, number, strokes, Options};

/// The room of a drawing that stands alone, and of one beside another.
const ALONE: Limits = Limits { width: 680.0, height: 390.0 };
const BESIDE: Limits = Limits { width: 400.0, height: 330.0 };
/// Left of a drawing, for the numbers of slots.
const LEFT: f64 = 34.0;
/// Right of the last column, and between panels.
const RIGHT: f64 = 14.0;
/// Between a heading and a drawing.
const ABOVE: f64 = 8.0;
/// From the deepest site or slot to the edge below it.
const BELOW: f64 = 14.0;
/// A heading has at least this room.
const LEAST_WIDTH: f64 = 330.0;
const LEAST_HEIGHT: f64 = 40.0;

/// One layout, with a title in place of its numbers and sentences below it; the ties of marked sites stand out.
pub struct Panel<'a> {
    pub plan: &'a Plan,
    pub title: Option<String>,
    pub remarks: Vec<String>,
    pub marked: Vec<usize>,
}

/// What is known of a panel before its place on the page.
struct Measured<'a> {
    panel: &'a Panel<'a>,
    balloons: Balloons,
    column: Column,
    heading: Heading,
    scale: Scale,
    drawing: (f64, f64),
    width: f64,
}

impl<'a> Measured<'a> {
    fn of(panel: &'a Panel<'a>, options: &Options, scale: Scale) -> Measured<'a> {
        let plan = panel.plan;
        let width = f64::from(plan.sheet.width()) * scale.unit_across();
        let height = (f64::from(depth(&plan.sheet)) * scale.unit_down() + BELOW).max(LEAST_HEIGHT);
        let balloons = balloons::place(plan, &scale, width, height);
        let column = Column::of(plan, &options.names, &scale, balloons.more);
        let panel_width = (LEFT + width + column.width() + RIGHT).max(LEAST_WIDTH);
        let heading = Heading::of(panel, panel_width - LEFT - RIGHT);
        let drawing = (width, height + balloons.more);
        Measured { panel, balloons, column, heading, scale, drawing, width: panel_width }
    }

    fn frame(&self, left: f64, top: f64) -> Frame {
        let (width, height) = self.drawing;
        Frame { left: left + LEFT, top, right: left + LEFT + width, bottom: top + height, scale: self.scale }
    }

    fn svg(&self, frame: &Frame, options: &Options) -> String {
        let (plan, places) = (self.panel.plan, &self.balloons.places);
        frame.edge(options.background.as_ref())
            + &self.heading.svg(frame.left)
            + &frame.slots(plan.sheet.slots(), &plan.labels, plan.layout.is_some())
            + &strokes::strokes(plan, frame, &options.names, &self.panel.marked)
            + &self.column.svg(plan, frame)
            + &marks::rings(frame, places, &self.panel.marked)
            + &marks::faults(plan, frame, places)
            + &marks::sites(plan, frame, places, &options.names)
    }

    /// The lowest pixel of drawing and labels.
    fn bottom(&self, frame: &Frame) -> f64 {
        frame.bottom.max(frame.top + self.column.height())
    }
}

/// The whole picture. Its size is in millimetres, and its own unit is a pixel.
pub fn document(panels: &[Panel], options: &Options) -> String {
    let Some(scale) = common_scale(panels, options) else { return String::new() };
    let measured: Vec<Measured> = panels.iter().map(|panel| Measured::of(panel, options, scale)).collect();
    let top = measured.iter().map(|one| one.heading.height()).fold(0.0, f64::max) + ABOVE;
    let (mut left, mut lowest, mut inside) = (0.0, 0.0, String::new());
    for one in &measured {
        let frame = one.frame(left, top);
        inside.push_str(&one.svg(&frame, options));
        lowest = f64::max(lowest, one.bottom(&frame));
        left += one.width;
    }
    let width = left.max(LEFT + bar_width(&scale) + RIGHT);
    let parts = Parts::of(&panels[0].plan.sheet, &options.names, width - LEFT - RIGHT);
    let width = width.max(LEFT + parts.width() + RIGHT);
    inside.push_str(&scale_bar(&scale, LEFT, lowest + 24.0));
    inside.push_str(&parts.svg(LEFT, lowest + 48.0));
    svg(width, lowest + 40.0 + parts.height(), &title(&panels[0]), &inside)
}

/// The scale of all panels, which are of one sheet. Where there are many labels the drawing is higher.
fn common_scale(panels: &[Panel], options: &Options) -> Option<Scale> {
    let limits = if panels.len() > 1 { BESIDE } else { ALONE };
    let labels = panels.iter().map(|panel| panel.plan.labels.len()).max()?;
    let limits = Limits { height: limits.height.max(SPACING * labels as f64), ..limits };
    Some(Scale::of(&panels.first()?.plan.sheet, limits, options.is_stretched))
}

fn svg(width: f64, height: f64, about: &str, inside: &str) -> String {
    let (width, height) = (width.ceil(), height.ceil());
    let millimetres = |pixels: f64| format!("{:.3}mm", pixels * MILLIMETRES_IN_PIXEL);
    format!(
        "<svg xmlns=\"http://www.w3.org/2000/svg\" width=\"{}\" height=\"{}\" viewBox=\"0 0 {} {}\" \
         role=\"img\" aria-label=\"{}\" font-family=\"Helvetica, Arial, 'Liberation Sans', sans-serif\">\n\
         <rect width=\"100%\" height=\"100%\" fill=\"#ffffff\"/>\n{inside}</svg>\n",
        millimetres(width),
        millimetres(height),
        number(width),
        number(height),
        escape(about)
    )
}
