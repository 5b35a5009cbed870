//! Where the sites' numbers stand: on their sites, or near by with a thin line where sites lie too close together.
//! Places are in pixels from the drawing's upper left corner.

use crate::area::Area;
use crate::lines::Line;
use crate::paint::reach;
use crate::plan::Plan;
use crate::scale::Scale;

type Point = (f64, f64);
type Segment = (Point, Point);

pub const RADIUS: f64 = 7.5;
/// How far numbers may stand outside of the drawing.
pub const MARGIN: f64 = 11.0;
/// Free room around a site's point that no other site's number may cover.
const POINT: f64 = 3.0;
/// Free room between two numbers.
const SPACING: f64 = 1.0;
/// How far from its site a number is tried, and in which directions of each quarter. They are written out, so that
/// every machine places numbers alike.
const DISTANCES: [f64; 13] = [14.0, 17.0, 20.0, 24.0, 29.0, 35.0, 42.0, 50.0, 60.0, 72.0, 86.0, 102.0, 120.0];
const QUARTER: [Point; 6] = [(1.0, 0.0), (0.966, 0.259), (0.866, 0.5), (0.707, 0.707), (0.5, 0.866), (0.259, 0.966)];

/// A site's number: where the site is, and where the number stands.
#[derive(Clone, Copy, Debug)]
pub struct Balloon {
    pub site: Point,
    pub centre: Point,
    pub reach: f64,
}

impl Balloon {
    pub fn area(&self) -> Area {
        Area::around(self.centre, self.reach)
    }

    pub fn is_moved(&self) -> bool {
        self.site != self.centre
    }
}

/// The numbers of all sites, and how many pixels they take right of the drawing and below it.
pub struct Balloons {
    pub places: Vec<Balloon>,
    pub more: f64,
}

/// What numbers have to keep clear of, and what they should not cover.
struct Surroundings {
    points: Vec<Point>,
    strokes: Vec<Segment>,
    room: Area,
}

/// Places all numbers. Where the room is too small it grows, until each has a place.
pub fn place(plan: &Plan, scale: &Scale, width: f64, height: f64) -> Balloons {
    let points = plan.sheet.sites().iter().map(|site| point(scale, site.x, site.y)).collect();
    let room = Area { left: -MARGIN, top: -MARGIN, right: width + MARGIN, bottom: height };
    let mut around = Surroundings { points, strokes: strokes(plan, scale), room };
    let mut more = 0.0;
    loop {
        if let Some(places) = around.place_all(plan) {
            return Balloons { places, more };
        }
        more += 40.0;
        around.room = Area { right: room.right + more, bottom: room.bottom + more, ..room };
    }
}

fn point(scale: &Scale, x: u32, y: u32) -> Point {
    (f64::from(x) * scale.unit_across(), f64::from(y) * scale.unit_down())
}

fn strokes(plan: &Plan, scale: &Scale) -> Vec<Segment> {
    let segment = |line: &Line| (point(scale, line.from.0, line.from.1), point(scale, line.to.0, line.to.1));
    let lines = plan.lines.iter().flat_map(|label| std::iter::once(&label.backbone).chain(&label.drops));
    lines.map(segment).collect()
}

impl Surroundings {
    /// First the sites that have room for their numbers, then the others.
    fn place_all(&self, plan: &Plan) -> Option<Vec<Balloon>> {
        let mut places: Vec<Option<Balloon>> = vec![None; self.points.len()];
        for is_moved in [false, true] {
            for (index, site) in plan.sheet.sites().iter().enumerate() {
                let reach = RADIUS * reach(site.colour);
                if is_moved && places[index].is_none() {
                    places[index] = Some(self.moved(index, reach, &places)?);
                } else if !is_moved {
                    let at_site = Balloon { site: self.points[index], centre: self.points[index], reach };
                    places[index] = self.is_free(index, &at_site, &places).then_some(at_site);
                }
            }
        }
        places.into_iter().collect()
    }

    /// Whether a number overlaps no other, and covers no other site.
    fn is_free(&self, site: usize, balloon: &Balloon, places: &[Option<Balloon>]) -> bool {
        let area = Area::around(balloon.centre, balloon.reach + SPACING);
        let covers = |(other, point): (usize, &Point)| other != site && Area::around(*point, POINT).overlaps(&area);
        !self.points.iter().enumerate().any(covers)
            && !places.iter().flatten().any(|other| other.area().overlaps(&area))
    }

    /// The best free place around a site, or else the nearest free cell of the room.
    fn moved(&self, site: usize, reach: f64, places: &[Option<Balloon>]) -> Option<Balloon> {
        let at = self.points[site];
        let free = |centre: &Point| {
            let balloon = Balloon { site: at, centre: *centre, reach };
            let is_off = !Area::around(at, POINT).overlaps(&balloon.area());
            (is_off && self.room.contains(&balloon.area()) && self.is_free(site, &balloon, places)).then_some(balloon)
        };
        let near = around(at).filter_map(|(far, centre)| free(&centre).map(|found| (far, found)));
        let near = near.map(|(far, found)| (far + self.cost(&found, places), found));
        let best = near.min_by(|one, other| one.0.total_cmp(&other.0)).map(|(_, found)| found);
        let cells = || self.cells(reach).filter_map(|centre| free(&centre));
        let far = |found: &Balloon| (found.centre.0 - at.0).powi(2) + (found.centre.1 - at.1).powi(2);
        best.or_else(|| cells().min_by(|one, other| far(one).total_cmp(&far(other))))
    }

    /// What speaks against a place besides its distance: the strokes that the number and its thin line meet.
    fn cost(&self, balloon: &Balloon, places: &[Option<Balloon>]) -> f64 {
        let line = (balloon.site, balloon.centre);
        let covered = self.strokes.iter().filter(|stroke| meets(&balloon.area(), stroke)).count() as f64;
        let crossed = self.strokes.iter().filter(|stroke| crosses(stroke, &line)).count() as f64;
        let moved = places.iter().flatten().filter(|other| other.is_moved());
        let tangled = moved.filter(|other| crosses(&(other.site, other.centre), &line)).count() as f64;
        let over = places.iter().flatten().filter(|other| passes(&other.area(), &line)).count() as f64;
        14.0 * covered + 5.0 * crossed + 40.0 * (tangled + over)
    }

    /// The room in cells of one number each.
    fn cells(&self, reach: f64) -> impl Iterator<Item = Point> + '_ {
        let step = 2.0 * reach + SPACING;
        let count = |length: f64| (length / step) as usize;
        let (across, down) = (count(self.room.right - self.room.left), count(self.room.bottom - self.room.top));
        let place = move |from: f64, index: usize| from + step * (index as f64 + 0.5);
        (0..down).flat_map(move |row| {
            (0..across).map(move |column| (place(self.room.left, column), place(self.room.top, row)))
        })
    }
}

/// The places that are tried around a point, each with its distance.
fn around((x, y): Point) -> impl Iterator<Item = (f64, Point)> {
    let directions = QUARTER.into_iter().flat_map(|(a, b)| [(a, -b), (-b, -a), (-a, b), (b, a)]);
    directions.flat_map(move |(a, b)| DISTANCES.map(|far| (far, (x + far * a, y + far * b))))
}

/// Whether a stroke, which is level or upright, meets an area.
fn meets(area: &Area, (from, to): &Segment) -> bool {
    let (left, right, top, bottom) = (from.0.min(to.0), from.0.max(to.0), from.1.min(to.1), from.1.max(to.1));
    area.overlaps(&Area { left: left - 0.5, right: right + 0.5, top: top - 0.5, bottom: bottom + 0.5 })
}

/// Whether a thin line, which may slant, passes through an area: nine points of it are looked at.
fn passes(area: &Area, (from, to): &Segment) -> bool {
    let mut points = (0..=8).map(|eighths| along(*from, *to, f64::from(eighths) / 8.0));
    points.any(|point| area.overlaps(&Area::around(point, 0.5)))
}

fn along(from: Point, to: Point, part: f64) -> Point {
    (from.0 + part * (to.0 - from.0), from.1 + part * (to.1 - from.1))
}

/// Whether two lines cross, ends left out.
fn crosses(one: &Segment, other: &Segment) -> bool {
    let side = |line: &Segment, point: Point| {
        let (from, to) = line;
        (to.0 - from.0) * (point.1 - from.1) - (to.1 - from.1) * (point.0 - from.0)
    };
    side(one, other.0) * side(one, other.1) < 0.0 && side(other, one.0) * side(other, one.1) < 0.0
}
