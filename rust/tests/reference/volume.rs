//! The volume in doubles, written from document 02, W-207: whole numbers throughout, but for the
//! product and the sum of each layer.

use super::{Point, MAX_COORDINATE, MAX_REFERENCE};

const MAX_POINTS: usize = 512;

/// The cells of a layer that some point dominates, and how far it runs.
#[derive(Clone, Copy, Debug, PartialEq, Eq)]
pub struct Layer {
    pub area: u64,
    pub height: u64,
}

/// "All are whole; reference 1 to 1,048,576, points 0 to 1,048,576, minus zero as zero."
fn whole(double: f64, least: u64, most: u64) -> Option<u64> {
    // Of what is not whole, negative or no number this makes a whole number that differs from it.
    let number = double as u64;
    (number as f64 == double && (least..=most).contains(&number)).then_some(number)
}

fn point(doubles: &[f64], least: u64, most: u64) -> Option<Point> {
    let number = |axis: usize| whole(doubles[axis], least, most);
    Some([number(0)?, number(1)?, number(2)?])
}

/// "17: length not a multiple of three; 19: a double not as above; 20: more than 512 points; in the
/// order 17, 20, 19."
fn read(reference: [f64; 3], points: &[f64]) -> Result<(Point, Vec<Point>), u64> {
    if points.len() % 3 != 0 {
        return Err(17);
    }
    if points.len() / 3 > MAX_POINTS {
        return Err(20);
    }
    let reference = point(&reference, 1, MAX_REFERENCE).ok_or(19_u64)?;
    let points: Option<Vec<Point>> =
        points.chunks(3).map(|p| point(p, 0, MAX_COORDINATE)).collect();
    Ok((reference, points.ok_or(19_u64)?))
}

/// "The cells of layer z that some point dominates": along the steps of the points that reach it,
/// which are given in ascending x.
fn area(ascending: &[Point], z: u64, [rx, ry, _]: Point) -> u64 {
    let (mut area, mut from, mut least) = (0, 0, ry);
    for &[x, y, _] in ascending.iter().filter(|p| p[2] <= z && p[0] < rx) {
        area += (x - from) * (ry - least);
        (from, least) = (x, least.min(y));
    }
    area + (rx - from) * (ry - least)
}

/// "For each distinct z below the reference, of any point given, ascending"; "the height runs to the
/// next such z, or to the reference."
pub fn layers(reference: Point, points: &[Point]) -> Vec<Layer> {
    let mut ascending = points.to_vec();
    ascending.sort_unstable();
    let mut cuts: Vec<u64> = points.iter().map(|p| p[2]).filter(|&z| z < reference[2]).collect();
    cuts.push(reference[2]);
    cuts.sort_unstable();
    cuts.dedup();
    let layer = |pair: &[u64]| Layer {
        area: area(&ascending, pair[0], reference),
        height: pair[1] - pair[0],
    };
    cuts.windows(2).map(layer).collect()
}

/// "The sum starts at zero"; "the slice's area is multiplied by its height and the product added,
/// each step rounded once." Area and height are doubles as they stand, up to 2^40.
pub fn sum(layers: impl IntoIterator<Item = Layer>) -> f64 {
    let mut sum = 0.0;
    for Layer { area, height } in layers {
        let product = area as f64 * height as f64;
        sum += product;
    }
    sum
}

/// The number of cells that some point dominates.
pub fn cells(layers: &[Layer]) -> u128 {
    layers.iter().map(|layer| u128::from(layer.area) * u128::from(layer.height)).sum()
}

pub fn volume(reference: [f64; 3], points: &[f64]) -> Result<f64, u64> {
    let (reference, points) = read(reference, points)?;
    Ok(sum(layers(reference, &points)))
}
