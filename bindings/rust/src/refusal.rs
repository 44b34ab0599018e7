//! Why a call was refused.

use std::error::Error;
use std::fmt;

/// A refusal, by its number in the library's table. All but `Pending` leave the mesh as it was.
#[derive(Clone, Copy, Debug, PartialEq, Eq)]
pub enum Refusal {
    /// 1: fewer than 3 or more than 1,000,000 vertices, the mesh's and the points together. Of a bulk load more than 1,000,000 points.
    Count,
    /// 2: a row is too short. This crate never lends one.
    Rows,
    /// 3: a coordinate is out of range; the first such vertex, points counted on after the mesh's. Of a bulk load the index of the first
    /// such point, of a side query 0, 1 or 2.
    Coordinate { vertex: u32 },
    /// 4: the links are no mesh.
    Rules,
    /// 5: a triangle does not turn strictly left; the lowest such face.
    NotLeft { face: u32 },
    /// 6: the centre is not finite, out of range, or a boundary vertex.
    Center,
    /// 7: seen from the centre, the boundary's angles do not go round once, strictly rising, with gaps of at most 3/4 of a turn.
    Ring,
    /// 8: the angle is NaN, below 0.0 or above 1.0.
    Angle,
    /// 9: the pending list is full. In a run and a bulk load the point whose step or insertion it was, or the number of points where the
    /// finish was refused; otherwise 0.
    Pending { point: u32 },
    /// 10: a height, of a vertex or of a point, or a level is outside -1,048,576..1,048,576. It comes straight after 3, and names no vertex.
    Height,
    /// 11: the quote does not hold any more: the mesh's change count is another, or the point would have another fate or other faces. Ask
    /// again.
    Quote,
    /// 12: the mesh's change count is at its end, 4,294,967,295. A run starts it at 0 again, one of no points too.
    Changes,
}

impl Refusal {
    /// Its number in the table.
    pub fn number(self) -> u32 {
        match self {
            Refusal::Count => 1,
            Refusal::Rows => 2,
            Refusal::Coordinate { .. } => 3,
            Refusal::Rules => 4,
            Refusal::NotLeft { .. } => 5,
            Refusal::Center => 6,
            Refusal::Ring => 7,
            Refusal::Angle => 8,
            Refusal::Pending { .. } => 9,
            Refusal::Height => 10,
            Refusal::Quote => 11,
            Refusal::Changes => 12,
        }
    }
}

/// 0 is no refusal's number: crates/fithmoul/specs/Laws.antt.
pub(crate) fn of(number: u32, place: u32) -> Result<(), Refusal> {
    Err(match number {
        0 => return Ok(()),
        1 => Refusal::Count,
        2 => Refusal::Rows,
        3 => Refusal::Coordinate { vertex: place },
        4 => Refusal::Rules,
        5 => Refusal::NotLeft { face: place },
        6 => Refusal::Center,
        7 => Refusal::Ring,
        8 => Refusal::Angle,
        9 => Refusal::Pending { point: place },
        10 => Refusal::Height,
        11 => Refusal::Quote,
        _ => Refusal::Changes,
    })
}

impl fmt::Display for Refusal {
    fn fmt(&self, f: &mut fmt::Formatter<'_>) -> fmt::Result {
        match self {
            Refusal::Count => write!(f, "fewer than 3 or more than 1,000,000 vertices"),
            Refusal::Rows => write!(f, "a row is too short"),
            Refusal::Coordinate { vertex } => {
                write!(f, "vertex {vertex} has a coordinate outside -16,777,216..16,777,216")
            }
            Refusal::Rules => write!(f, "the links are no mesh"),
            Refusal::NotLeft { face } => write!(f, "face {face} does not turn strictly left"),
            Refusal::Center => write!(f, "the centre is not finite, out of range, or a boundary vertex"),
            Refusal::Ring => write!(f, "the boundary does not go round the centre once, strictly"),
            Refusal::Angle => write!(f, "the angle is not from 0.0 to 1.0"),
            Refusal::Pending { point } => write!(f, "the pending list is full at point {point}"),
            Refusal::Height => write!(f, "a height or level is outside -1,048,576..1,048,576"),
            Refusal::Quote => write!(f, "the quote is not what asking gives now"),
            Refusal::Changes => write!(f, "the change count is at its end, 4,294,967,295"),
        }
    }
}

impl Error for Refusal {}
