//! What a point would do, between asking and committing.

use crate::{sys, Fate, Point};

/// What a point would do: [`Mesh::ask`](crate::Mesh::ask) gives it, and [`Mesh::commit`](crate::Mesh::commit) takes it.
///
/// ```
/// # fn main() -> Result<(), fithmoul::Refusal> {
/// use fithmoul::{Fate, Mesh, Refusal};
///
/// let mut mesh = Mesh::triangle([[0, 0, 10], [4, 0, 20], [0, 4, 30]])?;
/// let [near, far] = [mesh.ask([1.0, 1.0], [4, 4, 40])?, mesh.ask([1.0, 1.0], [9, 9, 50])?];
/// assert_eq!((near.fate(), near.faces()), (Fate::Added(3), 1));
/// assert_eq!(mesh.vertex_count(), 3); // asking leaves the mesh alone
/// assert_eq!(mesh.commit(near)?.fate(), Fate::Added(3));
/// assert_eq!(mesh.commit(far), Err(Refusal::Quote)); // the mesh has changed since: ask again
/// # Ok(())
/// # }
/// ```
///
/// It cannot be copied, and a commit uses it up, refused or not: what was quoted once is placed once.
///
/// ```compile_fail,E0382
/// # fn main() -> Result<(), fithmoul::Refusal> {
/// # let mut mesh = fithmoul::Mesh::triangle([[0, 0, 10], [4, 0, 20], [0, 4, 30]])?;
/// let quote = mesh.ask([1.0, 1.0], [4, 4, 40])?;
/// mesh.commit(quote)?;
/// mesh.commit(quote)?; // it is used up
/// # Ok(())
/// # }
/// ```
///
/// It holds where asking about the point gives the same change count, fate and faces. A step or a finish leaves the change count alone, and
/// is noticed only where fate or faces are others by then; a run starts it anew, so that a quote from before can meet its count again.
/// After one of these ask again. A quote of another mesh is judged in the same way: where that one would have given it too, it is taken,
/// and does what it says.
#[derive(Debug, PartialEq)]
pub struct Quote {
    /// As the library has them.
    pub(crate) numbers: sys::Quote,
    /// The library's quote names no centre: a commit takes the one that was asked about.
    pub(crate) center: [f64; 2],
    /// The vertices of the mesh that was asked.
    pub(crate) vertices: u32,
}

impl Quote {
    /// What would become of the point. `Added` names the vertex that it would be in the mesh that was asked; where steps in between have
    /// added others it is a later one, which the commit answers.
    pub fn fate(&self) -> Fate {
        Fate::of(self.numbers.fate, self.vertices)
    }

    /// The inner faces that would be added: 0 unless the point would be.
    pub fn faces(&self) -> u64 {
        self.numbers.faces
    }

    /// The point that was asked about.
    pub fn point(&self) -> Point {
        [self.numbers.x, self.numbers.y, self.numbers.z]
    }

    /// The centre that was asked about.
    pub fn center(&self) -> [f64; 2] {
        self.center
    }

    /// The change count of the mesh that was asked.
    pub fn change_count(&self) -> u32 {
        self.numbers.changes
    }
}
