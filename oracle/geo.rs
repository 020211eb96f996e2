//! Stand-in for `geo`: the published code only uses its pair of coordinates.

#[derive(Clone, Copy, Debug, PartialEq)]
pub struct Coord<T> {
    pub x: T,
    pub y: T,
}
