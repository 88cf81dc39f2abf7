//! Pictures of a town: as a map in SVG, or in DOT for Graphviz.
//!
//! A picture knows nothing of files and calls: it shows a [`scene::Scene`].

mod cells;
pub mod dot;
mod geometry;
pub mod ink;
mod labels;
mod legend;
mod map;
mod pieces;
pub mod scene;
pub mod shade;
pub mod svg;
