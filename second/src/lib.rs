//! A second drawing program, written from documents 01 and 02 by membership, and what compares it with the library.
pub mod again;
pub mod case;
pub mod chance;
mod chance_crossing;
mod chance_file;
mod chance_fill;
mod chance_header;
mod chance_picture;
mod chance_rescue;
mod chance_tally;
mod chance_write;
pub mod crossing;
pub mod figure;
pub mod file;
pub mod ground;
pub mod guard;
#[cfg(test)]
mod headers;
pub mod many;
pub mod metres;
pub mod native;
mod native_tally;
pub mod pbm;
pub mod pen;
pub mod pictured;
#[cfg(test)]
mod pictures;
pub mod random;
#[cfg(test)]
mod rectangles;
pub mod repaint;
pub mod rescue;
pub mod rescued;
pub mod rule;
pub mod run;
pub mod tallied;
#[cfg(test)]
mod tallies;
pub mod tally;
pub mod teeth;
pub mod teeth_crossing;
mod teeth_fill;
mod teeth_header;
mod teeth_kept;
mod teeth_pbm;
mod teeth_pixels;
mod teeth_repaint;
mod teeth_rescue;
mod teeth_tally;
mod teeth_write;
pub mod territory;
pub mod watched;
pub mod writer;
