//! The one function of the num library that arm.rs uses, as document 01's
//! section 'Stand-ins' says.

#![forbid(unsafe_code)]
// Spelled as the paper spells it.
#![allow(clippy::manual_clamp)]

/// Below `min` gives `min`, above `max` gives `max`, else the value itself.
pub fn clamp(input: f64, min: f64, max: f64) -> f64 {
    if input < min {
        min
    } else if input > max {
        max
    } else {
        input
    }
}
