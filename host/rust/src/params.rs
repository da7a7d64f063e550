//! The parameters of the layout pass.
use std::error::Error;
use std::fmt;

macro_rules! params {
    ($($(#[$doc:meta])* $name:ident: $type:ty = $default:expr,)*) => {
        /// The parameters, by the names that the original layout pass has for them. Lengths named `_xh` are multiples of the x-height. The defaults serve leaves of type
        /// scanned at 300 to 600 dots an inch.
        #[derive(Debug, Clone, Copy, PartialEq)]
        pub struct LayoutParams {
            $($(#[$doc])* pub $name: $type,)*
        }

        impl Default for LayoutParams {
            fn default() -> Self {
                Self { $($name: $default,)* }
            }
        }

        impl LayoutParams {
            /// The names of the parameters, in their order.
            pub const NAMES: [&'static str; 18] = [$(stringify!($name)),*];

            /// Sets a parameter by its name.
            ///
            /// # Errors
            /// Where no parameter has that name, or the text is no number of its type.
            pub fn set(&mut self, name: &str, text: &str) -> Result<(), ParamError> {
                match name {
                    $(stringify!($name) => self.$name = text.parse().map_err(|_| ParamError::Number { name: name.into(), text: text.into() })?,)*
                    _ => return Err(ParamError::Name(name.into())),
                }
                Ok(())
            }

            /// The parameters as lines `name = value`, as [`LayoutParams::from_text`] reads them.
            #[must_use]
            pub fn to_text(&self) -> String {
                let mut text = String::new();
                $(text.push_str(&format!("{} = {}\n", stringify!($name), self.$name));)*
                text
            }
        }
    };
}

params! {
    /// A component of fewer dots is a speck.
    glyph_min_area: u32 = 4,
    /// A glyph's side is under this fraction of the frame's.
    glyph_max_extent_frac: f64 = 0.5,
    /// Components of fewer dots do not count for the x-height.
    xheight_min_area: u32 = 16,
    /// The x-height where none can be measured.
    xheight_fallback_px: f64 = 20.0,
    /// A rule is at least so long ..
    rule_min_len_xh: f64 = 4.0,
    /// .. and at most so thick.
    rule_max_thick_xh: f64 = 0.3,
    /// Thin rulings: the least run that is cut.
    rule_run_xh: f64 = 4.0,
    /// A graphic is so large both ways.
    graphic_min_xh: f64 = 6.0,
    /// The gap that smoothing closes along a row.
    smear_xh: f64 = 1.2,
    /// A line has at least so many glyphs ..
    line_min_glyphs: u32 = 3,
    /// .. and its height lies from this ..
    line_min_height_xh: f64 = 0.5,
    /// .. up to this.
    line_max_height_xh: f64 = 4.0,
    /// Lines of a block share this fraction of the narrower ..
    block_min_overlap: f64 = 0.5,
    /// .. at a gap of the usual one and this more, in line heights ..
    block_gap_margin_lines: f64 = 0.6,
    /// .. and at most this.
    block_max_gap_lines: f64 = 3.0,
    /// Columns are parted by a gap of so much.
    column_gap_xh: f64 = 1.5,
    /// A column is where more than this fraction of the most lines lies.
    column_cover_frac: f64 = 0.1,
    /// A skew below this is not applied.
    shear_min_deg: f64 = 0.05,
}

/// What is wrong with a file of parameters.
#[derive(Debug, Clone, PartialEq, Eq)]
#[non_exhaustive]
pub enum ParamError {
    /// No parameter has this name.
    Name(String),
    /// The text is no number of the parameter's type.
    Number {
        /// The parameter.
        name: String,
        /// The text.
        text: String,
    },
    /// A line is not `name = value`.
    Line(usize),
}

impl fmt::Display for ParamError {
    fn fmt(&self, f: &mut fmt::Formatter<'_>) -> fmt::Result {
        match self {
            Self::Name(name) => write!(f, "there is no parameter `{name}`"),
            Self::Number { name, text } => write!(f, "parameter `{name}`: `{text}` is no number that it can take"),
            Self::Line(n) => write!(f, "line {n} is not `name = value`"),
        }
    }
}

impl Error for ParamError {}

impl LayoutParams {
    /// Reads lines `name = value`; what is not named keeps its default. Empty lines and what stands behind `#` are passed over.
    ///
    /// # Errors
    /// At the first line that cannot be read.
    ///
    /// ```
    /// let params = novlizeb::LayoutParams::from_text("smear_xh = 1.5  # wide setting\nline_min_glyphs = 2")?;
    /// assert_eq!(params.smear_xh, 1.5);
    /// # Ok::<(), Box<dyn std::error::Error>>(())
    /// ```
    pub fn from_text(text: &str) -> Result<Self, ParamError> {
        let mut params = Self::default();
        for (n, line) in text.lines().enumerate() {
            let line = line.split('#').next().unwrap_or_default().trim();
            if line.is_empty() || (line.starts_with('[') && line.ends_with(']')) {
                continue;
            }
            let (name, value) = line.split_once('=').ok_or(ParamError::Line(n + 1))?;
            params.set(name.trim(), value.trim())?;
        }
        Ok(params)
    }
}

#[cfg(test)]
mod tests {
    use super::*;

    #[test]
    fn text_goes_both_ways() {
        let params = LayoutParams { smear_xh: 0.1 + 0.2, glyph_min_area: 7, ..LayoutParams::default() };
        assert_eq!(LayoutParams::from_text(&params.to_text()), Ok(params));
    }

    #[test]
    fn wrong_lines_are_told() {
        assert_eq!(LayoutParams::from_text("a = 1"), Err(ParamError::Name("a".into())));
        assert_eq!(LayoutParams::from_text("\nsmear_xh"), Err(ParamError::Line(2)));
        assert!(LayoutParams::from_text("line_min_glyphs = -1").is_err());
    }
}
