//! Stand-in for `unicode-segmentation`: the text's util/mod.rs names it in a function that the oracle never calls.

pub trait UnicodeSegmentation {
    fn graphemes(&self, extended: bool) -> std::str::Split<'_, &'static str>;
}

impl UnicodeSegmentation for str {
    fn graphemes(&self, _extended: bool) -> std::str::Split<'_, &'static str> {
        self.split("")
    }
}
