//! Stand-in for `tabled`: a log table that shows nothing. Document 01 leaves loggers out.

pub struct Table;

impl Table {
    pub fn with<S>(self, _style: S) -> Self {
        self
    }
}

impl std::fmt::Display for Table {
    fn fmt(&self, _: &mut std::fmt::Formatter<'_>) -> std::fmt::Result {
        Ok(())
    }
}

pub mod builder {
    #[derive(Default)]
    pub struct Builder;

    impl Builder {
        pub fn set_header<H>(&mut self, _header: H) {}

        pub fn push_record<R>(&mut self, _record: R) {}

        pub fn build(self) -> crate::Table {
            crate::Table
        }
    }
}

pub mod settings {
    pub struct Style;

    impl Style {
        pub fn rounded() -> Self {
            Style
        }

        pub fn modern() -> Self {
            Style
        }

        pub fn horizontals<L>(self, _lines: L) -> Self {
            self
        }

        pub fn get_horizontal(self) -> style::Line {
            style::Line
        }
    }

    pub mod style {
        pub struct Line;

        pub struct HorizontalLine;

        impl HorizontalLine {
            pub fn new(_row: usize, _line: Line) -> Self {
                HorizontalLine
            }
        }
    }
}
