//! Stand-in for `format_num`: the value without its format. Only displays use it, and the oracle
//! prints none of them.

#[macro_export]
macro_rules! format_num {
    ($format:literal, $value:expr) => {
        format!("{}", $value)
    };
}
