//! Stands for the crate `log` with no logger set: each macro checks its arguments and writes nothing.

#[macro_export]
macro_rules! silent {
    ($($text:tt)*) => {
        if false {
            let _ = format_args!($($text)*);
        }
    };
}

#[macro_export]
macro_rules! error {
    ($($text:tt)*) => { $crate::silent!($($text)*) };
}

#[macro_export]
macro_rules! debug {
    ($($text:tt)*) => { $crate::silent!($($text)*) };
}

#[macro_export]
macro_rules! trace {
    ($($text:tt)*) => { $crate::silent!($($text)*) };
}
