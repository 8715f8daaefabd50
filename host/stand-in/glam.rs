//! A stand-in for the crate of this name: the vectors that the original reads and writes.

macro_rules! vectors {
    ($($name:ident { $($field:ident)* })*) => {$(
        #[derive(Debug, Clone, Copy, PartialEq)]
        pub struct $name { $(pub $field: f32),* }

        impl $name {
            pub fn new($($field: f32),*) -> Self {
                Self { $($field),* }
            }
        }
    )*};
}

vectors! { Vec2 { x y } Vec3 { x y z } Vec4 { x y z w } }
