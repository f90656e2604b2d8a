//! The workloads: recipes of examples/, each some 30 million steps long.

pub struct Workload {
    pub name: &'static str,
    pub image: &'static [u8],
}

macro_rules! recipe {
    ($name:literal) => {
        Workload {
            name: $name,
            image: include_bytes!(concat!("../../../examples/", $name, ".bin")),
        }
    };
}

pub const WORKLOADS: [Workload; 6] = [
    recipe!("insertion_sort"),
    recipe!("crc"),
    recipe!("average"),
    recipe!("divide"),
    recipe!("binary_search"),
    recipe!("matrix"),
];
