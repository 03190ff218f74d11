//! Stands for the crate `h3o_bit`: index work is outside the scope and never called.

pub fn set_base_cell(_bits: u64, _cell: u8) -> u64 {
    unreachable!("index work is outside the scope")
}
