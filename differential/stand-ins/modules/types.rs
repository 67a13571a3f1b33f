//! Stand-in for `crate::types`: the names that `jbp/image/types.rs` answers with.

pub enum PixelType {
    UInt8,
    UInt16,
    UInt32,
    Int8,
    Int16,
    Int32,
    Float32,
    Float64,
}
