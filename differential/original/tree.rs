// The modules of the original under their own names. Those marked `allow(warnings)` are the
// supplied sources; the others are stand-ins. build.rs puts this file and the modules in OUT_DIR.

#[allow(warnings)]
pub mod error;
#[allow(warnings)]
pub mod owned_buffer;
pub mod remote;
pub mod types;

pub mod jbp {
    pub mod image {
        pub mod decoder;
        pub mod encoder;
        pub mod facade;
        #[allow(warnings)]
        pub mod interleave;
        #[allow(warnings)]
        pub mod mask;
        #[allow(warnings)]
        pub mod nc_decoder;
        #[allow(warnings)]
        pub mod nc_encoder;
        #[allow(warnings)]
        pub mod types;
    }
}
