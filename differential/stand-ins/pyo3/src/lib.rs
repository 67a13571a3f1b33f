//! Stand-in for pyo3: what `error.rs` names, without Python.

/// An exception. Nothing looks at it.
pub struct PyErr;

pub mod prelude {
    pub use crate::PyErr;
}

pub mod exceptions {
    use crate::PyErr;

    macro_rules! exception {
        ($($name:ident)*) => {$(
            pub struct $name;

            impl $name {
                pub fn new_err(_: String) -> PyErr {
                    PyErr
                }
            }
        )*};
    }

    exception!(PyIOError PyIndexError PyKeyError PyRuntimeError PyValueError);
}
