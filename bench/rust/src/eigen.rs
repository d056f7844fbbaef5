//! Eigen's row product, from a shared library that bench/run builds of bench/eigen.cpp.

use std::{ffi::CString, os::raw::c_char};

use crate::networks::Network;

extern "C" {
    fn dlopen(file: *const c_char, flags: i32) -> *mut u8;
    fn dlsym(library: *mut u8, name: *const c_char) -> *mut u8;
}

const RTLD_NOW: i32 = 2;

type MatrixOf = extern "C" fn(i32, *const i32, *const i32, *const f64) -> *const u8;
type ProductOf = extern "C" fn(*const u8, *const f64, *mut f64);

/// The functions of one library.
#[derive(Clone, Copy)]
pub struct Eigen {
    matrix: MatrixOf,
    product: ProductOf,
}

impl Eigen {
    pub fn load(file: &str) -> Option<Self> {
        let file = CString::new(file).ok()?;
        // SAFETY: the library is bench/eigen.cpp, whose functions have these types.
        unsafe {
            let library = dlopen(file.as_ptr(), RTLD_NOW);
            if library.is_null() {
                return None;
            }
            let [matrix, product] = [c"eigen_matrix", c"eigen_product"].map(|name| dlsym(library, name.as_ptr()));
            if matrix.is_null() || product.is_null() {
                return None;
            }
            Some(Self {
                matrix: std::mem::transmute::<*mut u8, MatrixOf>(matrix),
                product: std::mem::transmute::<*mut u8, ProductOf>(product),
            })
        }
    }
}

/// A network as Eigen holds it: row starts and columns of 32 bits.
pub struct Matrix {
    product: ProductOf,
    matrix: *const u8,
    n: usize,
    // What `matrix` refers to.
    _parts: (Vec<i32>, Vec<i32>, Vec<f64>),
}

impl Matrix {
    pub fn new(eigen: Eigen, of: &Network) -> Self {
        let row_ptr: Vec<i32> = of.row_ptr.iter().map(|start| *start as i32).collect();
        let col_idx: Vec<i32> = of.col_idx.iter().map(|column| *column as i32).collect();
        let vals = of.vals.clone();
        Self {
            product: eigen.product,
            matrix: (eigen.matrix)(of.n as i32, row_ptr.as_ptr(), col_idx.as_ptr(), vals.as_ptr()),
            n: of.n,
            _parts: (row_ptr, col_idx, vals),
        }
    }

    pub fn product(&self, src: &[f64], dst: &mut [f64]) {
        assert!(src.len() == self.n && dst.len() == self.n);
        (self.product)(self.matrix, src.as_ptr(), dst.as_mut_ptr());
    }
}
