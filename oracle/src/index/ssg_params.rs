// From hora-search/hora at 239bd36669, src/index/ssg_params.rs, Apache-2.0 (see NOTICE). Changed: each change is marked `stand-in` or `local`.
#![allow(dead_code)]

use crate::core::node;

// local: serde is left out

#[derive(Debug)] // local: without serde
pub struct SSGParams<E: node::FloatElement> {
    pub threshold: E, // stand-in (d): the cosine itself, in place of `angle`
    pub init_k: usize,
    pub index_size: usize,
    pub neighbor_neighbor_size: usize,
    // stand-in (d): `root_size` is dropped, roots are given
}

impl<E: node::FloatElement> SSGParams<E> {
    // stand-in (d): in place of `angle`
    pub fn threshold(mut self, new_threshold: f32) -> Self {
        self.threshold = E::from_f32(new_threshold).unwrap();
        self
    }
    pub fn init_k(mut self, new_init_k: usize) -> Self {
        self.init_k = new_init_k;
        self
    }
    pub fn index_size(mut self, new_index_size: usize) -> Self {
        self.index_size = new_index_size;
        self
    }
    pub fn neighbor_neighbor_size(mut self, new_neighbor_neighbor_size: usize) -> Self {
        self.neighbor_neighbor_size = new_neighbor_neighbor_size;
        self
    }
}

impl<E: node::FloatElement> Default for SSGParams<E> {
    fn default() -> Self {
        SSGParams {
            threshold: E::from_f32(0.5).unwrap(), // stand-in (d): in place of `angle` 60
            init_k: 64,                           // local: document 01's default, 100 there
            index_size: 64,                       // local: document 01's default, 100 there
            neighbor_neighbor_size: 100,
        }
    }
}
