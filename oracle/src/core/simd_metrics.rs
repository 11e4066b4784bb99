// From hora-search/hora at 239bd36669, src/core/simd_metrics.rs, Apache-2.0 (see NOTICE). Changed: each change is marked `stand-in` or `local`.
use crate::core::calc::same_dimension;
// local: packed_simd is left out

pub trait SIMDOptmized<T = Self> {
    fn dot_product(a: &[T], b: &[T]) -> Result<T, &'static str>;
    fn manhattan_distance(a: &[T], b: &[T]) -> Result<T, &'static str>;
    fn euclidean_distance(a: &[T], b: &[T]) -> Result<T, &'static str>;
}

macro_rules! simd_optimized_impl {
    (  $type_id:ident) => {
        impl SIMDOptmized for $type_id {
            fn dot_product(a: &[$type_id], b: &[$type_id]) -> Result<$type_id, &'static str> {
                assert_eq!(a.len(), b.len());

                // stand-in (a): the branch for the feature "simd" is left out
                {
                    Ok(-(a.iter().zip(b).map(|(p, q)| p * q).sum::<$type_id>()))
                }
            }

            fn manhattan_distance(
                a: &[$type_id],
                b: &[$type_id],
            ) -> Result<$type_id, &'static str> {
                assert_eq!(a.len(), b.len());

                // stand-in (a): the branch for the feature "simd" is left out

                {
                    Ok(a.iter()
                        .zip(b)
                        .map(|(p, q)| (p - q).abs())
                        .sum::<$type_id>())
                }
            }

            fn euclidean_distance(
                a: &[$type_id],
                b: &[$type_id],
            ) -> Result<$type_id, &'static str> {
                same_dimension(a, b)?;

                // stand-in (a): the branch for the feature "simd" is left out
                {
                    // stand-in (a): the fold of document 01, in place of `.map(|(p, q)| (p - q).powi(2)).sum()`
                    Ok(a.iter().zip(b).fold(0.0, |total: $type_id, (p, q)| {
                        let t = p - q;
                        total + t * t
                    }))
                }
            }
        }
    };
}

simd_optimized_impl!(f32); // local: no SIMD types
simd_optimized_impl!(f64); // local: no SIMD types
