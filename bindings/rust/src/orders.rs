//! Orders of the rows and columns of symmetric matrices, and factors in these orders.

use crate::error::answer;
use crate::room::zeros;
use crate::shared::Shared;
use crate::{calls, Error, Factorisation, Matrix};

/// An order in which the rows and columns of a symmetric matrix are factored.
///
/// The number at k, from 0, says which row and column comes at k. The fill of the factors, and with it the time and the
/// memory, depends on the order.
#[derive(Clone, Copy, Debug, Default, PartialEq, Eq)]
#[non_exhaustive]
pub enum Order<'a> {
    /// The order of the matrix: 0, 1, 2 and so on.
    #[default]
    Natural,
    /// The approximate minimum degree order (Amestoy, Davis and Duff 1996), with little fill.
    MinimumDegree,
    /// The reverse Cuthill-McKee order (Cuthill and `McKee` 1969, George 1971), with entries close to the diagonal.
    ReverseCuthillMckee,
    /// This permutation.
    Given(&'a [usize]),
}

impl Matrix {
    /// Returns an order of the rows and columns of the matrix. Its pattern is read as the union of itself and its
    /// transpose. A given order is returned as it is.
    ///
    /// # Errors
    ///
    /// [`Error::OutOfMemory`]; [`Error::ShapeMismatch`] if the matrix is not square.
    ///
    /// # Examples
    ///
    /// ```
    /// use nalgebra_sparse_exact::{Matrix, Order};
    ///
    /// // The first row and column have entries everywhere: they come last.
    /// let arrow = Matrix::from_triplets((3, 3), &[0, 0, 0, 1, 2], &[0, 1, 2, 1, 2], &[3, 2, 2, 1, 1])?;
    /// assert_eq!(arrow.order(Order::MinimumDegree)?.last(), Some(&0));
    /// assert_eq!(arrow.order(Order::Natural)?, [0, 1, 2]);
    /// # Ok::<(), nalgebra_sparse_exact::Error>(())
    /// ```
    pub fn order(&self, order: Order<'_>) -> Result<Vec<usize>, Error> {
        let (rows, cols) = self.shape()?;
        if rows != cols {
            return Err(Error::ShapeMismatch);
        }
        let call = match order {
            Order::MinimumDegree => calls::nalgebra_sparse_matrix_minimum_degree,
            Order::ReverseCuthillMckee => calls::nalgebra_sparse_matrix_reverse_cuthill_mckee,
            Order::Natural => return numbers(rows, 0..rows),
            Order::Given(list) => return numbers(list.len(), list.iter().copied()),
        };
        let (mut own, mut list) = (self.handle.second()?, zeros(rows)?);
        // SAFETY: the pointer is that of a slice, with the slice's length after it, and no other call uses the handle.
        answer(unsafe { call(own.pointer(), list.as_mut_ptr(), list.len()) })?;
        Ok(list)
    }

    /// Returns the exact factors `L D L^T` of `P A P^T`, where A is the symmetric matrix of [`Matrix::factor`] and P takes
    /// its rows and columns in an order. They solve `A X = B` itself. Entries below the diagonal have no effect:
    /// [`Matrix::factor_in_order_checked`] tests that the matrix is symmetric.
    ///
    /// # Errors
    ///
    /// [`Error::OutOfMemory`]; [`Error::ShapeMismatch`] if the matrix is not square; for a given order
    /// [`Error::InvalidStructure`] if its length is not the number of rows, and [`Error::IndexOutOfBounds`] or
    /// [`Error::DuplicateEntry`] for the first number that is too large, or that occurs before it; [`Error::Singular`]
    /// if no factorisation exists in this order.
    ///
    /// # Examples
    ///
    /// ```
    /// use nalgebra_sparse_exact::{Error, Matrix, Order};
    ///
    /// // The first pivot of 0 1 / 1 1 has no inverse; in the other order the pivots are 1 and -1.
    /// let a = Matrix::from_triplets((2, 2), &[0, 1], &[1, 1], &[1, 1])?;
    /// assert_eq!(a.factor().err(), Some(Error::Singular));
    /// let factors = a.factor_in_order(Order::Given(&[1, 0]))?;
    /// let mut x = [5, 7];
    /// factors.solve_mut(1, &mut x)?;
    /// assert_eq!((x, factors.order()?), ([2, 5], vec![1, 0]));
    /// # Ok::<(), nalgebra_sparse_exact::Error>(())
    /// ```
    pub fn factor_in_order(&self, order: Order<'_>) -> Result<Factorisation, Error> {
        let computed;
        let list = match order {
            Order::Natural => return self.factor(),
            Order::Given(list) => list,
            _ => {
                computed = self.order(order)?;
                &computed
            }
        };
        let mut own = self.handle.second()?;
        // SAFETY: the pointer is that of a slice, with the slice's length after it; the handles are different, and no
        // other call uses them.
        let made = |out| unsafe {
            calls::nalgebra_sparse_matrix_factor_in_order(own.pointer(), list.as_ptr(), list.len(), out)
        };
        Ok(Factorisation { handle: Shared::made(made)? })
    }
}

impl Factorisation {
    /// Returns the order of the rows and columns of A in which it was factored: the permutation P for which the factors
    /// are those of `P A P^T`.
    ///
    /// # Errors
    ///
    /// [`Error::OutOfMemory`].
    pub fn order(&self) -> Result<Vec<usize>, Error> {
        let (mut size, mut places, mut own) = (0, 0, self.handle.second()?);
        // SAFETY: the pointers are those of two numbers, and no other call uses the handle.
        answer(unsafe { calls::nalgebra_sparse_factors_sizes(own.pointer(), &mut size, &mut places) })?;
        let mut list = zeros(size)?;
        // SAFETY: the pointer is that of a slice, with the slice's length after it, and no other call uses the handle.
        answer(unsafe { calls::nalgebra_sparse_factors_order(own.pointer(), list.as_mut_ptr(), list.len()) })?;
        Ok(list)
    }
}

/// Returns a list of this many numbers.
fn numbers(count: usize, items: impl Iterator<Item = usize>) -> Result<Vec<usize>, Error> {
    let mut list = zeros(count)?;
    list.iter_mut().zip(items).for_each(|(to, item)| *to = item);
    Ok(list)
}
