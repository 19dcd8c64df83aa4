//! The buffers that the published code is given: plain matrices, borrowed ones, and the weights.

use std::cell::Cell;
use std::rc::Rc;

use crate::float::Float;
use crate::matrix::{AsMatrix, AsMatrixMut, Matrix, MatrixMut, RowMajorSequentialDataMut};

/// The matrix that all buffers but the weights are.
#[derive(Clone, Copy)]
pub struct Grid<T, const ROWS: usize, const COLS: usize>([[T; COLS]; ROWS]);

impl<T: Float, const ROWS: usize, const COLS: usize> Grid<T, ROWS, COLS> {
    pub fn zero() -> Self {
        Grid([[T::ZERO; COLS]; ROWS])
    }

    /// From numbers row by row.
    pub fn from_rows(numbers: &[T]) -> Self {
        let mut grid = Self::zero();
        for i in 0..ROWS {
            for j in 0..COLS {
                grid.0[i][j] = numbers[i * COLS + j];
            }
        }
        grid
    }

    /// Column k: a point, where columns are points.
    pub fn point(&self, k: usize) -> impl Iterator<Item = T> + '_ {
        self.0.iter().map(move |row| row[k])
    }

    pub fn set_point(&mut self, k: usize, point: &[T]) {
        for (row, number) in self.0.iter_mut().zip(point) {
            row[k] = *number;
        }
    }

    /// The numbers row by row.
    pub fn rows(&self) -> Vec<T> {
        self.0.as_flattened().to_vec()
    }

    /// The numbers column by column: a point list, point after point.
    pub fn points(&self) -> Vec<T> {
        (0..COLS).flat_map(|k| self.point(k)).collect()
    }
}

impl<T: Float, const ROWS: usize, const COLS: usize> Matrix<ROWS, COLS, T> for Grid<T, ROWS, COLS> {
    fn get(&self, row: usize, column: usize) -> T {
        self.0[row][column]
    }
}

impl<T: Float, const ROWS: usize, const COLS: usize> MatrixMut<ROWS, COLS, T> for Grid<T, ROWS, COLS> {
    fn set(&mut self, row: usize, column: usize, value: T) {
        self.0[row][column] = value;
    }
}

impl<T: Float, const ROWS: usize, const COLS: usize> RowMajorSequentialDataMut<ROWS, COLS, T> for Grid<T, ROWS, COLS> {
    fn as_mut_slice(&mut self) -> &mut [T] {
        self.0.as_flattened_mut()
    }
}

impl<T: Float, const ROWS: usize, const COLS: usize> AsMatrix<ROWS, COLS, T> for Grid<T, ROWS, COLS> {
    type Target = Self;
    fn as_matrix(&self) -> &Self {
        self
    }
}

impl<T: Float, const ROWS: usize, const COLS: usize> AsMatrixMut<ROWS, COLS, T> for Grid<T, ROWS, COLS> {
    type TargetMut = Self;
    fn as_matrix_mut(&mut self) -> &mut Self {
        self
    }
}

/// A borrowed matrix as a buffer, so that what the published code leaves in its own places can be looked at afterwards.
impl<T: Float, const ROWS: usize, const COLS: usize> AsMatrix<ROWS, COLS, T> for &mut Grid<T, ROWS, COLS> {
    type Target = Grid<T, ROWS, COLS>;
    fn as_matrix(&self) -> &Grid<T, ROWS, COLS> {
        self
    }
}

impl<T: Float, const ROWS: usize, const COLS: usize> AsMatrixMut<ROWS, COLS, T> for &mut Grid<T, ROWS, COLS> {
    type TargetMut = Grid<T, ROWS, COLS>;
    fn as_matrix_mut(&mut self) -> &mut Grid<T, ROWS, COLS> {
        self
    }
}

/// The weights: the published filter keeps them to itself, so a second hand on the same places shows them to us.
#[derive(Clone)]
pub struct Shown<T, const COUNT: usize>(Rc<[Cell<T>; COUNT]>);

impl<T: Float, const COUNT: usize> Shown<T, COUNT> {
    pub fn zero() -> Self {
        Shown(Rc::new(std::array::from_fn(|_| Cell::new(T::ZERO))))
    }
}

impl<T: Float, const COUNT: usize> Matrix<COUNT, 1, T> for Shown<T, COUNT> {
    fn get(&self, row: usize, _column: usize) -> T {
        self.0[row].get()
    }
}

impl<T: Float, const COUNT: usize> MatrixMut<COUNT, 1, T> for Shown<T, COUNT> {
    fn set(&mut self, row: usize, _column: usize, value: T) {
        self.0[row].set(value);
    }
}

impl<T: Float, const COUNT: usize> AsMatrix<COUNT, 1, T> for Shown<T, COUNT> {
    type Target = Self;
    fn as_matrix(&self) -> &Self {
        self
    }
}

impl<T: Float, const COUNT: usize> AsMatrixMut<COUNT, 1, T> for Shown<T, COUNT> {
    type TargetMut = Self;
    fn as_matrix_mut(&mut self) -> &mut Self {
        self
    }
}
