//! Stand-in for the crate `clarabel`: the names that `normal_form.rs` needs to compile, and nothing behind them.
//! Nothing that is compared uses it. A call of it panics.

pub mod algebra {
    pub struct CscMatrix;

    impl CscMatrix {
        pub fn new(_: usize, _: usize, _: Vec<usize>, _: Vec<usize>, _: Vec<f64>) -> Self {
            unreachable!("the stand-in of clarabel is never run")
        }

        pub fn spalloc(_: (usize, usize), _: usize) -> Self {
            unreachable!("the stand-in of clarabel is never run")
        }
    }
}

pub mod solver {
    use crate::algebra::CscMatrix;
    use std::marker::PhantomData;

    #[derive(Clone, Copy, Debug, PartialEq)]
    pub enum SolverStatus {
        Solved,
    }

    pub enum SupportedConeT {
        ZeroConeT(usize),
        NonnegativeConeT(usize),
    }

    #[derive(Default)]
    pub struct DefaultSettings<T> {
        pub verbose: bool,
        pub of: PhantomData<T>,
    }

    pub struct DefaultSolution<T> {
        pub x: Vec<T>,
        pub z: Vec<T>,
        pub status: SolverStatus,
        pub r_prim: T,
        pub r_dual: T,
    }

    pub struct DefaultSolver<T> {
        pub solution: DefaultSolution<T>,
    }

    impl<T> DefaultSolver<T> {
        pub fn new(
            _: &CscMatrix,
            _: &[T],
            _: &CscMatrix,
            _: &[T],
            _: &[SupportedConeT],
            _: DefaultSettings<T>,
        ) -> Result<Self, String> {
            unreachable!("the stand-in of clarabel is never run")
        }
    }

    pub trait IPSolver {
        fn solve(&mut self);
    }

    impl<T> IPSolver for DefaultSolver<T> {
        fn solve(&mut self) {
            unreachable!("the stand-in of clarabel is never run")
        }
    }
}
