//! The compiled library beside an evaluator of its own, written from the documents. (Of its matching rule, N6, the engine's definition had been seen before.)

pub mod compare;
pub mod engine;
pub mod evaluator;
pub mod faults;
pub mod generate;
pub mod library;
pub mod numbers;
pub mod random;
pub mod worlds;
