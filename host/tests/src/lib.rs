//! Tests of the C interface (`host/include/sps.h`) against an independent implementation written from the
//! specification's sentences.
#![cfg(test)]

// What the tests are made of.
mod calls;
mod ffi;
mod lent;
mod random;
mod reference;

// The tests, by subject.
mod boards;
mod entrywise;
mod labels;
mod laws;
mod pages;
mod panelshow;
mod partition_calls;
mod recipes;
mod refusals;
mod scope;
mod subset_product;
mod table_files;
mod union_xor;
