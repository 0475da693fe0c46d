//! Hardening of the C interface: cases that are drawn from one number each, every call made on them with memory that ends
//! at a page that cannot be touched, and what it gives compared with the independent implementation, counted by answer.

pub mod calls;
pub mod case;
pub mod compare;
pub mod counts;
pub mod mutation;
pub mod plans;
pub mod sheets;
