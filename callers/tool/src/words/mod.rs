pub mod check;
pub mod make;
pub mod order;
pub mod show;
