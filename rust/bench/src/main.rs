//! Speed and stack depth of the proved library beside the reference.
//! `bench stack`: the stack alone.

mod clock;
mod frames;
mod setup;
mod speed;
mod stack;

fn main() {
    if std::env::args().nth(1).as_deref() != Some("stack") {
        speed::print();
    }
    stack::print();
}
