//! The program "minute" of document 01.

fn main() -> std::io::Result<()> {
    reference::programs::run(reference::calls::Form::Minute, false)
}
