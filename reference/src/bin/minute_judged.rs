//! `minute` with what the contract also asks of an event's call, for the benchmark.

fn main() -> std::io::Result<()> {
    reference::programs::run(reference::calls::Form::Minute, true)
}
