//! The program "replay": every record of a stream is carried out and its answer printed.

fn main() -> std::io::Result<()> {
    reference::programs::run(reference::calls::Form::Replay, false)
}
