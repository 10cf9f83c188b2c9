use rlp_proved::{DecoderError, RlpStream, Tree};

fn main() -> Result<(), DecoderError> {
    let mut stream = RlpStream::new();
    stream.begin_unbounded_list().append("cat").append(&1000u16);
    let bytes = stream.finalize_unbounded_list().out()?;
    for field in Tree::new(&bytes)?.root().iter() {
        println!("{field} at {}", field.item().offset);
    }
    if let Err(fault) = Tree::new(&[0xc2, 0x81, 0x05]) {
        println!("{fault}");
    }
    Ok(())
}
