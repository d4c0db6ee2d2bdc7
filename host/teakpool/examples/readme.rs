use teakpool::*;

fn main() -> Result<(), Refusal> {
    let (mut book, mut queue) = ([0; 64 * ENTRY_BYTES], [0; 8 * PLACE_BYTES]);
    let mut tracker = Tracker::open(8, &mut book, &mut queue)?;
    tracker.add_path(&[Address::new(1, 7), Address::new(0, 9)])?;
    println!("{:?}", tracker.state());
    Ok(())
}
