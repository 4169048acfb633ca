use hpsdr::{frames, Samples, Status};
use std::io;

fn main() -> io::Result<()> {
    let (mut status, mut samples, mut peaks) = (Status::fresh(), Samples::fresh(), [0; 3]);
    for frame in frames(io::stdin()) {
        if let Err(refusal) = status.read_frame(&frame?, 3, &mut samples) {
            println!("refused: {refusal}");
            continue;
        }
        for (peak, receiver) in peaks.iter_mut().zip(samples.by_receiver()) {
            *peak = receiver.fold(*peak, |peak, (i, q)| peak.max(i.abs()).max(q.abs()));
        }
    }
    println!("{peaks:?}");
    Ok(())
}
