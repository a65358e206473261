//! The block interleaver, both ways.

use reference::block as plain;
use reference::noise::Noise;
use yaxopetzo::{block, Refusal};

/// Both ways on both sides, with old bytes in the output.
fn moved(depth: usize, n: usize, from: &[u8], before: &[u8]) -> Result<(), u8> {
    let (mut ours, mut theirs) = (before.to_vec(), before.to_vec());
    let answer = block::spread(depth, n, from, &mut ours).map_err(Refusal::number);
    assert_eq!(answer, plain::spread(depth, n, from, &mut theirs), "J {depth} n {n}");
    assert_eq!(ours, theirs, "J {depth} n {n}");
    let (mut ours, mut theirs) = (before.to_vec(), before.to_vec());
    let back = block::gather(depth, n, from, &mut ours).map_err(Refusal::number);
    assert_eq!(back, plain::gather(depth, n, from, &mut theirs), "J {depth} n {n}");
    assert_eq!(ours, theirs, "J {depth} n {n}");
    assert_eq!(answer, back);
    answer
}

#[test]
fn every_depth_and_size() {
    let mut noise = Noise::new(30);
    for (depth, n) in (1..=16).flat_map(|depth| (3..=255).map(move |n| (depth, n))) {
        let (words, before) = (noise.bytes(depth * n), noise.bytes(depth * n));
        assert_eq!(moved(depth, n, &words, &before), Ok(()));
        let (mut slots, mut again) = (before.clone(), before);
        assert_eq!(block::spread(depth, n, &words, &mut slots), Ok(()));
        assert_eq!(block::gather(depth, n, &slots, &mut again), Ok(()));
        assert_eq!(again, words);
    }
    println!("{} blocks", 2 * 16 * 253);
}

#[test]
fn refused() {
    for depth in [0, 1, 2, 15, 16, 17, 256 + 4, usize::MAX] {
        for n in [0, 2, 3, 4, 254, 255, 256, 256 + 5, usize::MAX] {
            let size = depth.min(20) * n.min(300);
            for (x, y) in [(size, size), (size + 1, size), (size, size + 1), (0, size), (size, 0), (size / 2, size / 2)]
            {
                let _ = moved(depth, n, &vec![1; x], &vec![9; y]);
            }
        }
    }
}
