//! The stored counts beside the figures, block by block.

use answers::Verdict;

use crate::header::Header;
use crate::width::{for_width, Figure, ForWidth, Width};

/// Short, leaking or sound.
pub(crate) fn compare(header: &Header, image: &[u8], figures: &[Figure]) -> Verdict {
    for_width(header.order, Compare { header, image, figures })
}

struct Compare<'a> {
    header: &'a Header<'a>,
    image: &'a [u8],
    figures: &'a [Figure],
}

impl ForWidth for Compare<'_> {
    type Answer = Verdict;

    fn with<W: Width>(self) -> Verdict {
        let Compare { header, image, figures } = self;
        let mut leaks = 0;
        for (index, figures) in figures.chunks(header.per_block()).enumerate() {
            let at = header.block_at(image, index);
            let block = &image[at..at + header.cluster()];
            let weighed = W::weigh(block, figures);
            if weighed.below {
                let first = index * header.per_block();
                return Verdict::Short((first + first_short::<W>(block, figures)) as u64);
            }
            leaks += weighed.above;
        }
        if leaks == 0 {
            Verdict::Sound
        } else {
            Verdict::Leaks(leaks)
        }
    }
}

/// Counts among which the short one is looked for one by one.
const FEW: usize = 128;

/// The first count below its figure, in a block that has one.
fn first_short<W: Width>(block: &[u8], figures: &[Figure]) -> usize {
    let weighed = |(index, few): &(usize, &[Figure])| {
        let at = ((FEW * index) << W::ORDER) / 8;
        W::weigh(&block[at..], few).below
    };
    let (index, few) = figures.chunks(FEW).enumerate().find(weighed).expect("weighed before");
    let first = FEW * index;
    let short = |k: &usize| W::count(block, first + k) < u16::from_be_bytes(few[*k]).into();
    first + (0..few.len()).find(short).expect("weighed before")
}

/// Sets the first `units` counts that differ from the scratch's figures to them.
/// The image is not damaged: no block lies on another structure, so no store
/// changes what is read later on.
pub(crate) fn store_references(header: &Header, image: &mut [u8], scratch: &[u8], units: u64) {
    let figures = &scratch.as_chunks().0[..header.clusters];
    for_width(header.order, StoreReferences { header, image, figures, left: units });
}

struct StoreReferences<'a> {
    header: &'a Header<'a>,
    image: &'a mut [u8],
    figures: &'a [Figure],
    left: u64,
}

impl ForWidth for StoreReferences<'_> {
    type Answer = ();

    fn with<W: Width>(self) {
        let StoreReferences { header, image, figures, mut left } = self;
        for (index, figures) in figures.chunks(header.per_block()).enumerate() {
            if left == 0 {
                break;
            }
            let at = header.block_at(image, index);
            left -= W::set(&mut image[at..at + header.cluster()], figures, left);
        }
    }
}
