// Times the library against plain safe Rust that does the same work on an image of levels, side by side in one run.
use std::hint::black_box;
use std::time::Instant;

const BLOCK: usize = 512;
const BYTES: usize = 64 * BLOCK;
const ROWS: usize = 64 * 31;

// The work in plain Rust. WORDS says how the check is computed: eight bytes at a time, or byte by byte.
mod plain {
    use super::BLOCK;

    fn check_of<const WORDS: bool>(block: &[u8]) -> [u8; 8] {
        let words = block[..504].chunks_exact(8);
        if WORDS {
            let mut check = 0;
            for word in words {
                check ^= u64::from_le_bytes(word.try_into().unwrap());
            }
            return check.to_le_bytes();
        }
        let mut check = [0; 8];
        for word in words {
            for (c, b) in check.iter_mut().zip(word) {
                *c ^= b;
            }
        }
        check
    }

    fn pack(level: u16) -> [u8; 16] {
        let mut bytes = [0; 16];
        bytes[..2].copy_from_slice(&level.to_le_bytes());
        bytes
    }

    // The level, or the place of the first byte that no level has.
    fn unpack(bytes: &[u8]) -> Result<u16, usize> {
        match bytes[2..16].iter().position(|&b| b != 0) {
            Some(k) => Err(k + 2),
            None => Ok(u16::from_le_bytes([bytes[0], bytes[1]])),
        }
    }

    fn check_block<const WORDS: bool>(block: &[u8], place: u16) -> Result<(), u32> {
        if u16::from_le_bytes([block[0], block[1]]) != place {
            return Err(15);
        }
        if block[2] != 1 {
            return Err(16);
        }
        if block[3..8] != [0; 5] {
            return Err(17);
        }
        if check_of::<WORDS>(block) != block[504..] {
            return Err(18);
        }
        for (k, row) in block[8..504].chunks_exact(16).enumerate() {
            if unpack(row).is_err() {
                return Err(19 + 65_536 * k as u32);
            }
        }
        Ok(())
    }

    #[inline(never)]
    pub fn check<const WORDS: bool>(image: &[u8]) -> u32 {
        if image.len() % BLOCK != 0 || !(1..=64).contains(&(image.len() / BLOCK)) {
            return 14;
        }
        for (q, block) in image.chunks_exact(BLOCK).enumerate() {
            if let Err(fault) = check_block::<WORDS>(block, q as u16) {
                return fault + 256 * q as u32;
            }
        }
        0
    }

    // The mark stands while the row is written; then the block is closed.
    fn write_row<const WORDS: bool>(block: &mut [u8], k: usize, bytes: &[u8; 16]) {
        block[3] = 1;
        let row = &mut block[8 + 16 * k..][..16];
        if row != bytes {
            row.copy_from_slice(bytes);
        }
        block[3] = 0;
        let check = check_of::<WORDS>(block);
        block[504..].copy_from_slice(&check);
    }

    fn rows_in(image: &[u8]) -> usize {
        (image.len() / BLOCK).min(64) * 31
    }

    fn write_level<const WORDS: bool>(image: &mut [u8], n: usize, level: u16) -> bool {
        if n >= rows_in(image) {
            return false;
        }
        write_row::<WORDS>(&mut image[BLOCK * (n / 31)..][..BLOCK], n % 31, &pack(level));
        true
    }

    #[inline(never)]
    pub fn write<const WORDS: bool>(image: &mut [u8], numbers: &[u16]) -> usize {
        let mut accepted = 0;
        for (n, &number) in numbers.iter().enumerate() {
            if write_level::<WORDS>(image, n, number) {
                accepted += 1;
            }
        }
        accepted
    }

    fn read_level(image: &[u8], n: usize) -> Option<u16> {
        if n >= rows_in(image) {
            return None;
        }
        let at = BLOCK * (n / 31) + 8 + 16 * (n % 31);
        Some(unpack(&image[at..at + 16]).unwrap_or(0))
    }

    #[inline(never)]
    pub fn read(image: &[u8], numbers: &mut [u16]) -> usize {
        let mut got = 0;
        for (n, number) in numbers.iter_mut().enumerate() {
            if let Some(level) = read_level(image, n) {
                *number = level;
                got += 1;
            }
        }
        got
    }
}

mod library {
    extern "C" {
        fn plot_image_check(bytes: *const u8, length: usize, kind: u32) -> u32;
        fn bench_write_levels(image: *mut u8, length: usize, numbers: *const u16, count: usize) -> usize;
        fn bench_read_levels(image: *mut u8, length: usize, numbers: *mut u16, count: usize) -> usize;
    }

    pub fn check(image: &[u8]) -> u32 {
        unsafe { plot_image_check(image.as_ptr(), image.len(), 1) }
    }

    pub fn write(image: &mut [u8], numbers: &[u16]) -> usize {
        unsafe { bench_write_levels(image.as_mut_ptr(), image.len(), numbers.as_ptr(), numbers.len()) }
    }

    pub fn read(image: &mut [u8], numbers: &mut [u16]) -> usize {
        unsafe { bench_read_levels(image.as_mut_ptr(), image.len(), numbers.as_mut_ptr(), numbers.len()) }
    }
}

// An image of 64 blocks with every level 0.
fn new_image() -> Vec<u8> {
    let mut image = vec![0; BYTES];
    for (q, block) in image.chunks_exact_mut(BLOCK).enumerate() {
        block[0] = q as u8;
        block[2] = 1;
    }
    plain::write::<false>(&mut image, &[0; ROWS]);
    image
}

// All sides give the same answer to the check of this image, and read the same levels from it.
fn same_answers(image: &mut [u8], count: usize) {
    let answer = plain::check::<false>(image);
    assert_eq!(answer, plain::check::<true>(image));
    assert_eq!(answer, library::check(image));
    let before = image.to_vec();
    let (mut ours, mut theirs) = (vec![7; count], vec![7; count]);
    assert_eq!(library::read(image, &mut ours), plain::read(image, &mut theirs));
    assert_eq!(ours, theirs);
    assert_eq!(image, before);
}

// All sides give the same bytes and answers, on images of several lengths and on damaged ones.
fn same_results(numbers: &[u16]) {
    let mut images = [new_image(), new_image(), new_image()];
    assert_eq!(library::check(&images[0]), 0);
    for length in [0, 511, 512, 1023, 1024, BYTES] {
        for count in [0, 1, 31, 40, ROWS, ROWS + 9] {
            let some: Vec<u16> = numbers.iter().cycle().take(count).copied().collect();
            let [ours, bytes, words] = &mut images;
            let accepted = library::write(&mut ours[..length], &some);
            assert_eq!(accepted, plain::write::<false>(&mut bytes[..length], &some));
            assert_eq!(accepted, plain::write::<true>(&mut words[..length], &some));
            assert!(ours == bytes && ours == words);
            same_answers(&mut ours[..length], count);
        }
    }
    // One bit changed, and then the check of its block made to fit.
    for at in 0..BYTES {
        let mut image = images[0].clone();
        image[at] ^= 1 << (at % 7);
        same_answers(&mut image, ROWS);
        image[at / BLOCK * BLOCK + 504 + at % 8] ^= 1 << (at % 7);
        same_answers(&mut image, ROWS);
    }
    println!("all sides give the same bytes and answers");
}

struct Buffers {
    image: Vec<u8>,
    numbers: Vec<u16>,
    others: Vec<u16>,
    levels: Vec<u16>,
}

type Side = fn(&mut Buffers) -> usize;

// The nanoseconds of one call, over enough calls for the clock.
fn time(side: Side, buffers: &mut Buffers) -> f64 {
    const CALLS: u32 = 20;
    let start = Instant::now();
    for _ in 0..CALLS {
        black_box(side(black_box(buffers)));
    }
    start.elapsed().as_nanos() as f64 / f64::from(CALLS)
}

// The sides in turn on the same buffers, after a warm-up; the best of the runs counts. A call does `units` of the work.
fn compare(work: &str, units: usize, buffers: &mut Buffers, sides: [Side; 3]) {
    for side in sides {
        time(side, buffers);
    }
    let mut best = [f64::INFINITY; 3];
    for _ in 0..50 {
        for (best, side) in best.iter_mut().zip(sides) {
            *best = best.min(time(side, buffers) / units as f64);
        }
    }
    let [ours, bytes, words] = best;
    println!("{work:<34} {ours:>9.1} {bytes:>9.1} {:>7.2} {words:>9.1} {:>7.2}", ours / bytes, ours / words);
}

fn main() {
    let numbers: Vec<u16> = (0..ROWS).map(|n| (n * 40_503 % 65_536) as u16).collect();
    same_results(&numbers);

    let others = numbers.iter().map(|n| !n).collect();
    let mut buffers = Buffers { image: new_image(), numbers, others, levels: vec![0; ROWS] };
    let b = &mut buffers;
    library::write(&mut b.image, &b.numbers);
    println!("{:<34} {:>9} {:>9} {:>7} {:>9} {:>7}", "nanoseconds for", "library", "by bytes", "ratio", "by words", "ratio");
    compare("checking an image of 64 blocks", 1, b, [
        |b| library::check(&b.image) as usize,
        |b| plain::check::<false>(&b.image) as usize,
        |b| plain::check::<true>(&b.image) as usize,
    ]);
    compare("writing a row that differs", 2 * ROWS, b, [
        |b| library::write(&mut b.image, &b.others) + library::write(&mut b.image, &b.numbers),
        |b| plain::write::<false>(&mut b.image, &b.others) + plain::write::<false>(&mut b.image, &b.numbers),
        |b| plain::write::<true>(&mut b.image, &b.others) + plain::write::<true>(&mut b.image, &b.numbers),
    ]);
    compare("writing a row that is there already", ROWS, b, [
        |b| library::write(&mut b.image, &b.numbers),
        |b| plain::write::<false>(&mut b.image, &b.numbers),
        |b| plain::write::<true>(&mut b.image, &b.numbers),
    ]);
    compare("reading a row", ROWS, b, [
        |b| library::read(&mut b.image, &mut b.levels),
        |b| plain::read(&b.image, &mut b.levels),
        |b| plain::read(&b.image, &mut b.levels),
    ]);
}
