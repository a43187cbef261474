//! How much stack a call uses: paints the stack below the caller, makes the call, and measures how far the paint was overwritten.
use std::hint::black_box;

/// A call that uses more than this is not measured.
const PAINTED: usize = 1 << 20;
const STACK: usize = 4 * PAINTED;

/// Paints the stack below its caller and returns the lowest painted address.
#[inline(never)]
fn paint(colour: u8) -> usize {
    let mut area = [0u8; PAINTED];
    area.fill(colour);
    black_box(&mut area).as_ptr() as usize
}

/// The lowest address, from the given one up, that is no longer paint.
#[inline(never)]
fn first_changed(lowest: usize, colour: u8) -> usize {
    // The thread's own stack, which stays mapped. The read is volatile, since to the compiler these bytes belong to no object.
    (lowest..)
        .find(|&at| unsafe { std::ptr::read_volatile(at as *const u8) } != colour)
        .unwrap()
}

#[inline(never)]
fn used_with(colour: u8, call: &mut dyn FnMut()) -> usize {
    let here = 0u8;
    let top = black_box(&here) as *const u8 as usize;
    let lowest = paint(colour);
    call();
    let changed = first_changed(lowest, colour);
    assert!(
        changed > lowest,
        "the call uses more stack than was painted"
    );
    top - changed
}

/// The bytes of stack that a call uses, in a thread of its own. Two colours, since a call may itself write a byte of one colour.
pub fn used(mut call: impl FnMut() + Send) -> usize {
    std::thread::scope(|scope| {
        let run = move || {
            [0xA5, 0x5A]
                .map(|colour| used_with(colour, &mut call))
                .into_iter()
                .max()
                .unwrap()
        };
        std::thread::Builder::new()
            .stack_size(STACK)
            .spawn_scoped(scope, run)
            .unwrap()
            .join()
            .unwrap()
    })
}

#[test]
fn an_array_is_counted() {
    let bytes = used(|| _ = black_box(&mut [1u8; 100_000]));
    assert!((100_000..101_000).contains(&bytes), "{bytes}");
}
