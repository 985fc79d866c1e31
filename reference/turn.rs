//! A stack turned over, by document 02, P8: upside down, or with left and right reversed.

use crate::reader::Stack;

/// The strips reversed with their windows, the channels with their floors, and the two edges of every channel exchanged.
pub fn upside_down(stack: &Stack) -> Stack {
    let mut turned = stack.clone();
    turned.lengths.reverse();
    turned.windows.reverse();
    turned.channels.reverse();
    turned.floors.reverse();
    turned.channels.iter_mut().flatten().for_each(|pair| *pair = (pair.1, pair.0));
    turned
}

/// Every terminal counted from the other end of its strip, the pairs in the order in which they then rise; floors and windows stay.
pub fn with_ends_reversed(stack: &Stack) -> Stack {
    let mut turned = stack.clone();
    for (channel, lengths) in turned.channels.iter_mut().zip(stack.lengths.windows(2)) {
        channel.reverse();
        channel.iter_mut().for_each(|pair| *pair = (lengths[0] - pair.0, lengths[1] - pair.1));
    }
    turned
}

/// The stack with left and right reversed, or None if a strip is held: the spread's two sides would exchange too, but a window is counted from its left.
pub fn left_to_right(stack: &Stack) -> Option<Stack> {
    let free = stack.windows.iter().all(Option::is_none);
    free.then(|| with_ends_reversed(stack))
}
