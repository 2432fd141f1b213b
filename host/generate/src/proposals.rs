//! Rectangles proposed for a redraw, good and bad: x, y, width, height for each.

use crate::Random;

/// A proposal for a surface of this size whose redrawn area is `area`: a few disjoint rectangles over the area or over
/// more, two times in five spoiled in one way or another.
pub fn proposal(random: &mut Random, width: u16, height: u16, area: [i32; 4]) -> Vec<i32> {
    let surface = [0, 0, i32::from(width), i32::from(height)];
    let over = if area[2] == 0 || random.once_in(4) { surface } else { widened(random, area, surface) };
    let mut rectangles = vec![over];
    for _ in 0..random.range(0, 3) {
        let whole = rectangles.swap_remove(random.index(rectangles.len()));
        rectangles.extend(parts(random, whole));
    }
    let mut numbers = rectangles.concat();
    if random.range(0, 4) < 2 {
        spoil(random, &mut numbers);
    }
    numbers
}

/// A rectangle round `area` and in `surface`, often the area itself.
fn widened(random: &mut Random, area: [i32; 4], surface: [i32; 4]) -> [i32; 4] {
    let [x, y, w, h] = area;
    let mut by = |room: i32| if random.once_in(3) { random.range(0, room) } else { 0 };
    let (left, low) = (by(x), by(y));
    let (right, high) = (by(surface[2] - x - w), by(surface[3] - y - h));
    [x - left, y - low, w + left + right, h + low + high]
}

/// The two parts of a rectangle that is cut, or the rectangle where it is too small.
fn parts(random: &mut Random, [x, y, w, h]: [i32; 4]) -> Vec<[i32; 4]> {
    if random.once_in(2) && w > 1 {
        let cut = random.range(1, w - 1);
        vec![[x, y, cut, h], [x + cut, y, w - cut, h]]
    } else if h > 1 {
        let cut = random.range(1, h - 1);
        vec![[x, y, w, cut], [x, y + cut, w, h - cut]]
    } else {
        vec![[x, y, w, h]]
    }
}

/// One number moved, at times far, or one too few or too many; a rectangle twice, gone, or empty; none at all.
fn spoil(random: &mut Random, numbers: &mut Vec<i32>) {
    let at = random.index(numbers.len());
    let rectangle = numbers[at / 4 * 4..at / 4 * 4 + 4].to_vec();
    match random.range(0, 9) {
        0..=2 => numbers[at] += random.pick(&[-1, 1]),
        3 => numbers[at] = random.pick(&[0, -1, i32::MIN, i32::MIN + 1, i32::MAX, i32::MAX - 1, 1_024, 1_025]),
        4 => numbers[at] = random.bits() as i32,
        5 => numbers.truncate(at),
        6 => numbers.push(random.range(0, 3)),
        7 => numbers.extend(rectangle),
        8 => drop(numbers.drain(at / 4 * 4..at / 4 * 4 + 4)),
        _ => numbers.extend([0, 0, 1, 1, 0, 0, 1, 1, 0, 0, 1, 1, 0, 0, 1, 1]),
    }
}
