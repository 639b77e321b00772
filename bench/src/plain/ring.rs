//! A ring as people draw it: its points from the lowest on are a shape most often. If they are not, one pass joins
//! what is straight and sees that the ring goes up and then down, always to the left. What fails the pass is looked at
//! again.
use super::corner::{Corner, Edge, cross, dot, edge, is_up};
use super::deliver::{Buffer, deliver_near};
use super::judge::{on_one_floor, some_outside, top};
use super::sweep::MOST_POINTS;
use crate::reply::Numbers;

/// The shape of a ring in either sense, from any corner, closed or open, with repeats and points in line.
#[inline(never)]
pub fn ring(list: &[i32], floor: u32, out: &mut [i32]) -> Numbers {
    let mut answer = Buffer::empty();
    match asked(list, floor, &mut answer) {
        Ok(()) => deliver_near(&answer, floor, out),
        Err(refusal) => refusal,
    }
}

#[inline(always)]
fn asked(list: &[i32], floor: u32, answer: &mut Buffer) -> Result<(), Numbers> {
    let points = admitted(list)?;
    on_one_floor(floor, floor)?;
    let ring = Ring::of(points);
    ring.arrange(answer);
    if top(answer.corners()).is_some() {
        return Ok(());
    }
    *answer = Buffer::empty();
    match ring.corners(answer) {
        Some(()) => Ok(()),
        None => ring.looked_at_again(answer),
    }
}

/// The points without the closing one, or refusal 1, 2 or 3.
#[inline(always)]
fn admitted(list: &[i32]) -> Result<&[Corner], Numbers> {
    let (points, odd) = list.as_chunks::<2>();
    let ([first, ..], []) = (points, odd) else {
        return Err(Numbers::blamed(1, 1));
    };
    let points = match points {
        [_, open @ .., last] if last == first => &points[..=open.len()],
        _ => points,
    };
    if points.len() > MOST_POINTS {
        return Err(Numbers::blamed(2, 1));
    }
    if some_outside(points) {
        return Err(Numbers::blamed(3, 1));
    }
    Ok(points)
}

/// The position of the first of the lowest points.
#[inline(always)]
fn lowest(points: &[Corner]) -> usize {
    let mut lowest = 0;
    for (k, p) in points.iter().enumerate() {
        let best = points[lowest];
        if p[1] < best[1] || (p[1] == best[1] && p[0] < best[0]) {
            lowest = k;
        }
    }
    lowest
}

/// Points on the way round, from the lowest on, in the sense in which the ring turns left there.
struct Ring<'a> {
    points: &'a [Corner],
    lowest: usize,
    clockwise: bool,
}

impl<'a> Ring<'a> {
    #[inline(always)]
    fn of(points: &'a [Corner]) -> Ring<'a> {
        let lowest = lowest(points);
        let (before, after) = (&points[..lowest], &points[lowest..]);
        let low = after[0];
        let other = |p: &&Corner| **p != low;
        let next = after.iter().chain(before).find(other).unwrap_or(&low);
        let last = before.iter().rev().chain(after.iter().rev()).find(other);
        let last = last.unwrap_or(&low);
        let clockwise = cross(edge(*last, low), edge(low, *next)) < 0;
        Ring {
            points,
            lowest,
            clockwise,
        }
    }

    /// Fills in all points.
    #[inline(always)]
    fn arrange(&self, answer: &mut Buffer) {
        let (before, after) = self.points.split_at(self.lowest);
        // SAFETY: there are no more points than corners of a shape.
        let mut push = |p: &Corner| unsafe { answer.push(*p) };
        if self.clockwise {
            push(&after[0]);
            before.iter().rev().for_each(&mut push);
            after[1..].iter().rev().for_each(&mut push);
        } else {
            after.iter().for_each(&mut push);
            before.iter().for_each(&mut push);
        }
    }

    /// Fills in the corners, unless the ring is flat or not convex.
    #[inline(always)]
    fn corners(&self, answer: &mut Buffer) -> Option<()> {
        let (before, after) = self.points.split_at(self.lowest);
        let mut pass = Pass::at(after[0], answer);
        let all = if self.clockwise {
            before
                .iter()
                .rev()
                .chain(after[1..].iter().rev())
                .try_for_each(|p| pass.meet(*p))
        } else {
            after[1..]
                .iter()
                .chain(before)
                .try_for_each(|p| pass.meet(*p))
        };
        all?;
        pass.close(after[0])
    }

    /// A ring that failed the pass: flat, or with refusal 4.
    #[cold]
    #[inline(never)]
    fn looked_at_again(&self, answer: &mut Buffer) -> Result<(), Numbers> {
        let bends = self.bends();
        let n = bends.len();
        let point = |k: usize| self.points[bends[k % n]];
        if n < 3 {
            *answer = Buffer::empty();
            for k in 0..n {
                // SAFETY: these are two at most.
                unsafe { answer.push(point(k)) };
            }
            return Ok(());
        }
        let turns_in = |&k: &usize| {
            let [e, f] = [
                edge(point(k + n - 1), point(k)),
                edge(point(k), point(k + 1)),
            ];
            cross(e, f) <= 0 || (k > 0 && !is_up(e) && is_up(f))
        };
        let inward = (0..n).find(turns_in).unwrap_or(0);
        let [before, corner] = [inward + n - 1, inward].map(|k| bends[k % n]);
        Err(Numbers::broken(1, before, corner))
    }

    /// The positions of all points but repeats and those that the way goes straight on at.
    fn bends(&self) -> Vec<usize> {
        let n = self.points.len();
        let mut places: Vec<usize> = (self.lowest..n).chain(0..self.lowest).collect();
        places.dedup_by_key(|k| self.points[*k]);
        if places.len() > 1 && self.points[places[0]] == self.points[places[places.len() - 1]] {
            places.pop();
        }
        if self.clockwise {
            places[1..].reverse();
        }
        let m = places.len();
        let point = |k: usize| self.points[places[k % m]];
        let is_straight = |&k: &usize| {
            let [e, f] = [
                edge(point(k + m - 1), point(k)),
                edge(point(k), point(k + 1)),
            ];
            cross(e, f) == 0 && dot(e, f) > 0
        };
        let kept = (0..m).filter(|k| !is_straight(k));
        kept.map(|k| places[k]).collect()
    }
}

/// What was passed: the corners before the last point, the edge that leads to it, and whether an edge went down. All of
/// them go strictly to the left.
struct Pass<'a> {
    answer: &'a mut Buffer,
    last: Corner,
    edge: Edge,
    down: bool,
}

impl<'a> Pass<'a> {
    #[inline(always)]
    fn at(lowest: Corner, answer: &'a mut Buffer) -> Pass<'a> {
        Pass {
            answer,
            last: lowest,
            edge: [0, 0],
            down: false,
        }
    }

    /// Goes on to a point, unless it is not to the left or goes up again.
    #[inline(always)]
    fn meet(&mut self, point: Corner) -> Option<()> {
        let next = edge(self.last, point);
        let turn = cross(self.edge, next);
        if turn > 0 {
            // SAFETY: one is pushed for each point at most, and there are no more of them than corners of a shape.
            unsafe { self.answer.push(self.last) };
            let up = is_up(next);
            if self.down && up {
                return None;
            }
            self.down = !up;
            (self.last, self.edge) = (point, next);
            return Some(());
        }
        if turn < 0 {
            return None;
        }
        self.go_straight(point, next)
    }

    /// The same of a point that is the last one again, or straight on; or the first other one.
    #[cold]
    #[inline(never)]
    fn go_straight(&mut self, point: Corner, next: Edge) -> Option<()> {
        if self.edge == [0, 0] && next != [0, 0] {
            // SAFETY: the buffer is empty.
            unsafe { self.answer.push(self.last) };
        } else if dot(self.edge, next) < 0 {
            return None;
        }
        let [e, f] = [self.edge, next];
        (self.last, self.edge) = (point, [e[0] + f[0], e[1] + f[1]]);
        Some(())
    }

    /// Goes back to the lowest point, by an edge that goes down. The edges before it turned by less than a whole turn,
    /// so that it is to the right of the first one.
    #[inline(always)]
    fn close(mut self, lowest: Corner) -> Option<()> {
        self.meet(lowest)?;
        (self.down && self.answer.len() > 2).then_some(())
    }
}
