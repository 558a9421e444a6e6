//! Stand-in for u_numflow, of which the reference uses `IntervalSet` alone. The crate was not at hand:
//! this follows the rules, "Calendar time", where the set is a set of whole milliseconds.
//!
//! The reference is timed with it, so it is no dearer than it must be: a sorted vector for each set, made
//! with one allocation (none for an empty set), merged in place, and cut by bisection.

pub mod collections {
    /// A set of whole numbers: ordered, disjoint, non-empty half-open stretches that do not touch.
    #[derive(Debug, Clone, Default, PartialEq, Eq)]
    pub struct IntervalSet<T> {
        stretches: Vec<(T, T)>,
    }

    /// A pair whose start lies after its end.
    #[derive(Debug)]
    pub struct Reversed;

    impl IntervalSet<i64> {
        /// The empty set.
        pub fn new() -> Self {
            Self {
                stretches: Vec::new(),
            }
        }

        /// The union of the pairs, each read as start..end without its end.
        pub fn from_intervals(
            pairs: impl IntoIterator<Item = (i64, i64)>,
        ) -> Result<Self, Reversed> {
            let pairs = pairs.into_iter();
            let mut stretches = Vec::with_capacity(pairs.size_hint().1.unwrap_or(0));
            for (s, e) in pairs {
                if s > e {
                    return Err(Reversed);
                }
                if s < e {
                    stretches.push((s, e));
                }
            }
            stretches.sort_unstable();
            stretches.dedup_by(|next, last| {
                let meets = next.0 <= last.1;
                if meets {
                    last.1 = last.1.max(next.1);
                }
                meets
            });
            Ok(Self { stretches })
        }

        /// What of the set lies in start..end.
        pub fn clip(&self, start: i64, end: i64) -> Result<Self, Reversed> {
            if start >= end {
                return if start > end {
                    Err(Reversed)
                } else {
                    Ok(Self::new())
                };
            }
            let from = self.stretches.partition_point(|x| x.1 <= start);
            let to = self.stretches.partition_point(|x| x.0 < end);
            let mut stretches = self.stretches[from..to.max(from)].to_vec();
            if let Some(first) = stretches.first_mut() {
                first.0 = first.0.max(start);
            }
            if let Some(last) = stretches.last_mut() {
                last.1 = last.1.min(end);
            }
            Ok(Self { stretches })
        }

        /// The numbers in both sets.
        pub fn intersection(&self, other: &Self) -> Self {
            match (&self.stretches[..], &other.stretches[..]) {
                ([], _) | (_, []) => return Self::new(),
                (_, &[(start, end)]) => return self.clip(start, end).expect("start below end"),
                (&[(start, end)], _) => return other.clip(start, end).expect("start below end"),
                _ => {}
            }
            let (mut i, mut j) = (0, 0);
            let mut stretches = Vec::with_capacity(self.stretches.len() + other.stretches.len());
            while i < self.stretches.len() && j < other.stretches.len() {
                let (a, b) = (self.stretches[i], other.stretches[j]);
                let (s, e) = (a.0.max(b.0), a.1.min(b.1));
                if s < e {
                    stretches.push((s, e));
                }
                if a.1 <= b.1 {
                    i += 1;
                } else {
                    j += 1;
                }
            }
            Self { stretches }
        }

        /// The numbers of this set that are not in the other.
        pub fn difference(&self, other: &Self) -> Self {
            if self.stretches.is_empty() || other.stretches.is_empty() {
                return self.clone();
            }
            let mut stretches = Vec::with_capacity(self.stretches.len() + other.stretches.len());
            let mut j = 0;
            for &(start, end) in &self.stretches {
                let mut s = start;
                while j < other.stretches.len() && other.stretches[j].1 <= s {
                    j += 1;
                }
                let mut k = j;
                while k < other.stretches.len() && other.stretches[k].0 < end {
                    let (bs, be) = other.stretches[k];
                    if s < bs {
                        stretches.push((s, bs));
                    }
                    s = s.max(be);
                    k += 1;
                }
                if s < end {
                    stretches.push((s, end));
                }
            }
            Self { stretches }
        }

        /// The stretches in order.
        pub fn iter(&self) -> impl Iterator<Item = (i64, i64)> + '_ {
            self.stretches.iter().copied()
        }

        /// How many numbers the set holds. They lie apart, so that 64 bits hold the sum.
        pub fn measure(&self) -> u128 {
            let lengths = self.stretches.iter().map(|&(s, e)| e.abs_diff(s));
            u128::from(lengths.sum::<u64>())
        }
    }

    #[cfg(test)]
    mod tests {
        use super::IntervalSet;

        /// Numbers that follow from a seed, 0 to 11.
        fn numbers(seed: u64) -> impl FnMut() -> i64 {
            let mut state = seed.wrapping_mul(0x9E37_79B9_7F4A_7C15) | 1;
            move || {
                state ^= state << 13;
                state ^= state >> 7;
                state ^= state << 17;
                ((state >> 33) % 12) as i64
            }
        }

        fn pairs(next: &mut impl FnMut() -> i64) -> Vec<(i64, i64)> {
            (0..next() % 5)
                .map(|_| (next(), next()))
                .map(|(a, b)| (a.min(b), a.max(b)))
                .collect()
        }

        fn holds(pairs: &[(i64, i64)], x: i64) -> bool {
            pairs.iter().any(|&(s, e)| s <= x && x < e)
        }

        #[test]
        fn every_operation_is_the_sets_number_by_number() {
            for seed in 1..20_000 {
                let mut next = numbers(seed);
                let (a, b) = (pairs(&mut next), pairs(&mut next));
                let (lo, hi) = (next(), next());
                let set =
                    |p: &[(i64, i64)]| IntervalSet::from_intervals(p.iter().copied()).unwrap();
                let (sa, sb) = (set(&a), set(&b));
                let both: Vec<_> = sa.intersection(&sb).iter().collect();
                let less: Vec<_> = sa.difference(&sb).iter().collect();
                for x in -1..13 {
                    let all: Vec<_> = sa.iter().collect();
                    assert_eq!(holds(&all, x), holds(&a, x));
                    assert_eq!(holds(&both, x), holds(&a, x) && holds(&b, x));
                    assert_eq!(holds(&less, x), holds(&a, x) && !holds(&b, x));
                    if let Ok(cut) = sa.clip(lo, hi) {
                        let cut: Vec<_> = cut.iter().collect();
                        assert_eq!(holds(&cut, x), holds(&a, x) && lo <= x && x < hi);
                    }
                }
                assert_eq!(sa.clip(lo, hi).is_err(), lo > hi);
                assert_eq!(IntervalSet::from_intervals([(lo, hi)]).is_err(), lo > hi);
                assert_eq!(
                    sa.measure(),
                    (-1..13).filter(|&x| holds(&a, x)).count() as u128
                );
                let cut = sa.clip(lo.min(hi), hi).unwrap();
                for s in [&sa, &sa.intersection(&sb), &sa.difference(&sb), &cut] {
                    let list: Vec<_> = s.iter().collect();
                    assert!(
                        list.iter().all(|(s, e)| s < e) && list.windows(2).all(|w| w[0].1 < w[1].0)
                    );
                }
            }
        }
    }
}
