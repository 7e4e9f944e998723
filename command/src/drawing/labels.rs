//! Labels beside what is too narrow to have them inside: in a row, next to where they belong, and never
//! over each other.

/// A label that is wanted: where its middle should be, and how wide it is.
#[derive(Clone, Copy, Debug)]
pub struct Wanted {
    pub middle: f64,
    pub width: f64,
}

/// Where the middles of labels come to be, which are given from left to right: as near to where they
/// should be as the others allow, between these two ends. What finds no place is left out.
pub fn placed(wanted: &[Wanted], left: f64, right: f64) -> Vec<Option<f64>> {
    let mut room = right - left;
    let fits = |label: &Wanted| {
        let is_room = label.width <= room;
        room -= if is_room { label.width } else { 0.0 };
        is_room
    };
    let kept: Vec<bool> = wanted.iter().map(fits).collect();
    let mut middles = vec![None; wanted.len()];
    // To the right of what stands before, then to the left of the end.
    let mut from = left;
    for place in (0..wanted.len()).filter(|&place| kept[place]) {
        let Wanted { middle, width } = wanted[place];
        let at = middle.max(from + width / 2.0);
        from = at + width / 2.0;
        middles[place] = Some(at);
    }
    let mut to = right;
    for place in (0..wanted.len()).rev() {
        let width = wanted[place].width;
        if let Some(at) = middles[place].as_mut() {
            *at = at.min(to - width / 2.0);
            to = *at - width / 2.0;
        }
    }
    middles
}

#[cfg(test)]
mod tests {
    use super::*;

    fn wanted(middles: &[f64]) -> Vec<Wanted> {
        let label = |&middle: &f64| Wanted {
            middle,
            width: 10.0,
        };
        middles.iter().map(label).collect()
    }

    #[test]
    fn labels_that_have_room_stay_where_they_belong() {
        let places = placed(&wanted(&[10.0, 30.0, 80.0]), 0.0, 100.0);
        assert_eq!(places, [Some(10.0), Some(30.0), Some(80.0)]);
    }

    #[test]
    fn labels_never_lie_over_each_other() {
        for middles in [
            &[10.0, 11.0, 12.0][..],
            &[95.0, 97.0, 99.0],
            &[0.0, 0.0, 50.0, 99.0, 99.0],
        ] {
            let places: Vec<f64> = placed(&wanted(middles), 0.0, 100.0)
                .into_iter()
                .flatten()
                .collect();
            assert_eq!(places.len(), middles.len());
            assert!(
                places.windows(2).all(|pair| pair[1] - pair[0] >= 10.0),
                "{places:?}"
            );
            assert!(
                places[0] >= 5.0 && places[places.len() - 1] <= 95.0,
                "{places:?}"
            );
        }
    }

    #[test]
    fn what_finds_no_place_is_left_out() {
        let places = placed(&wanted(&[5.0, 6.0, 7.0]), 0.0, 25.0);
        assert_eq!(places, [Some(5.0), Some(15.0), None]);
    }
}
