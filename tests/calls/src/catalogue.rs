//! Requests built from part numbers through the door, held to the oracle's own look-up.

use crate::expected::SHUT;
use crate::{library, outcome, Tester};
use outside::cases::random::Random;
use outside::oracle::catalogue::{built, draw, Call};

const SEED: u64 = 13;
const CALLS: u64 = 15_000;

pub fn test(tester: &mut Tester) {
    for number in 0..CALLS {
        let call = draw(&mut Random::new(SEED, number));
        tester.build(&call);
        if number % 8 == 0 {
            tester.build_shut(&call);
        }
    }
}

impl Tester {
    fn build(&mut self, call: &Call) {
        let file = built(call);
        let needed = file.as_ref().map_or(0, |(_, bytes)| bytes.len());
        let mut after = self.buffers(needed);
        let expected = after.written(&file);
        let tables = call.others.bytes();
        let (lent, result) = (&mut after.lent, &mut after.result);
        let number = library::build(&call.catalogue, &call.wanted, &tables, lent, result);
        let given = [&call.catalogue[..], &call.wanted, &tables].concat();
        self.compare("door_build", &given, expected, outcome(number, after));
    }

    /// Tables of another length or kind, or with a device of their own.
    fn build_shut(&mut self, call: &Call) {
        let mut others = call.others.clone();
        let with_device = self.random.one_in(2);
        if with_device {
            others.tables[0].count = 1;
            others.tables[0].records = vec![vec![1, 0, 5, 0, 1, 0, 3]];
        }
        let mut tables = others.bytes();
        match self.random.within(1, 4) {
            _ if with_device => {}
            1 => tables.push(0),
            2 => drop(tables.pop()),
            3 => tables.truncate(self.random.index(9)),
            _ => tables[0] = self.random.pick(&[0, 2, 3, 255]),
        }
        let mut after = self.buffers(300);
        let expected = after.untouched(SHUT);
        let (lent, result) = (&mut after.lent, &mut after.result);
        let number = library::build(&call.catalogue, &call.wanted, &tables, lent, result);
        self.compare("door_build", &tables, expected, outcome(number, after));
    }
}
