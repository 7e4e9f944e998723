//! The units of powers and ticks, where a request gives them, and figures with their units beside.
//! Watts and seconds give joules; of other units the product is told.

/// The unit of powers, and how many of which unit of time a tick is.
#[derive(Clone, Debug, Default, PartialEq, Eq)]
pub struct Units {
    pub power: Option<String>,
    pub tick: Option<(u64, String)>,
}

/// Prefixes by the power of ten that they stand for.
const PREFIXES: [(&str, i32); 7] = [
    ("n", -9),
    ("u", -6),
    ("µ", -6),
    ("μ", -6),
    ("m", -3),
    ("", 0),
    ("k", 3),
];

/// The prefixes with which joules are told, the largest first.
const TOLD: [(&str, i32); 6] = [
    ("k", 3),
    ("", 0),
    ("m", -3),
    ("µ", -6),
    ("n", -9),
    ("p", -12),
];

/// The power of ten before a base unit, as -3 of mW.
fn exponent(unit: &str, base: &str) -> Option<i32> {
    let prefix = unit.strip_suffix(base)?;
    let known = PREFIXES.iter().find(|(known, _)| *known == prefix);
    known.map(|(_, exponent)| *exponent)
}

/// Seconds, as a number and a power of ten.
fn seconds(unit: &str) -> Option<(u64, i32)> {
    match unit {
        "min" => Some((60, 0)),
        "h" => Some((3600, 0)),
        unit => Some((1, exponent(unit, "s")?)),
    }
}

/// A number times a power of ten, exactly, with the largest prefix that leaves something before the
/// point.
fn prefixed(number: u128, exponent: i32, base: &str) -> String {
    let digits = number.to_string().len() as i32;
    let fits = |(_, told): &&(&str, i32)| digits + exponent > *told;
    let smallest = &TOLD[TOLD.len() - 1];
    let (prefix, told) = TOLD.iter().find(fits).unwrap_or(smallest);
    format!("{} {prefix}{base}", decimal(number, exponent - told))
}

/// A number times a power of ten, as a decimal number without zeros at its end.
fn decimal(number: u128, exponent: i32) -> String {
    let digits = number.to_string();
    if exponent >= 0 {
        let zeros = if number == 0 { 0 } else { exponent as usize };
        return digits + &"0".repeat(zeros);
    }
    let places = exponent.unsigned_abs() as usize;
    let digits = format!("{digits:0>width$}", width = places + 1);
    let (whole, part) = digits.split_at(digits.len() - places);
    match part.trim_end_matches('0') {
        "" => whole.to_string(),
        part => format!("{whole}.{part}"),
    }
}

impl Units {
    /// An energy, which is power times ticks.
    pub fn energy(&self, energy: u64) -> String {
        match (&self.power, &self.tick) {
            (None, None) => energy.to_string(),
            (Some(power), None) => format!("{energy} {power} x tick"),
            (None, Some((count, unit))) => format!("{energy} x {count} {unit}"),
            (Some(power), Some((count, unit))) => match self.joules(energy) {
                Some(joules) => format!("{energy} ({joules})"),
                None => format!("{energy} {power} x {count} {unit}"),
            },
        }
    }

    fn joules(&self, energy: u64) -> Option<String> {
        let watts = exponent(self.power.as_ref()?, "W")?;
        let (count, unit) = self.tick.as_ref()?;
        let (number, exponent) = seconds(unit)?;
        let number = u128::from(energy) * u128::from(*count) * u128::from(number);
        Some(prefixed(number, watts + exponent, "J"))
    }

    /// Ticks, and how long they are.
    pub fn ticks(&self, ticks: i64) -> String {
        match self.time(ticks) {
            Some(time) => format!("{ticks} ({time})"),
            None => ticks.to_string(),
        }
    }

    /// How long so many ticks are.
    pub fn time(&self, ticks: i64) -> Option<String> {
        let (count, unit) = self.tick.as_ref()?;
        let sign = if ticks < 0 { "-" } else { "" };
        let number = u128::from(ticks.unsigned_abs()) * u128::from(*count);
        let told = match exponent(unit, "s") {
            Some(exponent) => prefixed(number, exponent, "s"),
            None => format!("{number} {unit}"),
        };
        Some(format!("{sign}{told}"))
    }

    /// What a tick is, as `10 ms`.
    pub fn tick(&self) -> Option<String> {
        let (count, unit) = self.tick.as_ref()?;
        Some(format!("{count} {unit}"))
    }
}

#[cfg(test)]
mod tests {
    use super::*;

    fn units(power: &str, tick: Option<(u64, &str)>) -> Units {
        Units {
            power: (!power.is_empty()).then(|| power.to_string()),
            tick: tick.map(|(count, unit)| (count, unit.to_string())),
        }
    }

    #[test]
    fn watts_and_seconds_are_joules_exactly() {
        let ten = units("mW", Some((10, "ms")));
        assert_eq!(ten.energy(17), "17 (170 µJ)");
        assert_eq!(ten.energy(0), "0 (0 µJ)");
        assert_eq!(ten.energy(123_456_789), "123456789 (1.23456789 kJ)");
        assert_eq!(units("W", Some((1, "h"))).energy(1), "1 (3.6 kJ)");
        assert_eq!(units("uW", Some((1, "min"))).energy(2), "2 (120 µJ)");
        assert_eq!(units("nW", Some((1, "us"))).energy(1), "1 (0.001 pJ)");
        assert_eq!(units("kW", Some((2, "s"))).energy(5_000), "5000 (10000 kJ)");
    }

    #[test]
    fn of_other_units_the_product_is_told() {
        assert_eq!(units("mA", Some((10, "ms"))).energy(7), "7 mA x 10 ms");
        assert_eq!(units("mW", None).energy(7), "7 mW x tick");
        assert_eq!(units("", Some((1, "s"))).energy(7), "7 x 1 s");
        assert_eq!(Units::default().energy(7), "7");
    }

    #[test]
    fn ticks_are_times() {
        let ten = units("", Some((10, "ms")));
        assert_eq!(ten.ticks(4), "4 (40 ms)");
        assert_eq!(ten.ticks(250), "250 (2.5 s)");
        assert_eq!(ten.ticks(-3), "-3 (-30 ms)");
        assert_eq!(units("", Some((5, "min"))).ticks(3), "3 (15 min)");
        assert_eq!(units("mW", None).ticks(3), "3");
    }
}
