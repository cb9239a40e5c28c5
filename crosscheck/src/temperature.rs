//! Document 01, "Degree days" and "Zone".

use crate::refusal::Refusal;

/// A day's degree days: 0 to 2,600 fortieths of a degree.
pub const MAX_DEGREE_DAYS: i128 = 2_600;

/// Degree days, from tmin ≤ tmax in tenths of a degree (−500 to 600).
pub fn degree_days(tmin: i128, tmax: i128) -> Result<i128, Refusal> {
    let range = -500..=600;
    if !range.contains(&tmin) || !range.contains(&tmax) || tmin > tmax {
        return Err(Refusal::OutOfRange);
    }
    Ok(if tmin >= 150 {
        0
    } else if tmax < 150 {
        2 * (300 - tmin - tmax)
    } else if tmin + tmax > 300 {
        150 - tmin
    } else {
        2 * (150 - tmin) - (tmax - 150)
    })
}

pub fn are_degree_days(days: &[i128]) -> bool {
    days.iter().all(|day| (0..=MAX_DEGREE_DAYS).contains(day))
}

/// An exact fraction; the denominator is above 0.
#[derive(Clone, Copy, Debug, PartialEq, Eq)]
pub struct Fraction {
    pub numerator: i128,
    pub denominator: i128,
}

/// The exact mean of a month's degree days.
pub fn mean(days: &[i128]) -> Fraction {
    Fraction { numerator: days.iter().sum(), denominator: days.len() as i128 }
}

/// The average of the month means of one or two winters.
pub fn mean_of_winters(winters: &[Vec<i128>]) -> Fraction {
    match winters {
        [only] => mean(only),
        [first, second] => {
            let (one, other) = (mean(first), mean(second));
            Fraction {
                numerator: one.numerator * other.denominator + other.numerator * one.denominator,
                denominator: 2 * one.denominator * other.denominator,
            }
        }
        _ => panic!("one or two winters"),
    }
}

/// C_temp1 and C_temp2: (g + 160) / (mean + 160).
pub fn coefficient(g: i128, mean: Fraction) -> Fraction {
    Fraction {
        numerator: (g + 160) * mean.denominator,
        denominator: mean.numerator + 160 * mean.denominator,
    }
}

/// The zone, from hundredths of a degree day (0 to 1,000).
pub fn zone(hundredths: i128) -> Result<i128, Refusal> {
    match hundredths {
        0..=169 => Ok(1),
        170..=239 => Ok(2),
        240..=380 => Ok(3),
        381..=1000 => Ok(4),
        _ => Err(Refusal::OutOfRange),
    }
}

/// The 48 provinces of PD-02 section 1.6, in its order: degree days in hundredths, and the zone
/// under which the section prints them.
pub const PROVINCES: [(&str, i128, i128); 48] = [
    ("A Coruña", 144, 1),
    ("Alicante", 117, 1),
    ("Almería", 56, 1),
    ("Cádiz", 36, 1),
    ("Castellón", 118, 1),
    ("Córdoba", 139, 1),
    ("Huelva", 85, 1),
    ("Baleares", 117, 1),
    ("Málaga", 59, 1),
    ("Murcia", 103, 1),
    ("Sevilla", 82, 1),
    ("Valencia", 164, 1),
    ("Asturias", 182, 2),
    ("Badajoz", 180, 2),
    ("Barcelona", 184, 2),
    ("Bizkaia", 200, 2),
    ("Cáceres", 220, 2),
    ("Cantabria", 178, 2),
    ("Gipuzkoa", 215, 2),
    ("Jaén", 200, 2),
    ("Ourense", 221, 2),
    ("Pontevedra", 196, 2),
    ("Tarragona", 200, 2),
    ("Albacete", 330, 3),
    ("Ciudad Real", 275, 3),
    ("Cuenca", 364, 3),
    ("Girona", 250, 3),
    ("Granada", 279, 3),
    ("Huesca", 352, 3),
    ("La Rioja", 314, 3),
    ("Lleida", 295, 3),
    ("Lugo", 360, 3),
    ("Madrid", 318, 3),
    ("Navarra", 352, 3),
    ("Toledo", 267, 3),
    ("Zaragoza", 264, 3),
    ("Araba", 402, 4),
    ("Ávila", 474, 4),
    ("Burgos", 506, 4),
    ("Guadalajara", 523, 4),
    ("León", 492, 4),
    ("Palencia", 517, 4),
    ("Salamanca", 423, 4),
    ("Segovia", 427, 4),
    ("Soria", 525, 4),
    ("Teruel", 431, 4),
    ("Valladolid", 405, 4),
    ("Zamora", 414, 4),
];

/// Value and zone of a province, numbered from 1.
pub fn province(number: i128) -> Result<(i128, i128), Refusal> {
    if !(1..=PROVINCES.len() as i128).contains(&number) {
        return Err(Refusal::OutOfRange);
    }
    let (_, value, zone) = PROVINCES[number as usize - 1];
    Ok((value, zone))
}

#[cfg(test)]
mod tests {
    use super::*;

    #[test]
    fn every_province_lies_in_the_zone_of_its_value() {
        for (name, value, printed) in PROVINCES {
            assert_eq!(zone(value), Ok(printed), "{name}");
        }
    }

    #[test]
    fn degree_days_run_from_0_to_2600() {
        for tmin in -500..=600 {
            for tmax in tmin..=600 {
                assert!(are_degree_days(&[degree_days(tmin, tmax).unwrap()]));
            }
        }
        assert_eq!(degree_days(-500, -500), Ok(MAX_DEGREE_DAYS));
    }
}
