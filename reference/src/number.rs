//! The numbers that the contents of sound INTEGERs stand for.

/// Below zero.
pub fn is_negative(contents: &[u8]) -> bool {
    contents.first().is_some_and(|&octet| octet >= 0x80)
}

/// Above zero.
pub fn is_positive(contents: &[u8]) -> bool {
    !is_negative(contents) && !magnitude(contents).is_empty()
}

/// The octets of a number that is not negative, without zeros at the front: no octets at all for zero.
pub fn magnitude(contents: &[u8]) -> &[u8] {
    let zeros = contents.iter().take_while(|&&octet| octet == 0).count();
    contents.get(zeros..).unwrap_or(&[])
}

/// How many bits a number that is not negative has.
pub fn bits(contents: &[u8]) -> usize {
    let magnitude = magnitude(contents);
    match magnitude.first() {
        Some(first) => 8 * magnitude.len() - first.leading_zeros() as usize,
        None => 0,
    }
}

pub fn is_odd(contents: &[u8]) -> bool {
    contents.last().is_some_and(|octet| octet & 1 == 1)
}

/// A positive number "from 65,537 to below 2^256−1".
pub fn is_from_65537_to_below_2_to_256_less_1(contents: &[u8]) -> bool {
    let magnitude = magnitude(contents);
    match magnitude.len() {
        0..=2 => false,
        3 => magnitude >= &[0x01, 0x00, 0x01][..],
        4..=31 => true,
        32 => magnitude != [0xFF; 32],
        _ => false,
    }
}

/// "the 133 primes below 752"
pub const PRIMES: [u64; 133] = primes_below_752();

const fn primes_below_752() -> [u64; 133] {
    let mut primes = [0; 133];
    let mut count = 0;
    let mut candidate = 2;
    while candidate < 752 {
        if is_prime(candidate) {
            primes[count] = candidate;
            count += 1;
        }
        candidate += 1;
    }
    primes
}

const fn is_prime(candidate: u64) -> bool {
    let mut divisor = 2;
    while divisor * divisor <= candidate {
        if candidate % divisor == 0 {
            return false;
        }
        divisor += 1;
    }
    candidate >= 2
}

/// Whether a number that is not negative is "divisible by none of the 133 primes below 752".
pub fn is_divisible_by_no_small_prime(contents: &[u8]) -> bool {
    // Three primes below 752 have a product below 2^32: one remainder tells about all three.
    PRIMES.chunks(3).all(|primes| {
        let product = primes.iter().product();
        let rest = remainder(contents, product);
        primes.iter().all(|prime| rest % prime != 0)
    })
}

/// The remainder of a number that is not negative by a divisor from 1 to below 2^32.
fn remainder(contents: &[u8], divisor: u64) -> u64 {
    contents.chunks(4).fold(0, |rest, octets| {
        octets
            .iter()
            .fold(rest, |number, &octet| number << 8 | u64::from(octet))
            % divisor
    })
}

#[cfg(test)]
mod tests {
    use super::*;

    #[test]
    fn signs() {
        assert!(is_negative(&[0x80]));
        assert!(is_negative(&[0xFF, 0x00]));
        assert!(!is_negative(&[0x00]));
        assert!(!is_negative(&[0x00, 0x80]));
        assert!(!is_positive(&[0x00]));
        assert!(!is_positive(&[0x80]));
        assert!(is_positive(&[0x00, 0x80]));
        assert!(is_positive(&[0x7F]));
    }

    #[test]
    fn bits_of_numbers() {
        assert_eq!(bits(&[0x00]), 0);
        assert_eq!(bits(&[0x01]), 1);
        assert_eq!(bits(&[0x00, 0x80]), 8);
        assert_eq!(bits(&[0x01, 0x00]), 9);
    }

    #[test]
    fn exponents() {
        let good = is_from_65537_to_below_2_to_256_less_1;
        assert!(!good(&[0x03]));
        assert!(!good(&[0x01, 0x00, 0x00]));
        assert!(good(&[0x01, 0x00, 0x01]));
        assert!(good(&[0x00, 0x80, 0x00, 0x01]));

        let mut greatest = [0xFF; 33];
        greatest[0] = 0;
        assert!(!good(&greatest));
        greatest[32] = 0xFE;
        assert!(good(&greatest));

        let mut two_to_256 = [0; 33];
        two_to_256[0] = 1;
        assert!(!good(&two_to_256));
    }

    #[test]
    fn the_primes_are_all_133() {
        assert_eq!(PRIMES[0], 2);
        assert_eq!(PRIMES[132], 751);
        assert!(PRIMES.windows(2).all(|pair| pair[0] < pair[1]));
        assert_eq!((2..752).filter(|&number| is_prime(number)).count(), 133);
    }

    #[test]
    fn small_factors_are_found() {
        for prime in PRIMES {
            // prime times (2^61 - 1), which is a prime itself
            let product = u128::from(prime) * ((1 << 61) - 1);
            assert!(!is_divisible_by_no_small_prime(&product.to_be_bytes()));
        }
        let product: u128 = 757 * ((1 << 61) - 1);
        assert!(is_divisible_by_no_small_prime(&product.to_be_bytes()));
        assert!(is_divisible_by_no_small_prime(&[1]));
        assert!(is_divisible_by_no_small_prime(&[0x02, 0xF5]));
        assert!(!is_divisible_by_no_small_prime(&[0x02, 0xEF]));
    }
}
