//! Lengths, neighbours and bounds at the ends of key types.
use blaze_int::compare::{is_next, length};
use blaze_int::{Integer, SafeLength, UIntPlusOne, bounds_of, differ, names_a_key};
use demo_keys::{Day, Ipv4, Ipv6, Weekday};
use jiff_core::civil::Date;
use std::ops::Bound;
use std::process::Abort;
use std::test::Fail;

/// Asserts the ends of a type, the key after the least and the key before the greatest, and the length of all keys.
fn check_type<T: Integer>(
    rt: &impl Abort,
    [least, second, last_but_one, greatest]: [T; 4],
    all: T::SafeLen,
) {
    let first = T::min_value();
    first.in_hand();
    assert_eq!(rt; first, least);
    assert_eq!(rt; T::max_value(), greatest);
    assert!(rt; !differ(length(first, T::max_value()), all));
    assert_eq!(rt; least.checked_add_one(), Some(second));
    assert_eq!(rt; last_but_one.checked_add_one(), Some(greatest));
    assert_eq!(rt; greatest.checked_add_one(), None);
}

#[test]
fn keys_of_each_type(rt: HostRuntime) {
    check_type(&rt, [0u8, 1, 254, 255], 256);
    check_type(&rt, [0u16, 1, 65534, 65535], 65536);
    check_type(&rt, [0u32, 1, 4294967294, 4294967295], 4294967296);
    check_type(&rt, [0, 1, u64::MAX - 1, u64::MAX], 18446744073709551616);
    check_type(
        &rt,
        [0, 1, u128::MAX - 1, u128::MAX],
        UIntPlusOne::MaxPlusOne,
    );
    check_type(&rt, [-128i8, -127, 126, 127], 256);
    check_type(&rt, [-32768i16, -32767, 32766, 32767], 65536);
    check_type(
        &rt,
        [-2147483648i32, -2147483647, 2147483646, 2147483647],
        4294967296,
    );
    check_type(
        &rt,
        [i64::MIN, i64::MIN + 1, i64::MAX - 1, i64::MAX],
        18446744073709551616,
    );
    check_type(
        &rt,
        [i128::MIN, i128::MIN + 1, i128::MAX - 1, i128::MAX],
        UIntPlusOne::MaxPlusOne,
    );
    check_type(&rt, ['\0', '\u{1}', '\u{10FFFE}', '\u{10FFFF}'], 1112064);
    assert_eq!(rt; '\u{D7FF}'.checked_add_one(), Some('\u{E000}'));
    assert!(rt; is_next('\u{D7FF}', '\u{E000}'));
}

#[test]
fn keys_of_ones_own(rt: HostRuntime) {
    check_type(
        &rt,
        [Ipv4(0), Ipv4(1), Ipv4(u32::MAX - 1), Ipv4(u32::MAX)],
        4294967296,
    );
    check_type(
        &rt,
        [Ipv6(0), Ipv6(1), Ipv6(u128::MAX - 1), Ipv6(u128::MAX)],
        UIntPlusOne::MaxPlusOne,
    );
    check_type(
        &rt,
        [
            Weekday::Monday,
            Weekday::Tuesday,
            Weekday::Saturday,
            Weekday::Sunday,
        ],
        7,
    );
}

#[test]
fn days_of_the_calendar(rt: HostRuntime) {
    let ends = [
        Date::new(-9999, 1, 1),
        Date::new(-9999, 1, 2),
        Date::new(9999, 12, 30),
        Date::new(9999, 12, 31),
    ];
    if let [Ok(least), Ok(second), Ok(last_but_one), Ok(greatest)] = ends {
        let days = [
            Day::from(least),
            Day::from(second),
            Day::from(last_but_one),
            Day::from(greatest),
        ];
        check_type(&rt, days, 7304484);
    } else {
        assert!(rt; false);
    }
}

#[test]
fn sums_past_the_greatest_u128(rt: HostRuntime) -> Result<(), Fail> {
    let (one, greatest) = (UIntPlusOne::UInt(1), UIntPlusOne::UInt(u128::MAX));
    let all = UIntPlusOne::MaxPlusOne;
    assert_eq!(rt; UIntPlusOne::zero().plus(one), one);
    assert_eq!(rt; greatest.plus(one), all);
    assert_eq!(rt; all.minus(one), greatest);
    assert_eq!(rt; all.minus(UIntPlusOne::zero()), all);
    assert_eq!(rt; all.minus(all), UIntPlusOne::UInt(0));
    assert!(rt; greatest < all);
    assert!(rt; !(all < UIntPlusOne::UInt(0)));
    let text = format!(in rt.alloc(); "{one:?} {all:?}")?;
    assert_eq!(rt; text.as_str(), "UInt(1) MaxPlusOne");
    let text = format!(in rt.alloc(); "{one} {all}")?;
    assert_eq!(rt; text.as_str(), "1 340282366920938463463374607431768211456");
    Ok(())
}

#[test]
fn steps_and_lengths(rt: HostRuntime) {
    assert_eq!(rt; 5u8.add_one(), 6);
    assert_eq!(rt; 'b'.sub_one(), 'a');
    let mut key = 5i128;
    key.assign_sub_one();
    assert_eq!(rt; key, 4);
    assert_eq!(rt; u8::safe_len(&(1..=5)), 5);
    assert_eq!(rt; u128::safe_len(&(1..=5)), UIntPlusOne::UInt(5));
}

#[test]
fn bounds(rt: HostRuntime) {
    assert_eq!(rt; bounds_of::<i8, _>(&(..)), Some((-128, 127)));
    assert_eq!(rt; bounds_of(&(..=5u8)), Some((0, 5)));
    assert_eq!(rt; bounds_of(&(..'\u{E000}')), Some(('\0', '\u{D7FF}')));
    assert_eq!(rt;
        bounds_of(&(Bound::Excluded(-128i8), Bound::Excluded(-126))),
        Some((-127, -127))
    );
    assert_eq!(rt;
        bounds_of(&(Bound::Excluded(5i8), Bound::Excluded(6))),
        None
    );
    assert_eq!(rt;
        bounds_of(&(Bound::Excluded(255u8), Bound::Unbounded)),
        None
    );
    assert!(rt; names_a_key(&(5u8..=5)));
    assert!(rt; !names_a_key(&(..0u8)));
    assert!(rt; !names_a_key(&(9u8..=3)));
    let mut iterated = 5u8..=5;
    assert_eq!(rt; iterated.next(), Some(5));
    assert!(rt; !names_a_key(&iterated));
}
