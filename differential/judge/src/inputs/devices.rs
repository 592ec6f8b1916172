//! Makers and models.

use std::sync::LazyLock;

use super::random::Random;
use crate::encoding::Device;

/// Zeros, all ones, both the same, two in either order, and each of the eight bytes by itself.
pub fn cases() -> &'static [Device] {
    static ALL: LazyLock<Vec<Device>> = LazyLock::new(|| {
        let (zeros, ones) = (0, u32::MAX);
        let [some, others] = [*b"appl", [1, 2, 3, 4]].map(u32::from_be_bytes);
        let places = [0, 8, 16, 24].into_iter();
        let bytes = places.flat_map(|place| [1, 0x80, 0xff].map(|byte: u32| byte << place));
        let alone = bytes.flat_map(|word| [(word, 0), (0, word)]);
        let pairs = [
            (zeros, zeros),
            (ones, ones),
            (zeros, ones),
            (ones, zeros),
            (some, some),
            (some, others),
            (others, some),
        ];
        let all = pairs.into_iter().chain(alone);
        all.map(|(maker, model)| Device { maker, model }).collect()
    });
    &ALL
}

/// Any: three in eight are of the cases, in one maker and model are the same.
pub fn any(random: &mut Random) -> Device {
    let (maker, model) = (random.bits32(), random.bits32());
    match random.below(8) {
        0..3 => random.pick(cases()),
        3 => Device {
            maker,
            model: maker,
        },
        _ => Device { maker, model },
    }
}

/// The same, but one in four is zeros.
pub fn or_zeros(random: &mut Random) -> Device {
    match random.below(4) {
        0 => Device::default(),
        _ => any(random),
    }
}
