//! The papers' own cases, and each coding against its words.

use plain::fields as at;
use plain::least::list;
use plain::registers as reg;
use plain::{check, codes, gamma, play, put_house, read, refusal, signal, subcarrier};
use plain::{house, PlanAnswer, ALL_KNOWN, NO_LIMIT};

/// An even address.
const ADDRESS: u32 = 0x54;
/// Room for any packed plan.
const ROOM: usize = 64;

/// Planning for a board known in full, with no limit.
fn plan(image: &[u8], settings: &[i32], bytes: &mut [u8]) -> PlanAnswer {
    plain::plan(image, ALL_KNOWN, settings, ADDRESS, NO_LIMIT, bytes)
}

/// An image that the house setting needs nothing for, over a given ground.
fn settled(ground: u8) -> [u8; reg::REGISTERS] {
    let mut image = [ground; reg::REGISTERS];
    let mut bytes = [0; ROOM];
    let planned = plan(&image, &house(), &mut bytes);
    assert_eq!(planned.refusal, 0);
    let length = planned.length as usize;
    let played = play(&mut image, ALL_KNOWN, ADDRESS, ADDRESS, &bytes[..length]);
    assert_eq!((played.refusal, played.acknowledged), (0, 1));
    image
}

/// The refusal and field of settings with one number changed.
fn refused(place: usize, value: i32) -> (u32, u32) {
    let mut s = house();
    s[place] = value;
    match check(&s) {
        Ok(()) => (0, 0),
        Err(why) => (why.refusal, why.field),
    }
}

#[test]
fn hue() {
    assert_eq!(codes::hue_code(40), 0x97);
    assert_eq!(codes::hue_code(-40), 0x69);
    assert_eq!(codes::hue_code(-225), 0x00);
    assert_eq!(codes::hue_code(224), 0xFF);
    assert_eq!(codes::hue_code(0), 0x80);
    assert_eq!(refused(at::HUE, 225), (refusal::RANGE, at::number::HUE));
    assert_eq!(refused(at::HUE, -225), (0, 0));
}

#[test]
fn brightness() {
    assert_eq!(codes::brightness_code(150), 0x1E);
    assert_eq!(codes::brightness_code(-75), 0x71);
    assert_eq!(codes::brightness_code(-70), 0x72);
    assert_eq!(codes::brightness_code(4), 0x01);
    assert_eq!(codes::brightness_of(0x01), 3);
}

#[test]
fn contrast_and_scales() {
    assert_eq!(codes::scale_code(1180), 0x97);
    assert_eq!(codes::scale_code(1996), 0xFF);
    assert_eq!(codes::scale_of(0x80), 997);
    let range = refusal::RANGE;
    assert_eq!(refused(at::U_SCALE, 1997), (range, at::number::U_SCALE));
}

#[test]
fn gamma_half() {
    assert_eq!(gamma::curve(1, 2), [76, 120, 150, 174, 196, 215, 232]);
    assert_eq!(gamma::curve(2, 2), [32, 64, 96, 128, 160, 192, 224]);
}

#[test]
fn words() {
    assert_eq!(subcarrier::word(false, false), 0x21F0_7C1F);
    assert_eq!(subcarrier::word(true, false), 0x2A09_8ACB);
    assert_eq!(subcarrier::word(false, true), 0x2555_5555);
    assert_eq!(subcarrier::word(true, true), 0x2679_8C0C);
}

/// Every code's setting is the one nearest zero that has it.
#[test]
fn codes_back() {
    let nearest = |from: i32, to: i32, code: fn(i32) -> u8, wanted: u8| {
        let all = (from..=to).filter(|&value| code(value) == wanted);
        all.min_by_key(|value| value.abs())
    };
    for code in 0..=0xFFu8 {
        let scale = nearest(0, 1996, codes::scale_code, code);
        assert_eq!(scale, Some(codes::scale_of(code)));
        let hue = nearest(-225, 224, codes::hue_code, code);
        assert_eq!(hue, Some(codes::hue_of(code)));
    }
    for code in (0..=0x1E).chain(0x71..=0x7Fu8) {
        let brightness = nearest(-75, 150, codes::brightness_code, code);
        assert_eq!(brightness, Some(codes::brightness_of(code)));
    }
}

/// The check in the words of the papers: shifting left, the top bit first.
#[test]
fn cgms_check() {
    for payload in 0..=signal::LAST_PAYLOAD as u32 {
        let mut check = 0b111111;
        for place in 0..14 {
            let feedback = (check >> 5 & 1) ^ (payload >> place & 1);
            check = check << 1 & 0b111111;
            if feedback == 1 {
                check ^= 0b000011;
            }
        }
        let mut bits = payload;
        for place in 0..6 {
            bits |= (check >> (5 - place) & 1) << (14 + place);
        }
        assert_eq!(signal::cgms_bits(payload), bits);
    }
}

#[test]
fn joining() {
    let cost = |needed: u64| {
        let list = list(needed, ALL_KNOWN, NO_LIMIT);
        (list.transactions(), 2 * list.transactions() + list.data())
    };
    assert_eq!(cost(1 << 0x1D | 1 << 0x20), (1, 6));
    assert_eq!(cost(1 << 0x1D | 1 << 0x21), (2, 6));
    let word = list(1 << 0x0F, ALL_KNOWN, NO_LIMIT);
    assert_eq!((word.written, word.lasts), (0x0F << 0x0C, 1 << 0x0F));
}

#[test]
fn only_the_last_word_byte() {
    let mut image = settled(0x00);
    image[0x0F] ^= 1;
    let mut bytes = [0; ROOM];
    let planned = plan(&image, &house(), &mut bytes);
    assert_eq!((planned.transactions, planned.bus_bytes), (1, 6));
    // 000001 001100 000100 then 1F 7C F0 21, two bits into the third byte.
    assert_eq!(bytes[..7], [0x04, 0xC1, 0x07, 0xDF, 0x3C, 0x08, 0x40]);
}

#[test]
fn hue_alone() {
    let mut settings = house();
    settings[at::HUE] = 40;
    let mut bytes = [0xAA; ROOM];
    let planned = plan(&settled(0x00), &settings, &mut bytes);
    let answer = (planned.length, planned.transactions, planned.bus_bytes);
    assert_eq!(answer, (4, 1, 3));
    assert_eq!(bytes[..5], [0x06, 0x00, 0x65, 0xC0, 0xAA]);
}

#[test]
fn nothing_to_do() {
    let mut bytes = [0xAA; 2];
    let planned = plan(&settled(0x00), &house(), &mut bytes);
    let answer = (planned.length, planned.transactions, planned.bus_bytes);
    assert_eq!((answer, bytes), ((1, 0, 0), [0x00, 0xAA]));
    let refused = plan(&settled(0x00), &house(), &mut []);
    assert_eq!(refused.refusal, refusal::PLAN_ROOM);
}

/// Bits that no field has stay as found.
#[test]
fn other_bits_stay() {
    let image = settled(0xFF);
    assert_eq!(image[0x00], 0xFC);
    assert_eq!(image[0x01], 0xFF);
    assert_eq!(image[0x02], 0xE7);
    assert_eq!(image[0x03], 0xFF);
    assert_eq!((image[0x19], image[0x1A]), (0x0F, 0xFF));
    assert_eq!((image[0x21], image[0x22]), (0x00, 0x06));
}

#[test]
fn reading_back() {
    let mut numbers = [-1; at::SETTINGS];
    assert_eq!(read(&settled(0x5A), ALL_KNOWN, &mut numbers).refusal, 0);
    let mut bytes = [0; ROOM];
    let planned = plan(&settled(0x5A), &numbers, &mut bytes);
    assert_eq!((planned.length, bytes[0]), (1, 0x00));
    assert_eq!(numbers[at::CONTRAST], 997);
    assert_eq!(numbers[at::CURVE_A], at::BYTES);
    assert_eq!(numbers[at::CURVE_A + at::CURVE_P], 0);
}

/// An image's refusal with one register replaced.
#[test]
fn images_refused() {
    let of = |register: usize, byte: u8| {
        let mut image = settled(0x00);
        image[register] = byte;
        let answer = read(&image, ALL_KNOWN, &mut [0; at::SETTINGS]);
        (answer.refusal, answer.field)
    };
    assert_eq!(of(0x00, 0x02), (4, 1));
    assert_eq!(of(0x02, 0x18), (5, 3));
    assert_eq!(of(0x00, 0x01), (8, 28));
    assert_eq!(of(0x05, 0x06), (4, 6));
    assert_eq!(of(0x05, 0x40), (4, 8));
    assert_eq!(of(0x19, 0x10), (4, 11));
    assert_eq!(of(0x19, 0x80), (7, 11));
    assert_eq!(of(0x19, 0x20), (8, 11));
    assert_eq!(of(0x1D, 0xC1), (3, 12));
    assert_eq!(of(0x21, 0x9F), (3, 16));
    assert_eq!(of(0x21, 0x80), (4, 16));
    assert_eq!(of(0x22, 0x1D), (3, 17));
    assert_eq!(of(0x22, 0x16), (4, 17));
    assert_eq!(of(0x23, 0x99), (4, 18));
    assert_eq!(of(0x23, 0x98), (4, 19));
    assert_eq!(of(0x25, 0x05), (4, 23));
    assert_eq!(of(0x0C, 0x00), (8, 28));
    // PAL where the pedestal is on.
    let mut image = settled(0x00);
    (image[0x00], image[0x02]) = (0x01, 0x08);
    let answer = read(&image, ALL_KNOWN, &mut [0; at::SETTINGS]);
    assert_eq!((answer.refusal, answer.field), (6, 4));
}

/// The house setting, where 49 numbers are lent.
#[test]
fn house_setting() {
    for length in [0, 48, 49, 50] {
        let mut lent = vec![7; length];
        let answer = put_house(&mut lent);
        let answer = (answer.refusal, answer.field);
        if length == at::SETTINGS {
            assert_eq!((answer, &lent[..]), ((0, 0), &house()[..]));
        } else {
            assert_eq!((answer, lent), ((3, 0), vec![7; length]));
        }
    }
}

/// Document 02, P8: an image right but for 02 at 08.
#[test]
fn pedestal_off() {
    let mut image = settled(0x00);
    assert_eq!(image[0x02], 0x00);
    image[0x02] = 0x08;
    let mut bytes = [0; ROOM];
    let planned = plan(&image, &house(), &mut bytes);
    assert_eq!((planned.transactions, planned.bus_bytes), (1, 3));
    // 000001 000010 000001 00000000 000000
    assert_eq!(bytes[..4], [0x04, 0x20, 0x40, 0x00]);
}

/// Field 11 of settings: 7, then 3, then 4.
#[test]
fn signalling_order() {
    let of = |standard: i32, numbers: [i32; 5]| {
        let mut s = house();
        s[at::STANDARD] = standard;
        s[at::PEDESTAL] = 0;
        s[at::SIGNALLING..=at::CHIP_CHECK].copy_from_slice(&numbers);
        check(&s).err().map(|why| (why.refusal, why.field))
    };
    assert_eq!(of(1, [1, 0, 1, 1, 0]), Some((7, 11)));
    assert_eq!(of(0, [1, 16384, 0, 0, 0]), Some((7, 11)));
    assert_eq!(of(0, [1, 16384, 1, 0, 0]), Some((3, 11)));
    assert_eq!(of(0, [1, 0, 2, 0, 0]), Some((3, 11)));
    assert_eq!(of(1, [2, 16385, 0, 0, 0]), Some((3, 11)));
    assert_eq!(of(1, [2, 3, 9, 9, 9]), Some((4, 11)));
    assert_eq!(of(1, [2, 1, 9, 9, 9]), None);
    assert_eq!(of(0, [2, 1, 0, 0, 0]), Some((7, 11)));
    assert_eq!(of(0, [3, 1, 0, 0, 0]), Some((3, 11)));
    assert_eq!(of(0, [0, -1, 7, 7, 7]), None);
}
