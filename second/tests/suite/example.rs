//! The 55-byte example, and the listing.

use second::listing::listing;
use second::{plain, stream, Refusal};

const VALUES: [u32; 3] = [0, 0x8000_0000, 1];

fn example() -> Vec<u8> {
    let numbers: [u32; 13] = [1, 8, 8, 32, 0, 0, 3, 1, 48, 52, 0, 55, 0];
    let mut bytes: Vec<u8> = numbers.iter().flat_map(|n| n.to_le_bytes()).collect();
    bytes.extend([0x03, 0x10, 0x01]);
    assert_eq!(bytes.len(), 55);
    bytes
}

fn with_number(mut stream: Vec<u8>, place: usize, number: u32) -> Vec<u8> {
    stream[place..place + 4].copy_from_slice(&number.to_le_bytes());
    stream
}

#[test]
fn packs_byte_for_byte() {
    for pack in [stream::pack::<u32>, plain::pack::<u32>] {
        let mut output = [0xAA; 60];
        assert_eq!(pack(8, 0, 0, 32, &VALUES, &mut output), Ok(55));
        assert_eq!(output[..55], example());
        assert_eq!(output[55..], [0xAA; 5]);
        let mut short = [0xAA; 54];
        let four = Refusal { number: 4, detail: 55 };
        assert_eq!(pack(8, 0, 0, 32, &VALUES, &mut short), Err(four));
        assert_eq!(short, [0xAA; 54]);
    }
}

#[test]
fn unpacks() {
    for unpack in [stream::unpack::<u32>, plain::unpack::<u32>] {
        let mut output = [7; 5];
        assert_eq!(unpack(8, &example(), &mut output), Ok(3));
        assert_eq!(output, [0, 0x8000_0000, 1, 7, 7]);
        let mut short = [7; 2];
        let four = Refusal { number: 4, detail: 3 };
        assert_eq!(unpack(8, &example(), &mut short), Err(four));
        assert_eq!(short, [7; 2]);
    }
}

#[test]
fn every_cut_and_every_addition_is_refused() {
    let whole = example();
    for length in 0..55 {
        let number = if length < 48 { 5 } else { 8 };
        let cut = &whole[..length];
        assert_eq!(stream::check(10, cut), Err(Refusal::bare(number)));
        assert_eq!(plain::check(10, cut), Err(Refusal::bare(number)));
        assert_eq!(stream::unpack(10, cut, &mut [0u32; 3]), Err(Refusal::bare(number)));
        assert_eq!(listing(cut), format!("refused {number} detail 0\n"));
    }
    let mut longer = whole;
    longer.push(0);
    assert_eq!(stream::check(10, &longer), Err(Refusal::bare(9)));
    assert_eq!(plain::check(10, &longer), Err(Refusal::bare(9)));
}

#[test]
fn lists() {
    assert_eq!(
        listing(&example()),
        "format 1.8 needs 1.8\n\
         width 32 mode 0 bound 0\n\
         values 3 chunks 1 sides 0\n\
         chunk 0 at 0 bytes 3 groups 1\n"
    );
}

#[test]
fn lists_a_later_minor_and_refuses_a_later_need() {
    let later = with_number(example(), 4, 4_000_000_000);
    assert!(listing(&later).starts_with("format 1.4000000000 needs 1.8\n"));
    let needing = with_number(later, 8, 15);
    assert_eq!(listing(&needing), "refused 7 detail 15\n");
    // The listing's level reaches 14, which nothing needs.
    assert_eq!(listing(&with_number(needing, 8, 14)), "refused 8 detail 0\n");
}

#[test]
fn lists_negative_bounds_and_several_chunks() {
    let mut values = vec![0u64; 2100];
    values[1500] = 1f64.to_bits();
    let mut packed = vec![0; 4000];
    let length = stream::pack(10, 1, -2, 32, &values, &mut packed).unwrap() as usize;
    // 1.0 is u = 2, code 4: 3 bits for each of its group's 32 codes.
    assert_eq!(
        listing(&packed[..length]),
        "format 1.10 needs 1.10\n\
         width 64 mode 1 bound -2\n\
         values 2100 chunks 3 sides 0\n\
         chunk 0 at 0 bytes 32 groups 32\n\
         chunk 1 at 32 bytes 44 groups 32\n\
         chunk 2 at 76 bytes 2 groups 2\n"
    );
}

#[test]
fn lists_side_parts_by_their_count_and_no_values_without_chunks() {
    let mut packed = [0; 48];
    stream::pack::<u32>(9, 0, 0, 32, &[], &mut packed).unwrap();
    let text = "format 1.9 needs 1.8\nwidth 32 mode 0 bound 0\nvalues 0 chunks 0 sides ";
    assert_eq!(listing(&packed), format!("{text}0\n"));
    let mut sided = with_number(packed.to_vec(), 40, 2);
    for number in [5u32, 72, 3, 9, 75, 0] {
        sided.extend(number.to_le_bytes());
    }
    sided.extend([1, 2, 3]);
    assert_eq!(listing(&sided), format!("{text}2\n"));
}

#[test]
fn too_long_is_said_first() {
    assert_eq!(listing(&[0; 65_536]), "refused 6 detail 0\n");
    assert_eq!(listing(&[0; 65_537]), "too long\n");
    // A good stream of more than 65,536 bytes is too long all the same.
    let values: Vec<u32> = (0..20_000u32).map(|i| i.wrapping_mul(2_654_435_761)).collect();
    let mut packed = vec![0; 100_000];
    let length = stream::pack(8, 0, 0, 32, &values, &mut packed).unwrap() as usize;
    assert_eq!(stream::check(8, &packed[..length]), Ok(20_000));
    assert_eq!(listing(&packed[..length]), "too long\n");
}
