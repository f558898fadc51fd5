//! The faults that can be planted, and which one is.

use std::sync::OnceLock;

macro_rules! faults {
    ($($(#[$doc:meta])* $name:ident,)*) => {
        #[allow(non_camel_case_types)]
        #[derive(Clone, Copy, PartialEq, Eq)]
        pub enum Fault {
            $($(#[$doc])* $name,)*
        }

        const FAULTS: &[(&str, Fault)] = &[$((stringify!($name), Fault::$name),)*];
    };
}

faults! {
    // The codes.
    /// A half that goes away from zero goes to the even bin.
    half_to_even,
    /// 0.5 is added to v/E as floats, and the sum cut.
    half_added_in_floats,
    /// A not-a-number is quantized.
    nan_quantized,
    /// The second subtraction forgotten for exponent 128: 2.0 is zero.
    one_subtraction,
    /// The middle exponent, 128 or 1024, is coded as those above it are.
    middle_counted_as_above,
    /// Exponent 0 is coded as those up to the middle are.
    zero_moved,
    /// The middle exponent is restored as those above it are.
    middle_restored_as_above,
    /// -0 is restored as 0.
    minus_zero_lost,
    /// u = 2^m is refused.
    code_2m_refused,
    /// The largest u is refused.
    largest_u_refused,
    /// The u above the largest is read by the lower library.
    past_largest_u_read,
    /// The least k is refused.
    least_k_refused,
    /// Bound answers the k whose power is not below the tolerance.
    bound_rounds_up,
    /// Bound takes subnormal tolerances for 0.
    bound_without_subnormals,
    /// Bound looks at the tolerance before the width.
    order_12_before_2,

    // Mode 2.
    /// The difference goes on from the chunk before, when packed and unpacked.
    not_restarted_at_chunk,
    /// It begins anew at each group, when packed and unpacked.
    restarted_at_group,
    /// Differences of more than W bits become the nearest of W bits.
    difference_saturates,
    /// The difference -2^(W-1) is coded as 0.
    least_difference_is_0,
    /// Codes of W bits are folded once more, as source document 001 does.
    second_fold,
    /// What is before a group is lost where the group before it has no bits.
    carry_lost_after_empty_group,
    /// A group of no bits is read as zeros.
    empty_group_is_zeros,
    /// Probe adds up its own group alone.
    probe_from_group_start,
    /// Probe goes on from the chunk before.
    probe_from_chunk_before,
    /// Check and unpack know a largest u in mode 2, too, that of k = 0.
    largest_u_in_mode_2,
    /// Mode 2 needs 10.
    difference_needs_10,
    /// Mode 2 of width 64 needs 10, as width 64 does.
    need_of_width_64_first,
    /// Mode 2 is packed at level 10, too.
    difference_packed_at_10,
    /// Any k is packed in mode 2.
    any_k_packed,
    /// Any k is read in mode 2.
    any_k_read,

    // Halves to even.
    /// Level 14 is not known.
    level_14_unknown,
    /// Writers at level 13 send halves to even, too.
    even_at_13,
    /// Writers at level 14 send halves away from zero.
    away_at_14,
    /// The need decides the rule, and not the level.
    rule_of_need,
    /// The need of groups of 128 is enough for halves to even.
    even_at_need_of_128,
    /// Halves go to even in groups of 32 only.
    even_only_in_32,
    /// Halves go to even at width 32 only.
    even_only_at_32,
    /// Halves go to the odd bin.
    halves_to_odd,
    /// Halves go down.
    halves_down,
    /// A half is sent by the lowest bit of its code, which is the sign, in place of that of u.
    even_by_code,
    /// The half of one bin goes away from zero.
    first_half_away,
    /// The last half below T goes down.
    last_half_down,
    /// The nearest above a half goes to even, too.
    above_half_to_even,
    /// The nearest below a half goes to even, too.
    below_half_to_even,
    /// Length measures with halves away from zero.
    length_by_away,
    /// Pack at level 14 states a need of 14 in mode 1.
    even_needs_14,
    /// A need of 14 is read.
    need_14_read,
    /// A written minor of 14 is refused 8 below level 14.
    written_14_refused,
    /// The rule 2 is taken as that to even.
    halves_2_taken,
    /// Any rule but 0 is taken as that to even.
    halves_by_truth,
    /// The rule is looked at by its lowest byte.
    halves_by_lowest_byte,
    /// The two rules are taken for each other.
    halves_exchanged,
    /// A rule that there is not is refused with its number as the detail.
    halves_told,
    /// A rule that there is not is refused, but a code is written.
    halves_written,
    /// The listing checks at level 13.
    listing_at_level_13,

    // Groups of 128.
    /// Level 13 is not known.
    level_13_unknown,
    /// The 256 of the header's mode number is forgotten.
    size_not_stated,
    /// Groups of 128 are packed as groups of 32.
    packed_by_32,
    /// The width byte is that of the first block of 32 codes, to which all are cut.
    width_of_first_block,
    /// Each block of 32 codes has its own width byte.
    width_byte_each_block,
    /// A short group of 128 is filled up to whole blocks.
    filled_to_block,
    /// A short group of 128 is filled up to a whole one.
    filled_to_group,
    /// The last block of a group stands first.
    last_block_first,
    /// Length counts the width bytes of groups of 32.
    length_by_32,
    /// Groups of 128 need 12.
    size_needs_12,
    /// Groups of 128 are packed at level 12, too, and need 13.
    size_packed_at_12,
    /// Pack writes 13 as the need of the size at width 32 only.
    size_needs_13_at_32,
    /// Size 64 is taken for 128.
    size_64_taken,
    /// Size 0 is taken for 32.
    size_0_taken,
    /// Sizes are looked at by their lowest byte.
    size_by_lowest_byte,
    /// The modes 256 to 258 of a call are taken as those of a header.
    mode_256_taken,
    /// The size is tested after too many values.
    order_3_before_size,
    /// The mode number 259 is read as 258.
    mode_259_read,
    /// Any bit from 256 up means groups of 128.
    mode_512_read,
    /// The mode number is read by its lowest 16 bits.
    mode_in_16_bits,
    /// A need that is not that of the size is refused before the level is looked at.
    order_8_before_7_at_128,
    /// Refusal 10 is counted in eights: chunk·8 + group.
    detail_in_eights,
    /// Refusal 10 is counted in blocks: chunk·32 + 4·group.
    detail_in_blocks,
    /// The smallest width is looked for in the first block alone.
    smallest_by_first_block,
    /// The smallest width is looked for in the last block alone.
    smallest_by_last_block,
    /// u is compared with its largest in the first block alone.
    limit_by_first_block,
    /// The difference begins anew at each block, when packed and unpacked.
    restarted_at_block,
    /// The values of a short last block behind a whole one come back as zeros.
    short_block_lost,
    /// The second to fourth block are read as the first.
    first_block_repeated,
    /// Probe looks for its value in the first block of its group.
    probe_in_first_block,
    /// Probe finds its group by 32 values.
    probe_by_32,
    /// A high id needs 12 also where the size needs 13.
    need_12_at_128,
    /// The listing counts groups of 32.
    listing_groups_by_32,
    /// The listing prints the mode without 256.
    listing_mode_without_256,
    /// The listing checks at level 12.
    listing_at_level_12,

    // The need, and ids that must be understood.
    /// Level 12 is not known.
    level_12_unknown,
    /// The need is compared for equality with the other header rules.
    need_exact_in_header,
    /// The need is compared for equality before the tables.
    order_late_8_before_9,
    /// The need is not compared for equality.
    late_need_ignored,
    /// A need of 12 is read without a high id.
    need_12_without_high_id,
    /// A high id needs 11.
    high_id_needs_11,
    /// A high id is refused 15 where the need is too small, too.
    small_need_is_15,
    /// The id 2^31 may be skipped.
    id_2_31_skipped,
    /// All ids may be skipped, as before there were high ones.
    high_ids_skipped,
    /// Probe skips all side parts where the need is right.
    probe_skips_high_ids,
    /// Refusal 15 has the last high id as its detail.
    last_high_id_told,
    /// Refusal 15 has detail 0.
    detail_of_15,
    /// A high id is refused before the tables.
    order_15_before_9,
    /// The chunks are refused before a high id.
    order_10_before_15,

    // What a summary holds.
    /// -0 stands above 0.
    minus_zero_above_zero,
    /// -0 and 0 are alike, so that the first of them stands.
    zeros_alike,
    /// A not-a-number without a sign is a value, and so the largest.
    nan_as_largest,
    /// The smallest and the largest pattern, not value.
    summary_by_pattern,
    /// Infinities are no values.
    infinities_left_out,
    /// Infinities are counted as not-a-numbers.
    infinities_counted,
    /// A chunk of not-a-numbers holds the first of them twice, not 0 and 0.
    nan_chunk_keeps_pattern,
    /// Signalling not-a-numbers are not counted.
    signalling_uncounted,
    /// Not-a-numbers with a sign are not counted.
    negative_nan_uncounted,
    /// A short last chunk is filled up with zeros.
    last_chunk_filled,
    /// The entry of each chunk is that of the first.
    summary_of_first_chunk,
    /// At width 64 the patterns begin at a whole number of their sizes.
    gap_behind_count,

    // A summary added.
    /// The written minor is raised to the level.
    written_raised,
    /// The needed minor is raised to 9.
    need_raised,
    /// The part's place is told as that of the table.
    place_of_table_told,
    /// A summary is added at level 12 alone.
    summary_needs_12,
    /// A stream that has a true summary and no more is copied, not refused.
    added_again,
    /// A short room is refused before side parts.
    order_4_before_16,
    /// Side parts are refused before the chunks.
    order_16_before_10,
    /// What fits is written before a short room is refused.
    short_copy_written,
    /// Refusal 4 tells the bytes of the part alone.
    part_told,

    // A summary tested.
    /// A summary is found only where it is the one side part.
    further_parts_refused,
    /// The first side part is taken for the summary, whatever its id.
    first_part_taken,
    /// A stream without side parts passes.
    no_part_passes,
    /// Bytes behind the last entry are not looked at.
    longer_part_read,
    /// The counts are not looked at.
    counts_untested,
    /// The smallest values are not looked at.
    smallest_untested,
    /// The first entry alone is looked at.
    first_entry_tested,
    /// The empty summary of no values is none.
    empty_summary_refused,
    /// No part, or one of another length, is refused before the chunks.
    order_17_before_10,

    // Chunks listed by a summary.
    /// x is compared by its pattern, not by its value.
    x_by_pattern,
    /// A value equal to x does not count.
    above_x_only,
    /// -0 is below 0.
    minus_zero_below_zero,
    /// At width 64 only the upper halves are compared.
    high_half_compared,
    /// A chunk of not-a-numbers counts as one of zeros.
    nan_chunk_listed,
    /// An infinity is at least no x.
    infinities_not_listed,
    /// The smallest value has to be at least x.
    smallest_compared,
    /// The last chunk is listed twice.
    chunk_listed_twice,
    /// The chunks stand in falling order.
    chunks_descending,
    /// The chunks are counted from 1.
    chunks_counted_from_1,
    /// A false summary of the right length is not refused.
    list_without_test,
    /// An infinite x is refused 2.
    infinite_x_refused,
    /// A signalling not-a-number is taken for an x.
    signalling_x_taken,
    /// x is looked at before the level.
    order_2_before_1,
    /// A short stream is refused before x.
    order_5_before_2,
    /// The list refuses the tables before the other width.
    order_9_before_14,
    /// A short room is refused before a false summary.
    order_4_before_17,
    /// Room for all chunks is asked for.
    room_for_all_chunks,
    /// Refusal 4 tells the count of all chunks.
    all_chunks_told,
    /// What fits is written before a short room is refused.
    short_list_written,
    /// The element after the last number is written.
    past_list_written,

    // Pack and length.
    /// Refusal 4 has the room as its detail.
    detail_of_4,
    /// The written minor is the highest level at any level.
    written_is_highest,
    /// The needed minor is the level.
    need_is_level,
    /// 1,048,576 values are refused.
    limit_one_less,
    /// Too many values are refused before the setting.
    order_3_before_2,
    /// A short room is refused before too many values.
    order_4_before_3,

    // Reading.
    /// Level 15 is known.
    level_15_known,
    /// A need of 10 to 14 counts as its last digit.
    minor_by_last_digit,
    /// A written minor above the highest level is refused 8.
    written_limited,
    /// Padding bits are not looked at.
    padding_ignored,
    /// A width byte need not be smallest.
    smallest_width_ignored,
    /// Bytes after a chunk's last group are not looked at.
    leftover_ignored,
    /// Unpack fills all chunks but the first with zeros.
    first_chunk_only,
    /// Check looks at the first chunk only.
    first_chunk_checked,
    /// Refusal 10 has detail 0.
    detail_of_10,
    /// Refusal 10 names the chunk alone.
    chunk_named,
    /// Refusal 10 names the chunk's first group.
    group_dropped,
    /// Refusal 10 names the last bad group.
    last_bad_group_named,
    /// The bytes of all groups of a chunk are looked for before the codes of any.
    bytes_before_codes,
    /// Bytes left over count for a group after the last.
    leftover_past_last_group,
    /// Bytes left over count for group 31 in a short chunk, too.
    leftover_always_31,
    /// A missing width byte counts for the group before.
    missing_for_group_before,
    /// Probe names the group of its index.
    probe_names_own_group,
    /// Refusal 10 of unpack leaves the chunks before the fault written, and a
    /// refused probe a zero.
    output_touched_on_refusal,
    /// The element after the last value is written, if there is room.
    past_n_written,
    /// The element after the room is written.
    past_room_written,
    /// Probe refuses because of any chunk.
    probe_all_chunks,
    /// Probe looks at an index's low 32 bits.
    index_in_32_bits,
    /// Probe loses an infinity's sign.
    infinity_without_sign,
    /// Probe answers not-a-numbers as quiet ones.
    nan_made_quiet,
    /// The side table's places are added modulo 2^32.
    side_sums_in_32_bits,
    /// Equal ids of side parts are read.
    equal_ids_read,
    /// Two equal starts are a fault of the chunk.
    equal_starts_are_10,
    /// Data without chunks is a header's fault.
    data_without_chunks_is_8,
    /// A short stream is refused before the level.
    order_5_before_1,
    /// The needed minor is refused before the major.
    order_7_before_6,
    /// The other width is refused before other header rules.
    order_14_before_8,
    /// The tables are refused before a short room.
    order_9_before_4,
    /// The tables are refused before the index.
    order_9_before_11,
    /// The index is refused before the other width.
    order_11_before_14,
}

/// Whether this is the planted fault.
pub fn planted(fault: Fault) -> bool {
    static PLANTED: OnceLock<Option<Fault>> = OnceLock::new();
    *PLANTED.get_or_init(named_in_environment) == Some(fault)
}

/// The fault FAULT names. An unknown name ends the program with the names.
fn named_in_environment() -> Option<Fault> {
    let name = std::env::var("FAULT").ok()?;
    let known = FAULTS.iter().find(|(known, _)| *known == name);
    if known.is_none() {
        for (known, _) in FAULTS {
            eprintln!("{known}");
        }
        std::process::exit(3);
    }
    known.map(|&(_, fault)| fault)
}
