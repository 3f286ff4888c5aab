//! The trim element (5.5.12, 5.6.5) and the table that it gives.

use super::bits::{Bits, Refusal};

/// NUM_TRIM_CONFIGS.
pub const CONFIGS: usize = 9;

/// The table: a byte that is 1 if the element is there, then one byte for each
/// field in the order of 5.5.12, the reserved bits left out, for all
/// configurations; last the flags of the objects. What is not carried is 0.
pub const PRESENT: usize = 0;
pub const WARP: usize = 1;
pub const GLOBAL: usize = 2;
pub const FIRST_CONFIG: usize = 3;
pub const PER_OBJECT: usize = FIRST_CONFIG + CONFIGS * CONFIG_BYTES;
pub const FIRST_FLAG: usize = PER_OBJECT + 1;

/// Bytes of one configuration; the constants below name them.
pub const CONFIG_BYTES: usize = 10;

/// One configuration.
pub type Config = [u8; CONFIG_BYTES];

pub const DEFAULT: usize = 0;
pub const DISABLE: usize = 1;
/// trim_balance_presence as a number of 5 bits, index 0 its top bit.
pub const BALANCE: usize = 2;
pub const CENTRE: usize = 3;
pub const SURROUND: usize = 4;
pub const TRIM_HEIGHT: usize = 5;
pub const SIGN_TB: usize = 6;
pub const AMOUNT_TB: usize = 7;
pub const SIGN_LIS: usize = 8;
pub const AMOUNT_LIS: usize = 9;

/// Bits of trim_balance_presence (Table 34; index 0 is sent first, point 1).
pub const HAS_CENTRE: u8 = 1;
pub const HAS_SURROUND: u8 = 2;
pub const HAS_HEIGHT: u8 = 4;
pub const HAS_TB: u8 = 8;
pub const HAS_LIS: u8 = 16;

/// Values of global_trim_mode and warp_mode from here on are reserved (Tables
/// 32 and 33).
pub const WARP_RESERVED: u8 = 2;
pub const GLOBAL_RESERVED: u8 = 3;
/// custom_trim: the configurations follow.
pub const GLOBAL_CUSTOM: u8 = 2;
/// Values of trim_surround and trim_height below are reserved (Tables 36, 37).
pub const LEAST_TRIM: u8 = 4;

/// trim_element for as many objects as the table, which holds zeros, has flags.
pub fn trim_element(bits: &mut Bits, table: &mut [u8]) -> Result<(), Refusal> {
    table[PRESENT] = 1;
    [table[WARP], table[GLOBAL]] = trim_modes(bits)?;
    if table[GLOBAL] == GLOBAL_CUSTOM {
        let configs = &mut table[FIRST_CONFIG..PER_OBJECT];
        for config in configs.as_chunks_mut::<CONFIG_BYTES>().0 {
            *config = trim_config(bits)?;
        }
    }
    table[PER_OBJECT] = bits.byte(1)?;
    if table[PER_OBJECT] != 0 {
        for flag in &mut table[FIRST_FLAG..] {
            *flag = bits.byte(1)?;
        }
    }
    Ok(())
}

/// warp_mode and global_trim_mode; the reserved bits between are one field.
pub fn trim_modes(bits: &mut Bits) -> Result<[u8; 2], Refusal> {
    let warp = bits.below(2, WARP_RESERVED)?;
    bits.pass(2)?;
    let global = bits.below(2, GLOBAL_RESERVED)?;
    Ok([warp, global])
}

/// The fields of one configuration.
pub fn trim_config(bits: &mut Bits) -> Result<Config, Refusal> {
    let mut config = [0; CONFIG_BYTES];
    config[DEFAULT] = bits.byte(1)?;
    if config[DEFAULT] != 0 {
        return Ok(config);
    }
    config[DISABLE] = bits.byte(1)?;
    if config[DISABLE] != 0 {
        return Ok(config);
    }
    config[BALANCE] = bits.byte(5)?;
    if config[BALANCE] & HAS_CENTRE != 0 {
        config[CENTRE] = bits.byte(4)?;
    }
    if config[BALANCE] & HAS_SURROUND != 0 {
        config[SURROUND] = bits.from(4, LEAST_TRIM)?;
    }
    if config[BALANCE] & HAS_HEIGHT != 0 {
        config[TRIM_HEIGHT] = bits.from(4, LEAST_TRIM)?;
    }
    for (bit, sign, amount) in [
        (HAS_TB, SIGN_TB, AMOUNT_TB),
        (HAS_LIS, SIGN_LIS, AMOUNT_LIS),
    ] {
        if config[BALANCE] & bit != 0 {
            config[sign] = bits.byte(1)?;
            config[amount] = bits.byte(4)?;
        }
    }
    Ok(config)
}
