//! The program assignment (5.5.3).

use super::bits::{Bits, Refusal};
use super::record::{
    Counts, CONTENT_BED, CONTENT_DYNAMIC, CONTENT_ISF, CONTENT_RESERVED, ISF_OBJECTS,
};
use super::{refusal, Bed, Programme};

/// program_assignment, and the counts held against the object count: refusal 4
/// at the first bit after the assignment (point 15).
pub fn program_assignment(bits: &mut Bits, objects: u8) -> Result<Programme, Refusal> {
    let mut programme = Programme {
        objects,
        ..Programme::default()
    };
    if bits.flag()? {
        programme.dynonly = 1;
        programme.lfe = bits.byte(1)?;
        return Ok(programme);
    }
    programme.content = bits.byte(4)?;
    if programme.content & CONTENT_BED != 0 {
        bed_instances(bits, &mut programme)?;
    }
    if programme.content & CONTENT_ISF != 0 {
        programme.isf = bits.below(3, ISF_OBJECTS.len() as u8)?;
    }
    if programme.content & CONTENT_DYNAMIC != 0 {
        programme.dynamics = bits.grown(5, 7)?;
    }
    let reserved = programme.content & CONTENT_RESERVED != 0;
    if reserved {
        let size = bits.take(4)? as usize;
        bits.pass(8 * (size + 1))?;
    }
    let total = Counts::of(&programme).total();
    let objects = usize::from(objects);
    if total == objects || (reserved && total < objects) {
        Ok(programme)
    } else {
        Err(Refusal::new(refusal::COUNTS, bits.place()))
    }
}

fn bed_instances(bits: &mut Bits, programme: &mut Programme) -> Result<(), Refusal> {
    programme.distribute = bits.byte(1)?;
    programme.multiple = bits.byte(1)?;
    programme.bedcount = 1;
    if programme.multiple != 0 {
        programme.instances = bits.byte(3)?;
        programme.bedcount = programme.instances + 2;
    }
    for bed in &mut programme.beds[..usize::from(programme.bedcount)] {
        *bed = bed_instance(bits)?;
    }
    Ok(())
}

fn bed_instance(bits: &mut Bits) -> Result<Bed, Refusal> {
    let mut bed = Bed::default();
    if bits.flag()? {
        bed.lfeonly = 1;
        return Ok(bed);
    }
    bed.standard = bits.byte(1)?;
    bed.assignment = bits.take(if bed.standard != 0 { 10 } else { 17 })?;
    Ok(bed)
}
