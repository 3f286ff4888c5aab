//! The one written form (docs/DECISIONS.md, "The written form").

use super::bits::Refusal;
use super::extended::extends;
use super::put;
use super::record::*;
use super::sink::{Count, Pen, Sink};
use super::trim::PRESENT;
use super::{needed, refusal, trim_needed, valid, Programme, Timing, MAX_PAYLOAD};

/// Values of oa_element_id_idx (Table 26).
const OBJECT_ID: u32 = 1;
const TRIM_ID: u32 = 2;
const EXTENDED_ID: u32 = 5;

/// Writes the tables, with the frame that the records' times are of, into `out`
/// and answers the length in bytes.
pub fn payload(
    programme: &Programme,
    timing: &Timing,
    records: (u32, &[u8]),
    trim: &[u8],
    out: &mut [u8],
) -> Result<usize, Refusal> {
    let form = Form::new(programme, timing, records, trim)?;
    let length = form.bits().div_ceil(8);
    if length > out.len().min(MAX_PAYLOAD) {
        return Err(Refusal::new(refusal::FORM, length));
    }
    let mut pen = Pen::new(&mut out[..length]);
    form.put(&mut pen);
    pen.finish();
    Ok(length)
}

/// Valid tables and what their form is to contain.
struct Form<'a> {
    programme: &'a Programme,
    timing: &'a Timing,
    entries: &'a [Entry],
    trim: &'a [u8],
    /// b_obj_div_block: some record carries divergence.
    divergence: bool,
    /// b_ext_prec_pos_block: some record carries a precise position.
    precise: bool,
    /// Bits of the object element from its discard flag on, 0 without one.
    object_bits: usize,
    /// Bits of the extended element from its discard flag on, 0 without one.
    extended_bits: usize,
    /// Bits of the trim element from its discard flag on, 0 without one.
    trim_bits: usize,
}

impl<'a> Form<'a> {
    /// Checks the tables (refusal 10) and measures the elements.
    fn new(
        programme: &'a Programme,
        timing: &'a Timing,
        (frame, records): (u32, &'a [u8]),
        trim: &'a [u8],
    ) -> Result<Self, Refusal> {
        let bad = |place| Refusal::new(refusal::TABLES, place);
        let needed = needed(programme, timing);
        if !valid::programme(programme) || !valid::timing(timing) || records.len() < needed {
            return Err(bad(0));
        }
        let (entries, _) = records[..needed].as_chunks::<RECORD_STRIDE>();
        if let Some(index) = first_bad(programme, timing, frame, entries) {
            return Err(bad(1 + index));
        }
        let trim = match trim.get(..trim_needed(programme)) {
            Some(trim) if valid::trim(trim) => trim,
            _ => return Err(bad(1 + entries.len())),
        };
        let mut form = Self {
            programme,
            timing,
            entries,
            trim,
            divergence: entries.iter().any(|r| r[DIVERGENCE] != 0),
            precise: entries.iter().any(|r| r[PRESENCE] != 0),
            object_bits: 0,
            extended_bits: 0,
            trim_bits: 0,
        };
        form.measure();
        Ok(form)
    }

    fn measure(&mut self) {
        if self.timing.blocks > 0 {
            let mut count = Count::default();
            self.object_element(&mut count);
            self.object_bits = count.0;
        }
        if self.divergence || self.precise {
            let mut count = Count::default();
            self.extended_object_element(&mut count);
            self.extended_bits = count.0;
        }
        if self.trim[PRESENT] != 0 {
            let mut count = Count::default();
            self.trim_element(&mut count);
            self.trim_bits = count.0;
        }
    }

    /// Bits of the payload without its last padding.
    fn bits(&self) -> usize {
        let mut count = Count::default();
        self.header(&mut count);
        for (id, bits) in self.elements() {
            element_head(&mut count, id, bits);
            count.0 += bits.next_multiple_of(8);
        }
        count.0
    }

    /// object_audio_metadata_payload (5.5.2) without its last padding.
    fn put<S: Sink>(&self, sink: &mut S) {
        self.header(sink);
        for (id, bits) in self.elements() {
            element_head(sink, id, bits);
            match id {
                OBJECT_ID => self.object_element(sink),
                EXTENDED_ID => self.extended_object_element(sink),
                _ => self.trim_element(sink),
            }
            element_padding(sink, bits);
        }
    }

    /// Id and bits of each element there is.
    fn elements(&self) -> impl Iterator<Item = (u32, usize)> {
        let all = [
            (OBJECT_ID, self.object_bits),
            (EXTENDED_ID, self.extended_bits),
            (TRIM_ID, self.trim_bits),
        ];
        all.into_iter().filter(|(_, bits)| *bits > 0)
    }

    /// All that stands before the first element.
    fn header<S: Sink>(&self, sink: &mut S) {
        sink.put(2, 0);
        grown(sink, 5, 7, u32::from(self.programme.objects) - 1);
        program_assignment(sink, self.programme);
        sink.flag(false);
        sink.put(4, self.elements().count() as u32);
    }

    /// The discard flag and object_element (5.5.5).
    fn object_element<S: Sink>(&self, sink: &mut S) {
        sink.flag(false);
        put::md_update_info(sink, self.timing);
        // b_reserved_data_not_present (point 5).
        sink.flag(true);
        let blocks = usize::from(self.timing.blocks);
        for object in self.entries.chunks_exact(blocks) {
            for (block, entry) in object.iter().enumerate() {
                put::object_info_block(sink, parts(entry).0, block == 0);
            }
        }
    }

    /// The discard flag and extended_object_element (5.5.13).
    fn extended_object_element<S: Sink>(&self, sink: &mut S) {
        sink.flag(false);
        sink.flag(self.divergence);
        if self.divergence {
            for record in self.extended_records() {
                put::obj_div_block(sink, record);
            }
        }
        sink.flag(self.precise);
        if self.precise {
            for record in self.extended_records() {
                put::ext_prec_pos_block(sink, record);
            }
        }
    }

    /// The records that carry extended data.
    fn extended_records(&self) -> impl Iterator<Item = &Record> {
        let records = self.entries.iter().map(|entry| parts(entry).0);
        records.filter(|record| extends(record))
    }

    /// The discard flag and trim_element (5.5.12).
    fn trim_element<S: Sink>(&self, sink: &mut S) {
        sink.flag(false);
        put::trim_element(sink, self.trim);
    }
}

/// The index of the first record that is bad by its own bytes or by its time.
fn first_bad(
    programme: &Programme,
    timing: &Timing,
    frame: u32,
    entries: &[Entry],
) -> Option<usize> {
    let (counts, times) = (Counts::of(programme), times(frame, timing));
    let blocks = usize::from(timing.blocks);
    entries.iter().enumerate().position(|(index, entry)| {
        let (record, time) = parts(entry);
        !valid::record(record, counts.class(index / blocks)) || *time != times[index % blocks]
    })
}

/// A field that grows by a further one when all its bits are 1.
fn grown<S: Sink>(sink: &mut S, width: usize, more: usize, value: u32) {
    let most = (1 << width) - 1;
    if value < most {
        sink.put(width, value);
    } else {
        sink.put(width, most);
        sink.put(more, value - most);
    }
}

/// program_assignment (5.5.3).
fn program_assignment<S: Sink>(sink: &mut S, p: &Programme) {
    if p.dynonly != 0 {
        sink.flag(true);
        sink.put(1, u32::from(p.lfe));
        return;
    }
    sink.flag(false);
    sink.put(4, u32::from(p.content));
    if p.content & CONTENT_BED != 0 {
        sink.put(1, u32::from(p.distribute));
        sink.put(1, u32::from(p.multiple));
        if p.multiple != 0 {
            sink.put(3, u32::from(p.instances));
        }
        for bed in &p.beds[..usize::from(p.bedcount)] {
            sink.put(1, u32::from(bed.lfeonly));
            if bed.lfeonly == 0 {
                sink.put(1, u32::from(bed.standard));
                let width = if bed.standard != 0 { 10 } else { 17 };
                sink.put(width, bed.assignment);
            }
        }
    }
    if p.content & CONTENT_ISF != 0 {
        sink.put(3, u32::from(p.isf));
    }
    if p.content & CONTENT_DYNAMIC != 0 {
        grown(sink, 5, 7, u32::from(p.dynamics));
    }
}

/// Id and size of an element of `bits` bits from its discard flag on.
fn element_head<S: Sink>(sink: &mut S, id: u32, bits: usize) {
    sink.put(4, id);
    element_size(sink, bits.div_ceil(8));
}

/// Zeros up to the last declared byte of the element.
fn element_padding<S: Sink>(sink: &mut S, bits: usize) {
    let padding = bits.next_multiple_of(8) - bits;
    if padding > 0 {
        sink.put(padding, 0);
    }
}

/// The size in groups (5.5.1). Each number of groups covers a range of values of
/// its own, so there is one form for each value.
pub fn element_size<S: Sink>(sink: &mut S, bytes: usize) {
    let mut value = bytes as u32 - 1;
    let (mut groups, mut count) = (0, 0);
    loop {
        let more = u32::from(count > 0);
        groups |= ((value % 16) << 1 | more) << (5 * count);
        count += 1;
        if value < 16 {
            break;
        }
        value = value / 16 - 1;
    }
    sink.put(5 * count, groups);
}
