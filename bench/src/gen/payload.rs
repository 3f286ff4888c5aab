//! Whole payloads: the header and a list of elements (5.5.2, 5.5.4).

use super::draft::Draft;
use super::marks::Group;
use super::object::ObjectElement;
use super::programme::counts;
use super::{timed, Fault, Gen, Tables};
use crate::plain::{Programme, Record, Timing};

/// A payload in bits, and what a reader is to make of it if nothing is wrong
/// with it.
pub struct Whole {
    pub draft: Draft,
    pub tables: Tables,
}

/// The mark of an object element of another alternate id.
const OTHER_OBJECT: usize = 4;

/// What stands in one place of the list of elements.
#[derive(Clone, Copy, PartialEq)]
enum Item {
    Unknown,
    Object,
    Extended,
    Trim,
    /// An unknown element that ends at the last byte wanted.
    Filler,
}

/// What the elements of one payload have in common.
struct Elements {
    programme: Programme,
    alternate: bool,
    /// The known object element, once it is there.
    object: Option<ObjectElement>,
    extended: bool,
    /// The table of the trim element, once it is there.
    trim: Option<Vec<u8>>,
}

impl Gen {
    /// A payload that is accepted, except for the wanted fault, if it finds a
    /// place.
    pub(super) fn whole(&mut self) -> Whole {
        let programme = self.faulty_programme();
        let mut draft = Draft::default();
        self.header(&mut draft, &programme);
        let items = self.items();
        let mut elements = Elements {
            programme,
            alternate: self.rng.chance(35),
            object: None,
            extended: false,
            trim: None,
        };
        draft.flag(elements.alternate);
        let alternate = usize::from(elements.alternate);
        self.marks.set(Group::Alternate, alternate);
        draft.grown(4, 5, items.len());
        self.mark_count(items.len());
        let mut unknown = 0;
        for item in items {
            if self.place_fault(Fault::LongSize, 30) {
                self.long_size(&mut draft);
                break;
            }
            unknown += u32::from(matches!(item, Item::Unknown | Item::Filler));
            self.element(&mut draft, &mut elements, item);
        }
        let tables = self.expected(elements, unknown);
        Whole { draft, tables }
    }

    /// What a reader is to make of the elements.
    fn expected(&mut self, elements: Elements, unknown: u32) -> Tables {
        let (timing, records) = match elements.object {
            Some(object) => (object.timing, object.records),
            None => {
                self.marks.set(Group::Blocks, 0);
                (Timing::default(), vec![])
            }
        };
        let objects = usize::from(elements.programme.objects);
        Tables {
            programme: elements.programme,
            timing,
            records: timed(&records, &timing, self.frame),
            trim: elements.trim.unwrap_or_else(|| vec![0; 94 + objects]),
            unknown,
        }
    }

    /// A programme, with an ISF for the ISF fault and other counts than the
    /// object count for the fault of counts.
    fn faulty_programme(&mut self) -> Programme {
        loop {
            let mut p = self.programme(true);
            match self.fault {
                Some(Fault::Isf) if p.content & 2 == 0 => continue,
                Some(Fault::Counts) if p.dynonly != 0 => continue,
                Some(Fault::Counts) => {
                    let (bed, isf, dynamic) = counts(&p);
                    let total = bed + isf + dynamic;
                    let any = self.object_number();
                    let number = self.rng.pick(&[total.saturating_sub(1), total + 1, any]);
                    if self.rng.chance(5) {
                        p = Programme::default();
                    }
                    p.objects = number.clamp(1, 159) as u8;
                    self.fault = None;
                }
                _ => {}
            }
            return p;
        }
    }

    /// The known elements in their order.
    fn known_items(&mut self) -> Vec<Item> {
        let known = match self.fault {
            Some(Fault::Isf | Fault::Version | Fault::Counts) | None => self.rng.below(10),
            Some(Fault::Early) => 10,
            Some(Fault::TwiceObject) => 11,
            Some(Fault::TwiceExtended) => 12,
            Some(Fault::DivergenceMode | Fault::DivergenceCode) => 9,
            _ => self.rng.within(2, 9),
        };
        let mut items = match known {
            0 => vec![],
            1..=3 => vec![Item::Object],
            4..=9 => vec![Item::Object, Item::Extended],
            10 => vec![Item::Extended, Item::Object],
            11 if self.rng.chance(50) => vec![Item::Object, Item::Extended, Item::Object],
            11 => vec![Item::Object, Item::Object],
            _ => vec![Item::Object, Item::Extended, Item::Extended],
        };
        for _ in 0..self.trims() {
            let at = self.rng.below(items.len() + 1);
            items.insert(at, Item::Trim);
        }
        self.mark_trim(&items);
        items
    }

    /// The order of the elements: at most 46.
    fn items(&mut self) -> Vec<Item> {
        let mut items = self.known_items();
        let least = items.len();
        let total = match self.rng.below(20) {
            0..=9 => least,
            10..=15 => self.rng.within(least, 6),
            16 => self.rng.within(least, 14),
            17 => 15,
            18 => self.rng.within(16, 46),
            _ => 46,
        };
        while items.len() < total {
            let at = self.rng.below(items.len() + 1);
            items.insert(at, Item::Unknown);
        }
        if self.fill.is_some() && items.len() < 46 {
            items.push(Item::Filler);
        }
        items
    }

    /// How many trim elements are wanted.
    fn trims(&mut self) -> usize {
        match self.fault {
            Some(Fault::TwiceTrim) => 2,
            Some(Fault::WarpMode | Fault::GlobalMode | Fault::Surround) => 1,
            Some(Fault::TrimHeight | Fault::ShortTrim) => 1,
            _ => usize::from(self.rng.chance(50)),
        }
    }

    /// Where the trim element stands among the known ones.
    fn mark_trim(&mut self, items: &[Item]) {
        let at = |item| items.iter().position(|other| *other == item);
        let Some(trim) = at(Item::Trim) else {
            return;
        };
        let place = match (at(Item::Object), at(Item::Extended)) {
            (None, _) => 0,
            (Some(object), _) if trim < object => 1,
            (_, None) => 2,
            (_, Some(extended)) if trim < extended => 3,
            _ => 4,
        };
        self.marks.set(Group::TrimPlace, place);
    }

    fn mark_count(&mut self, count: usize) {
        let value = match count {
            0 => 0,
            1..=14 => 1,
            15 => 2,
            16..=45 => 3,
            _ => 4,
        };
        self.marks.set(Group::ElementCount, value);
    }

    /// One oa_element_md.
    fn element(&mut self, draft: &mut Draft, elements: &mut Elements, item: Item) {
        let alternate = elements.alternate;
        match item {
            Item::Unknown => {
                let bytes = self.unknown_bytes();
                self.unknown(draft, alternate, bytes);
            }
            Item::Filler => {
                let target = 8 * self.fill.unwrap_or(0);
                // The id and up to three groups stand before the bytes.
                let rest = target.saturating_sub(draft.len() + 4 + 15) / 8;
                self.unknown(draft, alternate, rest.max(1));
            }
            Item::Object => self.object_item(draft, elements),
            Item::Extended => self.extended_item(draft, elements),
            Item::Trim => self.trim_item(draft, elements),
        }
    }

    fn object_item(&mut self, draft: &mut Draft, elements: &mut Elements) {
        let alternate = self.alternate_id(elements, 1);
        let mut content = self.element_start(alternate);
        if elements.object.is_some() {
            draft.fail(6);
            content.noise(&mut self.rng, 100);
        } else {
            let (bed, isf, _) = counts(&elements.programme);
            let objects = usize::from(elements.programme.objects);
            let object = self.object_element(&mut content, objects, (bed, bed + isf));
            elements.object = Some(object);
        }
        self.known(draft, 1, content);
    }

    fn extended_item(&mut self, draft: &mut Draft, elements: &mut Elements) {
        let alternate = self.alternate_id(elements, 5);
        let mut content = self.element_start(alternate);
        match &mut elements.object {
            Some(object) if !elements.extended => {
                let records: &mut [Record] = &mut object.records;
                self.extended_element(&mut content, records);
            }
            object => {
                let other = self.marks.has(Group::Element as usize, OTHER_OBJECT);
                let (refusal, mark) = match (object.is_some(), other) {
                    (true, _) => (6, 0),
                    (false, false) => (7, 2),
                    (false, true) => (7, 3),
                };
                draft.fail(refusal);
                self.mark_refused(alternate, mark);
                content.noise(&mut self.rng, 100);
            }
        }
        elements.extended = true;
        self.known(draft, 5, content);
    }

    fn trim_item(&mut self, draft: &mut Draft, elements: &mut Elements) {
        let alternate = self.alternate_id(elements, 2);
        let mut content = self.element_start(alternate);
        if elements.trim.is_some() {
            draft.fail(6);
            self.mark_refused(alternate, 1);
            content.noise(&mut self.rng, 20);
        } else {
            let objects = usize::from(elements.programme.objects);
            elements.trim = Some(self.trim_element(&mut content, objects));
        }
        self.known(draft, 2, content);
    }

    /// The alternate id of a known element, where such ids are sent: 0 for the
    /// object element, any for the others (Table 27).
    fn alternate_id(&mut self, elements: &Elements, id: usize) -> Option<usize> {
        if !elements.alternate {
            return None;
        }
        let other = id != 1 && self.rng.chance(50);
        let mark = match id {
            1 => 0,
            5 => 1,
            _ => 3,
        };
        self.marks
            .set(Group::AlternateId, mark + usize::from(other));
        Some(if other { self.rng.within(1, 15) } else { 0 })
    }

    /// Marks an element that is refused, if its alternate id is not 0.
    fn mark_refused(&mut self, alternate: Option<usize>, mark: usize) {
        if alternate.is_some_and(|id| id != 0) {
            self.marks.set(Group::RefusedAlternate, mark);
        }
    }

    /// The alternate id of a known element and its discard flag.
    pub(super) fn element_start(&mut self, alternate: Option<usize>) -> Draft {
        let mut content = Draft::default();
        if let Some(id) = alternate {
            content.field(4, id);
        }
        content.flag(self.rng.chance(50));
        content
    }

    /// A known element: just long enough, longer, or too short.
    fn known(&mut self, draft: &mut Draft, id: usize, content: Draft) {
        let mark = match id {
            1 => 0,
            5 => 1,
            _ => 2,
        };
        self.marks.set(Group::Element, mark);
        draft.field(4, id);
        let exact = content.len().div_ceil(8);
        let chance = if id == 5 { 100 } else { 50 };
        let short = exact > 1
            && (self.place_fault(Fault::ShortElement, chance)
                || (id == 2 && self.place_fault(Fault::ShortTrim, 100)));
        let bytes = if short {
            let any = self.rng.within(1, exact - 1);
            self.rng.pick(&[1, exact - 1, any])
        } else {
            match self.rng.below(40) {
                0..=29 => exact,
                30..=37 => exact + self.rng.below(20),
                38 => exact + self.rng.below(300),
                _ => exact + self.rng.pick(&[16, 256, 257, 272, 273]),
            }
        };
        let groups = draft.size(bytes);
        self.marks.set(Group::SizeGroups, groups);
        let padding = (8 * bytes).saturating_sub(content.len());
        let mark = match padding {
            0 => 0,
            1..=7 => 1,
            _ => 2,
        };
        self.marks.set(Group::Padding, mark);
        draft.content(content, 8 * bytes);
        draft.noise(&mut self.rng, padding);
    }

    pub(super) fn unknown_bytes(&mut self) -> usize {
        match self.rng.below(100) {
            0..=89 => self.rng.within(1, 6),
            90..=96 => self.rng.pick(&[1, 15, 16, 17, 18, 271, 272, 273]),
            97..=98 => self.rng.within(1, 60),
            _ => self.rng.within(272, 900),
        }
    }

    /// An element of another id, or an object element of another alternate id.
    pub(super) fn unknown(&mut self, draft: &mut Draft, alternate: bool, bytes: usize) {
        let object = alternate && self.rng.chance(40);
        let ids = [0, 3, 4, 6, 7, 8, 9, 10, 11, 12, 13, 14, 15];
        let id = if object { 1 } else { self.rng.pick(&ids) };
        draft.field(4, id);
        let groups = draft.size(bytes);
        self.marks.set(Group::SizeGroups, groups);
        let mut width = 8 * bytes;
        if alternate {
            let least = usize::from(object);
            let id = self.rng.within(least, 15);
            draft.number(4, id);
            width -= 4;
        }
        draft.noise(&mut self.rng, width);
        let mark = if object { OTHER_OBJECT } else { 3 };
        self.marks.set(Group::Element, mark);
    }

    /// An element whose declared size passes the end of the payload, by less
    /// than two bytes or by far; nothing is written after it.
    pub(super) fn long_size(&mut self, draft: &mut Draft) {
        draft.field(4, self.rng.below(16));
        draft.fail(2);
        let bytes = match self.rng.below(6) {
            0..=2 => self.rng.within(1, 300),
            3 => self.rng.within(4369, 69_904),
            4 => self.rng.within(69_905, 1_118_480),
            _ => self.rng.pick(&[4368, 4369, 69_904, 69_905, 1_118_480]),
        };
        let groups = draft.size(bytes);
        self.marks.set(Group::SizeGroups, groups);
        let end = (draft.len() + 8 * bytes - 1) / 8 * 8;
        let width = end.saturating_sub(draft.len());
        let near = width.min(draft.len().next_multiple_of(8) - draft.len() + 80);
        draft.noise(&mut self.rng, if width < 2500 { width } else { near });
    }
}
