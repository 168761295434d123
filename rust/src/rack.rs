//! A chooser for the rack: 32 slots for faces, and the loaded face that is nearest to what is asked for.
//!
//! A [`Rack`] is a value that the caller holds. A font is loaded into a slot by its two tables, and what is kept of it is a
//! [`Face`]: its family, weight, width class and slope. A request names these four, and is answered with a slot.
//!
//! A load checks both tables. Where it is refused by the level or the slot it reads neither, and where it is refused by the
//! 'OS/2' table it does not read the 'name' table.
//!
//! ```
//! use gyalvindor::rack::{Face, Rack};
//! use gyalvindor::{os2, Refusal};
//!
//! // A family is bytes as they stand in the 'name' table, two for each character: this is "Ab".
//! let family = [0, b'A', 0, b'b'];
//! let name = [
//!     0, 0, 0, 1, 0, 18, // format 0, one record, storage starts at byte 18
//!     0, 3, 0, 1, 4, 9, 0, 1, 0, 4, 0, 0, // (3, 1, 0x409, 1), length 4, offset 0
//!     0, b'A', 0, b'b',
//! ];
//! // Version 0: 78 zero bytes but weight 400 and width 5. The second one has weight 700.
//! let mut regular = [0; 78];
//! regular[4..8].copy_from_slice(&[1, 144, 0, 5]);
//! let mut bold = regular;
//! bold[4..6].copy_from_slice(&[2, 188]);
//!
//! let mut rack = Rack::new();
//! rack.load(0, os2::NEWEST, &regular, &name)?;
//! rack.load(1, os2::NEWEST, &bold, &name)?;
//! let face = Face { family: &family, weight: 700, width: 5, sloped: false };
//! assert_eq!(rack.face(1), Some(face));
//! assert_eq!(rack.face(2), None);
//!
//! // Weight 600 is nearer to 700 than to 400.
//! assert_eq!(rack.request(&family, 600, 5, false), Ok(1));
//! // No loaded face is sloped, so an upright one is chosen.
//! assert_eq!(rack.request(&family, 400, 5, true), Ok(0));
//! // One byte a character is another family.
//! assert_eq!(rack.request(b"Ab", 400, 5, false), Err(Refusal::NoSuchFamily));
//! # Ok::<(), Refusal>(())
//! ```

use core::fmt;

use crate::raw;
use crate::Refusal;

/// How many slots a rack has. They are numbered from 0.
pub const SLOTS: u32 = 32;
/// The most bytes that a loaded face's family has.
pub const FAMILY_BYTES: usize = 64;

/// What a slot holds.
#[derive(Clone, Copy, Debug, PartialEq, Eq, Hash)]
pub struct Face<'a> {
    /// The family, 1 to 64 bytes as they stand in the 'name' table.
    pub family: &'a [u8],
    /// The weight, 1 to 1000.
    pub weight: u16,
    /// The width class, 1 to 9.
    pub width: u16,
    /// Whether fsSelection bit 0 is set.
    pub sloped: bool,
}

/// A rack of 32 slots, numbered 0 to 31. Each is empty or holds a [`Face`].
///
/// It has 2,304 bytes, and so is cloned and not copied. Two racks are equal where each slot holds the same in both.
#[derive(Clone)]
pub struct Rack {
    raw: raw::Rack,
}

impl Rack {
    /// A rack of empty slots.
    ///
    /// ```
    /// use gyalvindor::rack::Rack;
    ///
    /// assert_eq!(Rack::new().faces().count(), 0);
    /// ```
    pub fn new() -> Rack {
        Rack {
            raw: raw::rack_empty(),
        }
    }

    /// Loads a font, by its two tables read at a level, into an empty slot. No other slot changes.
    ///
    /// The family is the string of the record (3, 1, 0x409, 16), or of (3, 1, 0x409, 1) where there is no such record: 1 to 64
    /// bytes, whatever they are. The level is not kept.
    ///
    /// # Errors
    ///
    /// In this order: [`Refusal::UnknownLevel`], [`Refusal::NoSuchSlot`], [`Refusal::SlotTaken`]; then of the 'OS/2' table
    /// [`Refusal::Os2TooShort`], [`Refusal::ValueRule`], [`Refusal::NewerThanLevel`]; then those of
    /// [`name::check`](crate::name::check), [`Refusal::NoRecord`] where neither record is there, [`Refusal::FamilyLength`]. No
    /// slot changes then.
    ///
    /// # Examples
    ///
    /// ```
    /// use gyalvindor::rack::Rack;
    /// use gyalvindor::Refusal;
    ///
    /// // Version 4, 96 bytes.
    /// let mut os2 = [0; 96];
    /// os2[1] = 4;
    /// os2[4..8].copy_from_slice(&[1, 144, 0, 5]); // weight 400, width 5
    /// let mut name = [
    ///     0, 0, 0, 1, 0, 18, // format 0, one record, storage starts at byte 18
    ///     0, 3, 0, 1, 4, 9, 0, 16, 0, 2, 0, 0, // (3, 1, 0x409, 16), length 2, offset 0
    ///     0, b'A',
    /// ];
    ///
    /// let mut rack = Rack::new();
    /// rack.load(31, 4, &os2, &name)?;
    ///
    /// // What is refused changes nothing.
    /// let before = rack.clone();
    /// assert_eq!(rack.load(31, 4, &os2, &name), Err(Refusal::SlotTaken));
    /// assert_eq!(rack.load(32, 4, &os2, &name), Err(Refusal::NoSuchSlot));
    /// assert_eq!(rack.load(0, 3, &os2, &name), Err(Refusal::NewerThanLevel));
    /// assert_eq!(rack.load(0, 4, &os2[..95], &name), Err(Refusal::Os2TooShort));
    /// name[15] = 0; // the string's length
    /// assert_eq!(rack.load(0, 4, &os2, &name), Err(Refusal::FamilyLength));
    /// name[13] = 2; // name 2 is no family
    /// assert_eq!(rack.load(0, 4, &os2, &name), Err(Refusal::NoRecord));
    /// assert_eq!(rack, before);
    /// # Ok::<(), Refusal>(())
    /// ```
    pub fn load(&mut self, slot: u32, level: u32, os2: &[u8], name: &[u8]) -> Result<(), Refusal> {
        self.take(raw::rack_load(&self.raw, slot, level, os2, name))
    }

    /// Empties a slot. No other slot changes.
    ///
    /// # Errors
    ///
    /// In this order: [`Refusal::NoSuchSlot`], [`Refusal::SlotEmpty`]. No slot changes then.
    ///
    /// # Examples
    ///
    /// ```
    /// use gyalvindor::rack::Rack;
    /// use gyalvindor::Refusal;
    ///
    /// let mut os2 = [0; 78];
    /// os2[4..8].copy_from_slice(&[1, 144, 0, 5]); // weight 400, width 5
    /// let name = [
    ///     0, 0, 0, 1, 0, 18, // format 0, one record, storage starts at byte 18
    ///     0, 3, 0, 1, 4, 9, 0, 1, 0, 2, 0, 0, // (3, 1, 0x409, 1), length 2, offset 0
    ///     0, b'A',
    /// ];
    ///
    /// let mut rack = Rack::new();
    /// rack.load(7, 5, &os2, &name)?;
    /// rack.unload(7)?;
    /// assert_eq!(rack, Rack::new());
    /// assert_eq!(rack.unload(7), Err(Refusal::SlotEmpty));
    /// assert_eq!(rack.unload(32), Err(Refusal::NoSuchSlot));
    /// # Ok::<(), Refusal>(())
    /// ```
    pub fn unload(&mut self, slot: u32) -> Result<(), Refusal> {
        self.take(raw::rack_unload(&self.raw, slot))
    }

    /// The slot of the face that is chosen among the loaded faces with exactly this family.
    ///
    /// A face with the wanted slope comes first, then the smallest difference of width classes, then the smallest difference
    /// of weights, then the lower weight, then the lower slot. Where no face has the slope, one of the other slope is chosen.
    /// Weight and width may be any numbers, and the family any bytes.
    ///
    /// # Errors
    ///
    /// [`Refusal::NoSuchFamily`].
    ///
    /// # Examples
    ///
    /// ```
    /// use gyalvindor::rack::Rack;
    /// use gyalvindor::Refusal;
    ///
    /// let name = [
    ///     0, 0, 0, 1, 0, 18, // format 0, one record, storage starts at byte 18
    ///     0, 3, 0, 1, 4, 9, 0, 1, 0, 2, 0, 0, // (3, 1, 0x409, 1), length 2, offset 0
    ///     0, b'A',
    /// ];
    /// let family = [0, b'A'];
    ///
    /// // For slots 0 to 3: weight, width, and fsSelection, of which bit 0 says that a face is sloped.
    /// let fonts = [[200, 5, 0], [100, 5, 0], [100, 4, 0], [250, 9, 1]];
    /// let mut rack = Rack::new();
    /// for (slot, [weight, width, selection]) in (0..).zip(fonts) {
    ///     let mut os2 = [0; 78];
    ///     os2[5] = weight;
    ///     os2[7] = width;
    ///     os2[63] = selection;
    ///     rack.load(slot, 5, &os2, &name)?;
    /// }
    ///
    /// // The slope counts most, then the width.
    /// assert_eq!(rack.request(&family, 100, 5, true), Ok(3));
    /// assert_eq!(rack.request(&family, 200, 4, false), Ok(2));
    /// // Weights 100 and 200 are equally near to 150, and the lower one is chosen.
    /// assert_eq!(rack.request(&family, 150, 6, false), Ok(1));
    /// assert_eq!(rack.request(&family, u32::MAX, 5, false), Ok(0));
    ///
    /// assert_eq!(rack.request(&[0, b'B'], 100, 5, false), Err(Refusal::NoSuchFamily));
    /// # Ok::<(), Refusal>(())
    /// ```
    pub fn request(
        &self,
        family: &[u8],
        weight: u32,
        width: u32,
        sloped: bool,
    ) -> Result<u32, Refusal> {
        let raw = raw::rack_request(&self.raw, family, weight, width, u32::from(sloped));
        Refusal::checked(raw.refusal)?;
        Ok(raw.slot)
    }

    /// The face in a slot; nothing where the slot is empty or above 31.
    pub fn face(&self, slot: u32) -> Option<Face<'_>> {
        let slot = self.raw.slots.get(usize::try_from(slot).ok()?)?;
        let length = usize::from(slot.length);
        if length == 0 {
            return None;
        }
        Some(Face {
            family: slot.family.get(..length)?,
            weight: slot.weight,
            width: slot.width,
            sloped: slot.sloped != 0,
        })
    }

    /// The loaded faces with their slots, in the order of slots.
    pub fn faces(&self) -> impl Iterator<Item = (u32, Face<'_>)> {
        (0..SLOTS).filter_map(|slot| Some((slot, self.face(slot)?)))
    }

    /// Takes the rack after a call, where the call is not refused.
    fn take(&mut self, loaded: raw::Loaded) -> Result<(), Refusal> {
        Refusal::checked(loaded.refusal)?;
        self.raw = loaded.rack;
        Ok(())
    }
}

/// A rack of empty slots.
impl Default for Rack {
    fn default() -> Rack {
        Rack::new()
    }
}

/// Bytes that belong to no face are not compared.
impl PartialEq for Rack {
    fn eq(&self, other: &Rack) -> bool {
        self.faces().eq(other.faces())
    }
}

impl Eq for Rack {}

/// The loaded faces by their slots.
impl fmt::Debug for Rack {
    fn fmt(&self, f: &mut fmt::Formatter<'_>) -> fmt::Result {
        f.debug_map().entries(self.faces()).finish()
    }
}
