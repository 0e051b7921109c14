//! Misreadings of 02, P3: names by diagonal, from version 2.

use super::Variant;
use crate::grid::{Name, Place, Settings};
use crate::refusal::Refusal;
use crate::rules::{Grid, Rules};

/// The column in place of the row: d(d+1)/2 + c.
pub struct NamesByColumn;

impl Rules for NamesByColumn {
    fn name(&self, settings: Settings, place: Place) -> Name {
        let Place { r, c } = place;
        settings.name(if settings.version == 2 { Place { r: c, c: r } } else { place })
    }
}

/// The row rule in version 2 too.
pub struct RowsInVersion2;

impl Rules for RowsInVersion2 {
    fn name(&self, settings: Settings, place: Place) -> Name {
        settings.of_version(1).name(place)
    }
}

/// The diagonal rule in version 1 too.
pub struct DiagonalsInVersion1;

impl Rules for DiagonalsInVersion1 {
    fn name(&self, settings: Settings, place: Place) -> Name {
        settings.of_version(2).name(place)
    }
}

/// Version 0 taken as 1.
pub struct Version0;

impl Rules for Version0 {
    fn test_settings(&self, settings: Settings) -> Result<(), Refusal> {
        Grid.test_settings(settings.of_version(settings.version.max(1)))
    }
}

/// Version 3 taken as 2.
pub struct Version3;

impl Rules for Version3 {
    fn test_settings(&self, settings: Settings) -> Result<(), Refusal> {
        let version = if settings.version == 3 { 2 } else { settings.version };
        Grid.test_settings(settings.of_version(version))
    }
}

/// Of the version only the low byte is tested.
pub struct VersionByLowByte;

impl Rules for VersionByLowByte {
    fn test_settings(&self, settings: Settings) -> Result<(), Refusal> {
        Grid.test_settings(settings.of_version(settings.version % 256))
    }
}

/// An unknown version in the settings of a call is refused by 10, as in a file.
pub struct VersionByTen;

impl Rules for VersionByTen {
    fn test_settings(&self, settings: Settings) -> Result<(), Refusal> {
        if settings.version_known() {
            Grid.test_settings(settings)
        } else {
            Err(Refusal::Version)
        }
    }
}

pub const ALL: [Variant; 7] = [
    Variant::both("names-by-column", &NamesByColumn),
    Variant::both("rows-in-version-2", &RowsInVersion2),
    Variant::both("diagonals-in-version-1", &DiagonalsInVersion1),
    Variant::by_calls("version-0", &Version0),
    Variant::by_calls("version-3", &Version3),
    Variant::by_calls("version-by-low-byte", &VersionByLowByte),
    Variant::by_calls("version-by-ten", &VersionByTen),
];
