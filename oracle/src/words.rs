//! The words in which the tools name kinds, settings and slots.

use crate::script::{number, signed_number};
use crate::session::SuiteSlot;
use crate::settings::{Setting, SettingKind};
use crate::summaries::SummaryKind;

/// A setting as a `write` line has it.
pub fn setting_words(setting: Setting) -> String {
    match setting {
        Setting::Colour([lift, gamma, gain]) => format!("{lift} {gamma} {gain}"),
        Setting::Link(None) => "none".to_string(),
        Setting::Link(Some(node)) => node.to_string(),
    }
}

/// The setting of the kind that these fields are.
pub fn setting(kind: SettingKind, fields: &[&[u8]]) -> Option<Setting> {
    match (kind, fields) {
        (SettingKind::Colour, [lift, gamma, gain]) => Some(Setting::Colour([
            signed_number(lift)?,
            signed_number(gamma)?,
            signed_number(gain)?,
        ])),
        (SettingKind::Link, [b"none"]) => Some(Setting::Link(None)),
        (SettingKind::Link, [node]) => Some(Setting::Link(Some(number(node)?))),
        _ => None,
    }
}

pub fn setting_kind(field: &[u8]) -> Option<SettingKind> {
    match field {
        b"colour" => Some(SettingKind::Colour),
        b"link" => Some(SettingKind::Link),
        _ => None,
    }
}

pub fn summary_kind(field: &[u8]) -> Option<SummaryKind> {
    match field {
        b"exact" => Some(SummaryKind::Exact),
        b"bloom" => Some(SummaryKind::Bloom),
        _ => None,
    }
}

pub fn suite_slot(suite: &[u8], slot: &[u8]) -> Option<SuiteSlot> {
    Some(SuiteSlot {
        suite: number(suite)?,
        slot: number(slot)?,
    })
}
