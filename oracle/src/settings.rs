//! Settings: the two kinds, their byte forms and the reading of a form.

/// The kind of setting that a whole session holds.
#[derive(Clone, Copy, Debug, PartialEq, Eq)]
pub enum SettingKind {
    Colour,
    Link,
}

/// A setting of either kind.
#[derive(Clone, Copy, Debug, PartialEq, Eq)]
pub enum Setting {
    /// Lift, gamma and gain, each a count of 65,536ths.
    Colour([i32; 3]),
    /// No node, or a node number.
    Link(Option<u64>),
}

impl SettingKind {
    /// X, the number of bytes of a form.
    pub fn width(self) -> usize {
        match self {
            SettingKind::Colour => 12,
            SettingKind::Link => 9,
        }
    }

    /// What every node holds at first.
    pub fn start(self) -> Setting {
        match self {
            SettingKind::Colour => Setting::Colour([0; 3]),
            SettingKind::Link => Setting::Link(None),
        }
    }

    /// The setting whose form these bytes are, if there is one.
    pub fn read(self, bytes: &[u8]) -> Option<Setting> {
        match self {
            SettingKind::Colour => read_colour(bytes),
            SettingKind::Link => read_link(bytes),
        }
    }
}

impl Setting {
    /// The bytes of the setting.
    pub fn form(self) -> Vec<u8> {
        match self {
            Setting::Colour(numbers) => numbers.iter().flat_map(|n| n.to_be_bytes()).collect(),
            Setting::Link(None) => vec![0; 9],
            Setting::Link(Some(node)) => {
                let mut form = vec![1];
                form.extend(node.to_be_bytes());
                form
            }
        }
    }
}

/// Every 12 bytes are some colour's form.
fn read_colour(bytes: &[u8]) -> Option<Setting> {
    if bytes.len() != 12 {
        return None;
    }
    let number =
        |at: usize| i32::from_be_bytes([bytes[at], bytes[at + 1], bytes[at + 2], bytes[at + 3]]);
    Some(Setting::Colour([number(0), number(4), number(8)]))
}

/// `00` and eight zero bytes, or `01` and a node number; nothing else.
fn read_link(bytes: &[u8]) -> Option<Setting> {
    let (tag, number) = bytes.split_first()?;
    let number: [u8; 8] = number.try_into().ok()?;
    match tag {
        0 if number == [0; 8] => Some(Setting::Link(None)),
        1 => Some(Setting::Link(Some(u64::from_be_bytes(number)))),
        _ => None,
    }
}

#[cfg(test)]
mod tests {
    use super::*;

    const COLOURS: [([i32; 3], [u8; 12]); 3] = [
        ([1, -1, 0], [0, 0, 0, 1, 0xff, 0xff, 0xff, 0xff, 0, 0, 0, 0]),
        (
            [i32::MIN, i32::MAX, 65_536],
            [0x80, 0, 0, 0, 0x7f, 0xff, 0xff, 0xff, 0, 1, 0, 0],
        ),
        ([0, 0, 0], [0; 12]),
    ];

    #[test]
    fn colours_have_their_forms() {
        for (numbers, form) in COLOURS {
            let setting = Setting::Colour(numbers);
            assert_eq!(setting.form(), form);
            assert_eq!(SettingKind::Colour.read(&form), Some(setting));
        }
    }

    #[test]
    fn links_have_their_forms() {
        let forms = [
            (None, [0, 0, 0, 0, 0, 0, 0, 0, 0]),
            (Some(0), [1, 0, 0, 0, 0, 0, 0, 0, 0]),
            (Some(0x0102_0304_0506_0708), [1, 1, 2, 3, 4, 5, 6, 7, 8]),
            (Some(u64::MAX), [1, 255, 255, 255, 255, 255, 255, 255, 255]),
        ];
        for (node, form) in forms {
            let setting = Setting::Link(node);
            assert_eq!(setting.form(), form);
            assert_eq!(SettingKind::Link.read(&form), Some(setting));
        }
    }

    #[test]
    fn a_form_is_as_wide_as_its_kind() {
        assert_eq!(Setting::Colour([0; 3]).form().len(), 12);
        assert_eq!(SettingKind::Colour.width(), 12);
        assert_eq!(Setting::Link(None).form().len(), 9);
        assert_eq!(Setting::Link(Some(1)).form().len(), 9);
        assert_eq!(SettingKind::Link.width(), 9);
    }

    #[test]
    fn other_widths_are_declined() {
        for length in (0..40).filter(|length| *length != 12) {
            assert_eq!(SettingKind::Colour.read(&vec![0; length]), None);
        }
        for length in (0..40).filter(|length| *length != 9) {
            assert_eq!(SettingKind::Link.read(&vec![0; length]), None);
        }
    }

    #[test]
    fn what_is_no_link_is_declined() {
        for place in 1..9 {
            let mut bytes = [0; 9];
            bytes[place] = 1;
            assert_eq!(SettingKind::Link.read(&bytes), None);
        }
        for tag in 2..=255 {
            assert_eq!(SettingKind::Link.read(&[tag, 0, 0, 0, 0, 0, 0, 0, 0]), None);
        }
    }
}
