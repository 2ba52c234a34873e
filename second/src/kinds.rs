//! Kinds and flags: the two octets that stand beside every area.

pub const ACCESS_REQUEST: u8 = 1;
pub const START: u8 = 2;
pub const STOP: u8 = 3;
pub const ON: u8 = 4;
pub const OFF: u8 = 5;
pub const INTERIM_UPDATE: u8 = 6;

/// Flag: PAP was used.
pub const PAP: u8 = 1;
/// Flag: CHAP was used.
pub const CHAP: u8 = 2;
/// Flag: Class was received in the Access-Accept.
pub const CLASS_RECEIVED: u8 = 4;

/// Kinds are 1 to 6.
pub fn kind_allowed(kind: u8) -> bool {
    (ACCESS_REQUEST..=INTERIM_UPDATE).contains(&kind)
}

/// Allowed flag numbers, for every kind. PAP and CHAP together are not among them.
pub fn flags_allowed(flags: u8) -> bool {
    [0, 1, 2, 4, 5, 6].contains(&flags)
}

/// START, STOP and Interim-Update: the messages of one session.
pub fn is_session_accounting(kind: u8) -> bool {
    [START, STOP, INTERIM_UPDATE].contains(&kind)
}

/// ON and OFF: the messages of the gateway itself.
pub fn is_on_or_off(kind: u8) -> bool {
    [ON, OFF].contains(&kind)
}
