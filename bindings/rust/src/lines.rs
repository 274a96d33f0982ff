//! The lines that the command `cvss score` prints.

use crate::calls;
use crate::library::ALLOW_INCOMPLETE;

/// The line that the command `cvss score` prints for a text, which need not be UTF-8, without the
/// newline: the canonical text, the score and its severity, or `error: ` and the message.
///
/// ```
/// let line = cvss_proved::score_line(b"AV:N/AC:L/Au:N/C:N/I:N/A:C");
/// assert_eq!(line, "AV:N/AC:L/Au:N/C:N/I:N/A:C 7.8 high");
/// ```
#[must_use]
pub fn score_line(text: &[u8]) -> String {
    calls::score_line(text, 0)
}

/// [`score_line`], but a v3 vector may lack base metrics.
#[must_use]
pub fn score_line_incomplete(text: &[u8]) -> String {
    calls::score_line(text, ALLOW_INCOMPLETE)
}

/// The lines that the command `cvss score` prints for the lines of a text, as one text. Each line ends
/// with a newline, with or without one carriage return before it; a last line without a newline is not
/// scored.
#[must_use]
pub fn score_lines(lines: &[u8]) -> String {
    calls::score_lines(lines, 0)
}

/// [`score_lines`], but v3 vectors may lack base metrics.
#[must_use]
pub fn score_lines_incomplete(lines: &[u8]) -> String {
    calls::score_lines(lines, ALLOW_INCOMPLETE)
}
