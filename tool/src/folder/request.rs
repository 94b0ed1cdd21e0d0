//! One line of requests.tsv.

use keeper::terms::read;

/// A request, or what is none.
#[derive(Clone, Copy, Debug, PartialEq, Eq)]
pub enum Request {
    /// Event, initiator and target; the numbers may be out of range.
    Ask { event: usize, from: usize, to: usize },
    /// Not a request line: refused with 1.
    Malformed,
}

impl Request {
    /// Reads a line that ends with its line feed.
    pub fn read(line: &[u8]) -> Request {
        Request::fields(line).unwrap_or(Request::Malformed)
    }

    fn fields(line: &[u8]) -> Option<Request> {
        match read::fields(line.strip_suffix(b"\n")?)[..] {
            [b"R", event, from, to] => Some(Request::Ask {
                event: read::number(event)?,
                from: read::number(from)?,
                to: read::number(to)?,
            }),
            _ => None,
        }
    }
}

#[cfg(test)]
mod tests {
    use super::*;

    #[test]
    fn request_lines() {
        let ask = Request::Ask { event: 2, from: 1, to: 0 };
        assert_eq!(Request::read(b"R\t2\t1\t0\n"), ask);
        assert_eq!(Request::read(b"R\t02\t001\t00000\n"), ask);
        for wrong in [&b"R\t2\t1\t0"[..], b"R 2 1 0\n", b"R\t000002\t1\t0\n", b"\n"] {
            assert_eq!(Request::read(wrong), Request::Malformed);
        }
    }
}
