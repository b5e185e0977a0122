//! The rules of the answer reader in plain Rust, to compare with.

pub struct Answer<'a> {
    pub code: u16,
    pub token: Option<&'a [u8]>,
    pub allowed: Option<Allowed<'a>>,
    pub body: &'a [u8],
}

pub enum Allowed<'a> {
    Everybody,
    Site(#[allow(dead_code)] &'a [u8], #[allow(dead_code)] u16),
}

#[derive(Clone, Copy)]
pub enum Fault {
    Unreadable,
    Value,
}

fn is_text(b: u8) -> bool {
    (b == b'\t' || b >= b' ') && b != 127
}

fn is_token(b: u8) -> bool {
    matches!(b, 33 | 35..=39 | 42..=43 | 45..=46 | 48..=57 | 65..=90 | 94..=122 | 124 | 126)
}

fn is_blank(b: u8) -> bool {
    b == b'\t' || b == b' '
}

fn split(s: &[u8], class: impl Fn(u8) -> bool) -> (&[u8], &[u8]) {
    s.split_at(s.iter().position(|b| !class(*b)).unwrap_or(s.len()))
}

fn line_then(s: &[u8]) -> Option<(&[u8], &[u8])> {
    let (line, end) = split(s, is_text);
    Some((line, end.strip_prefix(b"\r\n")?))
}

fn trim(v: &[u8]) -> &[u8] {
    let (_, v) = split(v, is_blank);
    let end = v.iter().rposition(|b| !is_blank(*b)).map_or(0, |i| i + 1);
    &v[..end]
}

fn field_of(line: &[u8]) -> Option<(&[u8], &[u8])> {
    let (name, end) = split(line, is_token);
    if name.is_empty() {
        return None;
    }
    Some((name, trim(end.strip_prefix(b":")?)))
}

fn number(s: &[u8], max: u32) -> Option<u32> {
    s.iter().try_fold(0u32, |n, b| {
        let n = n.checked_mul(10)?.checked_add(u32::from(*b - b'0'))?;
        (n <= max).then_some(n)
    })
}

fn is_label(l: &[u8]) -> bool {
    (1..=63).contains(&l.len())
        && l.iter().all(|b| matches!(b, b'a'..=b'z' | b'0'..=b'9' | b'-'))
        && l[0] != b'-'
        && l[l.len() - 1] != b'-'
}

fn is_host(h: &[u8]) -> bool {
    let mut labels = 0;
    h.split(|b| *b == b'.').all(|l| {
        labels += 1;
        is_label(l)
    }) && labels <= 8
}

fn read_site(v: &[u8]) -> Option<(&[u8], u16)> {
    let rest = v.strip_prefix(b"https://")?;
    let (host, port) = split(rest, |b| b != b':');
    if !is_host(host) {
        return None;
    }
    let Some(digits) = port.strip_prefix(b":") else {
        return port.is_empty().then_some((host, 443));
    };
    if digits.is_empty() || digits[0] == b'0' || !digits.iter().all(u8::is_ascii_digit) {
        return None;
    }
    Some((host, number(digits, 65_535)? as u16))
}

fn allowed_of(v: &[u8]) -> Option<Allowed<'_>> {
    if v == b"*" {
        return Some(Allowed::Everybody);
    }
    read_site(v).map(|(host, port)| Allowed::Site(host, port))
}

/// Reads an answer whose body has at most `limit` bytes.
pub fn read_answer(limit: u32, s: &[u8]) -> Result<Answer<'_>, Fault> {
    let rest = s.strip_prefix(b"HTTP/1.1 ").ok_or(Fault::Unreadable)?;
    let (digits, rest) = split(rest, |b| b.is_ascii_digit());
    if digits.len() != 3 {
        return Err(Fault::Unreadable);
    }
    let code = number(digits, 999).ok_or(Fault::Unreadable)? as u16;
    let rest = rest.strip_prefix(b" ").ok_or(Fault::Unreadable)?;
    let (_, mut rest) = line_then(rest).ok_or(Fault::Unreadable)?;
    let mut names: Vec<&[u8]> = Vec::with_capacity(16);
    let (mut length, mut token, mut allowed) = (None, None, None);
    loop {
        let (line, next) = line_then(rest).ok_or(Fault::Unreadable)?;
        rest = next;
        if line.is_empty() {
            break;
        }
        let (name, value) = field_of(line).ok_or(Fault::Unreadable)?;
        if name.eq_ignore_ascii_case(b"transfer-encoding") {
            return Err(Fault::Unreadable);
        } else if name.eq_ignore_ascii_case(b"content-length") {
            if value.is_empty() || !value.iter().all(u8::is_ascii_digit) {
                return Err(Fault::Value);
            }
            length = Some(number(value, limit).ok_or(Fault::Unreadable)?);
        } else if name.eq_ignore_ascii_case(b"set-cookie") {
            if value.len() > 64 || !value.iter().all(|b| matches!(b, b'!'..=b'~')) {
                return Err(Fault::Value);
            }
            token = Some(value);
        } else if name.eq_ignore_ascii_case(b"access-control-allow-origin") {
            allowed = Some(allowed_of(value).ok_or(Fault::Value)?);
        }
        if names.iter().any(|n| n.eq_ignore_ascii_case(name)) {
            return Err(Fault::Value);
        }
        names.push(name);
    }
    if length.map(|n| n as usize) != Some(rest.len()) {
        return Err(Fault::Unreadable);
    }
    Ok(Answer { code, token, allowed, body: rest })
}
