//! A spelled value, taken apart as far as the comparison needs it.

pub struct Value<'a> {
    pub ty: &'a [u8],
    pub scalar: &'a [u8],
    pub lanes: Vec<u64>,
}

impl<'a> Value<'a> {
    /// The type without its scalar: `vec2<`, `mat2x3<`, or nothing.
    pub fn shape(&self) -> &'a [u8] {
        match self.ty.iter().position(|&byte| byte == b'<') {
            Some(bracket) => &self.ty[..=bracket],
            None => b"",
        }
    }

    fn read(field: &[u8]) -> Option<Value<'_>> {
        let colon = field.iter().position(|&byte| byte == b':')?;
        let ty = &field[..colon];
        let scalar = match ty.iter().position(|&byte| byte == b'<') {
            Some(bracket) => ty[bracket + 1..].strip_suffix(b">")?,
            None => ty,
        };
        let lane = |digits: &[u8]| u64::from_str_radix(std::str::from_utf8(digits).ok()?, 16).ok();
        let lanes = field[colon + 1..].split(|&byte| byte == b',').map(lane).collect::<Option<Vec<_>>>()?;
        Some(Value { ty, scalar, lanes })
    }
}

/// Fields parted by tabs, all of them values.
pub fn read_values(fields: &[u8]) -> Option<Vec<Value<'_>>> {
    fields.split(|&byte| byte == b'\t').map(Value::read).collect()
}
