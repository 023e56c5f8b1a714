//! The types in a packet, for readers that take a type that comes again wrongly.

/// The four-byte number at a place.
fn word(bytes: &[u8], place: usize) -> Option<u32> {
    Some(u32::from_le_bytes(bytes.get(place..place + 4)?.try_into().ok()?))
}

/// Where the records of a packet start by their lengths, and their types, whether these and the lengths are legal or not.
pub fn tags(packet: &[u8]) -> Vec<(usize, u32)> {
    let (mut tags, mut place) = (Vec::new(), 40);
    while tags.len() < word(packet, 32).unwrap_or(0) as usize {
        let Some(tag) = word(packet, place) else { break };
        tags.push((place, tag));
        let Some(length) = word(packet, place + 4) else { break };
        place += 8 + length as usize;
    }
    tags
}

/// Where the records start whose types may not stand behind those before them by this rule.
pub fn repeated(packet: &[u8], is_excluded: fn(u32, &[u32]) -> bool) -> Vec<usize> {
    let tags = tags(packet);
    let types: Vec<u32> = tags.iter().map(|&(_, tag)| tag).collect();
    let found = tags.iter().enumerate().filter(|&(index, &(_, tag))| is_excluded(tag, &types[..index]));
    found.map(|(_, &(place, _))| place).collect()
}
