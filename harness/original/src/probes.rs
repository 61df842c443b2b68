
impl BytePairEncoding {
    pub fn probe_parts(&self) -> &[(u32, u32)] {
        &self.split_table
    }

    pub fn probe_prefixes(&self) -> &[u32] {
        &self.next_prefix_match
    }

    pub fn probe_pair(&self, token1: u32, token2: u32) -> bool {
        self.is_valid_token_pair(token1, token2)
    }

    pub fn probe_find(&self, bytes: &[u8]) -> Option<u32> {
        self.find_token_by_bytes(bytes)
    }

    pub fn probe_listed(&self, token1: u32, token2: u32) -> Option<u32> {
        self.pair_lookup.get(&(token1, token2)).copied()
    }
}

pub fn probe_hash(bytes: &[u8], factor: u64) -> u32 {
    hash_bytes(bytes, factor)
}
