impl IntervalEncoding<'_> {
    /// Last codes, tree numbers, tree ends and depths.
    pub fn probe_tables(&self) -> [&[u32]; 4] {
        [&self.last_token, &self.tree_id, &self.tree_end, &self.tree_depth]
    }
}
