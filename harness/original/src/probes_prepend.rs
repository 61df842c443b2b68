impl PrependableEncoder<'_> {
    /// First code and count of each state.
    pub fn probe_states(&self) -> impl Iterator<Item = (u32, u32)> + '_ {
        self.states.iter().map(|s| (s.prev_token, s.count))
    }
}
