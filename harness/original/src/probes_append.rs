impl AppendableEncoder<'_> {
    /// Last code and count of each state.
    pub fn probe_states(&self) -> impl Iterator<Item = (u32, u32)> + '_ {
        self.states.iter().map(|s| (s.last_token, s.count))
    }
}
