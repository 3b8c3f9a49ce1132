//! What a hash with a step per byte has to define.

// What follows is the proved text of crates/hash_laws/src/rules/byte_rule.rt without its contracts.

/// The first part of a rule with a step per byte: what is kept, the start, and one byte on. The implementing type is a
/// name for the rule, and no value of it is made.
pub trait StepRule {
    /// What a hasher keeps: a word, or a word and a count beside it.
    type State;

    /// What a default hasher keeps.
    ///
    /// Proved:
    ///
    /// ```text
    /// result ≡ start
    /// ```
    fn start() -> Self::State;

    /// The same state once more.
    ///
    /// Proved:
    ///
    /// ```text
    /// result ≡ state.now
    /// ```
    fn fork(state: &Self::State) -> Self::State;

    /// One byte on.
    ///
    /// Proved:
    ///
    /// ```text
    /// stepped: number state.new ≡ step (number state.old) byte
    /// in_range: number state.new < bound
    /// ```
    fn step(state: &mut Self::State, byte: u8);
}

/// The second part of a rule with a step per byte: how a text is taken in, and what is answered.
pub trait ByteRule: StepRule {
    /// The bytes in: mostly [`in_eights`](crate::hash_laws::rules::in_eights) of the rule.
    ///
    /// Proved:
    ///
    /// ```text
    /// state.new ≡ write state.old bytes.now
    /// ```
    fn write(state: &mut Self::State, bytes: &[u8]);

    /// The answer.
    ///
    /// Proved:
    ///
    /// ```text
    /// result ≡ answer (Self.number state.now)
    /// ```
    fn answer(state: &Self::State) -> u64;

    /// The answer to a whole text: of the start and one `write`, if the rule has no shorter way.
    ///
    /// Proved:
    ///
    /// ```text
    /// result ≡ answer (after (Self.number Self.start) text.now)
    /// ```
    #[inline(always)]
    fn whole(text: &[u8]) -> u64 {
        let mut state = Self::start();
        Self::write(&mut state, text);
        Self::answer(&state)
    }
}

/// The third part, of a rule whose steps lose nothing: one byte back, and the answer's inverse.
pub trait UndoRule: ByteRule {
    /// One byte back.
    ///
    /// Proved:
    ///
    /// ```text
    /// back: Self.step (Self.number state.new) byte ≡ Self.number state.old
    /// in_range: Self.number state.new < Self.bound
    /// ```
    fn unstep(state: &mut Self::State, byte: u8);

    /// The one state that answers so, or `None` exactly where the answer is not below the bound.
    ///
    /// Proved:
    ///
    /// ```text
    /// exact: IsSome result ↔ (hash < Self.bound)
    /// some: IfSome result (λ s. Self.answer (Self.number s) ≡ hash)
    /// in_range: IfSome result (λ s. Self.number s < Self.bound)
    /// none: IfNone result ((s : ℕ) → s < Self.bound → Self.answer s ≢ hash)
    /// ```
    fn unanswer(hash: u64) -> Option<Self::State>;
}
