// Beside the published simulation.rs.

impl ComponentId<'_> {
    pub const fn part(self) -> usize {
        self.index
    }
}

impl<'sim, 'a, E, L> Simulator<'sim, 'a, E, L> {
    pub fn next_part(&self) -> Option<usize> {
        self.next_tick
    }

    pub fn parts(&self) -> usize {
        self.components.len()
    }

    pub fn queued(&self, part: usize) -> Option<Time> {
        self.tick_queue.waiting.get(part).copied()
    }

    /// The part as the type that it was inserted with. The simulator keeps its parts without their
    /// types, and they borrow, so `Any` can't give the types back.
    ///
    /// # Safety
    /// `C` must be the type of the component that was inserted as this part.
    pub unsafe fn part<C>(&self, part: usize) -> &C
    where
        C: Component<'sim, E> + 'a,
    {
        let erased = &*self.components[part];
        assert_eq!(size_of_val(erased), size_of::<AssertWrapper<C>>());
        let erased: *const (dyn Component<'sim, E, Receive = E> + 'a) = erased;
        // SAFETY: the builder wraps each component that it is given in `AssertWrapper`.
        unsafe { &(*erased.cast::<AssertWrapper<C>>()).0 }
    }
}
