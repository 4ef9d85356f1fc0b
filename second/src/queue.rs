//! Request C-11, "Two packets queued": the Enables that wait in a card, the oldest first, and the
//! completions that no Clear has taken yet. A card without chaining has room for one Enable, and
//! counts no completions. And request C-16: the NAKs to an Enable, which are gone when it is.

/// Completions that are kept until they are cleared.
pub const MOST_UNCLEARED: u8 = 2;

/// NAKs to one Enable that are counted; so many set EXCNAK.
pub const MOST_NAKS: u8 = 128;

/// An Enable that waits.
#[derive(Clone, Copy, Debug, PartialEq, Eq)]
pub struct Enabled {
    pub page: u8,
    /// Only of a receive.
    pub broadcasts: bool,
    pub cancel_asked: bool,
    /// Only of a transmit that was tried, so of the oldest.
    pub naks: u8,
}

impl Enabled {
    fn without_naks(self) -> Enabled {
        Enabled { naks: 0, ..self }
    }
}

/// The Enables that wait in one direction: a second only behind an oldest.
#[derive(Clone, Copy, Debug, Default, PartialEq, Eq)]
pub struct Queue {
    oldest: Option<Enabled>,
    second: Option<Enabled>,
}

impl Queue {
    /// A second with nothing before it moves up.
    pub fn of(oldest: Option<Enabled>, second: Option<Enabled>) -> Queue {
        match oldest {
            Some(_) => Queue { oldest, second },
            None => Queue {
                oldest: second,
                second: None,
            },
        }
    }

    pub fn oldest(&self) -> Option<Enabled> {
        self.oldest
    }

    pub fn second(&self) -> Option<Enabled> {
        self.second
    }

    pub fn waiting(&self) -> impl Iterator<Item = Enabled> {
        self.oldest.into_iter().chain(self.second)
    }

    pub fn is_empty(&self) -> bool {
        self.oldest.is_none()
    }

    /// Whether the same Enables wait, however many NAKs came to them.
    pub fn waits_as(&self, other: &Queue) -> bool {
        let enables = |queue: &Queue| queue.waiting().map(Enabled::without_naks);
        enables(self).eq(enables(other))
    }

    /// What is left once the cancels that are asked have taken effect.
    pub fn without_cancelled(&self) -> Queue {
        let stays = |enabled: &Enabled| !enabled.cancel_asked;
        Queue::of(self.oldest.filter(stays), self.second.filter(stays))
    }

    /// Asks a cancel of the oldest that is not yet asked to go.
    fn cancel(&mut self) {
        let mut waiting = self.oldest.iter_mut().chain(&mut self.second);
        if let Some(enabled) = waiting.find(|enabled| !enabled.cancel_asked) {
            enabled.cancel_asked = true;
        }
    }
}

/// One direction of a card: its transmits, or its receives.
#[derive(Clone, Copy, Debug, Default, PartialEq, Eq)]
pub struct Side {
    pub queue: Queue,
    /// Completions that no Clear has taken yet, 0 to 2.
    pub uncleared: u8,
}

impl Side {
    /// TA, or RI: nothing waits.
    pub fn idle(&self) -> bool {
        self.queue.is_empty()
    }

    /// TTA, or TRI: a completion is not yet cleared.
    pub fn completed(&self) -> bool {
        self.uncleared > 0
    }

    /// Whether no Enable more is taken.
    pub fn full(&self, chaining: bool) -> bool {
        if chaining {
            self.queue.second.is_some()
        } else {
            !self.idle()
        }
    }

    /// An Enable, which waits behind what already waits.
    pub fn enable(&mut self, page: u8, broadcasts: bool) {
        let enabled = Some(Enabled {
            page,
            broadcasts,
            cancel_asked: false,
            naks: 0,
        });
        self.queue = match self.queue.oldest {
            None => Queue::of(enabled, None),
            oldest => Queue::of(oldest, enabled),
        };
    }

    /// A Disable.
    pub fn disable(&mut self) {
        self.queue.cancel();
    }

    pub fn cancels_take_effect(&mut self) {
        self.queue = self.queue.without_cancelled();
    }

    /// NAKs to the oldest.
    pub fn naks(&self) -> u8 {
        self.queue.oldest.map_or(0, |oldest| oldest.naks)
    }

    /// A NAK more to the oldest.
    pub fn nak(&mut self) {
        if let Some(oldest) = &mut self.queue.oldest {
            oldest.naks = MOST_NAKS.min(oldest.naks + 1);
        }
    }

    /// The count begins anew.
    pub fn forget_naks(&mut self) {
        self.queue.oldest = self.queue.oldest.map(Enabled::without_naks);
    }

    /// The oldest ends, its cancel mark with it, and the second moves up as it is.
    pub fn complete(&mut self, chaining: bool) {
        self.queue = Queue::of(None, self.queue.second);
        if chaining {
            self.uncleared = MOST_UNCLEARED.min(self.uncleared + 1);
        }
    }

    /// A Clear takes the oldest completion.
    pub fn clear(&mut self) {
        self.uncleared = self.uncleared.saturating_sub(1);
    }
}
