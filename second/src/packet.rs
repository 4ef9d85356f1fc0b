//! Document 01, "Packets": where a page's packet has its parts, and the page reader.

use crate::model::{Network, Row, PAGE};
use crate::refusal::Refusal;

/// The parts of a packet as offsets from the start of its page.
#[derive(Clone, Copy, Debug, PartialEq, Eq)]
pub struct Layout {
    /// SID, DID and the COUNT byte or bytes: 3, or 4 of a long packet.
    header: usize,
    /// COUNT, where the data begins.
    data: usize,
    /// 256, or 512 of a long packet.
    end: usize,
}

impl Layout {
    pub fn long(self) -> bool {
        self.end > PAGE
    }
}

/// A packet under way.
pub struct Packet {
    layout: Layout,
    header: Vec<u8>,
    data: Vec<u8>,
}

impl Packet {
    pub fn long(&self) -> bool {
        self.layout.long()
    }
}

impl Row {
    /// The layout of the packet in a page, or None where it is malformed.
    pub fn layout(&self, page: u8) -> Option<Layout> {
        let base = PAGE * usize::from(page);
        match (self.ram[base + 2], self.ram[base + 3]) {
            (count @ 3..=255, _) => Some(Layout {
                header: 3,
                data: usize::from(count),
                end: PAGE,
            }),
            (0, count @ 4..=255) if self.long_packets && page.is_multiple_of(2) => Some(Layout {
                header: 4,
                data: usize::from(count),
                end: 2 * PAGE,
            }),
            _ => None,
        }
    }

    pub fn did(&self, page: u8) -> u8 {
        self.ram[PAGE * usize::from(page) + 1]
    }

    /// The data of the packet in a page, or None where it is malformed.
    pub fn page_data(&self, page: u8) -> Option<&[u8]> {
        let base = PAGE * usize::from(page);
        self.layout(page)
            .map(|layout| &self.ram[base + layout.data..base + layout.end])
    }

    /// The packet in a page as it goes, the row's own ID first written at byte 0 of the page.
    pub fn send(&mut self, page: u8, layout: Layout) -> Packet {
        let base = PAGE * usize::from(page);
        self.ram[base] = self.node_id;
        Packet {
            layout,
            header: self.ram[base..base + layout.header].to_vec(),
            data: self.ram[base + layout.data..base + layout.end].to_vec(),
        }
    }

    /// Lays a packet down at the same offsets of a page; the gap is untouched.
    pub fn lay_down(&mut self, page: u8, packet: &Packet) {
        let base = PAGE * usize::from(page);
        let Layout { header, data, end } = packet.layout;
        self.ram[base..base + header].copy_from_slice(&packet.header);
        self.ram[base + data..base + end].copy_from_slice(&packet.data);
    }
}

impl Network {
    /// The page reader. Only the row's present long-packets byte and the page decide what is
    /// malformed; TA, RI, DID and being awake are not asked.
    pub fn data(&self, row: u32, page: u32) -> Result<&[u8], Refusal> {
        let row = &self.rows[self.index(row)?];
        let page = u8::try_from(page)
            .ok()
            .filter(|page| *page <= 3)
            .ok_or(Refusal::Value)?;
        row.page_data(page).ok_or(Refusal::Value)
    }
}
