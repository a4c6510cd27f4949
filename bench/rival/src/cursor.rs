//! The counts of an accepted image in their order, one page in hand.

use crate::code::Code;
use crate::image::{Image, LARGEST_PAGE};
use core::marker::PhantomData;

pub struct Cursor<'a, C> {
    image: &'a Image<'a>,
    counts: [u32; LARGEST_PAGE],
    /// The place of the next count in the page, and how many there are.
    at: usize,
    end: usize,
    hour: usize,
    code: PhantomData<C>,
}

impl<'a, C: Code> Cursor<'a, C> {
    pub fn new(image: &'a Image<'a>) -> Self {
        Cursor {
            image,
            counts: [0; LARGEST_PAGE],
            at: 0,
            end: 0,
            hour: 0,
            code: PhantomData,
        }
    }

    /// The next count; it is asked for as often as the image has hours at most.
    #[inline(always)]
    pub fn next(&mut self) -> u64 {
        if self.at == self.end {
            self.end = self.image.read_page::<C>(self.hour, &mut self.counts);
            self.at = 0;
        }
        self.taken()
    }

    /// The same of a cursor that goes behind another: where that one has the
    /// page in hand, it is copied.
    #[inline(always)]
    pub fn next_behind(&mut self, lead: &Self) -> u64 {
        if self.at == self.end && lead.hour - lead.at == self.hour {
            self.counts = lead.counts;
            (self.at, self.end) = (0, lead.end);
        }
        self.next()
    }

    /// The page in hand, from the next count on; it is passed over.
    #[inline(always)]
    pub fn page(&mut self) -> &[u32] {
        self.end = self.image.read_page::<C>(self.hour, &mut self.counts);
        let hours = self.end.min(self.image.hours - self.hour);
        self.hour += self.end;
        &self.counts[..hours]
    }

    #[inline(always)]
    fn taken(&mut self) -> u64 {
        let count = self.counts[self.at];
        self.at += 1;
        self.hour += 1;
        count.into()
    }
}
