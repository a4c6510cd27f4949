//! The frozen image.

use crate::code::{digits, Code, Found, MOST_COUNT};
use crate::fields::{all_zero, four, get, put, put_four};
use crate::header::{page_size_allowed, Header, MOST_HOURS, MOST_TOTAL};
use crate::refused::{word, BODY, BUFFER, FIGURE, HEADER, HOUR, LIST, PAGE_SIZE, TOTAL};

pub(crate) const LARGEST_PAGE: usize = 256;

/// Where the counts of a new image come from.
pub(crate) trait Source {
    fn hours(&self) -> usize;

    fn total(&self) -> u64;

    /// Calls `each` with every page's counts, the last one filled with zeros.
    fn each_page(&self, e: u32, each: impl FnMut(&[u32]));
}

impl Source for [u32] {
    fn hours(&self) -> usize {
        self.len()
    }

    fn total(&self) -> u64 {
        sum(self)
    }

    fn each_page(&self, e: u32, mut each: impl FnMut(&[u32])) {
        let pages = self.chunks_exact(1 << e);
        let rest = pages.remainder();
        pages.for_each(&mut each);
        if !rest.is_empty() {
            let mut last = [0; LARGEST_PAGE];
            last[..rest.len()].copy_from_slice(rest);
            each(&last[..1 << e]);
        }
    }
}

fn sum(counts: &[u32]) -> u64 {
    counts.iter().map(|&count| u64::from(count)).sum()
}

/// The header of the counts' image.
fn measured<C: Code>(counts: &(impl Source + ?Sized), e: u32) -> Result<Header, i64> {
    if !page_size_allowed(e) {
        return Err(PAGE_SIZE);
    }
    let hours = counts.hours();
    if hours > MOST_HOURS {
        return Err(LIST);
    }
    let total = counts.total();
    if total > MOST_TOTAL {
        return Err(TOTAL);
    }
    let root = digits(total) as usize;
    let mut code_bits = 0;
    counts.each_page(e, |page| code_bits += root + C::reserve(e, sum(page)));
    Ok(Header {
        e,
        hours,
        total,
        code_bits,
    })
}

pub fn length<C: Code>(counts: &[u32], e: u32) -> i64 {
    word(measured::<C>(counts, e).map(|header| header.image_bytes() as i64))
}

pub fn write<C: Code>(counts: &[u32], e: u32, out: &mut [u8]) -> i64 {
    write_from::<C>(counts, e, out)
}

pub(crate) fn write_from<C: Code>(counts: &(impl Source + ?Sized), e: u32, out: &mut [u8]) -> i64 {
    let header = match measured::<C>(counts, e) {
        Ok(header) => header,
        Err(refusal) => return refusal,
    };
    let bytes = header.image_bytes();
    if out.len() < bytes {
        return BUFFER;
    }
    write_measured::<C>(counts, &header, &mut out[..bytes]);
    bytes as i64
}

fn write_measured<C: Code>(counts: &(impl Source + ?Sized), header: &Header, image: &mut [u8]) {
    image.fill(0);
    header.write(image);
    let (table, code) = image[header.bytes()..].split_at_mut(header.table_bytes());
    let mut starts = table.chunks_exact_mut(4);
    let width = digits(header.total);
    let (mut at, mut root) = (0, 0);
    counts.each_page(header.e, |page| {
        let start = starts.next().expect("one entry a page");
        put_four(start, 0, at as u64);
        let s = sum(page);
        root += s;
        if width > 0 {
            put(code, at, width, root);
        }
        at += width as usize;
        C::write(code, at, page, s);
        at += C::reserve(header.e, s);
    });
}

/// An image that refusal 5 let pass.
pub(crate) struct Image<'a> {
    e: u32,
    pub hours: usize,
    total: u64,
    code_bits: usize,
    starts: &'a [u8],
    code: &'a [u8],
}

/// A page: the first bit of its tree, the root before it, its sum.
struct Page {
    at: usize,
    before: u64,
    sum: u64,
}

impl<'a> Image<'a> {
    #[inline(always)]
    fn open(bytes: &'a [u8]) -> Result<Image<'a>, i64> {
        let header = Header::read(bytes).ok_or(HEADER)?;
        let (starts, code) = bytes[header.bytes()..].split_at(header.table_bytes());
        Ok(Image {
            e: header.e,
            hours: header.hours,
            total: header.total,
            code_bits: header.code_bits,
            starts,
            code,
        })
    }

    fn pages(&self) -> usize {
        self.starts.len() / 4
    }

    fn width(&self) -> usize {
        digits(self.total) as usize
    }

    /// Where a page starts, and its cumulative sum; refused if it passes L or
    /// is above S.
    #[inline(always)]
    fn root(&self, page: usize) -> Result<(usize, u64), i64> {
        let start = four(self.starts, 4 * page) as usize;
        if start + self.width() > self.code_bits {
            return Err(BODY);
        }
        let root = get(self.code, start, self.width() as u32);
        if root > self.total {
            return Err(BODY);
        }
        Ok((start, root))
    }

    #[inline(always)]
    fn page<C: Code>(&self, page: usize) -> Result<Page, i64> {
        let (start, root) = self.root(page)?;
        let before = match page {
            0 => 0,
            _ => self.root(page - 1)?.1,
        };
        let at = start + self.width();
        if root < before || at + C::reserve(self.e, root - before) > self.code_bits {
            return Err(BODY);
        }
        let sum = root - before;
        Ok(Page { at, before, sum })
    }

    /// The count of an hour below N, and the sum before it.
    #[inline(always)]
    fn look<C: Code>(&self, hour: usize) -> Result<Found, i64> {
        let page = self.page::<C>(hour >> self.e)?;
        let j = hour as u32 & ((1 << self.e) - 1);
        let found = C::walk(self.code, page.at, self.e, page.sum, j).ok_or(BODY)?;
        if found.count > MOST_COUNT {
            return Err(BODY);
        }
        Ok(Found {
            before: page.before + found.before,
            count: found.count,
        })
    }

    /// Whether these are the writer's bytes.
    fn is_exact<C: Code>(&self) -> bool {
        let (mut at, mut before) = (0, 0);
        for p in 0..self.pages() {
            match self.exact_page::<C>(p, at, before) {
                Some(root) => {
                    at += self.width() + C::reserve(self.e, root - before);
                    before = root;
                }
                None => return false,
            }
        }
        at == self.code_bits
            && before == self.total
            && all_zero(self.code, self.code_bits, 8 * self.code.len())
            && self.rest_is_zero::<C>()
    }

    /// A page that stands where it should and is exact: its root.
    #[inline(always)]
    fn exact_page<C: Code>(&self, p: usize, at: usize, before: u64) -> Option<u64> {
        let (start, root) = self.root(p).ok()?;
        let tree = at + self.width();
        let exact = start == at
            && root >= before
            && tree + C::reserve(self.e, root - before) <= self.code_bits
            && C::is_exact(self.code, tree, self.e, root - before);
        exact.then_some(root)
    }

    /// Hours from N on are zero: the reading at N is already the total.
    fn rest_is_zero<C: Code>(&self) -> bool {
        self.hours == 0
            || self
                .look::<C>(self.hours - 1)
                .is_ok_and(|found| found.before + found.count == self.total)
    }

    pub fn page_hours(&self) -> usize {
        1 << self.e
    }

    /// The coins of the page at an hour of an accepted image.
    pub fn page_sum<C: Code>(&self, hour: usize) -> u64 {
        let page = self.page::<C>(hour >> self.e);
        page.expect("an accepted image").sum
    }

    /// The counts of the page at an hour of an accepted image.
    #[inline(always)]
    pub fn read_page<C: Code>(&self, hour: usize, counts: &mut [u32; LARGEST_PAGE]) -> usize {
        let page = self.page::<C>(hour >> self.e).expect("an accepted image");
        C::read(self.code, page.at, page.sum, &mut counts[..1 << self.e]);
        1 << self.e
    }

    /// All counts of an accepted image.
    pub fn counts<C: Code>(&self) -> Vec<u32> {
        let mut counts = vec![0; self.pages() << self.e];
        for (p, part) in counts.chunks_exact_mut(1 << self.e).enumerate() {
            let page = self.page::<C>(p).expect("an accepted image");
            C::read(self.code, page.at, page.sum, part);
        }
        counts.truncate(self.hours);
        counts
    }

    /// The first page whose root is the figure or more, 1 ≤ figure ≤ S.
    #[inline(always)]
    fn page_of<C: Code>(&self, figure: u64) -> Result<usize, i64> {
        let root = |page| self.root(page).map(|(_, root)| root);
        let last = self.pages().checked_sub(1).ok_or(BODY)?;
        if root(last)? < figure {
            return Err(BODY);
        }
        C::page_of(self.pages(), self.total, figure, root)
    }

    #[inline(always)]
    fn reach<C: Code>(&self, figure: u64) -> Result<i64, i64> {
        if figure > self.total {
            return Err(FIGURE);
        }
        if figure == 0 {
            return Ok(0);
        }
        let p = self.page_of::<C>(figure)?;
        let page = self.page::<C>(p)?;
        let within = figure.checked_sub(page.before).filter(|&within| within > 0);
        let within = within.ok_or(BODY)?;
        let j = C::seek(self.code, page.at, self.e, page.sum, within).ok_or(BODY)?;
        let hour = (p << self.e) + j as usize + 1;
        if hour > self.hours {
            return Err(BODY);
        }
        Ok(hour as i64)
    }
}

/// An image that the full check accepts.
pub(crate) fn accepted<C: Code>(bytes: &[u8]) -> Result<Image<'_>, i64> {
    let image = Image::open(bytes)?;
    match image.is_exact::<C>() {
        true => Ok(image),
        false => Err(BODY),
    }
}

pub fn check<C: Code>(bytes: &[u8]) -> i64 {
    word(accepted::<C>(bytes).map(|image| image.total as i64 + ((image.hours as i64) << 40)))
}

pub fn count<C: Code>(bytes: &[u8], hour: u32) -> i64 {
    word(Image::open(bytes).and_then(|image| {
        if hour as usize >= image.hours {
            return Err(HOUR);
        }
        Ok(image.look::<C>(hour as usize)?.count as i64)
    }))
}

pub fn reading<C: Code>(bytes: &[u8], hour: u32) -> i64 {
    word(Image::open(bytes).and_then(|image| {
        if hour as usize > image.hours {
            return Err(HOUR);
        }
        if hour == 0 {
            return Ok(0);
        }
        let found = image.look::<C>(hour as usize - 1)?;
        Ok((found.before + found.count) as i64)
    }))
}

pub fn reach<C: Code>(bytes: &[u8], figure: u64) -> i64 {
    word(Image::open(bytes).and_then(|image| image.reach::<C>(figure)))
}
